"""Entries of a HAR: what is kept of each, under 1 KB mostly."""
import re
import sys
import urllib.parse

from . import shapes

REDIRECTS = (301, 302, 303, 307, 308)


class Entry:
    """What is read of one entry."""

    __slots__ = ('at', 'number', 'url', 'method', 'page', 'kind', 'dest', 'mode', 'site', 'access', 'referrer',
                 'initiator', 'is_parsed', 'is_html', 'takes_html', 'allows', 'is_preflight', 'is_cached', 'is_served',
                 'is_by_worker', 'is_blank', 'is_unsent', 'is_ahead', 'redirect', 'cookies', 'set_cookies', 'answered', 'partition', 'agent',
                 'has_cookies')


def read_entry(value, number):
    """An entry, or None where it has no address, method or moment."""
    request, response = shapes.member(value, 'request'), shapes.member(value, 'response')
    at = shapes.moment(shapes.member(value, 'startedDateTime'))
    url, method = shapes.text(shapes.member(request, 'url')), shapes.text(shapes.member(request, 'method'))
    if at is None or not url or not method:
        return None
    entry = Entry()
    entry.at, entry.number, entry.url, entry.method = at, number, url, sys.intern(method)
    entry.page = sys.intern(shapes.text(value.get('pageref')))
    entry.kind = sys.intern(shapes.text(value.get('_resourceType')))
    initiator = value.get('_initiator')
    entry.initiator = shapes.text(shapes.member(initiator, 'url'))
    entry.is_parsed = shapes.member(initiator, 'type') == 'parser'
    entry.is_cached = bool(value.get('_fromCache'))
    entry.is_served = bool(value.get('serverIPAddress'))
    entry.is_by_worker = bool(shapes.member(response, '_fetchedViaServiceWorker'))
    asked = shapes.Headers.of_list(shapes.member(request, 'headers'))
    answered = shapes.Headers.of_list(shapes.member(response, 'headers'))
    read_request(entry, asked)
    read_answer(entry, response, answered)
    lists = [shapes.items(shapes.member(it, 'cookies')) for it in (request, response)]
    entry.has_cookies = any(lists) or 'cookie' in asked or 'set-cookie' in answered
    entry.partition = partition_of(lists[1])
    wait = max(0, shapes.number(value.get('time')) - max(0, shapes.number(shapes.member(value, 'timings', 'receive'))))
    entry.answered = at + wait / 1000
    status = shapes.number(shapes.member(response, 'status'))
    # Developer tools show a request's headers before they know what was sent: then these do not stand among them.
    entry.is_unsent = bool(asked.values) and not entry.agent and not entry.site and entry.cookies is None
    entry.is_blank = not status and not answered.values and not entry.site and entry.cookies is None
    return entry


def read_request(entry, headers):
    """What the headers of the request say."""
    entry.dest, entry.mode, entry.site, entry.access = (
        sys.intern(headers.first(f'sec-fetch-{name}')) for name in ('dest', 'mode', 'site', 'storage-access'))
    entry.referrer = sys.intern(headers.first('referer'))
    entry.is_ahead = any(headers.first(name).startswith('prefetch') for name in ('sec-purpose', 'purpose'))
    entry.takes_html = headers.first('accept').startswith('text/html')
    entry.is_preflight = entry.kind == 'preflight' or (
        entry.method == 'OPTIONS' and 'access-control-request-method' in headers)
    entry.agent = sys.intern(headers.first('user-agent'))
    entry.cookies = headers.cookies()


def read_answer(entry, response, headers):
    """What the response says."""
    entry.is_html = headers.first('content-type').startswith('text/html')
    entry.allows, entry.set_cookies = headers.allows_credentials(), headers.set_cookies()
    target = shapes.text(shapes.member(response, 'redirectURL'))
    is_redirect = target and shapes.member(response, 'status') in REDIRECTS
    entry.redirect = joined(entry.url, target) if is_redirect else ''


def joined(base, target):
    """The address that a Location header names."""
    try:
        return urllib.parse.urljoin(base, target)
    except ValueError:
        return target


def partition_of(cookies):
    """The partition key that the browser names with a cookie of the answer, or None."""
    for cookie in cookies:
        key = partition_key(cookie.get('partitionKey'))
        if key:
            return key
    return None


def partition_key(value):
    """A partition key as Chromium writes it: the top-level site, and whether a frame above is cross-site."""
    site = shapes.text(shapes.member(value, 'topLevelSite'))
    return (sys.intern(site), bool(shapes.member(value, 'hasCrossSiteAncestor'))) if site else None


# A comma that divides cookies, and does not stand in a date.
FOLDED_COOKIE = re.compile(r', (?=[^;,\s=]+=)')
FOLDED_SET_COOKIE = re.compile(r',\s*(?=[^;,\s=]+\s*=)')


def unfold(entry):
    """Divides headers that a proxy joined with commas; the codes of what was divided."""
    found = []
    if any(FOLDED_SET_COOKIE.search(value) for value in entry.set_cookies):
        found.append('set-cookie-was-folded')
        entry.set_cookies = tuple(
            part for value in entry.set_cookies for part in FOLDED_SET_COOKIE.split(value))
    if entry.cookies and FOLDED_COOKIE.search(entry.cookies):
        found.append('cookie-header-was-folded')
        entry.cookies = FOLDED_COOKIE.sub('; ', entry.cookies)
    return found
