"""Recordings as HAR files: of Chromium's and Firefox's developer tools, of proxies, and of drivers of browsers.

A HAR names no frames. Which document made a request is read off its initiator, its Referer and the documents that
were loaded in the tab before.
"""
import itertools
import os

from . import addresses, har_entries, shapes, streams
from .faults import RECORDING, Fault
from .requests import FRAME, RESOURCE, TOP, Request, is_to_other_origin, is_uncredentialed, starts_by_page

FRAMES = ('iframe', 'frame', 'fencedframe')
# Where one of many tabs or documents is looked for, so many of the latest are looked at.
LATEST = 64


class Tab:
    """The documents of a tab: each with its address and the one above it."""

    def __init__(self):
        self.clear()

    def clear(self):
        """All documents are gone."""
        self.documents, self.makers = {}, {}
        self.at_url, self.at_page, self.at_origin = {}, {}, {}

    def load(self, name, url):
        """A new top document."""
        self.clear()
        self.add(name, url, None)

    def add(self, name, url, parent):
        """A document below another, or at the top."""
        self.documents[name] = url, parent
        for index, key in ((self.at_url, url), (self.at_page, addresses.without_fragment(url)),
                           (self.at_origin, addresses.origin_of(url))):
            index.setdefault(key, []).append(name)

    def origins(self, name):
        """The origins of the document and those above it."""
        found = []
        while name is not None:
            url, name = self.documents[name]
            found.append(addresses.origin_of(url))
        return found

    def owner(self, entry):
        """The document that made a request, and whether no other could have."""
        found = self.at_url.get(entry.initiator) or self.at_page.get(entry.referrer)
        if found:
            return found[-1], self.are_alike(found)
        maker = self.makers.get(entry.initiator) or self.makers.get(entry.referrer)
        if maker:
            return maker, True
        found = entry.referrer and self.at_origin.get(addresses.origin_of(entry.referrer))
        if found:
            return found[-1], self.are_alike(found)
        return next(iter(self.documents)), not entry.referrer and bool(entry.page)

    def are_alike(self, names):
        """Whether it makes no difference which of some documents made a request; the latest ones are asked."""
        return len({tuple(self.origins(name)) for name in names[-LATEST:]}) == 1


class File:
    """A HAR, whose entries are turned into requests in the order of their moments."""

    def __init__(self, path, number, recording, allow_no_cookies):
        self.name = os.path.basename(path)
        self.number = number
        self.recording = recording
        self.about = {}
        self.entries = self.read(path)
        self.maker = shapes.text(shapes.member(self.about, 'creator', 'name'))
        self.is_bare = not any(entry.page for entry in self.entries) and self.maker not in ('WebInspector', 'Firefox')
        self.has_pages = not self.is_bare and self.maker not in ('WebInspector', 'Firefox')
        # The one that was used last stands last.
        self.tabs = {}
        self.redirected = {}
        self.frames = 0
        if self.entries and not any(entry.has_cookies for entry in self.entries):
            if not allow_no_cookies:
                raise Fault(RECORDING, f'{path}: no-cookies-in-file')
            self.lose('no-cookies-in-file', None)

    def read(self, path):
        """The entries that can be read, in the order of their moments."""
        entries = []
        for number, value in enumerate(streams.har_values(path, self.about), 1):
            entry = har_entries.read_entry(value, number)
            if entry:
                entries.append(entry)
            else:
                self.recording.lose('bad-entry', f'{self.name}#{number}')
        entries.sort(key=lambda entry: entry.at)
        return entries

    def lose(self, code, entry):
        """Notes a code of an entry, or of the whole file."""
        self.recording.lose(code, f'{self.name}#{entry.number}' if entry else self.name)

    def requests(self):
        """The requests of the file; its entries are let go."""
        self.entries.reverse()
        while self.entries:
            entry = self.entries.pop()
            code = self.code_of_none(entry)
            if code:
                self.lose(code, entry)
                continue
            self.recording.met(entry.agent)
            for code in har_entries.unfold(entry) if self.is_bare else ():
                self.lose(code, entry)
            request = self.request(entry)
            if request:
                yield request

    def code_of_none(self, entry):
        """Why an entry is no request that was sent with cookies, or None."""
        if not addresses.is_web(entry.url):
            return 'not-http'
        is_kept_by_firefox = self.maker == 'Firefox' and not entry.is_served
        if entry.is_cached or is_kept_by_firefox or (entry.is_by_worker and not entry.site):
            return 'from-cache-or-worker'
        if entry.is_preflight:
            return 'preflight'
        if entry.is_blank or (entry.is_unsent and self.maker == 'WebInspector'):
            return 'headers-unknown'
        if self.is_bare and entry.site == 'none' and entry.mode not in ('', 'navigate'):
            return 'background'
        return addresses.fault_of(entry.url)

    def request(self, entry):
        """The request of an entry, or None where it has no document."""
        is_top = self.is_top(entry)
        tab = self.tab_of(entry, is_top)
        request = Request(TOP if is_top else RESOURCE, entry.at, tab, entry.url, entry.method,
                          f'{self.name}#{entry.number}')
        request.sent, request.access, request.partition = entry.cookies, entry.access, entry.partition
        request.site, request.referrer = entry.site, entry.referrer
        request.redirects = bool(entry.redirect)
        if entry.set_cookies:
            request.set_cookies, request.answered = entry.set_cookies, entry.answered
        documents = self.tabs.pop(tab, None) or Tab()
        self.tabs[tab] = documents
        if entry.redirect:
            self.redirected[entry.redirect] = tab
        if is_top:
            if entry.referrer and self.is_plain_load(entry):
                self.lose('document-guessed', entry)
            request.frame = tab
            request.by_page = starts_by_page(entry.site, entry.referrer)
            if not request.redirects:
                documents.load(tab, entry.url)
            return request
        if not documents.documents:
            self.lose('before-any-document', entry)
            return None
        return self.below(entry, request, documents)

    def below(self, entry, request, documents):
        """The request of a frame or of a document in the tab, or None where it has no credentials."""
        if entry.is_ahead:
            self.lose('loaded-ahead', entry)
        owner, is_sure = documents.owner(entry)
        if not is_sure:
            self.lose('document-guessed', entry)
        url = documents.documents[owner][0]
        if entry.dest in FRAMES or (entry.kind == 'document' and not entry.dest) or self.is_plain_load(entry):
            self.frames += 1
            request.kind, request.parent = FRAME, owner
            request.frame = f'{self.number}/{self.frames}'
            if not request.redirects:
                documents.add(request.frame, entry.url, owner)
            return request
        if entry.dest in ('style', 'script'):
            documents.makers[entry.url] = owner
        if is_uncredentialed(request, url, entry.mode, entry.allows):
            self.lose('uncredentialed', entry)
            return None
        request.frame = owner
        request.credentials_unknown = is_to_other_origin(request, url, entry.mode)
        return request

    def is_top(self, entry):
        """Whether an entry is the load of a tab's top document."""
        if entry.is_ahead:
            return False
        if entry.dest:
            return entry.dest == 'document'
        if entry.kind:
            return entry.kind == 'document' and not entry.is_parsed
        return self.is_plain_load(entry) and self.is_by_own_site(entry)

    def is_plain_load(self, entry):
        """Whether an entry without `Sec-Fetch-` headers, as over http, loads a document."""
        is_unmarked = not entry.dest and not entry.mode and not entry.kind
        return is_unmarked and entry.is_html and (entry.takes_html or not entry.referrer)

    def is_by_own_site(self, entry):
        """Whether such a load is the user's or a link's of its own origin, and not a frame's."""
        return not entry.referrer or addresses.origin_of(entry.referrer) == addresses.origin_of(entry.url)

    def tab_of(self, entry, is_top):
        """The tab of an entry: the file's one, its page's, or one by who refers."""
        if self.has_pages:
            return f'{self.number}:{entry.page}'
        if not self.is_bare:
            return f'{self.number}'
        before = self.redirected.pop(entry.url, None)
        tab = before or self.referring_tab(entry, is_top)
        if not tab:
            tab = f'{self.number}:{len(self.tabs) + 1}'
            self.lose('tab-guessed', entry)
        return tab

    def referring_tab(self, entry, is_top):
        """The tab that was used last of those with a document that refers to the entry, or None."""
        order = list(itertools.islice(reversed(self.tabs), LATEST))
        origin = addresses.origin_of(entry.referrer)
        if not is_top:
            for name in order:
                if entry.referrer in self.tabs[name].at_page:
                    return name
        for name in order:
            if origin and origin in self.tabs[name].at_origin:
                return name
        return None if is_top else next(iter(order), None)
