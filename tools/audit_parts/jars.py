"""Files of cookies: of `Storage.getCookies`, of `storage.getCookies`, and the storage state of Playwright."""
import datetime
import json

from . import addresses, cookies, har_entries, shapes
from .faults import READ, RECORDING, Fault


class Jar:
    """The cookies of a browser, by name and value."""

    def __init__(self, values, suffixes):
        self.suffixes = suffixes
        self.cookies = {}
        for value in values:
            name, text = shapes.text(value.get('name')), value_of(value.get('value'))
            self.cookies.setdefault(f'{name}={text}' if name else text, []).append(value)

    @classmethod
    def read(cls, path, suffixes):
        """The cookies of a file."""
        try:
            with open(path, encoding='utf-8-sig') as file:
                value = json.load(file)
        except OSError as error:
            raise Fault(READ, f'{path}: {error.strerror}') from None
        except json.JSONDecodeError as error:
            raise Fault(RECORDING, f'{path}: not json at {error.pos}') from None
        except (ValueError, RecursionError):
            raise Fault(RECORDING, f'{path}: not json at 0') from None
        if isinstance(value, dict):
            value = value.get('cookies')
        if not isinstance(value, list):
            raise Fault(RECORDING, f'{path}: no cookies')
        return cls(shapes.items(value), suffixes)

    def text(self, url, pair, cell):
        """The Set-Cookie text that makes a cookie of the jar, or None where it has none that the address gets."""
        for value in self.cookies.get(pair, []):
            domain = shapes.text(value.get('domain'))
            key = har_entries.partition_key(value.get('partitionKey'))
            is_in_cell = key == cell if 'partitionKey' in value else True
            if is_in_cell and is_of(addresses.host_of(url), domain):
                return set_cookie(pair, value, domain, bool(key) or (bool(cell) and 'partitionKey' not in value))
        return None


def value_of(value):
    """A cookie's value, which BiDi wraps."""
    return shapes.text(value if isinstance(value, str) else shapes.member(value, 'value'))


def is_of(host, domain):
    """Whether a cookie of this domain is sent to the host."""
    name = domain.lower().lstrip('.')
    return host == name or (domain.startswith('.') and host.endswith('.' + name))


def set_cookie(pair, value, domain, is_partitioned):
    """A cookie as a Set-Cookie text."""
    parts = [pair]
    if domain.startswith('.'):
        parts.append(f'Domain={domain[1:]}')
    parts.append(f'Path={shapes.text(value.get("path")) or "/"}')
    expires = shapes.in_range(shapes.number(value.get('expires', value.get('expiry'))))
    if expires:
        moment = datetime.datetime(1970, 1, 1) + datetime.timedelta(seconds=int(expires))
        parts.append(moment.strftime('Expires=%a, %d %b %Y %H:%M:%S GMT'))
    site = shapes.text(value.get('sameSite')).capitalize()
    if site in ('None', 'Lax', 'Strict'):
        parts.append(f'SameSite={site}')
    for flag, name in (('secure', 'Secure'), ('httpOnly', 'HttpOnly')):
        if value.get(flag) is True:
            parts.append(name)
    if is_partitioned:
        parts.append('Partitioned')
    return '; '.join(parts)
