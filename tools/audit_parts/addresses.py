"""Addresses of the web as recordings have them."""
import functools
import ipaddress
import re
import urllib.parse

LONGEST = 8192
DEFAULT_PORTS = {'http': '80', 'https': '443'}
PARTS = re.compile(
    r'(?P<scheme>https?|wss?)://(?:(?P<user>[^/?#\\@]*)@)?'
    r'(?P<host>\[[^][/?#\\@]*\]|[^][/?#\\@:]*)(?::(?P<port>[0-9]*))?(?=[/?#]|\Z)',
    re.ASCII | re.IGNORECASE,
)
# What a URL is written with; each byte of another character takes three.
WRITTEN = "!#$%&'()*+,-./:;=?@[]_~"


def is_web(url):
    """Whether the address has a scheme that is requested over http or a web socket."""
    return url[:8].lower().startswith(('http://', 'https://', 'ws://', 'wss://'))


def as_http(url):
    """The address, with the scheme of http where it is a web socket's."""
    return 'http' + url[2:] if url[:2].lower() == 'ws' else url


@functools.lru_cache(maxsize=4096)
def parts(url):
    """Scheme, host and port of an address, in lower case and without a default port, or None."""
    found = PARTS.match(as_http(url))
    if not found:
        return None
    scheme = found['scheme'].lower()
    host = ascii_host(found['host'])
    port = (found['port'] or '').lstrip('0')
    return scheme, host, '' if port == DEFAULT_PORTS[scheme] else port


def ascii_host(host):
    """The host in lower case, in ASCII where it has a form in it."""
    if host.isascii():
        return host.lower()
    try:
        return host.encode('idna').decode('ascii').lower()
    except UnicodeError:
        return ''


def host_of(url):
    """The host of an address, or an empty text."""
    found = parts(url)
    return found[1] if found else ''


def origin_of(url):
    """Scheme, host and port of an address as one text."""
    found = parts(url)
    if not found:
        return ''
    scheme, host, port = found
    return f'{scheme}://{host}:{port}' if port else f'{scheme}://{host}'


def is_ip(host):
    """Whether a host is an IP address, as browsers write one."""
    try:
        ipaddress.ip_address(host[1:-1] if host.startswith('[') else host)
    except ValueError:
        return False
    return True


def fault_of(url):
    """The code of loss of an address that the program does not take, or None."""
    if len(urllib.parse.quote(as_http(url), safe=WRITTEN, errors='replace')) > LONGEST:
        return 'url-too-long'
    found = parts(url)
    if not found or not found[1]:
        return 'bad-url'
    _, host, port = found
    if host.endswith('.'):
        return 'host-ends-with-dot'
    if port and int(port) > 65535:
        return 'bad-url'
    return None if is_ip(host) or is_name(host) else 'bad-url'


def is_name(host):
    """Whether a host is a name: its last label is no number, and no label is empty."""
    labels = host.split('.')
    last_is_number = re.fullmatch(r'[0-9]+|0x[0-9a-f]*', labels[-1])
    return bool(re.fullmatch(r'[a-z0-9_.-]+', host)) and all(labels) and not last_is_number


def without_fragment(url):
    """The address up to its fragment, as a Referer has it."""
    return url.partition('#')[0]


def cut(url):
    """The address without user, query and fragment."""
    url = re.split('[?#]', url, maxsplit=1)[0]
    return re.sub(r'\A([A-Za-z]+://)[^/]*@', r'\1', url)
