"""The public suffix list, and the domain and the site of an address under it.

The program reads the list by its own rules, which are proved. This reader only has to agree with it on hosts of
recordings: it decides which requests overlap, and in which partition the browser's cookies stood.
"""
from . import addresses
from .faults import READ, Fault


class Suffixes:
    """The rules of a public suffix list."""

    def __init__(self, text):
        self.rules = set()
        self.domains = {}
        for line in text.splitlines():
            rule = line.split()[0] if line.split() else ''
            if rule and not rule.startswith('//'):
                self.rules.add(rule_in_ascii(rule))

    @classmethod
    def read(cls, path):
        """The rules of a file."""
        try:
            with open(path, encoding='utf-8', errors='replace') as file:
                return cls(file.read())
        except OSError as error:
            raise Fault(READ, f'{path}: {error.strerror}') from None

    def domain(self, host):
        """The registrable domain of a host, or the host itself where it has none."""
        if host not in self.domains:
            self.domains[host] = host if addresses.is_ip(host) else self.registrable(host)
        return self.domains[host]

    def registrable(self, host):
        """The public suffix and one label more."""
        labels = host.split('.')
        suffix = 1
        for count in range(len(labels), 0, -1):
            name = '.'.join(labels[-count:])
            if '!' + name in self.rules:
                suffix = count - 1
                break
            wildcard = '.'.join(['*', *labels[len(labels) - count + 1:]])
            if name in self.rules or (count > 1 and wildcard in self.rules):
                suffix = max(suffix, count)
        return '.'.join(labels[-suffix - 1:])

    def domain_of(self, url):
        """The domain of an address."""
        return self.domain(addresses.host_of(url))

    def site_of(self, url):
        """The site of an address: scheme and domain."""
        found = addresses.parts(url)
        return f'{found[0]}://{self.domain(found[1])}' if found else ''


def rule_in_ascii(rule):
    """A rule whose labels are written as in the host of an address."""
    mark = '!' if rule.startswith('!') else ''
    labels = rule[len(mark):].lower().split('.')
    return mark + '.'.join(label if label.isascii() else 'xn--' + label.encode('punycode').decode('ascii')
                           for label in labels)
