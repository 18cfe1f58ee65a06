"""Recordings that may be passed on: other values of cookies, and addresses without queries."""
import string

from . import addresses, cookies

DIGITS = string.ascii_lowercase + string.digits


class Redaction:
    """Replaces each value of a cookie by a token of equal length, equal values by equal tokens."""

    def __init__(self):
        self.tokens = {}
        self.counts = {}

    def token(self, value):
        """The token of a value: the number of its first appearance, in as many letters."""
        if value not in self.tokens:
            length = len(value.encode('utf-8'))
            number = self.counts.get(length, 0)
            self.counts[length] = number + 1
            letters = []
            for _ in range(length):
                number, digit = divmod(number, len(DIGITS))
                letters.append(DIGITS[digit])
            self.tokens[value] = ''.join(reversed(letters))
        return self.tokens[value]

    def pair(self, pair):
        """A `name=value` with the value's token."""
        name, equals, value = pair.rpartition('=') if '=' not in pair else pair.partition('=')
        blank = value[:len(value) - len(value.lstrip(' \t'))]
        value = value.strip(' \t')
        has_controls = any(ord(it) < 32 or ord(it) == 127 for it in value)
        return pair if has_controls else name + equals + blank + self.token(value)

    def text(self, text):
        """A Set-Cookie text."""
        pair, semicolon, rest = text.partition(';')
        return self.pair(pair) + semicolon + rest

    def line(self, line):
        """A line of the script."""
        line = dict(line)
        if 'url' in line:
            line['url'] = addresses.cut(line['url'])
        if 'head' in line:
            line['head'] = [[name, self.text(text)] for name, text in line['head']]
        return line

    def item(self, item):
        """What the map says of a line."""
        if not item.get('sent'):
            return item
        return {**item, 'sent': '; '.join(self.pair(it) for it in cookies.sent_pairs(item['sent']))}
