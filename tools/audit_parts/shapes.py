"""Values of a recording, which may have any shape, as the shape that is looked for."""
import datetime
import math
import re

MOMENT = re.compile(
    r'(\d{4})-(\d\d)-(\d\d)[Tt ](\d\d):(\d\d):(\d\d)(\.\d+)?\s*([Zz]|[+-]\d\d:?\d\d)?', re.ASCII)
EPOCH = datetime.datetime(1970, 1, 1)
LAST_SECOND = 253_402_300_799


def member(value, *names):
    """The member of an object's member, and so on, or None."""
    for name in names:
        value = value.get(name) if isinstance(value, dict) else None
    return value


def text(value):
    """A text without halves of characters, or an empty one."""
    if not isinstance(value, str):
        return ''
    return value if value.isascii() else value.encode('utf-8', 'replace').decode('utf-8')


def items(value):
    """The objects in a list."""
    return [it for it in value if isinstance(it, dict)] if isinstance(value, list) else []


def number(value):
    """A finite number, or 0."""
    is_number = isinstance(value, (int, float)) and not isinstance(value, bool)
    return value if is_number and math.isfinite(value) else 0


def moment(value):
    """The second since 1970 of a time as HAR writes it, or None."""
    found = MOMENT.match(text(value))
    if not found:
        return None
    try:
        whole = datetime.datetime(*map(int, found.group(1, 2, 3, 4, 5, 6)))
    except ValueError:
        return None
    seconds = (whole - EPOCH).total_seconds() - offset(found[8])
    return in_range(seconds + float(found[7] or 0))


def in_range(seconds):
    """A moment that the program's clock can have, or None."""
    return seconds if 0 <= seconds <= LAST_SECOND else None


def offset(zone):
    """The seconds by which a zone is before UTC."""
    if not zone or zone in 'Zz':
        return 0
    minutes = int(zone[1:3]) * 60 + int(zone[-2:])
    return -60 * minutes if zone[0] == '-' else 60 * minutes


class Headers:
    """Header fields by name in lower case, each with its values in order."""

    def __init__(self, pairs):
        self.values = {}
        for name, value in pairs:
            self.values.setdefault(name.lower(), []).append(value)

    @classmethod
    def of_list(cls, value):
        """Of a list of objects with name and value, as in a HAR."""
        return cls((text(it.get('name')), text(it.get('value'))) for it in items(value))

    @classmethod
    def of_object(cls, value):
        """Of one object, as in the events of Chromium."""
        return cls((text(name), text(it)) for name, it in (value.items() if isinstance(value, dict) else ()))

    def __contains__(self, name):
        return name in self.values

    def all(self, name):
        """The values of a field."""
        return self.values.get(name, [])

    def first(self, name):
        """The first value of a field, or an empty text."""
        return self.values.get(name, [''])[0]

    def cookies(self):
        """What the Cookie headers say, or None where there are none."""
        return '; '.join(self.values['cookie']) if self.values.get('cookie') else None

    def set_cookies(self):
        """The Set-Cookie texts, which may stand in one value with a line each."""
        return tuple(line for value in self.all('set-cookie') for line in value.split('\n'))

    def allows_credentials(self):
        """Whether an answer allows credentials to another origin."""
        return 'true' in (value.strip() for value in self.all('access-control-allow-credentials'))
