"""JSON files of any size, read value by value in one pass.

What stands in memory is one block, or the value that is being read where that is longer.
"""
import codecs
import json

from .faults import READ, RECORDING, Fault

BLOCK = 1 << 20
SPACE = ' \t\r\n'
# A text may be cut off within a word or an escape, which the decoder tells at the place where it begins.
LONGEST_CUT = 16


class NotJson(Exception):
    """The bytes are no JSON at this offset."""

    def __init__(self, offset):
        super().__init__(offset)
        self.offset = offset


class CutOff(Exception):
    """The file ends within a value."""


class Reader:
    """A file that is one JSON value, with what is inside taken one by one."""

    def __init__(self, file, block=BLOCK):
        self.file = file
        self.block = block
        self.bytes = codecs.getincrementaldecoder('utf-8')()
        self.decode = json.JSONDecoder().raw_decode
        self.text, self.at = '', 0
        self.dropped, self.taken, self.ended = 0, 0, False
        if self.peek(required=False) == '\ufeff':
            self.at += 1

    def grow(self, size):
        """Takes more of the file, and lets go what was read."""
        gone, self.text = self.text[:self.at], self.text[self.at:]
        self.dropped += size_of(gone)
        self.at = 0
        more = self.file.read(size)
        self.ended = not more
        try:
            self.text += self.bytes.decode(more, final=self.ended)
        except UnicodeDecodeError as error:
            raise NotJson(self.taken - len(self.bytes.getstate()[0]) + error.start) from None
        self.taken += len(more)

    def offset(self, at):
        """The offset in bytes of a place in the text."""
        return self.dropped + size_of(self.text[:at])

    def peek(self, required=True):
        """The next character that is no white space, which is not taken."""
        while True:
            while self.at < len(self.text) and self.text[self.at] in SPACE:
                self.at += 1
            if self.at < len(self.text):
                return self.text[self.at]
            if self.ended:
                if required:
                    raise CutOff
                return ''
            self.grow(self.block)

    def expect(self, wanted):
        """Takes one of these characters."""
        found = self.peek()
        if found not in wanted:
            raise NotJson(self.offset(self.at))
        self.at += 1
        return found

    def value(self):
        """Takes the next value, whatever it is."""
        self.peek()
        size = self.block
        while True:
            try:
                value, end = self.decode(self.text, self.at)
            except json.JSONDecodeError as error:
                if not self.may_go_on(error):
                    raise NotJson(self.offset(error.pos)) from None
                if self.ended:
                    raise CutOff from None
            except (ValueError, RecursionError):
                raise NotJson(self.offset(self.at)) from None
            else:
                if end < len(self.text) or self.ended:
                    self.at = end
                    return value
            self.grow(size)
            size *= 2

    def may_go_on(self, error):
        """Whether more of the file could mend the fault."""
        return error.msg.startswith('Unterminated string') or error.pos >= len(self.text) - LONGEST_CUT

    def members(self):
        """The names of an object's members; the caller takes each one's value."""
        self.expect('{')
        if self.peek() == '}':
            self.at += 1
            return
        while True:
            if self.peek() != '"':
                raise NotJson(self.offset(self.at))
            name = self.value()
            self.expect(':')
            yield name
            if self.expect(',}') == '}':
                return

    def items(self):
        """The values of a list."""
        self.expect('[')
        if self.peek() == ']':
            self.at += 1
            return
        while True:
            yield self.value()
            if self.expect(',]') == ']':
                return

    def end(self):
        """Nothing but white space is left."""
        if self.peek(required=False):
            raise NotJson(self.offset(self.at))


def size_of(text):
    """How many bytes a text takes in UTF-8."""
    return len(text) if text.isascii() else len(text.encode('utf-8', 'surrogatepass'))


def open_file(path):
    """A file's bytes."""
    try:
        return open(path, 'rb')
    except OSError as error:
        raise Fault(READ, f'{path}: {error.strerror}') from None


def har_values(path, about):
    """The entries of a HAR, one by one. What it tells of its maker is put into `about`."""
    count = 0
    with open_file(path) as file:
        try:
            reader = Reader(file)
            for entry in entries(reader, about):
                count += 1
                yield entry
            reader.end()
        except CutOff:
            raise fault_of_cut(path, count) from None
        except NotJson as error:
            raise Fault(RECORDING, f'{path}: not json at {error.offset}') from None
        except OSError as error:
            raise Fault(READ, f'{path}: {error.strerror}') from None
    if not count:
        raise Fault(RECORDING, f'{path}: no entries')


def entries(reader, about, is_whole=True):
    """The entries of a log, which is the file's member `log` or the whole file."""
    for name in reader.members():
        if is_whole and name == 'log' and reader.peek() == '{':
            yield from entries(reader, about, is_whole=False)
        elif name == 'entries' and reader.peek() == '[':
            yield from reader.items()
        elif name in ('creator', 'browser'):
            about[name] = reader.value()
        else:
            reader.value()


def fault_of_cut(path, count):
    """The file ends too early; one without a single character is no JSON at all."""
    with open_file(path) as file:
        if not file.read(BLOCK).strip(b'\xef\xbb\xbf \t\r\n'):
            return Fault(RECORDING, f'{path}: not json at 0')
    return Fault(RECORDING, f'{path}: cut off after entry {count}')


def line_values(path):
    """The values of a file with one JSON value a line."""
    count, offset = 0, 0
    with open_file(path) as file:
        for line in file:
            text = line.lstrip(b'\xef\xbb\xbf') if not offset else line
            if text.strip():
                try:
                    value = json.loads(text)
                except json.JSONDecodeError as error:
                    if not line.endswith(b'\n'):
                        raise Fault(RECORDING, f'{path}: cut off after entry {count}') from None
                    at = offset + len(line) - len(text) + size_of(text.decode('utf-8', 'replace')[:error.pos])
                    raise Fault(RECORDING, f'{path}: not json at {at}') from None
                except (ValueError, RecursionError):
                    raise Fault(RECORDING, f'{path}: not json at {offset}') from None
                count += 1
                yield value
            offset += len(line)
