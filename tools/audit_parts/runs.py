"""An imported recording, and runs of the program over its script."""
import json
import subprocess

from .faults import READ, RECORDING, Fault
from .output import compact


class Step:
    """A line of the script, what it came from, and the program's reply."""

    __slots__ = ('number', 'line', 'item', 'reply')

    def __init__(self, number, line, item):
        self.number, self.line, self.item, self.reply = number, line, item, {}

    @property
    def kind(self):
        """What the line is for."""
        return self.item['kind']

    @property
    def texts(self):
        """The Set-Cookie texts of the line."""
        return [value for _, value in self.line.get('head', [])]


class Import:
    """OUT.script and OUT.map."""

    def __init__(self, out):
        lines = list(read_lines(out + '.script'))
        head, *items = read_lines(out + '.map')
        self.out, self.head = out, head
        self.losses = [item for item in items if 'lost' in item]
        items = [item for item in items if 'line' in item]
        if 'audit' not in head or len(items) != len(lines):
            raise Fault(RECORDING, f'{out}.map: not the map of {out}.script')
        self.steps = [Step(number, line, item) for number, (line, item) in enumerate(zip(lines, items), 1)]

    @property
    def start(self):
        """The second at which the clock begins."""
        return self.head['start']


def read_lines(path):
    """The JSON objects of a file, one a line."""
    try:
        with open(path, encoding='utf-8') as file:
            for number, line in enumerate(file, 1):
                value = json.loads(line)
                if not isinstance(value, dict):
                    raise ValueError
                yield value
    except OSError as error:
        raise Fault(READ, f'{path}: {error.strerror}') from None
    except ValueError:
        raise Fault(RECORDING, f'{path}: line {number} is no object') from None


class Program:
    """The program that runs scripts, under a suffix list."""

    def __init__(self, path, suffix_list):
        self.path, self.list = path, suffix_list

    def call(self, words, text):
        """What the program prints. It tells of its faults, and of a build before it, by itself."""
        try:
            done = subprocess.run([self.path, *words], input=text, stdout=subprocess.PIPE, encoding='utf-8', check=False)
        except OSError as error:
            raise Fault(READ, f'{self.path}: {error.strerror}') from None
        if done.returncode:
            raise Fault(done.returncode if done.returncode > 0 else 128 - done.returncode, None)
        return done.stdout

    def replay(self, lines, start):
        """The reply to each line."""
        script = ''.join(compact(line) + '\n' for line in lines)
        printed = self.call(['replay', self.list, '--start', str(start)], script)
        return [json.loads(line) for line in printed.split('\n')[:-1]]

    def twin(self, site, one, two, start):
        """The answer to two scripts, as lists of lines."""
        text = ''.join(line + '\n' for line in [*one, '===', *two])
        return json.loads(self.call(['twin', site, self.list, '--start', str(start)], text))


def replayed(out, program):
    """An imported recording with the replies to its lines."""
    imported = Import(out)
    replies = program.replay([step.line for step in imported.steps], imported.start)
    if len(replies) != len(imported.steps):
        raise Fault(RECORDING, f'{out}.script: {len(replies)} replies to {len(imported.steps)} lines')
    for step, reply in zip(imported.steps, replies):
        step.reply = reply
    return imported
