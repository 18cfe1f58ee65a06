"""A folder with a list, a script and a store, in which the program is run; and what was found there."""
import contextlib
import json
import os
import signal
import subprocess
import tempfile

from .lines import LIST, OPTIONS, Wanted, lines_of, script_of
from .tracing import Ended, Traced

# The seconds that a run has, and the status of one that takes longer.
LIMIT, NEVER = 300, 'no end'
FAULT_LINES = {0: b'', 6: b'read fault\n', 7: b'write fault\n', 8: b'device fault\n', 9: b'no memory\n'}
IN_USE = b'store: in use\n'


class Report:
    """What was looked at, and what was not as it has to be."""

    def __init__(self, tells=True):
        self.tells = tells
        self.runs, self.wrong, self.notes = {}, [], []

    def hold(self, part, what, wrong):
        """Counts a run, and notes what is wrong with it, if anything."""
        self.runs[part] = self.runs.get(part, 0) + 1
        if wrong:
            self.wrong.append((part, f'{part}: {what}: {wrong}'))
            if self.tells:
                print(self.wrong[-1][1], flush=True)

    def tell(self):
        for text in self.notes:
            print(text)
        for part, runs in self.runs.items():
            print(f'{part}: {runs} runs, {sum(of == part for of, _ in self.wrong)} wrong')


class TakesTooLong(Exception):
    """A run that does not end."""


@contextlib.contextmanager
def limited():
    def stop(*_):
        raise TakesTooLong
    before = signal.signal(signal.SIGALRM, stop)
    signal.alarm(LIMIT)
    try:
        yield
    finally:
        signal.alarm(0)
        signal.signal(signal.SIGALRM, before)


class Room:
    """The folder. `lie` says how a wrong program differs at a call: it is given the call and what is to happen."""

    def __init__(self, program, epochs, lie=None):
        # It goes with this.
        self.held = tempfile.TemporaryDirectory()
        self.program, self.folder, self.lie = program, self.held.name, lie
        self.list, self.script, self.store = (os.path.join(self.folder, name) for name in ('list', 'script', 'store'))
        self.write(self.list, LIST)
        self.lines = lines_of(epochs)
        self.write(self.script, script_of(self.lines))
        self.store_before = None

    @staticmethod
    def write(path, text):
        with open(path, 'w', encoding='utf-8') as file:
            file.write(text)

    def replay(self, store=True):
        return ['replay', self.list, *(['--store', self.store] if store else []), *OPTIONS]

    def put_back(self):
        """Puts the store there as it was before a run."""
        with contextlib.suppress(FileNotFoundError):
            os.remove(self.store)
        if self.store_before is not None:
            with open(self.store, 'wb') as file:
                file.write(self.store_before)

    def keep(self):
        self.store_before = self.bytes()

    def bytes(self):
        with contextlib.suppress(FileNotFoundError), open(self.store, 'rb') as file:
            return file.read()
        return None

    def traced(self, words, act=None, **how):
        """A traced run."""
        parts = {self.list: 'list', self.store: 'store', self.folder: 'folder', '/': 'root'}
        deed = (lambda call, number: self.lie(call, act(call, number) if act else None)) if self.lie else act
        with contextlib.suppress(TakesTooLong), limited():
            return Traced([self.program, *words], how.pop('given', self.script), parts, deed, **how).run(self.folder)
        return Ended(NEVER, b'', b'', [], True)

    def run(self, words, given=b'', **how):
        """A run that is not traced."""
        told = [self.program, *words]
        try:
            return subprocess.run(told, input=given, capture_output=True, timeout=LIMIT, check=False, **how)
        except subprocess.TimeoutExpired:
            return subprocess.CompletedProcess(told, NEVER, b'', b'')

    def rows(self):
        """The rows of the store, or what is wrong with it."""
        dump = self.run(['dump', self.list, self.store])
        if dump.returncode != 0:
            return None, f'the store does not open again: {dump.returncode}, {dump.stderr.decode().strip()}'
        return [json.loads(row) for row in dump.stdout.splitlines()], None

    def true(self, words):
        """The run where nothing fails, and what it wants of others."""
        self.put_back()
        ended = self.traced(words)
        return ended, Wanted(self.lines, ended.out), self.bytes()

    def is_kept(self, wanted, ended):
        """What is wrong with the store behind a run."""
        if not os.path.exists(self.store):
            return 'acknowledged changes, and no store' if wanted.acknowledged(ended.out, ended.status) else None
        rows, wrong = self.rows()
        return wrong or wanted.kept(ended.out, ended.status, rows)


def ends(ended, statuses):
    """What is wrong with a status and its line."""
    if ended.status not in statuses:
        return f'ends with {ended.status}, and not {" or ".join(map(str, sorted(statuses)))}; prints {ended.err[-300:]!r}'
    if FAULT_LINES.get(ended.status, ended.err) != ended.err and (ended.status, ended.err) != (6, IN_USE):
        return f'ends with {ended.status} and tells {ended.err!r}'
    return None
