"""Each growth of memory refused in turn."""
from errno import ENOMEM

from .failing import picked
from .rooms import ends

# Of glibc: each allocation is asked of the system, so that each can be refused.
EACH_ALONE = {'GLIBC_TUNABLES': 'glibc.malloc.mmap_threshold=1:glibc.malloc.mmap_max=100000000:glibc.malloc.top_pad=0'}
SANITIZER = b'__asan_init'


class Refusal:
    """Refuses the growth of this number, from 0, and those directly behind it: they are tries of the same allocation.
    With `all` it refuses every later one, too."""

    def __init__(self, number, every):
        self.number, self.every, self.growths, self.refuses, self.before = number, every, 0, False, None

    def __call__(self, call, at):
        if call.part != 'memory':
            return None
        self.growths += 1
        goes_on = self.refuses and (self.every or self.before == at - 1)
        if self.growths - 1 == self.number or goes_on:
            self.refuses, self.before = True, at
            return ('fails', ENOMEM)
        return None


def refusals(report, room, store, share):
    """Each allocation of a run refused, alone and with all behind it."""
    name = f'memory, {"over a file" if store else "in memory"}'
    with open(room.program, 'rb') as file:
        if SANITIZER in file.read():
            report.notes.append(f'{name}: NOT RUN: a sanitizer in the program ends it where memory is refused')
            return
    words = room.replay(store)
    true, wanted, _ = room.true(words)
    room.put_back()
    growths = sum(call.part == 'memory' for call in room.traced(words, memory=True, environment=EACH_ALONE).calls)
    report.notes.append(f'{name}: {growths} growths of memory')
    report.hold(name, 'nothing is refused', None if growths else 'asks for no memory')
    cases = [(number, every) for number in range(growths) for every in (False, True)]
    for number, every in picked(cases, share):
        room.put_back()
        ended = room.traced(words, Refusal(number, every), memory=True, environment=EACH_ALONE)
        wrong = ends(ended, {0, 9}) or wanted.printed(ended.out, ended.status)
        if not wrong and ended.status == 0 and ended.out != true.out:
            wrong = 'ends with 0 and prints something else'
        report.hold(name, f'growth {number}{" and all behind it" * every}', wrong or (
            room.is_kept(wanted, ended) if store else None))
