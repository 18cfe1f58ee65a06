"""The word `twin`: whether two scripts give a site the same local script, and which lines first differ in that.

The program tells the number of the first entry that differs, but not which line gives it. That is found by questions
to it, by halves: the first lines of a script, compared with these and one line more that gives the site an entry, differ
at the number of entries that they give.
"""
from .checking import shown
from .conversion import LAST_TAB
from .faults import READ, Fault
from .output import compact
from .runs import Import, Program

DIFFER = 1


def run(words):
    """Prints the answer; status 1 where the local scripts differ."""
    program = Program(words.program, words.list)
    one, two = (Import(out) for out in words.outs)
    scripts = [read(out + '.script') for out in words.outs]
    answer = program.twin(words.site, *scripts, one.start)
    if answer['twin'] == 'equal':
        print(f'{shown(words.site)}: both give the same local script, and {answer["equal"]} reply lines')
        return 0
    entry = answer['differ']
    print(f'{shown(words.site)}: the local scripts first differ at entry {entry}')
    for imported, script in zip((one, two), scripts):
        print(told(imported, script, giver(program, words.site, script, entry, one.start)))
    return DIFFER


def read(path):
    """The lines of a script, as they stand."""
    try:
        with open(path, encoding='utf-8') as file:
            return file.read().split('\n')[:-1]
    except OSError as error:
        raise Fault(READ, f'{path}: {error.strerror}') from None


def giver(program, site, script, entry, start):
    """How many lines of a script it takes to give the site this entry; one more than there are where none does."""
    low, high = 0, len(script) + 1
    while low < high:
        middle = (low + high) // 2
        if middle > len(script) or entries(program, site, script[:middle], start) > entry:
            high = middle
        else:
            low = middle + 1
    return low


def entries(program, site, script, start):
    """How many entries some lines give the site: one line more that gives it one makes that place differ."""
    more = compact({'do': 'open', 'tab': LAST_TAB, 'url': site + '/'})
    return program.twin(site, script, [*script, more], start)['differ']


def told(imported, script, line):
    """A line of a script with its place and its source."""
    if line > len(script):
        return f'{imported.out}.script: ends before it'
    item = imported.steps[line - 1].item
    source = f', from {shown(item["from"])}' if 'from' in item else ''
    return f'{imported.out}.script line {line}{source}: {shown(script[line - 1])}'
