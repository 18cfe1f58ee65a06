"""Wrong programs that no proof refuses, each of which a check here has to see: as scripts around the program, and as
programs that take another course at a call of the system."""
import os
import tempfile
from errno import EINTR, EIO

from . import failing, places
from .rooms import Report, Room

NAMES_STORE = '''
first=$1 number=0 before= count=$#
while [ $number -lt $count ]; do
    word=$1; number=$((number + 1)); shift
    if [ "$before" = --store ] || { [ "$first" = dump ] && [ $number = 3 ]; }; then store=$word; %s; fi
    before=$word
    set -- "$@" "$word"
done
exec "$P" "$@"'''
NAMES_LIST = '''
command=$1 list=$2
case $command in replay | dump) shift 2; %s; exec "$P" "$command" "$list" "$@";; esac
exec "$P" "$@"'''

SCRIPTS = [
    ('always ends with 0', '"$P" "$@"\nexit 0', [places.words]),
    ('passes over its first word', 'shift\nexec "$P" "$@"', [places.words]),
    ('passes over a word in front', '[ "$1" = x ] && shift\nexec "$P" "$@"', [places.words]),
    ('tells faults on standard output', 'exec "$P" "$@" 2>&1', [places.words]),
    ('takes words that are no UTF-8 for want of memory',
     'printf %s "$*" | iconv -f UTF-8 -t UTF-8 > /dev/null 2>&1 || { echo no memory >&2; exit 9; }\nexec "$P" "$@"',
     [places.words]),
    ('cuts a store short at its opening', NAMES_STORE % '[ -f "$store" ] && : > "$store"', [places.refused, places.paths]),
    ('takes another path for the store', NAMES_STORE % 'word=$store.other', [places.paths]),
    ('takes another path for the list', NAMES_LIST % 'list=/dev/null', [places.words, places.paths]),
    ('takes a list that is not there for an empty one', NAMES_LIST % '[ -e "$list" ] || list=/dev/null', [places.words]),
    ('makes no store where none is', NAMES_STORE % '[ -e "$store" ] || { echo read fault >&2; exit 6; }', [places.paths]),
]


def where(name, part, kinds, deed):
    """Another course at a call, where a deed of these kinds comes."""
    def lie(call, found):
        if call.name == name and call.part == part and (found[0] if found else None) in kinds:
            return deed(call) if callable(deed) else deed
        return found
    return lie


class ShortIsTheEnd:
    """A read that gave less than was asked for is taken for the last one."""

    def __init__(self):
        self.ended = False

    def __call__(self, call, found):
        if call.name == 'read' and call.part == 'script' and self.ended:
            return ('hidden', 0)
        self.ended = self.ended or bool(found) and found[0] == 'short'
        return found


def interrupted(_, found):
    return ('fails', EIO) if found == ('fails', EINTR) else found


def of(part, *names):
    return lambda call: call.part == part and call.name in names


def over_new(*names, part='store', share=1):
    return lambda report, room: failing.faults(report, room, room.replay(), 'a new store', share, of(part, *names))


def over_old(*names):
    def check(report, room):
        room.true(room.replay())
        room.keep()
        failing.faults(report, room, room.replay(), 'a store again', 1, of('store', *names))
    return check


def in_memory(part, name):
    return lambda report, room: failing.faults(report, room, room.replay(False), 'in memory', 1, of(part, name))


FAILED = ('fails',)
LIES = [
    ('a sync does nothing', lambda: where('fsync', 'store', (None,), ('hidden', 0)), failing.orders),
    ('the folder of a new store is not synced', lambda: where('fsync', 'folder', (None,), ('hidden', 0)), failing.orders),
    ('a store is not locked', lambda: where('flock', 'store', (None,), ('hidden', 0)), failing.orders),
    ('a length that failed is told as 0', lambda: where('fstat', 'store', FAILED, ('empty',)), over_old('fstat')),
    ('a sync that failed is told as done', lambda: where('fsync', 'store', FAILED, ('answers', 0)), over_new('fsync', share=9)),
    ('a write that failed is told as done', lambda: where('pwrite', 'store', FAILED, lambda call: ('answers', call.count)),
     over_new('pwrite', share=13)),
    ('a short write is told as a whole one', lambda: where('pwrite', 'store', ('short',), ('cut', 1)),
     over_new('pwrite', share=13)),
    ('a list that failed ends there', lambda: where('read', 'list', FAILED, ('answers', 0)), in_memory('list', 'read')),
    ('a script that failed ends there', lambda: where('read', 'script', FAILED, ('answers', 0)), in_memory('script', 'read')),
    ('a short read is the last one', ShortIsTheEnd, in_memory('script', 'read')),
    ('an interrupted call is a fault', lambda: interrupted, in_memory('script', 'read')),
    ('output that failed is told as written', lambda: where('write', 'output', FAILED, lambda call: ('answers', call.count)),
     in_memory('output', 'write')),
]


def self_test(program):
    """Which wrong programs are not seen, and where the program itself is taken for one."""
    missed = []
    right = {}
    with tempfile.TemporaryDirectory() as folder:
        for name, lines, checks in SCRIPTS:
            path = os.path.join(folder, 'program')
            with open(path, 'w', encoding='utf-8') as file:
                file.write(f'#!/bin/sh\nP="{program}"\n{lines}\n')
            os.chmod(path, 0o755)
            missed += tried(name, path, program, checks, None, right)
        for name, lie, check in LIES:
            missed += tried(name, program, program, [check], lie(), right)
    return missed


def tried(name, wrong, program, checks, lie, right):
    """Whether a check sees a wrong program, by what it does not say of the program itself."""
    for check in checks:
        if check not in right:
            right[check] = looked_at(program, [check], None)
    own = [text for check in checks for text in right[check]]
    found = [text for text in looked_at(wrong, checks, lie) if text not in own]
    print(f'{"seen" if found else "NOT SEEN"}: {name}' + f' ({found[0]})' * bool(found), flush=True)
    return [f'not seen: {name}'] * (not found) + [f'the program itself: {text}' for text in own]


def looked_at(program, checks, lie):
    report = Report(tells=False)
    for check in checks:
        check(report, Room(program, 2, lie))
    return [text for _, text in report.wrong]
