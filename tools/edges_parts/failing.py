"""Each call of the system that a run makes, failing, short, interrupted or the last one, one after another."""
import re
from errno import EACCES, EAGAIN, EINTR, EIO, EMFILE, ENOSPC, EPIPE

from .rooms import ends
from .lines import whole_lines

FAILS = {'openat': [EIO, EACCES, EMFILE], 'flock': [EAGAIN, EIO], 'fstat': [EIO], 'read': [EIO], 'pread': [EIO],
         'pwrite': [EIO, ENOSPC], 'fsync': [EIO, ENOSPC], 'write': [EIO, ENOSPC, EPIPE]}
GIVES_NOTHING = {'pread', 'pwrite', 'write'}
INTERRUPTED = {'read', 'pread', 'pwrite', 'write', 'fsync', 'openat'}
CAN_BE_SHORT = {'read', 'pread', 'pwrite', 'write'}
# The changing calls of an opening, a commit, a checkpoint and a restart, as docs/STORE.md has them: S syncs, W writes.
ASKED = r'S(WSWSWS|WSWS)?(WSWS|WWSWSWS|S)*'


def asked(calls):
    """What a run asks of the store's file, a letter a call."""
    return ''.join({'fsync': 'S', 'fdatasync': 'S', 'pwrite': 'W'}.get(call.name, '') for call in calls
                   if call.part == 'store')


def unsynced(calls):
    """The first write of replies before which a write of the store was not synced."""
    waits = False
    for number, call in enumerate(calls):
        if call.part == 'store' and call.name in ('pwrite', 'write'):
            waits = True
        elif call.part == 'store' and call.name in ('fsync', 'fdatasync') and call.result == 0:
            waits = False
        elif call.part == 'output' and waits:
            return f'call {number} prints replies, and a write of the store before it is not synced'
    return None


def orders(report, room):
    """What the program asks of the system where nothing fails: the locks, and each sync behind its write."""
    ended, _, _ = room.true(room.replay())
    report.hold('syncs', 'the order of writes and syncs', None if re.fullmatch(ASKED, asked(ended.calls))
                else f'asks {asked(ended.calls)}')
    report.hold('syncs', 'replies behind syncs', unsynced(ended.calls))
    names = [(call.name, call.part) for call in ended.calls]
    report.hold('syncs', 'the lock of a store', None if ('flock', 'store') in names else 'asks for no lock')
    report.hold('syncs', 'the folder of a new store', None if ('fsync', 'folder') in names else 'does not sync it')


def stages(calls):
    """Of each call the statuses with which a run may end where it fails."""
    locks = any(call.name == 'flock' for call in calls)
    opened, asked_length = False, not locks
    for call in calls:
        if call.part in ('root', 'list', 'script', 'folder') or call.name in ('openat', 'flock'):
            yield {6}
        elif call.part == 'output':
            yield {7}
        elif call.name == 'fstat' and not asked_length:
            asked_length = True
            yield {6}
        else:
            opened = opened or call.name == 'pwrite' and call.offset > 128
            yield {0, 8} if opened else {8}


def deeds(call):
    """What can happen to a call: what it is called, what it is, and whether it is a fault."""
    for number in FAILS.get(call.name, []):
        yield f'fails by errno {number}', ('fails', number), True
    if call.name in GIVES_NOTHING and call.count and call.result:
        yield 'does nothing', ('answers', 0), True
    if call.name in INTERRUPTED:
        yield 'is interrupted', ('fails', EINTR), False
    if call.name in CAN_BE_SHORT and call.result > 1:
        yield 'is short', ('short', 1), False
        yield 'is half', ('short', call.result // 2), False


def at(number, deed):
    """Does that to the call of this number."""
    return lambda call, now: deed if now == number else None


def picked(cases, share):
    """Each case, or one in so many of them."""
    return [case for number, case in enumerate(cases) if number % share == 0]


def faults(report, room, words, name, share, only=lambda call: True):
    """Each call of the run of these words, with each fault and each interruption."""
    true, wanted, file = room.true(words)
    report.hold(name, 'nothing fails', ends(true, {0}))
    cases = [(number, call, statuses, *deed) for (number, call), statuses in zip(enumerate(true.calls), stages(true.calls))
             if only(call) for deed in deeds(call)]
    for number, call, statuses, what, deed, is_fault in picked(cases, share):
        room.put_back()
        ended = room.traced(words, at(number, deed), whole=False)
        where = f'call {number}, {call}, {what}'
        if not ended.met:
            report.hold(name, where, 'is not made')
        elif is_fault:
            report.hold(name, where, failed(room, words, wanted, ended, statuses) or (
                hidden(room, true, number, ended) if statuses == {0, 8} else None))
        else:
            report.hold(name, where, went_on(room, true, ended, file))


def hidden(room, true, number, ended):
    """What is wrong where a fault of the store shows nowhere. One of a checkpoint may, where the next line is a restart."""
    printed = sum(call.result for call in true.calls[:number] if call.part == 'output')
    following = room.lines[true.out[:printed].count(b'\n'):]
    shows = ended.status == 8 or b'"is":"down"' in ended.out
    return None if shows or following and following[0].do == 'restart' else 'is told nowhere'


def failed(room, words, wanted, ended, statuses):
    """What is wrong with a run with a fault."""
    wrong = ends(ended, statuses)
    if wrong:
        return wrong
    if statuses in ({6}, {8}) and ended.out:
        return f'ends with {ended.status} and prints {ended.out[:80]!r}'
    if statuses == {6} and (room.bytes() or b'') != (room.store_before or b''):
        return 'ends with 6, and the store is another'
    if words[0] == 'dump':
        return whole_lines(ended.out)[1] or (None if wanted.true.startswith(ended.out) else 'prints other rows')
    return wanted.printed(ended.out, ended.status) or (room.is_kept(wanted, ended) if '--store' in words else None)


def went_on(room, true, ended, file):
    """What is wrong with a run where no fault was."""
    if (ended.status, ended.err) != (true.status, true.err):
        return f'ends with {ended.status} and {ended.err!r}, as if it were a fault'
    if ended.out != true.out:
        return f'prints something else: {ended.out[-80:]!r}'
    return None if room.bytes() == file else 'leaves another store'


def first_of(part, deed):
    """Does that to the first call of this part."""
    met = []

    def deed_of(call, _):
        if call.part != part or met:
            return None
        met.append(call)
        return deed
    return deed_of


def told_faults(report, room):
    """A line of standard error that is not written, or not at once: the status stands, and no other line is told."""
    line = b'read fault\n'
    for what, deed, whole in (('fails', ('fails', EIO), False), ('does nothing', ('answers', 0), False),
                              ('is short', ('short', 1), True), ('is interrupted', ('fails', EINTR), True)):
        room.put_back()
        ended = room.traced(['replay', room.folder], first_of('error', deed))
        told = ended.err == line if whole else line.startswith(ended.err)
        report.hold('standard error', f'its write {what}', None if ended.status == 6 and ended.met and told
                    else f'ends with {ended.status} and tells {ended.err!r}')


def kills(report, room, share):
    """The program killed before and behind each call of the store and of the output."""
    true, wanted, _ = room.true(room.replay())
    cases = [(number, call, deed) for number, call in enumerate(true.calls) if call.part in ('store', 'output', 'folder')
             for deed in ('dies', 'dies after')]
    for number, call, deed in picked(cases, share):
        room.put_back()
        ended = room.traced(room.replay(), at(number, (deed,)))
        replies, wrong = whole_lines(ended.out)
        if replies is not None and not true.out.startswith(ended.out):
            wrong = 'prints what is no part of the true replies'
        report.hold('kills at calls', f'{deed} at call {number}, {call}', wrong or room.is_kept(wanted, ended))
