"""Stores, lists and outputs at places that are none: folders, pipes, full devices, without permission, too long, of
another process."""
import fcntl
import os
import resource
import signal
import subprocess
import tempfile

from .lines import Wanted, line, pair, script_of
from .rooms import IN_USE, LIMIT, ends

LONGEST_STORE = 1_073_741_824
NOBODY = 65_534


def stated(ran, statuses, out=b'', err=None):
    """What is wrong with a run that is not traced."""
    ran.status, ran.out, ran.err = ran.returncode, ran.stdout, ran.stderr
    wrong = ends(ran, statuses)
    if not wrong and out is not None and ran.out != out:
        wrong = f'prints {ran.out[:80]!r}'
    return wrong or (None if err in (None, ran.err) else f'tells {ran.err!r}, and not {err!r}')


def given(room):
    with open(room.script, 'rb') as script:
        return script.read()


def replayed(room, store, listed=None, **how):
    return room.run(['replay', listed or room.list, '--store', store], given(room), **how)


def words(report, room):
    """The words, and each status that they and what they name lead to."""
    usage = b'usage: replay LIST, twin SITE LIST, dump LIST STORE, selftest N\n'
    bad, missing = os.path.join(room.folder, 'bad'), os.path.join(room.folder, 'missing')
    room.write(bad, 'a..b\n')
    true, _, _ = room.true(room.replay(False))
    part = 'words'
    for told in ([b'\xff'], [b'replay', b'\xff'], [b'replay', os.fsencode(room.list), b'--store', b'a\xffb']):
        report.hold(part, f'words that are no UTF-8, {told}', stated(room.run(told), {2}, b'', usage))
    report.hold(part, 'a word in front', stated(room.run(['x', *room.replay(False)], given(room)), {2}, b'', usage))
    report.hold(part, 'the first word', stated(room.run(room.replay(False), given(room)), {0}, true.out, b''))
    report.hold(part, 'no words', stated(room.run([]), {2}, b'', usage))
    report.hold(part, '--help', stated(room.run(['--help']), {0}, usage, b''))
    report.hold(part, 'a script that is refused', stated(
        room.run(room.replay(False), b'{"do":"tock"}\n'), {3}, b'', b'script line 1: unknown action\n'))
    report.hold(part, 'a list that is refused', stated(
        room.run(['replay', bad], given(room)), {4}, b'', b'list line 1: bad rule\n'))
    report.hold(part, 'a list that is not there', stated(room.run(['replay', missing], given(room)), {6}))
    report.hold(part, 'a list that is a folder', stated(room.run(['replay', room.folder], given(room)), {6}))
    with open('/dev/full', 'wb') as full:
        ran = subprocess.run([room.program, *room.replay(False)], input=given(room), stdout=full, stderr=subprocess.PIPE,
                             timeout=LIMIT, check=False)
        ran.stdout = b''
        report.hold(part, 'output that is full', stated(ran, {7}))
    cut = b'{"do":"disk","cuts":[[1,0]]}\n'
    report.hold(part, 'a cut in the opening', stated(room.run(['replay', room.list], cut + given(room)), {8}))


def refused(report, room):
    """Files that are no store: named, and left as they are. One under another list is a store."""
    part = 'refused stores'
    room.put_back()
    true, _, file = room.true(room.replay())
    other = os.path.join(room.folder, 'other')
    room.write(other, 'test\n')
    cases = [('text', b'no store, but a text\n' * 20), ('a store that is cut short', file[:-30]),
             ('a byte behind the version', file[:9] + b'\1' + file[10:])]
    for what, found in cases:
        with open(room.store, 'wb') as store:
            store.write(found)
        for listed in (room.list, other):
            for ran in (replayed(room, room.store, listed), room.run(['dump', listed, room.store])):
                wrong = stated(ran, {5})
                report.hold(part, what, wrong or (None if room.bytes() == found else 'the file is another'))
    with open(room.store, 'wb') as store:
        store.write(file)
    report.hold(part, 'another list', stated(room.run(['dump', other, room.store]), {0}, None))


def paths(report, room):
    """A store is made at its path alone where none is, and is opened again there."""
    part = 'paths'
    room.put_back()
    before = set(os.listdir(room.folder)) | {'stdout', 'stderr'}
    true, _, _ = room.true(room.replay(False))
    report.hold(part, 'a new store', stated(room.run(room.replay(), given(room)), {0}, true.out))
    made = set(os.listdir(room.folder)) - before
    report.hold(part, 'what is made', None if made == {'store'} else f'makes {sorted(made)}')
    rows, wrong = room.rows() if os.path.exists(room.store) else (None, 'no store')
    again = room.run(['replay', room.list, '--store', room.store])
    behind, wrong_behind = room.rows() if os.path.exists(room.store) else (None, 'no store')
    report.hold(part, 'a store again', wrong or stated(again, {0}) or wrong_behind or (
        None if rows and rows == behind else 'the rows are others'))
    report.hold(part, 'its list', stated(room.run(['replay', room.script], given(room)), {4}, b'', b'list line 1: bad rule\n'))


def kinds(report, room):
    """What is no file: a folder, a pipe, a device, a path that is too long or leads nowhere."""
    part = 'kinds of files'
    pipe, nowhere = os.path.join(room.folder, 'pipe'), os.path.join(room.folder, 'nowhere', 'store')
    os.path.exists(pipe) or os.mkfifo(pipe)
    cases = [('a folder', room.folder, {6}), ('no folder', nowhere, {6}), ('a long name', 'n' * 300, {6}),
             ('a longer path', './' * 2100 + 'n', {6}), ('a pipe', pipe, {6, 8}), ('a full device', '/dev/full', {6, 8}),
             ('no device', '/dev/null', {6, 8})]
    for what, path, statuses in cases:
        report.hold(part, f'{what} as store', stated(replayed(room, path), statuses))
        report.hold(part, f'{what} as store of a dump', stated(room.run(['dump', room.list, path]), statuses))


def permissions(report, room):
    """A store and a list without permission, as another user where this one may do all."""
    part = 'permissions'
    room.true(room.replay())
    file, how = room.bytes(), {}
    if os.geteuid() == 0:
        how = {'user': NOBODY, 'group': NOBODY, 'extra_groups': []}
        os.chmod(room.folder, 0o755)
        os.chmod(room.list, 0o644)
    try:
        for what, path, mode in (('store', room.store, 0), ('store that is only read', room.store, 0o444),
                                 ('list', room.list, 0)):
            os.chmod(path, mode)
            report.hold(part, f'a {what}', stated(replayed(room, room.store, **how), {6}))
            os.chmod(path, 0o644)
        if how:
            report.hold(part, 'a folder where none is made', stated(replayed(room, room.folder + '/new', **how), {6}))
    except PermissionError:
        report.notes.append(f'{part}: NOT RUN: the program is at a place where another user may not run it')
        return
    report.hold(part, 'the store behind it', None if room.bytes() == file else 'is another')


def too_long(report, room):
    """A store of one byte more than the limit, which takes no room on the disk."""
    room.true(room.replay())
    os.truncate(room.store, LONGEST_STORE + 1)
    ran = replayed(room, room.store)
    wrong = stated(ran, {5}, b'', b'store: too large: %d\n' % (LONGEST_STORE + 1))
    same = os.path.getsize(room.store) == LONGEST_STORE + 1 and os.stat(room.store).st_blocks < 100
    report.hold('long stores', 'one byte too many', wrong or (None if same else 'the file is another'))
    room.put_back()


def full(report, room):
    """A device that is full at some moment: by the limit of a file's length, and over a small one in memory."""
    part = 'full devices'
    lines = room.lines + [line('set', pair(f'https://a{len(room.lines) // 22}.test', f'long{n}'), tab=1, key=f'long{n}',
                               value='v' * 1000) for n in range(21)]
    script = script_of(lines).encode()
    wanted = Wanted(lines, room.run(room.replay(False), script).stdout)
    room.put_back()
    report.hold(part, 'room enough', stated(room.run(room.replay(), script), {0}, wanted.true))
    length = len(room.bytes() or b'')
    for most in range(100, length, length // 12 + 1):
        fill(report, room, wanted, script, f'{most} bytes at most', lambda most=most: limit_files(most))
    with tempfile.TemporaryDirectory() as small:
        mount = ['mount', '-t', 'tmpfs', '-o', 'size=8k', 'edges', small]
        if subprocess.run(mount, capture_output=True, check=False).returncode:
            report.notes.append(f'{part}: NOT RUN over a small device: none could be mounted')
            return
        own, room.store = room.store, os.path.join(small, 'store')
        try:
            fill(report, room, wanted, script, 'a device of 8 KiB')
        finally:
            room.store = own
            subprocess.run(['umount', small], check=True)


def fill(report, room, wanted, script, what, limit=None):
    room.put_back()
    ran = room.run(room.replay(), script, preexec_fn=limit)
    ran.status, ran.out, ran.err = ran.returncode, ran.stdout, ran.stderr
    wrong = ends(ran, {8}) or wanted.printed(ran.out, ran.status)
    report.hold('full devices', what, wrong or (room.is_kept(wanted, ran) if ran.out else None))


def limit_files(length):
    signal.signal(signal.SIGXFSZ, signal.SIG_IGN)
    resource.setrlimit(resource.RLIMIT_FSIZE, (length, length))


def others(report, room):
    """A store that another process has open, and one that another process changes between two calls."""
    part = 'other processes'
    true, wanted, file = room.true(room.replay())
    with open(room.store, 'rb') as held:
        fcntl.flock(held, fcntl.LOCK_EX)
        report.hold(part, 'a store in use', stated(replayed(room, room.store), {6}, err=IN_USE) or (
            None if room.bytes() == file else 'the store is another'))
        report.hold(part, 'a dump of a store in use', stated(room.run(['dump', room.list, room.store]), {6}, err=IN_USE))
    reads = [number for number, call in enumerate(true.calls) if call.part == 'store' and call.name in ('pread', 'fstat')]
    for what, change in (('emptied', lambda: os.truncate(room.store, 0)), ('cut short', lambda: os.truncate(room.store, 150)),
                         ('overwritten', lambda: overwrite(room.store, b'\1' + b'x' * 300))):
        for number in reads:
            room.put_back()
            ended = room.traced(room.replay(), between(number, change), whole=False)
            wrong = ends(ended, {0, 5, 6, 8})
            if not wrong and ended.status in (5, 6) and not true.out.startswith(ended.out):
                wrong = 'prints what is no part of the true replies'
            if not wrong and ended.status == 5 and not ended.err.startswith(b'store: '):
                wrong = f'tells {ended.err!r}'
            report.hold(part, f'a store that is {what} at call {number}, {true.calls[number]}', wrong)


def between(number, change):
    def act(_, now):
        if now == number:
            change()
        return None
    return act


def overwrite(path, found):
    with open(path, 'r+b') as file:
        file.write(found)


ALL = (words, refused, paths, kinds, permissions, too_long, full, others)
