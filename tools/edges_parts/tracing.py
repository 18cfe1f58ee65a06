"""Runs a program and stops it at each call of the system, by ptrace: what it asks is noted, and a call can be made to
fail, to be short, to wait, or to be the last one. For Linux on x86-64."""
import ctypes
import os
import platform
import signal
import struct
from dataclasses import dataclass

TRACEME, GETREGS, SETREGS, DETACH, SYSCALL, SETOPTIONS = 0, 12, 13, 17, 24, 0x4200
SYSGOOD, EXITKILL = 1, 0x100000
REGISTERS = ('r15 r14 r13 r12 rbp rbx r11 r10 r9 r8 rax rcx rdx rsi rdi orig_rax rip cs eflags rsp ss fs_base gs_base '
             'ds es fs gs').split()
NAMES = {0: 'read', 1: 'write', 3: 'close', 5: 'fstat', 9: 'mmap', 12: 'brk', 17: 'pread', 18: 'pwrite', 25: 'mremap',
         73: 'flock', 74: 'fsync', 75: 'fdatasync', 76: 'truncate', 77: 'ftruncate', 2: 'open', 257: 'openat',
         262: 'fstat', 332: 'fstat', 82: 'rename', 87: 'unlink', 263: 'unlink', 264: 'rename', 316: 'rename'}
ON_FILES = {'read', 'write', 'fstat', 'pread', 'pwrite', 'flock', 'fsync', 'fdatasync', 'ftruncate'}
NO_CALL, MASK = 2 ** 64 - 1, 2 ** 64 - 1
ANONYMOUS = 0x20
LIBC = ctypes.CDLL(None, use_errno=True)
LIBC.ptrace.argtypes = [ctypes.c_long, ctypes.c_long, ctypes.c_void_p, ctypes.c_void_p]
LIBC.ptrace.restype = ctypes.c_long


class Registers(ctypes.Structure):
    _fields_ = [(name, ctypes.c_ulonglong) for name in REGISTERS]


class CannotTrace(Exception):
    """Why no program can be traced here."""


@dataclass
class Call:
    """A call: of which file by its part in the run, with how many bytes at which offset, and what it answered."""
    name: str
    part: str
    count: int = 0
    offset: int = 0
    result: int = None

    def __str__(self):
        return f'{self.name} of the {self.part}'


@dataclass
class Ended:
    """How a run ended: the status, or the signal as a negative number; what it wrote; and its calls."""
    status: int
    out: bytes
    err: bytes
    calls: list
    # Whether what was to happen at a call happened.
    met: bool = False


def check_machine():
    """That programs can be traced here."""
    if platform.system() != 'Linux' or platform.machine() != 'x86_64':
        raise CannotTrace(f'no tracing on {platform.system()} {platform.machine()}: Linux on x86_64 is asked for')
    child = os.fork()
    if child == 0:
        os._exit(LIBC.ptrace(TRACEME, 0, None, None) != 0)
    if os.waitpid(child, 0)[1] != 0:
        raise CannotTrace('no tracing: the system does not let a process be traced by its parent (ptrace)')


def ptrace(request, pid, data=None):
    if LIBC.ptrace(request, pid, None, data) != 0:
        raise OSError(ctypes.get_errno(), f'ptrace {request}')


class Traced:
    """One run. `parts` names the files by their paths. `act` is asked before each call of a named file, or of memory
    where `memory` is set, and answers what is to happen:

    None                   it is made
    ('fails', errno)       it is not made, and fails so
    ('answers', n)         it is not made, and answers n
    ('short', n)           it is made with n bytes at most
    ('cut', n)             the same, and it answers that it was made with all bytes
    ('empty',)             it is made, and tells a length of 0
    ('dies',), ('dies after',)   the program is killed before it, or behind it
    ('hidden', n)          it is not made, is not noted, and answers n
    """

    def __init__(self, words, given, parts, act=None, memory=False, whole=True, environment=None):
        self.words, self.given, self.parts = words, given, parts
        self.act, self.memory, self.whole = act, memory, whole
        self.environment = {**os.environ, 'ASAN_OPTIONS': 'detect_leaks=0', **(environment or {})}
        self.files = {0: 'script', 1: 'output', 2: 'error'}
        self.calls, self.met, self.began = [], False, False

    def run(self, folder):
        """Runs the program to its end."""
        out, err = os.path.join(folder, 'stdout'), os.path.join(folder, 'stderr')
        pid = self.start(out, err)
        try:
            status = self.follow(pid)
        finally:
            if self.pid:
                os.kill(pid, signal.SIGKILL)
                os.waitpid(pid, 0)
        return Ended(status, read(out), read(err), self.calls, self.met)

    def start(self, out, err):
        self.pid = pid = os.fork()
        if pid == 0:
            try:
                os.dup2(os.open(self.given, os.O_RDONLY), 0)
                for number, path in (1, out), (2, err):
                    how = os.O_WRONLY | (os.O_CREAT | os.O_TRUNC | os.O_APPEND) * (not path.startswith('/dev/'))
                    os.dup2(os.open(path, how, 0o600), number)
                os.closerange(3, 64)
                LIBC.ptrace(TRACEME, 0, None, None)
                os.execve(self.words[0], self.words, self.environment)
            finally:
                os._exit(126)
        return pid

    def follow(self, pid):
        _, state = os.waitpid(pid, 0)
        if not os.WIFSTOPPED(state):
            return self.ended(state)
        ptrace(SETOPTIONS, pid, SYSGOOD | EXITKILL)
        regs, inside, call, deed, deliver = Registers(), False, None, None, 0
        while True:
            ptrace(SYSCALL, pid, deliver)
            _, state = os.waitpid(pid, 0)
            if not os.WIFSTOPPED(state):
                return self.ended(state)
            stopped = os.WSTOPSIG(state)
            deliver = 0 if stopped & 0x7f == signal.SIGTRAP else stopped
            if stopped != signal.SIGTRAP | 0x80:
                continue
            inside = not inside
            ptrace(GETREGS, pid, ctypes.addressof(regs))
            if inside:
                call, deed = self.enter(pid, regs)
                if deed and deed[0] == 'dies':
                    return self.kill(pid)
                continue
            if call:
                self.leave(pid, regs, call, deed)
            if deed and deed[0] == 'dies after':
                return self.kill(pid)
            if self.met and not self.whole:
                ptrace(DETACH, pid, 0)
                return self.ended(os.waitpid(pid, 0)[1])

    def ended(self, state):
        self.pid = None
        return os.waitstatus_to_exitcode(state)

    def kill(self, pid):
        os.kill(pid, signal.SIGKILL)
        _, state = os.waitpid(pid, 0)
        while os.WIFSTOPPED(state):
            _, state = os.waitpid(pid, 0)
        return self.ended(state)

    def enter(self, pid, regs):
        """The call that begins, where it is one of those that are noted, and what is to happen to it."""
        call = self.call_of(regs)
        if call is None:
            return None, None
        deed = self.act(call, len(self.calls)) if self.act else None
        if deed is None:
            return call, None
        self.met = self.met or deed[0] != 'hidden'
        self.given_registers = regs.rdi, regs.rdx
        if deed[0] in ('short', 'cut'):
            regs.rdx = min(regs.rdx, deed[1])
        elif call.name == 'brk':
            # The place where memory ends now, which is what a brk that fails answers.
            regs.rdi = 0
        elif deed[0] in ('fails', 'answers', 'hidden'):
            regs.orig_rax = NO_CALL
        ptrace(SETREGS, pid, ctypes.addressof(regs))
        return call, deed

    def leave(self, pid, regs, call, deed):
        """Notes a call that ends."""
        kind = deed[0] if deed else None
        if kind in ('fails', 'answers', 'hidden') and call.name != 'brk':
            regs.rax = (-deed[1] if kind == 'fails' else deed[1]) & MASK
        elif kind == 'cut':
            regs.rax = call.count
        elif kind == 'empty':
            with open(f'/proc/{pid}/mem', 'r+b', buffering=0) as memory:
                memory.seek(self.told + (0x28 if self.number == 332 else 0x30))
                memory.write(bytes(8))
        if deed:
            # A call leaves the registers of its words as they were.
            regs.rdi, regs.rdx = self.given_registers
            ptrace(SETREGS, pid, ctypes.addressof(regs))
        call.result = regs.rax - 2 ** 64 if regs.rax >= 2 ** 63 else regs.rax
        if call.name == 'openat' and call.result >= 0:
            self.files[call.result] = call.part
        if kind != 'hidden':
            self.calls.append(call)

    def call_of(self, regs):
        name = NAMES.get(regs.orig_rax)
        if name in ON_FILES and self.files.get(regs.rdi) and (regs.orig_rax != 262 or not self.text(regs.rsi)):
            self.number, self.told = regs.orig_rax, {332: regs.r8, 262: regs.rdx}.get(regs.orig_rax, regs.rsi)
            return Call(name, self.files[regs.rdi], regs.rdx, regs.r10)
        if name in ('openat', 'open'):
            path = self.text(regs.rsi if name == 'openat' else regs.rdi)
            self.began = self.began or path == '/'
            return Call('openat', self.parts[path], regs.rdx) if path in self.parts else None
        if name in ('truncate', 'rename', 'unlink'):
            return Call(name, 'store')
        if name == 'close' and self.files.pop(regs.rdi, None):
            return None
        grows = (name == 'mmap' and regs.r10 & ANONYMOUS or name == 'brk' and regs.rdi
                 or name == 'mremap' and regs.rdx > regs.rsi)
        return Call(name, 'memory', regs.rsi) if self.memory and self.began and grows else None

    def text(self, at):
        """The text that stands at an address."""
        found = b''
        with open(f'/proc/{self.pid}/mem', 'rb', buffering=0) as memory:
            memory.seek(at)
            while b'\0' not in found and len(found) < 4096:
                # Up to the end of a page, behind which there may be none.
                piece = memory.read(256 - memory.tell() % 256)
                if not piece:
                    break
                found += piece
        return os.fsdecode(found.split(b'\0')[0])


def read(path):
    if path.startswith('/dev/'):
        return b''
    with open(path, 'rb') as file:
        return file.read()
