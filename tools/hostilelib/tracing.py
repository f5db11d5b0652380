"""Runs a program call by call, by ptrace(2): a test may change the world before a system call, or answer in its place.

For Linux on x86-64, and programs of one thread."""
from __future__ import annotations

import ctypes
import os
import platform
import signal
import struct
from pathlib import Path
from typing import Callable, List, NamedTuple, Optional, Sequence

TRACEME, GETREGS, SETREGS, SYSCALL, SETOPTIONS = 0, 12, 13, 24, 0x4200
TRACE_SYSCALLS, KILL_AT_EXIT = 1, 0x100000
# What a stop at a system call has instead of SIGTRAP.
CALL_STOP = signal.SIGTRAP | 0x80
# struct user_regs_struct has 27 numbers of 8 bytes; these are the places of some.
REGISTERS, R10, RAX, RDX, RSI, RDI, ORIG_RAX = 27, 7, 10, 12, 13, 14, 15
NO_CALL = 2**64 - 1

# System calls by which files are looked at, opened and read, and streams are written.
STAT, FSTAT, LSTAT, NEWFSTATAT, STATX = 4, 5, 6, 262, 332
OPEN, OPENAT, READ, PREAD64, READV, PREADV = 2, 257, 0, 17, 19, 295
WRITE, WRITEV = 1, 20
LOOKS, OPENS, READS = (STAT, FSTAT, LSTAT, NEWFSTATAT, STATX), (OPEN, OPENAT), (READ, PREAD64, READV, PREADV)
WRITES = (WRITE, WRITEV)

LIBC = ctypes.CDLL(None, use_errno=True)
LIBC.ptrace.restype = ctypes.c_long
LIBC.ptrace.argtypes = [ctypes.c_long, ctypes.c_long, ctypes.c_void_p, ctypes.c_void_p]


class Call(NamedTuple):
    """A system call that a program is about to make: how many it made before, the call's number, its first arguments,
    and the path that it names, if it is one of those that look at files or open them."""

    place: int
    number: int
    arguments: List[int]
    path: bytes = b""


# Minus an errno, or another answer in the kernel's place; None where the call is to be made; and ONE where it is to be
# made of one byte.
Act = Callable[[Call], Optional[int]]
ONE = -(2**63)


class Ended(NamedTuple):
    """How a program ended (minus a signal), and its calls."""

    status: int
    calls: List[Call]


def ptrace(request: int, pid: int, data: object = 0) -> None:
    if LIBC.ptrace(request, pid, None, data) == -1:
        raise OSError(ctypes.get_errno(), "ptrace")


def can_trace() -> bool:
    """Whether this machine lets a process be traced."""
    if platform.system() != "Linux" or platform.machine() != "x86_64":
        return False
    try:
        return run(["/bin/true"], Path("/"), lambda call: None).status == 0
    except OSError:
        return False


def run(words: Sequence[str], folder: Path, act: Act, streams: Sequence[int] = (), limit: int = 30) -> Ended:
    """Runs a program in a folder with these descriptors as its own, and lets `act` see each call before it is made.
    After so many seconds it is killed."""
    pid = os.fork()
    if pid == 0:
        become(words, folder, streams)
    _, status = os.waitpid(pid, 0)
    if not os.WIFSTOPPED(status):
        raise OSError("the program was not started")
    ptrace(SETOPTIONS, pid, TRACE_SYSCALLS | KILL_AT_EXIT)
    before = signal.signal(signal.SIGALRM, lambda *_: os.kill(pid, signal.SIGKILL))
    signal.alarm(limit)
    try:
        return follow(pid, act)
    finally:
        signal.alarm(0)
        signal.signal(signal.SIGALRM, before)


def become(words: Sequence[str], folder: Path, streams: Sequence[int]) -> None:
    """In the child: it stops, and becomes the program. A stream of -1 is closed."""
    try:
        os.chdir(folder)
        kept = [fd if fd < 0 else os.dup(fd) for fd in streams]
        for place, fd in enumerate(kept):
            if fd < 0:
                os.close(place)
            else:
                os.dup2(fd, place)
        os.closerange(3, 64)
        ptrace(TRACEME, 0)
        os.execv(words[0], list(words))
    finally:
        os._exit(127)


def follow(pid: int, act: Act) -> Ended:
    """Goes from call to call until the program has ended."""
    calls: List[Call] = []
    is_inside, answer, number = False, None, 0
    while True:
        ptrace(SYSCALL, pid, number)
        _, status = os.waitpid(pid, 0)
        if os.WIFEXITED(status):
            return Ended(os.WEXITSTATUS(status), calls)
        if os.WIFSIGNALED(status):
            return Ended(-os.WTERMSIG(status), calls)
        stop = os.WSTOPSIG(status)
        number = 0 if stop in (CALL_STOP, signal.SIGTRAP) else stop
        if stop != CALL_STOP:
            continue
        is_inside = not is_inside
        if is_inside:
            answer = enter(pid, act, calls)
        elif answer is not None:
            set_registers(pid, {RAX: answer % 2**64})


def enter(pid: int, act: Act, calls: List[Call]) -> Optional[int]:
    """Before a call: it is not made where `act` answers in its place."""
    registers = get_registers(pid)
    number, arguments = registers[ORIG_RAX], [registers[place] for place in (RDI, RSI, RDX, R10)]
    call = Call(len(calls), number, arguments, path_of(pid, number, arguments))
    calls.append(call)
    answer = act(call)
    if answer == ONE:
        set_registers(pid, {RDX: 1})
        return None
    if answer is not None:
        set_registers(pid, {ORIG_RAX: NO_CALL})
    return answer


def path_of(pid: int, number: int, arguments: List[int]) -> bytes:
    """The path that a call names, up to 4,096 bytes."""
    if number not in (*LOOKS, *OPENS) or number == FSTAT:
        return b""
    address = arguments[0] if number in (STAT, LSTAT, OPEN) else arguments[1]
    with open(f"/proc/{pid}/mem", "rb", buffering=0) as memory:
        memory.seek(address)
        return memory.read(4096).split(b"\0")[0]


def get_registers(pid: int) -> List[int]:
    block = ctypes.create_string_buffer(8 * REGISTERS)
    ptrace(GETREGS, pid, ctypes.cast(block, ctypes.c_void_p))
    return list(struct.unpack(f"<{REGISTERS}Q", block.raw))


def set_registers(pid: int, changes: dict) -> None:
    registers = get_registers(pid)
    for place, value in changes.items():
        registers[place] = value
    block = ctypes.create_string_buffer(struct.pack(f"<{REGISTERS}Q", *registers), 8 * REGISTERS)
    ptrace(SETREGS, pid, ctypes.cast(block, ctypes.c_void_p))
