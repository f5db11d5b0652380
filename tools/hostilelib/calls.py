"""Guests that make random system calls: with good arguments, mostly, and with odd ones."""
from __future__ import annotations

import random
import struct
from typing import Callable, Dict, List, Tuple

from .code import A0, A1, BNE, RA, S0, SP, ZERO, Code, addi, load, program, store
from .numbers import (GETCWD, DUP, DUP3, FCNTL, IOCTL, MKDIRAT, UNLINKAT, SYMLINKAT, LINKAT, FTRUNCATE, FACCESSAT,
                      CHDIR, FCHMODAT, OPENAT, CLOSE, PIPE2, GETDENTS64, LSEEK, READ, WRITE, READV, WRITEV, PREAD64,
                      PWRITE64, READLINKAT, NEWFSTATAT, FSTAT, SET_TID_ADDRESS, SET_ROBUST_LIST, NANOSLEEP,
                      CLOCK_GETTIME, CLOCK_NANOSLEEP, SCHED_YIELD, KILL, TKILL, TGKILL, RT_SIGACTION, RT_SIGPROCMASK,
                      RT_SIGRETURN, UNAME, UMASK, GETTIMEOFDAY, GETPID, GETPPID, GETUID, GETTID, BRK, MUNMAP, MREMAP,
                      CLONE, EXECVE, MMAP, MPROTECT, MADVISE, WAIT4, PRLIMIT64, RENAMEAT2, GETRANDOM, STATX, RSEQ)

# Where a guest has its texts, lists and buffers.
TEXTS, LISTS, BUFFER, BUFFER_SIZE = 0x100000, 0x180000, 0x200000, 0x40000
NAMES = [b"a", b"b", b"c", b"d", b"l", b"p", b"q", b"s", b"f"]
ODD_PATHS = [b"", b"/", b".", b"..", b"/..", b"//", b"a/", b"a/..", b"./", b"/" * 4095, b"n" * 255, b"n" * 256,
             b"a/" * 2040 + b"a", b"../" * 1300, b"d/../" * 800, b"l/l/l", b"\xff\x80", b"a b%\n", b"l" * 4096]
ODD_NUMBERS = [0, 1, 2, 7, 8, 63, 64, 65, 4095, 4096, 4097, 65535, 65536, 65537, 2**24, 2**24 + 1, 2**31 - 1, 2**31,
               2**32 - 1, 2**32, 2**38 - 1, 2**38, 2**62, 2**63 - 1, 2**63, 2**64 - 1, 2**64 - 4096]
ODD_ADDRESSES = [0, 8, 4095, 0x10000, TEXTS - 1, TEXTS + 0x3FFFF, BUFFER + BUFFER_SIZE - 1, BUFFER + BUFFER_SIZE,
                 0x1FFFFFFFFF, 0x2000000000, 0x3FFFEFDFFF, 0x3FFFFFDFF8, 0x3FFFFFE000, 0x3FFFFFF000, 0x3FFFFFFFFF,
                 2**38, 2**63, 2**64 - 1]


class Guest:
    """A guest that comes to be, call by call."""

    def __init__(self, chance: random.Random, length: int) -> None:
        self.chance = chance
        self.code = Code()
        self.texts, self.lists = bytearray(), bytearray()
        self.handlers = ["first handler", "second handler"]
        for _ in range(length):
            self.step()
        self.code.exit(chance.randrange(4))
        for name in self.handlers:
            self.handler(name)

    def executable(self) -> bytes:
        room = (BUFFER, b"", BUFFER_SIZE)
        return program(self.code, (TEXTS, bytes(self.texts), 1), (LISTS, bytes(self.lists), 1), room)

    def step(self) -> None:
        """A call, or what makes calls meet: a loop, a child that goes another way, a handler, a long computation."""
        kind = self.chance.random()
        if kind < 0.02:
            self.code.spin(self.chance.choice([100, 1000, 40_000, 100_000]))
        elif kind < 0.025:
            self.compute()
        elif kind < 0.04:
            with self.code.loop(S0, self.chance.randrange(2, 6)):
                self.random_call()
        elif kind < 0.07:
            self.child()
        elif kind < 0.10:
            self.act()
        else:
            self.random_call()

    def random_call(self) -> None:
        numbers, weights = list(CALLS), [weight for weight, _ in CALLS.values()]
        number, = self.chance.choices(numbers, weights)
        self.code.call(number, *(KINDS[kind](self) for kind in CALLS[number][1].split()))
        if self.chance.random() < 0.1:
            # What the call answers is told.
            self.code.li(A1, BUFFER)
            self.code.add(store(A0, 0, A1))
            self.code.call(WRITE, 1, BUFFER, 8)

    def compute(self) -> None:
        """Children that compute side by side, as workers do."""
        for _ in range(2):
            behind = f"behind child {len(self.code.words)}"
            self.code.call(CLONE, 17, 0, 0, 0, 0)
            self.code.branch(BNE, A0, ZERO, behind)
            self.code.spin(self.chance.choice([70_000, 150_000]))
            self.code.exit(0)
            self.code.label(behind)
        self.code.spin(100_000)

    def child(self) -> None:
        """A child that makes calls of its own and mostly ends."""
        behind = f"behind child {len(self.code.words)}"
        self.code.call(CLONE, 17, 0, self.address(), 0, self.address())
        self.code.branch(BNE, A0, ZERO, behind)
        for _ in range(self.chance.randrange(4)):
            self.random_call()
        if self.chance.random() < 0.8:
            self.code.exit(self.chance.randrange(256))
        self.code.label(behind)

    def act(self) -> None:
        """A signal gets a handler, here or nowhere."""
        address = self.chance.choice([*ODD_ADDRESSES, 0, 1])
        flags = self.chance.choice([0, 0x10000000, 0x4, 2**64 - 1])
        action = self.list_of([address, flags, self.mask(), 0])
        if self.chance.random() < 0.8:
            # The handler's address, which is known to the code alone.
            there = f"act {len(self.code.words)}"
            self.code.jump(there, RA)
            self.code.jump(self.chance.choice(self.handlers))
            self.code.label(there)
            self.code.li(A1, action)
            self.code.add(store(RA, 0, A1))
        self.code.call(RT_SIGACTION, self.signal(), action, 0, 8)

    def handler(self, name: str) -> None:
        """Some calls, and then a return, by the trampoline or otherwise."""
        self.code.label(name)
        self.code.add(addi(SP, SP, -16), store(RA, 0, SP))
        for _ in range(self.chance.randrange(3)):
            self.random_call()
        self.code.add(load(RA, 0, SP), addi(SP, SP, 16))
        if self.chance.random() < 0.1:
            self.code.add(addi(SP, SP, self.chance.choice([-16, 8, 400])))
        self.code.add(RA << 15 | 0x67)

    # --- arguments

    def odd(self, good: int, chance: float = 0.08) -> int:
        return self.chance.choice(ODD_NUMBERS) if self.chance.random() < chance else good

    def any(self) -> int:
        return self.chance.choice(ODD_NUMBERS)

    def address(self) -> int:
        if self.chance.random() < 0.1:
            return self.chance.choice(ODD_ADDRESSES)
        return BUFFER + 8 * self.chance.randrange(BUFFER_SIZE // 16)

    def text_at(self, text: bytes) -> int:
        address = TEXTS + len(self.texts)
        self.texts += text + b"\0"
        return address

    def list_of(self, numbers: List[int]) -> int:
        address = LISTS + len(self.lists)
        self.lists += b"".join(struct.pack("<Q", number % 2**64) for number in numbers)
        return address

    def path(self) -> int:
        kind = self.chance.random()
        if kind < 0.03:
            return self.chance.choice(ODD_ADDRESSES)
        if kind < 0.08:
            return self.text_at(self.chance.choice(ODD_PATHS))
        names = self.chance.choices(NAMES, k=self.chance.choice([1, 1, 1, 2, 3]))
        return self.text_at(self.chance.choice([b"", b"", b"/"]) + b"/".join(names))

    def words(self) -> int:
        """A list of texts for execve, null at times."""
        if self.chance.random() < 0.3:
            return self.chance.choice([0, 0, *ODD_ADDRESSES])
        texts = [self.text_at(self.chance.choice([b"x", b"", b"A=b", b"y" * 200])) for _ in
                 range(self.chance.choice([0, 1, 2, 5]))]
        return self.list_of([*texts, *([self.any()] if self.chance.random() < 0.1 else []), 0])

    def ranges(self) -> int:
        """A list of ranges for readv and writev."""
        numbers: List[int] = []
        for _ in range(4):
            numbers += [self.address(), self.odd(self.chance.randrange(300))]
        return self.list_of(numbers)

    def count(self) -> int:
        return self.odd(self.chance.choice([0, 1, 5, 100, 4096, 4097, 65536, 70_000]), 0.1)

    def fd(self) -> int:
        return self.odd(self.chance.choice([0, 1, 2, 3, 3, 4, 4, 5, 6, 7, 8, 9]))

    def at(self) -> int:
        return -100 if self.chance.random() < 0.8 else self.fd()

    def flags(self) -> int:
        flags = self.chance.choice([0, 1, 2, 0x41, 0x42, 0x42, 0x10000])
        for flag in 0x80, 0x200, 0x400, 0x800, 0x20000, 0x80000:
            flags |= flag if self.chance.random() < 0.15 else 0
        return self.odd(flags, 0.02)

    def few(self) -> int:
        """Flags that mostly are none."""
        return self.odd(self.chance.choice([0, 0, 0, 1, 2, 0x100, 0x200, 0x400, 0x800, 0x1000]), 0.05)

    def mode(self) -> int:
        return self.odd(self.chance.choice([0o644, 0o755, 0, 0o7777]))

    def pid(self) -> int:
        return self.odd(self.chance.choice([1, 2, 3, 4, 5]), 0.03)

    def child_id(self) -> int:
        return self.odd(self.chance.choice([-1, -1, 0, 2, 3, 4]), 0.03)

    def signal(self) -> int:
        return self.odd(self.chance.choice([0, 1, 2, 9, 10, 10, 11, 12, 12, 13, 15, 17]), 0.03)

    def mask(self) -> int:
        return self.chance.choice([0, 1 << 9, 1 << 11, 2**64 - 1, self.any()])

    def length(self) -> int:
        return self.odd(self.chance.choice([1, 4096, 8192, 1 << 20, 1 << 22]))

    def place(self) -> int:
        """An address of pages."""
        return self.chance.choice([0x2000000000, 0x2000001000, BUFFER, TEXTS, 0x400000, *ODD_ADDRESSES])

    def protection(self) -> int:
        return self.chance.choice([0, 1, 3, 3, 5, 7, 8])

    def seconds(self) -> int:
        return self.list_of([self.odd(self.chance.choice([0, 1, 100])), self.odd(self.chance.choice([0, 5, 10**9]))])


KINDS: Dict[str, Callable[[Guest], int]] = {
    "fd": Guest.fd, "at": Guest.at, "path": Guest.path, "buf": Guest.address, "count": Guest.count,
    "flags": Guest.flags, "few": Guest.few, "mode": Guest.mode, "any": Guest.any, "pid": Guest.pid,
    "child": Guest.child_id, "sig": Guest.signal, "len": Guest.length, "place": Guest.place,
    "prot": Guest.protection, "words": Guest.words, "ranges": Guest.ranges, "time": Guest.seconds,
    "map": lambda guest: guest.chance.choice([0x22, 0x22, 0x22, 0x32, 0x20022, 0x4022]),
    "clone": lambda guest: guest.chance.choice([17, 17, 17, 17, 0x01100011, 0x01200011]),
    "whence": lambda guest: guest.chance.randrange(4), "how": lambda guest: guest.chance.randrange(4),
    "eight": lambda guest: guest.odd(8, 0.03), "set": lambda guest: guest.list_of([guest.mask()]),
    "clock": lambda guest: guest.chance.randrange(9), "ways": lambda guest: guest.odd(guest.chance.randrange(6)),
    "wait": lambda guest: guest.chance.choice([0, 1, 1, 3]), "cmd": lambda guest: guest.chance.choice([0, 1, 2, 3, 4]),
    "zero": lambda guest: guest.odd(0, 0.05),
    "low": lambda guest: guest.odd(guest.chance.randrange(12)), "off": lambda guest: guest.odd(
        guest.chance.choice([0, 1, 100, 4096, 70_000, -1]), 0.1),
}

# Each call with how often it is made, and what its arguments are.
CALLS: Dict[int, Tuple[int, str]] = {
    GETCWD: (2, "buf count"), DUP: (2, "fd"), DUP3: (3, "fd low few"), FCNTL: (3, "fd cmd low"),
    IOCTL: (1, "fd any any"), MKDIRAT: (4, "at path mode"), UNLINKAT: (4, "at path few"),
    SYMLINKAT: (3, "path at path"), LINKAT: (3, "at path at path few"), FTRUNCATE: (3, "fd off"),
    FACCESSAT: (1, "at path low"), CHDIR: (2, "path"), FCHMODAT: (2, "at path mode"),
    OPENAT: (12, "at path flags mode"), CLOSE: (4, "fd"), PIPE2: (5, "buf few"), GETDENTS64: (3, "fd buf count"),
    LSEEK: (3, "fd off whence"), READ: (6, "fd buf count"), WRITE: (8, "fd buf count"), READV: (2, "fd ranges ways"),
    WRITEV: (2, "fd ranges ways"), PREAD64: (2, "fd buf count off"), PWRITE64: (3, "fd buf count off"),
    READLINKAT: (2, "at path buf count"), NEWFSTATAT: (2, "at path buf few"), FSTAT: (2, "fd buf"),
    SET_TID_ADDRESS: (1, "buf"), SET_ROBUST_LIST: (1, "buf any"), NANOSLEEP: (1, "time buf"),
    CLOCK_GETTIME: (2, "clock buf"), CLOCK_NANOSLEEP: (1, "clock few time buf"), SCHED_YIELD: (2, ""),
    KILL: (3, "pid sig"), TKILL: (1, "pid sig"), TGKILL: (1, "pid pid sig"), RT_SIGACTION: (1, "sig set buf eight"),
    RT_SIGPROCMASK: (3, "how set buf eight"), RT_SIGRETURN: (1, ""), UNAME: (1, "buf"), UMASK: (1, "mode"),
    GETTIMEOFDAY: (1, "buf buf"), GETPID: (1, ""), GETPPID: (1, ""), GETTID: (1, ""), GETUID: (1, ""),
    BRK: (3, "place"), MUNMAP: (2, "place len"), MREMAP: (1, "any any"), CLONE: (3, "clone zero buf any buf"),
    EXECVE: (2, "path words words"), MMAP: (4, "place len prot map any any"), MPROTECT: (3, "place len prot"),
    MADVISE: (1, "any any"), WAIT4: (4, "child buf wait buf"), PRLIMIT64: (1, "any any"),
    RENAMEAT2: (3, "at path at path few"), GETRANDOM: (2, "buf count few"), STATX: (1, "any any"),
    RSEQ: (1, "any any"),
}


def random_guest(chance: random.Random) -> bytes:
    """The executable of a guest that makes up to some sixty calls."""
    return Guest(chance, chance.choice([5, 20, 40, 60])).executable()
