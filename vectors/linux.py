#!/usr/bin/env python3
"""Makes random sequences of calls on files twice, by this machine's Linux and in dettrace, and compares what came.

    python3 vectors/linux.py [SEQUENCES [FIRST]]

Each sequence has 120 calls and begins in an empty root; it is a function of its number, which counts from FIRST (0).
Two calls agree where both are refused with one errno, or both are done with one answer and leave the same bytes (of
what is told of a node, all but its device, its times, its blocks and a directory's size; inodes by which of them are
equal). Where a call has several reasons to be refused, Linux may tell another of them: ORDERS has a row for each case
that is known, and how often it came stands before the last line. Any other pair of errnos is a difference.
What else docs/GUESTS.md says of files is known too, and ends a sequence where it makes the two trees differ: a file
that would get too large, a place in a directory, `..` of a directory that was removed, a name that comes while its
directory is listed. Modes with the bit 02000 aren't tried, nor the right to execute. The last line is 'N sequences,
M calls compared, L of them done, K sequences differ'; the status is 0 where K is 0.

It needs a Linux system on x86-64, root or a user namespace (for chroot), and the program that is built.
"""
import argparse
import collections
import contextlib
import ctypes
import errno
import json
import mmap
import os
import pathlib
import random
import resource
import signal
import stat
import struct
import subprocess
import sys
import tempfile
from dataclasses import dataclass, field
from typing import Callable, NamedTuple

TOP = pathlib.Path(__file__).resolve().parent.parent
PROGRAM = TOP / "crates/dettrace/out/dettrace"
CALLS_OF_A_SEQUENCE = 120

# Where things lie in memory, on both sides: the calls' data, the answers, and behind these a buffer for each call.
TABLE, DATA, ANSWERS, BUFFERS, BUFFER = 0x40000, 0x80000, 0x100000, 0x110000, 0x400
SIZE = BUFFERS - ANSWERS + BUFFER * CALLS_OF_A_SEQUENCE
# Behind them Linux keeps a byte for each call.
SHARED = SIZE + CALLS_OF_A_SEQUENCE
AT_FDCWD = -100
# As a first argument: the descriptor that the last openat answered.
OPENED = -777
CONTENT = bytes(range(65, 91)) * 8
NAMES = [b"a", b"a", b"b", b"b", b"c", b"l"]
ODD_PATHS = [b"", b"/", b"//", b".", b"..", b"/.", b"/..", b"./", b"../", b"n" * 255, b"n" * 256, b"a/" + b"x" * 256,
             b"/" * 4094 + b"a", b"/" * 4095 + b"a"]
BAD_ADDRESSES = [0, 8, 1 << 38]
FILE_LIMIT = 16_777_216
# What Linux knows before a call: its descriptor is a directory, or has a place behind which a write would be too large;
# a directory at which a path may begin was removed; some of the directory has been listed; there is nothing to rename.
IS_DIRECTORY, IS_FAR, IS_REMOVED, IS_LISTED, IS_NOTHING = 1, 2, 4, 8, 16
MODES = [0o644, 0o755, 0o777, 0o700, 0o4755, 0o1777, 0, 0o175755]


class Sequence:
    """Random calls, and the bytes that their arguments point to."""

    def __init__(self, seed: int):
        self.random = random.Random(seed)
        self.calls: list[tuple[str, tuple[int, ...]]] = []
        self.data = bytearray(CONTENT)
        self.texts: dict[bytes, int] = {}
        for name, *arguments in self.setup():
            if self.random.random() < 0.75:
                self.calls.append((name, tuple(arguments)))
        names = list(CALLS)
        weights = [call.weight for call in CALLS.values()]
        while len(self.calls) < CALLS_OF_A_SEQUENCE:
            name, = self.random.choices(names, weights)
            self.calls.append((name, CALLS[name].arguments(self)))

    def setup(self):
        """Calls by which a tree comes to be; a quarter of them is left out."""
        for path in b"a", b"b", b"a/b", b"b/a":
            yield "mkdirat", AT_FDCWD, self.text(path), 0o755
        for path in b"c", b"a/c":
            yield "openat", AT_FDCWD, self.text(path), os.O_CREAT | os.O_RDWR, 0o644
            yield "write", OPENED, DATA, 30
        for target, path in (b"a", b"l"), (b"../c", b"b/l"), (b"/a/b", b"a/l"), (b"nothing", b"b/b"):
            yield "symlinkat", self.text(target), AT_FDCWD, self.text(path)
        yield "linkat", AT_FDCWD, self.text(b"c"), AT_FDCWD, self.text(b"b/c"), 0
        yield "openat", AT_FDCWD, self.text(b"a"), os.O_DIRECTORY
        yield "chdir", self.text(b"a")
        yield "chdir", self.text(b"b")

    def paths(self, arguments: tuple[int, ...]) -> list[bytes]:
        """The texts among a call's arguments, in their order."""
        where = {address: text for text, address in self.texts.items()}
        return [where[value] for value in arguments if value in where]

    def one(self, *choices: int) -> int:
        return self.random.choice(choices)

    def text(self, text: bytes) -> int:
        """Where a text stands, with a zero behind it."""
        if text not in self.texts:
            self.texts[text] = DATA + len(self.data)
            self.data += text + bytes(8 - len(text) % 8)
        return self.texts[text]

    def name(self) -> bytes:
        """A path: mostly one of a few names, or two or three of them."""
        if self.random.random() < 0.03:
            return self.random.choice(ODD_PATHS)
        dots = [b".", b".."] if self.random.random() < 0.4 else []
        path = b"/".join(self.random.choices(NAMES + dots, k=self.one(1, 1, 1, 2, 2, 3)))
        if self.random.random() < 0.35:
            path = b"/" + path
        if self.random.random() < 0.1:
            path += b"/"
        return path.replace(b"/", b"//") if self.random.random() < 0.05 else path

    def path(self) -> int:
        return self.one(*BAD_ADDRESSES) if self.random.random() < 0.015 else self.text(self.name())

    def at(self) -> int:
        """A directory that paths begin at."""
        return AT_FDCWD if self.random.random() < 0.85 else self.one(3, 4, 5, 6, 7, 1, 99, -1, OPENED, OPENED)

    def fd(self) -> int:
        return OPENED if self.random.random() < 0.6 else self.one(3, 3, 4, 4, 5, 5, 6, 7, 8, 9, 10, 63, 64, -1)

    def buffer(self) -> int:
        """The buffer of the call that is made next."""
        return BUFFERS + BUFFER * len(self.calls)

    def flags(self) -> int:
        """Flags of openat. Linux has refused O_CREAT with O_DIRECTORY since 6.4 alone."""
        flags = self.one(os.O_RDONLY, os.O_RDONLY, os.O_WRONLY, os.O_RDWR)
        made = self.one(0, os.O_CREAT, os.O_CREAT, os.O_CREAT | os.O_EXCL, os.O_DIRECTORY)
        for flag in os.O_TRUNC, os.O_APPEND, os.O_NOFOLLOW, os.O_CLOEXEC, os.O_NONBLOCK:
            flags |= self.one(0, 0, 0, flag)
        return flags | made

    def mode(self) -> int:
        return self.one(*MODES)


class Kind(NamedTuple):
    """A call: its number on RISC-V and on x86-64, how often it is made, and its arguments."""
    number: int
    native: int
    weight: int
    arguments: Callable[[Sequence], tuple[int, ...]]


CALLS = {
    "openat": Kind(56, 257, 12, lambda s: (s.at(), s.path(), s.flags(), s.mode())),
    "mkdirat": Kind(34, 258, 6, lambda s: (s.at(), s.path(), s.mode())),
    "symlinkat": Kind(36, 266, 6, lambda s: (s.path(), s.at(), s.path())),
    "linkat": Kind(37, 265, 6, lambda s: (s.at(), s.path(), s.at(), s.path(), s.one(0, 0, 0x400))),
    "unlinkat": Kind(35, 263, 8, lambda s: (s.at(), s.path(), s.one(0, 0, 0x200))),
    "renameat2": Kind(276, 316, 10, lambda s: (s.at(), s.path(), s.at(), s.path(), s.one(0, 0, 0, 1))),
    "newfstatat": Kind(79, 262, 8, lambda s: (s.at(), s.path(), s.buffer(), s.one(0, 0, 0x100, 0x100, 0x800, 0x1100))),
    "fstat": Kind(80, 5, 3, lambda s: (s.fd(), s.buffer())),
    "faccessat": Kind(48, 269, 3, lambda s: (s.at(), s.path(), s.one(0, 2, 4, 6))),
    "chdir": Kind(49, 80, 3, lambda s: (s.path(),)),
    "getcwd": Kind(17, 79, 2, lambda s: (s.buffer(), s.one(0, 1, 2, 3, 8, BUFFER))),
    "readlinkat": Kind(78, 267, 3, lambda s: (s.at(), s.path(), s.buffer(), s.one(BUFFER, BUFFER, 1, 2, 0, -1))),
    "read": Kind(63, 0, 3, lambda s: (s.fd(), s.buffer(), s.one(0, 1, 5, 100, BUFFER))),
    "write": Kind(64, 1, 4, lambda s: (s.fd(), DATA + s.one(*range(26)), s.one(0, 1, 5, 26, 100))),
    "pread64": Kind(67, 17, 2, lambda s: (s.fd(), s.buffer(), s.one(0, 1, 5, 100), s.one(0, 3, 50, 1000, -1))),
    "pwrite64": Kind(68, 18, 2, lambda s: (s.fd(), DATA, s.one(0, 1, 5, 100), s.one(0, 3, 50, 300, -1))),
    "lseek": Kind(62, 8, 3, lambda s: (s.fd(), s.one(0, 1, 5, 100, -1, -5, 1 << 40), s.one(0, 1, 2, 5))),
    "ftruncate": Kind(46, 77, 2, lambda s: (s.fd(), s.one(0, 1, 5, 100, 1000, -1))),
    "close": Kind(57, 3, 4, lambda s: (s.fd(),)),
    "dup": Kind(23, 32, 1, lambda s: (s.fd(),)),
    "dup3": Kind(24, 292, 1, lambda s: (s.fd(), s.fd(), s.one(0, 0x80000, 1))),
    "fcntl": Kind(25, 72, 2, lambda s: (s.fd(), s.one(0, 1, 2, 3, 1030), s.one(0, 1, 3, 9, 63, 64, -1))),
    "pipe2": Kind(59, 293, 1, lambda s: (s.buffer(), s.one(0x800, 0x800, 0x80800, 0x801))),
    "umask": Kind(166, 95, 1, lambda s: (s.one(0, 0o22, 0o77, 0o777, -1, 0o7777),)),
    "fchmodat": Kind(53, 268, 3, lambda s: (s.at(), s.path(), s.mode())),
    "getdents64": Kind(61, 217, 3, lambda s: (OPENED, s.buffer(), BUFFER)),
}


# Which arguments are directories at which a path begins, where that is not the first alone.
STARTS = {"symlinkat": [1], "linkat": [0, 2], "renameat2": [0, 2]}


@dataclass
class Outcome:
    """The answers of a sequence's calls, and what is in their buffers."""
    memory: bytes

    def answer(self, index: int) -> int:
        return struct.unpack_from("<q", self.memory, 8 * index)[0]

    def notes(self, index: int) -> int:
        """What Linux knew before the call."""
        return self.memory[SIZE + index]

    def buffer(self, index: int) -> bytes:
        start = BUFFERS - ANSWERS + BUFFER * index
        return self.memory[start:start + BUFFER]


# --- dettrace: a guest that goes through a table of calls

def addi(rd: int, rs1: int, value: int) -> int:
    return (value & 0xFFF) << 20 | rs1 << 15 | rd << 7 | 0x13


def li(rd: int, value: int) -> list[int]:
    high = (value + 0x800) >> 12
    return [(high & 0xFFFFF) << 12 | rd << 7 | 0x37, addi(rd, rd, value - (high << 12))]


def ld(rd: int, offset: int, rs1: int) -> int:
    return offset << 20 | rs1 << 15 | 3 << 12 | rd << 7 | 0x03


def bne(rs1: int, rs2: int, offset: int) -> int:
    return ((offset >> 12 & 1) << 31 | (offset >> 5 & 0x3F) << 25 | rs2 << 20 | rs1 << 15 | 1 << 12
            | (offset >> 1 & 15) << 8 | (offset >> 11 & 1) << 7 | 0x63)


def code() -> bytes:
    """Makes the calls of the table, keeps the answers, writes them with the buffers to standard output, and exits."""
    ecall, a0, a1, a2, a7, s0, s1, s2, s3, s4, s5 = 0x73, 10, 11, 12, 17, 8, 9, 18, 19, 20, 21
    keep_a0 = a0 << 20 | s1 << 15 | 3 << 12 | 0x23
    loop = [ld(a7, 0, s0), *(ld(a0 + i, 8 + 8 * i, s0) for i in range(6)), bne(a0, s4, 8), addi(a0, s3, 0), ecall,
            bne(a7, s5, 8), addi(s3, a0, 0), keep_a0, addi(s1, s1, 8), addi(s0, s0, 56), addi(s2, s2, -1)]
    words = [*li(s0, TABLE), *li(s1, ANSWERS), *li(s2, CALLS_OF_A_SEQUENCE), *li(s3, -1), *li(s4, OPENED),
             *li(s5, CALLS["openat"].number), *loop, bne(s2, 0, -4 * len(loop)), *li(a0, 1), *li(a1, ANSWERS),
             *li(a2, SIZE), *li(a7, 64), ecall, *li(a0, 0), *li(a7, 93), ecall]
    return b"".join(struct.pack("<I", word & 0xFFFFFFFF) for word in words)


def guest(sequence: Sequence) -> bytes:
    """The executable: code, table of calls, data, and room for what comes."""
    table = b"".join(struct.pack("<7q", CALLS[name].number, *arguments, *[0] * (6 - len(arguments)))
                     for name, arguments in sequence.calls)
    parts = [(0x10000, code(), 5), (TABLE, table, 6), (DATA, bytes(sequence.data), 6), (ANSWERS, b"", 6)]
    headers, file = b"", bytes(0x1000)
    for address, part, rights in parts:
        size = SIZE if address == ANSWERS else len(part)
        headers += struct.pack("<IIQQQQQQ", 1, rights, len(file), address, address, len(part), size, 0x1000)
        file += part + bytes(-len(part) % 0x1000)
    start = b"\x7fELF\x02\x01\x01" + bytes(9) + struct.pack(
        "<HHIQQQIHHHHHH", 2, 243, 1, 0x10000, 64, 0, 0, 64, 56, len(parts), 0, 0, 0)
    return start + headers + file[len(start + headers):]


def in_dettrace(sequence: Sequence, folder: pathlib.Path) -> Outcome | None:
    """What comes in dettrace; None where the run ended before, as by a signal."""
    (folder / "p").write_bytes(guest(sequence))
    entry = {"path": "/p", "type": "file", "mode": 0o755, "blob": "p"}
    (folder / "image.json").write_text(json.dumps({"version": 1, "entries": [entry]}))
    ran = subprocess.run([PROGRAM, "run", folder, "--", "/p"], stdin=subprocess.DEVNULL, capture_output=True)
    if ran.returncode != 0:
        return None
    event, report = ran.stdout.split(b"\n", 2)[1:]
    assert event == b"out 1 %d" % SIZE, event
    return Outcome(report[:SIZE])


# --- Linux: a child that makes the calls itself

LIBC = ctypes.CDLL(None, use_errno=True)
LIBC.syscall.restype = ctypes.c_long
LIBC.mmap.restype = ctypes.c_void_p
LIBC.mmap.argtypes = [ctypes.c_void_p, ctypes.c_size_t, ctypes.c_int, ctypes.c_int, ctypes.c_int, ctypes.c_long]


def system_call(number: int, *arguments: int) -> int:
    """A call's answer, minus the errno where it is refused."""
    answer = LIBC.syscall(*map(ctypes.c_long, (number, *arguments)))
    return -ctypes.get_errno() if answer == -1 else answer


def become_root() -> None:
    """Enters a user namespace in which the user is root."""
    user, group = os.geteuid(), os.getegid()
    if LIBC.unshare(0x10000000) != 0:
        raise OSError("no user namespace")
    for file, text in ("setgroups", "deny"), ("uid_map", f"0 {user} 1"), ("gid_map", f"0 {group} 1"):
        pathlib.Path("/proc/self", file).write_text(text)


def enter(root: str) -> None:
    """Makes a folder the root, with the descriptors and the mask of a guest."""
    if os.geteuid() != 0:
        become_root()
    null = os.open("/dev/null", os.O_RDWR)
    os.chroot(root)
    os.chdir("/")
    os.umask(0o22)
    signal.signal(signal.SIGPIPE, signal.SIG_DFL)
    resource.setrlimit(resource.RLIMIT_NOFILE, (64, 64))
    for descriptor in range(3):
        os.dup2(null, descriptor)
    os.closerange(3, 64)


def is_nothing(start: int, address: int) -> bool:
    """Whether a path leads to nothing that can be renamed, or has a slash behind what is no directory."""
    path = ctypes.string_at(address)
    names = path.rstrip(b"/")
    try:
        node = os.stat(names, dir_fd=None if start == AT_FDCWD else start, follow_symlinks=False)
    except OSError:
        return True
    return names.split(b"/")[-1] in (b".", b"..") or path != names and not stat.S_ISDIR(node.st_mode)


def notes(name: str, arguments: tuple[int, ...]) -> int:
    """What Linux knows before a call, as far as it matters to a known difference."""
    found = 0
    for start in [".", *(arguments[at] for at in STARTS.get(name, [0]) if 0 <= arguments[at] < 64)]:
        with contextlib.suppress(OSError):
            found |= IS_REMOVED * (os.stat(start).st_nlink == 0)
    if name == "renameat2" and arguments[1] not in BAD_ADDRESSES:
        found |= IS_NOTHING * is_nothing(*arguments[:2])
    with contextlib.suppress(OSError, OverflowError):
        node = os.fstat(arguments[0])
        found |= IS_DIRECTORY * stat.S_ISDIR(node.st_mode)
        if name in ("write", "pwrite64"):
            place = arguments[3] if name == "pwrite64" else os.lseek(arguments[0], 0, os.SEEK_CUR)
            found |= IS_FAR * (max(place, node.st_size) + arguments[2] > FILE_LIMIT)
        if name == "getdents64":
            found |= IS_LISTED * (os.lseek(arguments[0], 0, os.SEEK_CUR) > 0)
    return found


def make_calls(sequence: Sequence, shared: mmap.mmap) -> None:
    """Makes the calls, with data and buffers at the guest's addresses."""
    private, writable = mmap.MAP_PRIVATE | mmap.MAP_ANONYMOUS | 0x10, mmap.PROT_READ | mmap.PROT_WRITE
    for address, size in (DATA, len(sequence.data)), (ANSWERS, SIZE):
        assert LIBC.mmap(address, size, writable, private, -1, 0) == address
    ctypes.memmove(DATA, bytes(sequence.data), len(sequence.data))
    opened = -1
    for index, (name, arguments) in enumerate(sequence.calls):
        if arguments[0] == OPENED:
            arguments = opened, *arguments[1:]
        shared[SIZE + index] = notes(name, arguments)
        answer = system_call(CALLS[name].native, *arguments)
        if name == "openat":
            opened = answer
        ctypes.memmove(ANSWERS + 8 * index, struct.pack("<q", answer), 8)
    shared[:SIZE] = ctypes.string_at(ANSWERS, SIZE)


def on_linux(sequence: Sequence, folder: pathlib.Path) -> Outcome | None:
    """What comes on Linux, where the root has one file, `/p`; None where a signal ended the calls."""
    (folder / "p").write_bytes(b"p")
    for node in folder, folder / "p":
        node.chmod(0o755)
    with mmap.mmap(-1, SHARED) as shared:
        child = os.fork()
        if child == 0:
            with contextlib.suppress(BaseException):
                enter(str(folder))
                make_calls(sequence, shared)
                os._exit(0)
            os._exit(1)
        status = os.waitpid(child, 0)[1]
        if os.WIFSIGNALED(status):
            return None
        if status != 0:
            raise OSError("the calls can't be made on this Linux: is there root or a user namespace?")
        return Outcome(shared[:])


# --- what is compared

def told(buffer: bytes, native: bool, inodes: dict[int, int]) -> tuple:
    """What is told of a node, as far as it is compared: of a device, which input and streams are, that it is one."""
    if native:
        _, inode, links, mode, user, group, _, device, size, block = struct.unpack_from("<QQQIIIIQQQ", buffer)
    else:
        _, inode, mode, links, user, group, device, _, size, block = struct.unpack_from("<QQIIIIQQqi", buffer)
    if stat.S_ISCHR(mode):
        return "device",
    which = None if stat.S_ISFIFO(mode) else inodes.setdefault(inode, len(inodes))
    return which, oct(mode), links, user, group, device, None if stat.S_ISDIR(mode) else size, block


def entries(buffer: bytes) -> list[tuple]:
    """A listing's names and types, in order of names."""
    found, at = [], 0
    while size := struct.unpack_from("<H", buffer, at + 16)[0]:
        found.append((buffer[at + 19:at + size].split(b"\0")[0], buffer[at + 18]))
        at += size
    return sorted(found)


class Known(Exception):
    """A difference that docs/GUESTS.md tells, behind which the trees differ."""


class Made(NamedTuple):
    """A call as it was made, its paths as texts, and what Linux knew before it."""
    name: str
    arguments: tuple[int, ...]
    paths: list[bytes]
    notes: int

    def is_at_removed(self) -> bool:
        """Whether a directory at which a path may begin was removed."""
        return bool(self.notes & IS_REMOVED)

    def finds_nothing(self) -> bool:
        """Whether nothing can be renamed at the old path."""
        return bool(self.notes & IS_NOTHING)

    def goes_up(self) -> bool:
        """Whether one of the paths leads to `..` of the directory that it begins at."""
        names = ([name for name in path.split(b"/") if name != b"."] for path in self.paths)
        return any(first == b".." for first, *_ in filter(None, names))

    def has_slash(self) -> bool:
        """Whether the last path ends in a slash."""
        return any(path.endswith(b"/") for path in self.paths[-1:])

    def opens_with(self, flag: int) -> bool:
        """Whether openat has this flag."""
        return bool(self.arguments[2] & flag)


class Order(NamedTuple):
    """Two refusals of a call that both have a reason: what dettrace tells, what Linux does, in which case, and why."""
    calls: str
    ours: str
    linux: str
    case: Callable[[Made], bool]
    reason: str

    def explains(self, call: Made, ours: str, linux: str) -> bool:
        """Whether these are the two errnos; a row without names has any."""
        return (call.name in self.calls.split() and ours in (self.ours or ours).split()
                and linux in (self.linux or linux).split() and self.case(call))


ON_PATHS = "openat mkdirat symlinkat linkat unlinkat renameat2 newfstatat faccessat chdir readlinkat fchmodat"
ORDERS = [
    Order(ON_PATHS, "ENOENT", "", lambda call: call.is_at_removed() and call.goes_up(),
          "a directory that was removed has no `..` here"),
    Order(ON_PATHS, "ENAMETOOLONG", "ENOENT", Made.is_at_removed,
          "Linux looks nothing up in a directory that was removed, so no name is too long"),
    Order("openat", "ENOENT ENOTDIR EEXIST ENAMETOOLONG ELOOP", "EISDIR", lambda call: call.opens_with(os.O_CREAT),
          "with O_CREAT, Linux refuses a slash at the end before it looks up the last name"),
    Order("openat", "ELOOP", "ENOTDIR", lambda call: call.opens_with(os.O_DIRECTORY) and call.opens_with(os.O_NOFOLLOW),
          "of a link that is not to be followed, Linux first tells that it is no directory"),
    Order("mkdirat symlinkat linkat renameat2", "ENOTDIR", "EEXIST", Made.has_slash,
          "Linux tells that the new name is taken before it looks at the slash behind it"),
    Order("linkat renameat2", "EPERM ENOTDIR", "ENOENT", Made.is_at_removed,
          "Linux looks at the new name's directory, which was removed, before it looks at what gets the name"),
    Order("renameat2", "ENOENT ENOTDIR EBUSY ENAMETOOLONG",
          "EFAULT ENOENT ENOTDIR EBUSY EEXIST ENAMETOOLONG ELOOP EBADF", Made.finds_nothing,
          "Linux looks up the directories of both paths before the last name of the old one"),
    Order("renameat2", "EISDIR", "ENOTDIR", Made.has_slash,
          "Linux looks at the slash behind the new name before it looks at what has that name"),
    Order("renameat2", "ENOTDIR", "EINVAL", Made.has_slash,
          "Linux tells that a directory would go below itself before it looks at the slash behind the new name"),
    Order("renameat2", "EISDIR", "ENOTEMPTY", lambda call: True,
          "Linux tells that the old name is below the new one before it looks at what the two are"),
    Order("readlinkat", "ENOENT", "EBADF", lambda call: b"" in call.paths,
          "with an empty path, Linux looks at the directory first"),
    Order("newfstatat", "EFAULT", "EBADF", lambda call: call.arguments[1] == 0,
          "since Linux 6.11, AT_EMPTY_PATH makes an address of 0 an empty path"),
    Order("pread64 pwrite64", "EBADF", "ESPIPE", lambda call: True,
          "Linux tells that a pipe has no offsets before it looks at which end it is"),
    Order("lseek", "ESPIPE", "EINVAL", lambda call: call.arguments[2] > 4,
          "Linux looks at what the offset counts from before it looks at what is open"),
]


def order_of(call: Made, ours: int, linux: int) -> str | None:
    """Why two refusals of a call have different errnos, where a row explains it."""
    names = errno.errorcode[-ours], errno.errorcode[-linux]
    return next((order.reason for order in ORDERS if order.explains(call, *names)), None)


def agree(call: Made, ours: int, linux: int) -> bool:
    """Whether two answers of a call agree."""
    if ours < 0 and linux < 0:
        return ours == linux or order_of(call, ours, linux) is not None
    if ours == -errno.ENOENT and call.is_at_removed() and call.goes_up():
        raise Known("`..` of a directory that was removed")
    if call.name == "newfstatat" and call.arguments[1] == 0 and ours == -errno.EFAULT:
        return linux == 0  # since 6.11 an address of 0 is an empty path
    if ours == -errno.EFBIG and call.notes & IS_FAR:
        raise Known("a file that would get too large")
    if ours == -errno.EINVAL and call.notes & IS_DIRECTORY and call.name == "lseek":
        raise Known("a place in a directory")
    if ours != linux and call.notes & IS_LISTED:
        raise Known("a name that comes while its directory is listed")
    if call.name == "fcntl" and call.arguments[1] == 3:
        return ours == linux & (os.O_ACCMODE | os.O_APPEND | os.O_NONBLOCK)
    return ours == linux


def made(sequence: Sequence, index: int, linux: Outcome) -> Made:
    """A call of a sequence, as it was made on Linux."""
    name, arguments = sequence.calls[index]
    return Made(name, arguments, sequence.paths(arguments), linux.notes(index))


def difference(call: Made, index: int, pair: tuple[Outcome, Outcome], inodes: tuple[dict, dict]):
    """What came of a call on both sides where that differs, or None."""
    ours, linux = pair
    name = call.name
    answers = ours.answer(index), linux.answer(index)
    if not agree(call, *answers):
        return answers
    if answers[0] < 0:
        return None
    came = ours.buffer(index), linux.buffer(index)
    if name in ("fstat", "newfstatat"):
        came = told(came[0], False, inodes[0]), told(came[1], True, inodes[1])
    elif name == "getdents64":
        came = entries(came[0]), entries(came[1])
    return came if came[0] != came[1] else None


def shown(sequence: Sequence, index: int) -> str:
    """A call with its arguments, the paths among them as texts."""
    name, arguments = sequence.calls[index]
    where = {address: text for text, address in sequence.texts.items()}
    texts = (repr(where[value][:60]) if value in where else str(value) for value in arguments)
    return f"call {index}, {name}({', '.join(texts)})"


def named(came: object) -> str:
    """What came of a call, a refusal by its name."""
    return errno.errorcode.get(-came, str(came)) if isinstance(came, int) and came < 0 else str(came)


@dataclass
class Tally:
    """How many calls were compared, how many of these were done, why errnos differ, and how many sequences differ."""
    compared: int = 0
    done: int = 0
    orders: collections.Counter = field(default_factory=collections.Counter)
    differ: int = 0

    def compare(self, sequence: Sequence, ours: Outcome, linux: Outcome) -> str | None:
        """The first call that differs, in words, if none comes before it behind which the trees differ."""
        inodes: tuple[dict, dict] = {}, {}
        for index in range(CALLS_OF_A_SEQUENCE):
            call = made(sequence, index, linux)
            try:
                found = difference(call, index, (ours, linux), inodes)
            except Known:
                return None
            if found is not None:
                return f"{shown(sequence, index)}: {named(found[0])}, on Linux {named(found[1])}"
            self.count(call, ours.answer(index), linux.answer(index))
        return None

    def count(self, call: Made, ours: int, linux: int) -> None:
        """Counts a call that agrees."""
        self.compared += 1
        self.done += ours >= 0
        if ours < 0 and linux < 0 and ours != linux:
            self.orders[order_of(call, ours, linux)] += 1

    def run(self, number: int) -> None:
        """Makes the calls of a sequence, and tells what differs."""
        sequence = Sequence(number)
        with tempfile.TemporaryDirectory() as image, tempfile.TemporaryDirectory(dir="/dev/shm") as root:
            ours, linux = in_dettrace(sequence, pathlib.Path(image)), on_linux(sequence, pathlib.Path(root))
        if ours is not None and linux is not None:
            found = self.compare(sequence, ours, linux)
        else:
            found = None if ours is linux else "one of the two was ended by a signal"
        if found is not None:
            self.differ += 1
            print(f"sequence {number}: {found}")


def main() -> int:
    parser = argparse.ArgumentParser(description=__doc__, formatter_class=argparse.RawDescriptionHelpFormatter)
    parser.add_argument("sequences", nargs="?", type=int, default=1000)
    parser.add_argument("first", nargs="?", type=int, default=0)
    given = parser.parse_args()
    if not os.access(PROGRAM, os.X_OK):
        parser.error("the program is not built; ./dettrace build makes it")
    tally = Tally()
    for number in range(given.first, given.first + given.sequences):
        tally.run(number)
    for order in ORDERS:
        print(f"{tally.orders[order.reason]} times: {order.reason}")
    print(f"{given.sequences} sequences, {tally.compared} calls compared, {tally.done} of them done, "
          f"{tally.differ} sequences differ")
    return tally.differ > 0


if __name__ == "__main__":
    sys.exit(main())
