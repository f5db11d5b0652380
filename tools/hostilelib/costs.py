"""What one instruction may cost: guests that make each call with lists, buffers and paths at their greatest.

A guest prepares something, and makes the call so many times; what it takes without the call is taken off. All is time
of a processor."""
from __future__ import annotations

import struct
import tempfile
from pathlib import Path
from typing import Callable, Dict, Iterator, NamedTuple, Optional

from .building import Guest, MIB, ROOM
from .code import CODE, EXECUTE, PAGE, READ as READABLE, S1, Segment, executable
from .numbers import (AT_FDCWD, AT_REMOVEDIR, BRK, E2BIG, EAGAIN, EFBIG, EINVAL, EISDIR, ENOENT, ENOTEMPTY, EXECVE,
                      FSTAT, FTRUNCATE, GETCWD, GETDENTS64, GETRANDOM, LINKAT, LSEEK, MMAP, MPROTECT, MUNMAP,
                      O_NONBLOCK, OPENAT, PIPE2, PREAD64, PRIVATE_ANONYMOUS, PWRITE64, READ_WRITE, READV, RENAMEAT2,
                      UNLINKAT, WAIT4, WRITE, WRITEV)
from .running import run, write_files
from .tries import file_entry, index_of

GREATEST_BUDGET = "1000000000"
# A run that is measured may take so long, and so many bytes of addresses.
SECONDS_AT_MOST, ADDRESSES_AT_MOST = 600.0, 12 << 30
LETTERS = {"letters": b"x" * (16 * MIB)}
# Where a list is read to, and behind it what it points to.
LIST, POINTED = ROOM, ROOM + 16 * MIB
MAPPED = 0x2000000000
# Memory that a guest maps or moves its break by, where it has little of its own.
LITTLE, GREAT = 4 * MIB, 58 * MIB
PATH = b"./" * 2047
PATH_THROUGH_LINKS = b"./" * 2045 + b"l00"

Step = Callable[[Guest], None]
ERRNOS = {E2BIG: "E2BIG", ENOENT: "ENOENT"}


class Cost(NamedTuple):
    """A call at its greatest: what it is, how a guest prepares it, how it makes it once and what the last call of that
    answers (None where this is another number each time), how many times it is made, the image's other files by name,
    and how much memory the guest has beside its code."""

    what: str
    prepare: Step
    make: Step
    answer: Optional[int]
    times: int = 10
    files: Dict[str, bytes] = {}
    room: int = 62 * MIB


def steps(*all_of: Step) -> Step:
    def step(guest: Guest) -> None:
        for each in all_of:
            each(guest)
    return step


def call(number: int, *arguments: int) -> Step:
    return lambda guest: guest.call(number, *arguments)


def on_path(number: int, path: bytes, *arguments: int) -> Step:
    return lambda guest: guest.call(number, AT_FDCWD, guest.text(path), *arguments)


def nothing(_: Guest) -> None:
    """No preparation."""


def costs() -> Iterator[Cost]:
    """All that is tried, by kinds."""
    yield from memory_costs()
    yield from transfer_costs()
    yield from path_costs()
    yield from directory_costs(4_000)
    yield from directory_costs(100_000)
    yield next(directory_costs(1_000_000))
    yield from program_costs()
    yield from report_costs()


# --- memory

def memory_costs() -> Iterator[Cost]:
    mapping = call(MMAP, 0, GREAT, READ_WRITE, PRIVATE_ANONYMOUS, -1, 0)
    end = ROOM + LITTLE
    yield Cost("mmap and munmap of 58 MiB", nothing, steps(mapping, call(MUNMAP, MAPPED, GREAT)), 0, room=LITTLE)
    yield Cost("mmap over 58 MiB that are there", mapping,
               call(MMAP, MAPPED, GREAT, READ_WRITE, PRIVATE_ANONYMOUS | 16, -1, 0), MAPPED,
               room=LITTLE)
    yield Cost("mprotect of 58 MiB", mapping, call(MPROTECT, MAPPED, GREAT, READ_WRITE), 0, room=LITTLE)
    yield Cost("brk up by 58 MiB, and down", nothing, steps(call(BRK, end + GREAT), call(BRK, end)), end, room=LITTLE)
    yield Cost("clone, exit and wait4 of 62 MiB", touched, great_child, None)


def touched(guest: Guest) -> None:
    guest.touch_pages(ROOM, 62 * 256)


def great_child(guest: Guest) -> None:
    """A child with as much memory, which ends."""
    guest.child(lambda: None)
    guest.wait()


# --- transfers

def transfer_costs() -> Iterator[Cost]:
    great = ranges(1024, 40 * MIB)
    yield Cost("write of 62 MiB to a stream", nothing, call(WRITE, 1, ROOM, 62 * MIB), 62 * MIB, 3)
    yield Cost("writev of 1 GiB in 1,024 ranges to a stream", read_list, call(WRITEV, 1, LIST, 1024),
               1024 * MIB, 1, ranges(1024, MIB))
    yield Cost("writev of 2 GiB in 1,024 ranges to a file (EFBIG)", steps(read_list, new_file),
               call(WRITEV, 3, LIST, 1024), -EFBIG, 2, great)
    yield Cost("writev of 2 GiB in 1,024 ranges to a full pipe (EAGAIN)", steps(read_list, full_pipe),
               call(WRITEV, 4, LIST, 1024), -EAGAIN, 10, great)
    yield Cost("readv of 16 MiB into 1,024 ranges", steps(read_list, opened(b"/letters")),
               steps(call(READV, 3, LIST, 1024), call(LSEEK, 3, 0, 0)), 0, 10,
               {**ranges(1024, 16_384), **LETTERS})
    yield Cost("pread64 of 16 MiB", opened(b"/letters"), call(PREAD64, 3, ROOM, 16 * MIB, 0), 16 * MIB, 10, LETTERS)
    yield Cost("pwrite64 of 16 MiB", new_file, call(PWRITE64, 3, ROOM, 16 * MIB, 0), 16 * MIB)
    yield Cost("ftruncate to 16 MiB, and to 0", new_file, steps(call(FTRUNCATE, 3, 16 * MIB), call(FTRUNCATE, 3, 0)),
               0)
    yield Cost("getrandom of 62 MiB", nothing, call(GETRANDOM, ROOM, 62 * MIB, 0), 62 * MIB, 3)


def ranges(count: int, length: int) -> Dict[str, bytes]:
    return {"list": struct.pack("<QQ", POINTED, length) * count}


def read_list(guest: Guest) -> None:
    """Reads the files `/list` and, if there is one, `/text`."""
    guest.read_file(b"/list", LIST, 16 * MIB)
    guest.read_file(b"/text", POINTED, 16 * MIB)


def opened(path: bytes) -> Step:
    return lambda guest: guest.open(path)


def new_file(guest: Guest) -> None:
    guest.open_new(b"/new")


def full_pipe(guest: Guest) -> None:
    """A pipe without room, whose ends are the descriptors 3 and 4."""
    guest.call(PIPE2, ROOM + 15 * MIB, O_NONBLOCK)
    guest.call(WRITE, 4, POINTED, 65536)


# --- paths and directories

def path_costs() -> Iterator[Cost]:
    yield Cost("openat of a path of 2,047 names", nothing, on_path(OPENAT, PATH, 1, 0), -EISDIR, 100)
    yield Cost("openat through 40 links of 4,095 bytes", Guest.make_links, on_path(OPENAT, PATH_THROUGH_LINKS, 1, 0),
               -EISDIR)
    yield Cost("getcwd 4,000 directories down", down, call(GETCWD, ROOM, 4 * MIB), 8001)
    yield Cost("renameat2 of a directory to 4,000 below itself (EINVAL)", down, renamed_below_itself, -EINVAL)


def down(guest: Guest) -> None:
    guest.go_down(4000, b"d")


def renamed_below_itself(guest: Guest) -> None:
    guest.call(RENAMEAT2, AT_FDCWD, guest.text(b"/d"), AT_FDCWD, guest.text(b"x"), 0)


def directory_costs(count: int) -> Iterator[Cost]:
    told, prepare = f"{count:,} names", names(count)
    yield Cost(f"getdents64 of one entry of {told}", prepare, call(GETDENTS64, 4, ROOM, 24), None)
    yield Cost(f"fstat of a directory with {told}", prepare, call(FSTAT, 4, ROOM), 0)
    yield Cost(f"unlinkat of a directory with {told} (ENOTEMPTY)", prepare, on_path(UNLINKAT, b"/d", AT_REMOVEDIR),
               -ENOTEMPTY)
    yield Cost(f"getcwd below a directory with {told}", steps(prepare, below), call(GETCWD, ROOM, 4096), 5)
    yield Cost(f"unlinkat of the first of {told}, and linkat", prepare, first_goes_last, 0)


def names(count: int) -> Step:
    """The working directory has so many names of one file; it is open as descriptor 4."""
    def step(guest: Guest) -> None:
        guest.open_new(b"/new")
        guest.go_down(1, b"/d")
        guest.call(LINKAT, AT_FDCWD, guest.text(b"/new"), AT_FDCWD, guest.text(b"first"), 0)
        guest.make_names(count, b"/new")
        guest.open(b".")
    return step


def below(guest: Guest) -> None:
    guest.go_down(1, b"e")


def first_goes_last(guest: Guest) -> None:
    first = guest.text(b"first")
    guest.call(UNLINKAT, AT_FDCWD, first, 0)
    guest.call(LINKAT, AT_FDCWD, guest.text(b"/new"), AT_FDCWD, first, 0)


# --- programs and children

def program_costs() -> Iterator[Cost]:
    yield execve_cost(10_000, 100_000, E2BIG)
    yield execve_cost(1_000_000, 100_000, E2BIG)
    yield execve_cost(2_000_000, 4 * MIB, E2BIG)
    yield execve_cost(14_500, 0, ENOENT)
    yield Cost("clone, execve of 16 MiB in 64 segments, exit and wait4", nothing, executing_child, None, 3,
               {"great": great_program()}, MIB)
    yield Cost("wait4 of 63 children that have ended", children, call(WAIT4, -1, 0, 0, 0), None, 63, {}, MIB)


def execve_cost(count: int, length: int, errno: int) -> Cost:
    """execve with so many pointers to one text of so many bytes, of a program that is not there."""
    files = {"list": struct.pack("<Q", POINTED) * count + bytes(8), "text": b"x" * length + b"\0"}
    told = f"execve with {count:,} pointers to a text of {length:,} bytes ({ERRNOS[errno]})"
    return Cost(told, read_list, lambda guest: guest.call(EXECVE, guest.text(b"/nothing"), LIST, 0), -errno,
                1 if length else 10, files)


def executing_child(guest: Guest) -> None:
    guest.child(lambda: guest.call(EXECVE, guest.text(b"/great"), 0, 0))
    guest.wait()


def great_program() -> bytes:
    """A program with as many bytes as a file may have, nearly all memory, and as many segments as there may be."""
    # li a0, 0; li a7, 93; ecall
    code = struct.pack("<3I", 0x00000513, 0x05D00893, 0x00000073)
    size = (16 * MIB - 8192) // 63
    first = Segment(CODE + PAGE, code, PAGE, READABLE | EXECUTE)
    others = [Segment(0x1000000 + at * 252 * PAGE, b"y" * size, 250 * PAGE, READABLE) for at in range(63)]
    return executable(CODE + PAGE, [first, *others])


def children(guest: Guest) -> None:
    for _ in range(63):
        guest.child(lambda: None)


# --- the report

def report_costs() -> Iterator[Cost]:
    yield Cost("one more name of a file of 16 MiB, which the report tells of", great_file, one_more_name, 0, 8)


def great_file(guest: Guest) -> None:
    guest.open_new(b"/new")
    guest.call(FTRUNCATE, 3, 16 * MIB)


def one_more_name(guest: Guest) -> None:
    name = guest.text(b"aaaaaaaa")
    guest.write_letters(name, S1)
    guest.call(LINKAT, AT_FDCWD, guest.text(b"/new"), AT_FDCWD, name, 0)


# --- measuring

def image_of(cost: Cost, times: int) -> Dict[str, bytes]:
    """The image of a guest that makes the call so many times."""
    guest = Guest(cost.room)
    cost.prepare(guest)
    if times:
        with guest.code.loop(S1, times):
            cost.make(guest)
            if cost.answer is not None:
                guest.expect(cost.answer)
    files = {"p": guest.executable(), **cost.files}
    return {**files, "image.json": index_of(*(file_entry(f"/{name}", name) for name in sorted(files)))}


def seconds_of(program: Path, cost: Cost, times: int) -> Optional[float]:
    """The time of a run; None where the run didn't come to its end."""
    with tempfile.TemporaryDirectory(prefix="hostile-") as name:
        folder = Path(name)
        write_files(folder / "img", image_of(cost, times))
        words = [str(program), "run", "img", "--budget", GREATEST_BUDGET, "--workers", "1", "--host", "1", "--", "/p"]
        ran = run(words, folder, SECONDS_AT_MOST, ADDRESSES_AT_MOST, MIB)
        return ran.seconds if ran.status == 0 else None


def measured(program: Path, cost: Cost) -> Optional[float]:
    """The seconds of one call."""
    with_calls, without = seconds_of(program, cost, cost.times), seconds_of(program, cost, 0)
    if with_calls is None or without is None:
        return None
    return max(0.0, with_calls - without) / cost.times


def lines(program: Path, wanted: str) -> Iterator[str]:
    """A line for each call of which these letters are told, as it was measured."""
    for cost in costs():
        if wanted in cost.what:
            seconds = measured(program, cost)
            yield f"{cost.what}: " + ("the run did not end with code 0" if seconds is None else f"{seconds:.4f} s")
