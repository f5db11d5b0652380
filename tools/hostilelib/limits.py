"""What a run may take of the machine's memory: guests that go to each limit, and what they come to.

A guest looks at the answers that it gets there, and ends with code 0 where they are as they have to be."""
from __future__ import annotations

import tempfile
from pathlib import Path
from typing import Any, Dict, Iterator, List, NamedTuple, Optional, Tuple

from .building import Guest, MIB, ROOM
from .code import S0, S1
from .numbers import (CLONE, CLOSE, EAGAIN, EFBIG, EMFILE, ENOMEM, ENOSPC, FTRUNCATE, MMAP, PIPE2, PRIVATE_ANONYMOUS,
                      PWRITE64, READ, READ_WRITE, SCHED_YIELD, WRITE)
from .running import Ran, run, write_files
from .tries import file_entry, index_of

SECONDS_AT_MOST = 600.0
PAGE, PAGES, PROCESSES, DESCRIPTORS, NODES, FILE, PIPE = 4096, 16_384, 64, 64, 4_096, 16 * MIB, 65_536
MAPPED, PIPE_BYTES = 0x2000000000, ROOM + 4096
# Pages that a guest has from the start: 256 of the stack, that of the return from handlers, and these of its own.
START_PAGES, ROOM_PAGES = 257, 16


class Limit(NamedTuple):
    """A guest that goes to a limit: what it does, its image's files, and whether it is too large to be run without a
    limit of memory."""

    what: str
    files: Dict[str, Any]
    is_too_large: bool = False


def guest() -> Guest:
    return Guest(ROOM_PAGES * PAGE)


def image(made: Guest, **files: Any) -> Dict[str, Any]:
    files["p"] = made.executable()
    return {**files, "image.json": index_of(*(file_entry(f"/{name}", name) for name in sorted(files)))}


def own_pages(made: Guest) -> int:
    """At most so many pages has a guest whose code is not yet whole."""
    return START_PAGES + ROOM_PAGES + 4 + len(made.texts) // PAGE


def fill_memory(made: Guest) -> None:
    """Maps all pages that a process may have, but for a few, and writes to each; then no 64 KiB more can be mapped."""
    count = PAGES - own_pages(made) - 8
    made.call(MMAP, 0, count * PAGE, READ_WRITE, PRIVATE_ANONYMOUS, -1, 0)
    made.expect(MAPPED)
    made.touch_pages(MAPPED, count)
    made.call(MMAP, 0, 16 * PAGE, READ_WRITE, PRIVATE_ANONYMOUS, -1, 0)
    made.expect(-ENOMEM)


def limits() -> Iterator[Limit]:
    yield memory(1)
    yield memory(16)
    yield memory(PROCESSES)
    yield nodes()
    yield files(64)
    yield Limit(f"{NODES - 1:,} files of 16 MiB, all of one blob", many_entries(), True)
    yield files(NODES - 2)
    yield pipes()
    yield descriptors()
    yield names(1_000_000)
    yield output(64)
    yield depth(500)
    yield depth(1_000)


def memory(count: int) -> Limit:
    """So many processes, each with all memory that one may have."""
    made = guest()
    made.call(PIPE2, ROOM, 0)
    with made.code.loop(S0, max(1, count - 1)):
        made.child(lambda: (fill_memory(made), made.call(CLOSE, 4), made.call(READ, 3, ROOM, 1)))
    if count == PROCESSES:
        made.call(CLONE, 17, 0, 0, 0, 0)
        made.expect(-EAGAIN)
    if count > 1:
        fill_memory(made)
    with made.code.loop(S0, 8):
        made.call(SCHED_YIELD)
    made.call(CLOSE, 4)
    with made.code.loop(S0, max(1, count - 1)):
        made.wait()
    return Limit(f"{count} processes with 64 MiB", image(made))


def nodes() -> Limit:
    """Files until no more can be made. The root and the guest itself are two of them."""
    made = guest()
    name = made.text(b"aaaaaaaa")
    with made.code.loop(S0, NODES - 2):
        made.write_letters(name, S0)
        made.open_at(name)
        made.expect(3)
        made.call(CLOSE, 3)
    made.open_new(b"one more")
    made.expect(-ENOSPC)
    return Limit(f"{NODES:,} files and directories", image(made))


def files(count: int) -> Limit:
    """So many files as long as they may be."""
    made = guest()
    name = made.text(b"aaaaaaaa")
    with made.code.loop(S0, count):
        made.write_letters(name, S0)
        made.open_at(name)
        made.expect(3)
        made.call(PWRITE64, 3, ROOM, 1, FILE - 1)
        made.expect(1)
        made.call(PWRITE64, 3, ROOM, 1, FILE)
        made.expect(-EFBIG)
        made.call(FTRUNCATE, 3, FILE + 1)
        made.expect(-EFBIG)
        made.call(CLOSE, 3)
    return Limit(f"{count:,} files of 16 MiB that the guest writes", image(made), count > 100)


def many_entries() -> Dict[str, Any]:
    entries = [file_entry(f"/{at}", "f") for at in range(NODES - 1)]
    return {"image.json": index_of(*entries), "f": FILE}


def pipes() -> Limit:
    """Each process has as many full pipes as it has descriptors for: the end for reading alone stays open."""
    made = Guest(ROOM_PAGES * PAGE + PIPE)
    made.call(PIPE2, ROOM, 0)

    def fill() -> None:
        with made.code.loop(S1, DESCRIPTORS - 6):
            made.call(PIPE2, ROOM + 8, 0)
            made.expect(0)
            made.call_told(WRITE, ROOM + 12, PIPE_BYTES, PIPE)
            made.expect(PIPE)
            made.call_told(CLOSE, ROOM + 12)

    with made.code.loop(S0, PROCESSES - 1):
        made.child(lambda: (fill(), made.call(CLOSE, 4), made.call(READ, 3, ROOM, 1)))
    fill()
    with made.code.loop(S0, 600):
        made.call(SCHED_YIELD)
    made.call(CLOSE, 4)
    with made.code.loop(S0, PROCESSES - 1):
        made.wait()
    return Limit(f"{PROCESSES * (DESCRIPTORS - 6):,} pipes of 64 KiB", image(made))


def descriptors() -> Limit:
    made = guest()
    for number in range(3, DESCRIPTORS):
        made.open_new(b"f")
        made.expect(number)
    made.open_new(b"f")
    made.expect(-EMFILE)
    return Limit(f"{DESCRIPTORS} descriptors", image(made))


def names(count: int) -> Limit:
    """So many names of one file: no limit says how many there may be, but the budget."""
    made = guest()
    made.open_new(b"f")
    made.make_names(count, b"f")
    return Limit(f"{count:,} names of one file", image(made))


def output(count: int) -> Limit:
    """So much output, which is kept: no limit says how much there may be, but the budget."""
    made = Guest(32 * MIB)
    with made.code.loop(S0, count):
        made.call(WRITE, 1, ROOM, 16 * MIB)
        made.expect(16 * MIB)
    return Limit(f"{count * 16:,} MiB of output", image(made))


def depth(count: int) -> Limit:
    """Directories one in another, whose paths the report shows: no limit says how long these may be together."""
    made = guest()
    made.go_down(count, b"\xff" * 255)
    return Limit(f"{count:,} directories one in another, with names of 255 bytes", image(made))


def run_limit(program: Path, limit: Limit, memory_at_most: Optional[int]) -> Ran:
    """A run of a guest, with a limit of memory or without."""
    with tempfile.TemporaryDirectory(prefix="hostile-") as name:
        folder = Path(name)
        write_files(folder / "img", limit.files)
        words = [str(program), "run", "img", "--budget", "1000000000", "--workers", "1", "--host", "1", "--", "/p"]
        return run(words, folder, SECONDS_AT_MOST, memory_at_most, MIB)


def faults(ran: Ran, statuses: Tuple[int, ...]) -> List[str]:
    """What is wrong with a run: its status, or the line that it wrote."""
    line = b"dettrace: out of memory\n" if ran.status == 7 else b""
    if ran.status in statuses and ran.err == line:
        return []
    return [f"status {ran.status}, and not one of {list(statuses)}; on standard error {ran.err[:200]!r}"]


def lines(program: Path, memory_at_most: int, wanted: str) -> Iterator[Tuple[str, bool]]:
    """A line for each guest of which these letters are told, and whether all was as it has to be: without a limit it
    ends with code 0, and under one with that or with want of memory."""
    for limit in limits():
        if wanted not in limit.what:
            continue
        told, is_right = [], True
        for most, statuses in (None, (0,)), (memory_at_most, (0, 7)):
            if most is None and limit.is_too_large:
                told.append("too large to be run without a limit")
                continue
            ran = run_limit(program, limit, most)
            wrong = faults(ran, statuses)
            is_right = is_right and not wrong
            under = "" if most is None else f" under ulimit -v {most // 1024}"
            told.append(f"status {ran.status}{under}, {ran.memory // MIB:,} MiB, {ran.seconds:.1f} s"
                        + "".join(f" ({fault})" for fault in wrong))
        yield f"{limit.what}: {'; '.join(told)}", is_right
