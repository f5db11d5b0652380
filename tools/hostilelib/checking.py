"""What is wrong with runs of one try: by what they ended with, wrote and used, and beside one another."""
from __future__ import annotations

import os
import re
from pathlib import Path
from typing import List, Optional, Sequence

from imagelib.errors import Refused, StoreFault
from imagelib.index import FILE, read_image
from reportlib.reader import NotReport, Reader

from .running import Ran
from .tries import Try

USAGE = (rb"dettrace: usage: dettrace run IMAGE [^\n]*-- \[NAME=VALUE \.\.\] PROGRAM \[ARG \.\.\]\n")
LINES = {2: USAGE, 3: rb"dettrace: image refused: [1-9][0-9]* [A-Za-z]+\n", 4: rb"dettrace: store fault\n",
         5: rb"dettrace: host fault\n", 6: rb"dettrace: output fault\n", 7: rb"dettrace: out of memory\n"}
SUMMARY = re.compile(rb"demo ([0-9]+)\nstatus ([0-9]+)\nreport ([0-9]+) ([0-9a-f]{64})\n")
DECIDED = (0, 1, 10)

# What a run of a try may take: of a processor's time so much, and so much more for each instruction of its budget (in a
# loop execve costs the most: a millisecond for some twenty instructions, and more where the machine is busy); and of
# memory so much, so many times what it writes, and so many times the bytes of the image's files. No guest of a try makes
# calls with lists or buffers as long as they may be, which cost more.
SECONDS, SECONDS_OF_AN_INSTRUCTION = 10.0, 1e-4
MEMORY, MEMORY_OF_OUTPUT, MEMORY_OF_FILES = 1 << 30, 4, 2


def seconds_for(budget: int) -> float:
    return SECONDS + budget * SECONDS_OF_AN_INSTRUCTION


def memory_for(ran: Ran, folder: Path) -> int:
    memory = MEMORY + MEMORY_OF_OUTPUT * ran.size
    return memory if ran.memory <= memory else memory + MEMORY_OF_FILES * bytes_of_files(folder)


def bytes_of_files(folder: Path) -> int:
    """The bytes of an image's files, each by itself, also where several are one blob. None are kept where it is refused."""
    try:
        image = read_image(str(folder / "img"))
    except (Refused, StoreFault):
        return 0
    return sum(image.sizes[entry.blob] for entry in image.entries if entry.type == FILE)


def faults(tried: Try, runs: Sequence[Ran], folder: Path) -> List[str]:
    """Why a try failed; nothing where it didn't."""
    found = []
    for number, ran in enumerate(runs, 1):
        found += [f"run {number}: {fault}" for fault in faults_of(tried, ran, folder)]
    first = runs[0]
    for number, ran in enumerate(runs[1:], 2):
        if (first.status, first.size, first.out, first.err) != (ran.status, ran.size, ran.out, ran.err):
            found.append(f"run {number} ended or wrote otherwise than run 1: {difference(first, ran)}")
    return found


def faults_of(tried: Try, ran: Ran, folder: Path) -> List[str]:
    """What is wrong with one run."""
    status = ran.status
    if status is None:
        return [f"it had not ended after {ran.passed:.0f} seconds"]
    if status < 0:
        return [f"it was ended by signal {-status}"]
    found = []
    if status not in tried.statuses:
        found.append(f"status {status} is none of {sorted(tried.statuses)}")
    if not re.fullmatch(LINES.get(status, b""), ran.err):
        found.append(f"at status {status} it wrote {ran.err[:200]!r} to standard error")
    if status in DECIDED:
        found += written_faults(tried, ran)
    elif ran.out and status in (2, 3, 4):
        found.append(f"at status {status} it wrote {ran.out[:200]!r} to standard output")
    if tried.kind == "images":
        found += image_faults(ran, folder)
    if ran.seconds > seconds_for(tried.budget):
        found.append(f"it took {ran.seconds:.1f} seconds of a processor, for a budget of {tried.budget}")
    if ran.memory > memory_for(ran, folder):
        found.append(f"it took {ran.memory >> 20} MiB of memory, and wrote {ran.size} bytes")
    return found


def written_faults(tried: Try, ran: Ran) -> List[str]:
    """What is wrong with a report or a summary."""
    if tried.words[:1] == [b"demo"]:
        summary = SUMMARY.fullmatch(ran.out)
        is_right = summary is not None and int(summary[2]) == ran.status
        return [] if is_right else [f"status {ran.status}, and the summary {ran.out[:200]!r}"]
    if ran.size > len(ran.out):
        # Too much to be read whole.
        return []
    reader = Reader()
    try:
        for _ in reader.feed(ran.out):
            pass
        if reader.finish() is not None:
            return ["the report is cut"]
    except NotReport as error:
        return [str(error)]
    told = told_status(reader)
    return [] if told == ran.status else [f"status {ran.status}, and the report comes to {told}"]


def told_status(reader: Reader) -> Optional[int]:
    """The status that a report comes to; None where its verdict lacks the end of the first process."""
    assert reader.verdict is not None
    if reader.verdict.kind != "ended":
        return 10
    end = reader.own_end
    return None if end is None else int((end.how, end.number) != ("code", 0))


def image_faults(ran: Ran, folder: Path) -> List[str]:
    """Where an image is taken or refused otherwise than tools/image check would have it."""
    try:
        read_image(str(folder / "img"))
        wanted, line = DECIDED, b""
    except Refused as refused:
        wanted, line = (3,), b"dettrace: image refused: %d %b\n" % (refused.kind.number, refused.kind.name.encode())
    except StoreFault:
        wanted, line = (4,), b"dettrace: store fault\n"
    if ran.status in wanted and ran.err == line:
        return []
    return [f"status {ran.status} and {ran.err!r}, where tools/image says {wanted} and {line!r}"]


def difference(first: Ran, second: Ran) -> str:
    if first.status != second.status:
        return f"status {first.status} and {second.status}"
    for name, one, other in ("output", first.out, second.out), ("standard error", first.err, second.err):
        if one != other:
            at = len(os.path.commonprefix([one, other]))
            return f"{name} from byte {at + 1} on, of {len(one)} and {len(other)}"
    return f"{first.size} and {second.size} bytes"
