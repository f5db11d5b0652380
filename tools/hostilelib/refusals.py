"""Want of memory that passes: each request for memory of a run is refused once, in runs of three guests. The runs have
to end with status 7 and a prefix of the report, or as if nothing had been. The later a request is, the more of the
report stands there."""
from __future__ import annotations

import os
import struct
import subprocess
import tempfile
from pathlib import Path
from typing import Any, Dict, Iterator, List, NamedTuple, Tuple

from .running import write_files
from .tries import examples, file_entry, index_of

SOURCE = Path(__file__).resolve().parent / "refusing.c"
LINE = b"dettrace: out of memory\n"
SECONDS_AT_MOST = 60.0
# Reads 10,000 bytes of /f, which stands behind the code, into memory behind itself, and writes as many as came.
READER = [0xF9C00513, 0x000105B7, 0x0C458593, 0x00000613, 0x00000693, 0x03800893, 0x00000073, 0x000115B7, 0x00002637,
          0x71060613, 0x03F00893, 0x00000073, 0x00050613, 0x00100513, 0x04000893, 0x00000073, 0x00000513, 0x05D00893,
          0x00000073]
READER_SIZE, READER_MEMORY, ALL_RIGHTS = 199, 0x4000, 7


class Run(NamedTuple):
    """What is run: how it is called here, its words, and the files of its image."""

    what: str
    words: List[str]
    files: Dict[str, Any]


class Ended(NamedTuple):
    """How a run ended, what it wrote, and how many requests for memory it made."""

    status: int
    out: bytes
    err: bytes
    requests: int


class Refused(NamedTuple):
    """What came of a run whose requests were refused one after the other: how many there were, at how many of them it
    ended with status 7, and what was wrong."""

    what: str
    requests: int
    ended: int
    faults: List[str]


def runs() -> List[Run]:
    hello = next(example for example in examples() if example.name == "hello")
    program, = hello.blobs.values()
    options = ["--host", "1", "--workers", "1"]
    files = {"p": reader(program), "f": b"letters\nof " * 909 + b"a",
             "image.json": index_of(file_entry("/f", "f", 0o644), file_entry("/p", "p"))}
    return [Run("hello", ["run", "img", *options, "--", "/p"],
                {"p": program, "image.json": index_of(file_entry("/p", "p"))}),
            Run("a guest that reads a file and writes it", ["run", "img", *options, "--", "/p"], files),
            Run("a demonstration", ["demo", "3", *options], {})]


def reader(program: bytes) -> bytes:
    """The guest that reads, with the headers of a guest that has one segment."""
    found = bytearray(program[:120])
    struct.pack_into("<I", found, 64 + 4, ALL_RIGHTS)
    struct.pack_into("<QQ", found, 64 + 32, READER_SIZE, READER_MEMORY)
    return bytes(found) + struct.pack(f"<{len(READER)}I", *READER) + b"/f\0"


def build(folder: Path) -> Path:
    """The library that stands before the C library's memory."""
    made = folder / "refusing.so"
    subprocess.run(["cc", "-O1", "-fPIC", "-shared", "-o", made, SOURCE], check=True)
    return made


def refuse(program: Path, library: Path, folder: Path, run: Run, number: int) -> Ended:
    """A run whose request of this number is refused; none where it is 0."""
    counted = folder / "requests"
    counted.unlink(missing_ok=True)
    environment = {**os.environ, "LD_PRELOAD": str(library), "REFUSED": str(number), "REQUESTS": str(counted)}
    done = subprocess.run([program, *run.words], cwd=folder, env=environment, stdin=subprocess.DEVNULL,
                          capture_output=True, timeout=SECONDS_AT_MOST, check=False)
    return Ended(done.returncode, done.stdout, done.stderr, int(counted.read_text()) if counted.exists() else 0)


def refused(program: Path, library: Path, run: Run, step: int = 1) -> Refused:
    """Refuses each request of a run, or one of so many."""
    with tempfile.TemporaryDirectory(prefix="hostile-") as name:
        folder = Path(name)
        write_files(folder / "img", run.files)
        whole = refuse(program, library, folder, run, 0)
        is_known = whole.status == 0 and whole.requests > 0
        found = [] if is_known else [f"with none refused it ends with {whole.status}, after {whole.requests} requests"]
        ended = written = 0
        for number in range(1, whole.requests + 1, step):
            came = refuse(program, library, folder, run, number)
            is_cut = came.status == 7 and came.err == LINE and whole.out.startswith(came.out)
            ended += is_cut
            if is_cut and len(came.out) < written:
                found.append(f"at request {number} it wrote {len(came.out)} bytes, and {written} at one before")
            written = max(written, len(came.out)) if is_cut else written
            if not is_cut and came[:3] != whole[:3]:
                wrote = f"{came.out[:200]!r} and {came.err[:200]!r}"
                found.append(f"at request {number} it ends with {came.status}, {wrote}")
        return Refused(run.what, whole.requests, ended, found)


def lines(program: Path) -> Iterator[Tuple[str, bool]]:
    """A line for each run, and whether all was as it has to be."""
    with tempfile.TemporaryDirectory(prefix="hostile-") as name:
        library = build(Path(name))
        for run in runs():
            came = refused(program, library, run)
            told = f"{came.what}: {came.requests} requests for memory, each refused once; {came.ended} runs end with 7"
            yield "; ".join([told, *came.faults]), not came.faults
