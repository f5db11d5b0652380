"""What the tests of tools/run share: a stand-in for the program, which gives recorded reports, and folders to pack."""
from __future__ import annotations

import contextlib
import os
import shlex
import signal
import struct
import subprocess
import sys
import unittest
from pathlib import Path
from tempfile import TemporaryFile, mkdtemp
from typing import Any, Callable, Dict, Iterator, List, NamedTuple, Optional, Sequence
from unittest import mock

from imagelib.errors import ImageError
from imagelib.folders import STOPS, remove

from . import commands

TOOLS = Path(__file__).resolve().parent.parent
SCRIPT = TOOLS / "run"
EXAMPLES = TOOLS.parent / "examples"

USAGE = ("dettrace: usage: dettrace run IMAGE [--seed N] [--budget N] [--workers N] [--host N] [--stdin NAME] -- "
         "[NAME=VALUE ..] PROGRAM [ARG ..]")
# That of an older program.
OLD_USAGE = USAGE.replace("[--workers N] ", "").replace("[--stdin NAME] ", "")

# Notes its words, and gives the report of this call, or the last one that there is. An export gets the files that are
# kept for it.
STAND_IN = """#!/bin/sh
cd {folder}
[ $# -gt 0 ] || {{ echo {usage} >&2; exit 2; }}
printf '%s\\n' "$@" >>calls
printf '\\0' >>calls
number=$(($(cat number) + 1))
echo $number >number
while [ ! -e report$number ]; do number=$((number - 1)); done
cat report$number
[ "$1" != export ] || [ ! -d exported ] || cp -R exported/. "$3"
cat errors >&2
{more}
exit {status}
"""


class Done(NamedTuple):
    """How a run ended, what it wrote on standard output, and its lines on standard error."""

    status: int
    out: bytes
    err: List[str]


class RunCase(unittest.TestCase):
    """A test in an empty folder, with a cache of its own, and a stand-in for the program."""

    maxDiff = None

    def setUp(self) -> None:
        self.top = Path(mkdtemp(prefix="run-test-"))
        self.addCleanup(remove, str(self.top))
        self.addCleanup(os.umask, os.umask(0o022))
        self.folder = self.top / "stand-in"
        self.folder.mkdir()
        self.program = self.folder / "dettrace"
        self.work = self.top / "work"
        self.work.mkdir()
        (self.work / "tree").mkdir()
        self.cache = self.top / "cache"
        self.environment: Dict[str, str] = {
            **os.environ, "DETTRACE": str(self.program), "XDG_CACHE_HOME": str(self.cache),
            "TMPDIR": str(self.temporary())}

    def temporary(self) -> Path:
        """Where the tool makes its own files."""
        place = self.top / "tmp"
        place.mkdir(exist_ok=True)
        return place

    def stand_in(self, *reports: bytes, status: int = 0, errors: str = "", usage: str = USAGE, more: str = "") -> None:
        """Makes the stand-in, whose calls give these reports one after the other."""
        for number, report in enumerate(reports, 1):
            (self.folder / f"report{number}").write_bytes(report)
        (self.folder / "number").write_text("0")
        (self.folder / "errors").write_text(errors)
        (self.folder / "calls").write_text("")
        self.program.write_text(STAND_IN.format(folder=shlex.quote(str(self.folder)), usage=shlex.quote(usage),
                                                more=more, status=status))
        self.program.chmod(0o755)

    def export(self, index: str, **blobs: bytes) -> None:
        """Keeps the files of an exported tree for the stand-in: its index, and the bytes of its files."""
        folder = self.folder / "exported"
        folder.mkdir(exist_ok=True)
        (folder / "image.json").write_text(index)
        for name, data in blobs.items():
            (folder / name).write_bytes(data)

    def calls(self) -> List[List[str]]:
        """The words of each call of the stand-in."""
        return [call.split("\n")[:-1] for call in (self.folder / "calls").read_text().split("\0")[:-1]]

    def start(self, *words: Any, **options: Any) -> "subprocess.Popen[bytes]":
        options = {"stdin": subprocess.DEVNULL, "stdout": subprocess.PIPE, "stderr": subprocess.PIPE, **options}
        return subprocess.Popen([sys.executable, str(SCRIPT), *map(os.fspath, words)], cwd=self.work,
                                env=self.environment, **options)

    def run_words(self, *words: Any, **options: Any) -> Done:
        """A run, with the test's folder left out of what it says: in this process, or with options as users make it."""
        if options:
            with self.start(*words, **options) as running:
                out, err = running.communicate(timeout=60)
            return self.done(running.returncode, out or b"", err or b"")
        with TemporaryFile() as out_file, TemporaryFile() as err_file, self.here(out_file.fileno(), err_file.fileno()):
            status = commands.main([os.fspath(word) for word in words])
            out, err = (os.pread(file.fileno(), 2**24, 0) for file in (out_file, err_file))
        return self.done(status, out, err)

    @contextlib.contextmanager
    def here(self, out: int, err: int) -> Iterator[None]:
        """Makes this process what a user's would be, with these descriptors as its two streams."""
        handlers = {number: signal.getsignal(number) for number in STOPS}
        folder, kept = os.getcwd(), (os.dup(1), os.dup(2))
        os.chdir(self.work)
        os.dup2(out, 1)
        os.dup2(err, 2)
        try:
            with mock.patch.dict(os.environ, self.environment, clear=True):
                yield
        finally:
            os.chdir(folder)
            for descriptor, old in zip((1, 2), kept):
                os.dup2(old, descriptor)
                os.close(old)
            for number, handler in handlers.items():
                signal.signal(number, handler)

    def done(self, status: int, out: bytes, err: bytes) -> Done:
        said = err.decode("utf-8", "backslashreplace").replace(f"{self.work}/", "").replace(f"{self.top}/", "")
        return Done(status, out, said.splitlines())

    def run_command(self, *command: str) -> Done:
        """A run of the test's tree."""
        return self.run_words("tree", "--", *command)

    def says(self, done: Done, status: int, *lines: str) -> None:
        """Asserts that a run put nothing out, and said these lines."""
        self.assertEqual(done, Done(status, b"", [f"run: {line}" for line in lines]))

    def lines_of(self, function: Callable[..., object], *words: str) -> List[str]:
        """The lines of the error with which a function of the tool for images ends."""
        with self.here(1, 2), self.assertRaises(ImageError) as caught:
            function(*words)
        return [line.replace(f"{self.work}/", "").replace(f"{self.top}/", "") for line in caught.exception.lines]

    def write(self, name: str, data: bytes, mode: int = 0o755) -> None:
        """Makes a file of the tree that is packed."""
        place = self.work / "tree" / name
        place.parent.mkdir(parents=True, exist_ok=True)
        place.write_bytes(data)
        place.chmod(mode)

    def images(self) -> List[str]:
        """The names of what is kept in the cache."""
        folder = self.cache / "dettrace" / "images"
        return sorted(os.listdir(folder)) if folder.exists() else []

    def left(self) -> List[str]:
        """What stands where the tool makes files of its own, and where it was started."""
        return sorted([*os.listdir(self.temporary()), *os.listdir(self.work)])


def report(*events: bytes, verdict: str = "ended", tree: Sequence[bytes] = ()) -> bytes:
    """A whole report."""
    lines = b"".join(line + b"\n" for line in tree)
    return b"dettrace 1\n" + b"".join(events) + f"verdict {verdict}\ntree {len(tree)}\n".encode() + lines


def out(stream: int, data: bytes) -> bytes:
    return b"out %d %d\n%b\n" % (stream, len(data), data)


ENDED = b"exit 1 code 0\n"
HELLO = report(out(1, b"hello\n"), ENDED)


def elf(machine: int = 243, kind: int = 2, flags: int = 0, segments: Sequence[tuple] = ((1, 0, 0x10000, 64, 64),),
        entry: int = 0x10000, entry_size: int = 56, count: Optional[int] = None,
        head: bytes = b"\x7fELF\2\1\1") -> bytes:
    """An executable. Of each segment: its type, its offset, its address, its bytes in the file and in memory."""
    table = b"".join(struct.pack("<IIQQQQQQ", kind_there, 5, offset, address, address, in_file, in_memory, 4096)
                     for kind_there, offset, address, in_file, in_memory in segments)
    fields = (kind, machine, 1, entry, 64, 0, flags, 64, entry_size, len(segments) if count is None else count, 0, 0, 0)
    return head.ljust(16, b"\0") + struct.pack("<HHIQQQIHHHHHH", *fields) + table + b"\x73\0\0\0"
