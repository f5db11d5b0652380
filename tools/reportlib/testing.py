"""What the tests of the tool for reports share: how it is run, and reports to run it on."""
from __future__ import annotations

import io
import subprocess
import sys
import tempfile
import unittest
from pathlib import Path
from typing import Any, Dict, List, NamedTuple, Optional

from . import commands
from .streams import Streams

TOOLS = Path(__file__).resolve().parent.parent
TOOL = TOOLS / "report"
EMPTY_DIGEST = "e3b0c44298fc1c149afbf4c8996fb92427ae41e4649b934ca495991b7852b855"
OTHER_DIGEST = "1501b082e1e9381364f4dff35e3125f1b5c09c92437ce389d0be00f992861165"

# A report with each kind of event and of line, and with bytes that are no UTF-8.
SMALL = b"".join([
    b"dettrace 1\n",
    b"out 1 6\nhello\n\n",
    b"exit 2 code 255\n",
    b"out 2 4\n\n\xff\x00\n\n",
    b"exit 31 signal 9\n",
    b"exit 1 code 0\n",
    b"verdict ended\n",
    b"tree 5\n",
    b"dir 3 0750 5000 /bin\n",
    b"file 2 0644 0 0 " + EMPTY_DIGEST.encode() + b" /bin/%20%C3%A9\n",
    b"file 9 4755 12000 89 " + OTHER_DIGEST.encode() + b" /bin/a%FF\n",
    b"link 4 7000 /bin/a%FF%25 ../a%20%25b\n",
    b"link 5 18446744073709551615 /run %80\n"])


# A report of an image of version 2, with each device.
DEVICES = b"".join([
    b"dettrace 2\n",
    b"exit 1 code 0\n",
    b"verdict ended\n",
    b"tree 4\n",
    b"dir 2 0755 0 /dev\n",
    b"dev 4 0444 18446744073709551615 random /dev/%20\n",
    b"dev 3 0666 0 null /dev/null\n",
    b"dev 5 4777 2000 zero /dev/%FF\n"])


class Result(NamedTuple):
    status: int
    output: bytes
    errors: str


def run(*words: str, given: bytes = b"", at_once: int = 2**20) -> Result:
    """Runs the tool in this process, with these bytes as its standard input, of which a read gives so many at most."""
    source, output, errors = io.BytesIO(given), io.BytesIO(), io.BytesIO()
    streams = Streams(lambda size: source.read(min(size, at_once)), output.write, errors.write)
    status = commands.main(words, streams)
    return Result(status, output.getvalue(), errors.getvalue().decode())


def run_script(*words: str, **options: Any) -> "subprocess.CompletedProcess[bytes]":
    """Runs the script as a user does."""
    options = {"stdout": subprocess.PIPE, "stderr": subprocess.PIPE, "stdin": subprocess.DEVNULL, **options}
    return subprocess.run([sys.executable, str(TOOL), *words], timeout=60, check=False, **options)


def examples() -> List[bytes]:
    """The reports that lie beside the examples."""
    return [path.read_bytes() for path in sorted((TOOLS.parent / "examples").glob("*/report"))]


def report(*events: bytes, verdict: bytes = b"ended", tree: Optional[List[bytes]] = None) -> bytes:
    """A report of such parts; one of the verdict alone where the tree is None."""
    parts = [b"dettrace 1\n", *events, b"verdict " + verdict + b"\n"]
    if tree is not None:
        parts += [b"tree %d\n" % len(tree), *(line + b"\n" for line in tree)]
    return b"".join(parts)


def out(stream: int, data: bytes) -> bytes:
    return b"out %d %d\n%b\n" % (stream, len(data), data)


def file_line(inode: int = 2, mode: str = "0644", stamp: int = 0, size: int = 0, digest: str = EMPTY_DIGEST,
              path: str = "/a") -> bytes:
    return f"file {inode} {mode} {stamp} {size} {digest} {path}".encode()


class Case(unittest.TestCase):
    """A test with a temporary folder."""

    maxDiff = None

    def setUp(self) -> None:
        folder = tempfile.TemporaryDirectory()
        self.addCleanup(folder.cleanup)
        self.folder = Path(folder.name)

    def write(self, name: str, data: bytes) -> str:
        path = self.folder / name
        path.write_bytes(data)
        return str(path)

    def written(self, **files: bytes) -> Dict[str, str]:
        return {name: self.write(name, data) for name, data in files.items()}
