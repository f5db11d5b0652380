"""What the tests of tools/image share: a folder of their own, the tool's runs, and trees that they make."""
from __future__ import annotations

import io
import os
import stat
import subprocess
import sys
import unittest
from tempfile import mkdtemp
from typing import Dict, List, NamedTuple, Optional
from unittest import mock

from . import commands
from .folders import remove

TOOLS = os.path.dirname(os.path.dirname(os.path.abspath(__file__)))
SCRIPT = os.path.join(TOOLS, "image")


class Done(NamedTuple):
    """How a run ended, and its lines."""

    status: int
    out: List[str]
    err: List[str]


class ImageCase(unittest.TestCase):
    """A test in an empty folder, in which no mask takes a bit away from a mode."""

    def setUp(self) -> None:
        self.top = mkdtemp(prefix="image-test-")
        self.addCleanup(remove, self.top)
        self.addCleanup(os.umask, os.umask(0o022))

    def at(self, *names: str) -> str:
        return os.path.join(self.top, *names)

    def image(self, *words: str) -> Done:
        """A run in this process, with the test's folder left out of what it says."""
        streams = [io.TextIOWrapper(io.BytesIO(), encoding="utf-8") for _ in range(2)]
        with mock.patch.object(sys, "stdout", streams[0]), mock.patch.object(sys, "stderr", streams[1]):
            status = commands.main(words)
        return Done(status, *(self.lines(stream.buffer.getvalue()) for stream in streams))

    def script(self, *words: str, env: Optional[Dict[str, str]] = None) -> Done:
        """A run as users make it."""
        done = subprocess.run(
            [sys.executable, SCRIPT, *words],
            cwd=self.top,
            env={**os.environ, **(env or {})},
            stdin=subprocess.DEVNULL,
            capture_output=True,
            check=False,
        )
        return Done(done.returncode, self.lines(done.stdout), self.lines(done.stderr))

    def lines(self, output: bytes) -> List[str]:
        return output.decode().replace(f"{self.top}/", "").splitlines()

    def says(self, done: Done, status: int, *err: str) -> None:
        """Asserts that a run put nothing out, and said these lines."""
        self.assertEqual(done, Done(status, [], [f"image: {line}" for line in err]))

    def left(self) -> List[str]:
        """What stands in the test's folder."""
        return sorted(os.listdir(self.top))


def write(path: str, data: bytes, mode: int = 0o644) -> None:
    """Makes a file, and the folders around it."""
    os.makedirs(os.path.dirname(path), exist_ok=True)
    with open(path, "wb") as file:
        file.write(data)
        # A write by another than root takes the set-user-id bit away.
        file.flush()
        os.fchmod(file.fileno(), mode)


def read(path: str) -> bytes:
    with open(path, "rb") as file:
        return file.read()


def tree_of(top: str) -> Dict[str, tuple]:
    """What stands below a folder: the mode and what is in it, by path."""
    found: Dict[str, tuple] = {}
    waiting = [""]
    while waiting:
        folder = waiting.pop()
        for name in os.listdir(top + folder):
            path = f"{folder}/{name}"
            mode = os.lstat(top + path).st_mode
            if stat.S_ISLNK(mode):
                found[path] = ("link", os.readlink(top + path))
            elif stat.S_ISDIR(mode):
                found[path] = ("dir", mode & 0o7777)
                waiting.append(path)
            elif stat.S_ISCHR(mode):
                device = os.lstat(top + path).st_rdev
                found[path] = ("dev", mode & 0o7777, (os.major(device), os.minor(device)))
            else:
                found[path] = ("file", mode & 0o7777, read(top + path))
    return found
