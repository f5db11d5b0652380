"""What the tests of programs from Debian's sources share: folders that the build scripts of the examples make."""
from __future__ import annotations

import os
import subprocess
import tempfile
import unittest
from pathlib import Path
from typing import Dict

from program import EXAMPLES, PROGRAM, TOP
from reportlib.testing import run as report

GUEST = EXAMPLES / "guest"
CC = GUEST / "cc"
# What a script ends with where the machine lacks a package, or the network.
LACKING = 3


def environment() -> Dict[str, str]:
    """That of the scripts: what they build stays in the checkout, and is built once."""
    return {"DETTRACE_GUEST": str(TOP / "out" / "guest"), **os.environ, "DETTRACE": str(PROGRAM)}


def call(*words: object, **more: object) -> subprocess.CompletedProcess:
    """Runs a script, and skips the test by the script's own words where the machine lacks what it takes."""
    done = subprocess.run([*map(str, words)], env=environment(), stdin=subprocess.DEVNULL, capture_output=True, **more)
    if done.returncode == LACKING:
        raise unittest.SkipTest(done.stderr.decode(errors="replace").strip().splitlines()[-1])
    return done


def need_musl() -> None:
    """Builds musl, once, where it is not there."""
    if not (Path(environment()["DETTRACE_GUEST"]) / "musl").exists():
        done = call(GUEST / "musl.sh")
        if done.returncode:
            raise AssertionError(done.stderr.decode(errors="replace"))


def output_of(text: bytes) -> bytes:
    """What a report says was written, to both streams in their order."""
    return report("output", "-", given=text).output


class GuestCase(unittest.TestCase):
    """A test with a folder for temporary files, and one that a build script has made, if it names one."""

    maxDiff = None
    script = ""

    @classmethod
    def setUpClass(cls) -> None:
        folder = tempfile.TemporaryDirectory()
        cls.addClassCleanup(folder.cleanup)
        cls.made = Path(folder.name) / "made"
        if cls.script:
            done = call(EXAMPLES / cls.script / "build.sh", cls.made)
            if done.returncode:
                raise AssertionError(done.stderr.decode(errors="replace"))

    def setUp(self) -> None:
        folder = tempfile.TemporaryDirectory()
        self.addCleanup(folder.cleanup)
        self.folder = Path(folder.name)

    def run_tool(self, *words: object) -> subprocess.CompletedProcess:
        """tools/run, with images of its own."""
        more = {**environment(), "XDG_CACHE_HOME": str(self.folder / "cache")}
        return subprocess.run([TOP / "tools" / "run", *map(str, words)], env=more, stdin=subprocess.DEVNULL,
                              capture_output=True, check=False)
