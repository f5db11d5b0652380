"""What the tests of exports and of steps share: a folder with an image, guests for it, and runs of the program."""
from __future__ import annotations

import shutil
import subprocess
import tempfile
import unittest
from pathlib import Path
from typing import Any, Dict

from hostilelib.building import Guest
from hostilelib.numbers import CHDIR
from hostilelib.tries import file_entry, index_of
from program import PROGRAM, needs_program

PAGE = 4096
WORDS_REFUSED, IMAGE_REFUSED, STORE_FAULT, OUTPUT_FAULT, REFUSED = 2, 3, 4, 6, 8
USAGE = (b"dettrace: usage: dettrace run IMAGE [--seed N] [--budget N] [--workers N] [--host N] [--stdin NAME] -- "
         b"[NAME=VALUE ..] PROGRAM [ARG ..]\n")
FAULT = b"dettrace: store fault\n"
# Directories one in another, whose paths have up to 3,840 bytes.
DEEP = ["".join(f"/{'d' * 255}" for _ in range(depth)) for depth in range(1, 16)]


def refused(reason: str) -> bytes:
    return f"dettrace: export refused: {reason}\n".encode()


def folder_entry(path: str) -> Dict[str, Any]:
    return {"path": path, "type": "dir", "mode": 0o755}


def files_of(folder: Path) -> Dict[str, bytes]:
    return {path.name: path.read_bytes() for path in folder.iterdir()}


def small_guest() -> Guest:
    return Guest(PAGE)


def go_deep(guest: Guest) -> None:
    name = guest.text(b"d" * 255)
    for _ in DEEP:
        guest.call(CHDIR, name)
        guest.expect(0)


@needs_program
class FolderCase(unittest.TestCase):
    """A test in a folder with an image, `img`."""

    def setUp(self) -> None:
        self.top = Path(tempfile.mkdtemp(prefix="folder-test-"))
        self.addCleanup(shutil.rmtree, self.top, True)
        (self.top / "img").mkdir()

    def image(self, guest: Guest, *entries: Dict[str, Any], **blobs: bytes) -> None:
        """Makes the image, of the program `/p` and of what else there is."""
        blobs["p"] = guest.executable()
        (self.top / "img" / "image.json").write_bytes(index_of(*entries, file_entry("/p", "p")))
        for name, data in blobs.items():
            (self.top / "img" / name).write_bytes(data)

    def call(self, *words: object, **options: Any) -> "subprocess.CompletedProcess[bytes]":
        return subprocess.run([PROGRAM, *map(str, words)], cwd=self.top, stdin=subprocess.DEVNULL, capture_output=True,
                              timeout=100, check=False, **options)

    def report(self, *words: object, status: int = 0) -> bytes:
        """The report of a run of the image; by itself, of its program."""
        done = self.call("run", "img", *(words or ("--", "/p")))
        self.assertEqual((done.returncode, done.stderr), (status, b""))
        return done.stdout
