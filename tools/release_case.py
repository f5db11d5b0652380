"""What the tests of installations and releases share: a small checkout, and how commands are run in it."""
from __future__ import annotations

import os
import shutil
import subprocess
import sys
import tempfile
import unittest
from pathlib import Path
from typing import List, Set

from program import PROGRAM, TOP

# The program, or else another of this machine, which serves as well where it is only moved.
ANY_PROGRAM = PROGRAM if os.access(PROGRAM, os.X_OK) else Path("/bin/true").resolve()
PLACE = Path("crates") / "dettrace" / "out" / "dettrace"
COPIED = ("README.md", "Makefile", ".gitignore", "dettrace", "docs", "examples", "man", "completion", "tools")
# Where a machine without a toolchain has its programs, Python among them.
PLAIN_PATH = {"PATH": "/usr/bin:/bin" if os.access("/usr/bin/python3", os.X_OK)
              else f"{os.path.dirname(sys.executable)}:/usr/bin:/bin"}
AUTHOR = {"GIT_AUTHOR_NAME": "A", "GIT_AUTHOR_EMAIL": "a", "GIT_COMMITTER_NAME": "A", "GIT_COMMITTER_EMAIL": "a",
          "GIT_AUTHOR_DATE": "2025-03-01T23:30:00-0500", "GIT_COMMITTER_DATE": "2025-03-01T23:30:00-0500",
          "GIT_CONFIG_GLOBAL": os.devnull, "GIT_CONFIG_SYSTEM": os.devnull}

needs_tools = unittest.skipUnless(all(map(shutil.which, ("make", "git", "gzip", "tar"))),
                                  "one of make, git, gzip and tar is missing")


def run(words: List[str], folder: Path, **more: str) -> "subprocess.CompletedProcess[str]":
    """A command in a folder, with nothing of this machine's environment but where its programs are."""
    return subprocess.run(words, cwd=folder, env={**PLAIN_PATH, **more}, stdin=subprocess.DEVNULL, text=True,
                          stdout=subprocess.PIPE, stderr=subprocess.PIPE, check=False)


def files_below(top: Path) -> Set[str]:
    """The paths of all files and links below a folder."""
    return {str(path.relative_to(top)) for path in top.rglob("*") if path.is_symlink() or path.is_file()}


class ReleaseCase(unittest.TestCase):
    """A test with a folder, in which a checkout can be made."""

    maxDiff = None

    def setUp(self) -> None:
        folder = tempfile.TemporaryDirectory()
        self.addCleanup(folder.cleanup)
        self.folder = Path(folder.name)

    def checkout(self, name: str, has_program: bool = True) -> Path:
        """A copy of this checkout without its crates, all of it in one commit, which is the same in each copy."""
        top = self.folder / name
        top.mkdir()
        for part in COPIED:
            if (TOP / part).is_dir():
                shutil.copytree(TOP / part, top / part, ignore=shutil.ignore_patterns("__pycache__"))
            else:
                shutil.copy(TOP / part, top / part)
        (top / "crates.txt").write_text("dettrace:\n")
        (top / "crates/dettrace/src").mkdir(parents=True)
        (top / "crates/dettrace/src/main.rt").write_text("source\n")
        for words in (["init", "-q"], ["add", "-A"], ["commit", "-qm", "all"]):
            self.git(top, *words)
        if has_program:
            (top / PLACE).parent.mkdir()
            shutil.copy(ANY_PROGRAM, top / PLACE)
            (top / PLACE).touch()
        return top

    def git(self, top: Path, *words: str) -> str:
        done = run(["git", *words], top, **AUTHOR)
        self.assertEqual(done.returncode, 0, done.stderr)
        return done.stdout

    def make(self, top: Path, *words: str, **more: str) -> "subprocess.CompletedProcess[str]":
        return run(["make", *words], top, **more)

    def made(self, top: Path, *words: str, **more: str) -> str:
        """What a make that ends well prints."""
        done = self.make(top, *words, **more)
        self.assertEqual((done.returncode, done.stderr), (0, ""))
        return done.stdout


