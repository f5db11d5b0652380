"""What bash completes of the four commands, as its variable COMP_WORDS has their words."""
from __future__ import annotations

import os
import shutil
import subprocess
import tempfile
import unittest
from pathlib import Path
from typing import List

from program import TOP

SCRIPT = """. "$0" && COMP_CWORD=$(($# - 1)) && COMP_WORDS=("$@") && COMP_LINE="$*" && COMP_POINT=${#COMP_LINE}
function=$(complete -p "$1" | sed 's/.*-F \\([a-z_]*\\) .*/\\1/') && { $function; printf '%s\\n' "${COMPREPLY[@]}"; }
"""
RUN_OPTIONS = ["--seed", "--budget", "--workers", "--host", "--stdin", "--profile", "--report", "--tree", "--take",
               "--check", "--twice", "--strict", "--quiet", "--help", "--version", "--"]


@unittest.skipUnless(shutil.which("bash"), "there is no bash")
class CompletionTest(unittest.TestCase):
    def setUp(self) -> None:
        folder = tempfile.TemporaryDirectory()
        self.addCleanup(folder.cleanup)
        self.folder = Path(folder.name)
        (self.folder / "two words").mkdir()
        (self.folder / "image").mkdir()
        for name in ("image.json", "list"):
            (self.folder / "image" / name).touch()
        (self.folder / "tree.tar").touch()

    def completed(self, *words: str) -> List[str]:
        """What the last of the words becomes, in the order in which it is offered."""
        done = subprocess.run(["bash", "--norc", "-c", SCRIPT, TOP / "completion/dettrace.bash", *words],
                              cwd=self.folder, env={"PATH": os.defpath}, stdin=subprocess.DEVNULL, capture_output=True,
                              text=True, check=True)
        self.assertEqual(done.stderr, "")
        return [line for line in done.stdout.splitlines() if line]

    def expect(self, *rows: tuple[str, List[str]]) -> None:
        """Each row has words that are parted by blanks, of which the last may be empty, and what it becomes."""
        for words, wanted in rows:
            with self.subTest(words):
                self.assertEqual(sorted(self.completed(*words.split(" "))), sorted(wanted))

    FOLDERS = ["image", "two words"]
    FILES = ["image", "tree.tar", "two words"]

    def test_the_program(self) -> None:
        options = ["--seed", "--budget", "--workers", "--host", "--stdin", "--"]
        self.expect(
            ("dettrace ", ["run", "export", "steps", "demo"]), ("dettrace r", ["run"]), ("dettrace d", ["demo"]),
            ("dettrace x", []),
            ("dettrace run ", self.FOLDERS), ("dettrace run im", ["image"]), ("dettrace run tree", []),
            ("dettrace run -", options), ("dettrace run --s", ["--seed", "--stdin"]), ("dettrace run --seed ", []),
            ("dettrace run --seed 5 ", self.FOLDERS), ("dettrace run image ", options),
            ("dettrace run image --host 1 --b", ["--budget"]), ("dettrace run image -- ", []),
            ("dettrace run image -- --s", []), ("dettrace run --workers ", []),
            ("dettrace run --seed = 5 ", self.FOLDERS))

    def test_an_export(self) -> None:
        options = ["--seed", "--budget", "--workers", "--host", "--stdin", "--"]
        self.expect(
            ("dettrace e", ["export"]), ("dettrace export ", self.FOLDERS), ("dettrace export image ", self.FOLDERS),
            ("dettrace export image i", ["image"]), ("dettrace export image image ", options),
            ("dettrace export --seed 5 image ", self.FOLDERS), ("dettrace export image -- i", []))

    def test_steps(self) -> None:
        options = ["--seed", "--budget", "--workers", "--host"]
        self.expect(
            ("dettrace s", ["steps"]), ("dettrace steps ", self.FOLDERS), ("dettrace steps i", ["image"]),
            ("dettrace steps image ", ["image.json", "list"]), ("dettrace steps image/ l", ["list"]),
            ("dettrace steps --seed 5 image l", ["list"]), ("dettrace steps nowhere ", []),
            ("dettrace steps image list ", options), ("dettrace steps image --", options),
            ("dettrace steps image list --workers ", []))

    def test_a_demonstration(self) -> None:
        options = ["--workers", "--host"]
        self.expect(
            ("dettrace demo ", options), ("dettrace demo 7 ", options), ("dettrace demo 7 --w", ["--workers"]),
            ("dettrace demo --workers ", []), ("dettrace demo --workers 2 ", options), ("dettrace demo 7 --s", []))

    def test_the_tool_that_runs(self) -> None:
        self.expect(
            ("dettrace-run ", self.FILES), ("dettrace-run t", ["tree.tar", "two words"]),
            ("dettrace-run -", RUN_OPTIONS), ("dettrace-run --s", ["--seed", "--stdin", "--strict"]),
            ("dettrace-run --stdin ", []), ("dettrace-run --stdin list ", self.FILES),
            ("dettrace-run --profile ", ["1", "2"]), ("dettrace-run --profile = ", ["1", "2"]),
            ("dettrace-run --profile =", ["1", "2"]), ("dettrace-run --profile 2 ", self.FILES),
            ("dettrace-run --check ", []), ("dettrace-run --report ", self.FILES),
            ("dettrace-run --twice ", self.FILES), ("dettrace-run --seed 1 image ", RUN_OPTIONS),
            ("dettrace-run --tree ", self.FOLDERS), ("dettrace-run --tree = i", ["image"]),
            ("dettrace-run --take ", []), ("dettrace-run --take /bin =", self.FOLDERS),
            ("dettrace-run --take /bin = i", ["image"]), ("dettrace-run --take /bin = out ", self.FILES),
            ("dettrace-run --take = /bin = out image ", RUN_OPTIONS),
            ("dettrace-run --report = t", ["tree.tar", "two words"]),
            ("dettrace-run image -- ", []))

    def test_the_tool_for_images(self) -> None:
        self.expect(
            ("dettrace-image ", ["pack", "list", "check", "unpack", "--help"]), ("dettrace-image p", ["pack"]),
            ("dettrace-image pack ", self.FILES), ("dettrace-image pack -", ["--exclude", "--profile", "--help"]),
            ("dettrace-image pack --exclude ", []), ("dettrace-image pack --profile ", ["1", "2"]),
            ("dettrace-image pack --profile = ", ["1", "2"]), ("dettrace-image pack --profile =", ["1", "2"]),
            ("dettrace-image pack --profile 2 ", self.FILES), ("dettrace-image list ", self.FOLDERS),
            ("dettrace-image list -", ["--help"]), ("dettrace-image check -", ["--stdin", "--help"]),
            ("dettrace-image check --stdin ", []), ("dettrace-image check --stdin in ", self.FOLDERS),
            ("dettrace-image unpack -", ["--tar", "--help"]), ("dettrace-image unpack image ", self.FOLDERS))

    def test_the_tool_for_reports(self) -> None:
        self.expect(
            ("dettrace-report ", ["diff", "output", "json", "page", "--help"]), ("dettrace-report d", ["diff"]),
            ("dettrace-report diff ", self.FILES), ("dettrace-report diff -", ["--color=", "--quiet", "--help"]),
            ("dettrace-report diff --color = ", ["always", "never", "auto"]),
            ("dettrace-report diff --color = n", ["never"]),
            ("dettrace-report diff --color =", ["always", "never", "auto"]),
            ("dettrace-report output tree.tar ", ["1", "2"]), ("dettrace-report output t", ["tree.tar", "two words"]),
            ("dettrace-report json -", ["--help"]), ("dettrace-report page -", ["--output", "--help"]))


if __name__ == "__main__":
    unittest.main()
