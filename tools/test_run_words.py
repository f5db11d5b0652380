"""The words of tools/run: which are refused, and how they come to the program."""
from __future__ import annotations

import os
import subprocess
import unittest

from runlib.testing import HELLO, OLD_USAGE, SCRIPT, Done, RunCase

REST = "[options] FOLDER|ARCHIVE|IMAGE -- [NAME=VALUE ..] PROGRAM [ARG ..]"
HIGHEST = 2**64 - 1


class Words(RunCase):
    def setUp(self) -> None:
        super().setUp()
        self.stand_in(HELLO)

    def refuses(self, *cases: tuple) -> None:
        """Each row's words, and the line that is said of them."""
        for words, line in cases:
            with self.subTest(words):
                self.says(self.run_words(*words), 125, line)
        self.assertEqual(self.calls(), [])

    def test_a_number_out_of_its_range(self) -> None:
        self.refuses(
            (("--budget", "2000000000", "tree", "--", "/a"), "--budget 2000000000: at most 1000000000"),
            (("--budget=1000000001", "tree", "--", "/a"), "--budget 1000000001: at most 1000000000"),
            (("--budget", "0", "tree", "--", "/a"), "--budget 0: at least 1"),
            (("--seed", "18446744073709551616", "tree", "--", "/a"),
             f"--seed 18446744073709551616: at most {HIGHEST}"),
            (("--host", "9" * 5000, "tree", "--", "/a"), f"--host {'9' * 5000}: at most {HIGHEST}"),
            (("--seed", "-1", "tree", "--", "/a"), f"--seed -1: not a whole number from 0 to {HIGHEST}"),
            (("--budget", "1e6", "tree", "--", "/a"), "--budget 1e6: not a whole number from 1 to 1000000000"),
            (("--seed=", "tree", "--", "/a"), f"--seed : not a whole number from 0 to {HIGHEST}"),
            (("--seed", "٣", "tree", "--", "/a"), f"--seed ٣: not a whole number from 0 to {HIGHEST}"),
            (("--workers", "65", "tree", "--", "/a"), "--workers 65: at most 64"),
            (("--workers", "0", "tree", "--", "/a"), "--workers 0: at least 1"),
            (("--profile", "0", "tree", "--", "/a"), "--profile 0: at least 1"),
            (("--profile", "3", "tree", "--", "/a"), "--profile 3: at most 2"),
            (("--profile", "two", "tree", "--", "/a"), "--profile two: not a whole number from 1 to 2"),
            (("--check", "1", "tree", "--", "/a"), "--check 1: at least 2"),
            (("--check", "1001", "tree", "--", "/a"), "--check 1001: at most 1000"))

    def test_an_option_that_is_wrong(self) -> None:
        self.refuses(
            (("--bugdet", "5", "tree", "--", "/a"), "--bugdet: there is no such option; did you mean --budget?"),
            (("-x", "tree", "--", "/a"), "-x: there is no such option; a name that begins with - is written ./-x"),
            (("--seed", "1", "--seed=2", "tree", "--", "/a"), "--seed stands twice"),
            (("--twice=3", "tree", "--", "/a"), "--twice=3: --twice takes no value"),
            (("tree", "--seed", "--", "/a"), f"--seed: a whole number from 0 to {HIGHEST} is missing behind it"),
            (("--seed", "--host", "1", "tree", "--", "/a"),
             f"--seed: a whole number from 0 to {HIGHEST} is missing behind it"),
            (("tree", "--report", "--", "/a"), "--report: the name of a file is missing behind it"),
            (("tree", "--report=", "--", "/a"), "--report: the name of the file is empty"),
            (("tree", "--report", "-", "--", "/a"),
             "--report -: standard output has what the program writes; name a file"),
            (("tree", "--stdin", "--", "/a"), "--stdin: the name of a file is missing behind it"),
            (("tree", "--stdin=", "--", "/a"), "--stdin: the name of the file is empty"),
            (("--stdin", "a", "--stdin", "a", "tree", "--", "/a"), "--stdin stands twice"),
            (("--stdin", os.fsdecode(b"\xff"), "tree", "--", "/a"),
             "--stdin \\xff: the name is no UTF-8, as all names in an image are"),
            (("--stdin", "n" * 4096, "tree", "--", "/a"), "--stdin: the name has 4096 bytes, more than 4095"),
            (("--twice", "--check", "3", "tree", "--", "/a"), "--twice is --check 2: give one of them"))

    def test_names_and_the_words_behind_them(self) -> None:
        self.refuses(
            ((), f"no -- stands before the program: write {REST}"),
            (("tree", "/a"), "no -- stands before the program: write tree -- /a"),
            (("tree", "/a", "-l"), f"no -- stands before the program: write {REST}"),
            (("--seed", "x", "tree"), f"no -- stands before the program: write {REST}"),
            (("--", "/a"), f"a folder, an archive or an image is missing before --: write {REST}"),
            (("tree", "b\n", "--", "/a"), "b\\n: a second name before --, where tree is the first"),
            (("", "--", "/a"), "the name of the folder, archive or image is empty"),
            (("tree", "--"), "nothing stands behind --: the path of the program in the image is missing"),
            (("tree", "--", "A=1", "_b=2"),
             "all words behind -- are NAME=VALUE: the path of the program in the image is missing"),
            (("tree", "--", "/a", os.fsdecode(b"\xff")), "\\xff: a word behind -- that is no UTF-8"))

    def test_help_names_every_option_and_status(self) -> None:
        for words in (["--help"], ["-h"], ["tree", "--help", "--", "/a"]):
            with self.subTest(words):
                done = self.run_words(*words)
                self.assertEqual((done.status, done.err), (0, []))
                text = done.out.decode()
                for part in ("--seed N", "--budget N", "--workers N", "--host N", "--stdin NAME", "--profile N",
                             "--report FILE", "--tree FOLDER", "--take PATH=FOLDER", "--check N", "--twice", "--strict",
                             "--quiet", "--version", "  125 ", "  126 ", "  127 ", "  128 + N", "  200 ", "  201 ",
                             "  202 ", "  203 ", "XDG_CACHE_HOME", "DETTRACE"):
                    self.assertIn(part, text)
                self.assertEqual([line for line in text.splitlines() if len(line) > 120], [])

    def test_words_come_to_the_program_as_they_are(self) -> None:
        done = self.run_words("--seed", "+07", "tree", "--budget=5", "--host", str(HIGHEST), "--quiet", "--", "A=b c",
                              "/p", "--seed", "--", "", "ä")
        self.assertEqual(done, Done(0, b"hello\n", []))
        (call,) = self.calls()
        self.assertEqual(call[0], "run")
        self.assertEqual(call[2:], ["--seed", "7", "--budget", "5", "--host", str(HIGHEST), "--", "A=b c", "/p",
                                    "--seed", "--", "", "ä"])

    def test_workers_and_an_input_are_passed_where_the_program_has_them(self) -> None:
        self.assertEqual(self.run_words("--workers", "64", "tree", "--", "/a").status, 0)
        self.assertEqual(self.calls()[0][2:], ["--workers", "64", "--", "/a"])
        self.write("list", b"milk\n")
        for words in (("--workers", "3"), ("--stdin", "list")):
            self.stand_in(HELLO, usage=OLD_USAGE)
            done = self.run_words(*words, "tree", "--", "/a")
            self.says(done, 125, f"{words[0]}: this dettrace does not have it: {OLD_USAGE}")
            self.assertEqual(self.calls(), [])

    def test_the_name_in_lines_is_that_by_which_the_tool_is_called(self) -> None:
        link = self.work / "dettrace-run"
        link.symlink_to(os.path.relpath(SCRIPT, self.work))
        done = subprocess.run([str(link), "--zzz", "tree", "--", "/a"], cwd=self.work, env=self.environment, text=True,
                              stdin=subprocess.DEVNULL, capture_output=True, check=False)
        self.assertEqual((done.returncode, done.stderr), (
            125, "dettrace-run: --zzz: there is no such option; a name that begins with - is written ./--zzz\n"))


if __name__ == "__main__":
    unittest.main()
