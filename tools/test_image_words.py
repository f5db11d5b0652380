"""How tools/image is called, and what it says where it cannot do as it was told."""
from __future__ import annotations

import os
import shutil
import subprocess
import sys
import unittest

from imagelib.testing import SCRIPT, Done, ImageCase, read, write


class Words(ImageCase):
    """How the tool is called, and how it says what is wrong."""

    def test_words_that_are_refused(self) -> None:
        for words, line in (
            ((), "the following arguments are required: COMMAND (see image --help)"),
            (("pack",), "the following arguments are required: FOLDER|ARCHIVE, IMAGE (see image pack --help)"),
            (("pack", "a"), "the following arguments are required: IMAGE (see image pack --help)"),
            (("check",), "the following arguments are required: IMAGE (see image check --help)"),
            (("unpack", "a"), "the following arguments are required: FOLDER|ARCHIVE (see image unpack --help)"),
            (("check", "a", "b\n"), "unrecognized arguments: b\\n (see image --help)"),
            (("list", "a", "--exclude", "b"), "unrecognized arguments: --exclude b (see image --help)"),
            (("pack", "a", "b", "--excl", "c"), "unrecognized arguments: --excl c (see image --help)"),
            (("pack", "a", "b", "--exclude"), "argument --exclude: expected one argument (see image pack --help)"),
            (("pack", "a", "b", "--profile", "x"),
             "argument --profile: invalid int value: 'x' (see image pack --help)"),
            (("check", "a", "--stdin"), "argument --stdin: expected one argument (see image check --help)"),
            (("list", "a", "--stdin", "b"), "unrecognized arguments: --stdin b (see image --help)"),
            (("unpack", "a", "b", "--profile", "2"), "unrecognized arguments: --profile 2 (see image --help)"),
            (("pack", "--tar", "a", "b"), "unrecognized arguments: --tar (see image --help)"),
        ):
            with self.subTest(words):
                self.says(self.image(*words), 2, line)
        for words, line in ((("packs", "a", "b"), "argument COMMAND: invalid choice: 'packs'"),
                            (("pack", "a", "b", "--profile", "3"), "argument --profile: invalid choice: 3 ")):
            done = self.image(*words)
            self.assertEqual((done.status, done.out, len(done.err)), (2, [], 1))
            self.assertTrue(done.err[0].startswith(f"image: {line}"), done.err)

    def test_help_tells_the_exit_statuses(self) -> None:
        for words in ((), ("pack",), ("list",), ("check",), ("unpack",)):
            with self.subTest(words):
                done = self.image(*words, "--help")
                self.assertEqual((done.status, done.err), (0, []))
                text = "\n".join(done.out)
                for line in ("  0  done", "  1  the image is refused", "  2  used wrongly"):
                    self.assertIn(line, text)
        self.assertIn("FOLDER's own mode", " ".join(self.image("pack", "--help").out))

    def test_the_script_ends_with_the_status(self) -> None:
        write(self.at("tree", "f"), b"x")
        os.mkfifo(self.at("tree", "pipe"))
        self.says(self.script("pack", "tree", "img"), 1, "'/pipe': a FIFO, which an image cannot hold")
        self.says(self.script("check"), 2, "the following arguments are required: IMAGE (see image check --help)")
        done = self.script("pack", "tree", "img", "--exclude", "pipe")
        self.assertEqual(done, Done(0, ["img: 0 directories, 1 file, 0 links, 1 blob, 1 byte"], []))

    def test_names_that_would_upset_a_terminal_are_escaped(self) -> None:
        names = {"a\x1b[2Jb": "a\\x1b[2Jb", "c\nd": "c\\nd", "e\u009b": "e\\u009b", "f\u202e": "f\\u202e",
                 "g\\x": "g\\\\x", "h\x7f": "h\\x7f", "i \u00e9\u6587": "i \u00e9\u6587",
                 "j\U000e0041": "j\\U000e0041"}
        os.mkdir(self.at("tree"))
        for name in names:
            os.symlink(name, self.at("tree", name))
        self.image("pack", self.at("tree"), self.at("img"))
        sizes = [len(name.encode()) for name in names]
        rows = zip(sizes, names.values())
        want = [f"lrwxrwxrwx 1 root root {size} Jan  1  2000 /{shown} -> {shown}" for size, shown in rows]
        self.assertEqual(self.script("list", "img", env={"LC_ALL": "C"}), Done(0, want, []))

    def test_output_that_cannot_be_written(self) -> None:
        write(self.at("tree", "f"), b"x")
        self.image("pack", self.at("tree"), self.at("img"))
        for words in (["list", "img"], ["check", "img"], ["--help"], ["pack", "tree", "new"]):
            with self.subTest(words):
                reader, writer = os.pipe()
                os.close(reader)
                done = subprocess.run(
                    [sys.executable, SCRIPT, *words], cwd=self.top, stdout=writer, stderr=subprocess.PIPE, check=False
                )
                os.close(writer)
                self.assertEqual(done.stderr, b"image: standard output cannot be written: Broken pipe\n")
                self.assertEqual(done.returncode, 2)

    def test_standard_streams_that_are_closed(self) -> None:
        write(self.at("tree", "f"), b"x")
        self.image("pack", self.at("tree"), self.at("img"))
        shell = shutil.which("sh")
        for words, err in ((f"list img >&-", "image: standard output is closed\n"), ("list none 2>&-", "")):
            command = [shell, "-c", f'"{sys.executable}" "{SCRIPT}" {words}; echo $? >status']
            done = subprocess.run(command, cwd=self.top, capture_output=True, check=True)
            self.assertEqual((done.stdout, done.stderr.decode()), (b"", err))
            self.assertEqual(read(self.at("status")), b"2\n" if err else b"1\n")


if __name__ == "__main__":
    unittest.main()
