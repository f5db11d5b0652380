"""tools/run with the program itself: each example, each kind of end, and the session of docs/RUN.md."""
from __future__ import annotations

import hashlib
import os
import shlex
import subprocess
import tarfile
import unittest
from typing import Dict

from hostilelib.building import ROOM, Guest
from hostilelib.numbers import AT_FDCWD, READ, SYMLINKAT, WRITE
from imagelib.index import read_image
from imagelib.testing import tree_of
from program import EXAMPLES, PROGRAM, TOP, fresh_checkout, needs_program
from reportlib.reader import Entry, Reader
from reportlib.testing import run as report
from runlib.testing import Done, RunCase, elf

CODES = {"shell": 3}


def words_of(name: str) -> list:
    """The command that lies beside an example."""
    return shlex.split((EXAMPLES / name / "command").read_text())


# Those that take no option of the program, which tools/run has no word for.
NAMES = [name for name in sorted(index.parent.name for index in EXAMPLES.glob("*/image.json"))
         if words_of(name)[0] == "--"]


def code(*words: int) -> bytes:
    """A program of these instructions."""
    data = b"".join(word.to_bytes(4, "little") for word in words)
    size = 64 + 56 + len(data)
    return elf(segments=[(1, 0, 0x10000, size, size)], entry=0x10000 + 64 + 56)[:-4] + data


def li(register: int, value: int) -> int:
    """addi register, x0, value"""
    return value << 20 | register << 7 | 0x13


def told_tree(report: bytes) -> Dict[str, tuple]:
    """The tree of a report, with the digests of its files."""
    items = [item for item in Reader().feed(report) if isinstance(item, Entry)]
    return {item.path.decode(): (item.kind, *((item.target.decode(),) if item.kind == "link" else
                                              (int(item.mode, 8), *([item.sha256] if item.kind == "file" else []))))
            for item in items}


def told_of(tree: Dict[str, tuple]) -> Dict[str, tuple]:
    """A tree in which each file has the digest of its bytes in their place."""
    return {path: (*node[:2], hashlib.sha256(node[2]).hexdigest()) if node[0] == "file" else node
            for path, node in tree.items()}


ECALL, EBREAK, LOOP = 0x73, 0x100073, 0x6F
A0, A1, A2, A7 = 10, 11, 12, 17


@needs_program
class Real(RunCase):
    def setUp(self) -> None:
        super().setUp()
        self.environment["DETTRACE"] = str(PROGRAM)

    def test_each_example_shows_its_output_and_ends_with_its_code(self) -> None:
        for name in NAMES:
            with self.subTest(name):
                recorded = (EXAMPLES / name / "report").read_bytes()
                done = self.run_words("--report", "kept", EXAMPLES / name, *words_of(name))
                self.assertEqual((done.status, done.out), (
                    CODES.get(name, 0), report("output", "-", "1", given=recorded).output))
                self.assertEqual("\n".join([*done.err, ""] if done.err else []).encode(),
                                 report("output", "-", "2", given=recorded).output)
                self.assertEqual((self.work / "kept").read_bytes(), recorded)

    def test_examples_are_equal_under_several_hosts(self) -> None:
        for name in ("race", "processes", "signals"):
            with self.subTest(name):
                done = self.run_words("--check", "5", EXAMPLES / name, *words_of(name))
                self.assertEqual((done.status, len(done.err)), (CODES.get(name, 0), 1))
                self.assertTrue(done.err[0].startswith("run: equal: 5 runs with --host 1 to 5"))

    def test_a_folder_and_an_archive_of_it(self) -> None:
        self.write("hello", (EXAMPLES / "hello" / "hello").read_bytes())
        with tarfile.open(self.work / "tree.tar.gz", "w:gz") as archive:
            archive.add(self.work / "tree", ".")
        for source in ("tree", "tree.tar.gz", "tree"):
            done = self.run_words("--report", source + ".report", source, "--", "hello")
            self.assertEqual(done, Done(0, b"hello\n", []))
        self.assertEqual((self.work / "tree.report").read_bytes(), (self.work / "tree.tar.gz.report").read_bytes())

    def test_folders_of_what_the_examples_leave_are_as_their_reports_tell(self) -> None:
        for name in NAMES:
            with self.subTest(name):
                made = str(self.work / name)
                done = self.run_words("--tree", made, "--report", f"{name}.report", EXAMPLES / name, *words_of(name))
                self.assertEqual(done.status, CODES.get(name, 0))
                self.assertEqual((self.work / f"{name}.report").read_bytes(), (EXAMPLES / name / "report").read_bytes())
                self.assertEqual(told_of(tree_of(made)), told_tree((EXAMPLES / name / "report").read_bytes()))

    def test_folders_of_what_is_below_a_path(self) -> None:
        done = self.run_words("--take", "/out=out", "--take", "bin=programs", "--twice", EXAMPLES / "processes", "--",
                              "/make")
        self.assertEqual(done.status, 0)
        self.assertEqual(sorted(os.listdir(self.work / "out")), ["one", "poem", "three", "two"])
        self.assertEqual(sorted(os.listdir(self.work / "programs")), ["compile", "join", "lines", "show"])
        done = self.run_words("--take", "/none=more", EXAMPLES / "processes", "--", "/make")
        self.assertEqual((done.status, done.err), (
            125, ["run: --take /none: in the tree at the end nothing is at /none; / has bin, make, out and src"]))

    def test_a_tree_that_no_image_can_hold(self) -> None:
        guest = Guest(8)
        guest.call(SYMLINKAT, guest.text(b"\xff"), AT_FDCWD, guest.text(b"/l"))
        self.write("x", guest.executable())
        done = self.run_words("--tree", "made", "tree", "--", "/x")
        self.says(done, 125, "--tree: no image can hold the tree at the end: "
                             "a path or the target of a link is no UTF-8")
        self.assertEqual(self.left(), ["tree"])

    def test_the_input_is_read(self) -> None:
        guest = Guest(8)
        for size in (2, 1, 0):
            guest.call(READ, 0, ROOM, 2)
            guest.expect(size)
            guest.call(WRITE, 1, ROOM, size)
        self.write("x", guest.executable())
        self.write("data/in", b"abc")
        for words in (("tree",), ("--profile", "2", "tree"), ("--twice", "--quiet", "--tree", "new", "tree")):
            with self.subTest(words):
                self.assertEqual(self.run_words("--stdin", "data/in", *words, "--", "/x"), Done(0, b"abc", []))
        subprocess.run([TOP / "tools" / "image", "pack", "tree", "image"], cwd=self.work, stdout=subprocess.DEVNULL,
                       check=True)
        (self.work / "image" / "in").write_bytes(b"ABC")
        self.assertEqual(self.run_words("--stdin", "in", "image", "--", "/x"), Done(0, b"ABC", []))
        self.says(self.run_words("--stdin", "data/in", "image", "--", "/x"), 125,
                  "image: refused: 9 NoInput: --stdin 'data/in': the blob's name `data/in` has more than letters and "
                  "digits of ASCII, `.`, `_` and `-`")

    def test_atomic_instructions_and_devices_of_profile_2(self) -> None:
        # mv a2, sp; li a1, 1; amoadd.w a0, a1, (a2); and then the end.
        self.write("x", code(0x00010613, li(A1, 1), 0x00B6252F, li(A0, 5), li(A7, 93), ECALL))
        self.assertEqual(self.run_command("/x").status, 132)
        done = self.run_words("--profile", "2", "--report", "kept", "tree", "--", "/x")
        self.assertEqual(done, Done(5, b"", []))
        self.assertTrue((self.work / "kept").read_bytes().startswith(b"dettrace 2\n"))
        with tarfile.open(self.work / "dev.tar", "w") as archive:
            member = tarfile.TarInfo("dev/zero")
            member.type, (member.devmajor, member.devminor) = tarfile.CHRTYPE, (1, 5)
            archive.addfile(member)
        done = self.run_words("--profile", "2", "--report", "kept", "dev.tar", "--", "/dev/zero")
        self.says(done, 126, "/dev/zero cannot be started: in dev.tar /dev/zero is a device")
        self.assertIn(b"\ndev 3 0644 0 zero /dev/zero\n", (self.work / "kept").read_bytes())

    def end(self, data: bytes, *options: str) -> tuple:
        """How a run of a program ends, and the first words of what is said."""
        self.write("x", data)
        done = self.run_words(*options, "tree", "--", "/x")
        self.assertEqual((done.out, len(done.err)), (b"", 1))
        return done.status, done.err[0]

    def test_each_kind_of_end(self) -> None:
        status, line = self.end(code(li(A7, 198), ECALL))
        self.assertEqual((status, line), (202, "run: process 1 made the system call socket (198), which this version "
                                               "lacks: there is no network (docs/GUESTS.md, \"The system calls\")"))
        status, line = self.end(code(li(A0, 0), li(A7, 220), ECALL))
        self.assertEqual((status, line.split(" for ")[0]), (202, "run: process 1 asked the system call clone (220)"))
        status, line = self.end(code(LOOP), "--budget", "1000")
        self.assertEqual((status, line.split(":")[1]), (201, " the budget of 1000 instructions is used up"))
        status, line = self.end(code(EBREAK))
        self.assertEqual((status, line.split(":")[1]), (133, " /x was ended by SIGTRAP, signal 5"))
        status, line = self.end(code(0))
        self.assertEqual((status, line.split(":")[1]), (132, " /x was ended by SIGILL, signal 4"))
        # A pipe whose read end and write end the reader has itself.
        read = (0x00012503, 0x00010593, li(A2, 1), li(A7, 63), ECALL)
        status, line = self.end(code(0xFF010113, 0x00010513, li(A1, 0), li(A7, 59), ECALL, *read))
        self.assertEqual((status, line.split(":")[1][:20]), (200, " all processes wait,"))
        self.write("x", code(li(A0, 77), li(A7, 93), ECALL))
        self.assertEqual(self.run_command("/x"), Done(77, b"", []))

    def test_what_is_said_of_a_start_is_the_reason_of_the_program(self) -> None:
        """Each line has the reason that was found in the image, and not what stands where that is another one."""
        self.write("sh", b"#!/none\n")
        self.write("dos", b"#!/sh\r\n")
        self.write("twice", b"#!/sh\n")
        self.write("pie", elf(kind=3))
        self.write("large", elf(segments=[(1, 0, 0x10000, 64, 64), (1, 0, 0x100000, 0, 64 << 20)]))
        self.write("text", b"text")
        os.symlink("loop", self.work / "tree" / "loop")
        for program, status, part in (
            ("/none", 127, "nothing is at /none"), ("", 127, "is empty"), ("/sh", 127, "its interpreter /none"),
            ("/dos", 127, "carriage return"), ("/twice", 126, "a script too"), ("/pie", 126, "Type DYN"),
            ("/large", 126, "64 MiB"), ("/text", 126, "a text"), ("/", 126, "a directory"),
            ("/text/", 126, "goes through"), ("/loop", 126, "more than 40 links"), ("n" * 300, 126, "300 bytes"),
            ("/" * 4096, 126, "4096 bytes"),
        ):
            with self.subTest(program):
                done = self.run_command(program)
                self.assertEqual((done.status, done.out, len(done.err)), (status, b"", 1))
                self.assertIn(part, done.err[0])

    def test_an_image_that_the_program_refuses(self) -> None:
        os.mkdir(self.work / "image")
        (self.work / "image" / "image.json").write_text("{")
        (line,) = self.lines_of(read_image, "image")
        self.assertTrue(line.startswith("refused: 2 BadIndex: "), line)
        self.says(self.run_words("image", "--", "/x"), 125, f"image: {line}")


@needs_program
class Page(unittest.TestCase):
    def test_the_session_prints_what_the_page_shows(self) -> None:
        page = (TOP / "docs" / "RUN.md").read_text()
        lines = [line[4:] for line in page.split("\n") if line.startswith("    ")]
        steps = "\n".join(lines[1:]).split("$ ")[1:]
        self.assertGreater(len(steps), 8)
        status = 0
        with fresh_checkout() as folder:
            environment = {**os.environ, "DETTRACE": str(PROGRAM), "XDG_CACHE_HOME": str(folder / "cache")}
            for step in steps:
                command, wanted = f"{step.rstrip()}\n".split("\n", 1)
                with self.subTest(command):
                    ran = subprocess.run(["sh", "-c", f"umask 022; (exit {status}); {command}"], cwd=folder, text=True,
                                         env=environment, stdin=subprocess.DEVNULL, stdout=subprocess.PIPE,
                                         stderr=subprocess.STDOUT, check=False)
                    self.assertEqual(ran.stdout, wanted)
                    status = ran.returncode


if __name__ == "__main__":
    unittest.main()
