"""Tests of how the tool for reports is used: words, files, outputs that fail, and reports of 100 MB."""
from __future__ import annotations

import hashlib
import io
import os
import signal
import subprocess
import sys
import tempfile
import unittest
from pathlib import Path
from typing import IO, Iterator, List, NamedTuple

from reportlib import commands
from reportlib.streams import Streams
from reportlib.testing import SMALL, TOOL, Case, out, report, run, run_script

MEGABYTES_8 = 8 * 2**20
# Starts the tool from a small process, since what a process had before it became another counts as the other's memory.
LAUNCHER = """import os, sys
pid = os.posix_spawn(sys.argv[2], sys.argv[2:], os.environ)
_, status, usage = os.wait4(pid, 0)
with open(sys.argv[1], "w") as file:
    print(os.WEXITSTATUS(status), usage.ru_maxrss * (1 if sys.platform == "darwin" else 1024), file=file)
"""


class WordsTest(Case):
    def test_wrong_words_are_refused_in_one_line(self) -> None:
        cases = [([], "COMMAND"), (["other"], "other"), (["json"], "REPORT"), (["json", "one", "two"], "two"),
                 (["output"], "REPORT"), (["output", "one", "3"], "3"), (["output", "one", "1", "2"], "2"),
                 (["diff", "one"], "B"), (["diff", "one", "two", "three"], "three"), (["--other"], "COMMAND"),
                 (["json", "--other", "one"], "--other"), (["js", "one"], "js"), (["json", "one", "a\nb"], "a\\x0ab")]
        for words, named in cases:
            with self.subTest(words=words):
                result = run(*words)
                self.assertEqual((result.status, result.output), (2, b""))
                self.assertRegex(result.errors, r"\Areport: [^\n]+ \(report [a-z]*(?: ?)--help says more\)\n\Z")
                self.assertIn(named, result.errors)

    def test_standard_input_cannot_be_both_reports(self) -> None:
        self.assertEqual(run("diff", "-", "-", given=SMALL),
                         (2, b"", "report: only one of A and B can be -, standard input\n"))

    def test_the_help_of_each_command_says_the_statuses(self) -> None:
        for words in [], ["json"], ["output"], ["diff"]:
            for option in "--help", "-h":
                with self.subTest(words=words, option=option):
                    result = run(*words, option)
                    self.assertEqual((result.status, result.errors), (0, ""))
                    text = result.output.decode()
                    self.assertEqual(text.split("\n")[0].split()[:2], ["usage:", "report"])
                    for line in "  0  done", "  1  diff: they differ", "  2  used wrongly":
                        self.assertIn(line, text)
                    self.assertLessEqual(max(map(len, text.split("\n"))), 120)


class FilesTest(Case):
    def test_a_file_that_cannot_be_read_is_named(self) -> None:
        good, missing = self.write("good", SMALL), str(self.folder / "missing")
        told = f"report: {missing}: cannot be read: No such file or directory\n"
        folder = f"report: {self.folder}: cannot be read: Is a directory\n"
        for words in ["json"], ["output"], ["diff", good]:
            with self.subTest(words=words):
                self.assertEqual(run(*words, missing), (2, b"", told))
                self.assertEqual(run(*words, str(self.folder)), (2, b"", folder))
        self.assertEqual(run("diff", missing, good), (2, b"", told))

    def test_names_of_any_bytes_are_shown_as_text(self) -> None:
        name = os.fsdecode(os.fsencode(self.folder) + b"/a\nb\xff\\\x1b")
        told = f"report: {self.folder}/a\\x0ab\\xff\\\\\\x1b: cannot be read: No such file or directory\n"
        self.assertEqual(run("output", name), (2, b"", told))

    @unittest.skipIf(os.geteuid() == 0, "root may read every file")
    def test_a_file_without_permission_is_named(self) -> None:
        name = self.write("closed", SMALL)
        os.chmod(name, 0)
        self.assertEqual(run("json", name), (2, b"", f"report: {name}: cannot be read: Permission denied\n"))

    def test_a_report_may_come_in_small_parts(self) -> None:
        large = report(out(1, b"line\n" * 40000), tree=[])
        name, other = self.write("one", large), self.write("two", large[:-7] + b"x")
        for at_once in 1000, 65535:
            with self.subTest(at_once=at_once):
                options = {"given": large, "at_once": at_once}
                self.assertEqual(run("diff", name, "-", **options), (0, b"equal\n", ""))
                self.assertEqual(run("diff", "-", name, **options), (0, b"equal\n", ""))
                self.assertEqual(run("output", "-", **options), (0, b"line\n" * 40000, ""))
                self.assertEqual(run("json", "-", **options), run("json", name))
                self.assertEqual(run("diff", "-", other, **options).status, 2)


class WrittenTest(Case):
    def test_an_output_that_takes_little_at_once_gets_all(self) -> None:
        large, taken = report(out(1, b"line\n" * 40000), tree=[]), io.BytesIO()
        streams = Streams(io.BytesIO(large).read, lambda data: taken.write(data[:1000]), io.BytesIO().write)
        self.assertEqual(commands.main(["output", "-"], streams), 0)
        self.assertEqual(taken.getvalue(), b"line\n" * 40000)


class ScriptTest(Case):
    """The script itself, and what it does when its streams fail."""

    def test_each_status_is_the_script_s(self) -> None:
        files = self.written(good=SMALL, cut=SMALL[:22], bad=b"{}")
        cut = f"report: {files['cut']}: the report is cut: it ends after 22 bytes, in event 1\n"
        bad = f'report: {files["bad"]}: byte 1, line 1: not a report: expected "dettrace 1" or "dettrace 2", found "{{"\n'
        for words, status, output, errors in [
                (["output", files["good"], "1"], 0, b"hello\n", ""), (["output", files["cut"]], 1, b"hel", cut),
                (["output", files["bad"]], 2, b"", bad), (["diff", files["good"], files["good"]], 0, b"equal\n", ""),
                (["diff", files["good"], files["bad"]], 2, b"", bad)]:
            with self.subTest(words=words):
                done = subprocess.run([TOOL, *words], capture_output=True, check=False)
                self.assertEqual((done.returncode, done.stdout, done.stderr.decode()), (status, output, errors))

    def test_a_closed_output_ends_it_quietly(self) -> None:
        large = report(out(1, b"line\n" * 100000), tree=[])
        a, b = self.write("a", large), self.write("b", large.replace(b"line", b"Line"))
        for words in ["json", a], ["output", a], ["diff", a, b], ["--help"], ["diff", a, a]:
            with self.subTest(words=words):
                read_end, write_end = os.pipe()
                os.close(read_end)
                done = run_script(*words, stdout=write_end)
                os.close(write_end)
                self.assertEqual((done.returncode, done.stderr), (2, b""))

    @unittest.skipUnless(os.path.exists("/dev/full"), "there is no /dev/full")
    def test_an_output_without_room_is_told(self) -> None:
        name = self.write("one", SMALL)
        for words in ["json", name], ["output", name], ["diff", name, name], ["--help"]:
            with self.subTest(words=words), open("/dev/full", "wb") as full:
                done = run_script(*words, stdout=full)
                self.assertEqual((done.returncode, done.stderr),
                                 (2, b"report: standard output: cannot be written: No space left on device\n"))

    def test_streams_that_are_not_open_are_told(self) -> None:
        name = self.write("one", SMALL)
        for words, closed, errors in [
                (["output", name], ">&-", "report: standard output: cannot be written: Bad file descriptor\n"),
                (["--help"], ">&-", "report: standard output: cannot be written: Bad file descriptor\n"),
                (["output", "-"], "<&-", "report: standard input: cannot be read: Bad file descriptor\n"),
                (["other"], "2>&-", "")]:
            with self.subTest(words=words, closed=closed):
                done = subprocess.run(["sh", "-c", f'exec "$@" {closed}', "sh", sys.executable, str(TOOL), *words],
                                      capture_output=True, check=False)
                self.assertEqual((done.returncode, done.stdout, done.stderr.decode()), (2, b"", errors))

    def test_an_interrupt_is_told(self) -> None:
        # What a shell runs in the background ignores interrupts, and so would the tool.
        with subprocess.Popen([sys.executable, TOOL, "output", "-"], stdin=subprocess.PIPE, stdout=subprocess.PIPE,
                              stderr=subprocess.PIPE, bufsize=0,
                              preexec_fn=lambda: signal.signal(signal.SIGINT, signal.SIG_DFL)) as process:
            process.stdin.write(report(out(1, b"ready")))
            self.assertEqual(process.stdout.read(5), b"ready")
            process.send_signal(signal.SIGINT)
            self.assertEqual((process.stdout.read(), process.stderr.read()), (b"", b"report: interrupted\n"))
        self.assertEqual(process.returncode, 2)


class Large(NamedTuple):
    """A report of about 100 MB: what begins its events, what they repeat so often, and what ends them."""

    before: bytes
    part: bytes
    count: int
    after: bytes

    def pieces(self) -> Iterator[bytes]:
        yield b"dettrace 1\n" + self.before
        at_once = 2**20 // len(self.part)
        for at in range(0, self.count, at_once):
            yield self.part * min(at_once, self.count - at)
        yield self.after + report(b"exit 1 code 0\n", tree=[])[len(b"dettrace 1\n"):]

    def write(self, file: IO[bytes]) -> None:
        for piece in self.pieces():
            file.write(piece)


TEXT = b"a line of text\n" * 66
LARGE = {
    "one event": Large(b"out 1 99990000\n", TEXT, 101000, b"\n"),
    "many events": Large(b"", out(1, TEXT), 100000, b""),
    "a line without an end": Large(b"out 1 100000000\n", b"x" * 1000, 100000, b"\n"),
}

# The same with a difference, and how it is told.
OTHERS = {
    "one event": (
        LARGE["one event"]._replace(after=b"\nexit 5 code 5\n"),
        "event 2 differs: process 1 ended with code 0 in A, and process 5 ended with code 5 in B"),
    "many events": (
        LARGE["many events"]._replace(before=b"exit 5 code 5\n"),
        "event 1 differs: 990 bytes were written to standard output in A, and process 5 ended with code 5 in B"),
    "a line without an end": (
        LARGE["a line without an end"]._replace(before=b"out 1 100000001\n", after=b"y\n"),
        "event 1 differs: 100000000 bytes were written to standard output in A, and 100000001 in B; "
        "the first 100000000 are equal"),
}


class LargeTest(unittest.TestCase):
    """Reports of 100 MB take at most 8 MB more than a small one."""

    def setUp(self) -> None:
        folder = tempfile.TemporaryDirectory()
        self.addCleanup(folder.cleanup)
        self.folder = Path(folder.name)

    def launch(self, *words: str, given: bytes = b"", rest: Iterator[bytes] = iter(())) -> List[int]:
        """The status of the tool and its memory; its output goes to a file."""
        numbers = self.folder / "numbers"
        command = [sys.executable, "-S", "-c", LAUNCHER, str(numbers), sys.executable, str(TOOL), *words]
        with open(self.folder / "output", "wb") as output, \
                subprocess.Popen(command, stdin=subprocess.PIPE, stdout=output) as process:
            assert process.stdin
            process.stdin.write(given)
            for piece in rest:
                process.stdin.write(piece)
            process.stdin.close()
        return [int(number) for number in numbers.read_text().split()]

    def output(self) -> bytes:
        with open(self.folder / "output", "rb") as file:
            return file.read(1000)

    def test_large_reports_take_little_memory(self) -> None:
        small = self.folder / "small"
        small.write_bytes(SMALL)
        for name, large in LARGE.items():
            path = str(self.folder / "large")
            with open(path, "wb") as file:
                large.write(file)
            self.assertGreater(os.path.getsize(path), 99_000_000)
            with self.subTest(report=name, command="output"):
                least = self.launch("output", "-", given=SMALL)[1]
                status, memory = self.launch("output", path)
                self.assertEqual((status, self.digest()), (0, self.digest_of(large)))
                self.assertLess(memory - least, MEGABYTES_8)
            with self.subTest(report=name, command="diff"):
                _, least = self.launch("diff", str(small), "-", given=SMALL)
                status, memory = self.launch("diff", path, "-", rest=large.pieces())
                self.assertEqual((status, self.output()), (0, b"equal\n"))
                self.assertLess(memory - least, MEGABYTES_8)
            with self.subTest(report=name, command="diff of two that differ"):
                other, words = OTHERS[name]
                status, memory = self.launch("diff", path, "-", rest=other.pieces())
                self.assertEqual((status, self.output().split(b"\n")[0].decode()), (1, words))
                self.assertLess(memory - least, MEGABYTES_8)

    def digest(self) -> str:
        digest = hashlib.sha256()
        with open(self.folder / "output", "rb") as file:
            for block in iter(lambda: file.read(2**16), b""):
                digest.update(block)
        return digest.hexdigest()

    def digest_of(self, large: Large) -> str:
        text = large.part if large.before else TEXT
        digest = hashlib.sha256()
        for _ in range(large.count // 1000):
            digest.update(text * 1000)
        return digest.hexdigest()


if __name__ == "__main__":
    unittest.main()
