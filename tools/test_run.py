"""A run of tools/run: the guest's output as it comes, the statuses, what is kept, and what is said where it fails."""
from __future__ import annotations

import os
import select
import signal
import subprocess
import time
import unittest
from pathlib import Path
from unittest import mock

from runlib.testing import ENDED, EXAMPLES, HELLO, Done, RunCase, out, report

SECONDS = 30


class Runs(RunCase):
    def test_the_guests_output_and_code(self) -> None:
        for example, code in (("hello", 0), ("cat", 0), ("shell", 3), ("signals", 0), ("pipes", 0)):
            recorded = (EXAMPLES / example / "report").read_bytes()
            with self.subTest(example):
                self.stand_in(recorded, status=1 if code else 0)
                done = self.run_words(EXAMPLES / example, "--", "/x")
                wanted = subprocess.run([EXAMPLES.parent / "tools" / "report", "output", "-", "1"], input=recorded,
                                        stdout=subprocess.PIPE, check=True).stdout
                self.assertEqual((done.status, done.out), (code, wanted))
                self.assertEqual(self.calls(), [["run", str(EXAMPLES / example), "--", "/x"]])

    def test_the_two_streams_are_parted_and_keep_each_byte(self) -> None:
        binary = bytes(range(256)) * 1000
        self.stand_in(report(out(1, b"a"), out(2, b"b\xff\n"), b"exit 2 code 9\n", out(1, binary), out(1, b"\n"),
                             ENDED))
        with self.start("tree", "--", "/x") as running:
            self.assertEqual(running.communicate(timeout=SECONDS), (b"a" + binary + b"\n", b"b\xff\n"))
        self.assertEqual(running.returncode, 0)

    def test_each_code_is_the_tools_own(self) -> None:
        for code in (0, 1, 7, 125, 255):
            with self.subTest(code):
                self.stand_in(report(b"exit 1 code %d\n" % code), status=1 if code else 0)
                self.assertEqual(self.run_command("/x"), Done(code, b"", []))

    def test_output_comes_before_the_program_has_ended(self) -> None:
        self.stand_in(b"", more="printf 'dettrace 1\\nout 1 6\\nfir';"
                                f"while [ ! -e {self.top}/go ]; do sleep 0.05; done;"
                                "printf 'st\\n\\nout 2 4\\nend\\n\\nexit 1 code 0\\nverdict ended\\ntree 0\\n'")
        with self.start("tree", "--", "/x") as running:
            self.assertEqual(os.read(running.stdout.fileno(), 100), b"fir")
            self.assertEqual(select.select([running.stdout, running.stderr], [], [], 0.3)[0], [])
            (self.top / "go").touch()
            self.assertEqual(running.communicate(timeout=SECONDS), (b"st\n", b"end\n"))
        self.assertEqual(running.returncode, 0)

    def test_standard_input_is_not_read(self) -> None:
        self.stand_in(HELLO)
        with self.start("tree", "--", "/x", stdin=subprocess.PIPE) as running:
            self.assertEqual(running.stdout.read(), b"hello\n")
            running.communicate(b"", timeout=SECONDS)
        self.assertEqual(running.returncode, 0)

    def test_what_the_program_says_of_a_run_that_is_well_is_shown(self) -> None:
        self.stand_in(HELLO, errors="a note\n\x1b[2J")
        self.assertEqual(self.run_command("/x"), Done(0, b"hello\n", [
            "run: dettrace said: a note", "run: dettrace said: \\x1b[2J"]))


class Faults(RunCase):
    """Where there is no whole report, or one that cannot be right."""

    def test_what_the_program_ends_with(self) -> None:
        for status, said, line in (
            (2, "dettrace: usage: x", "stand-in/dettrace refuses these words: is it of the same version as this tool? "
                                      "dettrace: usage: x"),
            (3, "dettrace: image refused: 9 New", None), (4, "dettrace: store fault", None),
            (5, "dettrace: host fault", "the host of dettrace failed, which it never should"),
            (6, "dettrace: output fault", "dettrace could not write its report"),
            (7, "dettrace: out of memory",
             "memory ran out: the run needs more of it (docs/FARM.md, \"What a run costs\")"),
            (9, "a\n\x07b", "stand-in/dettrace ended with 9, as dettrace never does: a \\x07b"),
        ):
            with self.subTest(status):
                self.stand_in(b"", status=status, errors=said)
                done = self.run_command("/x")
                line = line or f"dettrace could not take the image cache/dettrace/images/{self.images()[0]}: {said}"
                self.says(done, 125, line)

    def test_a_program_that_is_ended_by_a_signal(self) -> None:
        self.stand_in(b"dettrace 1\nout 1 3\nab", more="kill -9 $$")
        self.assertEqual(self.run_command("/x"), Done(125, b"ab", [
            "run: dettrace was ended by SIGKILL, which something else sent, as the system does where memory runs out; "
            "the report is cut"]))
        self.stand_in(b"", more="kill -TERM $$")
        self.says(self.run_command("/x"), 125,
                  "dettrace was ended by SIGTERM, which something else sent; the report is cut")

    def test_a_report_that_is_cut_or_none(self) -> None:
        for text, status, line in (
            (b"", 0, "the report is cut, though dettrace ended with 0: it ends after 0 bytes, before the first line"),
            (HELLO[:-4], 0, "the report is cut, though dettrace ended with 0: it ends after 57 bytes, "
                            "in the line that begins the tree"),
            (b"hello\n", 0, 'what dettrace wrote is no report: byte 1, line 1: not a report: '
                            'expected "dettrace 1" or "dettrace 2", found "h"'),
            (b"dettrace 1\nexit 1 code 256", 0, "what dettrace wrote is no report: byte 26, line 2: not a report: "
                                               'expected a number from 0 to 255, found "6"'),
            (HELLO + b"x", 0, "what dettrace wrote is no report: byte 62, line 8: not a report: "
                              'expected nothing behind 0 lines of the tree, found "x"'),
            (report(), 0, "the report has no end of process 1, though its verdict is that this ended"),
            (HELLO, 1, "dettrace ended with 1, and not with 0, which its report comes to"),
            (report(verdict="budget"), 0, "dettrace ended with 0, and not with 10, which its report comes to"),
            (report(b"exit 1 signal 9\n"), 10, "dettrace ended with 10, and not with 1, which its report comes to"),
        ):
            with self.subTest(line):
                self.stand_in(text, status=status)
                done = self.run_command("/x")
                self.assertEqual((done.status, done.err), (125, [f"run: {line}"]))

    def test_a_file_that_the_system_does_not_run(self) -> None:
        self.program.write_bytes(b"\x7fELF\2\1\1 no program of this machine")
        self.program.chmod(0o755)
        self.says(self.run_command("/x"), 125, "stand-in/dettrace cannot be run: Exec format error")
        self.says(self.run_words("--twice", "tree", "--", "/x"), 125,
                  "stand-in/dettrace cannot be run: Exec format error")

    def test_what_was_not_foreseen_is_said_in_one_line(self) -> None:
        self.stand_in(HELLO)
        for error, line in ((MemoryError(), "memory ran out"), (OSError(5, "Input/output error", "a\nb"),
                                                                "a\\nb: Input/output error"),
                            (OSError(5, "Input/output error"), "Input/output error")):
            with self.subTest(line), mock.patch("runlib.commands.find_program", side_effect=error):
                self.says(self.run_command("/x"), 125, line)
        with mock.patch("runlib.commands.kind_of", side_effect=KeyError("x\ny")):
            done = self.run_command("/x")
        self.assertEqual((done.status, done.out, len(done.err)), (125, b"", 1))
        self.assertRegex(done.err[0], r"^run: a mistake of this tool, at [a-z]+\.py:[0-9]+: KeyError 'x\\\\ny'$")


class Keeping(RunCase):
    """The option --report."""

    def test_a_whole_report_is_kept(self) -> None:
        self.stand_in(report(out(1, b"x"), b"exit 1 code 4\n"), status=1)
        for _ in range(2):
            self.assertEqual(self.run_words("--report", "kept", "tree", "--", "/x"), Done(4, b"x", []))
            self.assertEqual((self.work / "kept").read_bytes(), (self.folder / "report1").read_bytes())
        self.assertEqual((self.work / "kept").stat().st_mode & 0o777, 0o644)
        self.assertEqual(self.left(), ["kept", "tree"])

    def test_what_stood_there_is_not_lost_where_the_report_is_cut(self) -> None:
        (self.work / "kept").write_bytes(b"old")
        for status, text in ((7, b"dettrace 1\n"), (0, HELLO[:-1]), (0, b"no report")):
            self.stand_in(text, status=status)
            self.assertEqual(self.run_words("--report=kept", "tree", "--", "/x").status, 125)
            self.assertEqual((self.work / "kept").read_bytes(), b"old")
            self.assertEqual(self.left(), ["kept", "tree"])

    def test_a_link_leads_to_the_file_that_is_written(self) -> None:
        (self.work / "link").symlink_to("kept")
        self.stand_in(HELLO)
        self.assertEqual(self.run_words("--report", "link", "tree", "--", "/x").status, 0)
        self.assertEqual(((self.work / "kept").read_bytes(), os.readlink(self.work / "link")), (HELLO, "kept"))

    def test_a_report_that_cannot_be_kept_is_said_before_the_run(self) -> None:
        self.stand_in(HELLO)
        (self.work / "file").touch()
        for name, line in (("no/kept", "No such file or directory"), ("file/kept", "Not a directory"),
                           ("tree", "Is a directory")):
            with self.subTest(name):
                done = self.run_words("--report", name, "tree", "--", "/x")
                self.says(done, 125, f"the report {name} cannot be written: {line}")
        self.assertEqual(self.calls(), [])

    def test_a_pipe_and_a_device_get_the_report_as_it_comes(self) -> None:
        self.stand_in(HELLO)
        os.mkfifo(self.work / "pipe")
        with self.start("--report", "pipe", "tree", "--", "/x") as running:
            self.assertEqual((self.work / "pipe").read_bytes(), HELLO)
            self.assertEqual(running.communicate(timeout=SECONDS), (b"hello\n", b""))
        reader, writer = os.pipe()
        done = self.run_words("--report", f"/dev/fd/{writer}", "tree", "--", "/x", pass_fds=[writer],
                              stdout=subprocess.PIPE, stderr=subprocess.PIPE)
        os.close(writer)
        self.assertEqual((done, os.read(reader, 1000)), (Done(0, b"hello\n", []), HELLO))
        os.close(reader)
        self.says(self.run_words("--report", "/dev/full", "tree", "--", "/x"), 125,
                  "the report /dev/full cannot be written: No space left on device")


class Outputs(RunCase):
    """Streams that cannot be written."""

    def test_a_reader_that_has_gone_ends_the_run_without_a_word(self) -> None:
        self.stand_in(report(out(1, b"x")), more="sleep 100")
        reader, writer = os.pipe()
        os.close(reader)
        done = self.run_words("tree", "--", "/x", stdout=writer)
        os.close(writer)
        self.assertEqual(done, Done(125, b"", []))

    def test_a_full_disk(self) -> None:
        self.stand_in(HELLO)
        with open("/dev/full", "wb") as full:
            for words in (["tree", "--", "/x"], ["--help"]):
                done = self.run_words(*words, stdout=full)
                self.says(done, 125, "standard output cannot be written: No space left on device")
            done = self.run_words("--report", "kept", "tree", "--", "/x", stdout=full)
            self.says(done, 125, "standard output cannot be written: No space left on device")
            self.assertEqual((self.work / "kept").read_bytes(), HELLO)
            self.stand_in(report(out(2, b"x"), ENDED))
            self.assertEqual(self.run_words("tree", "--", "/x", stderr=full).status, 125)

    def test_streams_that_are_closed(self) -> None:
        self.stand_in(HELLO)
        script = EXAMPLES.parent / "tools" / "run"
        for closed, status, text, err in ((">&-", 125, b"", b"run: standard output is closed\n"),
                                          ("2>&-", 0, b"hello\n", b""), ("<&-", 0, b"hello\n", b""),
                                          ("<&- 2>&-", 0, b"hello\n", b"")):
            with self.subTest(closed):
                done = subprocess.run(["sh", "-c", f'"{script}" tree -- /x {closed}'], cwd=self.work,
                                      env=self.environment, capture_output=True, check=False)
                self.assertEqual((done.returncode, done.stdout, done.stderr), (status, text, err))

    def test_a_slow_reader_gets_all(self) -> None:
        self.stand_in(report(out(1, b"y" * 300000), ENDED))
        reader, writer = os.pipe()
        os.set_blocking(writer, False)
        with self.start("tree", "--", "/x", stdout=writer) as running:
            os.close(writer)
            time.sleep(0.5)
            with os.fdopen(reader, "rb") as slow:
                self.assertEqual(slow.read(), b"y" * 300000)
        self.assertEqual(running.returncode, 0)


class Stops(RunCase):
    def test_a_signal_ends_the_program_and_leaves_nothing(self) -> None:
        for number, status in ((signal.SIGINT, 130), (signal.SIGTERM, 143), (signal.SIGHUP, 129)):
            for words in (["--report", "kept"], ["--twice", "--report", "kept"], []):
                with self.subTest(words, number=number):
                    self.stand_in(b"", more=f"echo $$ >{self.top}/id; printf 'dettrace 1\\nout 1 6\\nfir';"
                                            "exec sleep 100")
                    with self.start(*words, "tree", "--", "/x") as running:
                        self.assertEqual(os.read(running.stdout.fileno(), 100), b"fir")
                        running.send_signal(number)
                        self.assertEqual(running.communicate(timeout=SECONDS), (b"", b""))
                    self.assertEqual(running.returncode, status)
                    self.assertEqual(self.left(), ["tree"])
                    self.assertFalse(Path(f"/proc/{(self.top / 'id').read_text().strip()}").exists())

    def test_a_signal_of_the_terminal_comes_to_the_program_too(self) -> None:
        for number, status in ((signal.SIGINT, 130), (signal.SIGHUP, 129)):
            for _ in range(5):
                self.stand_in(b"", more="printf 'dettrace 1\\nout 1 6\\nfir'; exec sleep 100")
                with self.start("tree", "--", "/x", start_new_session=True) as running:
                    self.assertEqual(os.read(running.stdout.fileno(), 100), b"fir")
                    os.killpg(running.pid, number)
                    self.assertEqual(running.communicate(timeout=SECONDS), (b"", b""))
                self.assertEqual(running.returncode, status)

    def test_a_signal_that_is_ignored_stays_so(self) -> None:
        self.stand_in(b"", more=f"printf 'dettrace 1\\nout 1 2\\na'; while [ ! -e {self.top}/go ]; do sleep 0.05; done;"
                                "printf 'b\\nexit 1 code 0\\nverdict ended\\ntree 0\\n'")
        with self.start("tree", "--", "/x", preexec_fn=lambda: signal.signal(signal.SIGINT, signal.SIG_IGN)) as running:
            self.assertEqual(os.read(running.stdout.fileno(), 100), b"a")
            running.send_signal(signal.SIGINT)
            (self.top / "go").touch()
            self.assertEqual(running.communicate(timeout=SECONDS), (b"b", b""))
        self.assertEqual(running.returncode, 0)

    def test_a_signal_while_a_folder_is_packed(self) -> None:
        self.stand_in(HELLO)
        for number in range(64):
            self.write(f"large{number}", os.urandom(2**20) * 4)
        for wait in (0, 0.05, 0.1):
            with self.subTest(wait):
                with self.start("tree", "--", "/x") as running:
                    while not self.images() and running.poll() is None:
                        time.sleep(0.005)
                    time.sleep(wait)
                    running.send_signal(signal.SIGTERM)
                    out, err = running.communicate(timeout=SECONDS)
                self.assertIn((running.returncode, err), ((143, b""), (-15, b"")))
                self.assertEqual(self.images(), [])
                self.assertEqual(self.left(), ["tree"])


if __name__ == "__main__":
    unittest.main()
