"""Several runs compared: --check, --twice and --strict."""
from __future__ import annotations

import unittest

from reportlib.testing import run as tool
from runlib.testing import ENDED, HELLO, OLD_USAGE, Done, RunCase, out, report

OTHER = report(out(1, b"hellO\n"), ENDED)


class Checks(RunCase):
    def options(self) -> list:
        """The words of each call between the image and the program."""
        return [" ".join(call[2:call.index("--")]) for call in self.calls()]

    def test_equal_reports(self) -> None:
        for option, workers in (("--twice", (1, 2)), ("--check=5", (1, 2, 4, 1, 2))):
            with self.subTest(option):
                self.stand_in(HELLO)
                done = self.run_words(option, "tree", "--", "/x")
                runs, numbers = len(workers), ", ".join(map(str, sorted(set(workers))))
                self.assertEqual(done, Done(0, b"hello\n", [
                    f"run: equal: {runs} runs with --host 1 to {runs} and --workers {numbers} gave one report"]))
                self.assertEqual(self.options(), [f"--host {host} --workers {number}"
                                                  for host, number in enumerate(workers, 1)])
                self.assertEqual(self.run_words(option, "--quiet", "tree", "--", "/x"), Done(0, b"hello\n", []))

    def test_the_host_that_is_given_is_the_first(self) -> None:
        self.stand_in(HELLO)
        self.run_words("--check", "3", "--host", str(2**64 - 2), "--seed", "4", "tree", "--", "/x")
        self.assertEqual(self.options(), [f"--seed 4 --host {host} --workers {workers}" for host, workers in
                                          ((2**64 - 2, 1), (2**64 - 1, 2), (0, 4))])

    def test_the_number_of_workers_that_is_given_is_the_first(self) -> None:
        self.stand_in(HELLO)
        self.run_words("--twice", "--workers", "7", "tree", "--", "/x")
        self.assertEqual(self.options(), ["--workers 7 --host 1", "--workers 2 --host 2"])

    def test_an_older_program_has_no_workers(self) -> None:
        self.stand_in(HELLO, usage=OLD_USAGE)
        done = self.run_words("--twice", "tree", "--", "/x")
        self.assertEqual(done.err, ["run: equal: 2 runs with --host 1 to 2 gave one report"])
        self.assertEqual(self.options(), ["--host 1", "--host 2"])

    def test_the_first_difference_is_shown_and_ends_it(self) -> None:
        self.stand_in(HELLO, OTHER)
        done = self.run_words("--check", "5", "tree", "--", "/x")
        names = [str(self.folder / "report1"), str(self.folder / "report2")]
        shown = tool("diff", *names).output.decode()
        for name, number in zip(names, (1, 2)):
            shown = shown.replace(name, f"--host {number} --workers {number}")
        self.assertIn("event 1 differs: ", shown)
        self.assertIn("--- A: --host 1 --workers 1\n+++ B: --host 2 --workers 2\n", shown)
        self.assertEqual(done, Done(203, b"hello\n", [
            "run: two runs differ, A with --host 1 --workers 1 and B with --host 2 --workers 2:", *shown.splitlines()]))
        self.assertEqual(len(self.calls()), 2)

    def test_a_later_run_that_differs(self) -> None:
        self.stand_in(HELLO, HELLO, HELLO, OTHER)
        done = self.run_words("--quiet", "--check", "9", "tree", "--", "/x")
        self.assertEqual((done.status, done.err[0], len(self.calls())), (
            203, "run: two runs differ, A with --host 1 --workers 1 and B with --host 4 --workers 1:", 4))

    def test_runs_that_did_not_end_well_are_equal_and_fail_only_where_it_is_strict(self) -> None:
        line = "run: equal: 2 runs with --host 1 to 2 and --workers 1, 2 gave one report"
        for text, status, strict, said in (
            (HELLO, 0, 0, []), (report(b"exit 1 code 4\n"), 1, 4, []),
            (report(verdict="nostart 2"), 10, 127,
             ["run: /x cannot be started: in tree nothing is at /x; / has nothing in it"]),
            (report(b"exit 1 signal 9\n"), 1, 137,
             ["run: /x was ended by SIGKILL, signal 9: a process of the run has sent it"]),
        ):
            with self.subTest(text):
                self.stand_in(text, status=status)
                plain = self.run_words("--twice", "tree", "--", "/x")
                self.assertEqual((plain.status, plain.err), (0, [*said, line]))
                tight = self.run_words("--twice", "--strict", "tree", "--", "/x")
                self.assertEqual((tight.status, tight.err), (strict, [*said, line]))
                self.assertEqual(self.run_words("--strict", "tree", "--", "/x").status, strict)

    def test_a_run_that_fails_is_named(self) -> None:
        self.stand_in(HELLO, b"dettrace 1\n")
        done = self.run_words("--check", "3", "tree", "--", "/x")
        self.assertEqual(done, Done(125, b"hello\n", [
            "run: run 2 of 3 (--host 2 --workers 2): the report is cut, though dettrace ended with 0: it ends after 11 "
            "bytes, behind the first line"]))

    def test_the_report_that_is_kept_is_that_of_the_first(self) -> None:
        self.stand_in(HELLO, OTHER)
        done = self.run_words("--twice", "--report", "kept", "tree", "--", "/x")
        self.assertEqual((done.status, (self.work / "kept").read_bytes()), (203, HELLO))

    def test_a_full_standard_output_fails_also_where_the_reports_are_equal(self) -> None:
        self.stand_in(HELLO)
        with open("/dev/full", "wb") as full:
            done = self.run_words("--twice", "tree", "--", "/x", stdout=full)
        self.assertEqual((done.status, done.err[-1]), (125, "run: standard output cannot be written: "
                                                            "No space left on device"))


if __name__ == "__main__":
    unittest.main()
