"""What tools/run says of a run that did not end well, and the tables behind that."""
from __future__ import annotations

import re
import unittest

from runlib.calls import INSTEAD, NAMES, PROFILE, TAKEN
from runlib.testing import TOOLS, Done, RunCase, elf, out, report

DOCS = TOOLS.parent / "docs"
PLACE = "; docs/GUESTS.md, \"The instruction at fault\", finds the place"
CALLS = " (docs/GUESTS.md, \"The system calls\")"


class Ends(RunCase):
    def ends(self, text: bytes, status: int, line: str, program_status: int = 10, options: tuple = ()) -> None:
        with self.subTest(line):
            self.stand_in(text, status=program_status)
            self.says(self.run_words(*options, "tree", "--", "A=b", "/x", "y"), status, line)

    def test_signals(self) -> None:
        for number, said in (
            (4, "SIGILL, signal 4: a word that is no instruction of RV64IM (atomic ones take --profile 2), or a jump "
                f"into data{PLACE}"),
            (5, "SIGTRAP, signal 5: ebreak, which is also what the compiler puts where it saw undefined behaviour"
                + PLACE),
            (6, "SIGABRT, signal 6: abort, or an assert that failed, whose line is on standard error"),
            (7, f"SIGBUS, signal 7: a jump, or the entry, at no multiple of 4{PLACE}"),
            (9, "SIGKILL, signal 9: a process of the run has sent it"),
            (11, "SIGSEGV, signal 11: memory that is not there or lacks the right, as behind a bad pointer or a stack "
                 f"over 1 MiB{PLACE}"),
            (13, "SIGPIPE, signal 13: it wrote to a pipe that nobody reads any more"),
            (31, "SIGSYS, signal 31: a process of the run has sent it"),
            (40, "signal 40: a process of the run has sent it"),
        ):
            self.ends(report(b"exit 2 code 0\nexit 1 signal %d\nexit 3 signal 9\n" % number), 128 + number,
                      f"/x was ended by {said}", program_status=1)

    def test_signals_in_profile_2(self) -> None:
        for number, said in (
            (4, f"SIGILL, signal 4: a word that is no instruction of RV64IMA, or a jump into data{PLACE}"),
            (7, "SIGBUS, signal 7: a jump, or the entry, at no multiple of 4, or an atomic instruction at no multiple "
                f"of its size{PLACE}"),
        ):
            self.ends(report(b"exit 1 signal %d\n" % number), 128 + number, f"/x was ended by {said}", 1,
                      ("--profile", "2"))

    def test_a_signal_where_the_file_says_why(self) -> None:
        said = "build it, and each library, with -march=rv64im -mabi=lp64"
        self.write("bin/rvc", elf(flags=1))
        compressed = f"/bin/rvc: it has compressed instructions (flag RVC); {said}"
        both = ("/x: it has compressed instructions (flag RVC); /x: it has floating-point instructions (its flags name "
                f"a float ABI); {said}")
        for data, why in ((elf(flags=5), both), (b"#!/bin/rvc\n", compressed)):
            self.write("x", data)
            self.ends(report(b"exit 1 signal 7\n"), 135, f"/x was ended by SIGBUS, signal 7: {why}", program_status=1)
            self.ends(report(b"exit 1 signal 4\n"), 132, f"/x was ended by SIGILL, signal 4: {why}", program_status=1)

    def test_output_before_the_end_is_shown(self) -> None:
        self.stand_in(report(out(1, b"one\n"), out(2, b"two\n"), b"exit 1 signal 15\n"), status=1)
        self.assertEqual(self.run_command("/x"), Done(143, b"one\n", [
            "two", "run: /x was ended by SIGTERM, signal 15: a process of the run has sent it"]))

    def test_deadlock_and_budget(self) -> None:
        loop = "build with -O2, and look for a loop without an end (docs/GUESTS.md, \"The instruction at fault\")"
        self.ends(report(verdict="deadlock"), 200,
                  "all processes wait, so that none can go on: close the ends of a pipe that a process does not use, "
                  "before it reads or waits (docs/GUESTS.md, \"Processes and pipes\")")
        self.ends(report(verdict="budget"), 201,
                  f"the budget of 100000000 instructions is used up: give more by --budget, up to 1000000000; {loop}")
        self.ends(report(verdict="budget"), 201,
                  f"the budget of 7 instructions is used up: give more by --budget, up to 1000000000; {loop}",
                  options=("--budget", "7"))
        self.ends(report(verdict="budget"), 201,
                  f"the budget of 1000000000 instructions, which is the most, is used up: {loop}",
                  options=("--budget", "1000000000"))

    def test_calls_that_are_not_there(self) -> None:
        for pid, number, said in (
            (1, 198, "process 1 made the system call socket (198), which this version lacks: there is no network"),
            (7, 133, "process 7 made the system call rt_sigsuspend (133), which this version lacks: a shell's `wait` "
                     "makes it: wait for the end of a pipe"),
            (1, 439, "process 1 made the system call faccessat2 (439), which this version lacks: a shell's `test -x` "
                     "makes it: build dash with ac_cv_func_faccessat=no"),
            (1, 83, "process 1 made the system call fdatasync (83), which this version lacks"),
            (1, 5000, "process 1 made the system call 5000, which Linux does not have either"),
            (2, 2**64 - 1, "process 2 made the system call 18446744073709551615, which Linux does not have either"),
        ):
            self.ends(report(verdict=f"unsupported {pid} {number}"), 202, said + CALLS)

    def test_calls_that_are_there_and_were_asked_for_something_else(self) -> None:
        for number, name, part in (
            (25, "fcntl", "the commands F_DUPFD, "), (56, "openat", "and not O_PATH, O_TMPFILE, "),
            (129, "kill", "a signal below 18"), (130, "tkill", "a signal below 18"),
            (131, "tgkill", "a signal below 18"),
            (220, "clone", "neither CLONE_VM nor CLONE_VFORK"), (222, "mmap", "MAP_PRIVATE with MAP_ANONYMOUS"),
            (260, "wait4", "no process group"),
        ):
            self.assertIn(part, TAKEN[number])
            self.ends(report(verdict=f"unsupported 3 {number}"), 202,
                      f"process 3 asked the system call {name} ({number}) for what this version lacks: "
                      f"it takes {TAKEN[number]}{CALLS}")
        self.ends(report(verdict="unsupported 3 93"), 202,
                  f"process 3 asked the system call exit (93) for what this version lacks{CALLS}")


class Tables(unittest.TestCase):
    def rows(self) -> dict:
        """The calls by their numbers, and what GUESTS.md says of them."""
        found = {}
        row = re.compile(r"(?m)^\| ([0-9]+(?:, [0-9]+)*|174 to 177) \| (`\w+`(?:, `\w+`)*) \| (.*)$")
        for numbers, names, text in row.findall((DOCS / "GUESTS.md").read_text()):
            each = range(174, 178) if "to" in numbers else map(int, numbers.split(", "))
            found.update({number: (name.strip("`"), text) for number, name in zip(each, names.split(", "))})
        return found

    def test_the_calls_are_those_of_the_page_under_its_names(self) -> None:
        rows = self.rows()
        self.assertEqual(set(rows), set(PROFILE))
        self.assertEqual({number: name for number, (name, _) in rows.items()}, {n: NAMES[n] for n in rows})

    def test_the_calls_that_can_end_a_run_are_those_of_the_page(self) -> None:
        ending = {number for number, (_, text) in self.rows().items() if re.search(r"ends? the run\b", text)}
        # The end of process 1 is the end of a run that is well.
        self.assertEqual(ending - {93, 94}, set(TAKEN))

    def test_no_hint_is_of_a_call_that_is_there(self) -> None:
        self.assertEqual([number for number in INSTEAD if number in PROFILE or number not in NAMES], [])

    def test_some_names_of_calls_far_apart(self) -> None:
        numbers = (0, 37, 39, 73, 98, 198, 243, 260, 276, 293, 424, 435, 439)
        self.assertEqual([NAMES[number] for number in numbers], [
            "io_setup", "linkat", "umount2", "ppoll", "futex", "socket", "recvmmsg", "wait4", "renameat2", "rseq",
            "pidfd_send_signal", "clone3", "faccessat2"])


    def test_the_pages_that_lines_name_have_what_is_named(self) -> None:
        found = set()
        for path in (TOOLS / "runlib").glob("*.py"):
            found.update(re.findall(r'((?:docs/)?[A-Z]+\.md), \\"([^"\\]+)\\"', path.read_text()))
        self.assertGreater(len(found), 4)
        for page, part in found:
            with self.subTest(page, part=part):
                self.assertRegex((TOOLS.parent / page).read_text(), rf"(?m)^(## |\*\*){re.escape(part)}")


if __name__ == "__main__":
    unittest.main()
