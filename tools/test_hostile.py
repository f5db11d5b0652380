"""tools/hostile: that its tries are functions of their seed, that it finds each thing that may be wrong with a run, and
that the program that is built comes through some of its tries."""
from __future__ import annotations

import contextlib
import io
import os
import shutil
import struct
import subprocess
import sys
import tempfile
import unittest
from pathlib import Path
from typing import Dict, List, Tuple
from unittest import mock

from hostilelib import checking, commands, costs, limits, refusals
from hostilelib.building import Guest, MIB, WRONG
from hostilelib.code import A0, A1, Code, program, store
from hostilelib.numbers import EXIT, GETPID, WRITE
from hostilelib.running import run
from hostilelib.tries import Maker, file_entry, index_of
from program import PROGRAM, TOP, needs_program

KINDS = ["images", "executables", "words", "instructions", "calls", "programs"]
USAGE = "dettrace: usage: dettrace run IMAGE [--seed N] -- [NAME=VALUE ..] PROGRAM [ARG ..]"
WHOLE = "dettrace 1\nexit 1 code 0\nverdict ended\ntree 0\n"


class Case(unittest.TestCase):
    """A test in a folder of its own, where stand-ins for the program are made."""

    def setUp(self) -> None:
        folder = tempfile.TemporaryDirectory(prefix="hostile-test-")
        self.addCleanup(folder.cleanup)
        self.top = Path(folder.name)

    def stand_in(self, script: str) -> Path:
        path = self.top / "stand-in"
        path.write_text(f"#!/bin/sh\n{script}\n")
        path.chmod(0o755)
        return path

    def hostile(self, program_there: Path, tries: int, *words: str) -> Tuple[int, List[str]]:
        """The tool's status and its lines."""
        out = io.StringIO()
        with contextlib.redirect_stdout(out):
            status = commands.main(["--program", str(program_there), "--tries", str(tries), "--seed", "1", "--keep",
                                    str(self.top / "kept"), *words])
        return status, out.getvalue().splitlines()

    def kept(self) -> List[str]:
        place = self.top / "kept"
        return sorted(os.listdir(place)) if place.exists() else []


class Tries(Case):
    def test_a_try_is_a_function_of_seed_and_number(self) -> None:
        first, second, other = (Maker(seed) for seed in (5, 5, 6))
        self.assertEqual([first.make(number) for number in range(60)], [second.make(number) for number in range(60)])
        self.assertNotEqual([first.make(number) for number in range(60)], [other.make(number) for number in range(60)])

    def test_each_kind_comes_in_turn(self) -> None:
        self.assertEqual([Maker(1).make(number).kind for number in range(7)], [*KINDS, KINDS[0]])

    def test_command_lines_ask_for_two_hosts_and_two_numbers_of_workers(self) -> None:
        maker = Maker(3)
        for number in range(60):
            tried = maker.make(number)
            first, second = commands.words_of(tried)
            if tried.kind == "words":
                continue
            options = (b"--host", b"--workers")
            named = [[words[words.index(option) + 1] for option in options] for words in (first, second)]
            self.assertEqual(named, [[b"1", b"1"], [b"18446744073709551615", b"3"]])
            self.assertEqual(*([word for word in words if word not in (*options, *sum(named, []))]
                               for words in (first, second)))


class Found(Case):
    """What is wrong with a run is told, and the try is kept."""

    def finds(self, script: str, fault: str, kind: str, **patches: float) -> None:
        shutil.rmtree(self.top / "kept", ignore_errors=True)
        number = KINDS.index(kind)
        with contextlib.ExitStack() as stack:
            for name, value in patches.items():
                module = commands if hasattr(commands, name) and name == "SECONDS_AT_MOST" else checking
                stack.enter_context(mock.patch.object(module, name, value))
            status, lines = self.hostile(self.stand_in(script), 1, "--first", str(number))
        self.assertEqual(status, 1)
        self.assertEqual(self.kept(), [f"{number}-{kind}"])
        self.assertRegex(lines[1], f"^try {number} .*{fault}")
        self.assertRegex(lines[-1], r"^seed 1: 1 tries in \d+ seconds, 1 failed$")

    def test_an_end_by_a_signal(self) -> None:
        self.finds("kill -SEGV $$", "ended by signal 11", "calls")

    def test_a_status_that_no_run_has(self) -> None:
        self.finds("exit 9", "status 9 is none of", "calls")

    def test_a_fault_that_has_no_cause(self) -> None:
        self.finds("echo dettrace: host fault >&2; exit 5", "status 5 is none of", "instructions")
        self.finds("echo dettrace: out of memory >&2; exit 7", "status 7 is none of", "instructions")

    def test_another_line_than_that_of_the_status(self) -> None:
        self.finds("echo dettrace: panic >&2; exit 2", "it wrote .*panic", "words")
        self.finds(f"printf '{WHOLE}'; echo more >&2", "it wrote .*more", "calls")

    def test_output_where_there_is_none(self) -> None:
        self.finds(f"echo x; echo '{USAGE}' >&2; exit 2", "to standard output", "words")

    def test_a_report_that_is_cut_or_none(self) -> None:
        self.finds("echo dettrace 1", "the report is cut", "calls")
        self.finds("echo hello", "not a report", "calls")

    def test_a_status_that_is_not_the_report_s(self) -> None:
        self.finds(f"printf '{WHOLE}'; exit 1", "the report comes to 0", "calls")
        self.finds(f"printf '{WHOLE.replace('ended', 'deadlock')}'", "the report comes to 10", "calls")

    def test_a_difference_between_two_runs(self) -> None:
        script = "printf 'dettrace 1\\nout 1 1\\n%s\\nexit 1 code 0\\nverdict ended\\ntree 0\\n' $5"
        self.finds(script, "otherwise than run 1: output from byte", "calls")
        self.finds(f"printf '{WHOLE}'; exit $(($5 / 2))", "otherwise than run 1: status 0 and 1", "calls")

    def test_an_image_that_is_taken_otherwise(self) -> None:
        self.finds("echo dettrace: image refused: 1 NoIndex >&2; exit 3", "where tools/image says", "images")

    def test_a_run_that_does_not_end(self) -> None:
        self.finds("exec sleep 20", "had not ended after", "calls", SECONDS_AT_MOST=0.3)

    def test_a_run_that_takes_too_much(self) -> None:
        self.finds(f"printf '{WHOLE}'", "seconds of a processor", "calls", SECONDS=-1000.0)
        self.finds(f"printf '{WHOLE}'", "MiB of memory", "calls", MEMORY=1)

    def test_each_file_of_an_image_counts_by_itself(self) -> None:
        image = self.top / "img"
        image.mkdir()
        (image / "blob").write_bytes(bytes(1000))
        entries = [file_entry(path, "blob") for path in ("/a", "/b", "/c")]
        (image / "image.json").write_bytes(index_of(*entries))
        self.assertEqual(checking.bytes_of_files(self.top), 3000)
        (image / "image.json").write_bytes(index_of(*entries, file_entry("/a", "blob")))
        self.assertEqual(checking.bytes_of_files(self.top), 0)

    def test_what_is_kept_runs_again(self) -> None:
        script = self.stand_in("echo $# >&2; exit 9")
        self.hostile(script, 6)
        for name in self.kept():
            place = self.top / "kept" / name
            said = subprocess.run([place / "again"], capture_output=True, text=True, check=True)
            self.assertEqual(said.stdout, "status 9\n" * 2)
            self.assertEqual(said.stderr.split(), [(place / f"err{run}").read_text().strip() for run in (1, 2)])
            self.assertRegex((place / "why").read_text(), r"^seed 1, try \d\nrun 1: ")

    def test_a_time_that_is_over(self) -> None:
        status, lines = self.hostile(self.stand_in("exit 9"), 1000, "--seconds", "0")
        self.assertEqual((status, len(lines)), (0, 3))
        self.assertRegex(lines[-1], "^seed 1: 0 tries in 0 seconds, 1000 left out since time was over, 0 failed$")


class Script(Case):
    def test_words_and_a_missing_program(self) -> None:
        tool = [sys.executable, TOP / "tools/hostile"]
        none = ["--program", str(self.top / "none")]
        for words, said in (none, "there is no program"), (["--tries", "-1"], "too small"):
            done = subprocess.run([*tool, *words], capture_output=True, text=True, check=False)
            self.assertEqual((done.returncode, done.stdout), (2, ""))
            self.assertIn(said, done.stderr)


@needs_program
class Real(Case):
    """The program that is built."""

    def test_it_comes_through_some_tries(self) -> None:
        status, lines = self.hostile(PROGRAM, 120)
        self.assertEqual((status, self.kept()), (0, []), lines)
        self.assertEqual(sorted(line.split(":")[0] for line in lines[1:7]), sorted(KINDS))
        self.assertRegex(lines[-1], r"^seed 1: 120 tries in \d+ seconds, 0 failed$")

    def ran(self, made: bytes) -> Dict[str, bytes]:
        """A run of an executable: the status, and what it wrote to standard output."""
        (self.top / "img").mkdir(exist_ok=True)
        (self.top / "img/p").write_bytes(made)
        (self.top / "img/image.json").write_bytes(index_of(file_entry("/p", "p")))
        done = run([str(PROGRAM), "run", "img", "--", "/p"], self.top, 60)
        return {"status": done.status, "report": done.out}

    def test_numbers_come_into_registers_as_they_are(self) -> None:
        numbers = [0, 1, -1, 2047, 2048, -2048, -2049, 0x7FFFFFFF, 0x80000000, -2**31, -2**31 - 1, 2**32 - 1, 2**38 - 1,
                   0x3FFFFFF000, 2**63 - 1, 2**63, 2**64 - 1, 0x0123456789ABCDEF, 0x800_0000_0800]
        code = Code()
        for place, number in enumerate(numbers):
            code.li(A1, 0x20000)
            code.li(A0, number)
            code.add(store(A0, 8 * place, A1))
        code.call(WRITE, 1, 0x20000, 8 * len(numbers))
        code.exit(0)
        report = self.ran(program(code, (0x20000, b"", 4096)))["report"]
        wanted = b"".join(struct.pack("<Q", number % 2**64) for number in numbers)
        self.assertEqual(report.split(b"\n", 2)[2][:len(wanted)], wanted)

    def test_a_guest_ends_otherwise_where_an_answer_is_another(self) -> None:
        for wanted, code in (1, 0), (2, WRONG):
            guest = Guest(4096)
            guest.call(GETPID)
            guest.expect(wanted)
            self.assertIn(b"exit 1 code %d\n" % code, self.ran(guest.executable())["report"])

    def test_loops_children_and_pages(self) -> None:
        guest = Guest(MIB)
        guest.touch_pages(0x1000000, 256)
        guest.child(lambda: guest.code.spin(10))
        guest.wait()
        guest.expect(2)
        self.assertIn(b"exit 2 code 0\nexit 1 code 0\n", self.ran(guest.executable())["report"])

    def test_limits_are_met_by_errnos_or_by_status_7(self) -> None:
        for limit in (limits.memory(1), limits.memory(3), limits.nodes(), limits.files(2), limits.descriptors(),
                      limits.pipes()):
            for most, statuses in (None, (0,)), (32 * MIB, (0, 7)):
                with self.subTest(limit.what, most=most):
                    self.assertEqual(limits.faults(limits.run_limit(PROGRAM, limit, most), statuses), [])

    def test_what_has_no_limit_ends_with_status_7_where_memory_does(self) -> None:
        for limit in limits.files(16), limits.names(50_000), limits.output(8), limits.depth(300), \
                limits.Limit("entries", limits.many_entries()):
            with self.subTest(limit.what):
                self.assertEqual(limits.faults(limits.run_limit(PROGRAM, limit, 24 * MIB), (7,)), [])

    def test_a_cost_is_measured_by_guests_that_end(self) -> None:
        for cost in costs.path_costs():
            with self.subTest(cost.what):
                self.assertIsNotNone(costs.measured(PROGRAM, cost._replace(times=1)))


# Asks for memory five times, and ends as it may where it gets none; or else it says less and goes on.
ASKING = """#include <stdlib.h>
#include <unistd.h>
int main(void) {
    for (int at = 0; at < 5; at++)
        if (!malloc(10)) { write(2, "dettrace: out of memory\\n", 24); return GIVES_UP; }
    write(1, "whole", 5);
    return 0;
}
"""


@unittest.skipUnless(shutil.which("cc"), "there is no cc")
class Refusals(Case):
    """Requests for memory that are refused once."""

    def setUp(self) -> None:
        super().setUp()
        self.library = refusals.build(self.top)

    def test_what_ends_otherwise_is_found(self) -> None:
        (self.top / "asking.c").write_text(ASKING)
        for status, ended, faults in (7, 5, 0), (0, 0, 5), (5, 0, 5):
            asking = self.top / f"asking{status}"
            subprocess.run(["cc", f"-DGIVES_UP={status}", "-o", asking, self.top / "asking.c"], check=True)
            came = refusals.refused(asking, self.library, refusals.runs()[0])
            self.assertEqual((came.requests, came.ended, len(came.faults)), (5, ended, faults))

    @needs_program
    def test_the_program_ends_with_status_7_or_as_if_nothing_had_been(self) -> None:
        for tried, step in zip(refusals.runs(), (1, 10, 100)):
            with self.subTest(tried.what):
                came = refusals.refused(PROGRAM, self.library, tried, step)
                self.assertEqual(came.faults, [])
                self.assertGreater(came.ended, 0)


if __name__ == "__main__":
    unittest.main()
