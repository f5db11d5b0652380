"""A soak finds one digest where there is one, and tells where there are more."""
import re
import subprocess
import tempfile
import unittest
from pathlib import Path

from program import PROGRAM, TOP, needs_program

# A program whose output depends on the number of workers.
UNSTEADY = """#!/bin/sh
while [ $# -gt 0 ]; do
    [ "$1" = --workers ] && echo "$(($2 / 32))"
    shift
done
"""


def soak(*words: object) -> subprocess.CompletedProcess:
    return subprocess.run([TOP / "tools" / "soak", "--busy", "1", *map(str, words)], stdin=subprocess.DEVNULL,
                          capture_output=True, text=True)


class Soaks(unittest.TestCase):
    @needs_program
    def test_each_subject_has_one_digest(self):
        ran = soak("--program", PROGRAM, "--seed", 5, "--runs", 12)
        self.assertEqual((ran.returncode, ran.stderr), (0, ""))
        lines = ran.stdout.splitlines()
        self.assertEqual(lines[0], "seed 5")
        self.assertRegex(lines[-1], r"^12 runs, 0 of \d+ with more than one digest$")
        for line in lines[1:-1]:
            self.assertRegex(line, r"^[a-z0-9 ]+: \d+ runs, digest [0-9]+ [0-9a-f]{64}$")

    def test_a_program_whose_output_depends_on_workers_is_found_out(self):
        with tempfile.TemporaryDirectory() as folder:
            program = Path(folder) / "program"
            program.write_text(UNSTEADY)
            program.chmod(0o755)
            ran = soak("--program", program, "--seed", 5, "--runs", 60)
        self.assertEqual((ran.returncode, ran.stderr), (1, ""))
        several = re.search(r"60 runs, (\d+) of \d+ with more than one digest\n$", ran.stdout)
        self.assertGreater(int(several[1]), 5)
        self.assertIn("    first of: ", ran.stdout)

    def test_nothing_to_run_is_refused(self):
        self.assertEqual(soak("--runs", 0).returncode, 2)
