"""A caller is refused whose host or output may not be handed to another thread, or whose threads or gate may not be
shared by threads. No wrong body can show it, since such a caller does not reach the prover. Host and output stay with
their own thread so far, and no code but the bound itself needs that they may leave it."""
from __future__ import annotations

import os
import shutil
import signal
import subprocess
import tempfile
import unittest
from pathlib import Path

from program import TOP

SECONDS = 100
BOUNDS = ("R: AllocGlobal + Clock + Threads + Sync", "H: Host + Send", "O: Sink + Send", "G: Gate + Sync")
UNMET = "error[unsatisfied-bound]: the trait bound `{}` is not satisfied"


@unittest.skipUnless(shutil.which("rt"), "there is no rt")
class BoundsTest(unittest.TestCase):
    def setUp(self) -> None:
        folder = tempfile.TemporaryDirectory()
        self.addCleanup(folder.cleanup)
        self.top = Path(folder.name) / "repository"
        shutil.copytree(TOP / "crates", self.top / "crates", ignore=shutil.ignore_patterns("out"))
        for name in ("crates.txt", "HANDLES"):
            shutil.copy(TOP / name, self.top)

    def check(self, crate: str) -> str:
        """What the checker says of a crate, as a rule before it begins to prove the libraries below."""
        checker = subprocess.Popen(["rt", "check"], cwd=self.top / "crates" / crate, stdin=subprocess.DEVNULL,
                                   stdout=subprocess.PIPE, stderr=subprocess.STDOUT, text=True, start_new_session=True)
        try:
            return checker.communicate(timeout=SECONDS)[0]
        except subprocess.TimeoutExpired:
            os.killpg(checker.pid, signal.SIGTERM)
            return checker.communicate()[0]

    def expect_refusal(self, crate: str, file: str, line: str, bound: str) -> None:
        """The crate is refused once its line no longer has the last part of the bound, as in `H: Host + Send`."""
        kept, lost = bound.rsplit(" + ", 1)
        path = self.top / "crates" / crate / file
        text = path.read_text()
        self.assertEqual((text.count(line), line.count(bound)), (1, 1))
        path.write_text(text.replace(line, line.replace(bound, kept)))
        said = self.check(crate)
        path.write_text(text)
        self.assertIn(UNMET.format(f"{kept.split(': ')[0]}: {lost}"), said)

    def test_the_main_call(self) -> None:
        for bound in BOUNDS:
            with self.subTest(bound):
                self.expect_refusal("dt_run", "src/twice.rt", f"    {bound},\n", bound)

    def test_the_run_of_a_container(self) -> None:
        head = "fn run_image<\n" + "".join(f"    {bound},\n" for bound in BOUNDS)
        for bound in BOUNDS:
            with self.subTest(bound):
                self.expect_refusal("dt_run", "src/top.rt", head, bound)


if __name__ == "__main__":
    unittest.main()
