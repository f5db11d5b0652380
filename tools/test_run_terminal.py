"""The line of progress that tools/run shows on a terminal, and only there."""
from __future__ import annotations

import contextlib
import os
import pty
import unittest
from typing import Iterator, List

from runlib.progress import CLEAR, EVERY, FIRST, Progress
from runlib.testing import RunCase

LINE = rb"\r\x1b\[K[0-9]+\.[0-9] s, 1 event, 26 bytes"


class Terminal(RunCase):
    def on_terminal(self, *words: str, is_output_too: bool = False) -> tuple:
        """The status of a run whose standard error is a terminal, and what came onto that."""
        ours, theirs = pty.openpty()
        streams = {"stderr": theirs, **({"stdout": theirs} if is_output_too else {})}
        with self.start(*words, **streams) as running:
            os.close(theirs)
            shown = b"".join(self.blocks(ours))
            running.communicate(timeout=30)
        os.close(ours)
        return running.returncode, shown

    def blocks(self, terminal: int) -> Iterator[bytes]:
        """What comes onto a terminal until nobody has it open any more, which is an error to the system."""
        with contextlib.suppress(OSError):
            yield from iter(lambda: os.read(terminal, 1000), b"")

    def slow(self, text: str = "he\\n") -> None:
        self.stand_in(b"", more=f"printf 'dettrace 1\\nout 1 3\\n{text}\\nexi'; sleep 1.5;"
                                "printf 't 1 code 3\\nverdict ended\\ntree 0\\n'", status=1)

    def test_it_shows_and_goes(self) -> None:
        self.slow()
        status, shown = self.on_terminal("tree", "--", "/x")
        self.assertEqual(status, 3)
        self.assertRegex(shown, LINE)
        self.assertTrue(shown.endswith(CLEAR))
        self.assertTrue(shown.startswith(CLEAR + b"packing tree" + CLEAR))

    def test_it_goes_before_the_guests_output_and_waits_for_the_end_of_a_line(self) -> None:
        self.slow()
        status, shown = self.on_terminal("tree", "--", "/x", is_output_too=True)
        self.assertTrue(shown.startswith(CLEAR + b"packing tree" + CLEAR + b"he\r\n" + CLEAR), shown)
        self.assertRegex(shown, LINE)
        self.slow("hey")
        status, shown = self.on_terminal("tree", "--", "/x", is_output_too=True)
        self.assertEqual((status, shown), (3, b"hey"))

    def test_a_line_of_the_tool_begins_a_line(self) -> None:
        self.stand_in(b"dettrace 1\nout 1 3\nhey\nexit 1 signal 9\nverdict ended\ntree 0\n", status=1)
        _, shown = self.on_terminal("--quiet", "tree", "--", "/x", is_output_too=True)
        said = b"run: /x was ended by SIGKILL, signal 9: a process of the run has sent it\r\n"
        self.assertEqual(shown, b"hey" + said)
        _, shown = self.on_terminal("tree", "--", "/x", is_output_too=True)
        self.assertTrue(shown.endswith(b"hey\r\n" + said), shown)

    def test_it_never_shows_where_standard_error_is_no_terminal(self) -> None:
        self.slow()
        with self.start("tree", "--", "/x") as running:
            self.assertEqual(running.communicate(timeout=30), (b"he\n", b""))
        ours, theirs = pty.openpty()
        with self.start("tree", "--", "/x", stdout=theirs) as running:
            os.close(theirs)
            self.assertEqual(os.read(ours, 100), b"he\r\n")
            self.assertEqual(running.communicate(timeout=30)[1], b"")
        os.close(ours)

    def test_it_does_not_show_where_it_is_to_be_quiet(self) -> None:
        self.slow()
        self.assertEqual(self.on_terminal("--quiet", "tree", "--", "/x"), (3, b""))

    def test_it_goes_where_the_run_is_stopped(self) -> None:
        self.stand_in(b"", more="sleep 1; kill -INT $PPID; sleep 100")
        status, shown = self.on_terminal("tree", "--", "/x")
        self.assertEqual(status, 130)
        self.assertTrue(shown.endswith(CLEAR), shown)
        self.assertIn(b" s, 0 events, 0 bytes", shown)


class Times(unittest.TestCase):
    def test_the_line_shows_only_after_a_while_and_not_too_often(self) -> None:
        now, shown = [0.0], []
        progress = Progress(True, shown.append, lambda: now[0])
        for time in (0.1, FIRST - 0.01, FIRST, FIRST + EVERY / 2, FIRST + EVERY + 0.01):
            now[0] = time
            progress.tick(1, 2)
        self.assertEqual(shown, [CLEAR + b"0.5 s, 1 event, 2 bytes", CLEAR + b"0.7 s, 1 event, 2 bytes"])

    def test_nothing_is_cleared_that_was_not_shown(self) -> None:
        shown: List[bytes] = []
        progress = Progress(True, shown.append)
        progress.hide()
        progress.end_line()
        self.assertEqual(shown, [])


if __name__ == "__main__":
    unittest.main()
