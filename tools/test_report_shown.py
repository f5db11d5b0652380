"""Tests of how the tool for reports shows what differs: how both runs ended, in silence, in colors, through a pager."""
from __future__ import annotations

import os
import pty
import re
import subprocess
import sys
import unittest
from typing import Dict, List, Tuple

from reportlib.terminal import always_by_name
from reportlib.testing import TOOL, Case, out, report, run

CODE_0 = b"exit 1 code 0\n"
HELLO = report(out(1, b"hello\n"), CODE_0, tree=[])
OTHER = report(out(1, b"help!\n"), CODE_0, tree=[])
TEXT = """event 1 differs: 6 bytes were written to standard output in both; byte 4 is the first that differs, \
"l" in A and "p" in B
--- A: {a}
+++ B: {b}
@@ -1,6 +1,6 @@
 dettrace 1
 out 1 6
-hello
+help!
 
 exit 1 code 0
 verdict ended
"""


class EndsTest(Case):
    def lines(self, a: bytes, b: bytes) -> List[str]:
        files = self.written(a=a, b=b)
        result = run("diff", files["a"], files["b"])
        self.assertEqual((result.status, result.errors), (1, ""))
        return result.output.decode().split("\n--- A: ")[0].split("\n")

    def test_how_both_ended_is_told_unless_both_did_with_code_0(self) -> None:
        first, second = out(1, b"a"), out(1, b"b")
        for a, b, told in (
            (CODE_0, CODE_0, []),
            (CODE_0, b"exit 1 code 3\n", ["A ended with code 0, and B with code 3"]),
            (b"exit 1 signal 9\n", CODE_0, ["A ended by signal 9, and B with code 0"]),
            (b"exit 1 code 1\n", b"exit 1 code 1\n", ["A ended with code 1, and B with code 1"]),
            (CODE_0 + b"exit 2 code 9\n", CODE_0 + b"exit 2 signal 9\n", []),
        ):
            with self.subTest(told, a=a, b=b):
                self.assertEqual(self.lines(report(first, a, tree=[]), report(second, b, tree=[]))[1:], told)

    def test_what_both_have_in_common_counts_too(self) -> None:
        end = b"exit 1 code 4\n"
        lines = self.lines(report(end, tree=[b"dir 2 0755 0 /a"]), report(end, tree=[b"dir 2 0755 0 /b"]))
        self.assertEqual(lines[1:], ["A ended with code 4, and B with code 4"])

    def test_a_verdict_is_told_where_it_is_not_ended(self) -> None:
        lines = self.lines(report(out(1, b"a"), CODE_0, tree=[]), report(out(1, b"b"), verdict=b"budget", tree=[]))
        self.assertEqual(lines[1:], ["A ended with code 0, and B with the verdict budget"])

    def test_of_one_that_is_cut_no_end_is_told(self) -> None:
        lines = self.lines(HELLO[:22], report(out(1, b"HELLO\n"), b"exit 1 code 1\n", tree=[]))
        self.assertEqual([line for line in lines if " ended " in line], [])


class QuietTest(Case):
    def test_quiet_says_it_by_the_status_alone(self) -> None:
        files = self.written(a=HELLO, b=HELLO, c=OTHER, d=HELLO[:20])
        for option in ("-q", "--quiet"):
            for a, b, status in (("a", "b", 0), ("a", "c", 1), ("a", "d", 1), ("d", "d", 1)):
                with self.subTest(option, a=a, b=b):
                    self.assertEqual(run("diff", option, files[a], files[b]), (status, b"", ""))

    def test_quiet_says_what_is_no_report(self) -> None:
        files = self.written(a=HELLO, b=b"none")
        result = run("diff", "-q", files["a"], files["b"])
        self.assertEqual((result.status, result.output), (2, b""))
        self.assertIn("not a report", result.errors)


class ShownCase(Case):
    def setUp(self) -> None:
        super().setUp()
        self.files = self.written(a=HELLO, b=OTHER)

    def text(self) -> str:
        return TEXT.format(**self.files)

    def on_terminal(self, *options: str, **environment: str) -> Tuple[int, str]:
        """The status of a diff on a terminal, and what it shows."""
        screen, terminal = pty.openpty()
        words = [sys.executable, str(TOOL), "diff", *options, self.files["a"], self.files["b"]]
        with subprocess.Popen(words, stdin=subprocess.DEVNULL, stdout=terminal, stderr=terminal,
                              env=self.environment(environment)) as process:
            os.close(terminal)
            shown = b""
            try:
                while True:
                    shown += os.read(screen, 65536)
            except OSError:
                # Nobody writes there any more.
                os.close(screen)
        return process.returncode, shown.decode().replace("\r\n", "\n")

    def environment(self, more: Dict[str, str]) -> Dict[str, str]:
        left = {name: value for name, value in os.environ.items() if name not in ("PAGER", "LESS", "NO_COLOR", "TERM")}
        return {**left, "TERM": "xterm", **more}


class ColorTest(ShownCase):
    def colored(self) -> str:
        lines = []
        for line in self.text().splitlines():
            color = "1" if re.match("event|---|\\+\\+\\+", line) else {"-": "31", "+": "32", "@": "36"}.get(line[:1])
            lines.append(f"\x1b[{color}m{line}\x1b[m" if color else line)
        return "".join(f"{line}\n" for line in lines)

    def test_without_a_terminal_colors_are_shown_only_if_they_are_asked_for(self) -> None:
        files = list(self.files.values())
        for words, told in (([], self.text()), (["--color"], self.colored()), (["--color=always"], self.colored()),
                            (["--color=never"], self.text()), (["--color=auto"], self.text())):
            with self.subTest(words):
                self.assertEqual(run("diff", *words, *files), (1, told.encode(), ""))

    def test_a_terminal_shows_colors_unless_it_is_told_not_to(self) -> None:
        for options, environment, told in (
            ([], {}, self.colored()), ([], {"NO_COLOR": "1"}, self.text()), ([], {"NO_COLOR": ""}, self.colored()),
            ([], {"TERM": "dumb"}, self.text()), (["--color=never"], {}, self.text()),
            (["--color"], {"NO_COLOR": "1"}, self.colored()),
        ):
            with self.subTest(options, environment=environment):
                self.assertEqual(self.on_terminal(*options, PAGER="", **environment), (1, told))

    def test_other_values_are_refused(self) -> None:
        result = run("diff", "--color=sometimes", *self.files.values())
        self.assertEqual((result.status, result.output), (2, b""))
        self.assertIn("sometimes", result.errors)

    def test_a_file_of_that_name_stands_behind_two_dashes(self) -> None:
        self.assertEqual(always_by_name(["diff", "--color", "--", "--color"]),
                         ["diff", "--color=always", "--", "--color"])


class PagerTest(ShownCase):
    def test_what_a_terminal_shows_goes_through_the_pager(self) -> None:
        told = "".join(f"> {line}\n" for line in self.text().splitlines())
        self.assertEqual(self.on_terminal("--color=never", PAGER="sed 's/^/> /'"), (1, told))

    def test_no_pager_is_started_where_none_is_wanted(self) -> None:
        for pager, options, told in (("", [], self.text()), ("cat", [], self.text()), ("echo no", ["-q"], "")):
            with self.subTest(pager, options=options):
                self.assertEqual(self.on_terminal("--color=never", *options, PAGER=pager), (1, told))
        self.assertEqual(self.on_terminal(PAGER="echo no", TERM="dumb"), (1, self.text()))

    def test_a_pager_that_is_left_early_changes_no_status(self) -> None:
        self.assertEqual(self.on_terminal(PAGER="exit 5"), (1, ""))

    def test_less_is_told_to_end_where_all_fits_and_to_show_colors(self) -> None:
        self.assertEqual(self.on_terminal(PAGER='echo "$LESS"'), (1, "FRX\n"))
        self.assertEqual(self.on_terminal(PAGER='echo "$LESS"', LESS="S"), (1, "S\n"))

    def test_without_a_terminal_there_is_no_pager(self) -> None:
        done = subprocess.run([sys.executable, str(TOOL), "diff", *self.files.values()], capture_output=True,
                              env=self.environment({"PAGER": "echo no"}), check=False)
        self.assertEqual((done.returncode, done.stdout.decode(), done.stderr), (1, self.text(), b""))


if __name__ == "__main__":
    unittest.main()
