"""What ./dettrace build does: which crates it proves, in which order, what it shows, and what is left when it is
interrupted; with a stand-in for rt."""
from __future__ import annotations

import os
import pty
import re
import signal
import subprocess
import time
import unittest

from script_case import NO_RT, RT, ScriptCase

LAST = "dettrace run -- run {0}/examples/hello -- /hello"
# Starts a process of its own, and waits for it.
SLOW = """#!/bin/sh
sleep 100 &
echo $$ $! >"$CALLS"
wait
"""
# Notes when it begins and ends.
TIMED = RT.replace('echo "$(basename "$PWD") $*"', 'echo "begin $(basename "$PWD") $3"; sleep 0.3; '
                                                   'echo "end $(basename "$PWD")"')


class BuildTest(ScriptCase):
    def build(self, *words: str, has_rt: bool = True) -> tuple[int, str, str]:
        return self.run_script("build", *words, has_rt=has_rt)

    def test_the_crates_of_the_program_are_proved_lowest_first_and_once(self) -> None:
        status, out, err = self.build()
        self.assertEqual((status, out), (0, ""))
        self.assertEqual(self.called(), ["low lib", "high lib", "side lib", LAST.format(self.top)])
        self.assertEqual(re.sub(r"\d:\d\d:\d\d", "TIME", err).splitlines(), [
            "dettrace: TIME proving low, 3 left", "dettrace: TIME proving high, 2 left",
            "dettrace: TIME proving side, 1 left", "dettrace: TIME proving dettrace, 0 left", "dettrace: TIME built"])
        self.assertEqual(self.run_script("words")[:2], (7, "ran words\n"))

    def test_what_is_built_is_not_built_again_before_a_source_changes(self) -> None:
        self.build()
        said = "dettrace: the program is built already, and its sources have not changed since\n"
        self.assertEqual(self.build(has_rt=False), (0, "", said))
        self.assertEqual(len(self.called()), 4)
        self.write("crates/low/src/lib.rt", "changed")
        later = time.time() + 100
        os.utime(self.top / "crates/low/src/lib.rt", (later, later))
        self.assertEqual(self.build()[0], 0)
        self.assertEqual(len(self.called()), 8)

    def test_several_crates_are_proved_at_a_time_and_none_before_those_below_it(self) -> None:
        self.tool(self.rt, TIMED.replace('>>"$CALLS"', "").replace("echo", 'echo >>"$CALLS"'))
        for words, most in ((), 1), (("-j", "2"), 2), (("-j8",), 2):
            with self.subTest(words):
                self.calls.unlink(missing_ok=True)
                (self.top / "crates/dettrace/out/dettrace").unlink(missing_ok=True)
                self.assertEqual(self.build(*words)[0], 0)
                self.assertEqual(self.most_at_a_time(), most)

    def most_at_a_time(self) -> int:
        """How many calls ran at a time. Each has begun once all those below its crate have ended."""
        below = {"low": [], "high": ["low"], "side": ["low"], "dettrace": ["high", "side"]}
        running, most, ended = 0, 0, []
        for line in self.called():
            kind, crate = line.split()[:2]
            running += 1 if kind == "begin" else -1
            most = max(most, running)
            if kind == "end":
                ended.append(crate)
            else:
                self.assertLessEqual(set(below[crate]), set(ended))
        return most

    def test_crates_that_are_proved_at_a_time_take_one_processor_each(self) -> None:
        self.build("-j", "2")
        self.assertIn("low lib --jobs 1", self.called())
        self.assertEqual(self.called()[-1], LAST.format(self.top).replace("run", "run --jobs 1", 1))

    def test_without_the_kit_nothing_is_built(self) -> None:
        self.assertEqual(self.build(has_rt=False), (125, "", NO_RT))

    def test_a_crate_that_is_refused_ends_the_build_with_what_was_said_of_it(self) -> None:
        self.tool(self.rt, RT.replace(
            "[ \"$1\" = run ] || exit 0", "case $PWD in */high) echo refused; exit 1 ;; *) exit 0 ;; esac"))
        status, out, err = self.build()
        self.assertEqual((status, out, self.called()), (125, "", ["low lib", "high lib"]))
        self.assertRegex(err, r"\nrefused\ndettrace: \S+ high could not be proved or built, for the reason above\n\Z")

    def test_a_build_that_makes_no_program_ends_with_125(self) -> None:
        self.tool(self.rt, "#!/bin/sh\n")
        status, _, err = self.build()
        self.assertEqual((status, err.splitlines()[-1]), (125, "dettrace: rt has made no program"))

    def test_other_words_are_refused(self) -> None:
        for words in (["-j", "0"], ["-j", "x"], ["-j"], ["other"], ["--jobs", "2"]):
            with self.subTest(words):
                status, out, err = self.build(*words)
                self.assertEqual((status, out, err.split("\n")[0]), (2, "", "usage: dettrace build [-h] [-j N]"))
        self.assertEqual(self.called(), [])

    def test_a_terminal_shows_the_time_each_second(self) -> None:
        self.tool(self.rt, RT.replace("[ \"$1\" = run ]", "sleep 0.6; [ \"$1\" = run ]"))
        screen, terminal = pty.openpty()
        with subprocess.Popen([self.top / "dettrace", "build"], env={**self.environment(), "COLUMNS": "80"},
                              stderr=terminal) as process:
            os.close(terminal)
            shown = self.all_of(screen)
        self.assertEqual(process.returncode, 0)
        # A busy machine takes longer, so no exact second is asked for.
        self.assertRegex(shown, r"\r\033\[Kdettrace: 0:00:0[1-9] proving \w+, [12] left")
        self.assertRegex(shown, r"\r\033\[Kdettrace: 0:00:0[2-9] built\r\n")

    def all_of(self, screen: int) -> str:
        shown = b""
        try:
            while True:
                shown += os.read(screen, 65536)
        except OSError:
            # Nobody writes there any more.
            os.close(screen)
        return shown.decode()


class InterruptTest(ScriptCase):
    def started(self) -> tuple["subprocess.Popen[bytes]", list[int]]:
        """A build, and the processes that it has started."""
        process = subprocess.Popen([self.top / "dettrace", "build"], env=self.environment(), stderr=subprocess.PIPE,
                                   preexec_fn=lambda: signal.signal(signal.SIGINT, signal.SIG_DFL))
        until = time.monotonic() + 20
        while time.monotonic() < until and not (self.calls.exists() and self.calls.read_text().endswith("\n")):
            time.sleep(0.05)
        return process, [int(word) for word in self.calls.read_text().split()]

    def runs(self, pid: int) -> bool:
        """Whether a process runs; one that has ended may wait for whoever asks for its status."""
        try:
            with open(f"/proc/{pid}/stat", encoding="utf-8") as file:
                return file.read().rpartition(")")[2].split()[0] != "Z"
        except FileNotFoundError:
            return False

    def test_it_ends_what_it_started_and_leaves_no_temporary_file(self) -> None:
        self.tool(self.rt, SLOW)
        for number in (signal.SIGINT, signal.SIGTERM, signal.SIGHUP):
            with self.subTest(number):
                self.calls.unlink(missing_ok=True)
                process, pids = self.started()
                self.assertEqual([self.runs(pid) for pid in pids], [True, True])
                process.send_signal(number)
                said = process.communicate(timeout=30)[1].decode()
                self.assertEqual(process.returncode, 130)
                self.assertRegex(said, r"\ndettrace: \S+ interrupted; what was proved is kept\n\Z")
                self.assertEqual([self.runs(pid) for pid in pids], [False, False])
                self.assertEqual(os.listdir(self.folder / "tmp"), [])
                self.assertEqual(sorted(os.listdir(self.top)), ["crates", "crates.txt", "dettrace", "tools"])


if __name__ == "__main__":
    unittest.main()
