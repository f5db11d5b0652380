"""What ./dettrace does: it runs the program that is there, says how to get one, and builds none unasked."""
from __future__ import annotations

import os
import time
import unittest

from script_case import ScriptCase

WORDS = ("one", "two words")
RAN = "ran one two words\n"
WARNING = "dettrace: warning: the program is older than its sources; ./dettrace build makes it anew\n"
NOTICE = "dettrace: running it unproved: its sources are compiled first, which takes some three minutes\n"
NOT_RUN = "dettrace: rt has not run it to its end, for the reason above\n"
RT_SAID = "checked: ended status=3\nrun=ended status=3 runners=1 proved=no\n"
# A stand-in for rt try, which runs the program.
TRIES = """#!/bin/sh
printf '%s\\n' "$(basename "$PWD")" "$@" >"$CALLS"
printf report
printf '%s' "$SAID" >&2
exit 3
"""


class ScriptTest(ScriptCase):
    def make_sources_newer(self) -> None:
        later = time.time() + 100
        for source in self.top.rglob("*.rt"):
            os.utime(source, (later, later))

    def test_without_a_program_three_lines_say_how_to_get_one(self) -> None:
        for words in ((), WORDS):
            status, out, err = self.run_script(*words)
            self.assertEqual((status, out), (125, ""))
            for line, told in zip(err.splitlines(), ("`make install`", "`./dettrace try ..`", "`./dettrace build`")):
                self.assertTrue(line.startswith("dettrace: "))
                self.assertIn(told, line)
            self.assertEqual(len(err.splitlines()), 3)
        self.assertEqual(self.called(), [])

    def test_the_program_is_run_and_its_status_kept(self) -> None:
        self.build_by_hand()
        self.assertEqual(self.run_script(*WORDS), (7, RAN, ""))
        self.assertEqual(self.called(), [])

    def test_a_program_that_is_older_than_its_sources_runs_with_a_warning(self) -> None:
        self.build_by_hand()
        self.make_sources_newer()
        self.assertEqual(self.run_script(*WORDS), (7, RAN, WARNING))
        self.run_script("build")
        self.assertEqual(self.run_script(*WORDS), (7, RAN, ""))
        self.write("crates/low/src/lib.rt", "changed")
        self.make_sources_newer()
        self.assertEqual(self.run_script(*WORDS), (7, RAN, WARNING))

    def test_a_copy_with_other_times_is_run_without_a_warning(self) -> None:
        self.run_script("build")
        self.make_sources_newer()
        self.assertEqual(self.run_script(*WORDS, has_rt=False), (7, RAN, ""))

    def test_the_sources_of_a_program_that_was_built_without_the_script_are_noted(self) -> None:
        self.build_by_hand()
        self.assertEqual(self.run_script(*WORDS), (7, RAN, ""))
        self.make_sources_newer()
        self.assertEqual(self.run_script(*WORDS), (7, RAN, ""))

    def test_it_is_run_by_a_symbolic_link_too(self) -> None:
        self.build_by_hand()
        (self.top / "link").symlink_to("dettrace")
        self.assertEqual(self.run_script(*WORDS, script="link"), (7, RAN, ""))


class TryTest(ScriptCase):
    def setUp(self) -> None:
        super().setUp()
        self.tool(self.rt, TRIES)

    def try_words(self, *words: str, said: str = RT_SAID) -> tuple[int, str, str]:
        self.tool(self.rt, TRIES.replace("$SAID", said))
        return self.run_script("try", *words)

    def test_the_program_is_run_unproved_and_its_status_kept(self) -> None:
        self.assertEqual(self.try_words("run", "image"), (3, "report", NOTICE))
        self.assertEqual(self.called()[:3], ["dettrace", "try", "--seconds"])
        self.assertEqual(self.try_words("run", "image", said=f"dettrace: image refused\n{RT_SAID}"),
                         (3, "report", f"{NOTICE}dettrace: image refused\n"))

    def test_folders_are_named_by_their_whole_paths(self) -> None:
        whole = str(self.folder / "image")
        for words in (["export", "{}", "{}", "--", "image"], ["export", "--seed", "image", "{}", "--host=1", "{}"],
                      ["export", "{}", "--", "image"], ["export", "{}", "{}", "image"],
                      ["steps", "{}", "image"], ["steps", "--host", "image", "{}", "--seed=1", "image"],
                      ["run", "{}"], ["run", "{}", "--seed", "5", "--", "/image"], ["run", "--seed", "5", "{}", "--"],
                      ["run", "--seed=5", "--host", "image", "{}", "image"], ["run", "--workers", "3", "{}", "--"],
                      ["run", "--", "image"], ["run"], ["demo", "image", "--workers", "image"], []):
            with self.subTest(words):
                self.try_words(*(word.format("image") for word in words))
                self.assertEqual(self.called()[4:], ["--", *(word.format(whole) for word in words)])

    def test_a_program_that_does_not_end_makes_125(self) -> None:
        said = "error: something\nrun=none proved=no\n"
        self.assertEqual(self.try_words("run", "image", said=said), (125, "report", f"{NOTICE}{said}{NOT_RUN}"))

    def test_without_the_kit_nothing_is_run(self) -> None:
        self.assertEqual(self.run_script("try", "run", has_rt=False), (
            125, "", "dettrace: the command rt is missing: the kit of Rattle compiles this program "
                     "(README.md says which)\n"))


if __name__ == "__main__":
    unittest.main()
