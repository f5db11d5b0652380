"""The page docs/COMPARED.md is short, and has a part for each tool that it names."""
from __future__ import annotations

import re
import unittest

from program import TOP

TOOLS = ["reprotest", "diffoscope", "rr", "docker", "bubblewrap"]


class ComparedTest(unittest.TestCase):
    def setUp(self) -> None:
        self.text = (TOP / "docs/COMPARED.md").read_text()

    def test_it_is_short(self) -> None:
        self.assertLess(len(self.text.encode()), 6_000)

    def test_each_tool_has_its_part_in_both_directions(self) -> None:
        parts = dict(part.split("\n", 1) for part in self.text.split("\n## ")[1:])
        self.assertEqual([name for name in parts if name in TOOLS], TOOLS)
        for name in TOOLS:
            with self.subTest(name):
                heads = re.findall(r"(?m)^- \*\*(.*?)\*\*", parts[name])
                self.assertEqual(heads, ["What it does that this does not.", "The other way round."])

    def test_it_says_that_it_is_not_the_ptrace_tool_and_for_whom_it_is(self) -> None:
        self.assertIn("It is not the ptrace tool of the same name", self.text)
        self.assertIn("\n## For whom it is today\n", self.text)


if __name__ == "__main__":
    unittest.main()
