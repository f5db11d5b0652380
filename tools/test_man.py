"""The manual pages say what README.md, the program's source and the tools' own words say."""
from __future__ import annotations

import argparse
import re
import shutil
import subprocess
import sys
import unittest
from typing import Dict, Iterator, List, Set, Tuple

import mdoc
from imagelib import commands as image
from imagelib import errors
from program import TOP
from reportlib import commands as report

PAGES = sorted(path.name for path in (TOP / "man").glob("*.1"))
COMMANDS = ["dettrace-image", "dettrace-report", "dettrace-run", "dettrace"]
Options = Dict[str, Set[Tuple[str, ...]]]
# What mandoc says of pages and of the machine that they are not installed on.
NOT_INSTALLED = re.compile(r".*referenced manual not found: Xr dettrace|mandoc: outdated mandoc\.db")


def page(name: str) -> Dict[str, List[str]]:
    return mdoc.sections((TOP / "man" / f"{name}.1").read_text())


def table(file: str, heading: str) -> List[List[str]]:
    """The rows of the tables in a section of a document, without marks."""
    section = (TOP / file).read_text().split(f"\n## {heading}\n")[1].split("\n## ")[0]
    rows = [re.split(r"(?<!\\)\|", line)[1:-1] for line in section.splitlines() if line.startswith("| ")]
    return [[cell.replace("`", "").strip() for cell in row] for row in rows]


def forms(lines: List[str]) -> List[str]:
    """The calls that a synopsis shows, one for each `.Nm`, as a line has them."""
    found: List[List[str]] = []
    for line in lines:
        if line == ".Nm":
            found.append([])
        text = mdoc.plain(line, "dettrace")
        found[-1].append(f"[{text}]" if line.startswith(".Op") else text)
    return [" ".join(words) for words in found]


def sentence(text: str) -> str:
    """A text as a page has it, which begins in capitals and ends with a stop."""
    return text[:1].upper() + text[1:] + "."


class LintTest(unittest.TestCase):
    def test_each_command_has_its_page(self) -> None:
        self.assertEqual(PAGES, [f"{name}.1" for name in COMMANDS])

    @unittest.skipUnless(shutil.which("mandoc"), "there is no mandoc")
    def test_mandoc_finds_nothing_wrong(self) -> None:
        for name in PAGES:
            with self.subTest(name):
                done = subprocess.run(["mandoc", "-T", "lint", TOP / "man" / name], stdout=subprocess.PIPE,
                                      stderr=subprocess.STDOUT, text=True, check=False)
                self.assertEqual([line for line in done.stdout.splitlines() if not NOT_INSTALLED.match(line)], [])


class ProgramTest(unittest.TestCase):
    """dettrace(1) beside README.md, docs/FORMATS.md and the source."""

    def setUp(self) -> None:
        self.page = page("dettrace")
        source = (TOP / "crates/dt_run/src/failure.rt").read_text()
        texts = re.findall(r'"(dettrace: (?:[^"\\]|\\.|\\\n)*)"', source)
        self.lines = [re.sub(r"\\\n\s*", "", text)[:-2] for text in texts]

    def test_the_synopsis_begins_with_the_usage_line_of_the_source(self) -> None:
        (usage,) = [line for line in self.lines if line.startswith("dettrace: usage: ")]
        self.assertEqual(f"dettrace: usage: {forms(self.page['SYNOPSIS'])[0]}", usage)

    def test_the_synopsis_is_that_of_the_readme(self) -> None:
        section = (TOP / "README.md").read_text().split("\n## The command line\n")[1].split("\n## ")[0]
        self.assertEqual(forms(self.page["SYNOPSIS"]), re.findall(r"(?m)^    (dettrace .*)$", section))

    def test_each_line_of_error_is_in_the_source_and_on_the_page(self) -> None:
        heads = [item.head for item in mdoc.items(self.page["DIAGNOSTICS"])]
        self.assertEqual(sorted(heads), sorted(set(self.lines)))
        self.assertEqual(len(heads), 21)

    def test_the_words_and_their_ranges_are_those_of_the_readme(self) -> None:
        items = mdoc.items(self.page["DESCRIPTION"])
        rows = table("README.md", "The command line")[1:13]
        self.assertEqual([item.head for item in items], [row[0] for row in rows])
        for item, (words, numbers, default, _) in zip(items, rows):
            with self.subTest(words):
                if " to " in numbers:
                    self.assertIn(numbers, item.text)
                    self.assertIn(default, item.text)
                if default == "none" and "=" in words:
                    self.assertIn("none by default", item.text)

    def test_the_statuses_are_those_of_the_readme(self) -> None:
        rows = [row for row in table("README.md", "The command line") if row[0].isdigit()]
        told = {row[0]: sentence(row[1]) for row in rows}
        self.assertEqual({item.head: item.text for item in mdoc.items(self.page["EXIT STATUS"])}, told)
        self.assertEqual(len(rows), 10)

    def test_the_limits_are_those_of_the_readme(self) -> None:
        rows = table("README.md", "Limits")[1:]
        self.assertEqual([list(item) for item in mdoc.items(self.page["LIMITS"])], rows)
        self.assertEqual(len(rows), 8)

    def test_the_refusals_are_those_of_the_formats(self) -> None:
        wanted = []
        for heading, what, count in (("The image", "image", 10), ("Steps", "image", 1),
                                     ("An exported image", "export", 5)):
            rows = [row for row in table("docs/FORMATS.md", heading) if row[0].isdigit()]
            wanted += [f"dettrace: {what} refused: {row[0]} {row[1]}" for row in rows]
            self.assertEqual(len(rows), count)
        heads = [item.head for item in mdoc.items(self.page["DIAGNOSTICS"]) if "refused" in item.head]
        self.assertEqual(heads, wanted)


def subcommands(parser: argparse.ArgumentParser) -> Dict[str, argparse.ArgumentParser]:
    (action,) = [action for action in parser._actions if isinstance(action, argparse._SubParsersAction)]
    return dict(action.choices)


def options(parser: argparse.ArgumentParser) -> Iterator[Tuple[str, ...]]:
    for action in parser._actions:
        if action.option_strings:
            yield tuple(action.option_strings)


class ToolCase(unittest.TestCase):
    """The page of a tool beside the tool's parser."""

    def compare(self, name: str, parser: argparse.ArgumentParser, more: Options = {}) -> None:
        """Commands, options and statuses are the same. The page may have `more` commands with options of their own."""
        found = page(name)
        commands = {**more, **{command: set(options(inner)) for command, inner in subcommands(parser).items()}}
        heads = [item.head for item in mdoc.items(found["DESCRIPTION"])]
        self.assertEqual(sorted(head for head in heads if not head.startswith("-")), sorted(commands))
        self.assertEqual(sorted(self.synopses(found)), sorted(commands))
        told = {tuple(re.findall(r"(?<![\w-])--?[a-z]+", head)) for head in heads if head.startswith("-")}
        self.assertEqual(told, set().union(*commands.values()))
        statuses = re.findall(r"(?m)^  (\d)  ", parser.epilog or "")
        self.assertEqual([item.head for item in mdoc.items(found["EXIT STATUS"])], statuses)

    def synopses(self, found: Dict[str, List[str]]) -> List[str]:
        lines = found["SYNOPSIS"]
        return [mdoc.plain(lines[at + 1]) for at, line in enumerate(lines) if line == ".Nm"]


class ImageTest(ToolCase):
    def test_commands_options_and_statuses(self) -> None:
        self.compare("dettrace-image", image.parser())

    def test_the_refusals_are_those_of_the_tool(self) -> None:
        heads = [item.head for item in mdoc.items(page("dettrace-image")["DIAGNOSTICS"])]
        kinds = sorted(kind for kind in vars(errors).values() if isinstance(kind, errors.Kind))
        self.assertEqual(heads[:10], [f"image: refused: {kind.number} {kind.name}: .." for kind in kinds])
        self.assertEqual(heads[10:], ["image: store fault: ..", "image: damaged: .."])
        for head, error in zip(heads[10:], (errors.StoreFault("x"), errors.Damaged(["x"]))):
            self.assertEqual(f"image: {error.lines[0]}", head.replace("..", "x"))


class ReportTest(ToolCase):
    def test_commands_options_and_statuses(self) -> None:
        self.compare("dettrace-report", report.parser(), {"page": {("-o", "--output")}})

    def test_the_variables_are_those_that_it_reads(self) -> None:
        source = (TOP / "tools/reportlib/terminal.py").read_text()
        read = set(re.findall(r'environment\.get\("([A-Z_]+)"', source)) - {"PATH", "TERM"}
        self.assertEqual({item.head for item in mdoc.items(page("dettrace-report")["ENVIRONMENT"])}, read)


@unittest.skipUnless((TOP / "tools/run").is_file(), "there is no tools/run")
class RunTest(unittest.TestCase):
    """dettrace-run(1) beside what the tool says of itself."""

    def setUp(self) -> None:
        self.page = page("dettrace-run")
        self.help = subprocess.run([sys.executable, TOP / "tools/run", "--help"], capture_output=True, text=True,
                                   check=True).stdout

    def test_the_options_are_those_of_its_help(self) -> None:
        told = [item.head for item in mdoc.items(self.page["DESCRIPTION"])]
        self.assertEqual(sorted(told), sorted(re.findall(r"(?m)^  (--[a-z]+(?: [A-Z=]+)?)  ", self.help)))
        synopsis = " ".join(mdoc.plain(line) for line in self.page["SYNOPSIS"])
        for option in told:
            self.assertIn(option, synopsis)

    def test_the_statuses_are_those_of_its_help(self) -> None:
        found = re.findall(r"(?m)^  (\d[\d a-zN+]*?)  +(\S.*)$", self.help)
        items = mdoc.items(self.page["EXIT STATUS"])
        self.assertEqual([item.head for item in items], [head for head, _ in found])
        for item, (_, text) in zip(items, found):
            self.assertEqual(item.text.split()[0].lower(), text.split()[0].lower().replace("dettrace", "dettrace(1)"))


if __name__ == "__main__":
    unittest.main()
