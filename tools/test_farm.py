"""The scripts that docs/FARM.md shows do what it says of them."""
from __future__ import annotations

import hashlib
import os
import re
import shutil
import subprocess
import unittest
from pathlib import Path
from typing import Sequence

from program import EXAMPLES, PROGRAM, TOP, fresh_checkout, needs_program
from release_case import ReleaseCase, needs_tools, run


def script(name: str) -> str:
    """A script of the page, whose second line begins with its name."""
    lines = (TOP / "docs/FARM.md").read_text().split("\n")
    first = next(at for at, line in enumerate(lines) if line.startswith(f"    # {name} ")) - 1
    after = next(at for at in range(first, len(lines)) if lines[at] and not lines[at].startswith("    "))
    return "\n".join(line[4:] for line in lines[first:after]).rstrip("\n") + "\n"


def blocks(heading: str) -> list[str]:
    """The commands that a section of the page shows, a text for each place where it does."""
    section = (TOP / "docs/FARM.md").read_text().split(f"\n## {heading}\n")[1].split("\n## ")[0]
    return ["\n".join(line[4:] for line in block.splitlines()) for block in re.findall(r"(?m)(?:^    .*\n)+", section)]


class FarmCase(unittest.TestCase):
    """A test in a folder with the scripts of the page."""

    def setUp(self) -> None:
        checkout = fresh_checkout()
        self.folder = checkout.__enter__()
        self.addCleanup(checkout.__exit__, None, None, None)
        for name in ("job", "nightly", "cached", "chain"):
            (self.folder / name).write_text(script(name))
            (self.folder / name).chmod(0o755)
        (self.folder / "tree").mkdir()
        shutil.copy(EXAMPLES / "hello" / "hello", self.folder / "tree" / "flaky")
        self.before = self.left()

    def left(self) -> list[str]:
        return sorted(os.listdir(self.folder))

    def run_words(self, *words: str, program: object = PROGRAM) -> tuple[int, str]:
        """The status of a script of the page, and what it puts out."""
        done = subprocess.run(words, cwd=self.folder, env={**os.environ, "DETTRACE": str(program)}, text=True,
                              stdin=subprocess.DEVNULL, stdout=subprocess.PIPE, stderr=subprocess.DEVNULL, check=False)
        return done.returncode, done.stdout

    def stand_in(self, text: str) -> Path:
        path = self.folder / "stand-in"
        path.write_text(f"#!/bin/sh\n{text}\n")
        path.chmod(0o755)
        return path


@needs_program
class FarmTest(FarmCase):
    def test_a_job_keeps_a_complete_report_and_its_status(self) -> None:
        for example, words, status in (("hello", ["/hello"], "0\n"), ("shell", ["/describe"], "1\n"),
                                       ("hello", ["/nothere"], "10\n")):
            with self.subTest(words):
                self.assertEqual(self.run_words("./job", "r", f"examples/{example}", "--", *words), (0, ""))
                self.assertEqual((self.folder / "r.status").read_text(), status)
                self.assertTrue((self.folder / "r").read_bytes().startswith(b"dettrace 1\n"))
        self.assertEqual((self.folder / "r").read_bytes(), subprocess.run(
            [PROGRAM, "run", EXAMPLES / "hello", "--", "/nothere"], stdout=subprocess.PIPE, check=False).stdout)

    def test_a_strict_job_ends_as_the_run_and_keeps_the_report(self) -> None:
        for example, words, status in (("hello", ["/hello"], 0), ("shell", ["/describe"], 1), ("hello", ["/no"], 10)):
            with self.subTest(words):
                done = self.run_words("./job", "--strict", "r", f"examples/{example}", "--", *words)
                self.assertEqual(done, (status, ""))
                self.assertEqual((self.folder / "r.status").read_text(), f"{status}\n")
                self.assertTrue((self.folder / "r").read_bytes().startswith(b"dettrace 1\n"))
        self.assertEqual(self.run_words("./job", "--strict", "s", "nowhere", "--", "/hello"), (3, ""))
        self.assertFalse((self.folder / "s").exists())

    def test_a_job_keeps_nothing_of_a_run_that_was_refused_or_cut(self) -> None:
        self.assertEqual(self.run_words("./job", "r", "nowhere", "--", "/hello"), (3, ""))
        self.assertEqual(self.left(), self.before)
        for text, status in (("echo cut; exit 5", 75), ("echo cut; exit 6", 75), ("exit 7", 75), ("kill -9 $$", 75),
                             ("kill $$", 75), ("exit 2", 2), ("exit 4", 4)):
            with self.subTest(text):
                self.assertEqual(self.run_words("./job", "r", "image", program=self.stand_in(text))[0], status)
                self.assertEqual(self.left(), sorted([*self.before, "stand-in"]))

    def test_a_run_that_is_cached_is_not_made_again(self) -> None:
        words = ("./cached", "examples/hello", "--seed", "7", "--", "/hello")
        status, name = self.run_words(*words)
        self.assertEqual(status, 0)
        self.assertTrue((self.folder / name.strip()).read_bytes().startswith(b"dettrace 1\n"))
        self.assertEqual(self.run_words(*words, program="/bin/false"), (0, name))
        others = [self.run_words("./cached", "examples/hello", "--seed", "8", "--", "/hello")[1],
                  self.run_words("./cached", "examples/hello", "--", "/hello")[1],
                  self.run_words("./cached", "examples/cat", "--seed", "7", "--", "/hello")[1]]
        self.assertEqual(len({name, *others}), 4)

    def test_a_night_is_compared_with_the_one_before(self) -> None:
        self.assertEqual(self.run_words("./nightly", "2025-03-01"), (0, ""))
        self.assertEqual(self.run_words("./nightly", "2025-03-02"), (0, ""))
        (self.folder / "tree" / "notes").write_text("new\n")
        status, out = self.run_words("./nightly", "2025-03-03")
        self.assertEqual((status, out.split("\n")[0]), (
            1, "the number of paths is 1 in A and 2 in B; tree line 2 differs: /notes is only in B"))
        self.assertEqual(self.run_words("./nightly", "2025-03-03"), (2, ""))


@needs_program
class ChainTest(FarmCase):
    """The script for a build of several steps, the same steps in one call, and the commands that compare what two have
    left."""

    STEPS = ("/make", "/bin/join /all /out/poem /src/link", 'LANG=C /bin/show "/all"')

    def chain(self, *lines: str, words: Sequence[str] = (), program: object = PROGRAM) -> tuple[int, str]:
        (self.folder / "lines").write_text("\n".join(lines))
        status, out = self.run_words("./chain", "examples/processes", "lines", *words, program=program)
        return status, out.strip()

    def test_each_step_is_made_once_on_the_tree_that_the_last_one_left(self) -> None:
        self.assertEqual(self.chain(*self.STEPS)[0], 0)
        name = self.chain(*self.STEPS)[1]
        # Nothing is run any more.
        self.assertEqual(self.chain(*self.STEPS, program="/bin/false"), (0, name))
        self.assertEqual(len(os.listdir(self.folder / "chain.kept")), 3)
        image = self.folder / name
        self.assertIn('"path":"/all"', (image / "image.json").read_text())
        report = (image.parent / "report").read_text()
        self.assertIn((EXAMPLES / "processes" / "link").read_text(), report)
        # Another second step is made, and the third on what that has left.
        other = self.chain(self.STEPS[0], "/bin/join /all /out/one", self.STEPS[2])
        self.assertEqual((other[0], len(os.listdir(self.folder / "chain.kept"))), (0, 5))
        self.assertNotEqual(other[1], name)
        self.assertNotEqual(self.chain(*self.STEPS, words=["--seed", "7"])[1], name)

    def test_the_first_step_that_fails_is_the_last(self) -> None:
        status, report = self.chain("/make", "/bin/show", "/bin/show /out/one")
        self.assertEqual(status, 1)
        self.assertIn("exit 1 code 2\n", (self.folder / report).read_text())
        self.assertEqual(self.chain("/make", "/nothere")[0], 10)
        self.assertEqual(self.chain("/make", "/bin/show /out/one", words=["--budget", "0"])[0], 2)
        for text, status in (("exit 5", 75), ("kill -9 $$", 75), ("exit 4", 75), ("exit 3", 3), ("exit 8", 8)):
            self.assertEqual(self.chain("/bin/show /none", program=self.stand_in(text)), (status, ""))

    def test_the_same_steps_in_one_call_have_the_same_reports(self) -> None:
        commands, = [block for block in blocks("A build of several steps") if "\ndettrace steps" in block]
        commands = commands.replace("\ndettrace", "\n./dettrace")
        self.assertEqual(self.run_words("sh", "-e", "-c", commands), (0, ""))
        wanted = b""
        for number in (1, 2, 3):
            image = self.folder / self.chain(*self.STEPS[:number])[1]
            wanted += b"step %d\n%b" % (number, (image.parent / "report").read_bytes())
        self.assertEqual((self.folder / "poem.reports").read_bytes(), wanted)

    def test_both_ways_to_compare(self) -> None:
        here, there = (self.folder / name for name in ("here", "there"))
        for folder, source, words in ((here, "examples/processes", ["/make"]), (there, "here", ["/none"])):
            folder.mkdir()
            subprocess.run([PROGRAM, "export", source, folder, "--", *words], cwd=self.folder, check=False,
                           stdout=subprocess.DEVNULL)
        first, digests, trees = blocks("Comparing two exports")
        # One tree, whose files have other inodes in the second.
        for script, status in ((first, 1), (digests, 1), (trees, 0)):
            self.assertEqual(self.run_words("sh", "-e", "-c", script)[0], status, script)
        shutil.rmtree(there)
        shutil.copytree(here, there)
        for script in (first, digests):
            self.assertEqual(self.run_words("sh", "-e", "-c", script), (0, ""))


def template(name: str) -> str:
    """The file for a service, which stands behind the line that names it."""
    text = (TOP / "docs/FARM.md").read_text().split(f"`{name}`:\n\n")[1]
    lines = text.split("\n")
    after = next(at for at, line in enumerate(lines) if line and not line.startswith("    "))
    return "\n".join(line[4:] for line in lines[:after])


def commands_of(file: str) -> list[str]:
    """The scripts that a service runs: each `run` of the one kind, or the lines of `script` of the other."""
    blocks = re.findall(r"(?m)^ *- run: \|\n((?: {10}.*\n)+)", file)
    if blocks:
        return [re.sub(r"(?m)^ {10}", "", block) for block in blocks]
    (block,) = re.findall(r"(?m)^  script:\n((?:    - .*\n)+)", file)
    return [re.sub(r"(?m)^    - ", "", block)]


@needs_tools
@needs_program
@unittest.skipUnless(shutil.which("curl"), "there is no curl")
class ServiceTest(ReleaseCase):
    """The commands for two services, with a release that is fetched from a file."""

    def play(self, name: str, guest: str) -> list[int]:
        """The statuses of a service's scripts, in a project whose test is this example."""
        top = self.checkout("top")
        release = top / self.made(top, "dist").split(":")[0]
        project = self.folder / "project"
        (project / "tree").mkdir(parents=True)
        shutil.copy(EXAMPLES / guest, project / "tree" / "flaky")
        (project / "job").write_text(script("job"))
        (project / "job").chmod(0o755)
        more = {"DETTRACE_RELEASE": f"file://{release}", "HOME": str(self.folder),
                "DETTRACE_SHA256": hashlib.sha256(release.read_bytes()).hexdigest()}
        texts = [text.replace("/usr/local", f"{self.folder}/local") for text in commands_of(template(name))]
        path = f"{self.folder}/local/bin:/usr/bin:/bin"
        return [run(["bash", "-e", "-c", text], project, PATH=path, **more).returncode for text in texts]

    def test_a_run_that_ends_well_passes(self) -> None:
        for name, statuses in ((".github/workflows/runs.yml", [0, 0]), (".gitlab-ci.yml", [0])):
            with self.subTest(name):
                self.assertEqual(self.play(name, "hello/hello"), statuses)
                report = (self.folder / "project/first.report").read_bytes()
                self.assertTrue(report.startswith(b"dettrace 1\nout 1 6\nhello\n"))
            shutil.rmtree(self.folder / "project")
            shutil.rmtree(self.folder / "top")

    def test_a_run_that_fails_fails_the_step_and_keeps_the_report(self) -> None:
        for name, statuses in ((".github/workflows/runs.yml", [0, 1]), (".gitlab-ci.yml", [1])):
            with self.subTest(name):
                self.assertEqual(self.play(name, "shell/count"), statuses)
                self.assertEqual((self.folder / "project/first.report.status").read_text(), "1\n")
            shutil.rmtree(self.folder / "project")
            shutil.rmtree(self.folder / "top")


class TemplateTest(unittest.TestCase):
    def test_both_services_run_the_same(self) -> None:
        ours = [commands_of(template(name)) for name in (".github/workflows/runs.yml", ".gitlab-ci.yml")]
        first, second = ([line for text in texts for line in text.splitlines() if not line.startswith("PATH=")]
                         for texts in ours)
        self.assertEqual([re.sub("PREFIX=.*", "", line) for line in first],
                         [re.sub("PREFIX=.*", "", line) for line in second])
        self.assertEqual(len(second), 6)


if __name__ == "__main__":
    unittest.main()
