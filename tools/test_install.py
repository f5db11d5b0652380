"""What `make` lists, and what `make install` and `make uninstall` put below a folder and take away."""
from __future__ import annotations

import os
import subprocess
import unittest
from pathlib import Path

from program import EXAMPLES, TOP, needs_program
from release_case import ANY_PROGRAM, PLACE, ReleaseCase, files_below, needs_tools, run

TOOLS = [name for name in ("run", "image", "report") if (TOP / "tools" / name).is_file()]


@needs_tools
class InstallTest(ReleaseCase):
    def wanted(self) -> set[str]:
        """What an installation has, by the tools that are there."""
        names = {"bin/dettrace", "lib/dettrace/VERSION", "share/bash-completion/completions/dettrace",
                 "share/doc/dettrace/README.md"}
        for page in (TOP / "man").glob("*.1"):
            names.add(f"share/man/man1/{page.name}")
        for tool in TOOLS:
            names |= {f"bin/dettrace-{tool}", f"lib/dettrace/{tool}",
                      f"share/bash-completion/completions/dettrace-{tool}"}
            names |= {f"lib/dettrace/{tool}lib/{name}" for name in files_below(TOP / "tools" / f"{tool}lib")
                      if "__pycache__" not in name and name != "testing.py"}
        for part in ("docs", "examples"):
            names |= {f"share/doc/dettrace/{part}/{name}" for name in files_below(TOP / part)}
        return names

    def test_the_program_the_tools_and_all_beside_them_are_put_below_the_prefix(self) -> None:
        top, place = self.checkout("top"), self.folder / "a place"
        said = self.made(top, "install", f"PREFIX={place}")
        self.assertEqual(said, f"dettrace is installed below {place}.\n")
        self.assertEqual(files_below(place), self.wanted())
        self.assertEqual((place / "bin/dettrace").read_bytes(), ANY_PROGRAM.read_bytes())
        for name in sorted(files_below(place)):
            is_program = name.startswith("bin/") or os.access(place / name, os.X_OK)
            self.assertEqual((place / name).stat().st_mode & 0o7777, 0o755 if is_program else 0o644, name)

    def test_what_another_umask_would_close_is_open_all_the_same(self) -> None:
        top, place = self.checkout("top"), self.folder / "place"
        done = run(["sh", "-c", f"umask 077; make install PREFIX={place}"], top)
        self.assertEqual(done.returncode, 0, done.stderr)
        closed = [path for path in [place, *place.rglob("*")] if path.stat().st_mode & 0o005 != 0o005
                  and (path.is_dir() or os.access(path, os.X_OK))]
        self.assertEqual(closed, [])

    def test_the_commands_run_by_their_links_from_anywhere(self) -> None:
        place = self.folder / "place"
        self.made(self.checkout("top"), "install", f"PREFIX={place}")
        (self.folder / "tree").mkdir()
        for words, status, out in (
            (["image", "pack", "tree", "img"], 0, "img: 0 directories, 0 files, 0 links, 0 blobs, 0 bytes\n"),
            (["image", "check", "img"], 0, "img is good: 0 directories, 0 files, 0 links, 0 blobs, 0 bytes\n"),
            (["report", "diff", EXAMPLES / "hello/report", EXAMPLES / "hello/report"], 0, "equal\n"),
            (["report", "output", EXAMPLES / "hello/report"], 0, "hello\n"),
        ):
            with self.subTest(words):
                done = run([str(place / f"bin/dettrace-{words[0]}"), *map(str, words[1:])], self.folder)
                self.assertEqual((done.returncode, done.stdout, done.stderr), (status, out, ""))
        self.assertEqual(list((place / "lib").rglob("__pycache__")), [])

    def test_destdir_stands_before_the_prefix_and_the_links_lead_to_what_is_beside_them(self) -> None:
        top, root = self.checkout("top"), self.folder / "root"
        self.made(top, "install", f"DESTDIR={root}", "PREFIX=/usr")
        self.assertEqual(files_below(root / "usr"), self.wanted())
        self.assertEqual([path.name for path in root.iterdir()], ["usr"])
        (self.folder / "other").mkdir()
        (root / "usr").rename(self.folder / "other/usr")
        done = run([str(self.folder / "other/usr/bin/dettrace-image"), "--help"], self.folder)
        self.assertEqual((done.returncode, done.stderr), (0, ""))

    def test_the_version_is_that_of_the_commit(self) -> None:
        top, place = self.checkout("top"), self.folder / "place"
        commit = self.git(top, "rev-parse", "HEAD").strip()
        self.made(top, "install", f"PREFIX={place}")
        version = (place / "lib/dettrace/VERSION").read_text()
        self.assertEqual(version, f"20250302.{commit[:12]} commit {commit}\n")
        (top / "README.md").write_text("changed\n")
        self.made(top, "install", f"PREFIX={place}")
        self.assertEqual((place / "lib/dettrace/VERSION").read_text(), version.rstrip("\n") + " and changes\n")

    def test_a_second_installation_leaves_nothing_of_the_first(self) -> None:
        top, place = self.checkout("top"), self.folder / "place"
        self.made(top, "install", f"PREFIX={place}")
        (place / "lib/dettrace/imagelib/old.py").touch()
        self.made(top, "install", f"PREFIX={place}")
        self.assertEqual(files_below(place), self.wanted())

    def test_uninstall_takes_away_what_install_has_put_there_and_nothing_else(self) -> None:
        top, place = self.checkout("top"), self.folder / "place"
        for name in ("bin/other", "share/man/man1/other.1", "lib/other/x"):
            (place / name).parent.mkdir(parents=True)
            (place / name).touch()
        self.made(top, "install", f"PREFIX={place}")
        self.assertEqual(self.made(top, "uninstall", f"PREFIX={place}"), "")
        self.assertEqual(files_below(place), {"bin/other", "share/man/man1/other.1", "lib/other/x"})
        self.assertFalse((place / "lib/dettrace").exists() or (place / "share/doc/dettrace").exists())
        self.assertEqual(self.made(top, "uninstall", f"PREFIX={place}"), "")

    def test_without_a_program_nothing_is_built_or_put_anywhere(self) -> None:
        top, place = self.checkout("top", has_program=False), self.folder / "place"
        for target in ("install", "bench", "dist"):
            with self.subTest(target):
                done = self.make(top, target, f"PREFIX={place}")
                self.assertNotEqual(done.returncode, 0)
                self.assertEqual(done.stdout, "")
                self.assertEqual(done.stderr.splitlines()[0], f"There is no program {PLACE}, and nothing is built "
                                                              "here: ./dettrace build makes it.")
        self.assertFalse(place.exists() or (top / PLACE).parent.exists())

    def test_a_program_that_is_older_than_its_sources_is_installed_with_a_warning(self) -> None:
        top, place = self.checkout("top"), self.folder / "place"
        later = (top / PLACE).stat().st_mtime + 100
        os.utime(top / "crates/dettrace/src/main.rt", (later, later))
        done = self.make(top, "install", f"PREFIX={place}")
        self.assertEqual((done.returncode, done.stderr), (
            0, "Warning: the program is older than its sources; ./dettrace build makes it anew.\n"))

    def test_a_place_that_cannot_be_made_is_told(self) -> None:
        top = self.checkout("top")
        (self.folder / "file").touch()
        done = self.make(top, "install", f"PREFIX={self.folder}/file")
        self.assertNotEqual(done.returncode, 0)
        self.assertIn("file", done.stderr)

    @needs_program
    def test_an_example_runs_by_the_installed_program(self) -> None:
        place = self.folder / "place"
        self.made(self.checkout("top"), "install", f"PREFIX={place}")
        words = [place / "bin/dettrace", "run", place / "share/doc/dettrace/examples/hello", "--", "/hello"]
        done = subprocess.run(words, cwd=self.folder, env={}, capture_output=True, check=False)
        self.assertEqual((done.returncode, done.stdout), (0, (EXAMPLES / "hello/report").read_bytes()))


@needs_tools
class TargetsTest(ReleaseCase):
    def test_bare_make_and_help_list_the_targets(self) -> None:
        top = self.checkout("top", has_program=False)
        text = self.made(top)
        self.assertEqual(self.made(top, "help"), text)
        for target in ("install", "uninstall", "dist", "check", "bench"):
            self.assertRegex(text, rf"(?m)^make {target}\b")
        self.assertLessEqual(max(map(len, text.splitlines())), 120)

    def test_check_runs_what_proves_and_tests_all(self) -> None:
        top = self.checkout("top", has_program=False)
        (top / ".ci").mkdir()
        (top / ".ci/run").write_text("#!/bin/sh\necho checked; exit 3\n")
        (top / ".ci/run").chmod(0o755)
        done = self.make(top, "check")
        self.assertEqual((done.returncode, done.stdout), (2, ".ci/run\nchecked\n"))

    def test_bench_times_the_program_in_each_way(self) -> None:
        done = self.make(self.checkout("top"), "-n", "bench")
        told = [line.split()[1].split("/")[1] for line in done.stdout.splitlines() if line.startswith("python3 ")]
        self.assertEqual(told, ["machine", "atomics", "tree", "memory", "calls", "processes", "pipes", "signals",
                                "timers", "workers"])
        self.assertEqual(sorted(told), sorted(path.parent.name for path in Path(TOP / "bench").glob("*/run.py")))


if __name__ == "__main__":
    unittest.main()
