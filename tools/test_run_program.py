"""Where tools/run finds the program, wherever the tool itself stands, and what it says where there is none."""
from __future__ import annotations

import os
import shutil
import subprocess
import unittest
from pathlib import Path

from runlib.testing import HELLO, TOOLS, RunCase

HOW = ("./dettrace in repository proves and builds it, or says how (README.md, \"How to have it\"); "
       "or DETTRACE=FILE names one that is built")


class Programs(RunCase):
    """Each test copies the tool to where it is to stand."""

    def setUp(self) -> None:
        super().setUp()
        self.stand_in(HELLO)
        del self.environment["DETTRACE"]
        self.environment["PATH"] = os.defpath
        self.repository = self.top / "repository"

    def copy_tool(self, folder: Path) -> Path:
        folder.mkdir(parents=True)
        for part in ("runlib", "imagelib", "reportlib"):
            shutil.copytree(TOOLS / part, folder / part, ignore=shutil.ignore_patterns("__pycache__"))
        shutil.copy(TOOLS / "run", folder / "run")
        return folder / "run"

    def checkout(self) -> Path:
        tool = self.copy_tool(self.repository / "tools")
        (self.repository / "crates.txt").write_text("dettrace:\n")
        # A build would be seen.
        self.put(self.repository / "dettrace", f"#!/bin/sh\ntouch {self.top}/built\n")
        return tool

    def put(self, place: Path, text: str) -> Path:
        place.parent.mkdir(parents=True, exist_ok=True)
        place.write_text(text)
        place.chmod(0o755)
        return place

    def named(self, name: str) -> str:
        """A program that shows which one it is, in the report."""
        size = len(name)
        return f"#!/bin/sh\nprintf 'dettrace 1\\nout 1 {size}\\n{name}\\nexit 1 code 0\\nverdict ended\\ntree 0\\n'\n"

    def ran(self, tool: Path, **environment: str) -> tuple:
        done = subprocess.run([str(tool), "tree", "--", "/x"], cwd=self.work, env={**self.environment, **environment},
                              stdin=subprocess.DEVNULL, capture_output=True, text=True, check=False)
        self.assertFalse((self.top / "built").exists())
        return done.returncode, done.stdout, done.stderr.replace(f"{self.work}/", "").replace(f"{self.top}/", "")

    def test_a_checkout_where_it_is_not_built(self) -> None:
        tool = self.checkout()
        said = (125, "", f"run: the program is not built: {HOW}\n")
        self.assertEqual(self.ran(tool), said)
        # The checkout's script is never started, also where the PATH leads to it.
        self.assertEqual(self.ran(tool, PATH=f"{self.repository}:{os.defpath}"), said)
        self.put(self.repository / "crates/dettrace/out/dettrace", self.named("x")).chmod(0o644)
        self.assertEqual(self.ran(tool) if os.geteuid() else said, said)

    def test_a_checkout_where_it_is_built(self) -> None:
        tool = self.checkout()
        self.put(self.repository / "crates/dettrace/out/dettrace", self.named("built"))
        self.put(self.top / "bin/dettrace", self.named("path"))
        self.assertEqual(self.ran(tool, PATH=f"{self.top}/bin:{os.defpath}"), (0, "built", ""))
        (self.top / "link").symlink_to("repository/tools/run")
        (self.work / "dettrace-run").symlink_to("../link")
        self.assertEqual(self.ran(self.work / "dettrace-run"), (0, "built", ""))

    def test_an_installed_place(self) -> None:
        for tools, program in (("lib/dettrace", "lib/dettrace/dettrace"), ("lib/dettrace", "bin/dettrace"),
                               ("lib/dettrace/tools", "lib/dettrace/dettrace"), ("lib/dettrace/tools", "bin/dettrace")):
            with self.subTest(tools=tools, program=program):
                prefix = self.top / "a prefix"
                tool = self.copy_tool(prefix / tools)
                self.put(prefix / program, self.named("installed"))
                (prefix / "bin").mkdir(exist_ok=True)
                (prefix / "bin" / "dettrace-run").symlink_to(os.path.relpath(tool, prefix / "bin"))
                self.assertEqual(self.ran(prefix / "bin" / "dettrace-run"), (0, "installed", ""))
                shutil.rmtree(prefix)

    def test_the_path_comes_last(self) -> None:
        tool = self.copy_tool(self.top / "lib" / "dettrace")
        said = ("run: the program dettrace is not there, neither in lib/dettrace nor in the PATH: install it, "
                "or name it by DETTRACE=FILE\n")
        self.assertEqual(self.ran(tool), (125, "", said))
        self.put(self.top / "elsewhere/dettrace", self.named("path"))
        path = f"{self.top}/elsewhere:{os.defpath}"
        self.assertEqual(self.ran(tool, PATH=path), (0, "path", ""))
        self.put(self.top / "lib/dettrace/dettrace", self.named("beside"))
        self.assertEqual(self.ran(tool, PATH=path), (0, "beside", ""))

    def test_a_checkout_in_the_path_has_the_program_that_was_built_there(self) -> None:
        tool = self.copy_tool(self.top / "lib" / "dettrace")
        self.checkout()
        self.put(self.repository / "crates/dettrace/out/dettrace", self.named("built"))
        self.assertEqual(self.ran(tool, PATH=f"{self.repository}:{os.defpath}"), (0, "built", ""))

    def test_the_variable_comes_first(self) -> None:
        tool = self.checkout()
        self.put(self.repository / "crates/dettrace/out/dettrace", self.named("built"))
        self.put(self.work / "other", self.named("other"))
        self.assertEqual(self.ran(tool, DETTRACE="./other"), (0, "other", ""))
        self.assertEqual(self.ran(tool, DETTRACE="other", PATH=f"{self.work}:{os.defpath}"), (0, "other", ""))
        self.assertEqual(self.ran(tool, DETTRACE=""), (0, "built", ""))
        for named, said in (
            ("none", "none, which is not there: name the program dettrace, or leave it out"),
            ("./tree", "./tree, which is a folder: name the program dettrace, or leave it out"),
            ("./file", "./file, which is no program: name the program dettrace, or leave it out"),
            (f"{self.repository}/dettrace", "repository/dettrace, the script that builds dettrace: name the program, "
                                            "repository/crates/dettrace/out/dettrace"),
        ):
            (self.work / "file").touch()
            with self.subTest(named):
                self.assertEqual(self.ran(tool, DETTRACE=named), (125, "", f"run: DETTRACE is {said}\n"))


    def test_the_version(self) -> None:
        tool = self.copy_tool(self.top / "lib" / "dettrace")

        def said() -> str:
            return subprocess.run([str(tool), "--version"], env=self.environment, stdout=subprocess.PIPE, text=True,
                                  check=True).stdout

        self.assertEqual(said(), "run unknown commit unknown\n")
        script = self.put(tool.parent / "version", "#!/bin/sh\necho of the script\n")
        self.assertEqual(said(), "run of the script\n")
        self.put(script, "#!/bin/sh\necho half\nexit 1\n")
        self.assertEqual(said(), "run unknown commit unknown\n")
        (tool.parent.parent / "VERSION").write_text("of the release\n")
        self.assertEqual(said(), "run of the release\n")
        (tool.parent / "VERSION").write_text("of the place\n")
        self.assertEqual(said(), "run of the place\n")


if __name__ == "__main__":
    unittest.main()
