"""The compiler for guests, examples/guest/cc: what it says where something is missing, and what it makes."""
from __future__ import annotations

import os
import subprocess
import tempfile
import unittest
from pathlib import Path
from typing import Tuple

from guest_case import CC, GUEST, LACKING, GuestCase, call, environment, need_musl
from program import needs_program

PROGRAM = """#include <stdio.h>
#include <stdlib.h>
int main(int count, char **words) { printf("%s %.3f\\n", words[count - 1], 22 / 7.0); return count; }
"""
# A program with a function of its own by the name of one of the library's, which another file calls.
OWN = "int fsync(int descriptor) { return descriptor + 40; }\n"
CALLER = """#include <stdio.h>
int fsync(int descriptor);
int main(void) { printf("%d\\n", fsync(2)); return 0; }
"""


def run_bare(script: Path, *words: object, **more: str) -> Tuple[int, str]:
    """A run where no compiler is found: the status, and what comes on standard error."""
    with tempfile.TemporaryDirectory() as folder:
        for name in ("sh", "dirname", "readlink", "basename", "sed", "cat", "nproc"):
            (Path(folder) / name).symlink_to(f"/bin/{name}" if os.path.exists(f"/bin/{name}") else f"/usr/bin/{name}")
        done = subprocess.run(["/bin/sh", script, *map(str, words)], env={"PATH": folder, "HOME": folder, **more},
                              stdin=subprocess.DEVNULL, capture_output=True, text=True, check=False)
        return done.returncode, done.stderr


class Missing(unittest.TestCase):
    def test_packages_that_are_missing_are_named(self) -> None:
        for script, words, package in (
            (CC, ("x.c",), "gcc-riscv64-linux-gnu"), (CC, ("--picolibc", "x.c"), "gcc-riscv64-unknown-elf"),
            (GUEST / "musl.sh", (), "make"), (GUEST / "source.sh", ("x", "musl"), "dpkg-dev"),
            (GUEST.parent / "shell-and-commands" / "build.sh", ("x",), "gcc-riscv64-linux-gnu"),
            (GUEST.parent / "build" / "build.sh", ("x",), "gcc-riscv64-linux-gnu"),
        ):
            with self.subTest(script.name, words=words):
                status, said = run_bare(script, *words)
                self.assertEqual(status, LACKING)
                self.assertRegex(said, rf"^{script.name}: packages of Debian are missing: apt-get install ")
                self.assertIn(f" {package}", said)

    def test_words_that_are_wrong_are_refused(self) -> None:
        for script, words in (
            (GUEST / "musl.sh", ("a", "b")), (GUEST / "source.sh", ("a",)),
            (GUEST.parent / "shell-and-commands" / "build.sh", ()), (GUEST.parent / "build" / "build.sh", ("a", "b")),
        ):
            with self.subTest(script.name, words=words):
                status, said = run_bare(script, *words)
                self.assertEqual((status, len(said.splitlines())), (2, 1))

    def test_without_musl_two_ways_are_told(self) -> None:
        call(CC, "--picolibc", "--version")
        with tempfile.TemporaryDirectory() as folder:
            done = subprocess.run([CC, "x.c"], env={**environment(), "DETTRACE_GUEST": folder}, capture_output=True,
                                  text=True, stdin=subprocess.DEVNULL, check=False)
        if done.returncode == LACKING:
            self.skipTest(done.stderr)
        self.assertEqual(done.returncode, 1)
        self.assertIn("musl is not built yet", done.stderr)
        self.assertIn("cc --picolibc", done.stderr)


@needs_program
class Programs(GuestCase):
    @classmethod
    def setUpClass(cls) -> None:
        super().setUpClass()
        need_musl()

    def write(self, name: str, text: str) -> Path:
        path = self.folder / name
        path.write_text(text)
        return path

    def run_built(self, *words: object) -> Tuple[int, bytes]:
        (self.folder / "root").mkdir()
        done = call(CC, *words, "-o", self.folder / "root" / "program", cwd=self.folder)
        self.assertEqual(done.returncode, 0, done.stderr)
        ran = self.run_tool("--strict", "--quiet", self.folder / "root", "--", "/program", "words")
        self.assertEqual(ran.stderr, b"")
        return ran.returncode, ran.stdout

    def test_a_program_of_one_file(self) -> None:
        self.write("program.c", PROGRAM)
        for library in ("--picolibc", "--musl"):
            with self.subTest(library):
                self.assertEqual(self.run_built(library, "-O2", "program.c"), (2, b"words 3.143\n"))
            call("rm", "-r", self.folder / "root")

    def test_musl_is_taken_where_none_is_named(self) -> None:
        self.write("program.c", "#include <dirent.h>\nint main(void) { return opendir(\"/\") == 0; }\n")
        self.assertEqual(self.run_built("program.c"), (0, b""))

    def test_files_that_are_compiled_first_and_functions_of_ones_own(self) -> None:
        self.write("own.c", OWN)
        self.write("caller.c", CALLER)
        for library in ("--picolibc", "--musl"):
            with self.subTest(library):
                for name in ("own", "caller"):
                    done = call(CC, library, "-c", f"{name}.c", cwd=self.folder)
                    self.assertEqual((done.returncode, done.stderr), (0, b""))
                self.assertEqual(self.run_built(library, "caller.o", "own.o"), (0, b"42\n"))
                call("rm", "-r", self.folder / "root")

    def test_it_is_gcc_for_other_words(self) -> None:
        for library in ("--picolibc", "--musl"):
            done = call(CC, library, "--version")
            self.assertEqual(done.returncode, 0)
            self.assertIn(b"gcc", done.stdout)
        self.write("wrong.c", "int main(void) { return x; }\n")
        done = call(CC, "--picolibc", "wrong.c", cwd=self.folder)
        self.assertEqual(done.returncode, 1)
        self.assertIn(b"wrong.c:1", done.stderr)


if __name__ == "__main__":
    unittest.main()
