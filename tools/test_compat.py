"""The library examples/guest/compat: a guest that calls each of its functions prints what the report beside it says, on
whatever host, and docs/GUESTS.md names each of them."""
from __future__ import annotations

import re
import shlex
import unittest
from pathlib import Path
from typing import Set

from guest_case import CC, GUEST, GuestCase, call, need_musl, output_of
from program import TOP, needs_program, run

COMPAT = GUEST / "compat"
CHECK = COMPAT / "check"
LIBRARIES = ("musl", "picolibc")
HOSTS = (0, 1, 5, 77, 2**64 - 1)


# How a function begins that the library gives.
TYPE = r"(?:int|long|void|ssize_t|pid_t|clock_t|FILE \*|handler \*)"
GIVEN = re.compile(rf"(?m)^{TYPE}\s*([a-z_0-9]+)\([^;\n]*(?:{{ .*)?$")


def functions() -> Set[str]:
    """The names of the functions that the library gives."""
    found = {line for source in COMPAT.glob("*.c") for line in GIVEN.findall(source.read_text())}
    return {name.replace("__wrap_", "") for name in found if not name.startswith(("compat_", "__real_"))}


def family(name: str) -> str:
    """Under which name the page has a function."""
    return "posix_spawn" if name.startswith("posix_spawn") else name


class Names(unittest.TestCase):
    def test_the_library_has_what_it_is_for(self) -> None:
        self.assertLess({"utimensat", "fchmod", "chown", "fsync", "getpgid", "times", "sched_getaffinity", "prctl",
                         "statfs", "copy_file_range", "sendfile", "fchdir", "popen", "system", "vfork", "posix_spawn",
                         "sigsuspend", "poll", "open", "setuid"}, functions())

    def test_the_guest_calls_each_function(self) -> None:
        text = (CHECK / "check.c").read_text()
        for name in sorted(functions() - {"openat"}):
            with self.subTest(name):
                self.assertIn(f"{name}(", text)

    def test_the_page_names_each_function(self) -> None:
        page = (TOP / "docs" / "GUESTS.md").read_text()
        for name in sorted({family(name) for name in functions()}):
            with self.subTest(name):
                self.assertIn(f"`{name}`", page)


@needs_program
class Reports(unittest.TestCase):
    def test_the_guest_gives_its_report_on_every_host(self) -> None:
        for library in LIBRARIES:
            image = CHECK / library
            words = shlex.split((image / "command").read_text())
            for host in HOSTS:
                with self.subTest(library, host=host):
                    self.assertEqual(run("run", image, "--host", host, *words).stdout, (image / "report").read_bytes())


@needs_program
class Built(GuestCase):
    """The guest as it is built here, by whatever version of the compiler."""

    def build_and_run(self, library: str) -> None:
        root = self.folder / "root"
        (root / "bin").mkdir(parents=True)
        self.assertEqual(call(CC, f"--{library}", "-O2", "-o", root / "check", CHECK / "check.c").returncode, 0)
        (root / "bin" / "sh").write_bytes((root / "check").read_bytes())
        (root / "bin" / "sh").chmod(0o755)
        done = self.run_tool("--strict", "--quiet", root, "--", "PATH=/bin", "/check")
        self.assertEqual((done.returncode, done.stderr), (0, b""))
        wanted = output_of((CHECK / library / "report").read_bytes())
        self.assertEqual(done.stdout.decode(), wanted.decode())

    def test_with_musl(self) -> None:
        need_musl()
        self.build_and_run("musl")

    def test_with_picolibc(self) -> None:
        self.build_and_run("picolibc")


if __name__ == "__main__":
    unittest.main()
