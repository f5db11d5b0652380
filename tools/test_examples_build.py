"""The build of examples/build: a package from Debian is configured, compiled and tested in an image, by one compiler
and by three at a time, and the report is one on all hosts. All programs in there are built from Debian's sources."""
from __future__ import annotations

import re
import shutil
import unittest
from pathlib import Path
from typing import Dict

from guest_case import GuestCase, environment, output_of
from program import EXAMPLES, needs_program

EXAMPLE = EXAMPLES / "build"
BUDGET = 1_000_000_000
HOSTS = 20
# What the package's own tests say at their ends.
PASSED = ("*** zlib test OK ***", "*** zlib 64-bit test OK ***")
# Floating point, of which the machine has none, and what its functions make of it.
COMPUTING = """#include <math.h>
#include <stdio.h>
struct pair { float a; double b; };
static struct pair halves(float a, double b) { struct pair p = { a / 2, b / 2 }; return p; }
int main(void)
{
    struct pair p = halves(3, 1e300);
    long double third = 1.0L / 3;
    printf("%g %g %.20Lf\\n", p.a, p.b, third);
    printf("%d %d %llu %g\\n", (int)-2.7, (int)p.a, (unsigned long long)1.8e19, (double)18446744073709551615ULL);
    printf("%.6f %d %d\\n", sqrt(2) + sin(1), NAN == NAN, p.a < p.b);
    return 0;
}
"""
COMPUTED = """1.5 5e+299 0.33333333333333333333
-2 1 18000000000000000000 1.84467e+19
2.255685 0 1
"""
# What the compilation itself makes; what it links has the C library too.
MADE = re.compile(rb"(?m)^file \d+ \d+ \d+ (\d+ [0-9a-f]{64}) /zlib/(\S+\.o|libz\.a)$")


def made(report: bytes) -> Dict[bytes, bytes]:
    """The sizes and digests of what was compiled, by name."""
    return {name: digest for digest, name in MADE.findall(report)}


def versions() -> str:
    """Those of the packages that the programs were built of."""
    folder = Path(environment()["DETTRACE_GUEST"])
    places = (folder / "musl" / "versions", folder / "shell" / "versions", folder / "build.versions")
    return "".join(sorted({line for place in places for line in place.read_text().splitlines(keepends=True)}))


@needs_program
class Runs(GuestCase):
    script = "build"

    def build(self, jobs: int, hosts: int) -> bytes:
        """The report of a build, which is one on so many hosts."""
        kept = self.folder / f"report{jobs}"
        done = self.run_tool("--check", hosts, "--strict", "--budget", BUDGET, "--report", kept, self.made, "--",
                             "PATH=/bin", "/build", jobs)
        self.assertEqual(done.returncode, 0, done.stderr)
        self.assertIn(f"equal: {hosts} runs".encode(), done.stderr)
        return kept.read_bytes()

    def test_the_package_is_built_and_tested_in_the_same_way_everywhere(self) -> None:
        alone, together = self.build(1, 2), self.build(3, HOSTS)
        for report in (alone, together):
            for line in PASSED:
                self.assertIn(line, output_of(report).decode())
        self.assertGreater(len(made(alone)), 17)
        self.assertEqual(made(alone), made(together))
        if versions() != (EXAMPLE / "versions").read_text():
            self.skipTest("the report that is kept is of other versions of Debian's packages")
        self.assertEqual(together.decode(errors="replace"), (EXAMPLE / "report").read_text(errors="replace"))


    def test_the_compiler_inside_computes_floating_point(self) -> None:
        tree = self.folder / "tree"
        shutil.copytree(self.made, tree, symlinks=True)
        (tree / "program.c").write_text(COMPUTING)
        done = self.run_tool("--strict", "--quiet", tree, "--", "PATH=/bin", "/bin/sh", "-c",
                             "cc -o program program.c -lm && ./program")
        self.assertEqual((done.returncode, done.stderr), (0, b""))
        self.assertEqual(done.stdout.decode(), COMPUTED)


class Files(unittest.TestCase):
    def test_the_report_that_is_kept_is_of_a_build_that_passed(self) -> None:
        report = (EXAMPLE / "report").read_bytes()
        for line in PASSED:
            self.assertIn(line.encode(), report)
        self.assertIn(b"\nverdict ended\n", report)
        self.assertIn(b"\nexit 1 code 0\n", report)
        self.assertGreater(len(made(report)), 17)


if __name__ == "__main__":
    unittest.main()
