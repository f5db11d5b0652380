"""A release on a Debian that has nothing of the toolchain: it is unpacked, installed and run in a root of its own.

The variable DEBIAN_ROOT names the root, of which a copy serves. It is made by root, in some minutes:

    debootstrap --variant=minbase --include=make,python3 bookworm ROOT"""
from __future__ import annotations

import os
import shutil
import subprocess
import unittest
from pathlib import Path
from typing import List

from program import needs_program
from release_case import needs_tools
from test_dist import DistCase, play

ROOT = os.environ.get("DEBIAN_ROOT", "")


@needs_tools
@needs_program
@unittest.skipUnless(ROOT, "DEBIAN_ROOT names no root of a Debian")
@unittest.skipUnless(os.geteuid() == 0, "chroot is for root")
class DebianTest(DistCase):
    def root(self) -> Path:
        """A copy of the root."""
        root = self.folder / "root"
        self.addCleanup(subprocess.run, ["rm", "-rf", "--one-file-system", str(root)], check=False)
        subprocess.run(["cp", "-a", ROOT, str(root)], check=True)
        return root

    def test_a_release_is_installed_and_the_sessions_of_the_readme_run_there(self) -> None:
        release = self.dist(self.checkout("top"))
        root = self.root()
        folder = root / "home" / self.unpacked(release).name
        shutil.move(str(self.folder / "fresh" / folder.name), folder)
        inside = [str(shutil.which("chroot")), str(root), "env", "-i", f"--chdir=/home/{folder.name}",
                  "PATH=/usr/bin:/bin"]
        self.expect(inside, "sh", "-c", "! command -v rt && ! command -v gcc && ! command -v cc")
        self.expect(inside, "sha256sum", "-c", "--quiet", "SHA256SUMS")
        self.expect(inside, "make", "install", "PREFIX=/usr")
        for heading in ("A session", "Your own files"):
            play(self, folder, heading, inside)
        self.expect(inside, "dettrace", "run", "/usr/share/doc/dettrace/examples/hello", "--", "/hello")
        self.expect(inside, "dettrace-report", "diff", "out/first", "out/second")

    def expect(self, inside: List[str], *words: str) -> None:
        """A command ends well in there."""
        done = subprocess.run([*inside, *words], stdin=subprocess.DEVNULL, stdout=subprocess.PIPE,
                              stderr=subprocess.STDOUT, text=True, check=False)
        self.assertEqual(done.returncode, 0, done.stdout)


if __name__ == "__main__":
    unittest.main()
