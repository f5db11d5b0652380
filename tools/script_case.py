"""What the tests of ./dettrace share: a repository of four crates, and a stand-in for rt."""
from __future__ import annotations

import os
import shutil
import subprocess
import sys
import tempfile
import unittest
from pathlib import Path
from typing import Dict, List, Tuple

from program import TOP

PROGRAM = "#!/bin/sh\necho \"ran $*\"\nexit 7\n"
# Notes the crate that it is called in, and makes the program.
RT = """#!/bin/sh
echo "$(basename "$PWD") $*" >>"$CALLS"
[ "$1" = run ] || exit 0
mkdir -p out && cp "$MADE" out/dettrace
"""
NO_RT = ("dettrace: the command rt is missing: the kit of Rattle proves and builds this program "
         "(README.md says which)\n")


class ScriptCase(unittest.TestCase):
    """A test with a repository whose program is not built, and a folder for temporary files."""

    def setUp(self) -> None:
        folder = tempfile.TemporaryDirectory()
        self.addCleanup(folder.cleanup)
        self.folder = Path(folder.name)
        self.top = self.folder / "repository"
        self.calls, self.made = self.folder / "calls", self.folder / "made"
        self.write("crates.txt", "# crates\nlow:\nhigh: low other\nbeside: low\nside: low\ndettrace: high side\n")
        for crate in ("low", "high", "beside", "side", "dettrace"):
            self.write(f"crates/{crate}/src/lib.rt", crate)
        shutil.copy(TOP / "dettrace", self.top)
        (self.top / "tools").mkdir()
        for name in ("build", "try", "sources", "buildlib"):
            copy = shutil.copytree if name.endswith("lib") else shutil.copy
            copy(TOP / "tools" / name, self.top / "tools" / name)
        self.tool(self.made, PROGRAM)
        self.rt = self.folder / "bin" / "rt"
        self.tool(self.rt, RT)
        (self.folder / "tmp").mkdir()

    def write(self, name: str, text: str) -> None:
        path = self.top / name
        path.parent.mkdir(parents=True, exist_ok=True)
        path.write_text(text)

    def tool(self, path: Path, text: str) -> None:
        path.parent.mkdir(parents=True, exist_ok=True)
        path.write_text(text)
        path.chmod(0o755)

    def build_by_hand(self) -> None:
        self.tool(self.top / "crates/dettrace/out/dettrace", PROGRAM)

    def environment(self, has_rt: bool = True) -> Dict[str, str]:
        path = f"{os.path.dirname(sys.executable)}:{os.defpath}"
        return {"PATH": f"{self.rt.parent}:{path}" if has_rt else path, "CALLS": str(self.calls),
                "MADE": str(self.made), "TMPDIR": str(self.folder / "tmp")}

    def run_script(self, *words: str, has_rt: bool = True, script: str = "dettrace") -> Tuple[int, str, str]:
        """A run with these words: its status, and what it wrote to its two streams."""
        done = subprocess.run([str(self.top / script), *words], env=self.environment(has_rt), cwd=self.folder,
                              stdin=subprocess.DEVNULL, capture_output=True, text=True, check=False)
        return done.returncode, done.stdout, done.stderr

    def called(self) -> List[str]:
        """The calls of rt, each behind the crate that it was made in."""
        return self.calls.read_text().splitlines() if self.calls.exists() else []
