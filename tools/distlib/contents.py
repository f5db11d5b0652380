"""What a release holds: the program, and the files of the commit that somebody needs who has the program."""
from __future__ import annotations

import hashlib
import io
import re
import subprocess
import tarfile
from pathlib import Path
from typing import Dict, List

from .archive import Failed, File
from .elf import NotElf, c_library

PROGRAM = Path("crates") / "dettrace" / "out" / "dettrace"
# Paths in the commit. Of tools, what is installed; those that build, and the tests, are for a checkout.
TAKEN = re.compile(r"README\.md|Makefile|(docs|examples|man|completion)/.*|"
                   r"tools/((run|image|report)(lib/.*)?|install|version)")
LEFT_OUT = re.compile(r".*/testing\.py|examples/reports\.sh")

NEEDS = """To run dettrace:
- Linux on x86-64
- the GNU C library, version {library} or later
- for dettrace-run, dettrace-image and dettrace-report: Python 3.9 or later

To install it: make, a shell, and `make install PREFIX=DIR` in this folder. Nothing is built.
To see that nothing is lost: sha256sum -c SHA256SUMS
"""


def git(top: Path, *words: str) -> bytes:
    command = ["git", "-c", "core.autocrlf=false", "-C", str(top), *words]
    done = subprocess.run(command, capture_output=True, check=False)
    if done.returncode:
        raise Failed(f"git {words[0]}: {done.stderr.decode().strip()}")
    return done.stdout


def committed(top: Path) -> Dict[str, File]:
    """The files of the commit, as they stand there and not in the folder."""
    files = {}
    with tarfile.open(fileobj=io.BytesIO(git(top, "archive", "--format=tar", "HEAD"))) as archive:
        for member in archive:
            name = member.name
            if TAKEN.fullmatch(name) and not LEFT_OUT.fullmatch(name) and not member.isdir():
                if not member.isreg():
                    raise Failed(f"{name}: neither a file nor a folder")
                files[name] = File(archive.extractfile(member).read(), bool(member.mode & 0o100))
    return files


def check(top: Path) -> None:
    """Failed where what would be packed is not what the commit says."""
    changed: List[str] = git(top, "status", "--porcelain").decode().splitlines()
    if changed:
        raise Failed(f"there are changes that no commit has: {', '.join(line[3:] for line in changed[:5])}")
    if not (top / PROGRAM).is_file():
        raise Failed(f"there is no program {PROGRAM}: ./dettrace build makes it")
    if subprocess.run([str(top / "tools" / "sources"), "changed"], check=False).returncode == 0:
        raise Failed("the program is older than its sources: ./dettrace build makes it anew")


def library_of(data: bytes) -> str:
    try:
        return c_library(data)
    except NotElf as error:
        raise Failed(f"{PROGRAM}: {error}") from error


def contents(top: Path, version: str) -> Dict[str, File]:
    """All files of a release."""
    files = committed(top)
    program = (top / PROGRAM).read_bytes()
    files["dettrace"] = File(program, True)
    files["VERSION"] = File(f"{version}\n".encode(), False)
    files["NEEDS"] = File(NEEDS.format(library=library_of(program)).encode(), False)
    lines = [f"{hashlib.sha256(files[name].data).hexdigest()}  {name}\n" for name in sorted(files)]
    files["SHA256SUMS"] = File("".join(lines).encode(), False)
    return files
