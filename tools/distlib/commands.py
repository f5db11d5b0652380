"""What tools/dist does."""
from __future__ import annotations

import hashlib
import os
import subprocess
import sys
from pathlib import Path

from .archive import Failed, gzip, tar
from .contents import check, contents, library_of

TOP = Path(__file__).resolve().parent.parent.parent


def write(path: Path, data: bytes) -> None:
    """Makes the file, whole or not at all."""
    path.parent.mkdir(exist_ok=True)
    part = path.with_name(f".{path.name}.part")
    try:
        part.write_bytes(data)
        os.replace(part, path)
    finally:
        part.unlink(missing_ok=True)


def release(top: Path) -> None:
    check(top)
    line = subprocess.run([str(top / "tools" / "version")], capture_output=True, check=True).stdout.decode().strip()
    name = f"dettrace-{line.split()[0]}"
    files = contents(top, line)
    whole = tar({f"{name}/{path}": file for path, file in files.items()})
    packed = gzip(whole)
    write(top / "out" / f"{name}.tar.gz", packed)
    print(f"out/{name}.tar.gz: {len(files)} files, {len(packed)} bytes")
    print(f"  its SHA-256: {hashlib.sha256(packed).hexdigest()}")
    print(f"  that of the tar in it: {hashlib.sha256(whole).hexdigest()}")
    print(f"  the program needs the GNU C library {library_of(files['dettrace'].data)} or later")


def main() -> int:
    try:
        release(TOP)
    except Failed as failed:
        print(f"dist: {failed}", file=sys.stderr)
        return 1
    return 0
