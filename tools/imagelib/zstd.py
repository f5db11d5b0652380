"""Archives that are compressed by zstd: told by their first bytes, and read by Python, or by the program zstd."""
from __future__ import annotations

import os
import shutil
import subprocess
import tempfile
from tarfile import TarFile
from typing import IO

from .errors import Outside
from .texts import quoted, shown

# The first bytes of a frame, or those of one that is to be skipped, but for its first byte.
MAGIC = b"\x28\xb5\x2f\xfd"
SKIPPED = b"\x2a\x4d\x18"

NEEDED = "is compressed by zstd: to read it takes Python 3.14, or the program zstd in the PATH"


def is_zstd(file: IO[bytes]) -> bool:
    begin = file.read(4)
    file.seek(0)
    return begin == MAGIC or (begin[1:] == SKIPPED and 0x50 <= begin[0] <= 0x5F)


def plain(file: IO[bytes], word: str) -> IO[bytes]:
    """The file itself, or what zstd makes of it where Python does not read it by itself."""
    if not is_zstd(file) or "zst" in TarFile.OPEN_METH:
        return file
    program = shutil.which("zstd")
    if program is None:
        raise Outside(f"{quoted(word)} {NEEDED}")
    made = tempfile.TemporaryFile()
    # What was read ahead is not to be left out.
    os.lseek(file.fileno(), 0, os.SEEK_SET)
    done = subprocess.run([program, "-dcq"], stdin=file, stdout=made, stderr=subprocess.PIPE, check=False)
    if done.returncode:
        made.close()
        said = " ".join(done.stderr.decode("utf-8", "surrogateescape").split())
        raise Outside(f"{quoted(word)} is a broken or truncated archive: {shown(said)}")
    file.close()
    made.seek(0)
    return made
