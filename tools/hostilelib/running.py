"""Runs of the program in a folder of their own, with limits, and what they used."""
from __future__ import annotations

import os
import subprocess
import threading
import time
from pathlib import Path
from typing import Any, Dict, List, NamedTuple, Optional, Sequence, Union

# The shell sets limits and becomes the program, so that no code of this process runs between a fork and the program.
START = 'ulimit -c 0 && ulimit -v "$1" && shift && exec "$@"'
KIB = 1024
UNLIMITED = "unlimited"
# So much of what a run writes is read: what this process has had at a time counts as its children's memory too.
OUTPUT_READ = 128 << 20


class Ran(NamedTuple):
    """How a run ended: its status (minus a signal, or None where it had to be killed since its time was over), what it
    wrote, as far as it was read, how many bytes its output has, the seconds that passed, those of a processor, and the
    most bytes of memory that it had at a time."""

    status: Optional[int]
    out: bytes
    err: bytes
    size: int
    passed: float
    seconds: float
    memory: int


def run(command: Sequence[Union[bytes, str]], folder: Path, limit: float, memory: Optional[int] = None,
        read: int = OUTPUT_READ) -> Ran:
    """Runs a command in a folder, for at most so many seconds, with at most so many bytes of addresses, and reads so
    much of what it wrote."""
    kib = UNLIMITED if memory is None else str(memory // KIB)
    words = [b"/bin/sh", b"-c", START, b"sh", kib, *command]
    out, err = folder / "stdout", folder / "stderr"
    with open(out, "w+b") as out_file, open(err, "w+b") as err_file:
        start = time.monotonic()
        child = subprocess.Popen(words, cwd=folder, stdin=subprocess.DEVNULL, stdout=out_file, stderr=err_file)
        is_late = threading.Event()
        timer = threading.Timer(limit, lambda: (is_late.set(), os.kill(child.pid, 9)))
        timer.start()
        try:
            _, status, used = os.wait4(child.pid, 0)
        finally:
            timer.cancel()
        passed = time.monotonic() - start
        child.returncode = -(status & 127) if status & 127 else status >> 8
        out_file.seek(0)
        err_file.seek(0)
        written, size = [file.read(read) for file in (out_file, err_file)], os.fstat(out_file.fileno()).st_size
        return Ran(None if is_late.is_set() else child.returncode, *written, size, passed,
                   used.ru_utime + used.ru_stime, used.ru_maxrss * KIB)


def write_files(folder: Path, files: Dict[str, Any]) -> None:
    """Makes files by their names: bytes, a size of zeros, nothing, or what else may stand in a file's place."""
    folder.mkdir()
    for name, what in files.items():
        path = folder / name
        if isinstance(what, bytes):
            path.write_bytes(what)
        elif isinstance(what, int):
            path.touch()
            os.truncate(path, what)
        elif what == "folder":
            path.mkdir()
        elif what == "fifo":
            os.mkfifo(path)
        elif what is not None:
            path.symlink_to({"nowhere": "not/there", "itself": name, "index": "image.json"}[what])


def with_options(words: List[bytes], *options: str) -> List[bytes]:
    """Words with options behind the first, which says what is asked for."""
    return [*words[:1], *(option.encode() for option in options), *words[1:]]
