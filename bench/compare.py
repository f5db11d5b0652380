#!/usr/bin/env python3
"""Several programs in turn: compare.py PROGRAM PROGRAM [PROGRAM ..].

Times each example, and guests of one process that make calls or compute, under each program: one run of each after the
other, so that whatever else the machine does meets all of them. A run that takes a few milliseconds is repeated, so that
a figure is of a tenth of a second or more. The best of many goes counts; the median stands in brackets. The ratio is the
first program's time by that of each other one: above 1 the other one is faster."""
import os
import shlex
import statistics
import subprocess
import sys
import tempfile
import time
from pathlib import Path

import guests

HERE = Path(__file__).resolve().parent
EXAMPLES = HERE.parent / "examples"
GOES = 15
LEAST = 0.1  # seconds
# What a guest does: its name, its words, and files of its image.
GUESTS = [
    ("close of a bad descriptor", "calls", ["c", "300000", "/f"]),
    ("fstat", "calls", ["s", "200000", "/f"]),
    ("pread64 of 1 byte", "calls", ["r", "200000", "/f"]),
    ("pwrite64 of 1 byte", "calls", ["w", "200000", "/f"]),
    ("pread64 of 64 KiB", "calls", ["R", "10000", "/f"]),
    ("pwrite64 of 64 KiB", "calls", ["W", "10000", "/f"]),
    ("turns of one process", "processes", ["turns", "400000", "1"]),
    ("instructions on 4 pages", "machine", ["loop", "2000000", "4"]),
    ("instructions on 256 pages", "machine", ["loop", "2000000", "256"]),
    ("children of 258 pages", "processes", ["children", "2000"]),
]


def examples():
    """The words of each example, by its name. Those of which no image is built are left out."""
    for path in sorted(EXAMPLES.glob("*/command")):
        if (path.parent / "image.json").exists():
            yield "example " + path.parent.name, ["run", os.fspath(path.parent), *shlex.split(path.read_text())]


def guest_words(top):
    """The words of each guest, by what it does."""
    entry = {"path": "/f", "type": "file", "mode": 0o644, "blob": "bytes"}
    for index, (what, name, words) in enumerate(GUESTS):
        folder, guest = os.path.join(top, str(index)), HERE / name / name
        guests.write_image(folder, guest, [entry], [("bytes", b"x" * 65536)])
        yield what, guests.command("", folder, guest)[1:] + words


def seconds(program, words, count):
    """The time of so many runs, each."""
    start = time.perf_counter()
    for _ in range(count):
        subprocess.run([program, *words], stdout=subprocess.DEVNULL, stderr=subprocess.DEVNULL)
    return (time.perf_counter() - start) / count


def compare(what, words, programs):
    """Prints a line of what such a run takes under each program."""
    count = int(LEAST / seconds(programs[0], words, 1)) + 1
    taken = {program: [] for program in programs}
    for _ in range(GOES):
        for program in programs:
            taken[program].append(seconds(program, words, count))
    first = min(taken[programs[0]])
    print("%s: %s" % (what, ", ".join(
        "%.3f (%.3f) milliseconds, ratio %.2f" % (min(times) * 1e3, statistics.median(times) * 1e3, first / min(times))
        for times in taken.values())), flush=True)


def main():
    programs = [os.path.abspath(program) for program in sys.argv[1:]]
    if len(programs) < 2 or not all(os.access(program, os.X_OK) for program in programs):
        print("usage: compare.py PROGRAM PROGRAM [PROGRAM ..]", file=sys.stderr)
        return 2
    with tempfile.TemporaryDirectory() as top:
        for what, words in [*examples(), *guest_words(top)]:
            compare(what, words, programs)
    return 0


if __name__ == "__main__":
    sys.exit(main())
