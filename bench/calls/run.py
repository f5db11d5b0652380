#!/usr/bin/env python3
"""Calls a second of one guest under a program and under qemu-riscv64: run.py PROGRAM.

Each figure is the time of many calls less the time of none, the best of three runs. The guest is calls, beside this
script. Where there is no qemu-riscv64 (Debian's package qemu-user), only the program is timed."""
import os
import sys

HERE = os.path.dirname(os.path.abspath(__file__))
sys.path.insert(0, os.path.dirname(HERE))  # where guests.py lies
import guests

GUEST = os.path.join(HERE, "calls")
RUNS = 3
LARGE = 65536

# What is called, the guest's letter for it, how many times, and the least ratio that is wanted.
KINDS = [
    ("close of a bad descriptor", "c", 1_000_000, 3),
    ("fstat", "s", 500_000, 3),
    ("pread64 of 1 byte", "r", 500_000, 1),
    ("pwrite64 of 1 byte", "w", 500_000, 1),
    ("pread64 of 64 KiB", "R", 20_000, 0.5),
    ("pwrite64 of 64 KiB", "W", 20_000, 0.5),
]


def time_of_calls(command, letter, count, path):
    """The time of so many calls, in seconds."""
    many, none = (command + [letter, str(calls), path] for calls in (count, 0))
    return guests.times(many, RUNS)[0] - guests.times(none, RUNS)[0]


def compare(program, top):
    """Prints the calls a second of each kind."""
    folder = os.path.join(top, "image")
    entry = {"path": "/f", "type": "file", "mode": 0o644, "blob": "bytes"}
    guests.write_image(folder, GUEST, [entry], [("bytes", b"x" * LARGE)])
    ours = guests.command(program, folder, GUEST)
    for what, letter, count, wanted in KINDS:
        speed = count / time_of_calls(ours, letter, count, "/f")
        if not guests.QEMU:
            print("%s: ours %.0f calls a second" % (what, speed))
            continue
        other = count / time_of_calls([guests.QEMU, GUEST], letter, count, os.path.join(folder, "bytes"))
        print("%s: ours %.0f, qemu-riscv64 %.0f calls a second, ratio %.2f, at least %s wanted"
              % (what, speed, other, speed / other, wanted))


sys.exit(guests.run(compare))
