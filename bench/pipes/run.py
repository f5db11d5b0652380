#!/usr/bin/env python3
"""How fast a program moves bytes through a pipe between two processes: run.py PROGRAM.

One process writes 64 KiB at a time and its child reads 4 KiB at a time, also under qemu-riscv64 where it is installed
(Debian's package qemu-user). A megabyte has 2^20 bytes. The figure is the time of all bytes less the time of none. The
best of five runs counts, and all five lie in the range in brackets. The guest is pipes, beside this script."""
import os
import sys

HERE = os.path.dirname(os.path.abspath(__file__))
sys.path.insert(0, os.path.dirname(HERE))  # where guests.py lies
import guests

GUEST = os.path.join(HERE, "pipes")
RUNS = 5
MEGABYTES = 256
WRITES_A_MEGABYTE = 16


def rates(command):
    """How many megabytes a second, in each run, the most first."""
    none = guests.times(command + ["0"], RUNS)[0]
    many = guests.times(command + [str(MEGABYTES * WRITES_A_MEGABYTE)], RUNS)
    return [MEGABYTES / (taken - none) for taken in many]


def transfers(program, top):
    """Prints how many megabytes a second go through a pipe."""
    folder = os.path.join(top, "image")
    guests.write_image(folder, GUEST)
    ours = rates(guests.command(program, folder, GUEST))
    line = ("%d megabytes through a pipe, writes of 64 KiB, reads of 4 KiB: ours %.0f (%.0f to %.0f)"
            % (MEGABYTES, ours[0], ours[-1], ours[0]))
    if not guests.QEMU:
        print(line + " a second")
        return
    theirs = rates([guests.QEMU, GUEST])
    print(line + ", qemu-riscv64 %.0f (%.0f to %.0f) a second, ratio %.2f, at least 0.33 wanted"
          % (theirs[0], theirs[-1], theirs[0], ours[0] / theirs[0]))


sys.exit(guests.run(transfers))
