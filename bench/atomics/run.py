#!/usr/bin/env python3
"""How fast a program carries out atomics: run.py PROGRAM.

Atomics that change a number in memory, of seven kinds and two widths in turn, and pairs of a load that reserves and a
store that succeeds, on an image of version 2, also under qemu-riscv64 where it is installed (Debian's package
qemu-user). A pair has a sum between its two, and a branch on how it went behind it. Each figure is the time of many
rounds less the time of none. The best of five runs counts, and all five lie in the range in brackets. Both programs have
to leave the same number in memory. The guest is atomics, beside this script."""
import os
import subprocess
import sys

HERE = os.path.dirname(os.path.abspath(__file__))
sys.path.insert(0, os.path.dirname(HERE))  # where guests.py lies
import guests

GUEST = os.path.join(HERE, "atomics")
RUNS = 5
ROUNDS = 4_000_000
A_ROUND = 8
# What is timed, and the guest's word for it.
KINDS = [("atomics on one number", "amo"), ("pairs of lr and sc", "pair")]


def lines_of(command):
    return subprocess.run(command, check=True, stdout=subprocess.PIPE, text=True).stdout.splitlines()


def rates(command, kind):
    """How many are carried out in a second, in each run, the most first."""
    none = guests.times(command + [kind, "0"], RUNS)[0]
    many = guests.times(command + [kind, str(ROUNDS)], RUNS)
    return [A_ROUND * ROUNDS / (taken - none) for taken in many]


def told(figures):
    """The best figure, and the range of all, in millions."""
    best, least = (figure / 1e6 for figure in (figures[0], figures[-1]))
    return "%.1f (%.1f to %.1f)" % (best, least, best)


def atomics(program, top):
    """Prints how many of each kind are carried out in a second."""
    folder = os.path.join(top, "image")
    guests.write_image(folder, GUEST, version=2)
    command = guests.command(program, folder, GUEST)
    for what, kind in KINDS:
        ours = rates(command, kind)
        line = "%d %s: ours %s" % (A_ROUND * ROUNDS, what, told(ours))
        if not guests.QEMU:
            print(line + " million a second")
            continue
        # What is left is a line of the report.
        if lines_of([guests.QEMU, GUEST, kind, str(ROUNDS)])[0] not in lines_of(command + [kind, str(ROUNDS)]):
            raise SystemExit("what %s leave differs" % what)
        theirs = rates([guests.QEMU, GUEST], kind)
        print("%s, qemu-riscv64 %s million a second, ratio %.2f" % (line, told(theirs), ours[0] / theirs[0]))


sys.exit(guests.run(atomics))
