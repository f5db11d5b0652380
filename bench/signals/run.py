#!/usr/bin/env python3
"""How fast a program delivers signals: run.py PROGRAM.

A process sends itself SIGUSR1, and its handler returns, also under qemu-riscv64 where it is installed (Debian's package
qemu-user). Each time are two calls: kill and rt_sigreturn. The figure is the time of all of them less the time of none.
The best of five runs counts, and all five lie in the range in brackets. The guest is signals, beside this script."""
import os
import sys

HERE = os.path.dirname(os.path.abspath(__file__))
sys.path.insert(0, os.path.dirname(HERE))  # where guests.py lies
import guests

GUEST = os.path.join(HERE, "signals")
RUNS = 5
SIGNALS = 1_000_000


def rates(command):
    """How many signals a second are sent and taken, in each run, the most first."""
    none = guests.times(command + ["0"], RUNS)[0]
    many = guests.times(command + [str(SIGNALS)], RUNS)
    return [SIGNALS / (taken - none) for taken in many]


def deliveries(program, top):
    """Prints how many signals a second a process sends itself and returns from."""
    folder = os.path.join(top, "image")
    guests.write_image(folder, GUEST)
    ours = rates(guests.command(program, folder, GUEST))
    line = ("%d signals to oneself, kill, a handler and its return: ours %.0f (%.0f to %.0f)"
            % (SIGNALS, ours[0], ours[-1], ours[0]))
    if not guests.QEMU:
        print(line + " a second")
        return
    theirs = rates([guests.QEMU, GUEST])
    print(line + ", qemu-riscv64 %.0f (%.0f to %.0f) a second, ratio %.2f"
          % (theirs[0], theirs[-1], theirs[0], ours[0] / theirs[0]))


sys.exit(guests.run(deliveries))
