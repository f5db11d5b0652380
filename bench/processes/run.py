#!/usr/bin/env python3
"""How fast a program makes children and takes turns: run.py PROGRAM.

The first line is how many children a second a process of 258 pages makes and waits for, each of which ends at once,
also under qemu-riscv64 where it is installed (Debian's package qemu-user). Then come the time of a turn while more and
more processes live, which all make the same call, and a whole run of a million turns. But for that run, each figure is
the time of many less the time of none. The best of five runs counts, and all five lie in the range in brackets. The
guest is processes, beside this script."""
import os
import sys

HERE = os.path.dirname(os.path.abspath(__file__))
sys.path.insert(0, os.path.dirname(HERE))  # where guests.py lies
import guests

GUEST = os.path.join(HERE, "processes")
RUNS = 5
CHILDREN = 2_000
WANTED = 5
TURNS = 1_000_000
PROCESSES = (1, 2, 15, 30, 60)


def rates(command):
    """How many children a second, in each run, the most first."""
    none = guests.times(command + ["children", "0"], RUNS)[0]
    many = guests.times(command + ["children", str(CHILDREN)], RUNS)
    return [CHILDREN / (taken - none) for taken in many]


def children(program, top):
    """Prints how many children a second are made, end and are waited for."""
    folder = os.path.join(top, "image")
    guests.write_image(folder, GUEST)
    ours = rates(guests.command(program, folder, GUEST))
    line = "clone, exit and wait4 of 258 pages: ours %.0f (%.0f to %.0f)" % (ours[0], ours[-1], ours[0])
    if not guests.QEMU:
        print(line + " a second")
        return
    theirs = rates([guests.QEMU, GUEST])
    print(line + ", qemu-riscv64 %.0f (%.0f to %.0f) a second, ratio %.2f, at least %d wanted"
          % (theirs[0], theirs[-1], theirs[0], ours[0] / theirs[0], WANTED))


def measure(command, processes):
    """The times of runs with so many processes, in seconds, and of a turn in each, in nanoseconds; the least first."""
    share = -(-TURNS // processes)  # rounded up, for at least so many turns in all
    none = guests.times(command + ["0", str(processes)], RUNS)[0]
    whole = guests.times(command + [str(share), str(processes)], RUNS)
    return whole, [(taken - none) / (share * processes) * 1e9 for taken in whole]


def turns(program, top):
    """Prints the time of a turn while so many processes live, and of the last of these runs as a whole."""
    folder = os.path.join(top, "image")
    guests.write_image(folder, GUEST)
    command = guests.command(program, folder, GUEST) + ["turns"]
    alone = None
    for processes in PROCESSES:
        whole, each = measure(command, processes)
        alone = alone or each[0]
        print("a turn, %d live: %.0f nanoseconds (%.0f to %.0f), ratio %.2f"
              % (processes, each[0], each[0], each[-1], each[0] / alone))
    print("a run of %d turns over %d processes: %.2f seconds (%.2f to %.2f)"
          % (TURNS, PROCESSES[-1], whole[0], whole[0], whole[-1]))


sys.exit(guests.run(children, turns))
