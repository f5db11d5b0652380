#!/usr/bin/env python3
"""What timers cost, and how fast a program looks for events: run.py PROGRAM.

60 processes wait for a byte while a 61st one asks for its id, once with a timer that each of the 60 has armed, and
once without: the figure is the time of a turn. Then one process looks at four descriptors by ppoll, also under
qemu-riscv64 where it is installed (Debian's package qemu-user). Each figure is of all of them less none. The best of
five runs counts, and all five lie in the range in brackets. The guest is timers, beside this script."""
import os
import sys

HERE = os.path.dirname(os.path.abspath(__file__))
sys.path.insert(0, os.path.dirname(HERE))  # where guests.py lies
import guests

GUEST = os.path.join(HERE, "timers")
RUNS = 5
CHILDREN = 60
ASKED = 20_000
POLLS = 1_000_000


def turn_times(command, armed):
    """How long a turn takes in each run, in seconds, the least first: each process has one for each question."""
    of_none = guests.times(command + ["turns", "0", str(CHILDREN), armed], RUNS)[0]
    taken = guests.times(command + ["turns", str(ASKED), str(CHILDREN), armed], RUNS)
    return [(each - of_none) / (ASKED * (CHILDREN + 1)) for each in taken]


def armed_timers(program, top):
    """Prints how long a turn takes beside 60 armed timers, and beside none."""
    folder = os.path.join(top, "image")
    guests.write_image(folder, GUEST)
    command = guests.command(program, folder, GUEST)
    none, armed = turn_times(command, "0"), turn_times(command, "1")
    print("a turn beside %d armed timers: %.0f nanoseconds (%.0f to %.0f), beside none %.0f (%.0f to %.0f), ratio %.2f"
          % (CHILDREN, armed[0] * 1e9, armed[0] * 1e9, armed[-1] * 1e9, none[0] * 1e9, none[0] * 1e9, none[-1] * 1e9,
             armed[0] / none[0]), flush=True)


def rates(command):
    """How many calls of ppoll a second there are, in each run, the most first."""
    none = guests.times(command + ["polls", "0"], RUNS)[0]
    return [POLLS / (taken - none) for taken in guests.times(command + ["polls", str(POLLS)], RUNS)]


def polls(program, top):
    """Prints how many times a second a process looks at four descriptors."""
    folder = os.path.join(top, "image")
    guests.write_image(folder, GUEST)
    ours = rates(guests.command(program, folder, GUEST))
    line = "%d calls of ppoll at four descriptors: ours %.0f (%.0f to %.0f)" % (POLLS, ours[0], ours[-1], ours[0])
    if not guests.QEMU:
        print(line + " a second")
        return
    theirs = rates([guests.QEMU, GUEST])
    print(line + ", qemu-riscv64 %.0f (%.0f to %.0f) a second, ratio %.2f"
          % (theirs[0], theirs[-1], theirs[0], ours[0] / theirs[0]))


sys.exit(guests.run(armed_timers, polls))
