#!/usr/bin/env python3
"""What workers bring: run.py PROGRAM.

The same runs with --workers 1 and with --workers 4, in turn. In the first, four children compute side by side for 200
million steps each: a run has at most 1,000,000,000. In the second, a process makes 2,000 small children as a script
does, one after the other, and there is nothing to share out. The ratio is how many times as long one worker takes as
four. The best of three runs counts, and all three lie in the range in brackets. Both have to give one report. The guest
is workers, beside this script."""
import os
import subprocess
import sys

HERE = os.path.dirname(os.path.abspath(__file__))
sys.path.insert(0, os.path.dirname(HERE))  # where guests.py lies
import guests

GUEST = os.path.join(HERE, "workers")
RUNS = 3
NUMBERS = (1, 4)

# What runs, the guest's words for it, and those of a short run, whose reports are compared.
KINDS = [
    ("4 children side by side, 200 million steps each", ("together", "4", "200000000"), ("together", "4", "1000000")),
    ("2000 children one after the other, 1000 steps each", ("alone", "2000", "1000"), ("alone", "2000", "1000")),
]


def report(command):
    """What a run writes, which has to end well."""
    return subprocess.run(command, check=True, stdout=subprocess.PIPE).stdout


def measure(commands):
    """The times of each of these commands, which run in turn, in seconds, the least first."""
    taken = [[] for _ in commands]
    for _ in range(RUNS):
        for times, command in zip(taken, commands):
            times += guests.times(command, 1)
    return [sorted(times) for times in taken]


def compare(program, top):
    """Prints the seconds of each kind with one worker and with four."""
    folder = os.path.join(top, "image")
    guests.write_image(folder, GUEST)
    commands = [guests.command(program, folder, GUEST, "--workers", str(number)) for number in NUMBERS]
    for what, words, few in KINDS:
        if len({report([*command, *few]) for command in commands}) > 1:
            raise SystemExit("the reports differ: %s" % what)
        one, four = measure([[*command, *words] for command in commands])
        print("%s: --workers 1 %.2f seconds (%.2f to %.2f), --workers 4 %.2f (%.2f to %.2f), ratio %.2f"
              % (what, one[0], one[0], one[-1], four[0], four[0], four[-1], one[0] / four[0]), flush=True)


sys.exit(guests.run(compare))
