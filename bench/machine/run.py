#!/usr/bin/env python3
"""The speed of the machine: run.py PROGRAM.

A loop of 50 million instructions, ten a round with a load and a store on another page each time, and the same loop in a
plain interpreter in Rust (bench/plain.rs), built by rustc -O. Then how much longer a load takes which looks its page up
among 16,000 than one from the page of the load before. Each figure of ours is the time of many rounds less the time of
none. The best of five runs counts. The guest is machine, beside this script."""
import os
import re
import subprocess
import sys
import tempfile

HERE = os.path.dirname(os.path.abspath(__file__))
BENCH = os.path.dirname(HERE)
sys.path.insert(0, BENCH)  # where guests.py lies
import guests

GUEST = os.path.join(HERE, "machine")
RUNS = 5
ROUNDS = 5_000_000
INSTRUCTIONS = 10 * ROUNDS
LOADS = 4_000_000
# From one page to the next that is loaded from: a number without a divisor in common with that of the pages.
STRIDE = 7_919


def text_of(command):
    return subprocess.run(command, check=True, stdout=subprocess.PIPE, text=True).stdout


def plain_figures():
    """The best speed of the plain interpreter, in million instructions a second, and its sum, by the number of pages."""
    figures = {}
    with tempfile.TemporaryDirectory() as top:
        plain = os.path.join(top, "plain")
        subprocess.run(["rustc", "--edition", "2024", "-O", "-o", plain, os.path.join(BENCH, "plain.rs")], check=True)
        for _ in range(RUNS):
            for pages, speed, total in re.findall(r"(\d+) pages: ([\d.]+) million .* sum (\d+)", text_of([plain])):
                figures[int(pages)] = max(figures.get(int(pages), (0, "")), (float(speed), total))
    return figures


def speed(command, kind, count, size):
    """The time of so many turns, in seconds."""
    many, none = (guests.times(command + [kind, str(turns), str(size)], RUNS)[0] for turns in (count, 0))
    return many - none


def loops(program, top):
    """Prints the speed of the loop beside that of the plain interpreter."""
    folder = os.path.join(top, "image")
    guests.write_image(folder, GUEST)
    command = guests.command(program, folder, GUEST)
    for pages, (plain, total) in sorted(plain_figures().items()):
        # The sum is a line of the report.
        if total not in text_of(command + ["loop", str(ROUNDS), str(pages)]).splitlines():
            raise SystemExit("the sums differ at %d pages" % pages)
        ours = INSTRUCTIONS / speed(command, "loop", ROUNDS, pages) / 1e6
        print("%d pages: ours %.1f, plain %.1f million instructions a second, ratio %.2f" % (pages, ours, plain, ours / plain))
    among, same = (speed(command, "look", LOADS, stride) for stride in (STRIDE, 0))
    print("a page that is looked up among 16000: %.0f nanoseconds more" % ((among - same) / LOADS * 1e9))


sys.exit(guests.run(loops))
