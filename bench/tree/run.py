#!/usr/bin/env python3
"""How the times of calls on names grow: run.py PROGRAM.

Each figure stands at two sizes, with the ratio of both times and that of n log n, log n or n. Each is the time of many
less the time of none, or of what only prepares it, the best of five runs. The guest is tree, beside this script."""
import math
import os
import sys

HERE = os.path.dirname(os.path.abspath(__file__))
sys.path.insert(0, os.path.dirname(HERE))  # where guests.py lies
import guests

GUEST = os.path.join(HERE, "tree")
RUNS = 5
# The second size is about four times or twice the first.
FILES = (1023, 4095)
NAMES = (1000, 4000)
LINKS = (10, 40)
DEPTHS = (125, 500)
CHANGED = (2000, 4000)
# How many calls, listings and directories of changed files each time is of.
CALLS = 20_000
LISTINGS = 200
DIRECTORIES = 4


def n_log_n(size):
    return size * math.log(size)


def directory(path):
    return {"path": path, "type": "dir", "mode": 0o755}


def files(count, parent=""):
    """So many empty files under names that are numbers, as the guest has them."""
    return [{"path": "%s/%05d" % (parent, n), "type": "file", "mode": 0o644, "blob": "none"} for n in range(count)]


def links(count):
    """So many links, each to the next, and a file behind the last."""
    chain = [{"path": "/l%d" % n, "type": "link", "target": "l%d" % (n + 1)} for n in range(count)]
    return chain + [{"path": "/l%d" % count, "type": "file", "mode": 0o644, "blob": "none"}]


def image(top, entries):
    """An image of these entries beside the guest, and the words that run it."""
    folder = os.path.join(top, "image%d" % len(os.listdir(top)))
    guests.write_image(folder, GUEST, entries, [("none", b"")])
    return folder


def best(command, *words):
    return guests.times(command + [str(word) for word in words], RUNS)[0]


def each(command, kind, count, *words):
    """The time of one of so many, in seconds."""
    return (best(command, kind, count, *words) - best(command, kind, 0, *words)) / count


def installs(program, top):
    """Prints the time of whole runs that do nothing but install an image of many files and report them."""
    few = best(guests.command(program, image(top, files(1)), GUEST), "path", 0, "/")
    times = []
    for size in FILES:
        # The guest is a file as well.
        command = guests.command(program, image(top, files(size - 1)), GUEST)
        times.append(best(command, "path", 0, "/") - few)
    guests.print_growth("install and report of files", FILES, times, "n log n", n_log_n)


def lookups(program, top):
    """Prints the times of a status by a name among many, and by paths that are deep or lead through links."""
    times = []
    for size in NAMES:
        command = guests.command(program, image(top, [directory("/d")] + files(size, "/d")), GUEST)
        times.append(each(command, "find", CALLS, "/d", size))
    guests.print_growth("status of a name among names", NAMES, times, "log n", math.log)
    times = []
    for size in DEPTHS:
        deep = [directory("/d" * depth) for depth in range(1, size + 1)]
        command = guests.command(program, image(top, deep), GUEST)
        times.append(each(command, "path", CALLS // 100, "/d" * size))
    guests.print_growth("status below directories", DEPTHS, times, "n", float)
    times = []
    for size in LINKS:
        command = guests.command(program, image(top, links(size)), GUEST)
        times.append(each(command, "path", CALLS, "/l0"))
    guests.print_growth("status through links", LINKS, times, "n", float)


def listings(program, top):
    """Prints the time of a whole listing."""
    times = []
    for size in NAMES:
        command = guests.command(program, image(top, [directory("/d")] + files(size, "/d")), GUEST)
        times.append(each(command, "list", LISTINGS, "/d"))
    guests.print_growth("listing of names by getdents64", NAMES, times, "n log n", n_log_n)


def changes(program, top):
    """Prints the times in which the files of a directory come and go, get other names, and go in the worse order."""
    command = guests.command(program, image(top, []), GUEST)
    made, renamed, removed = [], [], []
    for size in CHANGED:
        none, make, rename, remove = (
            best(command, kind, count, size)
            for kind, count in [("make", 0), ("make", DIRECTORIES), ("rename", DIRECTORIES), ("remove", DIRECTORIES)])
        made.append((make - none) / DIRECTORIES)
        renamed.append((rename - make) / DIRECTORIES)
        removed.append((remove - make) / DIRECTORIES)
    guests.print_growth("making of files and their removal, the last first", CHANGED, made, "n log n", n_log_n)
    guests.print_growth("renaming of files", CHANGED, renamed, "n log n", n_log_n)
    guests.print_growth("removal of files, the first first, longer by", CHANGED, removed, "n log n", n_log_n)


def turns(program, top):
    """Prints the time in which a directory is made below many others, and removed."""
    times = []
    for size in DEPTHS:
        deep = [directory("/d" * depth) for depth in range(1, size + 1)]
        command = guests.command(program, image(top, deep), GUEST)
        times.append(each(command, "turn", CALLS // 100, "/d" * size + "/x"))
    guests.print_growth("mkdirat and unlinkat below directories", DEPTHS, times, "n", float)


sys.exit(guests.run(installs, lookups, listings, changes, turns))
