#!/usr/bin/env python3
"""How the times of memory grow: run.py PROGRAM.

Each figure stands at two sizes, with the ratio of both times and that of the sizes: the start of a program by execve,
a round of two calls by which one page comes and goes while many others are held above or below it, pages that nobody
writes, and a child of a process that has written many. Each is the time of many less the time of none, the best of five
runs. The last line is the most memory that the program held while many children read the pages of one process. The
guest is memory, beside this script."""
import os
import struct
import subprocess
import sys

HERE = os.path.dirname(os.path.abspath(__file__))
sys.path.insert(0, os.path.dirname(HERE))  # where guests.py lies
import guests

GUEST = os.path.join(HERE, "memory")
RUNS = 5
STARTED = (4_000, 16_000)
STARTS = 10
HELD = (100, 10_000)
ROUNDS = 2_000
# What comes and goes, and the guest's word for it.
KINDS = [
    ("brk above pages", "brk-above"),
    ("brk below pages", "brk-below"),
    ("mmap and munmap above pages", "map-above"),
    ("mmap and munmap below pages", "map-below"),
]
MANY = (256, 15_700)
# What is done with so many pages, the guest's word for it, and how often.
WHOLE = [
    ("mmap and munmap of fresh pages", "fresh", 100),
    ("clone, exit and wait4, of written pages", "children", 100),
    ("the same, and the child writes to them", "stores", 20),
]
READERS, READ = 60, 4_000
PAGE, LOAD = 4096, 1


def with_pages(path, pages):
    """Makes the guest anew, with a last segment of so many pages in memory."""
    with open(GUEST, "rb") as file:
        code = bytearray(file.read())
    (table,), (count,) = struct.unpack_from("<Q", code, 32), struct.unpack_from("<H", code, 56)
    headers = [table + 56 * index for index in range(count)]
    last = [at for at in headers if struct.unpack_from("<I", code, at) == (LOAD,)][-1]
    struct.pack_into("<Q", code, last + 40, pages * PAGE)
    with open(path, "wb") as file:
        file.write(code)


def each(command, kind, count, *words):
    """The time of one of so many, in seconds."""
    many, none = (guests.times(command + [kind, str(turns), *words], RUNS)[0] for turns in (count, 0))
    return (many - none) / count


def starts(program, top):
    """Prints the time in which a program of many pages executes itself."""
    times = []
    for size in STARTED:
        guest = os.path.join(top, str(size), os.path.basename(GUEST))
        os.makedirs(os.path.dirname(guest))
        with_pages(guest, size)
        folder = os.path.join(top, "image%d" % size)
        guests.write_image(folder, guest)
        times.append(each(guests.command(program, folder, guest), "start", STARTS))
    guests.print_growth("start of a program of pages", STARTED, times, "n", float)


def pages(program, top):
    """Prints the times of a round of two calls, by which a page comes and goes."""
    folder = os.path.join(top, "image")
    guests.write_image(folder, GUEST)
    command = guests.command(program, folder, GUEST)
    for what, kind in KINDS:
        times = [each(command, kind, ROUNDS, str(size)) for size in HELD]
        guests.print_growth(what, HELD, times, "n", float)


def whole(program, top):
    """Prints the times of what is done with many pages at once."""
    folder = os.path.join(top, "image")
    guests.write_image(folder, GUEST)
    command = guests.command(program, folder, GUEST)
    for what, kind, count in WHOLE:
        times = [each(command, kind, count, str(size)) for size in MANY]
        guests.print_growth(what, MANY, times, "n", float)


def readers(program, top):
    """Prints the most memory that the program held while children read the pages of one process."""
    folder = os.path.join(top, "image")
    guests.write_image(folder, GUEST)
    words = guests.command(program, folder, GUEST) + ["readers", str(READERS), str(READ)]
    with subprocess.Popen(words, stdout=subprocess.DEVNULL) as run:
        _, status, usage = os.wait4(run.pid, 0)
        run.returncode = os.waitstatus_to_exitcode(status)
    if run.returncode != 0:
        raise subprocess.CalledProcessError(run.returncode, words)
    print("%d children read the %d pages of one process, of %.1f megabytes: %.1f megabytes at most"
          % (READERS, READ, READ * PAGE / 1e6, usage.ru_maxrss * 1024 / 1e6))


sys.exit(guests.run(starts, pages, whole, readers))
