"""What the benches that run guests share: images, commands, times, and their own start."""
import json
import os
import shutil
import subprocess
import sys
import tempfile
import time

QEMU = shutil.which("qemu-riscv64")


def times(command, runs):
    """The times of so many runs, in seconds, the least first."""
    taken = []
    for _ in range(runs):
        start = time.perf_counter()
        subprocess.run(command, check=True, stdout=subprocess.DEVNULL)
        taken.append(time.perf_counter() - start)
    return sorted(taken)


def write_image(folder, guest, entries=(), blobs=(), version=1):
    """Makes a folder an image: an executable under its own name below the root, further entries, and their blobs."""
    os.makedirs(folder)
    shutil.copy(guest, folder)
    name = os.path.basename(guest)
    for blob, contents in blobs:
        with open(os.path.join(folder, blob), "wb") as file:
            file.write(contents)
    first = {"path": "/" + name, "type": "file", "mode": 0o755, "blob": name}
    with open(os.path.join(folder, "image.json"), "w", encoding="utf-8") as index:
        json.dump({"version": version, "entries": [first, *entries]}, index)


def command(program, folder, guest, *options):
    """The words that run the guest of such an image, with the greatest budget and further options. Its own follow."""
    return [program, "run", folder, "--budget", "1000000000", *options, "--", "/" + os.path.basename(guest)]


def print_growth(what, sizes, times, bound, bound_of):
    """Prints the times at two sizes, in seconds, how much longer the second is, and how much it would be by a bound."""
    print("%s: %d in %.1f microseconds, %d in %.1f, ratio %.2f, of %s %.2f"
          % (what, sizes[0], times[0] * 1e6, sizes[1], times[1] * 1e6, times[1] / times[0], bound,
             bound_of(sizes[1]) / bound_of(sizes[0])), flush=True)


def run(*benches):
    """Runs each bench with the program that the command line names and an empty folder, and answers an exit status."""
    if len(sys.argv) != 2 or not os.access(sys.argv[1], os.X_OK):
        print("usage: run.py PROGRAM", file=sys.stderr)
        return 2
    program = os.path.abspath(sys.argv[1])
    for bench in benches:
        with tempfile.TemporaryDirectory() as top:
            bench(program, top)
    return 0
