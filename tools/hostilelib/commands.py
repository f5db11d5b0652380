"""The words of tools/hostile, the tries, and what it says of them."""
from __future__ import annotations

import argparse
import random
import shlex
import shutil
import sys
import tempfile
import time
from collections import Counter
from concurrent.futures import FIRST_COMPLETED, Future, ThreadPoolExecutor, wait
from pathlib import Path
from typing import Dict, List, NamedTuple, Optional, Sequence, Set

from . import costs, limits, refusals
from .checking import MEMORY, faults
from .running import Ran, run, with_options, write_files
from .tries import IMAGE, Maker, Try

TOP = Path(__file__).resolve().parent.parent.parent
PROGRAM = TOP / "crates" / "dettrace" / "out" / "dettrace"
KEPT = TOP / "out" / "hostile"
DESCRIPTION = """Runs the program on random images, executables, command lines and guests, each made bad from good ones,
and looks that every run ends as docs/SECURITY.md says: never by a signal, with a status that may come of it, with a
whole report or the line of its status, in bounded time and memory, and with the same bytes twice under two hosts and
two numbers of workers. What failed is kept. The status is 0 where nothing failed."""

# So long a run may take before it is killed, also where all else on the machine is busy, and so many bytes of addresses
# it may have, so that the machine lives.
SECONDS_AT_MOST = 600.0
ADDRESSES_AT_MOST = 4 * MEMORY
STATUS_NAMES = {None: "too long"}


class Result(NamedTuple):
    """A try that was made, and what was wrong."""

    number: int
    tried: Try
    runs: List[Ran]
    faults: List[str]


def words_of(tried: Try) -> List[List[bytes]]:
    """The command lines of a try: under one host with one worker, and under another with three. Where the words
    themselves are tried, they come first as they are."""
    words = tried.words
    if words[:1] not in ([b"run"], [b"demo"]):
        return [words, words]
    first = words if tried.kind == "words" else with_options(words, "--host", "1", "--workers", "1")
    if tried.kind == "words" and any(word.startswith((b"--host", b"--workers")) for word in words):
        return [words, words]
    return [first, with_options(words, "--host", "18446744073709551615", "--workers", "3")]


def attempt(program: Path, maker: Maker, number: int) -> Result:
    """Makes one try, in a folder of its own."""
    tried = maker.make(number)
    with tempfile.TemporaryDirectory(prefix="hostile-") as name:
        folder = Path(name)
        write_files(folder / IMAGE, tried.files)
        runs = [run([str(program), *words], folder, SECONDS_AT_MOST, ADDRESSES_AT_MOST) for words in words_of(tried)]
        return Result(number, tried, runs, faults(tried, runs, folder))


def keep(folder: Path, program: Path, seed: int, result: Result) -> Path:
    """Writes a try that failed: its image, what its runs wrote, a script that runs it again, and why it failed."""
    place = folder / f"{result.number}-{result.tried.kind}"
    shutil.rmtree(place, ignore_errors=True)
    place.mkdir(parents=True)
    write_files(place / IMAGE, result.tried.files)
    lines = [b"#!/bin/sh", b'cd "$(dirname "$0")"']
    for number, (words, ran) in enumerate(zip(words_of(result.tried), result.runs), 1):
        (place / f"out{number}").write_bytes(ran.out)
        (place / f"err{number}").write_bytes(ran.err)
        quoted = [shlex.quote(word.decode("utf-8", "surrogateescape")) for word in words]
        command = " ".join(["${DETTRACE:-" + shlex.quote(str(program)) + "}", *quoted])
        lines += [command.encode("utf-8", "surrogateescape"), b'echo "status $?"']
    (place / "again").write_bytes(b"\n".join(lines) + b"\n")
    (place / "again").chmod(0o755)
    (place / "why").write_text("".join(f"{fault}\n" for fault in [f"seed {seed}, try {result.number}", *result.faults]))
    return place


class Tally:
    """What came of the tries so far."""

    def __init__(self) -> None:
        self.statuses: Dict[str, Counter] = {}
        self.failed = 0
        self.seconds, self.memory = 0.0, 0

    def add(self, result: Result) -> None:
        self.statuses.setdefault(result.tried.kind, Counter())[result.runs[0].status] += 1
        self.failed += bool(result.faults)
        self.seconds = max([self.seconds, *(ran.seconds for ran in result.runs)])
        self.memory = max([self.memory, *(ran.memory for ran in result.runs)])

    def total(self) -> int:
        return sum(sum(counts.values()) for counts in self.statuses.values())

    def lines(self) -> List[str]:
        found = []
        for kind, counts in self.statuses.items():
            order = sorted(counts.items(), key=lambda item: (item[0] is None, item[0] or 0))
            told = ", ".join(f"{STATUS_NAMES.get(status, status)}: {count}" for status, count in order)
            found.append(f"{kind}: {sum(counts.values())} tries; by status {told}")
        most = f"at most {self.seconds:.2f} seconds of a processor and {self.memory >> 20} MiB of memory a run"
        return [*found, most]


def read_words(words: Optional[Sequence[str]]) -> argparse.Namespace:
    parser = argparse.ArgumentParser(prog="hostile", description=DESCRIPTION)
    parser.add_argument("--tries", type=int, default=20_000, help="how many tries (20000), six kinds in turn")
    parser.add_argument("--seed", type=int, help="what tries are made from; without it a random one, which is told")
    parser.add_argument("--first", type=int, default=0, help="the number of the first try (0), to make one again")
    parser.add_argument("--seconds", type=float, default=3600, help="no try begins later than this (3600)")
    parser.add_argument("--jobs", type=int, default=2, help="how many runs go at a time (2)")
    parser.add_argument("--keep", type=Path, default=KEPT, help="where what failed is kept (out/hostile)")
    parser.add_argument("--costs", nargs="?", const="", metavar="LETTERS",
                        help="in place of tries, times each call at its greatest, or those told with these letters")
    parser.add_argument("--limits", nargs="?", const="", metavar="LETTERS",
                        help="in place of tries, runs guests that go to each limit of memory, or those told with these "
                             "letters, without a limit of addresses (some take 4 GiB) and with 1 GiB")
    parser.add_argument("--refusals", action="store_true",
                        help="in place of tries, refuses each request for memory of three runs once (this needs cc)")
    parser.add_argument("--program", type=Path, default=PROGRAM, help="the program (the one that is built here)")
    given = parser.parse_args(words)
    if min(given.tries, given.first) < 0 or given.jobs < 1:
        parser.error("a number is too small")
    given.program = given.program.resolve()
    if not given.program.is_file():
        parser.error(f"there is no program {given.program}: ./dettrace build makes it")
    if given.seed is None:
        given.seed = random.SystemRandom().getrandbits(32)
    return given


def make_tries(given: argparse.Namespace, tally: Tally) -> None:
    """Makes the tries, so many at a time, and tells each that failed."""
    maker, end = Maker(given.seed), time.monotonic() + given.seconds
    numbers = iter(range(given.first, given.first + given.tries))
    running: Set["Future[Result]"] = set()
    with ThreadPoolExecutor(given.jobs) as pool:
        while True:
            while len(running) < given.jobs and time.monotonic() < end:
                number = next(numbers, None)
                if number is None:
                    break
                running.add(pool.submit(attempt, given.program, maker, number))
            if not running:
                return
            done, running = wait(running, return_when=FIRST_COMPLETED)
            for future in done:
                take(given, tally, future.result())


def take(given: argparse.Namespace, tally: Tally, result: Result) -> None:
    tally.add(result)
    if result.faults:
        place = keep(given.keep, given.program, given.seed, result)
        told = "; ".join(result.faults)
        print(f"try {result.number} ({result.tried.kind}) failed, kept in {place}: {told}", flush=True)
    if tally.total() % 1000 == 0:
        print(f"{tally.total()} tries, {tally.failed} failed", flush=True)


def measure(given: argparse.Namespace) -> int:
    """Prints what calls cost, or what runs take of memory; 1 where one of these ends as none may."""
    status = 0
    if given.costs is not None:
        for line in costs.lines(given.program, given.costs):
            print(line, flush=True)
    if given.limits is not None:
        for line, is_right in limits.lines(given.program, MEMORY, given.limits):
            print(line, flush=True)
            status = status if is_right else 1
    if given.refusals:
        for line, is_right in refusals.lines(given.program):
            print(line, flush=True)
            status = status if is_right else 1
    return status


def main(words: Optional[Sequence[str]] = None) -> int:
    """Runs the tool, and answers its exit status."""
    given = read_words(words)
    if given.costs is not None or given.limits is not None or given.refusals:
        return measure(given)
    print(f"seed {given.seed}", flush=True)
    tally, start = Tally(), time.monotonic()
    make_tries(given, tally)
    for line in tally.lines():
        print(line)
    left = given.tries - tally.total()
    cut = f", {left} left out since time was over" if left else ""
    passed = time.monotonic() - start
    print(f"seed {given.seed}: {tally.total()} tries in {passed:.0f} seconds{cut}, {tally.failed} failed")
    return int(tally.failed > 0)


if __name__ == "__main__":
    sys.exit(main())
