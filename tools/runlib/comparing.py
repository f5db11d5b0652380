"""Several runs of one thing: under other hosts and with other numbers of workers the reports are to be equal."""
from __future__ import annotations

import filecmp
import functools
from typing import Dict, Iterator, List

from reportlib.differences import diff
from reportlib.streams import STANDARD, Refusal, Sink, Source, Streams

from .errors import RunError
from .outlets import write_all
from .words import HIGHEST

# How many workers the runs have, one after the other.
WORKERS = (1, 2, 4)


def variants(numbers: Dict[str, int], runs: int, has_workers: bool) -> Iterator[Dict[str, int]]:
    """The options of each run. The first has those that were given, where they were."""
    host = numbers.get("--host", 1)
    for at in range(runs):
        other = {**numbers, "--host": (host + at) % (HIGHEST + 1)}
        if has_workers and not (at == 0 and "--workers" in numbers):
            other["--workers"] = WORKERS[at % len(WORKERS)]
        yield other


def called(numbers: Dict[str, int]) -> str:
    """A run, by what only it has."""
    return " ".join(f"{name} {numbers[name]}" for name in ("--host", "--workers") if name in numbers)


def are_equal(first: str, second: str) -> bool:
    return filecmp.cmp(first, second, shallow=False)


def show_difference(paths: List[str], names: List[str]) -> None:
    """Writes on standard error what differs first, as tools/report diff does."""
    write = functools.partial(write_some, 2)
    streams = Streams(STANDARD.read, write, write)
    try:
        with Source(paths[0], streams) as first, Source(paths[1], streams) as second:
            first.name, second.name = names
            diff(first, second, Sink(streams))
    except Refusal as error:
        raise RunError(str(error)) from error


def write_some(descriptor: int, data: bytes) -> int:
    """Writes all, unless nobody can be told."""
    try:
        write_all(descriptor, data)
    except OSError:
        pass
    return len(data)


def told_equal(tried: List[Dict[str, int]]) -> str:
    hosts = f"--host {tried[0]['--host']} to {tried[-1]['--host']}"
    workers = sorted({numbers["--workers"] for numbers in tried if "--workers" in numbers})
    more = f" and --workers {', '.join(map(str, workers))}" if workers else ""
    return f"equal: {len(tried)} runs with {hosts}{more} gave one report"
