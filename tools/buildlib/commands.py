"""The words of tools/build, and what it shows meanwhile."""
from __future__ import annotations

import argparse
import os
import shutil
import signal
import subprocess
import sys
import time
from pathlib import Path
from typing import Optional, Sequence

from . import crates
from .steps import Build, Failed, Interrupted

TOP = Path(__file__).resolve().parent.parent.parent
NOT_BUILT = 125
INTERRUPTED = 130

NO_RT = "the command rt is missing: the kit of Rattle proves and builds this program (README.md says which)"
IS_BUILT = "the program is built already, and its sources have not changed since"


class Progress:
    """What is shown while crates are proved: a line for each, and on a terminal one that says how long it has taken."""

    def __init__(self, build: Build) -> None:
        self.build, self.start, self.is_terminal = build, time.monotonic(), sys.stderr.isatty()
        self.shown = ""

    def time(self) -> str:
        seconds = int(time.monotonic() - self.start)
        return f"{seconds // 3600}:{seconds // 60 % 60:02}:{seconds % 60:02}"

    def say(self, text: str) -> None:
        """A line that stays. What the line that changes has shown is wiped."""
        wiped = "\r\033[K" if self.shown else ""
        self.shown = ""
        print(f"{wiped}dettrace: {text}", file=sys.stderr, flush=True)

    def on_start(self, crate: str) -> None:
        self.say(f"{self.time()} proving {crate}, {self.build.left()} left")

    def on_pause(self) -> None:
        """The line that changes, once a second."""
        names = ", ".join(step.crate for step in self.build.running)
        text = f"dettrace: {self.time()} proving {names}, {self.build.left()} left"
        if self.is_terminal and text != self.shown:
            self.shown = text
            columns = shutil.get_terminal_size().columns
            print(f"\r\033[K{text[:columns - 1]}", end="", file=sys.stderr, flush=True)


def parser() -> argparse.ArgumentParser:
    words = argparse.ArgumentParser(
        prog="dettrace build", allow_abbrev=False,
        description="Proves and builds the program, which takes an hour or more the first time. Later only what has "
                    "changed is proved. It ends with 0 where the program is built, with 130 where it was "
                    "interrupted, and else with 125.")
    words.add_argument("-j", metavar="N", type=number, default=1, dest="jobs",
                       help="so many crates at a time, each on one processor, and up to 2 GB of memory; without it one "
                            "at a time, on as many processors as rt chooses")
    return words


def number(word: str) -> int:
    if not word.isdecimal() or int(word) < 1:
        raise argparse.ArgumentTypeError(f"{word!r} is no number from 1 on")
    return int(word)


def sources(word: str) -> int:
    return subprocess.run([str(TOP / "tools" / "sources"), word], check=False).returncode


def is_built() -> bool:
    program = TOP / "crates" / "dettrace" / "out" / "dettrace"
    return os.access(program, os.X_OK) and sources("changed") == 1


def built(progress: Progress) -> int:
    """Builds the program, and answers the status."""
    try:
        progress.build.run(progress.on_start, progress.on_pause)
    except Failed as failed:
        sys.stderr.buffer.write(failed.said)
        progress.say(f"{progress.time()} {failed.crate} could not be proved or built, for the reason above")
        return NOT_BUILT
    except Interrupted:
        progress.say(f"{progress.time()} interrupted; what was proved is kept")
        return INTERRUPTED
    if sources("note"):
        progress.say("rt has made no program")
        return NOT_BUILT
    progress.say(f"{progress.time()} built")
    return 0


def main(words: Optional[Sequence[str]] = None) -> int:
    jobs: int = parser().parse_args(words).jobs
    build = Build(TOP, crates.read(TOP), jobs)
    for stop in (signal.SIGINT, signal.SIGTERM, signal.SIGHUP):
        if signal.getsignal(stop) is not signal.SIG_IGN:
            signal.signal(stop, build.stop)
    if is_built():
        print(f"dettrace: {IS_BUILT}", file=sys.stderr)
        return 0
    if not shutil.which("rt"):
        print(f"dettrace: {NO_RT}", file=sys.stderr)
        return NOT_BUILT
    return built(Progress(build))
