"""The steps of a build: a call of rt for each crate, each once those below it are done."""
from __future__ import annotations

import contextlib
import os
import signal
import subprocess
import tempfile
import time
from pathlib import Path
from typing import IO, Callable, Dict, Iterator, List, NamedTuple, Optional, Set

from .crates import PROGRAM

PAUSE = 0.1
# So long may what was started take to end by itself, once it is told to.
GRACE = 10.0


class Failed(Exception):
    """A crate that could not be proved or built, and what rt said of it."""

    def __init__(self, crate: str, said: bytes) -> None:
        super().__init__(crate)
        self.crate, self.said = crate, said


class Interrupted(Exception):
    """Somebody has asked for an end."""


class Step(NamedTuple):
    """A call of rt that runs. Its log has no name, so nothing of it can be left over."""

    crate: str
    process: "subprocess.Popen[bytes]"
    log: IO[bytes]


def words_of(crate: str, top: Path, jobs: int) -> List[str]:
    """The call that proves and builds a crate. Where several run at a time, each takes one processor."""
    flags = ["--jobs", "1"] if jobs > 1 else []
    if crate == PROGRAM:
        return ["rt", "run", *flags, "--", "run", str(top / "examples" / "hello"), "--", "/hello"]
    return ["rt", "lib", *flags]


def started(crate: str, top: Path, jobs: int) -> Step:
    log = tempfile.TemporaryFile()
    process = subprocess.Popen(words_of(crate, top, jobs), cwd=top / "crates" / crate, stdin=subprocess.DEVNULL,
                               stdout=log, stderr=subprocess.STDOUT, start_new_session=True)
    return Step(crate, process, log)


def end(steps: List[Step]) -> None:
    """Ends the calls that run, and what each has started, which is in its group."""
    for number, seconds in ((signal.SIGTERM, GRACE), (signal.SIGKILL, GRACE)):
        for step in steps:
            with contextlib.suppress(ProcessLookupError):
                os.killpg(step.process.pid, number)
        until = time.monotonic() + seconds
        for step in steps:
            with contextlib.suppress(subprocess.TimeoutExpired):
                step.process.wait(max(until - time.monotonic(), 0))


class Build:
    """A build of crates: which are done, and which calls run."""

    def __init__(self, top: Path, needs: Dict[str, List[str]], jobs: int) -> None:
        self.top, self.needs, self.jobs = top, needs, jobs
        self.waiting: List[str] = list(needs)
        self.running: List[Step] = []
        self.done: Set[str] = set()
        self.is_stopped = False

    def stop(self, *_: object) -> None:
        """What a signal does. It only makes a note, so that it comes between nothing."""
        self.is_stopped = True

    def left(self) -> int:
        """How many crates are neither done nor being proved."""
        return len(self.waiting)

    def next(self) -> Optional[str]:
        """The first crate that waits for no other."""
        return next((crate for crate in self.waiting if self.done.issuperset(self.needs[crate])), None)

    def start_some(self) -> Iterator[str]:
        """Starts as many calls as may run, and answers their crates."""
        while len(self.running) < self.jobs:
            crate = self.next()
            if crate is None:
                return
            self.running.append(started(crate, self.top, self.jobs))
            self.waiting.remove(crate)
            yield crate

    def collect(self) -> None:
        """Notes which calls have ended well; Failed at the first that has not."""
        for step in [step for step in self.running if step.process.poll() is not None]:
            self.running.remove(step)
            if step.process.returncode:
                step.log.seek(0)
                raise Failed(step.crate, step.log.read())
            step.log.close()
            self.done.add(step.crate)

    def run(self, on_start: Callable[[str], None], on_pause: Callable[[], None]) -> None:
        """Builds all of them. However it ends, nothing that it started goes on."""
        try:
            while self.waiting or self.running:
                if self.is_stopped:
                    raise Interrupted
                for crate in self.start_some():
                    on_start(crate)
                on_pause()
                time.sleep(PAUSE)
                self.collect()
        finally:
            end(self.running)
