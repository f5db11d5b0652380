"""Standard output and standard error of this tool, which get what the guest writes as soon as it comes."""
from __future__ import annotations

import os
import select
from typing import Dict, Optional

from imagelib.errors import reason_of

from .errors import RunError
from .progress import Progress

NAMES = {1: "standard output", 2: "standard error"}


class Outlets:
    """The two streams. What cannot be written is dropped from then on, and remembered."""

    def __init__(self, progress: Progress) -> None:
        self.progress = progress
        self.failed: Dict[int, OSError] = {}

    def write(self, stream: int, data: bytes) -> None:
        """Writes all of it, unless an earlier write has failed."""
        if stream in self.failed:
            return
        self.progress.hide()
        self.progress.wrote(stream, data)
        try:
            write_all(stream, data)
        except OSError as error:
            self.failed[stream] = error

    def fault(self) -> Optional[RunError]:
        """What is said at the end where something was dropped. Nothing is, where a reader has gone."""
        for stream, error in sorted(self.failed.items()):
            if isinstance(error, BrokenPipeError):
                return RunError()
            return RunError(f"{NAMES[stream]} cannot be written: {reason_of(error)}")
        return None


def write_all(descriptor: int, data: bytes) -> None:
    rest = memoryview(data)
    while rest:
        try:
            rest = rest[os.write(descriptor, rest):]
        except BlockingIOError:
            # Whoever started this tool has set the stream so that it does not wait.
            select.select([], [descriptor], [])


def open_all() -> bool:
    """Whether standard output is open. Each of the first three descriptors is filled: else a file takes its place."""
    was_open = True
    for descriptor in range(3):
        try:
            os.fstat(descriptor)
        except OSError:
            os.open(os.devnull, os.O_RDWR)
            was_open = was_open and descriptor != 1
    return was_open
