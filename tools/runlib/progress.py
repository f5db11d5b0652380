"""A line on a terminal that says how far a run is. It goes before anything else is shown there, and at the end."""
from __future__ import annotations

import os
import time
from typing import Callable

from imagelib.texts import counted

# Seconds before the line first shows, and from one line to the next.
FIRST = 0.5
EVERY = 0.2

CLEAR = b"\r\x1b[K"


class Progress:
    """The line, where `is_shown`; `write` puts bytes on standard error."""

    def __init__(self, is_shown: bool, write: Callable[[bytes], object],
                 clock: Callable[[], float] = time.monotonic) -> None:
        self.is_shown = is_shown
        self.write = write
        self.clock = clock
        self.start = clock()
        self.next = self.start + FIRST
        self.is_there = False
        # Whether what was written to the terminal last ended its line. No line of another is written over.
        self.is_line_ended = True

    def tick(self, events: int, size: int) -> None:
        """Shows how far the run is, where it is time to."""
        now = self.clock()
        if now >= self.next:
            done = f"{counted(events, 'event', 'events')}, {counted(size, 'byte', 'bytes')}"
            self.show(f"{now - self.start:.1f} s, {done}")
            self.next = now + EVERY

    def show(self, text: str) -> None:
        if self.is_shown and self.is_line_ended:
            self.write(CLEAR + text.encode())
            self.is_there = True

    def hide(self) -> None:
        if self.is_there:
            self.write(CLEAR)
            self.is_there = False

    def wrote(self, descriptor: int, data: bytes) -> None:
        """Notes what came onto the terminal from elsewhere."""
        if self.is_shown and data and os.isatty(descriptor):
            self.is_line_ended = data.endswith(b"\n")

    def end_line(self) -> None:
        """Makes the next thing that is said begin a line."""
        self.hide()
        if self.is_shown and not self.is_line_ended:
            self.write(b"\n")
            self.is_line_ended = True
