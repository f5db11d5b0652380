"""How a comparison is shown on a terminal: in colors, and through a pager."""
from __future__ import annotations

import contextlib
import os
import shutil
import signal
import subprocess
from typing import Iterator, List, Mapping, Optional

from .streams import Sink, Streams

RESET = b"\x1b[m"
BOLD, RED, GREEN, CYAN = (b"\x1b[%dm" % number for number in (1, 31, 32, 36))
# By the first byte of a line behind the two that name A and B.
COLORS = {b"-": RED, b"+": GREEN, b"@": CYAN}

# For less: it ends by itself where all fits, shows colors, and leaves the text on the screen.
LESS = "FRX"


def always_by_name(words: List[str]) -> List[str]:
    """The words with `--color=always` for `--color`, which takes no word behind it for its value."""
    end = words.index("--") if "--" in words else len(words)
    return ["--color=always" if word == "--color" else word for word in words[:end]] + words[end:]


def is_colored(when: str, streams: Streams, environment: Mapping[str, str]) -> bool:
    if when != "auto":
        return when == "always"
    return streams.is_terminal() and not environment.get("NO_COLOR") and environment.get("TERM") != "dumb"


class Painted(Sink):
    """A sink for whole lines, which shows those of a unified diff in colors, and what stands before it in bold."""

    def __init__(self, streams: Streams) -> None:
        super().__init__(streams)
        self.is_diff = False

    def write(self, data: bytes) -> None:
        for line in data.splitlines(keepends=True):
            text = line.rstrip(b"\n")
            self.is_diff = self.is_diff or text.startswith(b"@@")
            color = COLORS.get(text[:1], b"") if self.is_diff else BOLD
            super().write(color + text + RESET * bool(color) + line[len(text):])


def pager_of(environment: Mapping[str, str]) -> Optional[str]:
    """The command of the pager; None where there is to be none."""
    named = environment.get("PAGER", "less" if shutil.which("less", path=environment.get("PATH")) else "")
    return None if named in ("", "cat") or environment.get("TERM") == "dumb" else named


class Pager:
    """A pager that is started when the first bytes come. Whoever leaves it early has seen enough."""

    def __init__(self, command: str, environment: Mapping[str, str]) -> None:
        self.command, self.environment = command, {"LESS": LESS, **environment}
        self.process: Optional["subprocess.Popen[bytes]"] = None

    def write(self, data: bytes) -> int:
        if self.process is None:
            self.process = subprocess.Popen(["sh", "-c", self.command], stdin=subprocess.PIPE, env=self.environment,
                                            bufsize=0)
        assert self.process.stdin
        try:
            return os.write(self.process.stdin.fileno(), data)
        except BrokenPipeError:
            return len(data)

    def end(self) -> None:
        """Waits until it is left. An interrupt is the pager's till then."""
        if self.process is None:
            return
        before = signal.signal(signal.SIGINT, signal.SIG_IGN)
        try:
            self.process.communicate()
        finally:
            signal.signal(signal.SIGINT, before)


@contextlib.contextmanager
def paged(streams: Streams, environment: Mapping[str, str]) -> Iterator[Streams]:
    """Streams whose output goes through a pager where it would go to a terminal."""
    command = pager_of(environment) if streams.is_terminal() else None
    if command is None:
        yield streams
        return
    pager = Pager(command, environment)
    try:
        yield streams._replace(write=pager.write)
    finally:
        pager.end()
