"""The signals that people stop a program with: each ends this tool in one way, and what it has made is put away."""
from __future__ import annotations

import contextlib
import shutil
import signal
import tempfile
from typing import Iterator

from imagelib.folders import STOPS, stops_held


class Stopped(BaseException):
    """Such a signal has come."""

    def __init__(self, number: int) -> None:
        super().__init__(number)
        self.number = number


def stop(number: int, _: object) -> None:
    """Ends what is done. A second signal is not to end the tool while it puts things away."""
    for other in STOPS:
        signal.signal(other, signal.SIG_IGN)
    raise Stopped(number)


def stop_on_signals() -> None:
    """Lets each signal end the tool so; one that is ignored stays so."""
    for number in STOPS:
        if signal.getsignal(number) is not signal.SIG_IGN:
            signal.signal(number, stop)


def let_stops() -> None:
    """Lets the signals come that were held back."""
    signal.pthread_sigmask(signal.SIG_UNBLOCK, STOPS)


@contextlib.contextmanager
def stops_let() -> Iterator[None]:
    """Lets them come while a block runs, around which they are held back: so they come there, or not at all."""
    try:
        let_stops()
        yield
    finally:
        signal.pthread_sigmask(signal.SIG_BLOCK, STOPS)


@contextlib.contextmanager
def scratch() -> Iterator[str]:
    """A folder that is there while the block runs."""
    with stops_held():
        folder = tempfile.mkdtemp(prefix="dettrace-run-")
        try:
            with stops_let():
                yield folder
        finally:
            shutil.rmtree(folder, ignore_errors=True)
