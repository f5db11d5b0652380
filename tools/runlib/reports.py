"""A report as it comes: the guest's output goes on at once, and the report is kept where that is asked for."""
from __future__ import annotations

import contextlib
import os
import secrets
from typing import Callable, Iterator, List, Optional, Sequence

from imagelib.errors import reason_of
from imagelib.folders import stops_held
from imagelib.texts import shown
from reportlib.reader import Exit, NotReport, Output, Reader

from .errors import RunError
from .outlets import write_all
from .signals import stops_let


class Kept:
    """The file of a report: one with another name until the report is whole, or what is no file, written as it is."""

    def __init__(self, name: str, descriptor: int, part: str = "") -> None:
        self.name, self.descriptor, self.part = name, descriptor, part

    def write(self, data: bytes) -> None:
        try:
            write_all(self.descriptor, data)
        except OSError as error:
            raise self.fault(error) from error

    def finish(self) -> None:
        """Gives the file its name."""
        if self.part:
            try:
                os.replace(self.part, os.path.realpath(self.name))
            except OSError as error:
                raise self.fault(error) from error

    def fault(self, error: OSError) -> RunError:
        return RunError(f"the report {shown(self.name)} cannot be written: {reason_of(error)}")


@contextlib.contextmanager
def kept_report(name: str) -> Iterator[Kept]:
    """The file that keeps a report. What has the name stays as it is, unless the report is whole."""
    # A name such as /dev/fd/3 may be a pipe's, and leads to no path.
    is_file = os.path.isfile(name) or not os.path.exists(name)
    part = f"{os.path.realpath(name)}.{secrets.token_hex(4)}.part" if is_file else ""
    flags = os.O_WRONLY | (os.O_CREAT | os.O_EXCL if is_file else os.O_NOCTTY)
    with stops_held():
        try:
            if not is_file:
                # It may be a pipe that nobody reads yet.
                with stops_let():
                    descriptor = os.open(name, flags)
            else:
                descriptor = os.open(part, flags, 0o666)
        except OSError as error:
            raise Kept(name, -1).fault(error) from error
        try:
            with stops_let():
                yield Kept(name, descriptor, part)
        finally:
            os.close(descriptor)
            if part and os.path.lexists(part):
                os.unlink(part)


class Report:
    """What of a report has come. `show` gets the bytes of the guest's streams, `keeps` are the files that get all."""

    def __init__(self, show: Callable[[int, bytes], None], keeps: Sequence[Kept]) -> None:
        self.reader = Reader()
        self.show, self.keeps = show, keeps
        self.first_end: Optional[Exit] = None

    def take(self, block: bytes) -> None:
        """Takes what has come next. Outputs to one stream that came together are written together."""
        for kept in self.keeps:
            kept.write(block)
        stream, pieces = 0, []
        try:
            for item in self.reader.feed(block):
                if isinstance(item, Output):
                    if item.stream != stream:
                        self.show_pieces(stream, pieces)
                        stream, pieces = item.stream, []
                    pieces.append(item.data)
                elif isinstance(item, Exit) and item.pid == 1:
                    self.first_end = item
        except NotReport as error:
            self.show_pieces(stream, pieces)
            raise RunError(f"what dettrace wrote is no report: {error}") from error
        self.show_pieces(stream, pieces)

    def show_pieces(self, stream: int, pieces: List[bytes]) -> None:
        if any(pieces):
            self.show(stream, b"".join(pieces))
