"""The files of an image's folder, read as the program reads them.

A name that leads nowhere is no file; whatever else stands in the way is a store fault. Links are followed."""
from __future__ import annotations

import os
import re
import stat
from typing import Iterator, Optional

from .errors import StoreFault, reason_of
from .texts import quoted

PIECE = 65536


class Store:
    """A folder whose files are told by their names."""

    def __init__(self, folder: str) -> None:
        self.folder = folder

    def is_there(self) -> bool:
        """Whether anything stands at the folder's path."""
        return os.path.lexists(self.folder)

    def has(self, pattern: "re.Pattern[str]") -> bool:
        """Whether a name in the folder is of a pattern."""
        try:
            return any(pattern.fullmatch(name) for name in os.listdir(self.folder))
        except OSError:
            return False

    def path(self, name: str) -> str:
        """The program's name of a file; a join of paths would leave out the `/` after a folder `a/`."""
        return f"{self.folder}/{name}"

    def fault(self, name: str, reason: str) -> StoreFault:
        return StoreFault(f"{quoted(self.path(name))}: {reason}")

    def size(self, name: str) -> Optional[int]:
        """The bytes of a file; None where there is none."""
        try:
            found = os.stat(self.path(name))
        except FileNotFoundError:
            return None
        except OSError as error:
            raise self.fault(name, reason_of(error)) from error
        if stat.S_ISDIR(found.st_mode):
            raise self.fault(name, "a folder, and no file")
        if not stat.S_ISREG(found.st_mode):
            raise self.fault(name, "no file that can be read from its start")
        return found.st_size

    def pieces(self, name: str, size: int) -> Iterator[bytes]:
        """The first `size` bytes of a file, piece by piece. Of an empty file nothing is read, so it isn't opened."""
        if size == 0:
            return
        file = self.opened(name)
        try:
            done = 0
            while done < size:
                piece = self.piece(file, name, done, min(PIECE, size - done))
                done += len(piece)
                yield piece
        finally:
            os.close(file)

    def look(self, name: str, size: int) -> None:
        """A store fault where the file's last byte, at that size, cannot be read."""
        if size > 0:
            file = self.opened(name)
            try:
                self.piece(file, name, size - 1, 1)
            finally:
                os.close(file)

    def opened(self, name: str) -> int:
        try:
            return os.open(self.path(name), os.O_RDONLY)
        except OSError as error:
            raise self.fault(name, reason_of(error)) from error

    def piece(self, file: int, name: str, at: int, size: int) -> bytes:
        try:
            piece = os.pread(file, size, at)
        except OSError as error:
            raise self.fault(name, reason_of(error)) from error
        if not piece:
            raise self.fault(name, "the file ends before the size that was told of it")
        return piece
