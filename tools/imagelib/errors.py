"""What ends a command of tools/image: the lines that are said then, and the exit status."""
from __future__ import annotations

import os
from typing import List, NamedTuple

from .texts import shown

# So many lines are said of one refusal.
REASONS_SAID = 20


class ImageError(Exception):
    """Ends the command with these lines on standard error, each behind the tool's name."""

    status = 2

    def __init__(self, *lines: str) -> None:
        super().__init__(*lines)
        self.lines: List[str] = list(lines)


class Outside(ImageError):
    """The tool was used wrongly, or something that it stands on failed."""


class CannotHold(ImageError):
    """What was to be packed cannot be held by an image."""

    status = 1


class Damaged(ImageError):
    """Blobs have other bytes than their names say. The program does not look, and would run."""

    status = 1

    def __init__(self, reasons: List[str]) -> None:
        super().__init__(*(f"damaged: {reason}" for reason in said_of(reasons)))


class StoreFault(ImageError):
    """The image's folder could not be read: the program ends with status 4."""

    status = 1

    def __init__(self, reason: str) -> None:
        super().__init__(f"store fault: {reason}")


class Kind(NamedTuple):
    """Why the program refuses an image: its number K and its name."""

    number: int
    name: str


NO_INDEX = Kind(1, "NoIndex")
BAD_INDEX = Kind(2, "BadIndex")
BAD_PATH = Kind(3, "BadPath")
TWICE = Kind(4, "Twice")
NO_PARENT = Kind(5, "NoParent")
NO_BLOB = Kind(6, "NoBlob")
TOO_BIG = Kind(7, "TooBig")
TOO_MANY = Kind(8, "TooMany")
NO_INPUT = Kind(9, "NoInput")
INPUT_BIG = Kind(10, "InputBig")


class Refused(ImageError):
    """The image is refused: the program ends with status 3."""

    status = 1

    def __init__(self, kind: Kind, reasons: List[str]) -> None:
        super().__init__(*(f"refused: {kind.number} {kind.name}: {reason}" for reason in said_of(reasons)))
        self.kind = kind


def said_of(reasons: List[str]) -> List[str]:
    """The reasons that are said, and how many more there are."""
    said = reasons[:REASONS_SAID]
    return said + [f"and {len(reasons) - len(said)} more"] if len(reasons) > len(said) else said


def reason_of(error: OSError) -> str:
    """The system's words for an error, without a name: that is said by whoever knows the whole path."""
    return error.strerror or (os.strerror(error.errno) if error.errno else shown(str(error)))
