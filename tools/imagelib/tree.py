"""What is to be packed: the items of a folder, and what the items of any source have in common."""
from __future__ import annotations

import fnmatch
import os
import re
import stat
from tarfile import TarInfo
from typing import Dict, Hashable, Iterator, List, NamedTuple, Optional, Sequence, Set, Tuple

from .errors import Outside, reason_of
from .folders import opened
from .index import DEV, DEVICES, DIR, FILE, LINK
from .store import PIECE
from .texts import quoted

MODE_BITS = 0o7777

# The major and the minor number of a device.
Numbers = Tuple[int, int]

# Neither a link that took a file's place nor a FIFO that did is to be followed or waited for.
OPEN_FILE = os.O_RDONLY | os.O_NOFOLLOW | os.O_NONBLOCK | os.O_NOCTTY


class Unreadable(Exception):
    """A file of a folder that cannot be read, and why."""


class Item(NamedTuple):
    """What stands at a path: `kind` is the type of an entry, or names what no entry can be.

    Items of one file have one value in `shared`; `member` is the archive's member with a file's bytes, and `device` the
    name of a device."""

    path: bytes
    kind: str
    mode: int
    size: int = 0
    target: bytes = b""
    shared: Hashable = b""
    member: Optional[TarInfo] = None
    device: str = ""


class Problems:
    """What an image cannot hold, by path, and why."""

    def __init__(self) -> None:
        self.reasons: Dict[bytes, List[str]] = {}

    def add(self, path: bytes, reason: str) -> None:
        self.reasons.setdefault(path, []).append(reason)

    def lines(self) -> List[str]:
        return [f"{quoted(path)}: {'; '.join(self.reasons[path])}" for path in sorted(self.reasons)]


class Excluded:
    """The patterns of what is left out."""

    def __init__(self, patterns: Sequence[str]) -> None:
        self.patterns = [text_of(os.fsencode(pattern)) for pattern in patterns]
        self.used: Set[str] = set()

    def has(self, path: bytes) -> bool:
        """Whether a path itself is left out."""
        found = [pattern for pattern in self.patterns if matches(text_of(path), pattern)]
        self.used.update(found)
        return bool(found)

    def has_within(self, path: bytes) -> bool:
        """Whether a path or a directory around it is left out."""
        return any(self.has(path[:end]) for end in ends_of(path))

    def unused(self) -> List[str]:
        """The patterns that have left nothing out."""
        return [pattern for pattern in self.patterns if pattern not in self.used]


def matches(path: str, pattern: str) -> bool:
    """Whether a pattern is that of a path, where it has a `/`, or else of the path's last name."""
    if "/" in pattern:
        return fnmatch.fnmatchcase(path, "/" + re.sub(r"^(\./|/)+", "", pattern).rstrip("/"))
    return fnmatch.fnmatchcase(path.rpartition("/")[2], pattern)


def text_of(name: bytes) -> str:
    return name.decode("utf-8", "surrogateescape")


def ends_of(path: bytes) -> List[int]:
    """Where each name of a path ends."""
    return [at for at, byte in enumerate(path) if byte == ord("/") and at > 0] + [len(path)]


def parent_of(path: bytes) -> bytes:
    return path.rpartition(b"/")[0]


class FolderTree:
    """The items of a folder."""

    def __init__(self, word: str, excluded: Excluded, problems: Problems) -> None:
        try:
            self.top = os.open(word, os.O_RDONLY | os.O_DIRECTORY)
        except OSError as error:
            raise Outside(f"{quoted(word)} cannot be read: {reason_of(error)}") from error
        self.items: List[Item] = []
        waiting = [b""]
        while waiting:
            found = list(self.items_in(waiting.pop(), excluded, problems))
            self.items += found
            waiting += [item.path for item in found if item.kind == DIR]

    def close(self) -> None:
        os.close(self.top)

    def items_in(self, path: bytes, excluded: Excluded, problems: Problems) -> Iterator[Item]:
        """The items of one directory; problems are noted."""
        try:
            with opened(self.top, path) as folder:
                for name in map(os.fsencode, os.listdir(folder)):
                    inner = path + b"/" + name
                    if excluded.has(inner):
                        continue
                    try:
                        yield item_at(folder, name, inner)
                    except OSError as error:
                        problems.add(inner, cannot_be_read(error))
        except OSError as error:
            problems.add(path or b"/", cannot_be_read(error))

    def in_order(self, items: List[Item]) -> List[Item]:
        """Items in the order in which they are best read."""
        return items

    def look(self, item: Item) -> None:
        """Unreadable where a file cannot be read."""
        os.close(self.opened(item))

    def pieces(self, item: Item) -> Iterator[bytes]:
        """The bytes of a file."""
        file = self.opened(item)
        try:
            while True:
                try:
                    piece = os.read(file, PIECE)
                except OSError as error:
                    raise Unreadable(cannot_be_read(error)) from error
                if not piece:
                    return
                yield piece
        finally:
            os.close(file)

    def opened(self, item: Item) -> int:
        try:
            with opened(self.top, parent_of(item.path)) as folder:
                file = os.open(item.path.rpartition(b"/")[2], OPEN_FILE, dir_fd=folder)
        except OSError as error:
            raise Unreadable(cannot_be_read(error)) from error
        if not stat.S_ISREG(os.fstat(file).st_mode):
            os.close(file)
            raise Unreadable("something else has taken its place while it was packed")
        return file


def cannot_be_read(error: OSError) -> str:
    return f"it cannot be read: {reason_of(error)}"


def item_at(folder: int, name: bytes, path: bytes) -> Item:
    """The item of that name in an open folder."""
    found = os.stat(name, dir_fd=folder, follow_symlinks=False)
    numbers = os.major(found.st_rdev), os.minor(found.st_rdev)
    kind = kind_of(found.st_mode, numbers)
    target = os.readlink(name, dir_fd=folder) if kind == LINK else b""
    # Not every system gives files with one name numbers of their own.
    shared = (found.st_dev, found.st_ino) if kind != DIR and found.st_nlink > 1 else path
    device = device_of(numbers) if kind == DEV else ""
    return Item(path, kind, found.st_mode & MODE_BITS, found.st_size, target, shared, device=device)


def device_of(numbers: Numbers) -> str:
    """The name of the character device with these numbers; empty where images have none with them."""
    return next((name for name, found in DEVICES.items() if found == numbers), "")


def character_kind(numbers: Numbers) -> str:
    """The type of an entry for a character device, or what no entry can be."""
    return DEV if device_of(numbers) else f"the character device {numbers[0]}:{numbers[1]}"


def kind_of(mode: int, numbers: Numbers) -> str:
    """The type of an entry, or what no entry can be. The numbers count for devices alone."""
    if stat.S_ISCHR(mode):
        return character_kind(numbers)
    for test, kind in (
        (stat.S_ISREG, FILE),
        (stat.S_ISDIR, DIR),
        (stat.S_ISLNK, LINK),
        (stat.S_ISFIFO, "a FIFO"),
        (stat.S_ISSOCK, "a socket"),
        (stat.S_ISBLK, f"the block device {numbers[0]}:{numbers[1]}"),
    ):
        if test(mode):
            return kind
    return "neither a file, a directory nor a symbolic link"
