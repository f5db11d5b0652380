"""An image's entries as `ls -l` would list them to the guest."""
from __future__ import annotations

import stat
from collections import Counter
from typing import List, NamedTuple

from .index import DEV, DEVICES, DIR, FILE, LINK, Entry, Image, parent_of
from .texts import shown

# The time of every node before anything changes: 2000-01-01 00:00:00 UTC.
STAMP = "Jan  1  2000"

DIRECTORY_SIZE = 4096

TYPE_BITS = {FILE: stat.S_IFREG, DIR: stat.S_IFDIR, LINK: stat.S_IFLNK, DEV: stat.S_IFCHR}


class Row(NamedTuple):
    """What is told of an entry. A device has its numbers in the place of a size."""

    mode: str
    names: str
    size: str
    path: str


def listed(image: Image) -> List[str]:
    """A line for each entry, with its columns aligned."""
    inner = Counter(parent_of(entry.path) for entry in image.entries if entry.type == DIR)
    rows = [row_of(image, entry, inner[entry.path]) for entry in image.entries]
    names = max((len(row.names) for row in rows), default=0)
    sizes = max((len(row.size) for row in rows), default=0)
    return [f"{row.mode} {row.names:>{names}} root root {row.size:>{sizes}} {STAMP} {row.path}" for row in rows]


def row_of(image: Image, entry: Entry, inner: int) -> Row:
    """The row of an entry, which has so many directories in it."""
    mode = stat.filemode(TYPE_BITS[entry.type] | entry.mode)
    if entry.type == DIR:
        return Row(mode, str(2 + inner), str(DIRECTORY_SIZE), shown(entry.path))
    if entry.type == LINK:
        size = len(entry.target.encode())
        return Row(mode, "1", str(size), f"{shown(entry.path)} -> {shown(entry.target)}")
    if entry.type == DEV:
        major, minor = DEVICES[entry.device]
        return Row(mode, "1", f"{major}, {minor}", shown(entry.path))
    return Row(mode, "1", str(image.sizes[entry.blob]), shown(entry.path))
