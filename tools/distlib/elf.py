"""Which version of the C library a program needs: the greatest of its symbols' versions."""
from __future__ import annotations

import re
import struct
from typing import Iterator, List, NamedTuple, Tuple

NEEDED_VERSIONS = 0x6FFFFFFE
LITTLE_64 = b"\x7fELF\x02\x01"
LIBRARY = re.compile(r"GLIBC_(\d+(?:\.\d+)*)")


class NotElf(Exception):
    """The file is no program of the kind that is read here."""


class Section(NamedTuple):
    """A section: its type, where its bytes lie, how many there are, the section it goes with, and a count."""

    kind: int
    offset: int
    size: int
    link: int
    info: int


def sections(data: bytes) -> List[Section]:
    if data[:6] != LITTLE_64:
        raise NotElf("no ELF file of 64 bits, the lowest byte first")
    try:
        (start,) = struct.unpack_from("<Q", data, 40)
        size, count = struct.unpack_from("<HH", data, 58)
        rows = [struct.unpack_from("<IIQQQQII", data, start + size * number) for number in range(count)]
    except struct.error as error:
        raise NotElf("an ELF file that is cut") from error
    return [Section(row[1], row[4], row[5], row[6], row[7]) for row in rows]


def text_at(data: bytes, offset: int) -> str:
    return data[offset:data.index(b"\0", offset)].decode("ascii", "replace")


def versions(data: bytes) -> Iterator[str]:
    """The names of the versions that the program's symbols need, of all libraries."""
    all_sections = sections(data)
    for section in all_sections:
        if section.kind == NEEDED_VERSIONS:
            texts = all_sections[section.link].offset
            yield from (text_at(data, texts + name) for name in names(data, section))


def names(data: bytes, section: Section) -> Iterator[int]:
    """Where the names stand of a section that has a chain of libraries, each with a chain of versions."""
    at = section.offset
    for _ in range(section.info):
        _, count, _, first, following = struct.unpack_from("<HHIII", data, at)
        inner = at + first
        for _ in range(count):
            name, after = struct.unpack_from("<II", data, inner + 8)
            yield name
            inner += after
        at += following


def number(version: str) -> Tuple[int, ...]:
    return tuple(int(part) for part in version.split("."))


def c_library(data: bytes) -> str:
    """The least version of the GNU C library that has all that the program needs; empty where it needs none."""
    found = [LIBRARY.fullmatch(name) for name in versions(data)]
    return max((match[1] for match in found if match), key=number, default="")
