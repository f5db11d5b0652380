"""The tree of an image, made as a tar archive."""
from __future__ import annotations

import io
import tarfile
from typing import List

from .errors import Outside
from .folders import file_made_whole, free_place, is_inside, stop_if_asked
from .index import DEV, DEVICES, DIR, FILE, LINK, Entry, Image, read_image
from .texts import quoted

TYPES = {FILE: tarfile.REGTYPE, DIR: tarfile.DIRTYPE, LINK: tarfile.SYMTYPE, DEV: tarfile.CHRTYPE}

# 2000-01-01 00:00:00 UTC, the time of every node before anything changes.
STAMP = 946_684_800

OWNER = "root"


def unpack_archive(image_word: str, archive_word: str) -> List[str]:
    """Makes an archive with an image's tree. The same tree gives the same bytes."""
    image = read_image(image_word)
    place = free_place(archive_word, "ARCHIVE", "file")
    if is_inside(place, image_word):
        raise Outside(f"{quoted(place)} lies inside {quoted(image_word)}, which is only read: name another file")
    with file_made_whole(place) as file:
        with tarfile.open(fileobj=file, mode="w", format=tarfile.GNU_FORMAT, encoding="utf-8") as archive:
            for entry in image.entries:
                stop_if_asked()
                archive.addfile(member_of(image, entry), io.BytesIO(bytes_of(image, entry)))
    return []


def member_of(image: Image, entry: Entry) -> tarfile.TarInfo:
    member = tarfile.TarInfo(entry.path[1:])
    member.type = TYPES[entry.type]
    member.mode, member.mtime = entry.mode, STAMP
    member.uname = member.gname = OWNER
    member.linkname = entry.target
    if entry.type == FILE:
        member.size = image.sizes[entry.blob]
    if entry.type == DEV:
        member.devmajor, member.devminor = DEVICES[entry.device]
    return member


def bytes_of(image: Image, entry: Entry) -> bytes:
    """The bytes of a file; none of what is no file."""
    return b"".join(image.store.pieces(entry.blob, image.sizes[entry.blob])) if entry.type == FILE else b""
