"""Whether the program takes an image, and whether its blobs have the bytes that their names stand for."""
from __future__ import annotations

import hashlib
import re
from typing import Dict, List, Optional

from .errors import Damaged
from .index import FILE, Blob, Image, input_said, read_image
from .texts import counted, shown

# The name that packing gives a blob.
DIGEST = re.compile("[0-9a-f]{64}")


def checked(folder: str, input_name: Optional[str] = None) -> str:
    """What an image holds, and the input where one is named, in one line; Damaged where a blob's name is the digest of
    other bytes."""
    image = read_image(folder, input_name)
    reasons = damages(image)
    if reasons:
        raise Damaged(reasons)
    version = f", of version {image.version}" if image.version > 1 else ""
    more = f"; the input has {counted(image.input.size, 'byte', 'bytes')}" if image.input else ""
    return f"{shown(folder)} is good{version}: {image.summary()}{more}"


def damages(image: Image) -> List[str]:
    """What is wrong with the bytes of blobs, each told of the first entry in image.json that has it, or else of the
    input."""
    first: Dict[Blob, str] = {}
    for entry in sorted(image.entries, key=lambda entry: entry.number):
        if entry.type == FILE:
            first.setdefault(Blob(entry.blob, image.sizes[entry.blob]), entry.said(""))
    if image.input:
        first.setdefault(image.input, input_said(image.input.name, ""))
    return [place + reason for blob, place in first.items() for reason in damage(image, blob)]


def damage(image: Image, blob: Blob) -> List[str]:
    if not DIGEST.fullmatch(blob.name):
        return []
    digest = hashlib.sha256()
    for piece in image.store.pieces(blob.name, blob.size):
        digest.update(piece)
    if digest.hexdigest() == blob.name:
        return []
    return [f"the blob {blob.name} has bytes of another SHA-256, {digest.hexdigest()}"]
