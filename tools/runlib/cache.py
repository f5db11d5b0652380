"""The images of folders and archives that were packed. Each is kept under the digest of what was packed: for a folder
that of the index which packing it writes, for an archive that of its bytes. So what was packed once is found again."""
from __future__ import annotations

import contextlib
import hashlib
import os
import secrets
from typing import Callable, Dict, Hashable, Iterator, List, Mapping, NamedTuple, Optional

from imagelib.errors import ImageError, Outside, reason_of
from imagelib.folders import is_inside, remove, stops_held
from imagelib.index import FILE, INDEX, Blob, read_image
from imagelib.pack import Tree, judge, pack, text_with, tree_of
from imagelib.store import PIECE
from imagelib.texts import shown
from imagelib.tree import Excluded, Item, Problems, Unreadable

from .errors import RunError
from .signals import scratch
from .source import ARCHIVE

# Another name for each way of packing that gives another image of the same archive.
FOLDER_NAME = os.path.join("dettrace", "images")


class Packed(NamedTuple):
    """An image, and what packing it has said of it."""

    image: str
    notes: List[str]


def cache_folder(environment: Mapping[str, str]) -> str:
    """Where images are kept. A path that is not absolute counts for none, as the XDG specification has it."""
    top = environment.get("XDG_CACHE_HOME", "")
    if not os.path.isabs(top):
        top = os.path.join(environment.get("HOME") or os.path.expanduser("~"), ".cache")
    return os.path.join(top, FOLDER_NAME)


@contextlib.contextmanager
def packed(word: str, kind: str, version: int, environment: Mapping[str, str],
           show: Callable[[str], None]) -> Iterator[Packed]:
    """The image of a version of a folder or an archive, kept if it can be, and else there while the block runs. `show`
    is told what takes long."""
    folder = cache_folder(environment)
    if kind != ARCHIVE and is_inside(os.path.join(folder, INDEX), word):
        raise RunError(f"{shown(folder)}, where images are kept, lies inside {shown(word)}, which is packed: "
                       f"name another folder for them by XDG_CACHE_HOME")
    fault = folder_fault(folder)
    found = None if fault else kept(word, kind, version, folder)
    if found is None:
        show(f"packing {shown(word)}")
    if not fault:
        yield found or made(word, kind, version, folder)
        return
    with scratch() as other:
        image = os.path.join(other, "image")
        notes = pack(word, image, [], version)[:-1]
        yield Packed(image, notes + [f"{shown(folder)} keeps no images, so this one is not kept: {fault}"])


def folder_fault(folder: str) -> str:
    """Why images cannot be kept in a folder, which is made if need be; empty where they can."""
    try:
        os.makedirs(folder, mode=0o700, exist_ok=True)
    except OSError as error:
        return reason_of(error)
    return "" if os.access(folder, os.W_OK | os.X_OK) else "it may not be written"


def kept(word: str, kind: str, version: int, folder: str) -> Optional[Packed]:
    """The image that is kept in a folder, if it is."""
    key = archive_key(word, version) if kind == ARCHIVE else folder_key(word, version, folder)
    if key:
        place = os.path.join(folder, key)
        if is_whole(place):
            return Packed(place, [])
    return None


def archive_key(word: str, version: int) -> str:
    """The digest of an archive. Behind that of a later version's image stands the version."""
    digest = hashlib.sha256()
    try:
        with open(word, "rb") as file:
            for piece in iter(lambda: file.read(PIECE), b""):
                digest.update(piece)
    except OSError as error:
        raise RunError(f"{shown(word)} cannot be read: {reason_of(error)}") from error
    return digest.hexdigest() + (f".{version}" if version > 1 else "")


def folder_key(word: str, version: int, folder: str) -> Optional[str]:
    """The digest of the index that packing a folder writes; None where packing says why it cannot be packed."""
    problems = Problems()
    with contextlib.closing(tree_of(word, os.path.join(folder, "image"), Excluded([]), problems)) as tree:
        items = sorted(tree.items, key=lambda item: item.path)
        for item in items:
            judge(item, version, problems)
        if problems.reasons:
            return None
        try:
            return hashlib.sha256(text_with(items, blobs_of(tree, items), version).encode()).hexdigest()
        except Unreadable:
            return None


def blobs_of(tree: Tree, items: List[Item]) -> Dict[bytes, Blob]:
    """The blobs of files by their paths. A file that has several names is read once."""
    known: Dict[Hashable, Blob] = {}
    blobs: Dict[bytes, Blob] = {}
    for item in items:
        if item.kind == FILE:
            if item.shared not in known:
                known[item.shared] = blob_of(tree, item)
            blobs[item.path] = known[item.shared]
    return blobs


def blob_of(tree: Tree, item: Item) -> Blob:
    digest, size = hashlib.sha256(), 0
    with contextlib.closing(tree.pieces(item)) as pieces:
        for piece in pieces:
            digest.update(piece)
            size += len(piece)
    return Blob(digest.hexdigest(), size)


def is_whole(place: str) -> bool:
    """Whether an image is kept here. One that has lost a part is taken away."""
    if not os.path.lexists(place):
        return False
    try:
        read_image(place)
        return True
    except ImageError:
        remove(place)
        return False


def made(word: str, kind: str, version: int, folder: str) -> Packed:
    """Packs, and puts the image where it is kept."""
    new = os.path.join(folder, f".{secrets.token_hex(8)}.new")
    before = archive_key(word, version) if kind == ARCHIVE else ""
    try:
        notes = pack(word, new, [], version)[:-1]
        key = archive_key(word, version) if kind == ARCHIVE else index_key(new)
        if before and key != before:
            raise RunError(f"{shown(word)} was changed while it was packed: run it again")
        place = os.path.join(folder, key)
        put(new, place)
        return Packed(place, notes)
    finally:
        with stops_held():
            if os.path.lexists(new):
                remove(new)


def index_key(image: str) -> str:
    with open(os.path.join(image, INDEX), "rb") as index:
        return hashlib.sha256(index.read()).hexdigest()


def put(new: str, place: str) -> None:
    """Moves an image to its place. Another run may have put the same there meanwhile, which is as good."""
    try:
        os.rename(new, place)
    except OSError as error:
        if not is_whole(place):
            raise Outside(f"{shown(place)} cannot be made: {reason_of(error)}") from error
