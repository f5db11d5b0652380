"""An image made of a folder or of an archive."""
from __future__ import annotations

import contextlib
import hashlib
import os
import stat
from collections import Counter, defaultdict
from typing import Dict, Hashable, Iterable, List, NamedTuple, Sequence, Union

from .archive import ArchiveTree
from .errors import CannotHold, ImageError, Outside, reason_of
from .folders import free_place, is_inside, made_whole, stop_if_asked
from .index import CALLED, DIR, FILE, FILE_LIMITS, INDEX, INDEX_LIMIT, LINK, NAME_LIMIT, PATH_LIMIT, TYPES
from .index import Blob, Entry, index_text, read_image, summary, target_fault, too_many
from .texts import quoted, shown
from .tree import Excluded, FolderTree, Item, Problems, Unreadable, text_of

Tree = Union[FolderTree, ArchiveTree]

# A blob's name while its digest is not known. It has the length of all others, so that it also serves to measure.
NEW_BLOB = "0" * 64

# What is said of that which an image of version 1 cannot hold.
NEXT = " (--profile 2 takes it)"

NUMBERS = ("no", "one", "two", "three", "four", "five", "six", "seven", "eight", "nine")


def pack(source: str, image: str, patterns: Sequence[str], version: int = 1) -> List[str]:
    """Makes an image of a version of a folder or an archive, and answers what is to be said of it."""
    if os.path.lexists(image):
        raise Outside(taken(image.rstrip("/") or image))
    place = free_place(image, "IMAGE")
    problems = Problems()
    excluded = Excluded(patterns)
    with contextlib.closing(tree_of(source, place, excluded, problems)) as tree:
        items = sorted(tree.items, key=lambda item: item.path)
        for item in items:
            judge(item, version, problems)
        general = too_many(len(items)) + index_faults(items, version)
        if problems.reasons or general:
            look_at_files(tree, items, problems)
            raise CannotHold(*problems.lines(), *general)
        with made_whole(place) as folder:
            blobs = copy_files(tree, items, folder, FILE_LIMITS[version], problems)
            if problems.reasons:
                raise CannotHold(*problems.lines())
            with open(os.path.join(folder, INDEX), "wb") as index:
                index.write(text_with(items, blobs, version).encode())
    sizes = {blob.name: blob.size for blob in blobs.values()}
    notes = told_image(source) + hard_links(items)
    notes += [f"--exclude {quoted(pattern)} left nothing out" for pattern in excluded.unused()]
    return notes + [f"{shown(place)}: {summary(Counter(item.kind for item in items), sizes)}"]


def taken(place: str) -> str:
    """What is said of a place that is taken. Whoever names the two in the wrong order is not to remove the tree."""
    if os.path.lexists(os.path.join(place, INDEX)):
        return f"{quoted(place)} exists already: name another place, or remove that image first"
    return f"{quoted(place)} exists already, and is no image: what is packed is named first, and then the IMAGE to make"


def tree_of(source: str, place: str, excluded: Excluded, problems: Problems) -> Tree:
    """The tree of what is to be packed into an image at a place."""
    try:
        mode = os.stat(source).st_mode
    except OSError as error:
        raise Outside(f"{quoted(source)} cannot be read: {reason_of(error)}") from error
    if stat.S_ISDIR(mode):
        if is_inside(place, source):
            raise Outside(f"{quoted(place)} would lie inside {quoted(source)}, which is packed: name a place outside")
        return FolderTree(source, excluded, problems)
    if stat.S_ISREG(mode):
        return ArchiveTree(source, excluded, problems)
    raise Outside(f"{quoted(source)} is neither a folder nor a file with an archive")


# ---- what an image cannot hold


def judge(item: Item, version: int, problems: Problems) -> None:
    """Notes what an image of a version cannot hold of an item. A directory's name is a fault of its own, not of all
    below it."""
    name = item.path.rpartition(b"/")[2]
    if not is_text(name):
        problems.add(item.path, "its name is no UTF-8")
    if len(name) > NAME_LIMIT:
        problems.add(item.path, f"its name has {len(name)} bytes, more than {NAME_LIMIT}")
    if b"\0" in name:
        problems.add(item.path, "a NUL stands in its name")
    if len(item.path) > PATH_LIMIT:
        problems.add(item.path, f"its path has {len(item.path)} bytes, more than {PATH_LIMIT}")
    if item.kind not in CALLED:
        problems.add(item.path, f"{item.kind}, which an image cannot hold")
    elif item.kind not in TYPES[version]:
        problems.add(item.path, f"the device {item.device}, which an image of version {version} cannot hold{NEXT}")
    limit = FILE_LIMITS[version]
    if item.kind == FILE and item.size > limit:
        problems.add(item.path, f"it has {item.size} bytes, more than {limit}{next_for(item.size, version)}")
    if item.kind == LINK:
        judge_target(item, problems)


def next_for(size: int, version: int) -> str:
    """What is said of a file that an image of another version can hold."""
    return NEXT if version == 1 and size <= FILE_LIMITS[2] else ""


def judge_target(item: Item, problems: Problems) -> None:
    if not is_text(item.target):
        problems.add(item.path, "its target is no UTF-8")
        return
    fault = target_fault(item.target.decode())
    if fault:
        problems.add(item.path, fault)


def is_text(name: bytes) -> bool:
    try:
        name.decode()
    except UnicodeDecodeError:
        return False
    return True


def index_faults(items: List[Item], version: int) -> List[str]:
    """What is wrong with the index as a whole. A name that is no UTF-8 counts with its bytes."""
    size = len(text_with(items, {}, version).encode("utf-8", "surrogateescape"))
    return [f"{INDEX} would have {size} bytes, more than {INDEX_LIMIT}"] if size > INDEX_LIMIT else []


def text_with(items: Iterable[Item], blobs: Dict[bytes, Blob], version: int) -> str:
    """The index of items, with these blobs by their paths."""
    unknown = Blob(NEW_BLOB, 0)
    return index_text(
        [
            Entry(
                number,
                text_of(item.path),
                item.kind,
                mode=item.mode,
                blob=blobs.get(item.path, unknown).name,
                target=text_of(item.target),
                device=item.device,
            )
            for number, item in enumerate(items, 1)
        ],
        version,
    )


def look_at_files(tree: Tree, items: List[Item], problems: Problems) -> None:
    """Notes the files that cannot be read, where nothing is copied since something else is wrong."""
    for item in items:
        if item.kind == FILE:
            try:
                tree.look(item)
            except Unreadable as error:
                problems.add(item.path, str(error))


# ---- blobs


def copy_files(tree: Tree, items: List[Item], folder: str, limit: int, problems: Problems) -> Dict[bytes, Blob]:
    """Copies the files, of at most so many bytes, into a folder, each under its digest, and answers the blobs by path.

    A file that has several names is read once. After the first that cannot be held the others are only looked at."""
    blobs: Dict[bytes, Blob] = {}
    known: Dict[Hashable, Blob] = {}
    for item in tree.in_order([item for item in items if item.kind == FILE]):
        stop_if_asked()
        try:
            if problems.reasons:
                tree.look(item)
                continue
            if item.shared not in known:
                known[item.shared] = copy_file(tree, item, folder, limit)
            blobs[item.path] = known[item.shared]
        except Unreadable as error:
            problems.add(item.path, str(error))
    return blobs


def copy_file(tree: Tree, item: Item, folder: str, limit: int) -> Blob:
    """Copies a file of at most so many bytes into a folder, under its digest."""
    digest = hashlib.sha256()
    size = 0
    place = os.path.join(folder, NEW_BLOB)
    with contextlib.closing(tree.pieces(item)) as pieces, open(place, "wb") as blob:
        for piece in pieces:
            stop_if_asked()
            size += len(piece)
            if size > limit:
                raise Unreadable(f"it has grown to more than {limit} bytes while it was read")
            digest.update(piece)
            blob.write(piece)
    os.replace(place, os.path.join(folder, digest.hexdigest()))
    return Blob(digest.hexdigest(), size)


# ---- what is said


def told_image(source: str) -> List[str]:
    """A line where what was packed is an image already, which mostly was not meant."""
    try:
        read_image(source)
    except ImageError:
        return []
    return [f"{quoted(source)} is an image already, and was packed as a folder, with its {INDEX} as a file"]


def hard_links(items: List[Item]) -> List[str]:
    """A line for each file that had several names."""
    names: Dict[Hashable, List[str]] = defaultdict(list)
    for item in items:
        if item.kind != DIR:
            names[item.shared].append(quoted(item.path))
    return [
        f"{', '.join(found[:-1])} and {found[-1]} are one file there and {number_word(len(found))} here"
        for found in names.values()
        if len(found) > 1
    ]


def number_word(count: int) -> str:
    return NUMBERS[count] if count < len(NUMBERS) else str(count)
