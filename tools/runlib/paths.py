"""Where a path leads in an image, and what stands there."""
from __future__ import annotations

from typing import Dict, List, NamedTuple, Optional, Tuple

from imagelib.index import DIR, FILE, LINK, NAME_LIMIT, PATH_LIMIT, Entry, Image
from imagelib.index import parent_of

LINK_LIMIT = 40

# Linux's numbers of errors.
ENOENT, E2BIG, ENOEXEC, EACCES, ENOTDIR, ENAMETOOLONG, ELOOP = 2, 7, 8, 13, 20, 36, 40


class Place(NamedTuple):
    """Where a walk ended: at the node `path` (the root is empty), or refused there with an errno; and the links, with
    their targets, that it followed."""

    path: str
    errno: int
    links: List[Tuple[str, str]]


class Names:
    """The nodes of an image by their paths."""

    def __init__(self, image: Image) -> None:
        self.image = image
        self.entries: Dict[str, Entry] = {entry.path: entry for entry in image.entries}

    def kind(self, path: str) -> Optional[str]:
        """The type of what stands at a path without links; None where nothing does."""
        if not path:
            return DIR
        entry = self.entries.get(path)
        return entry.type if entry else None

    def inner(self, path: str) -> List[str]:
        """The names in a directory, in byte order."""
        return [entry.path.rpartition("/")[2] for entry in self.image.entries if parent_of(entry.path) == path]

    def data(self, path: str) -> bytes:
        """The bytes of a file."""
        blob = self.entries[path].blob
        return b"".join(self.image.store.pieces(blob, self.image.sizes[blob]))

    def is_file(self, path: str) -> bool:
        return self.kind(path) == FILE


def walk(names: Names, word: str) -> Place:
    """Where a path leads from the root, each link followed."""
    if not word:
        return Place("", ENOENT, [])
    if len(word.encode()) > PATH_LIMIT:
        return Place("", ENAMETOOLONG, [])
    at, is_dir_wanted = "", word.endswith("/")
    rest = names_of(word)
    links: List[Tuple[str, str]] = []
    while rest:
        name = rest.pop()
        if names.kind(at) != DIR:
            return Place(at, ENOTDIR, links)
        if len(name.encode()) > NAME_LIMIT:
            return Place(f"{at}/{name}", ENAMETOOLONG, links)
        inner = step(at, name)
        if names.kind(inner) is None:
            return Place(inner, ENOENT, links)
        if names.kind(inner) != LINK:
            at = inner
            continue
        target = names.entries[inner].target
        links.append((inner, target))
        if len(links) > LINK_LIMIT:
            return Place(inner, ELOOP, links)
        is_dir_wanted = is_dir_wanted or (not rest and target.endswith("/"))
        rest += names_of(target)
        at = "" if target.startswith("/") else at
    return Place(at, ENOTDIR if is_dir_wanted and names.kind(at) != DIR else 0, links)


def names_of(path: str) -> List[str]:
    """The names of a path, the first of them last."""
    return [name for name in reversed(path.split("/")) if name]


def step(at: str, name: str) -> str:
    """What a name leads to from a directory."""
    if name == ".":
        return at
    return parent_of(at) if name == ".." else f"{at}/{name}"
