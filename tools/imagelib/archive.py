"""What is to be packed: the items of a tar archive, compressed or not.

An item is what would stand at its path after tar had extracted the archive, member by member, into an empty folder."""
from __future__ import annotations

import tarfile
from tarfile import TarFile, TarInfo
from typing import Dict, Iterator, List, Optional

from .errors import Outside, reason_of
from .index import CALLED, DEV, DIR, FILE, LINK
from .store import PIECE
from .texts import quoted, shown
from .tree import MODE_BITS, Excluded, Item, Numbers, Problems, character_kind, device_of, ends_of
from .zstd import plain

# The mode of a directory that the archive doesn't name.
PARENT_MODE = 0o755

BLOCK = 512


class ArchiveTree:
    """The items of an archive."""

    def __init__(self, word: str, excluded: Excluded, problems: Problems) -> None:
        self.word = word
        try:
            self.file = open(word, "rb")
        except OSError as error:
            raise Outside(f"{quoted(word)} cannot be read: {reason_of(error)}") from error
        try:
            self.file = plain(self.file, word)
            self.archive = self.opened()
            standing = Standing(excluded, problems)
            for member in self.members():
                standing.add(member)
            self.items = standing.whole()
        except BaseException:
            self.file.close()
            raise

    def close(self) -> None:
        self.archive.close()
        self.file.close()

    def broken(self, error: Optional[Exception]) -> Outside:
        """The library's readers have errors of many kinds for what is no archive, so all of them come here."""
        if isinstance(error, OSError) and error.errno:
            return Outside(f"{quoted(self.word)} cannot be read: {reason_of(error)}")
        said = " ".join(str(error).split()) if error else ""
        return Outside(f"{quoted(self.word)} is a broken or truncated archive" + (f": {shown(said)}" if said else ""))

    def opened(self) -> TarFile:
        try:
            return tarfile.open(fileobj=self.file, mode="r:*", encoding="utf-8", errors="surrogateescape")
        except tarfile.TarError as error:
            raise Outside(f"{quoted(self.word)} is neither a folder nor a tar archive that Python can read") from error
        except Exception as error:
            raise self.broken(error) from error

    def members(self) -> Iterator[TarInfo]:
        """The members in their order. An error where the archive breaks off: the library takes that for its end."""
        before = -1
        while True:
            try:
                member = self.archive.next()
            except Exception as error:
                raise self.broken(error) from error
            if member is None:
                break
            # A size that is none leads back, and the members would come for ever.
            if self.archive.offset <= before or member.size < 0:
                raise self.broken(None)
            before = self.archive.offset
            yield member
        self.check_end()

    def check_end(self) -> None:
        """After the last member stands a block of zeros. The rest is read since a compressed file's sum ends it."""
        try:
            self.archive.fileobj.seek(self.archive.offset)
            mark = self.archive.fileobj.read(BLOCK)
            while self.archive.fileobj.read(PIECE):
                pass
        except Exception as error:
            raise self.broken(error) from error
        if len(mark) != BLOCK or any(mark):
            raise self.broken(None)

    def in_order(self, items: List[Item]) -> List[Item]:
        """Items in the order of their bytes in the archive, since to go back in a compressed one takes long."""
        return sorted(items, key=lambda item: item.member.offset_data)

    def look(self, item: Item) -> None:
        """What cannot be read is an error of the whole archive."""

    def pieces(self, item: Item) -> Iterator[bytes]:
        """The bytes of a file."""
        try:
            with self.archive.extractfile(item.member) as file:
                while True:
                    piece = file.read(PIECE)
                    if not piece:
                        return
                    yield piece
        except Exception as error:
            raise self.broken(error) from error


class Standing:
    """What stands at each path while the members come one after the other."""

    def __init__(self, excluded: Excluded, problems: Problems) -> None:
        self.excluded = excluded
        self.problems = problems
        self.items: Dict[bytes, Item] = {}

    def problem(self, path: bytes, reason: str) -> None:
        if not self.excluded.has_within(path):
            self.problems.add(path, reason)

    def add(self, member: TarInfo) -> None:
        """Puts a member where it belongs; it replaces what stood there."""
        path = path_of(member.name)
        if path is None:
            self.problem(raw(member.name), "the name has `..`")
            return
        if not path:
            if not member.isdir():
                self.problem(raw(member.name) or b"/", "the root is a directory, and this member is none")
            return
        item = self.item_of(path, member)
        before = self.items.get(path)
        if item and before and (before.kind == DIR) != (item.kind == DIR):
            self.problem(path, "a directory in one member, and something else in another")
        elif item:
            self.items[path] = item

    def item_of(self, path: bytes, member: TarInfo) -> Optional[Item]:
        """The item that a member is; that of a hard link is its target's."""
        if not member.islnk():
            kind = kind_of(member)
            target = raw(member.linkname) if kind == LINK else b""
            device = device_of(numbers_of(member)) if kind == DEV else ""
            return Item(path, kind, member.mode & MODE_BITS, member.size, target, member.offset, member, device)
        target_path = path_of(member.linkname)
        found = self.items.get(target_path) if target_path else None
        if found is None:
            self.problem(path, f"a hard link to {quoted(target_path or member.linkname)}, which is not there")
        elif found.kind == DIR:
            self.problem(path, f"a hard link to {quoted(found.path)}, which is a directory")
        else:
            return found._replace(path=path)
        return None

    def whole(self) -> List[Item]:
        """The items, with the directories around them, and without those that are left out."""
        for path in list(self.items):
            self.add_around(path)
        return [item for path, item in self.items.items() if not self.excluded.has_within(path)]

    def add_around(self, path: bytes) -> None:
        for end in ends_of(path)[:-1]:
            around = path[:end]
            item = self.items.setdefault(around, Item(around, DIR, PARENT_MODE))
            if item.kind != DIR:
                called = CALLED.get(item.kind, item.kind)
                self.problem(around, f"{called}, and {quoted(path)} stands below it")


def raw(name: str) -> bytes:
    return name.encode("utf-8", "surrogateescape")


def path_of(name: str) -> Optional[bytes]:
    """The path of a member's name, empty for the root; None where the name has `..`."""
    names = [part for part in raw(name).split(b"/") if part not in (b"", b".")]
    return None if b".." in names else b"".join(b"/" + part for part in names)


def numbers_of(member: TarInfo) -> Numbers:
    return member.devmajor, member.devminor


def kind_of(member: TarInfo) -> str:
    """The type of an entry, or what no entry can be."""
    if member.isreg():
        return FILE
    if member.isdir():
        return DIR
    if member.issym():
        return LINK
    if member.isfifo():
        return "a FIFO"
    if member.ischr():
        return character_kind(numbers_of(member))
    if member.isblk():
        return f"the block device {member.devmajor}:{member.devminor}"
    return f"a member of the unknown type `{shown(member.type)}`"
