"""The tree of an image, made as a folder."""
from __future__ import annotations

import os
import stat
from itertools import groupby
from typing import Iterator, List, Tuple

from .errors import Outside, reason_of, said_of
from .folders import FOLDER, is_inside, free_place, made_whole, opened, stop_if_asked
from .index import DEV, DEVICES, DIR, FILE, LINK, Entry, Image, parent_of, read_image
from .texts import quoted

ROOT_MODE = 0o755

NEW_FILE = os.O_WRONLY | os.O_CREAT | os.O_EXCL | os.O_NOFOLLOW


def unpack(image_word: str, folder_word: str) -> List[str]:
    """Makes a folder with an image's tree, and answers what the system made otherwise than the image says."""
    image = read_image(image_word)
    place = place_of(folder_word)
    if is_inside(place, image_word):
        raise Outside(f"{quoted(folder_word)} lies inside {quoted(image_word)}, which is only read: "
                      "name another folder")
    return make_tree(image, place)


def make_tree(image: Image, place: str) -> List[str]:
    """Makes a folder with an image's tree at a place, and answers what the system made otherwise.

    Links are made last, so none of them is there to be followed while files are written."""
    with made_whole(place, 0o700) as folder:
        top = os.open(folder, FOLDER)
        try:
            make_dirs(top, image)
            notes = make_devices(top, image)
            notes += make_files(top, image)
            make_links(top, image)
            notes += set_modes(top, image)
            os.fchmod(top, ROOT_MODE)
        finally:
            os.close(top)
    return sorted(notes)


def place_of(word: str) -> str:
    """Where the folder is to be made: at a place where nothing stands, or an empty folder, which it replaces."""
    if not os.path.isdir(word):
        return free_place(word, "FOLDER")
    place = os.path.realpath(word)
    try:
        held = os.listdir(place)
    except OSError as error:
        raise Outside(f"{quoted(word)} cannot be read: {reason_of(error)}") from error
    if held:
        raise Outside(f"{quoted(word)} is not empty: name a folder that is, or that isn't there")
    if os.path.samefile(place, "."):
        raise Outside(f"{quoted(word)} is the folder that you stand in, which would be replaced: name another")
    return place


def by_parent(image: Image, kind: str) -> Iterator[Tuple[str, List[Entry]]]:
    """The entries of a type, with those of one directory together, and those of a directory before what is in them."""
    entries = [entry for entry in image.entries if entry.type == kind]
    entries.sort(key=lambda entry: parent_of(entry.path).encode())
    for parent, group in groupby(entries, key=lambda entry: parent_of(entry.path)):
        yield parent, list(group)


def name_of(entry: Entry) -> bytes:
    return entry.key().rpartition(b"/")[2]


def failed(entry: Entry, error: OSError) -> Outside:
    return Outside(f"{quoted(entry.path)} cannot be made: {reason_of(error)}")


def make_dirs(top: int, image: Image) -> None:
    """Makes the directories, which are ours alone till the end."""
    for parent, entries in by_parent(image, DIR):
        with opened(top, parent.encode()) as folder:
            for entry in entries:
                stop_if_asked()
                try:
                    os.mkdir(name_of(entry), 0o700, dir_fd=folder)
                except OSError as error:
                    raise failed(entry, error) from error


def make_devices(top: int, image: Image) -> List[str]:
    """Makes the devices, and answers how their modes differ; Outside, with a line for each, where the system lets only
    root make them."""
    notes: List[str] = []
    refused: List[Entry] = []
    for parent, entries in by_parent(image, DEV):
        with opened(top, parent.encode()) as folder:
            for entry in entries:
                stop_if_asked()
                try:
                    notes += make_device(folder, entry)
                except PermissionError:
                    refused.append(entry)
                except OSError as error:
                    raise failed(entry, error) from error
    if refused:
        refused.sort(key=Entry.key)
        raise Outside(*said_of([f"{quoted(entry.path)}: the device {entry.device}, which only root can make"
                                for entry in refused]))
    return notes


def make_device(folder: int, entry: Entry) -> List[str]:
    """Makes a device in an open folder, and answers how its mode differs."""
    name = name_of(entry)
    os.mknod(name, stat.S_IFCHR | 0o600, os.makedev(*DEVICES[entry.device]), dir_fd=folder)
    os.chmod(name, entry.mode, dir_fd=folder)
    return told_mode(entry, os.stat(name, dir_fd=folder, follow_symlinks=False).st_mode)


def make_files(top: int, image: Image) -> List[str]:
    notes = []
    for parent, entries in by_parent(image, FILE):
        with opened(top, parent.encode()) as folder:
            for entry in entries:
                notes += make_file(folder, image, entry)
    return notes


def make_file(folder: int, image: Image, entry: Entry) -> List[str]:
    """Makes a file in an open folder, and answers how its mode differs."""
    try:
        file = os.open(name_of(entry), NEW_FILE, 0o600, dir_fd=folder)
        with os.fdopen(file, "wb") as new:
            for piece in image.store.pieces(entry.blob, image.sizes[entry.blob]):
                stop_if_asked()
                new.write(piece)
            new.flush()
            return set_mode(file, entry)
    except OSError as error:
        raise failed(entry, error) from error


def make_links(top: int, image: Image) -> None:
    for parent, entries in by_parent(image, LINK):
        with opened(top, parent.encode()) as folder:
            for entry in entries:
                stop_if_asked()
                try:
                    os.symlink(entry.target.encode(), name_of(entry), dir_fd=folder)
                except OSError as error:
                    raise failed(entry, error) from error


def set_modes(top: int, image: Image) -> List[str]:
    """Gives the directories their modes, those within before those around, which may then be closed to us."""
    notes = []
    for entry in reversed([entry for entry in image.entries if entry.type == DIR]):
        with opened(top, entry.key()) as folder:
            try:
                notes += set_mode(folder, entry)
            except OSError as error:
                raise failed(entry, error) from error
    return notes


def set_mode(file: int, entry: Entry) -> List[str]:
    """Gives what is open its mode, and answers how that differs where the system keeps back a bit above 0777."""
    try:
        os.fchmod(file, entry.mode)
    except PermissionError:
        os.fchmod(file, entry.mode & 0o777)
    return told_mode(entry, os.fstat(file).st_mode)


def told_mode(entry: Entry, made: int) -> List[str]:
    """How the mode of what was made differs."""
    mode = stat.S_IMODE(made)
    if mode == entry.mode:
        return []
    return [f"{quoted(entry.path)} has the mode {mode:04o} and not {entry.mode:04o}, as far as the system lets it"]
