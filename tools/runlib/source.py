"""What stands where FOLDER, ARCHIVE or IMAGE is named, or what is there instead."""
from __future__ import annotations

import difflib
import os
import stat

from imagelib.errors import reason_of
from imagelib.index import INDEX
from imagelib.texts import shown

from .errors import RunError

IMAGE, FOLDER, ARCHIVE = "image", "folder", "archive"

# So many bytes tell what kind of file one is.
HEAD = 4


def kind_of(word: str) -> str:
    """Whether this is an image, or a folder or a file that is to be packed."""
    try:
        mode = os.stat(word).st_mode
    except OSError as error:
        raise RunError(missing(word, error)) from error
    if stat.S_ISDIR(mode):
        return IMAGE if os.path.lexists(os.path.join(word, INDEX)) else FOLDER
    if not stat.S_ISREG(mode):
        raise RunError(f"{shown(word)} is neither a folder nor a file: name a folder, a tar archive or an image")
    fault = file_fault(word)
    if fault:
        raise RunError(f"{shown(word)} is neither an image nor an archive: {fault}")
    return ARCHIVE


def missing(word: str, error: OSError) -> str:
    """Why there is nothing at a path, and what is there instead."""
    place = word.rstrip("/") or "/"
    if os.path.islink(place) and isinstance(error, FileNotFoundError):
        return f"{shown(word)} is a link to {shown(os.readlink(place))}, where nothing is"
    if isinstance(error, NotADirectoryError):
        return f"{shown(word)} goes through {shown(deepest(place))}, which is no folder"
    if not isinstance(error, FileNotFoundError):
        return f"{shown(word)} cannot be read: {reason_of(error)}"
    parent = os.path.dirname(place) or "."
    if not os.path.lexists(parent):
        return f"{shown(word)} is not there: nor is the folder {shown(parent)}, but {shown(deepest(parent))} is"
    near = near_name(parent, os.path.basename(place))
    hint = f"; did you mean {shown(os.path.join(os.path.dirname(place), near))}?" if near else ""
    return f"{shown(word)} is not there, and neither folder, archive nor image of that name{hint}"


def deepest(place: str) -> str:
    """The deepest part of a path at which something stands."""
    while place and not os.path.lexists(place):
        place = os.path.dirname(place)
    return place or "."


def near_name(folder: str, name: str) -> str:
    """The name in a folder that is most like another; empty where none is."""
    try:
        names = os.listdir(folder)
    except OSError:
        return ""
    return next(iter(difflib.get_close_matches(name, names, 1)), "")


def file_fault(word: str) -> str:
    """What a file is that can be no archive; empty where it may be one."""
    folder = os.path.dirname(word) or "."
    if os.path.basename(word) == INDEX:
        return f"it is the index of an image, whose name is that of its folder, {shown(folder)}"
    try:
        with open(word, "rb") as file:
            head = file.read(HEAD)
    except OSError as error:
        raise RunError(f"{shown(word)} cannot be read: {reason_of(error)}") from error
    if not head:
        return "it is empty"
    if head.startswith(b"\x7fELF") or head.startswith(b"#!"):
        what = "a program" if head.startswith(b"\x7fELF") else "a script"
        return f"it is {what}; put it into a folder, name that, and behind -- the path of it there"
    return ""
