"""Why a program could not be started: what stands at its path in the image, and what of that isn't as it should be."""
from __future__ import annotations

import difflib
from typing import List, NamedTuple, Optional, Sequence

from imagelib.index import CALLED, DEV, DIR, NAME_LIMIT, PATH_LIMIT
from imagelib.texts import shown

from . import elf
from .paths import E2BIG, EACCES, ELOOP, ENAMETOOLONG, ENOENT, ENOEXEC, ENOTDIR, Names, Place, walk

ARGUMENT_LIMIT = 131_072
LINE_LIMIT = 255
NAMES_SAID = 6
LINKS_SAID = 3
PAGE = "docs/GUESTS.md, \"When it doesn't work\""

# What each errno says, where the image does not show why it came.
WHY = {
    ENOENT: "nothing is at its path, or at that of its interpreter",
    E2BIG: "its arguments and environment, or its segments, pass their limit",
    ENOEXEC: "its file, or that of its interpreter, is no executable of this kind",
    EACCES: "its path, or that of its interpreter, is that of a directory or a device",
    ENOTDIR: "its path, or that of its interpreter, goes through a file or a device",
    ENAMETOOLONG: "its path, or a name in it, is too long",
    ELOOP: "its path has too many links",
}


class Fault(NamedTuple):
    """The errno with which a start is refused, and the reason in words that follow the program's name."""

    errno: int
    reason: str


def why(errno: int) -> str:
    return WHY.get(errno, f"the errno is {errno}")


def told_nostart(names: Names, command: Sequence[str], args: Sequence[str], source: str, errno: int) -> str:
    """The line that says why the program could not be started, for the reason with this errno."""
    fault = start_fault(names, command, args, source)
    reason = fault.reason if fault and fault.errno == errno else why(errno)
    page = f" ({PAGE})" if errno in (E2BIG, ENOEXEC) else ""
    called = shown(args[0]) or "a program of an empty name"
    return f"{called} cannot be started: {reason}{page}"


def start_fault(names: Names, command: Sequence[str], args: Sequence[str], source: str) -> Optional[Fault]:
    """The first reason that there is, in the order in which the program looks."""
    word = args[0]
    if not word:
        return Fault(ENOENT, "the word behind -- is empty, and is to be its path")
    if len(word.encode()) > PATH_LIMIT:
        return Fault(ENAMETOOLONG, f"its path has {len(word.encode())} bytes, more than {PATH_LIMIT}")
    size = sum(len(each.encode()) + 9 for each in command)
    if size > ARGUMENT_LIMIT:
        return Fault(E2BIG, f"arguments and environment take {size} bytes, more than {ARGUMENT_LIMIT}")
    place = walk(names, word)
    fault = path_fault(names, place)
    if fault:
        hint = meant(names, word, place) if fault.errno == ENOENT else ""
        return Fault(fault.errno, f"in {shown(source)} {fault.reason}{hint}")
    data = names.data(place.path)
    if data.startswith(b"#!"):
        return script_fault(names, data)
    return program_fault(data, "it")


def path_fault(names: Names, place: Place) -> Optional[Fault]:
    """Why a path leads to no file."""
    at = shown(place.path) or "/"
    if place.errno == ENOENT:
        reason = f"nothing is at {at}"
    elif place.errno == ENOTDIR:
        reason = f"its path goes through {at}, which is {CALLED[names.kind(place.path)]}"
    elif place.errno == ENAMETOOLONG:
        reason = f"a name of its path has {len(place.path.rpartition('/')[2].encode())} bytes, more than {NAME_LIMIT}"
    elif place.errno == ELOOP:
        reason = f"its path has more than 40 links, {at} among them"
    elif names.kind(place.path) in (DIR, DEV):
        return Fault(EACCES, f"{at} is {CALLED[names.kind(place.path)]}{led(place)}")
    else:
        return None
    return Fault(place.errno, reason + led(place))


def led(place: Place) -> str:
    """The links that led there, the last ones of many."""
    if not place.links or place.errno == ELOOP:
        return ""
    said = [f"{shown(path)} -> {shown(target)}" for path, target in place.links[-LINKS_SAID:]]
    more = ["..."] if len(place.links) > LINKS_SAID else []
    return f" ({', '.join(more + said)})"


def meant(names: Names, word: str, place: Place) -> str:
    """What may have been meant by a word that leads to nothing."""
    if word.startswith("--"):
        return "; options stand before the word --"
    if "=" in word and not word.startswith("/"):
        return f"; no variable can have the name {shown(word.partition('=')[0])}, so this word is the program"
    like = near(names, place.path if place.links else word)
    if like:
        return f"; there is {shown(like)}{'' if '/' in word else ', and no PATH is searched'}"
    folder = place.path.rpartition("/")[0]
    while names.kind(folder) != DIR:
        folder = folder.rpartition("/")[0]
    return f"; {shown(folder) or '/'} has {listed(names.inner(folder))}"


def near(names: Names, missing: str) -> str:
    """A path that has the name of one at which nothing stands, or else one that is much like it; empty for none."""
    name = missing.rstrip("/").rpartition("/")[2]
    same = [path for path in names.entries if path.rpartition("/")[2] == name]
    return next(iter(same or difflib.get_close_matches(missing, list(names.entries), 1, 0.75)), "")


def listed(found: List[str]) -> str:
    """Some names, and how many more there are."""
    if not found:
        return "nothing in it"
    more = [f"{len(found) - NAMES_SAID} more"] if len(found) > NAMES_SAID else []
    said = [shown(name) for name in found[:NAMES_SAID]] + more
    return said[0] if len(said) == 1 else f"{', '.join(said[:-1])} and {said[-1]}"


def interpreter_of(data: bytes) -> bytes:
    """The path of a script's interpreter, as its first line has it; empty where it has none."""
    words = data[2:].split(b"\n", 1)[0].replace(b"\t", b" ").split(b" ")
    return next((word for word in words if word), b"")


def script_fault(names: Names, data: bytes) -> Optional[Fault]:
    """Why a script cannot be started."""
    line = data.split(b"\n", 1)[0]
    if len(line) > LINE_LIMIT:
        return Fault(ENOEXEC, f"it is a script whose first line has {len(line)} bytes, more than {LINE_LIMIT}")
    if b"\0" in line:
        return Fault(ENOEXEC, "it is a script whose first line has a NUL")
    path = interpreter_of(data)
    if not path:
        return Fault(ENOEXEC, "it is a script whose first line names no interpreter")
    said = f"it is a script, and its interpreter {shown(path)}"
    try:
        place = walk(names, path.decode())
    except UnicodeDecodeError:
        return Fault(ENOENT, f"{said} is no UTF-8, as all paths of an image are")
    fault = path_fault(names, place)
    if fault:
        return Fault(fault.errno, f"{said} is not to be had: {fault.reason}{interpreter_hint(names, path, fault)}")
    inner = names.data(place.path)
    if inner.startswith(b"#!"):
        return Fault(ENOEXEC, f"{said} is a script too")
    fault = program_fault(inner, "the interpreter")
    return fault and fault._replace(reason=f"it is a script; {fault.reason}")


def interpreter_hint(names: Names, path: bytes, fault: Fault) -> str:
    """What may have been meant by the path of an interpreter at which nothing stands."""
    if fault.errno != ENOENT:
        return ""
    if path.endswith(b"\r"):
        return "; the line ends with a carriage return, which belongs to the path"
    like = near(names, path.decode())
    return f"; there is {shown(like)}" if like else ""


def program_fault(data: bytes, called: str) -> Optional[Fault]:
    """Why a file is no program that can be started."""
    if not data:
        return Fault(ENOEXEC, f"{called} is an empty file")
    if not elf.is_elf(data):
        is_text = all(byte >= 32 or byte in b"\t\r\n" for byte in data[:256])
        what = "a text whose first line does not begin with #!" if is_text else "no ELF file"
        return Fault(ENOEXEC, f"{called} is {what}")
    found = elf.faults(data)
    if found:
        return Fault(ENOEXEC, "; ".join([found[0].replace("it", called, 1), *found[1:], elf.BUILD]))
    if elf.is_too_large(data):
        owner = "its file" if called == "it" else called
        return Fault(E2BIG, f"the segments of {owner} pass 64 MiB, its stack included")
    return None


def instructions_of(names: Names, word: str) -> List[str]:
    """What the header of a program, or of its interpreter, says of instructions that are not there."""
    place = walk(names, word)
    while not place.errno and names.is_file(place.path):
        data = names.data(place.path)
        if elf.is_elf(data) and len(data) >= elf.HEADER:
            return [f"{shown(place.path)}: {fault}" for fault in elf.instruction_faults(elf.header_of(data))]
        if not data.startswith(b"#!"):
            break
        place = walk(names, interpreter_of(data).decode("utf-8", "replace"))
    return []
