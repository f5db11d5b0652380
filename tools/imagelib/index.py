"""An image's index: its entries, how they are written, and whether the program takes them.

Each rule of the program stands here once, as a function that gives the reasons against entries (none where all keep
it), in the order in which the program looks for them."""
from __future__ import annotations

import json
import re
from collections import Counter
from typing import Any, Callable, Dict, List, NamedTuple, Optional, Tuple

from . import strict_json
from .errors import BAD_INDEX, BAD_PATH, INPUT_BIG, NO_BLOB, NO_INDEX, NO_INPUT, NO_PARENT, TOO_BIG, TOO_MANY, TWICE
from .errors import Kind, Refused, StoreFault
from .store import Store
from .texts import counted, quoted, shown

INDEX = "image.json"

INDEX_LIMIT = 4_194_304
# What a file may have by the image's version, which is that of the profile that it runs under.
FILE_LIMITS = {1: 16_777_216, 2: 67_108_864}
INPUT_LIMIT = 67_108_864
ENTRY_LIMIT = 4_095
PATH_LIMIT = 4_095
NAME_LIMIT = 255
MODE_LIMIT = 0o7777
LINK_MODE = 0o777

FILE, DIR, LINK, DEV = "file", "dir", "link", "dev"

# What an entry is called in a sentence.
CALLED = {FILE: "a file", DIR: "a directory", LINK: "a symbolic link", DEV: "a device"}

# The types that entries have by the image's version, and how a sentence lists them.
TYPES = {1: (FILE, DIR, LINK), 2: (FILE, DIR, LINK, DEV)}
TYPES_SAID = {1: "`file`, `dir` or `link`", 2: "`file`, `dir`, `link` or `dev`"}

# The devices that there are, with the numbers that Linux has for them: all are character devices.
DEVICES = {"null": (1, 3), "zero": (1, 5), "random": (1, 8)}

# The names that the program gives to blobs where it exports a tree, which come before the index.
EXPORTED = re.compile("b[0-9]+")

BLOB_CHARACTERS = frozenset("ABCDEFGHIJKLMNOPQRSTUVWXYZabcdefghijklmnopqrstuvwxyz0123456789._-")


class Entry(NamedTuple):
    """An entry: all but a link have a mode, a file also a blob, a link a target, and a device its name; `number` is its
    place, from 1."""

    number: int
    path: str
    type: str
    mode: int = LINK_MODE
    blob: str = ""
    target: str = ""
    device: str = ""

    def key(self) -> bytes:
        """What entries are put in order by."""
        return self.path.encode()

    def said(self, reason: str) -> str:
        return f"entry {self.number}, {quoted(self.path)}: {reason}"


class Blob(NamedTuple):
    """A blob of an image: its name, which is its digest where it was packed, and its size."""

    name: str
    size: int


class Image(NamedTuple):
    """A good image: its entries in byte order of their paths, the sizes of its blobs, and the blob that a run reads as
    its input, where one was named."""

    store: Store
    version: int
    entries: List[Entry]
    sizes: Dict[str, int]
    input: Optional[Blob] = None

    def summary(self) -> str:
        """What it holds, in counts."""
        return summary(Counter(entry.type for entry in self.entries), self.sizes)


def summary(types: Counter, sizes: Dict[str, int]) -> str:
    """What an image holds: so many entries of each type, devices where there are some, and blobs of these sizes."""
    return ", ".join(
        [
            counted(types[DIR], "directory", "directories"),
            counted(types[FILE], "file", "files"),
            counted(types[LINK], "link", "links"),
            *([counted(types[DEV], "device", "devices")] if types[DEV] else []),
            counted(len(sizes), "blob", "blobs"),
            counted(sum(sizes.values()), "byte", "bytes"),
        ]
    )


def parent_of(path: str) -> str:
    """A path without its last name and the `/` before that; empty for what stands in the root."""
    return path.rpartition("/")[0]


# ---- writing


def index_text(entries: List[Entry], version: int) -> str:
    """The text of an index, an entry a line."""
    lines = ",\n               ".join(entry_text(entry) for entry in entries)
    return f'{{ "version": {version},\n  "entries": ' + (f"[ {lines} ]" if lines else "[]") + " }\n"


def entry_text(entry: Entry) -> str:
    members: Dict[str, Any] = {"path": entry.path, "type": entry.type}
    if entry.type == LINK:
        members["target"] = entry.target
    else:
        members["mode"] = entry.mode
    if entry.type == FILE:
        members["blob"] = entry.blob
    if entry.type == DEV:
        members["device"] = entry.device
    return "{ " + json.dumps(members, ensure_ascii=False)[1:-1] + " }"


# ---- reading


def read_image(folder: str, input_name: Optional[str] = None) -> Image:
    """The image of a folder, with the input where one is named; Refused or StoreFault where the program would say
    so."""
    store = Store(folder)
    version, entries = index_of(index_value(store))
    for kind, reasons in RULES:
        refuse_if(kind, reasons(entries))
    order = sorted(entries, key=Entry.key)
    sizes = sizes_of(store, order)
    refuse_if(TOO_BIG, too_big(entries, sizes, FILE_LIMITS[version]))
    refuse_if(TOO_MANY, too_many(len(entries)))
    named = None if input_name is None else input_of(store, input_name)
    for entry in order:
        if entry.type == FILE:
            store.look(entry.blob, sizes[entry.blob])
    if named:
        store.look(named.name, named.size)
    return Image(store, version, order, sizes, named)


def refuse_if(kind: Kind, reasons: List[str]) -> None:
    if reasons:
        raise Refused(kind, reasons)


def missing_index(store: Store) -> str:
    """Why there is no index."""
    if not store.is_there():
        return f"there is no folder {quoted(store.folder)}"
    why = "was an export stopped before its end?" if store.has(EXPORTED) else "is it a folder that was not packed?"
    return f"there is no file {quoted(store.path(INDEX))}: {why}"


def index_value(store: Store) -> Any:
    """The JSON value of an index."""
    size = store.size(INDEX)
    if size is None:
        raise Refused(NO_INDEX, [missing_index(store)])
    if size > INDEX_LIMIT:
        raise Refused(BAD_INDEX, [f"{INDEX} has {size} bytes, more than {INDEX_LIMIT}"])
    data = b"".join(store.pieces(INDEX, size))
    try:
        return strict_json.read(data.decode("utf-8"))
    except UnicodeDecodeError as error:
        raise Refused(BAD_INDEX, [f"{INDEX}, byte {error.start + 1}: it is no UTF-8 from there on"]) from error
    except strict_json.JsonError as error:
        raise Refused(BAD_INDEX, [f"{INDEX}, {error}"]) from error


def index_of(value: Any) -> Tuple[int, List[Entry]]:
    """The version of an index, and the entries that it lists."""
    if not isinstance(value, dict):
        raise Refused(BAD_INDEX, [f"{INDEX} is {described(value)}, and no object"])
    reasons = []
    version = value.get("version")
    if not (type(version) is int and version in TYPES):
        reasons.append(f"{INDEX}: {lacking(value, 'version', 'the number 1 or 2')}")
        # What no version takes is named all the same.
        version = max(TYPES)
    items = value.get("entries")
    if not isinstance(items, list):
        reasons.append(f"{INDEX}: {lacking(value, 'entries', 'an array')}")
        items = []
    entries = []
    for number, item in enumerate(items, 1):
        faults = form_faults(item, version)
        if faults:
            path = item.get("path") if isinstance(item, dict) else None
            place = f"entry {number}, {quoted(path)}" if isinstance(path, str) else f"entry {number}"
            reasons.append(f"{place}: {'; '.join(faults)}")
        elif not reasons:
            entries.append(entry_of(number, item))
    refuse_if(BAD_INDEX, reasons)
    return version, entries


def form_faults(item: Any, version: int) -> List[str]:
    """What is wrong with the form of an entry of a version: its members, and what they hold."""
    if not isinstance(item, dict):
        return [f"it is {described(item)}, and no object"]
    faults = []
    if not isinstance(item.get("path"), str):
        faults.append(lacking(item, "path", "a text"))
    kind = item.get("type")
    if kind == DEV and kind not in TYPES[version]:
        faults.append(f"`type` is `{DEV}`, which no entry of version {version} has")
    elif not (isinstance(kind, str) and kind in TYPES[version]):
        faults.append(lacking(item, "type", TYPES_SAID[version]))
    if kind in (FILE, DIR, DEV) and not is_mode(item.get("mode")):
        faults.append(lacking(item, "mode", f"a whole number from 0 to {MODE_LIMIT}"))
    if kind == FILE and not isinstance(item.get("blob"), str):
        faults.append(lacking(item, "blob", "a text"))
    if kind == LINK and not isinstance(item.get("target"), str):
        faults.append(lacking(item, "target", "a text"))
    if kind == DEV and not is_device(item.get("device")):
        faults.append(lacking(item, "device", "`null`, `zero` or `random`"))
    return faults


def is_mode(value: Any) -> bool:
    # A bool is an int for Python alone.
    return type(value) is int and 0 <= value <= MODE_LIMIT


def is_device(value: Any) -> bool:
    return isinstance(value, str) and value in DEVICES


def entry_of(number: int, item: Dict[str, Any]) -> Entry:
    kind = item["type"]
    if kind == FILE:
        return Entry(number, item["path"], kind, mode=item["mode"], blob=item["blob"])
    if kind == DIR:
        return Entry(number, item["path"], kind, mode=item["mode"])
    if kind == DEV:
        return Entry(number, item["path"], kind, mode=item["mode"], device=item["device"])
    return Entry(number, item["path"], kind, target=item["target"])


def lacking(value: Dict[str, Any], member: str, wanted: str) -> str:
    if member not in value:
        return f"the member `{member}` is missing"
    return f"`{member}` is {described(value[member])}, and not {wanted}"


def described(value: Any) -> str:
    """A JSON value in a few words."""
    if value is None or isinstance(value, bool):
        return {None: "null", True: "true", False: "false"}[value]
    if isinstance(value, str):
        return f"the text `{shown(value)}`" if len(value) <= 40 else "a text"
    if isinstance(value, (int, float)):
        return f"the number {value}"
    return "an array" if isinstance(value, list) else "an object"


# ---- the rules


def bad_paths(entries: List[Entry]) -> List[str]:
    """Entries whose path, target or blob's name is not good."""
    reasons = []
    for entry in entries:
        faults = [path_fault(entry.path)]
        if entry.type == FILE:
            faults.append(blob_fault(entry.blob))
        if entry.type == LINK:
            faults.append(target_fault(entry.target))
        said = "; ".join(fault for fault in faults if fault)
        if said:
            reasons.append(entry.said(said))
    return reasons


def path_fault(path: str) -> Optional[str]:
    """What is wrong with a path."""
    length = len(path.encode())
    if not path.startswith("/"):
        return "the path doesn't begin with `/`"
    if length > PATH_LIMIT:
        return f"the path has {length} bytes, more than {PATH_LIMIT}"
    if "\0" in path:
        return "a NUL stands in the path"
    for name in path[1:].split("/"):
        if name == "":
            return "the path has an empty name: a `/` stands at its end, or behind another"
        if name in (".", ".."):
            return f"the path has the name `{name}`"
        if len(name.encode()) > NAME_LIMIT:
            return f"the path has a name of {len(name.encode())} bytes, more than {NAME_LIMIT}"
    return None


def target_fault(target: str) -> Optional[str]:
    """What is wrong with a link's target."""
    length = len(target.encode())
    if length == 0:
        return "the target is empty"
    if length > PATH_LIMIT:
        return f"the target has {length} bytes, more than {PATH_LIMIT}"
    return "a NUL stands in the target" if "\0" in target else None


def blob_fault(blob: str) -> Optional[str]:
    """What is wrong with a blob's name."""
    if blob == "":
        return "the blob's name is empty"
    if len(blob) > NAME_LIMIT:
        return f"the blob's name has {len(blob)} characters, more than {NAME_LIMIT}"
    if blob.startswith("."):
        return f"the blob's name `{shown(blob)}` begins with a `.`"
    if not BLOB_CHARACTERS.issuperset(blob):
        return f"the blob's name `{shown(blob)}` has more than letters and digits of ASCII, `.`, `_` and `-`"
    return None


def twice(entries: List[Entry]) -> List[str]:
    """Entries whose path an earlier one has."""
    first: Dict[str, int] = {}
    reasons = []
    for entry in entries:
        before = first.setdefault(entry.path, entry.number)
        if before != entry.number:
            reasons.append(entry.said(f"entry {before} has this path too"))
    return reasons


def without_parent(entries: List[Entry]) -> List[str]:
    """Entries that stand neither in the root nor in a directory of the index."""
    types = {entry.path: entry.type for entry in entries}
    reasons = []
    for entry in entries:
        parent = parent_of(entry.path)
        found = types.get(parent)
        if parent and found is None:
            reasons.append(entry.said(f"nothing stands at {quoted(parent)}"))
        elif parent and found != DIR:
            reasons.append(entry.said(f"{quoted(parent)} is {CALLED[found]}, and no directory"))
    return reasons


def sizes_of(store: Store, order: List[Entry]) -> Dict[str, int]:
    """The sizes of all blobs. Of a blob that is missing and one that cannot be read, the first in order counts."""
    sizes: Dict[str, int] = {}
    missing = []
    for entry in order:
        if entry.type != FILE or entry.blob in sizes:
            continue
        try:
            size = store.size(entry.blob)
        except StoreFault:
            if missing:
                continue
            raise
        if size is None:
            missing.append(entry)
        else:
            sizes[entry.blob] = size
    missing.sort(key=lambda entry: entry.number)
    refuse_if(NO_BLOB, [entry.said(f"there is no file {quoted(store.path(entry.blob))}") for entry in missing])
    return sizes


def too_big(entries: List[Entry], sizes: Dict[str, int], limit: int) -> List[str]:
    """Entries whose blob is longer than a file may be."""
    return [
        entry.said(f"the blob {entry.blob} has {sizes[entry.blob]} bytes, more than {limit}")
        for entry in entries
        if entry.type == FILE and sizes[entry.blob] > limit
    ]


def too_many(count: int) -> List[str]:
    return [f"there are {count} entries, more than {ENTRY_LIMIT}"] if count > ENTRY_LIMIT else []


def input_of(store: Store, name: str) -> Blob:
    """The blob that is named as the input of a run."""
    fault = blob_fault(name)
    size = None if fault else store.size(name)
    if size is None:
        raise Refused(NO_INPUT, [input_said(name, fault or f"there is no file {quoted(store.path(name))}")])
    if size > INPUT_LIMIT:
        raise Refused(INPUT_BIG, [input_said(name, f"the blob has {size} bytes, more than {INPUT_LIMIT}")])
    return Blob(name, size)


def input_said(name: str, reason: str) -> str:
    return f"--stdin {quoted(name)}: {reason}"


# The refusals that need no blob, in the program's order.
RULES: Tuple[Tuple[Kind, Callable[[List[Entry]], List[str]]], ...] = (
    (BAD_PATH, bad_paths),
    (TWICE, twice),
    (NO_PARENT, without_parent),
)
