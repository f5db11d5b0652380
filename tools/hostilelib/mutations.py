"""Good bytes, indexes, executables and words made bad, in small steps."""
from __future__ import annotations

import json
import random
import struct
from typing import Any, Callable, Dict, List

from .calls import ODD_NUMBERS

ODD_BYTES = [0, 1, 10, 32, 34, 35, 47, 92, 123, 125, 127, 128, 255]


def mutated_bytes(chance: random.Random, data: bytes, most: int = 6) -> bytes:
    """Bytes with a few changes: bits, bytes and runs that are changed, taken out, put in or doubled."""
    found = bytearray(data)
    for _ in range(chance.randrange(1, most + 1)):
        at = chance.randrange(len(found) + 1)
        end = min(len(found), at + chance.choice([1, 1, 2, 4, 8, 64]))
        kind = chance.randrange(7)
        if kind == 0 and at < len(found):
            found[at] ^= 1 << chance.randrange(8)
        elif kind == 1 and at < len(found):
            found[at] = chance.choice(ODD_BYTES)
        elif kind == 2:
            found[at:end] = bytes(chance.getrandbits(8) for _ in range(end - at))
        elif kind == 3:
            del found[at:end]
        elif kind == 4:
            found[at:at] = found[at:end]
        elif kind == 5:
            found[at:at] = bytes([chance.choice(ODD_BYTES)]) * chance.choice([1, 2, 300])
        elif chance.random() < 0.2:
            del found[at:]
    return bytes(found)


# --- executables

# The fields of the two headers: where they stand, and how they are packed.
FILE_FIELDS = {4: "B", 5: "B", 6: "B", 16: "<H", 18: "<H", 24: "<Q", 32: "<Q", 54: "<H", 56: "<H"}
PROGRAM_FIELDS = {0: "<I", 4: "<I", 8: "<Q", 16: "<Q", 32: "<Q", 40: "<Q"}


def mutated_executable(chance: random.Random, data: bytes) -> bytes:
    """An ELF file with some fields of its headers changed; at times with other bytes changed too."""
    if chance.random() < 0.4:
        # The code, and not the headers.
        return data[:232] + mutated_bytes(chance, data[232:], 20)
    found = bytearray(data)
    for _ in range(chance.randrange(1, 4)):
        if chance.random() < 0.4:
            at, form = chance.choice(list(FILE_FIELDS.items()))
        else:
            at, form = chance.choice(list(PROGRAM_FIELDS.items()))
            at += 64 + 56 * chance.randrange(max(1, min(found[56] if len(found) > 56 else 1, 4)))
        if at + struct.calcsize(form) <= len(found):
            old, = struct.unpack_from(form, found, at)
            new = chance.choice([old + chance.choice([-4096, -1, 1, 4, 4096]), *chance.choices(ODD_NUMBERS, k=2)])
            struct.pack_into(form, found, at, new % 256 ** struct.calcsize(form))
    if chance.random() < 0.2:
        return mutated_bytes(chance, bytes(found))
    return bytes(found)


# --- indexes

ODD_VALUES: List[Any] = [None, True, False, 0, 1, -1, 1.0, 1e300, 4095, 4096, 2**63, 2**64, "", "/", "/a", "/a/", "//a",
                         "/.", "/a/..", "a", "/" + "n" * 255, "/" + "n" * 256, "/x" * 2047, "/x" * 2048, "/\0", "/é",
                         "file", "dir", "link", ".", "..", "image.json", "nothing", "b" * 255, "b" * 256, [], {}, [[]],
                         {"path": "/a", "type": "dir", "mode": 493}, "/\ud83d\ude00", "../img/image.json"]
MEMBERS = ["path", "type", "mode", "blob", "target", "version", "entries", "other"]


def mutated_index(chance: random.Random, index: Dict[str, Any]) -> bytes:
    """The text of an index, of which entries, members or bytes are changed."""
    value = json.loads(json.dumps(index))
    for _ in range(chance.choice([0, 1, 1, 2])):
        change_index(chance, value)
    text = json.dumps(value, ensure_ascii=chance.random() < 0.5).encode("utf-8", "surrogatepass")
    if chance.random() < 0.05:
        # Members that come twice, and values that nest.
        depth = chance.choice([3, 126, 127, 128, 1000])
        text = b'{"version":2,"entries":' + b"[" * depth + b"]" * depth + b"," + text[1:]
    return mutated_bytes(chance, text, 3) if chance.random() < 0.3 else text


def change_index(chance: random.Random, value: Dict[str, Any]) -> None:
    entries = value.get("entries")
    kind = chance.randrange(8)
    if kind == 0 or not isinstance(entries, list) or not entries:
        value[chance.choice(["version", "entries", "other"])] = chance.choice(ODD_VALUES)
        return
    at = chance.randrange(len(entries))
    entry = entries[at]
    if kind == 1:
        del entries[at]
    elif kind == 2:
        entries.insert(chance.randrange(len(entries) + 1), json.loads(json.dumps(entry)))
    elif kind == 3:
        entries[at] = chance.choice(ODD_VALUES)
    elif kind == 4:
        chance.shuffle(entries)
    elif isinstance(entry, dict):
        member = chance.choice(MEMBERS)
        if kind == 5:
            entry.pop(member, None)
        else:
            entry[member] = chance.choice(ODD_VALUES)


# --- words of a command line

ODD_WORDS = ["", "-", "--", "---", "run", "demo", "-h", "--help", "--version", "--seed", "--seed=", "--seed=1",
             "--budget", "--budget=0", "--budget=1", "--budget=1000000000", "--budget=1000000001", "--workers=0",
             "--workers=1", "--workers=64", "--workers=65", "--host=0", "--host=18446744073709551615",
             "--host=18446744073709551616", "--seed=-1", "--seed=+1", "--seed=01", "--seed=1e3", "--seed=٣",
             "--seed= 1", "-s", "-s1", "A=1", "A=", "=1", "_=", "1A=2", "A B=1", "é=1", "A=é", "x" * 300, "/",
             "/hello", "hello", "img", "img/", "nothing", ".", "\n", "img/hello", "%s%n", "--seed=1\n", "\x1b[2J"]


def mutated_words(chance: random.Random, words: List[str]) -> List[bytes]:
    """Words of which some are changed, taken out, put in, doubled or moved; at times they are no UTF-8."""
    found = list(words)
    changes: List[Callable[[int], None]] = [
        lambda at: found.insert(at, chance.choice(ODD_WORDS)),
        lambda at: found.insert(at, chance.choice(ODD_WORDS)),
        lambda at: found.__setitem__(slice(at, at + 1), [chance.choice(ODD_WORDS)]),
        lambda at: found.__delitem__(slice(at, at + 1)),
        lambda at: found.insert(at, found[at % len(found)] if found else "x"),
        lambda at: found.insert(0, found.pop(at % len(found))) if found else None,
    ]
    for _ in range(chance.randrange(4)):
        chance.choice(changes)(chance.randrange(len(found) + 1))
    encoded = [word.encode() for word in found]
    if encoded and chance.random() < 0.2:
        at = chance.randrange(len(encoded))
        encoded[at] = mutated_bytes(chance, encoded[at], 2).replace(b"\0", b"\x01")
    return encoded
