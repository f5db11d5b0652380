"""An archive whose bytes depend on nothing but what is in it: a tar in the old form of ustar, compressed by gzip."""
from __future__ import annotations

import re
import shutil
import subprocess
from typing import Dict, NamedTuple

BLOCK = 512
# What tar fills an archive up to.
RECORD = 20 * BLOCK
NAME_LIMIT, PREFIX_LIMIT = 100, 155


class Failed(Exception):
    """Why there is no archive."""


class File(NamedTuple):
    data: bytes
    is_program: bool


def header(name: str, file: File) -> bytes:
    """The block before a file's bytes: no owner, the time 0, and one of two modes."""
    prefix, short = parted(name)
    fields = [
        (short.encode(), NAME_LIMIT), (b"0000755" if file.is_program else b"0000644", 8), (b"0000000", 8),
        (b"0000000", 8), (b"%011o" % len(file.data), 12), (b"%011o" % 0, 12), (b" " * 8, 8), (b"0", 1), (b"", 100),
        (b"ustar\x0000", 8), (b"", 32), (b"", 32), (b"", 8), (b"", 8), (prefix.encode(), PREFIX_LIMIT)]
    block = b"".join(value.ljust(size, b"\0") for value, size in fields).ljust(BLOCK, b"\0")
    return block[:148] + b"%06o\0 " % sum(block) + block[156:]


def parted(name: str) -> "tuple[str, str]":
    """A name as its two fields have it."""
    if not name.isascii():
        raise Failed(f"{name}: a name that is not ASCII")
    prefix, short = "", name
    while len(short) > NAME_LIMIT:
        folder, _, short = short.partition("/")
        prefix = f"{prefix}/{folder}" if prefix else folder
        if not short or len(prefix) > PREFIX_LIMIT:
            raise Failed(f"{name}: a name that is too long")
    return prefix, short


def tar(files: Dict[str, File]) -> bytes:
    """The files in byte order of their names."""
    parts = []
    for name in sorted(files):
        data = files[name].data
        parts += [header(name, files[name]), data, bytes(-len(data) % BLOCK)]
    whole = b"".join(parts) + bytes(2 * BLOCK)
    return whole + bytes(-len(whole) % RECORD)


def gzip(data: bytes) -> bytes:
    """The bytes as GNU gzip compresses them, with neither name nor time. Others give other bytes of the same."""
    program = shutil.which("gzip")
    said = subprocess.run([program, "--version"], capture_output=True, check=False).stdout if program else b""
    if not re.match(rb"gzip \d", said):
        raise Failed("GNU gzip is missing, whose bytes are the same everywhere")
    return subprocess.run([program, "-9n"], input=data, capture_output=True, check=True).stdout
