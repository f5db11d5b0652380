"""Guests made by hand: instructions of RV64IM with labels, and the executables that hold them."""
from __future__ import annotations

import struct
from typing import Dict, List, NamedTuple, Tuple, Union

from .numbers import EXIT

# Registers by the names that they have in calls.
ZERO, RA, SP, T0, T1, T2, S0, S1 = 0, 1, 2, 5, 6, 7, 8, 9
A0, A1, A2, A3, A4, A5, A6, A7, S2, S3, S4 = 10, 11, 12, 13, 14, 15, 16, 17, 18, 19, 20

READ, WRITE, EXECUTE = 4, 2, 1
ECALL = 0x73
BEQ, BNE, BLT, BGE, BLTU, BGEU = 0, 1, 4, 5, 6, 7
CODE = 0x10000
PAGE = 4096


def addi(rd: int, rs1: int, value: int) -> int:
    return (value & 0xFFF) << 20 | rs1 << 15 | rd << 7 | 0x13


def add(rd: int, rs1: int, rs2: int) -> int:
    return rs2 << 20 | rs1 << 15 | rd << 7 | 0x33


def load(rd: int, offset: int, rs1: int) -> int:
    """The instruction ld."""
    return (offset & 0xFFF) << 20 | rs1 << 15 | 3 << 12 | rd << 7 | 0x03


def store(rs2: int, offset: int, rs1: int) -> int:
    """The instruction sd."""
    return (offset >> 5 & 0x7F) << 25 | rs2 << 20 | rs1 << 15 | 3 << 12 | (offset & 31) << 7 | 0x23


def branch_to(kind: int, rs1: int, rs2: int, offset: int) -> int:
    return ((offset >> 12 & 1) << 31 | (offset >> 5 & 0x3F) << 25 | rs2 << 20 | rs1 << 15 | kind << 12
            | (offset >> 1 & 15) << 8 | (offset >> 11 & 1) << 7 | 0x63)


def jump_to(rd: int, offset: int) -> int:
    return ((offset >> 20 & 1) << 31 | (offset >> 1 & 0x3FF) << 21 | (offset >> 11 & 1) << 20
            | (offset >> 12 & 0xFF) << 12 | rd << 7 | 0x6F)


def li(rd: int, value: int) -> List[int]:
    """Instructions that set a register to a number of 64 bits, with or without a sign."""
    value = (value + 2**63) % 2**64 - 2**63
    low = (value + 0x800) % 0x1000 - 0x800
    if value == low:
        return [addi(rd, ZERO, low)]
    if -(2**31) <= value < 2**31:
        # The word form of addi cuts the sum to 32 bits.
        return [((value - low) & 0xFFFFF000) | rd << 7 | 0x37, addi(rd, rd, low) | 8]
    return [*li(rd, (value - low) >> 12), 12 << 20 | rd << 15 | 1 << 12 | rd << 7 | 0x13, addi(rd, rd, low)]


class Leap(NamedTuple):
    """A branch, or a jump where it has no kind, to a label."""

    kind: int
    rs1: int
    rs2: int
    label: str


class Code:
    """Instructions one after the other, which may lead to labels."""

    def __init__(self, address: int = CODE + PAGE) -> None:
        self.address = address
        self.words: List[Union[int, Leap]] = []
        self.labels: Dict[str, int] = {}

    def here(self) -> int:
        """The address of the next instruction."""
        return self.address + 4 * len(self.words)

    def add(self, *words: int) -> None:
        self.words += words

    def li(self, rd: int, value: int) -> None:
        self.words += li(rd, value)

    def label(self, name: str) -> str:
        self.labels[name] = self.here()
        return name

    def fresh(self) -> str:
        """A label here whose name no other has."""
        return self.label(f"at {len(self.words)} {len(self.labels)}")

    def branch(self, kind: int, rs1: int, rs2: int, label: str) -> None:
        self.words.append(Leap(kind, rs1, rs2, label))

    def jump(self, label: str, rd: int = ZERO) -> None:
        self.words.append(Leap(-1, rd, 0, label))

    def call(self, number: int, *arguments: int) -> None:
        """A system call with these arguments; other registers stay as they are."""
        for place, argument in enumerate(arguments):
            self.li(A0 + place, argument)
        self.li(A7, number)
        self.add(ECALL)

    def loop(self, register: int, count: int) -> "Loop":
        """What stands in the block is done so many times; the register counts down."""
        return Loop(self, register, count)

    def spin(self, count: int) -> None:
        """Two instructions, so many times."""
        with self.loop(T0, count):
            pass

    def exit(self, code: int) -> None:
        self.call(EXIT, code)

    def bytes(self) -> bytes:
        return b"".join(struct.pack("<I", self.word(at, word)) for at, word in enumerate(self.words))

    def word(self, at: int, word: Union[int, Leap]) -> int:
        if not isinstance(word, Leap):
            return word & 0xFFFFFFFF
        offset = self.labels[word.label] - self.address - 4 * at
        if word.kind < 0:
            return jump_to(word.rs1, offset)
        return branch_to(word.kind, word.rs1, word.rs2, offset)


class Loop:
    """A loop of at least one round."""

    def __init__(self, code: Code, register: int, count: int) -> None:
        self.code, self.register, self.count = code, register, count
        self.start = ""

    def __enter__(self) -> None:
        self.code.li(self.register, self.count)
        self.start = self.code.fresh()

    def __exit__(self, *_: object) -> None:
        self.code.add(addi(self.register, self.register, -1))
        # A branch reaches 4,096 bytes alone.
        behind = f"behind {self.start}"
        self.code.branch(BEQ, self.register, ZERO, behind)
        self.code.jump(self.start)
        self.code.label(behind)


class Segment(NamedTuple):
    """A part of a program: its address, its bytes, how many there are in memory, and its rights."""

    address: int
    data: bytes
    size: int
    rights: int


def file_header(entry: int, count: int) -> bytes:
    return b"\x7fELF\x02\x01\x01" + bytes(9) + struct.pack(
        "<HHIQQQIHHHHHH", 2, 243, 1, entry, 64, 0, 0, 64, 56, count, 0, 0, 0)


def program_header(segment: Segment, offset: int, kind: int = 1) -> bytes:
    return struct.pack("<IIQQQQQQ", kind, segment.rights, offset, segment.address, segment.address,
                       len(segment.data), segment.size, PAGE)


def executable(entry: int, segments: List[Segment]) -> bytes:
    """An ELF file of these segments. Their bytes stand one after the other behind the headers."""
    start = 64 + 56 * len(segments)
    headers, data = file_header(entry, len(segments)), b""
    for segment in segments:
        headers += program_header(segment, start + len(data))
        data += segment.data
    return headers + data


def program(code: Code, *data: Tuple[int, bytes, int]) -> bytes:
    """The executable of some code, and of data with their sizes in memory, which may be written."""
    text = code.bytes()
    segments = [Segment(code.address, text, len(text), READ | EXECUTE)]
    segments += [Segment(address, part, max(size, len(part)), READ | WRITE) for address, part, size in data]
    return executable(code.address, segments)
