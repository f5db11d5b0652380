"""What of a file isn't as it should be for the program to start it: an executable, ELF-64, static, for RISC-V."""
from __future__ import annotations

import struct
from typing import Iterator, List, NamedTuple

PAGE = 4096
PAGE_LIMIT = 16_384
# The pages of the stack, and the one to which handlers of signals return.
OWN_PAGES = 257
LOWEST, HIGHEST = 0x1000, 0x20_0000_0000
ADDRESS_LIMIT = 0x40_0000_0000
HEADER, PROGRAM_HEADER, HEADERS_LIMIT = 64, 56, 64
PT_LOAD, PT_INTERP = 1, 3
ET_REL, ET_EXEC, ET_DYN = 1, 2, 3
RISCV = 243
COMPRESSED, FLOATS = 1, 6

MACHINES = {3: "x86", 8: "MIPS", 20: "PowerPC", 21: "64-bit PowerPC", 22: "S/390", 40: "32-bit ARM", 62: "x86-64",
            183: "64-bit ARM", 258: "LoongArch"}
TYPES = {ET_REL: "an object file that was not linked", 4: "a core dump"}
BUILD = "build it with -march=rv64im -mabi=lp64 -static -fno-pie -no-pie"


class Header(NamedTuple):
    """The fields of a file's header that count here."""

    type: int
    machine: int
    entry: int
    table: int
    flags: int
    entry_size: int
    count: int


class Segment(NamedTuple):
    """A program header."""

    type: int
    offset: int
    address: int
    in_file: int
    in_memory: int


def is_elf(data: bytes) -> bool:
    return data.startswith(b"\x7fELF")


def header_of(data: bytes) -> Header:
    """The header of a file that has one whole, with 64 bits and the lowest byte first."""
    kind, machine, _, entry, table, _, flags, _, size, count = struct.unpack_from("<HHIQQQIHHH", data, 16)
    return Header(kind, machine, entry, table, flags, size, count)


def segments_of(data: bytes, header: Header) -> Iterator[Segment]:
    """The program headers, as far as they are in the file."""
    for at in range(header.table, header.table + header.count * PROGRAM_HEADER, PROGRAM_HEADER):
        if at + PROGRAM_HEADER > len(data):
            return
        kind, _, offset, address, _, in_file, in_memory, _ = struct.unpack_from("<IIQQQQQQ", data, at)
        yield Segment(kind, offset, address, in_file, in_memory)


def faults(data: bytes) -> List[str]:
    """All that is not as it should be of a file that begins as ELF; what follows from another fault is left out."""
    if len(data) < HEADER:
        return [f"it is cut short: it has {len(data)} bytes, and a header alone has {HEADER}"]
    if data[4:7] != b"\x02\x01\x01":
        wrong = "32-bit" if data[4] == 1 else "with the highest byte first" if data[5] == 2 else "of an unknown class"
        return [f"it is {wrong}, and not ELF-64 with the lowest byte first"]
    header = header_of(data)
    found = []
    if header.machine != RISCV:
        found.append(f"it is for {MACHINES.get(header.machine, f'the machine {header.machine}')}, and not for RISC-V")
    segments = list(segments_of(data, header))
    found += kind_faults(header, segments)
    if header.machine == RISCV:
        found += instruction_faults(header)
    return found + (table_faults(data, header) or ([] if found else segment_faults(data, segments)))


def kind_faults(header: Header, segments: List[Segment]) -> List[str]:
    """Whether it is static and stands at fixed addresses."""
    found = []
    if header.type == ET_DYN:
        found.append("it is position-independent (Type DYN)")
    elif header.type != ET_EXEC:
        found.append(f"it is {TYPES.get(header.type, f'of the type {header.type}')}, and no executable (Type EXEC)")
    if any(segment.type == PT_INTERP for segment in segments):
        found.append("it is not static: it asks for a program interpreter (INTERP)")
    return found


def instruction_faults(header: Header) -> List[str]:
    """What its flags say of its instructions. Such a file is started, and ends by a signal at the first of them."""
    found = []
    if header.flags & COMPRESSED:
        found.append("it has compressed instructions (flag RVC)")
    if header.flags & FLOATS:
        found.append("it has floating-point instructions (its flags name a float ABI)")
    return found


def table_faults(data: bytes, header: Header) -> List[str]:
    if header.table + header.count * PROGRAM_HEADER > len(data):
        return ["it is cut short: its program headers run past its end"]
    if header.entry_size != PROGRAM_HEADER:
        return [f"its program headers have {header.entry_size} bytes, and not {PROGRAM_HEADER}"]
    if not 0 < header.count <= HEADERS_LIMIT:
        return [f"it has {header.count} program headers, and not 1 to {HEADERS_LIMIT}"]
    if header.entry >= ADDRESS_LIMIT:
        return [f"it is entered at {header.entry:#x}, and not below {ADDRESS_LIMIT:#x}"]
    return []


def segment_faults(data: bytes, segments: List[Segment]) -> List[str]:
    loads = loaded(segments)
    if not loads:
        return ["it has no segment that takes memory"]
    for number, segment in enumerate(loads, 1):
        end = segment.address + segment.in_memory
        if segment.in_file > segment.in_memory:
            return [f"segment {number} has more bytes in the file than in memory"]
        if segment.offset + segment.in_file > len(data):
            return [f"it is cut short: segment {number} runs past its end"]
        if segment.address < LOWEST or end > HIGHEST:
            return [f"segment {number} stands at {segment.address:#x} to {end:#x}, "
                    f"and not within {LOWEST:#x} to {HIGHEST:#x}"]
        for other in loads[:number - 1]:
            if segment.address < other.address + other.in_memory and other.address < end:
                return [f"segment {number} shares bytes of memory with another one"]
    return []


def loaded(segments: List[Segment]) -> List[Segment]:
    return [segment for segment in segments if segment.type == PT_LOAD and segment.in_memory]


def is_too_large(data: bytes) -> bool:
    """Whether its segments have more pages than a process may have."""
    pages = set()
    for segment in loaded(list(segments_of(data, header_of(data)))):
        first, end = segment.address // PAGE, -(-(segment.address + segment.in_memory) // PAGE)
        if end - first > PAGE_LIMIT:
            return True
        pages.update(range(first, end))
    return len(pages) > PAGE_LIMIT - OWN_PAGES
