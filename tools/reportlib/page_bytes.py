"""Shows bytes that a run wrote as HTML: as text where they are text, and else in hexadecimal."""
from __future__ import annotations

import re
from html import escape
from typing import Iterator, Optional

from .streams import UNSAFE

# Of an event more bytes are not shown, so that a browser can show it.
SHOWN = 2**20
# How much comes before a mark that does not stand among the first bytes that are shown.
BEFORE_MARK = 2**12
DUMP_WIDTH = 8
# What would change how the rest is shown, but for tabs and lines' ends; and bytes that are no UTF-8.
NO_TEXT = re.compile(UNSAFE.pattern.replace("[\x00-\x1f", "[\x00-\x08\x0b-\x1f\udc80-\udcff") + "+")


def text_of(data: bytes) -> str:
    return data.decode("utf-8", "surrogateescape")


def bytes_of(text: str) -> bytes:
    return text.encode("utf-8", "surrogateescape")


def is_text(data: bytes) -> bool:
    """Whether at most an eighth of the bytes is no text."""
    return 8 * sum(len(bytes_of(found[0])) for found in NO_TEXT.finditer(text_of(data))) <= len(data)


def text_markup(data: bytes) -> str:
    """Text with its other bytes as `\\x` and two hexadecimal digits, each run of them in an element of its own."""
    parts, at, text = [], 0, text_of(data)
    for found in NO_TEXT.finditer(text):
        shown = "".join(f"\\x{byte:02x}" for byte in bytes_of(found[0]))
        parts.append(f'{escape(text[at:found.start()])}<span class="bytes">{shown}</span>')
        at = found.end()
    return "".join(parts) + escape(text[at:])


def character_start(data: bytes, at: int) -> int:
    """The offset at which the character begins whose byte stands at this one."""
    start = at
    while start < len(data) and start > max(at - 3, 0) and data[start] & 0xC0 == 0x80:
        start -= 1
    return start


def marked_markup(data: bytes, mark: int) -> str:
    """Text whose line is marked from an offset on. A mark at the end of a line has no text."""
    mark = character_start(data, mark)
    end = (data + b"\n").index(b"\n", mark)
    kind = ' class="end"' if end == mark else ""
    return f"{text_markup(data[:mark])}<mark{kind}>{text_markup(data[mark:end])}</mark>{text_markup(data[end:])}"


def dump_lines(data: bytes, offset: int, mark: Optional[int]) -> Iterator[str]:
    """Lines of a dump, of which that with the byte at the mark is marked."""
    for at in range(0, len(data), DUMP_WIDTH):
        line = data[at:at + DUMP_WIDTH]
        plain = "".join(chr(byte) if 32 <= byte < 127 else "." for byte in line)
        text = escape(f"{offset + at:08x}  {line.hex(' '):{3 * DUMP_WIDTH - 1}}  {plain}")
        yield f"<mark>{text}</mark>\n" if mark is not None and at <= mark < at + DUMP_WIDTH else f"{text}\n"


def grouped(count: int, one: str, many: str) -> str:
    """How many there are, with the digits in groups of three."""
    return f"{count:,} {one if count == 1 else many}"


def told_size(count: int) -> str:
    return grouped(count, "byte", "bytes")


def note(count: int, place: str) -> str:
    """Says how many bytes are left out before or behind those that are shown, if any are."""
    return f'<p class="note">{told_size(count)} {place} {"is" if count == 1 else "are"} left out here</p>' * (count > 0)


def markup(data: bytes, mark: Optional[int] = None) -> str:
    """The bytes of an event as HTML, marked from an offset on."""
    start = 0 if mark is None or mark < SHOWN else character_start(data, mark - BEFORE_MARK)
    end = character_start(data, start + SHOWN) if start + SHOWN < len(data) else len(data)
    shown = data[start:end]
    place = None if mark is None else mark - start
    if not is_text(shown):
        body, kind = "".join(dump_lines(shown, start, place)), ' class="dump"'
    else:
        body, kind = text_markup(shown) if place is None else marked_markup(shown, place), ""
    # The parser of HTML drops a line's end right behind the tag.
    return f"{note(start, 'before')}<pre{kind}>\n{body}</pre>{note(len(data) - end, 'more')}"
