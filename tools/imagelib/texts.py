"""Text for people: names as a terminal can show them, and counts."""
from __future__ import annotations

import re
from typing import Union

# Controls, marks that turn the direction of a text or cannot be seen, bytes that are no UTF-8 (Python holds them as
# surrogates), and the backslash that the escapes themselves begin with. The set is written out, since Python's own
# notion of what can be printed changes from version to version.
UNSHOWN = re.compile(
    "[\x00-\x1f\x7f-\x9f\\\\\u00ad\u061c\u180e\u200b-\u200f\u2028-\u202e\u2060-\u206f\ufeff\ufff9-\ufffb"
    "\ud800-\udfff\U000e0000-\U000e007f]"
)

SHORT = {"\n": "\\n", "\r": "\\r", "\t": "\\t", "\\": "\\\\"}


def shown(name: Union[str, bytes]) -> str:
    """A name on one line, with escapes for what would upset a terminal; bytes that are no UTF-8 as `\\xNN`."""
    text = name.decode("utf-8", "surrogateescape") if isinstance(name, bytes) else name
    return UNSHOWN.sub(escape, text)


def quoted(name: Union[str, bytes]) -> str:
    """A name as messages have it. A shell takes it as it is, unless something in it is escaped."""
    return "'" + shown(name).replace("'", "\\'") + "'"


def escape(match: re.Match) -> str:
    character = match.group()
    code = ord(character)
    if character in SHORT:
        return SHORT[character]
    if 0xDC80 <= code <= 0xDCFF:
        return f"\\x{code - 0xDC00:02x}"
    if code < 0x80:
        return f"\\x{code:02x}"
    return f"\\u{code:04x}" if code < 0x10000 else f"\\U{code:08x}"


def counted(count: int, one: str, many: str) -> str:
    """A number of things, as `1 file` or `2 files`."""
    return f"{count} {one if count == 1 else many}"
