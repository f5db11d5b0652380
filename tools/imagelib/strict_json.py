"""The value that a text is, read as the program reads it.

That is RFC 8259 to the letter, and narrower than Python's `json` in four ways: arrays and objects nest 127 deep at
most, half of a surrogate pair is refused, a number too large for a double is refused, and there are no other numbers
than those of the grammar. Of a member that comes twice the last value counts, but each is read.

Texts are `str`, arrays `list`, objects `dict`. A whole number without point and exponent from -2^63 to 2^64 - 1 is an
`int`; every other number, and `-0`, is a `float`."""
from __future__ import annotations

import math
import re
from typing import Any, Callable, Dict, List, Union

DEPTH_LIMIT = 127

SPACE = re.compile(r"[ \t\n\r]*")
NUMBER = re.compile(r"-?(?:0|[1-9][0-9]*)(?:\.[0-9]+)?(?:[eE][+-]?[0-9]+)?")
WORD = re.compile(r"[^ \t\n\r{}\[\]:,\"\\]*")
PLAIN = re.compile(r'[^"\\\x00-\x1f]*')
ESCAPE = re.compile(r'\\(?:(["\\/bfnrt])|u([0-9A-Fa-f]{4}))')

ESCAPED = {'"': '"', "\\": "\\", "/": "/", "b": "\b", "f": "\f", "n": "\n", "r": "\r", "t": "\t"}
LITERALS = {"true": True, "false": False, "null": None}

# Longer ones are past 2^64, and Python refuses to convert very long ones.
LONGEST_WHOLE = 20


class JsonError(Exception):
    """A text that is no JSON: why, and the line and column (from 1) where that shows."""

    def __init__(self, text: str, at: int, why: str) -> None:
        self.line = text.count("\n", 0, at) + 1
        self.column = at - (text.rfind("\n", 0, at) + 1) + 1
        self.why = why
        super().__init__(f"line {self.line}, column {self.column}: {why}")


def read(text: str) -> Any:
    """The value that the whole text is; JsonError where it is none."""
    reader = Reader(text)
    value = reader.value(DEPTH_LIMIT)
    if reader.peek():
        raise reader.error("something follows the value")
    return value


class Reader:
    """Reads a text from its start on."""

    def __init__(self, text: str) -> None:
        self.text = text
        self.at = 0

    def error(self, why: str) -> JsonError:
        return JsonError(self.text, self.at, why)

    def peek(self) -> str:
        """The next character that is no white space; empty at the end."""
        self.at = SPACE.match(self.text, self.at).end()
        return self.text[self.at : self.at + 1]

    def value(self, depth: int) -> Any:
        """A value in which arrays and objects nest no deeper than `depth`."""
        first = self.peek()
        if first == '"':
            return self.string()
        if first in ("{", "["):
            if depth == 0:
                raise self.error(f"arrays and objects nest more than {DEPTH_LIMIT} deep")
            return self.object(depth - 1) if first == "{" else self.array(depth - 1)
        if first == "":
            raise self.error("the text ends where a value is wanted")
        return self.word()

    def array(self, depth: int) -> List[Any]:
        found: List[Any] = []
        self.items("]", lambda: found.append(self.value(depth)))
        return found

    def object(self, depth: int) -> Dict[str, Any]:
        found: Dict[str, Any] = {}
        self.items("}", lambda: self.member(found, depth))
        return found

    def items(self, end: str, read_one: Callable[[], None]) -> None:
        """What stands between an opening bracket, which is next, and its end, with commas between."""
        self.at += 1
        if self.peek() == end:
            self.at += 1
            return
        while True:
            read_one()
            after = self.peek()
            if after not in (",", end):
                raise self.error(f"`,` or `{end}` is wanted here")
            self.at += 1
            if after == end:
                return

    def member(self, found: Dict[str, Any], depth: int) -> None:
        if self.peek() != '"':
            raise self.error('a member\'s name in `"` is wanted here')
        name = self.string()
        if self.peek() != ":":
            raise self.error("`:` is wanted here")
        self.at += 1
        found[name] = self.value(depth)

    def string(self) -> str:
        """A text, whose opening quote is next."""
        pieces = []
        self.at += 1
        while True:
            plain = PLAIN.match(self.text, self.at)
            pieces.append(plain.group())
            self.at = plain.end()
            end = self.text[self.at : self.at + 1]
            if end == '"':
                self.at += 1
                return "".join(pieces)
            if end == "":
                raise self.error("the text ends within a string")
            if end != "\\":
                raise self.error("a control character stands in a string without an escape")
            pieces.append(self.escaped())

    def escaped(self) -> str:
        """The character that an escape stands for, or a pair of them that are the halves of a surrogate pair."""
        found = self.escape()
        if found.group(1):
            return ESCAPED[found.group(1)]
        code = int(found.group(2), 16)
        if 0xD800 <= code < 0xDC00:
            low = ESCAPE.match(self.text, self.at)
            second = int(low.group(2), 16) if low and low.group(2) else 0
            if 0xDC00 <= second < 0xE000:
                self.at = low.end()
                return chr(0x10000 + (code - 0xD800) * 0x400 + (second - 0xDC00))
        if 0xD800 <= code < 0xE000:
            self.at = found.start()
            raise self.error("half of a surrogate pair stands alone")
        return chr(code)

    def escape(self) -> re.Match:
        found = ESCAPE.match(self.text, self.at)
        if not found:
            raise self.error("no such escape")
        self.at = found.end()
        return found

    def word(self) -> Union[int, float, bool, None]:
        """A number or a literal."""
        word = WORD.match(self.text, self.at).group()
        if word in LITERALS:
            self.at += len(word)
            return LITERALS[word]
        if not NUMBER.fullmatch(word):
            has_mark = self.text.startswith("\ufeff", self.at)
            raise self.error("a byte order mark stands here" if has_mark else "a value is wanted here")
        number = number_of(word)
        if math.isinf(number):
            raise self.error("the number is too large for a double")
        self.at += len(word)
        return number


def number_of(word: str) -> Union[int, float]:
    """The number of a word; infinite where no double is near it."""
    if len(word) <= LONGEST_WHOLE and word.lstrip("-").isdigit() and word != "-0":
        whole = int(word)
        if -(2**63) <= whole < 2**64:
            return whole
    return float(word)
