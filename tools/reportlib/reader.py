"""Reads reports of dettrace strictly, in blocks as they come.

What is read is a report or a prefix of one, which is what a run leaves that failed half-way: such a report is called
cut. Anything else is refused at the first byte that no report has there.
"""
from __future__ import annotations

import enum
import functools
import os
import re
from typing import Generator, Iterator, List, NamedTuple, Optional, Tuple, Union

HIGHEST = 2**64 - 1
LINE_END = b"\n"[0]

# Lines as most reports have them. What these do not match a Cursor reads, which knows every line and every mistake.
NUMBER = rb"(0|[1-9][0-9]{0,18})"
FAST_EVENT = re.compile(rb"(?:out ([12]) ([1-9][0-9]{0,18})|exit ([1-9][0-9]{0,18}) (code|signal) ([1-9]?[0-9]))\n")
FAST_FILE = re.compile(rb"file %b ([0-7]{4}) %b %b ([0-9a-f]{64}) " % (NUMBER, NUMBER, NUMBER))
FAST_DIR = re.compile(rb"dir %b ([0-7]{4}) %b " % (NUMBER, NUMBER))
NOT_FAST = re.compile(rb"[^!-~]|//|/$|%(?![01][0-9A-F]|2[05]|7F|[89A-F][0-9A-F])")
PLAIN = re.compile(rb"[!-$&-.0-~]+")
ESCAPE = re.compile(rb"%(..)")
GREATER_PATH = "a path behind the one before it in byte order"
ESCAPED = frozenset([*range(33), ord("%"), *range(127, 256)])
DIGIT_VALUES = {digit: value for value, digit in enumerate(b"0123456789ABCDEF")}


class Wrong(Exception):
    """A byte of a line that no report has there, and what was expected."""

    def __init__(self, index: int, expected: str) -> None:
        super().__init__(index, expected)
        self.index, self.expected = index, expected


class Short(Exception):
    """A line that ends too early, and is right up to there."""


class NotReport(Exception):
    """Says where and why a text is no report."""


class Header(NamedTuple):
    version: int


class Output(NamedTuple):
    """Bytes of an event `out`, from its byte `start` on. The first such item of an event may have none."""

    stream: int
    size: int
    start: int
    data: bytes


class Exit(NamedTuple):
    pid: int
    how: str
    number: int


class Verdict(NamedTuple):
    kind: str
    pid: Optional[int] = None
    number: Optional[int] = None
    errno: Optional[int] = None


class Tree(NamedTuple):
    count: int


class Entry(NamedTuple):
    kind: str
    inode: int
    mode: Optional[str]
    stamp: int
    size: Optional[int]
    sha256: Optional[str]
    path: bytes
    target: Optional[bytes]
    device: Optional[str] = None


class Cut(NamedTuple):
    """The end of a report that is cut: its size, where that is in words, and the beginning of the line that it cut."""

    size: int
    where: str
    rest: bytes


# There may be millions of these, and this takes a third of the time that their own constructors take.
new_output = functools.partial(tuple.__new__, Output)
new_exit = functools.partial(tuple.__new__, Exit)

Item = Union[Header, Output, Exit, Verdict, Tree, Entry]


def named(data: bytes) -> str:
    """The bytes of a line, or one of them, in words."""
    if data in (b"\n", b" "):
        return "a line's end" if data == b"\n" else "a space"
    if len(data) == 1 and not 32 < data[0] < 127:
        return f"the byte 0x{data[0]:02X}"
    return f'"{data.decode().rstrip()}"'


def counted(count: int, one: str, many: str) -> str:
    return f"{count} {one if count == 1 else many}"


def shown_path(path: bytes) -> str:
    """A path as reports show it."""
    return "".join(f"%{byte:02X}" if byte in ESCAPED else chr(byte) for byte in path)


def common_length(first: bytes, second: bytes) -> int:
    return len(first) if first == second else len(os.path.commonprefix([first, second]))


def told_place(cut: Cut) -> str:
    return f"after {counted(cut.size, 'byte', 'bytes')}, {cut.where}"


class Cursor:
    """Reads a line from its start. Raises Wrong at the first byte that no line has there, and Short at the end."""

    def __init__(self, text: bytes) -> None:
        self.text, self.at = text, 0

    def peek(self) -> int:
        if self.at == len(self.text):
            raise Short
        return self.text[self.at]

    def word(self, *words: bytes) -> bytes:
        """One of these words, none of which begins another."""
        start = self.at
        while True:
            self.peek()
            seen = self.text[start:self.at + 1]
            fitting = [word for word in words if word.startswith(seen)]
            if not fitting:
                raise Wrong(self.at, " or ".join(named(word[self.at - start:]) for word in words))
            self.at += 1
            if fitting[0] == seen:
                return seen
            words = tuple(fitting)

    def number(self, low: int = 0, high: int = HIGHEST) -> int:
        start, value = self.at, 0
        while True:
            digit = self.peek() - ord("0")
            if not 0 <= digit <= 9 and self.at > start:
                return value
            if self.at > start and value == 0:
                raise Wrong(self.at, "a number without leading zeros")
            value = value * 10 + digit
            if not 0 <= digit <= 9 or not low <= value <= high:
                raise Wrong(self.at, f"a number from {low} to {high}")
            self.at += 1

    def digits(self, allowed: bytes, count: int, what: str) -> str:
        start = self.at
        while self.at < start + count:
            if self.peek() not in allowed:
                raise Wrong(self.at, what)
            self.at += 1
        return self.text[start:self.at].decode()

    def path(self, after: bytes) -> bytes:
        """A path that is greater than the one before it, without its escapes."""
        found, is_tied = bytearray(), True
        while True:
            byte = self.peek()
            is_end = byte in b" \n"
            if found[-1:] in (b"", b"/") and (is_end or (byte == ord("/")) == bool(found)):
                raise Wrong(self.at, "a name of the path" if found else 'a path, which begins with "/"')
            if is_end and is_tied:
                raise Wrong(self.at, GREATER_PATH)
            if is_end:
                return bytes(found)
            # As long as the path is a beginning of the one before, its next byte may not be less than that one's.
            is_tied = is_tied and len(found) < len(after)
            if self.skip_plain(found, after if is_tied else None):
                continue
            least = after[len(found)] if is_tied else 0
            found.append(self.character(least))
            is_tied = is_tied and found[-1] == least

    def target(self) -> bytes:
        found = bytearray()
        while not found or self.peek() not in b" \n":
            if not self.skip_plain(found):
                found.append(self.character(0))
        return bytes(found)

    def skip_plain(self, found: bytearray, tied_to: Optional[bytes] = None) -> bool:
        """Reads what stands for itself at once, if there is some, and only as far as another path has the same."""
        run = PLAIN.match(self.text, self.at)
        data = run[0] if run else b""
        if tied_to is not None:
            data = data[:common_length(data, tied_to[len(found):len(found) + len(data)])]
        found += data
        self.at += len(data)
        return bool(data)

    def character(self, least: int) -> int:
        """A byte of a path or a target, which may be escaped."""
        byte = self.peek()
        if byte == ord("%"):
            self.at += 1
            return self.escape(least)
        if byte in ESCAPED:
            raise Wrong(self.at, 'a character or, for a control, a space, "%" or a byte past ASCII, its escape by "%"')
        if byte < least:
            raise Wrong(self.at, GREATER_PATH)
        self.at += 1
        return byte

    def escape(self, least: int) -> int:
        """The two digits of an escape. The first may already show that the byte is too small."""
        values = sorted(ESCAPED)
        for shift in (4, 0):
            digit = DIGIT_VALUES.get(self.peek())
            values = [value for value in values if (value >> shift) & 15 == digit]
            if not values:
                raise Wrong(self.at, "two upper-case hexadecimal digits of a byte that is to be escaped")
            if values[-1] < least:
                raise Wrong(self.at, GREATER_PATH)
            self.at += 1
        return values[0]


def read_verdict(cursor: Cursor, may_not_start: bool) -> Verdict:
    """The rest of a verdict's line."""
    words = [b"ended\n", b"deadlock\n", b"budget\n", b"unsupported "] + [b"nostart "] * may_not_start
    kind = cursor.word(*words)
    if kind == b"unsupported ":
        pid = cursor.number(1)
        cursor.word(b" ")
        verdict = Verdict("unsupported", pid=pid, number=cursor.number())
    elif kind == b"nostart ":
        verdict = Verdict("nostart", errno=cursor.number())
    else:
        return Verdict(kind.strip().decode())
    cursor.word(b"\n")
    return verdict


# How lines of the tree begin in a report of each version.
KINDS = {1: (b"file ", b"dir ", b"link "), 2: (b"file ", b"dir ", b"link ", b"dev ")}


def read_entry(cursor: Cursor, after: bytes, version: int) -> Entry:
    """A line of the tree, behind the one of the path `after`. Only a report of version 2 has devices."""
    mode = size = sha256 = target = device = None
    kind = cursor.word(*KINDS[version]).strip().decode()
    inode = cursor.number()
    cursor.word(b" ")
    if kind != "link":
        mode = cursor.digits(b"01234567", 4, "a mode of four octal digits")
        cursor.word(b" ")
    stamp = cursor.number()
    cursor.word(b" ")
    if kind == "file":
        size = cursor.number()
        cursor.word(b" ")
        sha256 = cursor.digits(b"0123456789abcdef", 64, "a digest of 64 lower-case hexadecimal digits")
        cursor.word(b" ")
    if kind == "dev":
        device = cursor.word(b"null ", b"zero ", b"random ").strip().decode()
    path = cursor.path(after)
    if kind == "link":
        cursor.word(b" ")
        target = cursor.target()
    cursor.word(b"\n")
    return Entry(kind, inode, mode, stamp, size, sha256, path, target, device)


def fast_entry(text: bytes, after: bytes) -> Optional[Entry]:
    """The same for a file or a directory, at once, if nothing is wrong with its line."""
    found = FAST_FILE.match(text)
    if found:
        inode, mode, stamp, size, sha256 = found.groups()
        kind, rest = "file", (int(size), sha256.decode())
    else:
        found = FAST_DIR.match(text)
        if not found:
            return None
        inode, mode, stamp = found.groups()
        kind, rest = "dir", (None, None)
    written = text[found.end():-1]
    if not written.startswith(b"/") or not text.endswith(b"\n") or NOT_FAST.search(written):
        return None
    path = ESCAPE.sub(lambda escape: bytes.fromhex(escape[1].decode()), written) if b"%" in written else written
    return Entry(kind, int(inode), mode.decode(), int(stamp), *rest, path, None) if path > after else None


# The id of the first process.
FIRST = b"1"


class Phase(enum.Enum):
    HEADER = enum.auto()
    EVENTS = enum.auto()
    OUTPUT = enum.auto()
    TREE = enum.auto()
    ENTRIES = enum.auto()
    END = enum.auto()


class Reader:
    """Turns blocks of a report into items. It holds no more than a line, and no bytes of an output."""

    def __init__(self) -> None:
        self.phase = Phase.HEADER
        self.version = 1
        self.events = self.entries = self.count = 0
        self.verdict: Optional[Verdict] = None
        # How the run's own process ended, which is the first one.
        self.own_end: Optional[Exit] = None
        self.stream = self.size = self.done = 0
        self.path = b""
        self.pending, self.checked = bytearray(), 0
        self.offset = self.line_ends = 0

    def feed(self, block: bytes) -> Iterator[Item]:
        """What ends in the next block, and the bytes of outputs in it."""
        at = 0
        while at < len(block):
            if self.phase is Phase.OUTPUT:
                at = yield from self._output(block, at)
            elif self.phase is Phase.EVENTS and not self.pending:
                items, at = self._whole_events(block, at)
                yield from items
                if at < len(block):
                    at = yield from self._line(block, at)
            else:
                at = yield from self._line(block, at)
        self.offset += len(block)
        self.line_ends += block.count(b"\n")

    def finish(self) -> Optional[Cut]:
        """The end: None of a whole report, or where it is cut."""
        if self.phase is Phase.END:
            return None
        if self.pending:
            self._item(b"", bytes(self.pending), -len(self.pending))
        return Cut(self.offset, self._where(), bytes(self.pending))

    def _whole_events(self, block: bytes, at: int) -> Tuple[List[Item], int]:
        """The events that stand whole in the block, up to the first that does not, and the offset behind them."""
        items: List[Item] = []
        match, limit = FAST_EVENT.match, len(block)
        found = match(block, at)
        while found:
            stream, size, pid, how, number = found.groups()
            start = found.end()
            if stream:
                length = int(size)
                end = start + length
                if end >= limit or block[end] != LINE_END:
                    break
                items.append(new_output((int(stream), length, 0, block[start:end])))
                at = end + 1
            elif how == b"code" or 1 <= int(number) <= 64:
                items.append(new_exit((int(pid), how.decode(), int(number))))
                if pid == FIRST:
                    self.own_end = items[-1]
                at = start
            else:
                break
            found = match(block, at)
        self.events += len(items)
        return items, at

    def _output(self, block: bytes, at: int) -> Generator[Item, None, int]:
        if self.done == self.size:
            if block[at] != LINE_END:
                what = f"a line's end behind the {counted(self.size, 'byte', 'bytes')} of the output"
                raise self._refusal(block, at, what, block[at:at + 1])
            self.events, self.phase = self.events + 1, Phase.EVENTS
            return at + 1
        data = block[at:at + self.size - self.done]
        start, self.done = self.done, self.done + len(data)
        yield Output(self.stream, self.size, start, data)
        return at + len(data)

    def _line(self, block: bytes, at: int) -> Generator[Item, None, int]:
        end = block.find(b"\n", at) + 1
        start = at - len(self.pending)
        if end:
            text = bytes(self.pending) + block[at:end]
            self.pending, self.checked = bytearray(), 0
            item = self._item(block, text, start)
            if item is not None:
                yield item
            return end
        self.pending += block[at:]
        # What is wrong is found before the line has twice the length, and all looks together take linear time.
        if len(self.pending) >= 2 * self.checked:
            self._item(block, bytes(self.pending), start)
            self.checked = len(self.pending)
        return len(block)

    def _item(self, block: bytes, text: bytes, start: int) -> Optional[Item]:
        """What a line is that begins at this offset of the block, or before it; None if it is right but not whole."""
        try:
            return self._read(text)
        except Short:
            return None
        except Wrong as wrong:
            byte = text[wrong.index:wrong.index + 1]
            raise self._refusal(block, start + wrong.index, wrong.expected, byte) from None

    def _read(self, text: bytes) -> Item:
        """Nothing changes before the line has been read up to its end."""
        cursor = Cursor(text)
        if self.phase is Phase.EVENTS:
            return self._event(cursor)
        if self.phase is Phase.ENTRIES:
            entry = fast_entry(text, self.path) or read_entry(cursor, self.path, self.version)
            self.path, self.entries = entry.path, self.entries + 1
            self.phase = Phase.END if self.entries == self.count else Phase.ENTRIES
            return entry
        if self.phase is Phase.TREE:
            cursor.word(b"tree ")
            count = cursor.number()
            cursor.word(b"\n")
            self.count, self.phase = count, Phase.ENTRIES if count else Phase.END
            return Tree(count)
        if self.phase is Phase.END:
            raise Wrong(0, f"nothing behind {counted(self.count, 'line', 'lines')} of the tree")
        self.version = int(cursor.word(b"dettrace 1\n", b"dettrace 2\n").split()[1])
        self.phase = Phase.EVENTS
        return Header(self.version)

    def _event(self, cursor: Cursor) -> Item:
        word = cursor.word(b"out ", b"exit ", b"verdict ")
        if word == b"verdict ":
            self.verdict = read_verdict(cursor, may_not_start=self.events == 0)
            self.phase = Phase.TREE
            return self.verdict
        if word == b"out ":
            stream = int(cursor.word(b"1 ", b"2 "))
            size = cursor.number(1)
            cursor.word(b"\n")
            self.phase, self.stream, self.size, self.done = Phase.OUTPUT, stream, size, 0
            return Output(stream, size, 0, b"")
        pid = cursor.number(1)
        cursor.word(b" ")
        how = cursor.word(b"code ", b"signal ").strip().decode()
        number = cursor.number(0, 255) if how == "code" else cursor.number(1, 64)
        cursor.word(b"\n")
        self.events += 1
        end = Exit(pid, how, number)
        if pid == int(FIRST):
            self.own_end = end
        return end

    def _refusal(self, block: bytes, at: int, expected: str, found: bytes) -> NotReport:
        line = self.line_ends + block.count(b"\n", 0, max(at, 0)) + 1
        return NotReport(f"byte {self.offset + at + 1}, line {line}: not a report: "
                         f"expected {expected}, found {named(found)}")

    def _where(self) -> str:
        """Where the end is, in words."""
        if self.phase is Phase.HEADER:
            return "in the first line" if self.pending else "before the first line"
        if self.phase is Phase.OUTPUT:
            return f"in event {self.events + 1}"
        if self.phase is Phase.TREE:
            return "in the line that begins the tree" if self.pending else "behind the verdict"
        if self.phase is Phase.ENTRIES:
            line = f"tree line {self.entries + 1} of {self.count}"
            return f"in {line}" if self.pending else f"before {line}"
        if self.pending:
            return "in the verdict" if self.pending.startswith(b"v") else f"in event {self.events + 1}"
        return f"behind event {self.events}" if self.events else "behind the first line"
