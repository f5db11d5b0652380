"""Compares two reports of dettrace: says what differs first, and shows it as a unified diff."""
from __future__ import annotations

import collections
import copy
import difflib
import itertools
import re
from typing import Iterator, List, NamedTuple, Optional, Sequence, Tuple

from .reader import (Cut, Entry, Exit, Header, Item, NotReport, Output, Phase, Reader, Tree, Verdict, common_length,
                           counted, named, shown_path, told_place)
from .streams import BLOCK, Sink, Source, safe

SHOWN_LINES = 200
SHOWN_PREFIX = 256
CONTEXT = 3
CODE_0 = ("code", 0)
STREAM_NAMES = {1: "standard output", 2: "standard error"}


def end_of(reader: Reader, source: Source) -> Optional[Cut]:
    try:
        return reader.finish()
    except NotReport as error:
        raise source.refusal(error) from None


class Side:
    """One of two reports from their first difference on: its items, where it is cut, and the beginning of its text."""

    def __init__(self, letter: str, source: Source, reader: Reader, rest: bytes) -> None:
        self.letter, self.source = letter, source
        self.is_ended = not rest
        self.cut: Optional[Cut] = None
        self.text, self.is_whole = bytearray(), True
        self.reader = reader
        self.items = self._read(reader, rest)

    def _read(self, reader: Reader, rest: bytes) -> Iterator[Item]:
        try:
            for block in itertools.chain([rest], iter(self.source.block, b"")):
                self.is_whole = self.is_whole and len(self.text) + len(block) <= BLOCK
                self.text += block[:BLOCK - len(self.text)]
                yield from reader.feed(block)
        except NotReport as error:
            raise self.source.refusal(error) from None
        self.cut = end_of(reader, self.source)

    def next(self) -> Optional[Item]:
        return next(self.items, None)

    def bytes_of(self, item: Output) -> Iterator[bytes]:
        """The bytes of an event, of which this is the first item, in pieces with at least one."""
        following: Optional[Item] = item
        while isinstance(following, Output):
            if following.data:
                yield following.data
            is_last = following.start + len(following.data) == following.size
            following = None if is_last else self.next()


class Fork(NamedTuple):
    """Where two reports part: the reader, the text before, where its last line begins, and what each has left."""

    reader: Reader
    before: bytes
    line_start: int
    rests: Tuple[bytes, bytes]


def fork_of(a: Source, b: Source) -> Fork:
    """Reads what the two have in common, of which the last block or more is kept."""
    reader, before, line_start = Reader(), b"", 0
    try:
        while True:
            first, second = a.block(), b.block()
            shared = first[:common_length(first, second)]
            if b"\n" in shared:
                line_start = reader.offset + shared.rindex(b"\n") + 1
            collections.deque(reader.feed(shared), maxlen=0)
            if first != second or not first:
                return Fork(reader, before + shared, line_start, (first[len(shared):], second[len(shared):]))
            before = shared
    except NotReport as error:
        raise a.refusal(error) from None


def told_output(item: Output) -> str:
    return f"{counted(item.size, 'byte was', 'bytes were')} written to {STREAM_NAMES[item.stream]}"


def told_end(item: Exit) -> str:
    return f"with code {item.number}" if item.how == "code" else f"by signal {item.number}"


def told_verdict(item: Verdict) -> str:
    if item.kind == "unsupported":
        return f"unsupported (system call {item.number} of process {item.pid})"
    return f"nostart (errno {item.errno})" if item.kind == "nostart" else item.kind


def told_event(item: Optional[Item], letter: str) -> str:
    """What stands where an event is due; None where the report is cut in its line."""
    if isinstance(item, Output):
        return f"{told_output(item)} in {letter}"
    if isinstance(item, Exit):
        return f"process {item.pid} ended {told_end(item)} in {letter}"
    if isinstance(item, Verdict):
        return f"the verdict, {told_verdict(item)}, comes in {letter}"
    return f"{letter} is cut in it"


def told_bytes(a: Side, b: Side, first: Output, second: Output) -> str:
    """How far the bytes of two events of one stream and of different sizes are equal."""
    left = right = b""
    lefts, rights = a.bytes_of(first), b.bytes_of(second)
    length = 0
    while True:
        left, right = left or next(lefts, b""), right or next(rights, b"")
        size = min(len(left), len(right))
        equal = common_length(left[:size], right[:size])
        length += equal
        if equal < size:
            return f"byte {length + 1} is the first that differs"
        if not size:
            return f"the first {length} are equal" if length != 1 else "the first is equal"
        left, right = left[size:], right[size:]


def told_events(number: int, a: Side, b: Side) -> str:
    """How two reports differ whose events or verdicts do."""
    first, second = a.next(), b.next()
    if isinstance(first, Output) and isinstance(second, Output) and first.stream == second.stream:
        return (f"event {number} differs: {told_output(first)} in A, and {second.size} in B; "
                + told_bytes(a, b, first, second))
    if isinstance(first, Exit) and isinstance(second, Exit) and first.pid == second.pid:
        return f"event {number} differs: {told_event(first, 'A')}, and {told_end(second)} in B"
    pairs = [(first, "A"), (second, "B")]
    if {type(item) for item, _ in pairs if item is not None} == {Verdict}:
        told = [f"{told_verdict(item)} in {letter}" if item else f"{letter} is cut in it" for item, letter in pairs]
        return f"the verdict differs: {told[0]}, and {told[1]}"
    told = [told_event(item, letter) for item, letter in pairs]
    return f"event {number} differs: {told[0]}, and {told[1]}"


def told_fields(first: Entry, second: Entry) -> str:
    """What differs between two lines of one path."""
    names = {"kind": "kind", "inode": "inode", "mode": "mode", "stamp": "stamp", "size": "size",
             "sha256": "content (digest)", "target": "target", "device": "device"}
    parts = []
    for name, told in names.items():
        values = [getattr(entry, name) for entry in (first, second)]
        if values[0] != values[1] and None not in values:
            one, other = (shown_path(value) if isinstance(value, bytes) else value for value in values)
            parts.append(f"the {told} is {one} in A and {other} in B")
    return f"of {shown_path(first.path)} " + ", ".join(parts)


def told_entries(number: int, a: Side, b: Side) -> str:
    """The first line that differs, from this one on."""
    first, second = a.next(), b.next()
    while first is not None and first == second:
        first, second, number = a.next(), b.next(), number + 1
    for side, item in ((a, first), (b, second)):
        if item is None and side.cut:
            if side.cut.rest:
                return f"tree line {number} differs: {side.letter} is cut in it"
            return f"tree line {number} is not there in {side.letter}, which is cut"
    if isinstance(first, Entry) and isinstance(second, Entry) and first.path == second.path:
        return f"tree line {number} differs: {told_fields(first, second)}"
    is_first = isinstance(first, Entry) and (not isinstance(second, Entry) or first.path < second.path)
    entry, letter = (first, "A") if is_first else (second, "B")
    return f"tree line {number} differs: {shown_path(entry.path)} is only in {letter}"


def told_trees(a: Side, b: Side) -> str:
    """How two trees of different counts differ."""
    trees = [(side, side.next()) for side in (a, b)]
    told = [f"{tree.count if isinstance(tree, Tree) else 'not known'} in {side.letter}" for side, tree in trees]
    words = f"the number of paths is {told[0]} and {told[1]}"
    if all(isinstance(tree, Tree) for _, tree in trees):
        words += f"; {told_entries(1, a, b)}"
    return words


def told_headers(a: Side, b: Side) -> str:
    """How two reports differ in their first lines."""
    items = [(side.next(), side.letter) for side in (a, b)]
    told = [f"{item.version} in {letter}" if isinstance(item, Header) else f"{letter} is cut in it"
            for item, letter in items]
    return f"the version differs: {told[0]}, and {told[1]}"


def told_difference(fork: Fork, a: Side, b: Side) -> str:
    """The first difference of two reports that both go on where they part."""
    reader = fork.reader
    if reader.phase is Phase.HEADER:
        return told_headers(a, b)
    if reader.phase is Phase.OUTPUT:
        output = Output(reader.stream, reader.size, 0, b"")
        bytes_there = [named(rest[:1]) for rest in fork.rests]
        return (f"event {reader.events + 1} differs: {told_output(output)} in both; byte {reader.done + 1} is the "
                f"first that differs, {bytes_there[0]} in A and {bytes_there[1]} in B")
    if reader.phase is Phase.EVENTS:
        return told_events(reader.events + 1, a, b)
    return told_trees(a, b) if reader.phase is Phase.TREE else told_entries(reader.entries + 1, a, b)


def lines_of(data: bytes) -> List[bytes]:
    return re.findall(rb"[^\n]*\n|[^\n]+", data)


def shown_lines(prefix: bytes, side: Side) -> Tuple[List[bytes], bool]:
    """The lines of a side that are shown, the first of which begins so, and whether more follows."""
    lines = lines_of(prefix + side.text)
    has_more = not side.is_whole or len(lines) > SHOWN_LINES
    if not side.is_whole and 1 < len(lines) <= SHOWN_LINES and not lines[-1].endswith(b"\n"):
        lines.pop()
    return lines[:SHOWN_LINES], has_more


def span(first: int, start: int, end: int) -> str:
    """Lines as a unified diff has them: the first, and how many."""
    return f"{first + start - (start == end)},{end - start}"


def shown_line(mark: str, line: bytes, has_more: bool) -> str:
    if line.endswith(b"\n"):
        return f"{mark}{safe(line[:-1])}\n"
    return f"{mark}{safe(line)}\n\\ {'The line goes on' if has_more else 'No newline at end of file'}\n"


def hunks(texts: Sequence[List[bytes]], has_more: Sequence[bool], first: int) -> Iterator[str]:
    """A unified diff of two lists of lines, whose first has this number."""
    a, b = texts
    tag, start, _, other_start, _ = difflib.SequenceMatcher(None, a, b, autojunk=False).get_opcodes()[-1]
    # Lines at the end of one list may follow in the other's report, behind what is shown of it.
    if tag == "delete" and has_more[1]:
        a = a[:start]
    elif tag == "insert" and has_more[0]:
        b = b[:other_start]
    for group in difflib.SequenceMatcher(None, a, b, autojunk=False).get_grouped_opcodes(CONTEXT):
        begin, end = group[0], group[-1]
        yield f"@@ -{span(first, begin[1], end[2])} +{span(first, begin[3], end[4])} @@\n"
        for tag, start, stop, other_start, other_stop in group:
            if tag == "equal":
                yield from (shown_line(" ", line, False) for line in a[start:stop])
            else:
                yield from (shown_line("-", line, has_more[0]) for line in a[start:stop])
                yield from (shown_line("+", line, has_more[1]) for line in b[other_start:other_stop])


def unified(fork: Fork, a: Side, b: Side) -> Iterator[str]:
    """The texts from three lines before the first difference on, as far as they are shown."""
    offset = fork.reader.offset
    prefix_length = offset - fork.line_start
    is_shortened = prefix_length > min(len(fork.before), 4 * SHOWN_PREFIX)
    earlier = lines_of(fork.before[:max(len(fork.before) - prefix_length, 0)])
    # The first line that is kept may lack its beginning.
    context = earlier[1 if len(fork.before) < offset else 0:][-CONTEXT:]
    prefix = fork.before[len(fork.before) - (SHOWN_PREFIX if is_shortened else prefix_length):]
    number = fork.reader.line_ends + 1
    shown = [shown_lines(prefix, side) for side in (a, b)]
    yield f"--- A: {a.source.name}\n+++ B: {b.source.name}\n"
    if is_shortened:
        yield f"\\ Line {number} is shown from its byte {prefix_length - SHOWN_PREFIX + 1} on\n"
    has_more = [more for _, more in shown]
    yield from hunks([context + lines for lines, _ in shown], has_more, number - len(context))
    for side, (lines, more) in zip((a, b), shown):
        if more:
            yield f"\\ {side.letter} goes on: no more of it is shown or compared here than up to line " \
                  f"{number + len(lines) - 1}\n"


def told_equal(reader: Reader, cut: Optional[Cut]) -> str:
    """What two equal reports have in common that whoever compares them has to know."""
    if cut:
        return f"equal, and both are cut: they end {told_place(cut)}"
    verdict, end = reader.verdict, reader.own_end
    if verdict is not None and verdict.kind != "ended":
        return f"equal, and neither run came to its end: the verdict is {told_verdict(verdict)}"
    return "equal" if end is None or end[1:] == CODE_0 else f"equal, and both ended {told_end(end)}"


def told_run(reader: Reader) -> Optional[str]:
    """How a run of a whole report ended: by itself, or by its verdict."""
    verdict, end = reader.verdict, reader.own_end
    if verdict is not None and verdict.kind != "ended":
        return f"with the verdict {told_verdict(verdict)}"
    return told_end(end) if end else None


def told_ends(a: Side, b: Side) -> List[str]:
    """A line that says how two runs ended, unless both ended with code 0. Of one that is cut more is told."""
    told = [told_run(side.reader) for side in (a, b)]
    if a.cut or b.cut or None in told or told == ["with code 0"] * 2:
        return []
    return [f"A ended {told[0]}, and B {told[1]}"]



def diff(first: Source, second: Source, sink: Sink) -> int:
    """Writes how two reports differ, once both are read to their ends, and answers the tool's status."""
    fork = fork_of(first, second)
    if not any(fork.rests):
        cut = end_of(fork.reader, first)
        sink.write(f"{told_equal(fork.reader, cut)}\n".encode())
        sink.flush()
        return 1 if cut else 0
    a, b = (Side(letter, source, copy.deepcopy(fork.reader), rest)
            for letter, source, rest in zip("AB", (first, second), fork.rests))
    lines = [] if a.is_ended or b.is_ended else [told_difference(fork, a, b)]
    for side, other in ((a, b), (b, a)):
        collections.deque(side.items, maxlen=0)
        if side.cut:
            is_prefix = f", and is a prefix of {other.letter}" if side.is_ended else ""
            lines.append(f"{side.letter} is cut: it ends {told_place(side.cut)}{is_prefix}")
    lines += told_ends(a, b)
    for text in itertools.chain((f"{line}\n" for line in lines), unified(fork, a, b)):
        sink.write(text.encode())
    sink.flush()
    return 1
