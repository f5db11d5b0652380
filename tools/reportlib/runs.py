"""Whole reports in memory, and where two of them part."""
from __future__ import annotations

import io
from typing import Iterable, Iterator, List, NamedTuple, Optional, Union

from .differences import diff, fork_of
from .reader import Cut, Entry, Exit, Item, NotReport, Output, Phase, Reader, Verdict
from .streams import Sink, Source, Streams

# What stands in a row of a picture: an event, or what comes behind the last one.
Row = Union[Output, Exit, Verdict, Cut]


class Run(NamedTuple):
    """What a report says. Where it is cut, it has no verdict, or a tree with fewer lines than its count, or none."""

    name: str
    text: bytes
    events: List[Union[Output, Exit]]
    verdict: Optional[Verdict]
    count: Optional[int]
    entries: List[Entry]
    cut: Optional[Cut]

    def rows(self) -> List[Row]:
        """The events, and the verdict, or else where the report is cut."""
        end = self.verdict or self.cut
        return [*self.events, *([end] if end else [])]

    def knows(self, path: bytes) -> bool:
        """Whether the tree says what stands at this path, also where that is nothing."""
        return self.cut is None or any(entry.path >= path for entry in self.entries[-1:])


class Parting(NamedTuple):
    """Whether two reports are equal, what is said of them, and the row that differs first, counted from 0."""

    is_equal: bool
    lines: List[str]
    row: Optional[int]


def whole_outputs(items: Iterable[Item]) -> Iterator[Item]:
    """The items, with the pieces of each output put together. The last output may lack its end."""
    begun: Optional[Output] = None
    pieces: List[bytes] = []
    for item in items:
        if not isinstance(item, Output):
            yield item
            continue
        pieces.append(item.data)
        begun = item
        if item.start + len(item.data) == item.size:
            yield item._replace(start=0, data=b"".join(pieces))
            begun, pieces = None, []
    if begun:
        yield begun._replace(start=0, data=b"".join(pieces))


def load(source: Source) -> Run:
    reader = Reader()
    blocks: List[bytes] = []

    def items() -> Iterator[Item]:
        for block in iter(source.block, b""):
            blocks.append(block)
            yield from reader.feed(block)

    try:
        found = list(whole_outputs(items()))
        cut = reader.finish()
    except NotReport as error:
        raise source.refusal(error) from None
    events = [item for item in found if isinstance(item, (Output, Exit))]
    entries = [item for item in found if isinstance(item, Entry)]
    has_tree = reader.phase in (Phase.ENTRIES, Phase.END)
    return Run(source.name, b"".join(blocks), events, reader.verdict, reader.count if has_tree else None, entries, cut)


def parting(first: Run, second: Run) -> Parting:
    """Says of two reports what `report diff` says of them."""
    written = io.BytesIO()

    def source(run: Run) -> Source:
        return Source("-", Streams(io.BytesIO(run.text).read, written.write, written.write))

    fork = fork_of(source(first), source(second))
    is_in_events = all(fork.rests) and fork.reader.phase in (Phase.EVENTS, Phase.OUTPUT)
    diff(source(first), source(second), Sink(Streams(io.BytesIO().read, written.write, written.write)))
    # The unified diff stands behind the words.
    words = written.getvalue().decode().split("\n--- A: ")[0]
    row = fork.reader.events if is_in_events else None
    return Parting(not any(fork.rests), words.strip("\n").split("\n"), row)
