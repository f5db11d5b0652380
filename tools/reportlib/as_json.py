"""Writes a report of dettrace as JSON."""
from __future__ import annotations

import base64
import codecs
import json
from typing import Any, Iterable, Iterator, List, Optional, Sequence

from .reader import Cut, Entry, Header, Item, Output, Tree, Verdict
from .streams import UNSAFE, Sink

ENCODER = json.JSONEncoder(ensure_ascii=False)


def json_text(value: Any) -> str:
    return UNSAFE.sub(lambda found: f"\\u{ord(found[0]):04x}", ENCODER.encode(value))


def text_member(text_name: str, base64_name: str, data: bytes) -> str:
    """The member of a value of bytes: its text where it is UTF-8, and else base64 under the other name."""
    try:
        return f'"{text_name}": {json_text(data.decode())}'
    except UnicodeDecodeError:
        return f'"{base64_name}": "{base64.b64encode(data).decode()}"'


def is_utf8(pieces: Sequence[bytes]) -> bool:
    decoder = codecs.getincrementaldecoder("utf-8")()
    try:
        for piece in pieces:
            decoder.decode(piece)
        decoder.decode(b"", final=True)
    except UnicodeDecodeError:
        return False
    return True


def text_parts(pieces: Sequence[bytes]) -> Iterator[str]:
    decoder = codecs.getincrementaldecoder("utf-8")()
    for piece in pieces:
        yield json_text(decoder.decode(piece))[1:-1]


def base64_parts(pieces: Sequence[bytes]) -> Iterator[str]:
    rest = b""
    for piece in pieces:
        rest += piece
        whole = len(rest) // 3 * 3
        yield base64.b64encode(rest[:whole]).decode()
        rest = rest[whole:]
    yield base64.b64encode(rest).decode()


class JsonWriter:
    """Writes items as JSON, one event or tree line a line. It holds the bytes of one output."""

    def __init__(self, sink: Sink) -> None:
        self._sink = sink
        self._output: Optional[Output] = None
        self._pieces: List[bytes] = []
        self._separator = "\n"
        # What is still to come in a report that ends here.
        self._rest = '{"version": null, "events": [\n], "verdict": null, "tree": null'

    def write(self, items: Iterable[Item]) -> None:
        for item in items:
            if isinstance(item, Output):
                self._add(item)
            elif isinstance(item, Entry):
                self._entry(item)
            elif isinstance(item, (Header, Verdict, Tree)):
                self._begin(item)
            else:
                self._line(json_text({"kind": "exit", "pid": item.pid, item.how: item.number}))

    def finish(self, cut: Optional[Cut]) -> None:
        if self._output:
            self._large_output(self._output)
        end = "null"
        if cut:
            end = '{"bytes": %d, "where": %s, %s}' % (
                cut.size, json_text(cut.where), text_member("text", "base64", cut.rest))
        self._text(f'{self._rest}, "cut": {end}}}\n')
        self._sink.flush()

    def _text(self, text: str) -> None:
        self._sink.write(text.encode())

    def _line(self, text: str) -> None:
        self._text(self._separator + text)
        self._separator = ",\n"

    def _begin(self, item: Item) -> None:
        """What stands before the events, between them and the tree, and before its lines."""
        if isinstance(item, Header):
            self._text('{"version": %d, "events": [' % item.version)
            self._rest = '\n], "verdict": null, "tree": null'
        elif isinstance(item, Verdict):
            members = {name: value for name, value in item._asdict().items() if value is not None}
            self._text('\n], "verdict": ' + json_text(members))
            self._rest, self._separator = ', "tree": null', "\n"
        else:
            self._text(', "tree": [')
            self._rest = "\n]"

    def _add(self, item: Output) -> None:
        self._output = item
        if item.size == len(item.data):
            member = text_member("text", "base64", item.data)
            self._line('{"kind": "out", "stream": %d, "size": %d, %s}' % (item.stream, item.size, member))
            self._output, self._pieces = None, []
            return
        self._pieces.append(item.data)
        if item.start + len(item.data) == item.size:
            self._large_output(item)

    def _large_output(self, item: Output) -> None:
        """An output that came in pieces, without a copy of the whole."""
        name, parts = ("text", text_parts) if is_utf8(self._pieces) else ("base64", base64_parts)
        self._line('{"kind": "out", "stream": %d, "size": %d, "%s": "' % (item.stream, item.size, name))
        for part in parts(self._pieces):
            self._text(part)
        self._text('"}')
        self._output, self._pieces = None, []

    def _entry(self, entry: Entry) -> None:
        members = []
        for name, value in entry._asdict().items():
            if isinstance(value, bytes):
                members.append(text_member(name, f"{name}_base64", value))
            elif value is not None:
                members.append(f'"{name}": {json_text(value)}')
        self._line("{" + ", ".join(members) + "}")
