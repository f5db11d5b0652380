"""How the tool for reports reads files and standard input, and writes standard output and standard error."""
from __future__ import annotations

import functools
import os
import re
from typing import Callable, List, NamedTuple, Optional

BLOCK = 65536
# What changes how a terminal shows the rest: controls, other ends of lines, and changes of direction.
UNSAFE = re.compile("[\x00-\x1f\x7f-\x9f\u061c\u200e\u200f\u2028-\u202e\u2066-\u2069]")


class Refusal(Exception):
    """Ends the tool with status 2 and this as its line of error."""


class OutputClosed(Exception):
    """Whoever read standard output has gone."""


def safe(data: bytes) -> str:
    """Text for a line of a terminal: backslashes are doubled, and `\\x` stands before each byte that is not shown."""
    text = data.decode("utf-8", "surrogateescape").replace("\\", "\\\\")
    text = UNSAFE.sub(lambda found: "".join(f"\\x{byte:02x}" for byte in found[0].encode()), text)
    return re.sub("[\udc80-\udcff]", lambda found: f"\\x{ord(found[0]) - 0xdc00:02x}", text)


class Streams(NamedTuple):
    """How the tool reads standard input, writes standard output, a terminal or not, and writes standard error."""

    read: Callable[[int], bytes]
    write: Callable[[bytes], int]
    complain: Callable[[bytes], int]
    is_terminal: Callable[[], bool] = lambda: False


STANDARD = Streams(functools.partial(os.read, 0), functools.partial(os.write, 1), functools.partial(os.write, 2),
                   functools.partial(os.isatty, 1))


class Source:
    """A file, or standard input, as blocks. It is open from the start up to the end of a `with`."""

    def __init__(self, name: str, streams: Streams) -> None:
        self.name = "standard input" if name == "-" else safe(os.fsencode(name)) or "a file without a name"
        self._read = streams.read
        self._descriptor: Optional[int] = None
        if name != "-":
            try:
                self._descriptor = os.open(name, os.O_RDONLY)
            except OSError as error:
                raise self._failed(error) from None
            self._read = functools.partial(os.read, self._descriptor)

    def __enter__(self) -> Source:
        return self

    def __exit__(self, *_: object) -> None:
        if self._descriptor is not None:
            os.close(self._descriptor)

    def _failed(self, error: OSError) -> Refusal:
        return Refusal(f"{self.name}: cannot be read: {error.strerror}")

    def piece(self, size: int = BLOCK) -> bytes:
        """What can be read at once, and nothing at the end."""
        try:
            return self._read(size)
        except OSError as error:
            raise self._failed(error) from None

    def block(self) -> bytes:
        """A whole block, but at the end."""
        block = self.piece()
        while 0 < len(block) < BLOCK:
            more = self.piece(BLOCK - len(block))
            if not more:
                break
            block += more
        return block

    def refusal(self, error: NotReport) -> Refusal:
        return Refusal(f"{self.name}: {error}")


class Sink:
    """Standard output, written in large pieces."""

    def __init__(self, streams: Streams) -> None:
        self._write, self._size = streams.write, 0
        self._held: List[bytes] = []

    def write(self, data: bytes) -> None:
        self._held.append(data)
        self._size += len(data)
        if self._size >= BLOCK:
            self.flush()

    def flush(self) -> None:
        data = memoryview(b"".join(self._held))
        self._held, self._size = [], 0
        try:
            while data:
                data = data[self._write(data):]
        except BrokenPipeError:
            raise OutputClosed from None
        except OSError as error:
            raise Refusal(f"standard output: cannot be written: {error.strerror}") from None


def complain(streams: Streams, text: str) -> None:
    """Writes a line of error; where that cannot be written, the status says enough."""
    try:
        streams.complain(f"report: {text}\n".encode())
    except OSError:
        pass
