"""The words of tools/report, and what its commands do."""
from __future__ import annotations

import argparse
import contextlib
import os
import sys
from typing import Any, Callable, Iterator, NoReturn, Optional, Sequence

from .as_json import JsonWriter
from .differences import diff
from .page import page, write_file
from .reader import Cut, Item, NotReport, Output, Reader, told_place
from .runs import load
from .streams import STANDARD, OutputClosed, Refusal, Sink, Source, Streams, complain, safe
from .terminal import Painted, always_by_name, is_colored, paged


class HelpAsked(Exception):
    """Carries the text of the help."""


def read_report(source: Source, sink: Sink, handle: Callable[[Iterator[Item]], None]) -> Optional[Cut]:
    """Hands on the items of each block as it comes, and answers where the report is cut, or None."""
    reader = Reader()
    try:
        for piece in iter(source.piece, b""):
            handle(reader.feed(piece))
            sink.flush()
        return reader.finish()
    except NotReport as error:
        sink.flush()
        raise source.refusal(error) from None


def status_of(source: Source, cut: Optional[Cut], streams: Streams) -> int:
    if cut is None:
        return 0
    complain(streams, f"{source.name}: the report is cut: it ends {told_place(cut)}")
    return 1


def show_diff(options: argparse.Namespace, streams: Streams) -> int:
    with Source(options.a, streams) as a, Source(options.b, streams) as b:
        if options.quiet:
            return diff(a, b, Sink(streams._replace(write=len)))
        sink = Painted if is_colored(options.color, streams, os.environ) else Sink
        with paged(streams, os.environ) as shown:
            return diff(a, b, sink(shown))


def show_json(source: Source, streams: Streams) -> int:
    sink = Sink(streams)
    writer = JsonWriter(sink)
    cut = read_report(source, sink, writer.write)
    writer.finish(cut)
    return status_of(source, cut, streams)


def show_output(source: Source, stream: Optional[str], streams: Streams) -> int:
    sink = Sink(streams)
    wanted = [1, 2] if stream is None else [int(stream)]

    def handle(items: Iterator[Item]) -> None:
        for item in items:
            if isinstance(item, Output) and item.stream in wanted:
                sink.write(item.data)

    return status_of(source, read_report(source, sink, handle), streams)


def show_page(names: Sequence[str], file: Optional[str], streams: Streams) -> int:
    """Writes the page once all reports are read, so that nothing is written where one is none."""
    with contextlib.ExitStack() as stack:
        sources = [stack.enter_context(Source(name, streams)) for name in names]
        runs = [load(source) for source in sources]
    if file is None:
        sink = Sink(streams)
        for part in page(runs):
            sink.write(part.encode())
        sink.flush()
    else:
        write_file(file, page(runs))
    return max(status_of(source, run.cut, streams) for source, run in zip(sources, runs))


class Parser(argparse.ArgumentParser):
    """A parser whose errors are one line, and that leaves all writing to others."""

    def error(self, message: str) -> NoReturn:
        raise Refusal(f"{safe(os.fsencode(message))} ({self.prog} --help says more)")

    def print_help(self, file: Any = None) -> None:
        raise HelpAsked(self.format_help())


FILE_HELP = "the file of a report, or - for standard input"

JSON_HELP = """

The members are version, events, verdict, tree and cut. An event has kind (out or exit); out has stream, size, and its
bytes as text where they are UTF-8 and else as base64; exit has pid, and code or signal. The verdict has kind, and pid,
number or errno where it has them. A tree line has kind (file, dir, link or dev) and inode, mode, stamp, size, sha256,
path, target and device where it has them; instead of a path or target that is no UTF-8 it has path_base64 or
target_base64. In a whole report cut is null. In one that is cut it has bytes (the report's size), where (in words), and
the beginning of the line that is cut as text or base64; a verdict or tree that did not come is null, and the last
output may have fewer bytes than its size. The JSON of what turns out to be no report ends where that is found. Numbers
go up to 2^64-1."""

DIFF_HELP = """

The first line says "equal", and how both ended where that is not with code 0; or it says what differs first: which
event or tree line, and how. A line for each report that is cut says where, and one how the two ended where that is not
with code 0. Then a unified diff shows the texts from three lines before the first difference on, at most 200 lines or
64 KiB of each. In it backslashes are doubled, and controls and bytes that are no UTF-8 are escaped as \\x and two
hexadecimal digits. On a terminal all of it goes through the PAGER, or else less; an empty PAGER is none."""

PAGE_HELP = """

The page is one file that loads nothing else. It shows the events with a line for each process, the verdict, and the
final tree, which a script can filter. With two reports it shows them side by side, says what diff says, and marks the
first event that differs, and what differs in the tree. Of an event at most 1,048,576 bytes are shown. The page of a
report that is cut shows what is there. Nothing is written where a REPORT is no report."""

STATUSES = """exit status:
  0  done; for diff: the reports are equal, and whole
  1  diff: they differ, or are cut; json, output and page: a report is cut, and what is there was written
  2  used wrongly, a file cannot be read, it is no report, or the output cannot be written

A report is cut where its run failed half-way: it is a prefix of a whole one, and may be empty. Of anything else the
first byte that no report has there is told; events, lines and bytes are counted from 1. Names that begin with - stand
behind a word --.
"""


def parser() -> Parser:
    form = argparse.RawDescriptionHelpFormatter
    top = Parser(prog="report", formatter_class=form, allow_abbrev=False, epilog=STATUSES,
                 description="Shows and compares reports of dettrace. A REPORT is a file, or - for standard input.")
    commands = top.add_subparsers(dest="command", metavar="COMMAND", required=True)

    def command(name: str, text: str, more: str = "") -> Parser:
        return commands.add_parser(name, formatter_class=form, allow_abbrev=False, help=text, epilog=STATUSES,
                                   description=f"{text[0].upper()}{text[1:]}.{more}")

    shown = command("json", "writes a report as JSON, one event or tree line a line", JSON_HELP)
    shown.add_argument("report", metavar="REPORT", help=FILE_HELP)
    shown = command("output", "writes the bytes of standard output (1), of standard error (2), or of both in order")
    shown.add_argument("report", metavar="REPORT", help=FILE_HELP)
    shown.add_argument("stream", metavar="1|2", nargs="?", choices=["1", "2"], help="the stream; both without it")
    shown = command("diff", "says whether two reports are equal, or else what differs first", DIFF_HELP)
    shown.add_argument("-q", "--quiet", action="store_true", help="write nothing: the status says it")
    shown.add_argument("--color", metavar="WHEN", choices=["auto", "always", "never"], default="auto",
                       help="always (--color alone), never, or auto: on a terminal, unless NO_COLOR is set")
    shown.add_argument("a", metavar="A", help=FILE_HELP)
    shown.add_argument("b", metavar="B", help="another, of which only one can be -")
    shown = command("page", "shows a report, or two side by side, as a page of HTML", PAGE_HELP)
    shown.add_argument("report", metavar="REPORT", help=FILE_HELP)
    shown.add_argument("other", metavar="REPORT", nargs="?", help="another, of which only one can be -")
    shown.add_argument("-o", "--output", metavar="FILE", help="the file of the page; standard output without it")
    return top


def run(words: Optional[Sequence[str]], streams: Streams) -> int:
    options = parser().parse_args(always_by_name(list(sys.argv[1:] if words is None else words)))
    if options.command == "diff":
        if options.a == options.b == "-":
            raise Refusal("only one of A and B can be -, standard input")
        return show_diff(options, streams)
    if options.command == "page":
        names = [options.report] + [options.other] * (options.other is not None)
        if names == ["-", "-"]:
            raise Refusal("only one of two reports can be -, standard input")
        return show_page(names, options.output, streams)
    with Source(options.report, streams) as source:
        if options.command == "json":
            return show_json(source, streams)
        return show_output(source, options.stream, streams)


def main(words: Optional[Sequence[str]] = None, streams: Streams = STANDARD) -> int:
    try:
        try:
            return run(words, streams)
        except HelpAsked as asked:
            sink = Sink(streams)
            sink.write(str(asked).encode())
            sink.flush()
            return 0
    except Refusal as refusal:
        complain(streams, str(refusal))
    except MemoryError:
        complain(streams, "memory ran out")
    except KeyboardInterrupt:
        complain(streams, "interrupted")
    except OutputClosed:
        pass
    return 2

