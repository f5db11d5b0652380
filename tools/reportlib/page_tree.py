"""Shows the final tree of one run, or of two together, as a table of HTML."""
from __future__ import annotations

from html import escape
from typing import Dict, Iterator, List, NamedTuple, Optional, Sequence

from .page_bytes import grouped
from .reader import Entry, shown_path, told_place
from .runs import Run

KINDS = {"file": "file", "dir": "directory", "link": "link", "dev": "device"}
FIELDS = {"kind": "kind", "mode": "mode", "size": "size", "stamp": "stamp", "inode": "inode", "sha256": "content",
          "target": "target", "device": "device"}
HEADS = ["Kind", "Mode", "Size", "Stamp", "Inode", "SHA-256"]
FILTER = """<p class="filter scripted" hidden><label for="filter">Filter by path</label>
<input id="filter" type="search" autocomplete="off" spellcheck="false" aria-describedby="filter-count">
{only}<output id="filter-count" for="filter" aria-live="polite"></output></p>
<noscript><p class="note">A filter appears here where scripts may run.</p></noscript>
"""
ONLY = """<label><input id="only" type="checkbox"> only what differs</label>
"""


class Line(NamedTuple):
    """A line of the table: whose it is, the entry, and what differs from the other's, if something does."""

    side: str
    entry: Entry
    differing: Sequence[str]
    told: str


def differing_fields(first: Entry, second: Entry) -> List[str]:
    return [name for name in FIELDS if getattr(first, name) != getattr(second, name)]


def lines_of_path(runs: Sequence[Run], found: Sequence[Optional[Entry]], path: bytes) -> Iterator[Line]:
    """The line that two runs share at a path, or a line for each of them."""
    first, second = found
    if first and second:
        names = differing_fields(first, second)
        told = f"differs: {', '.join(FIELDS[name] for name in names)}"
        yield from [Line("A", first, names, told), Line("B", second, names, told)] if names else \
            [Line("A B", first, [], "")]
        return
    side, entry, other = ("A", first, 1) if first else ("B", second, 0)
    is_known = runs[other].knows(path)
    if entry:
        yield Line(side, entry, ["path"] if is_known else [],
                   f"only in {side}" if is_known else f"not known in {'AB'[other]}, which is cut")


def lines(runs: Sequence[Run]) -> Iterator[Line]:
    if len(runs) == 1:
        yield from (Line("", entry, [], "") for entry in runs[0].entries)
        return
    by_path: List[Dict[bytes, Entry]] = [{entry.path: entry for entry in run.entries} for run in runs]
    for path in sorted({*by_path[0], *by_path[1]}):
        yield from lines_of_path(runs, [found.get(path) for found in by_path], path)


def path_markup(entry: Entry) -> str:
    folder, name = entry.path.rsplit(b"/", 1)
    text = f'<span class="folder">{escape(shown_path(folder))}/</span>{escape(shown_path(name))}'
    if entry.target is not None:
        return f'{text} <span class="target">leads to {escape(shown_path(entry.target))}</span>'
    return text


def told_kind(entry: Entry) -> str:
    return f"{KINDS[entry.kind]} {entry.device}" if entry.device else KINDS[entry.kind]


def line_markup(line: Line, is_of_two: bool) -> str:
    entry = line.entry

    def cell(name: str, text: str, more: str = "", also: str = "") -> str:
        is_new = name in line.differing or also in line.differing
        return f'<td class="{name}{" new" if is_new else ""}{more}">{text}</td>'

    values = [cell("kind", told_kind(entry), also="device"), cell("mode", entry.mode or ""),
              cell("size", "" if entry.size is None else f"{entry.size:,}", " number"),
              cell("stamp", f"{entry.stamp:,}", " number"), cell("inode", str(entry.inode), " number"),
              cell("sha256", entry.sha256 or "")]
    is_new = "path" in line.differing or "target" in line.differing
    path = f'<th scope="row" class="path{" new" if is_new else ""}">{path_markup(entry)}</th>'
    sides = f'<td class="in">{line.side}</td><td class="told">{line.told}</td>' if is_of_two else ""
    kind = ' class="differs"' if line.differing else ""
    return f'<tr{kind}>{path}{sides}{"".join(values)}</tr>\n'


def caption(runs: Sequence[Run], shown: Sequence[Line]) -> str:
    if len(runs) == 1:
        return f"{grouped(len(shown), 'path', 'paths')} below the root when the run was over"
    paths = len({line.entry.path for line in shown if line.differing})
    return f"The trees when the runs were over; {grouped(paths, 'path differs', 'paths differ')}"


def cut_notes(runs: Sequence[Run]) -> Iterator[str]:
    for letter, run in zip("AB", runs):
        name = f"Report {letter}" if len(runs) == 2 else "The report"
        if run.cut:
            yield f'<p class="note bad">{name} is cut: it ends {escape(told_place(run.cut))}.</p>\n'


def tree_section(runs: Sequence[Run]) -> Iterator[str]:
    is_of_two = len(runs) == 2
    yield '<section id="tree" aria-labelledby="tree-head">\n<h2 id="tree-head">Final tree</h2>\n'
    yield from cut_notes(runs)
    shown = list(lines(runs))
    yield FILTER.format(only=ONLY if is_of_two else "")
    yield '<div class="wide" role="region" aria-labelledby="tree-head" tabindex="0">\n<table>\n'
    yield f"<caption>{caption(runs, shown)}</caption>\n<thead><tr>"
    heads = ["Path", *(["In", "Difference"] if is_of_two else []), *HEADS]
    numbers = ("Size", "Stamp", "Inode")
    yield "".join(f'<th scope="col"{" class=number" if head in numbers else ""}>{head}</th>' for head in heads)
    yield "</tr></thead>\n<tbody>\n"
    for line in shown:
        yield line_markup(line, is_of_two)
    yield "</tbody>\n</table>\n</div>\n</section>\n"
