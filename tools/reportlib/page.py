"""Writes a page of HTML that shows one run, or two side by side. It loads nothing from elsewhere."""
from __future__ import annotations

import base64
import hashlib
import os
from html import escape
from pathlib import Path
from typing import Iterator, List, Optional, Sequence

from .page_bytes import grouped, told_size
from .page_events import events_section, told_why
from .page_lanes import Drawing, drawings, style_of, width_of
from .page_tree import tree_section
from .reader import Exit, Output, told_place
from .runs import Parting, Run, parting
from .streams import Refusal, safe

HERE = Path(__file__).resolve().parent
HEAD = """<!DOCTYPE html>
<html lang="en">
<head>
<meta charset="utf-8">
<meta http-equiv="Content-Security-Policy" content="{policy}">
<meta name="viewport" content="width=device-width, initial-scale=1">
<meta name="color-scheme" content="light dark">
<title>{title}</title>
<style>{style}</style>
</head>
"""


def digest_of(text: str) -> str:
    return f"'sha256-{base64.b64encode(hashlib.sha256(text.encode()).digest()).decode()}'"


def style_of_page(runs: Sequence[Run], drawn: Sequence[Sequence[Drawing]]) -> str:
    """The style, with the room that the lanes of each run take, and what they look like."""
    widths = [f"--lanes-{letter}: {width_of(run.rows())}px;" for letter, run in zip("ab", runs)]
    rules = map(style_of, sorted({drawing.columns for drawings_of_run in drawn for drawing in drawings_of_run}))
    return f'{(HERE / "page.css").read_text(encoding="utf-8")}.events {{ {" ".join(widths)} }}\n{"".join(rules)}'


def counted_outputs(run: Run, stream: int) -> str:
    sizes = [len(item.data) for item in run.events if isinstance(item, Output) and item.stream == stream]
    return f"{told_size(sum(sizes))} in {grouped(len(sizes), 'event', 'events')}" if sizes else "nothing"


def counted_ends(run: Run) -> str:
    ends = [item for item in run.events if isinstance(item, Exit)]
    others = sum((item.how, item.number) != ("code", 0) for item in ends)
    return f"{len(ends):,}" + (f", {others:,} of them not with code 0" if others else "")


def counted_paths(run: Run) -> str:
    if run.count is None:
        return "not there, since the report is cut"
    kinds = [entry.kind for entry in run.entries]
    parts = [grouped(kinds.count(kind), one, many) for kind, one, many in
             [("file", "file", "files"), ("dir", "directory", "directories"), ("link", "link", "links")]]
    if "dev" in kinds:
        parts.append(grouped(kinds.count("dev"), "device", "devices"))
    # A file with two names is one.
    size = sum({entry.inode: entry.size or 0 for entry in run.entries}.values())
    missing = f", {run.count - len(kinds):,} more not there" if run.cut else ""
    return f"{', '.join(parts)}, {told_size(size)}{missing}"


def facts(run: Run) -> List[str]:
    return [told_why(run), counted_outputs(run, 1), counted_outputs(run, 2), counted_ends(run), counted_paths(run),
            f"it ends {told_place(run.cut)}" if run.cut else "no"]


def summary(runs: Sequence[Run]) -> Iterator[str]:
    """A table of what there is at a glance."""
    heads = ["Verdict", "Standard output", "Standard error", "Processes that ended", "Final tree", "Cut"]
    rows = list(zip(heads, *map(facts, runs)))
    what = "The run" if len(runs) == 1 else "Both runs"
    yield f'<table class="summary">\n<caption><span class="unseen">{what} at a glance</span></caption>\n'
    if len(runs) == 2:
        names = "".join(f'<th scope="col">{letter}: {escape(run.name)}</th>' for letter, run in zip("AB", runs))
        yield f"<thead><tr><td></td>{names}</tr></thead>\n"
    yield "<tbody>\n"
    for head, *values in rows:
        if head != "Cut" or set(values) != {"no"}:
            cells = "".join(f"<td>{escape(value)}</td>" for value in values)
            yield f'<tr><th scope="row">{head}</th>{cells}</tr>\n'
    yield "</tbody>\n</table>\n"


def links(runs: Sequence[Run], parted: Optional[Parting]) -> str:
    places = [("#events-head", "Events")]
    if parted and parted.row is not None:
        places.append((f"#e{parted.row + 1}", "First difference"))
    last = max(len(run.rows()) for run in runs)
    end = "Verdict" if any(run.verdict for run in runs) else "Cut"
    places += [(f"#e{last}", end), ("#tree-head", "Final tree")]
    parts = "\n".join(f'<a href="{place}">{name}</a>' for place, name in places)
    return f'<nav aria-label="Parts of this page">\n{parts}\n</nav>\n'


def page(runs: Sequence[Run]) -> Iterator[str]:
    """The page of one or two runs, in parts."""
    parted = parting(*runs) if len(runs) == 2 else None
    drawn = [drawings(run.rows()) for run in runs]
    style, script = style_of_page(runs, drawn), (HERE / "page.js").read_text(encoding="utf-8")
    policy = f"default-src 'none'; style-src {digest_of(style)}; script-src {digest_of(script)}; base-uri 'none'; " \
             "form-action 'none'"
    title = " and ".join(escape(run.name) for run in runs)
    yield HEAD.format(policy=policy, title=f"{title}: {'a run' if len(runs) == 1 else 'two runs'} of dettrace",
                      style=style)
    heading = f"A run: {title}" if len(runs) == 1 else "Two runs side by side"
    yield f"<body>\n<header>\n<h1>{heading}</h1>\n"
    if parted:
        kind = "equal" if parted.is_equal else "differing"
        yield "".join(f'<p class="parting {kind}">{escape(line)}</p>\n' for line in parted.lines)
    yield from summary(runs)
    yield f"{links(runs, parted)}</header>\n<main>\n"
    yield from events_section(runs, drawn, parted.row if parted else None)
    yield from tree_section(runs)
    yield f"</main>\n<script>{script}</script>\n</body>\n</html>\n"


def write_file(name: str, parts: Iterator[str]) -> None:
    try:
        with open(name, "w", encoding="utf-8", newline="\n") as file:
            file.writelines(parts)
    except OSError as error:
        shown = safe(os.fsencode(name)) or "a file without a name"
        raise Refusal(f"{shown}: cannot be written: {error.strerror}") from None
