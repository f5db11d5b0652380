"""Shows the events of one run, or of two side by side, as HTML."""
from __future__ import annotations

import itertools
from html import escape
from typing import Dict, Iterator, List, Optional, Sequence

from .differences import STREAM_NAMES, told_end, told_verdict
from .page_bytes import grouped, markup, told_size
from .page_lanes import Drawing, ends_of, heads
from .reader import Cut, Exit, Output, Verdict, common_length, told_place
from .runs import Row, Run

# A browser passes over lists that are out of sight.
ROWS_IN_LIST = 100
SIGNALS = dict(enumerate("HUP INT QUIT ILL TRAP ABRT BUS FPE KILL USR1 SEGV USR2 PIPE ALRM TERM STKFLT CHLD CONT STOP "
                         "TSTP TTIN TTOU URG XCPU XFSZ VTALRM PROF WINCH IO PWR SYS".split(), 1))
ERRNOS = {2: "ENOENT", 7: "E2BIG", 8: "ENOEXEC", 13: "EACCES", 20: "ENOTDIR", 36: "ENAMETOOLONG", 40: "ELOOP"}
LEGEND = """<p class="note">Each line is a process, down to the event of its end: a disc for code 0, a diamond for
another code or a signal. Dotted means that the report does not show whether the process was there yet. Nor does it say
which process wrote what. <span class="scripted" hidden>Arrow keys, Home and End lead from event to event.</span></p>"""


def ending(item: Exit) -> str:
    name = SIGNALS.get(item.number) if item.how == "signal" else None
    return told_end(item) + (f" ({name})" if name else "")


def told_why(run: Run) -> str:
    """The verdict, and what it means."""
    verdict = run.verdict
    if verdict is None:
        return "not there, since the report is cut"
    if verdict.kind == "ended":
        first = next((item for item in run.events if isinstance(item, Exit) and item.pid == 1), None)
        return "ended: the first process ended" + (f" {ending(first)}" if first else "")
    name = f" ({ERRNOS[verdict.errno]})" if verdict.errno in ERRNOS else ""
    return {
        "budget": "budget: a turn would have taken more instructions than were left",
        "deadlock": "deadlock: all processes wait, so that none can go on",
        "unsupported": f"unsupported: process {verdict.pid} made the system call {verdict.number}, which this version "
                       "does not have, or not with what it was handed",
        "nostart": f"nostart: the program could not be started, for the reason with the errno {verdict.errno}{name}",
    }[verdict.kind]


def output_head(item: Output) -> str:
    """What stands before the bytes of an output."""
    part = f"{len(item.data):,} of " if len(item.data) < item.size else ""
    end = "" if item.data.endswith(b"\n") else ", no line's end"
    return f"{STREAM_NAMES[item.stream]}, {part}{told_size(item.size)}{end}"


def row_markup(row: Row, mark: Optional[int]) -> str:
    if isinstance(row, Output):
        kind = "out" if row.stream == 1 else "err"
        return f'<p class="{kind}">{output_head(row)}</p>{markup(row.data, mark)}'
    if isinstance(row, Exit):
        kind = "good" if (row.how, row.number) == ("code", 0) else "bad"
        return f'<p class="{kind}">process {row.pid} ended {ending(row)}</p>'
    if isinstance(row, Verdict):
        return f'<p class="last">verdict: {told_verdict(row)}</p>'
    return f'<p class="last bad">The report is cut: it ends {escape(told_place(row))}.</p>'


def marks_of(rows: Sequence[Optional[Row]]) -> List[Optional[int]]:
    """From which byte on two outputs that differ are marked."""
    if len(rows) == 2 and isinstance(rows[0], Output) and isinstance(rows[1], Output) \
            and rows[0].stream == rows[1].stream:
        return [common_length(rows[0].data, rows[1].data)] * 2
    return [None] * len(rows)


def item_markup(index: int, rows: Sequence[Optional[Row]], lanes: Sequence[Optional[Drawing]], is_first: bool) -> str:
    """A row of the list: one cell for each run, which may have no such row."""
    marks = marks_of(rows) if is_first else [None] * len(rows)
    flag = '<p class="flag">first difference</p>' if is_first else ""
    cells = []
    for letter, row, lane, mark in zip("ab", rows, lanes, marks):
        if row and lane:
            cells.append(f'<div class="{letter} {lane.columns}">{lane.markup()}{flag}{row_markup(row, mark)}</div>')
        else:
            cells.append(f'<div class="{letter} none"></div>')
    is_event = any(isinstance(row, (Output, Exit)) for row in rows)
    kind = ' class="first"' if is_first else ""
    number = str(index + 1) if is_event else ""
    return f'<li id="e{index + 1}" tabindex="{0 if index == 0 else -1}"{kind}>{number}{"".join(cells)}</li>\n'


def items(runs: Sequence[Run], drawn: Sequence[Sequence[Drawing]], first: Optional[int]) -> Iterator[str]:
    pairs = zip(itertools.zip_longest(*(run.rows() for run in runs)), itertools.zip_longest(*drawn))
    for index, (rows, lanes) in enumerate(pairs):
        yield item_markup(index, rows, lanes, index == first)


def names(runs: Sequence[Run]) -> str:
    """What stands above the lanes and the events: the ids of processes, and which report is whose."""
    ids = [heads(run.rows()) for run in runs]
    shown = [f"<b>{letter}</b> {escape(run.name)}" if len(runs) == 2 else "" for letter, run in zip("AB", runs)]
    cells = [f'<div class="{letter}"><svg>{head}</svg>{name}</div>' for letter, head, name in zip("ab", ids, shown)]
    label = "process" if any(ids) else ""
    return f'<div class="names" aria-hidden="true"><span>{label}</span>{"".join(cells)}</div>\n'


def event_lists(runs: Sequence[Run], drawn: Sequence[Sequence[Drawing]], first: Optional[int]) -> Iterator[str]:
    """The lists of events, and the verdict or the cut as the last row."""
    yield f'<div id="events" class="events {"two" if len(runs) == 2 else "one"}">\n'
    yield names(runs)
    rows = items(runs, drawn, first)
    for start in itertools.count(1, ROWS_IN_LIST):
        part = list(itertools.islice(rows, ROWS_IN_LIST))
        if not part:
            break
        yield f'<ol start="{start}">\n{"".join(part)}</ol>\n'
    yield "</div>\n"


def ended_cell(rows: Sequence[Row], at: Optional[int]) -> str:
    """How a process ended that stands in this row, with a link to it."""
    if at is None:
        return "<td>not named</td>"
    row = rows[at]
    if isinstance(row, Exit):
        return f'<td>{ending(row)}, <a href="#e{at + 1}">event {at + 1}</a></td>'
    return f'<td>no end, <a href="#e{at + 1}">{"cut" if isinstance(row, Cut) else "verdict"}</a></td>'


def process_table(runs: Sequence[Run]) -> Iterator[str]:
    """The same ends by process, folded together."""
    columns = [run.rows() for run in runs]
    ends: List[Dict[int, int]] = [{pid: end for pid, end, _ in ends_of(rows)} for rows in columns]
    pids = sorted(set().union(*ends))
    heads = [""] if len(runs) == 1 else [" in A", " in B"]
    yield f"<details><summary>{grouped(len(pids), 'process', 'processes')}</summary>\n<table>\n"
    yield '<caption>How each process ended</caption>\n<thead><tr><th scope="col">Process</th>'
    yield "".join(f'<th scope="col">End{head}</th>' for head in heads) + "</tr></thead>\n<tbody>\n"
    for pid in pids:
        cells = "".join(ended_cell(rows, found.get(pid)) for rows, found in zip(columns, ends))
        yield f'<tr><th scope="row">{pid}</th>{cells}</tr>\n'
    yield "</tbody>\n</table>\n</details>\n"


def events_section(runs: Sequence[Run], drawn: Sequence[Sequence[Drawing]], first: Optional[int]) -> Iterator[str]:
    """The events of runs, whose lanes are drawn so, and of which this row is the first that differs."""
    yield '<section aria-labelledby="events-head">\n<h2 id="events-head">Events</h2>\n'
    yield f"{LEGEND}\n"
    yield from process_table(runs)
    yield from event_lists(runs, drawn, first)
    yield "</section>\n"
