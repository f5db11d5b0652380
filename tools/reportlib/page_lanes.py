"""Draws the lanes of a run: a line for each process, down to the event of its end.

A report says when a process ended and not when it began. Ids are given in the order in which processes are made, so a
process was there when one with a higher id ended. From there on its line is solid, and before that dotted.
"""
from __future__ import annotations

from typing import Dict, List, NamedTuple, Sequence, Set, Tuple

from .reader import Exit, Verdict
from .runs import Row

# More processes share columns.
COLUMNS = 8
COLUMN_WIDTH = 12
# Where a row's first line of text has its middle.
MIDDLE = 17


class Lane(NamedTuple):
    """A process in its column: the rows from which it may be there and surely is, that of its end, and its look."""

    pid: int
    column: int
    begin: int
    sure: int
    end: int
    look: str


def ends_of(rows: Sequence[Row]) -> List[Tuple[int, int, str]]:
    """Each process that a report names and the first one: its id, the row of its end, and how the end looks."""
    ends: List[Tuple[int, int, str]] = []
    named: Set[int] = set()
    for at, row in enumerate(rows):
        if isinstance(row, Exit) and row.pid not in named:
            named.add(row.pid)
            ends.append((row.pid, at, "good" if (row.how, row.number) == ("code", 0) else "bad"))
    last = rows[-1] if rows else None
    if isinstance(last, Verdict) and last.pid is not None and last.pid not in named:
        named.add(last.pid)
        ends.append((last.pid, len(rows) - 1, "bad"))
    has_started = not isinstance(last, Verdict) or last.kind != "nostart"
    if rows and has_started and 1 not in named:
        ends.append((1, len(rows) - 1, "open"))
    return ends


def sure_rows(ends: Sequence[Tuple[int, int, str]]) -> Dict[int, int]:
    """For each process the row from which it surely is there: its own end, or one of a process that was made later."""
    sure: Dict[int, int] = {}
    earliest = max((end for _, end, _ in ends), default=0)
    for pid, end, _ in sorted(ends, reverse=True):
        earliest = min(end, earliest)
        sure[pid] = 0 if pid == 1 else earliest
    return sure


def lanes_of(rows: Sequence[Row]) -> List[Lane]:
    """The first process has the first column. The others have one each, or take turns where there are too many."""
    ends = ends_of(rows)
    sure = sure_rows(ends)
    others = sorted(end for end in ends if end[0] != 1)
    if len(others) >= COLUMNS:
        others.sort(key=lambda end: end[1])
    lanes = [Lane(1, 0, 0, 0, end, look) for pid, end, look in ends if pid == 1]
    free = [0] * COLUMNS
    for index, (pid, end, look) in enumerate(others):
        column = index % (COLUMNS - 1) + 1
        lanes.append(Lane(pid, column, free[column], sure[pid], end, look))
        free[column] = end + 1
    return sorted(lanes, key=lambda lane: lane.begin)


def middle_of(column: int) -> int:
    return column * COLUMN_WIDTH + COLUMN_WIDTH // 2


def heads(rows: Sequence[Row]) -> str:
    """The ids of processes above their lanes, where each has a column of its own and every id has room there."""
    lanes = lanes_of(rows)
    have_room = len(lanes) <= COLUMNS and all(lane.pid < 100 for lane in lanes)
    return "".join(f'<text x="{middle_of(lane.column)}" y="{MIDDLE}">{lane.pid}</text>' for lane in lanes if have_room)


def sign(lane: Lane) -> str:
    """Where a lane ends: a disc for code 0, a square on its corner for another end, a ring for none."""
    x = middle_of(lane.column)
    line = f'<path class="{"line" if lane.sure < lane.end else "dots"}" d="M{x} 0V{MIDDLE}"/>'
    if lane.look == "bad":
        return f'{line}<path class="bad" d="M{x} {MIDDLE - 6}l6 6l-6 6l-6-6z"/>'
    return f'{line}<circle class="{lane.look}" cx="{x}" cy="{MIDDLE}" r="4.5"/>'


class Drawing(NamedTuple):
    """What is drawn at the left of a row: a letter for each column, and the signs of lanes that end there."""

    columns: str
    signs: str

    def markup(self) -> str:
        return f'<svg aria-hidden="true">{self.signs}</svg>' if self.signs else ""


def drawing(lanes: Sequence[Lane], row: int) -> Drawing:
    """The lanes of a row: `l` is a line from its top to its bottom, `d` a dotted one, and `n` none."""
    columns = ["n"] * COLUMNS
    for lane in lanes:
        if row < lane.end:
            columns[lane.column] = "l" if row >= lane.sure else "d"
    return Drawing("".join(columns), "".join(sign(lane) for lane in lanes if row == lane.end))


def drawings(rows: Sequence[Row]) -> List[Drawing]:
    waiting = lanes_of(rows)[::-1]
    here: List[Lane] = []
    drawn = []
    for row in range(len(rows)):
        here = [lane for lane in here if lane.end >= row]
        while waiting and waiting[-1].begin <= row:
            here.append(waiting.pop())
        drawn.append(drawing(here, row))
    return drawn


def style_of(columns: str) -> str:
    """The rule of style that draws such columns."""
    layers = [f"var(--{'line' if letter == 'l' else 'dots'}) {middle_of(at) - 1}px 0/2px 100% "
              "no-repeat" for at, letter in enumerate(columns) if letter != "n"]
    return f".{columns} {{ --drawn: {', '.join(layers) or 'none'}; }}\n"


def width_of(rows: Sequence[Row]) -> int:
    return COLUMN_WIDTH * max((lane.column + 1 for lane in lanes_of(rows)), default=0)
