"""A run of the program: its report is read as it comes, and its status and its words are kept for the end."""
from __future__ import annotations

import contextlib
import os
import selectors
import subprocess
import tempfile
import time
from typing import Callable, Iterator, List, NamedTuple, Optional, Sequence

from imagelib.errors import ImageError, reason_of
from imagelib.folders import STOPS, stops_held
from imagelib.index import ENTRY_LIMIT, INDEX_LIMIT, PATH_LIMIT, read_image
from imagelib.texts import shown
from reportlib.reader import NotReport, Phase, told_place

from .ends import SIGNALS
from .errors import RunError
from .reports import Report
from .signals import let_stops, stops_let

BLOCK = 65536
# So many bytes of what the program says on standard error are kept.
SAID_LIMIT = 65536
# Seconds.
LATER = 0.2
ENDED, OTHERWISE, UNDECIDED = 0, 1, 10
REFUSED_WORDS, REFUSED_IMAGE, STORE_FAULT, HOST_FAULT, OUTPUT_FAULT, NO_MEMORY, REFUSED_EXPORT = range(2, 9)

FAULTS = {
    HOST_FAULT: "the host of dettrace failed, which it never should",
    OUTPUT_FAULT: "dettrace could not write its report",
    NO_MEMORY: "memory ran out: the run needs more of it (docs/FARM.md, \"What a run costs\")",
}


# What of a tree no image can hold, by the names of the refusals.
EXPORT_REFUSALS = {
    "LongPath": f"a path has more than {PATH_LIMIT} bytes",
    "TooMany": f"there are more than {ENTRY_LIMIT} paths",
    "NotText": "a path or the target of a link is no UTF-8",
    "BigIndex": f"its index would have more than {INDEX_LIMIT} bytes",
}


class Given(NamedTuple):
    """What the program is given: an image, and the name of the blob in it that is the input, if there is one."""

    image: str
    input: Optional[str]


class Ended(NamedTuple):
    """How the program ended, and what it said on standard error."""

    status: int
    said: str


@contextlib.contextmanager
def started(words: Sequence[bytes]) -> Iterator[subprocess.Popen]:
    """The program, which has ended when the block has."""
    with stops_held():
        try:
            child = subprocess.Popen(words, stdin=subprocess.DEVNULL, stdout=subprocess.PIPE, stderr=subprocess.PIPE,
                                     preexec_fn=let_stops)
        except OSError as error:
            raise RunError(f"{shown(words[0])} cannot be run: {reason_of(error)}") from error
        try:
            with stops_let():
                yield child
        finally:
            child.kill()
            child.wait()
            for pipe in (child.stdout, child.stderr):
                pipe.close()


def follow(words: Sequence[bytes], take: Callable[[bytes], None], tick: Callable[[], None],
           every: Optional[float]) -> Ended:
    """Runs the program, and hands on each block of its report; `tick` is called at least every so many seconds."""
    said = bytearray()
    with started(words) as child, selectors.DefaultSelector() as waiting:
        for pipe in (child.stdout, child.stderr):
            waiting.register(pipe, selectors.EVENT_READ)
        while waiting.get_map():
            for key, _ in waiting.select(every):
                block = os.read(key.fd, BLOCK)
                if not block:
                    waiting.unregister(key.fileobj)
                elif key.fileobj is child.stdout:
                    take(block)
                else:
                    said += block[:SAID_LIMIT - len(said)]
            tick()
        status = child.wait()
        if -status in STOPS:
            # A terminal sends its signal to both, and this tool's may come a little later.
            time.sleep(LATER)
        return Ended(status, said.decode("utf-8", "replace").strip())


def tree_fault(ended: Ended, report: Report) -> str:
    """Why an export has left no tree, though its report is whole; empty where it has, and where the report is not."""
    if report.reader.phase is not Phase.END:
        return ""
    if ended.status == REFUSED_EXPORT:
        said = " ".join(ended.said.split())
        return f"no image can hold the tree at the end: {EXPORT_REFUSALS.get(said.rpartition(' ')[2], shown(said))}"
    if ended.status == STORE_FAULT:
        return (f"dettrace could not write the tree to a folder in {shown(tempfile.gettempdir())}: is the disk full? "
                "TMPDIR names another place")
    return ""


def check(ended: Ended, report: Report, program: str, given: Given, lacks_tree: bool = False) -> None:
    """Ends the tool where the run is not over as its report says, or has no whole report. The status may be that of an
    export that failed behind it."""
    if ended.status not in (ENDED, OTHERWISE, UNDECIDED) and not lacks_tree:
        raise RunError(*fault_lines(ended, program, given))
    try:
        cut = report.reader.finish()
    except NotReport as error:
        raise RunError(f"what dettrace wrote is no report: {error}") from error
    if cut:
        raise RunError(f"the report is cut, though dettrace ended with {ended.status}: it ends {told_place(cut)}")
    verdict, end = report.reader.verdict, report.first_end
    if verdict.kind == "ended" and end is None:
        raise RunError("the report has no end of process 1, though its verdict is that this ended")
    is_good = end is not None and (end.how, end.number) == ("code", 0)
    told = UNDECIDED if verdict.kind != "ended" else ENDED if is_good else OTHERWISE
    if told != ended.status and not lacks_tree:
        raise RunError(f"dettrace ended with {ended.status}, and not with {told}, which its report comes to")


def fault_lines(ended: Ended, program: str, given: Given) -> List[str]:
    """Why there is no whole report."""
    said = " ".join(ended.said.split())
    if ended.status in (REFUSED_IMAGE, STORE_FAULT):
        return image_lines(given) or [f"dettrace could not take the image {shown(given.image)}: {shown(said)}"]
    if ended.status == REFUSED_WORDS:
        return [f"{shown(program)} refuses these words: is it of the same version as this tool? {shown(said)}"]
    if ended.status in FAULTS:
        return [FAULTS[ended.status]]
    if ended.status < 0:
        number = -ended.status
        name = f"SIG{SIGNALS[number - 1]}" if number <= len(SIGNALS) else f"signal {number}"
        hint = ", as the system does where memory runs out" if name == "SIGKILL" else ""
        return [f"dettrace was ended by {name}, which something else sent{hint}; the report is cut"]
    more = f": {shown(said)}" if said else ""
    return [f"{shown(program)} ended with {ended.status}, as dettrace never does{more}"]


def image_lines(given: Given) -> List[str]:
    """What tools/image check says of an image; nothing where it would be taken."""
    try:
        read_image(given.image, given.input)
    except ImageError as error:
        return [f"{shown(given.image)}: {line}" for line in error.lines]
    return []
