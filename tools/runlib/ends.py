"""What the end of a run means: the status of this tool, and the line that says more."""
from __future__ import annotations

from typing import Dict, List, NamedTuple, Optional

from imagelib.errors import ImageError
from imagelib.index import read_image
from imagelib.texts import shown
from reportlib.reader import Exit, Verdict

from .calls import told_unsupported
from .errors import BUDGET, DEADLOCK, NOT_FOUND, NOT_STARTED, SIGNALLED, UNSUPPORTED
from .nostart import instructions_of, told_nostart, why
from .paths import ENOENT, Names
from .words import BUDGET_DEFAULT, BUDGET_LIMIT, Request

# The names of signals by their numbers, from 1 on (signal(7)).
SIGNALS = """HUP INT QUIT ILL TRAP ABRT BUS FPE KILL USR1 SEGV USR2 PIPE ALRM TERM STKFLT CHLD CONT STOP TSTP TTIN TTOU
    URG XCPU XFSZ VTALRM PROF WINCH IO PWR SYS""".split()

ILL, BUS = 4, 7

PLACE = "docs/GUESTS.md, \"The instruction at fault\", finds the place"
REASONS: Dict[int, str] = {
    5: f"ebreak, which is also what the compiler puts where it saw undefined behaviour; {PLACE}",
    6: "abort, or an assert that failed, whose line is on standard error",
    11: f"memory that is not there or lacks the right, as behind a bad pointer or a stack over 1 MiB; {PLACE}",
    13: "it wrote to a pipe that nobody reads any more",
}
SENT = "a process of the run has sent it"
DEADLOCKED = ("all processes wait, so that none can go on: close the ends of a pipe that a process does not use, "
              "before it reads or waits (docs/GUESTS.md, \"Processes and pipes\")")


class Outcome(NamedTuple):
    """How a run ended: the status of this tool, and what is said of it."""

    status: int
    lines: List[str]


def outcome(request: Request, image: str, first_end: Optional[Exit], verdict: Verdict) -> Outcome:
    """What a whole report comes to, which has this end of the first process and this verdict."""
    if verdict.kind == "nostart":
        return nostart(request, image, verdict.errno or 0)
    if verdict.kind == "unsupported":
        return Outcome(UNSUPPORTED, [told_unsupported(verdict.pid or 0, verdict.number or 0)])
    if verdict.kind == "budget":
        return Outcome(BUDGET, [told_budget(request.numbers.get("--budget", BUDGET_DEFAULT))])
    if verdict.kind == "deadlock":
        return Outcome(DEADLOCK, [DEADLOCKED])
    if first_end is None:
        return Outcome(0, [])
    if first_end.how == "code":
        return Outcome(first_end.number, [])
    return Outcome(SIGNALLED + first_end.number, [told_signal(request, image, first_end.number)])


def told_budget(budget: int) -> str:
    is_most = budget >= BUDGET_LIMIT
    said = f"{budget} instructions{', which is the most,' if is_most else ''} is used up"
    more = "" if is_most else f"give more by --budget, up to {BUDGET_LIMIT}; "
    return (f"the budget of {said}: {more}build with -O2, and look for a loop without an end "
            f"(docs/GUESTS.md, \"The instruction at fault\")")


def names_of(image: str) -> Optional[Names]:
    """The nodes of an image; None where it can no longer be read."""
    try:
        return Names(read_image(image))
    except ImageError:
        return None


def nostart(request: Request, image: str, errno: int) -> Outcome:
    names = names_of(image)
    try:
        line = told_nostart(names, request.command, request.args, request.source, errno) if names else ""
    except ImageError:
        line = ""
    status = NOT_FOUND if errno == ENOENT else NOT_STARTED
    return Outcome(status, [line or f"{shown(request.program)} cannot be started: {why(errno)}"])


def told_signal(request: Request, image: str, number: int) -> str:
    name = f"SIG{SIGNALS[number - 1]}, signal {number}" if number <= len(SIGNALS) else f"signal {number}"
    reason = REASONS.get(number, SENT)
    if number in (ILL, BUS):
        names = names_of(image)
        version = names.image.version if names else 1
        reason = "; ".join(wrong_instructions(request, names) or [instruction_reason(number, version)])
    return f"{shown(request.program)} was ended by {name}: {reason}"


def instruction_reason(number: int, version: int) -> str:
    """Why a program was ended at an instruction, on an image of this version."""
    if number == ILL:
        words = "RV64IM (atomic ones take --profile 2)" if version == 1 else "RV64IMA"
        return f"a word that is no instruction of {words}, or a jump into data; {PLACE}"
    more = "" if version == 1 else ", or an atomic instruction at no multiple of its size"
    return f"a jump, or the entry, at no multiple of 4{more}; {PLACE}"


def wrong_instructions(request: Request, names: Optional[Names]) -> List[str]:
    try:
        found = instructions_of(names, request.program) if names else []
    except ImageError:
        found = []
    return [*found, "build it, and each library, with -march=rv64im -mabi=lp64"] if found else []
