"""What tools/run does, from its words to its status."""
from __future__ import annotations

import contextlib
import os
import sys
import traceback
from typing import TYPE_CHECKING, Dict, List, Optional, Sequence

from imagelib.errors import ImageError, reason_of
from imagelib.texts import shown
from reportlib.streams import Refusal

from .ends import Outcome, outcome
from .errors import DIFFERENT, FAILED, SIGNALLED, RunError
from .finding import find_program, has_option, usage_of, version_of
from .inputs import blob_of
from .outlets import Outlets, open_all, write_all
from .progress import EVERY, Progress
from .reports import Kept, Report, kept_report
from .running import Given, check, follow, tree_fault
from .signals import Stopped, scratch, stop_on_signals
from .source import IMAGE, kind_of
from .words import Request, Told, check_text, help_text, read_words

if TYPE_CHECKING:
    from .trees import Trees


class Voice:
    """What says lines on standard error, each behind the tool's name."""

    def __init__(self, name: str) -> None:
        self.name = name
        self.is_quiet = False
        self.progress = Progress(False, self.write)

    def write(self, data: bytes) -> None:
        """Where standard error cannot be written, there is nobody to tell it to."""
        with contextlib.suppress(OSError):
            write_all(2, data)

    def show_progress(self, request: Request) -> None:
        self.is_quiet = request.is_quiet
        self.progress = Progress(not request.is_quiet and os.isatty(2), self.write)

    def say(self, lines: Sequence[str]) -> None:
        if lines:
            self.progress.end_line()
            self.write("".join(f"{self.name}: {line}\n" for line in lines).encode("utf-8", "backslashreplace"))

    def note(self, lines: Sequence[str]) -> None:
        if not self.is_quiet:
            self.say(lines)


class Runs:
    """The runs of a request on an image. The first is shown, and the folders are made of its tree."""

    def __init__(self, request: Request, program: str, given: Given, trees: Optional[Trees], voice: Voice) -> None:
        self.request, self.program, self.given, self.trees, self.voice = request, program, given, trees, voice
        self.outlets = Outlets(voice.progress)

    def words(self, numbers: Dict[str, int], trees: Optional[Trees]) -> List[bytes]:
        options = [word for name, number in numbers.items() for word in (name, str(number))]
        if self.given.input is not None:
            options.append(f"--stdin={self.given.input}")
        form = ["export", self.given.image, trees.export] if trees else ["run", self.given.image]
        words = [self.program, *form, *options, "--", *self.request.command]
        return [os.fsencode(word) for word in words]

    def run(self, numbers: Dict[str, int], is_first: bool, keeps: Sequence[Kept]) -> Outcome:
        """A run with these options."""
        progress, trees = self.voice.progress, self.trees if is_first else None
        report = Report(self.show if is_first else lambda stream, data: None, keeps)

        def take(block: bytes) -> None:
            report.take(block)
            fault = None if keeps or trees else self.outlets.fault()
            if fault:
                raise fault

        def tick() -> None:
            progress.tick(report.reader.events, report.reader.offset)

        try:
            ended = follow(self.words(numbers, trees), take, tick, EVERY if progress.is_shown else None)
        finally:
            progress.hide()
        fault = tree_fault(ended, report) if trees else ""
        check(ended, report, self.program, self.given, fault != "")
        if trees and fault:
            trees.fault = fault
        else:
            self.voice.say([f"dettrace said: {shown(line)}" for line in ended.said.splitlines()])
        for kept in keeps:
            kept.finish()
        return outcome(self.request, self.given.image, report.first_end, report.reader.verdict)

    def show(self, stream: int, data: bytes) -> None:
        self.outlets.write(stream, data)

    def run_one(self, keeps: Sequence[Kept]) -> int:
        end = self.run(self.request.numbers, True, keeps)
        self.voice.say(end.lines)
        self.make_trees()
        return end.status

    def run_several(self, keeps: Sequence[Kept]) -> int:
        """Runs it again and again, until a report differs from the first."""
        # Parts that not every run needs are loaded here, since that takes longer than a small run.
        from . import comparing

        has_workers = has_option(self.program, "--workers")
        tried = list(comparing.variants(self.request.numbers, self.request.runs, has_workers))
        with scratch() as folder:
            first = os.path.join(folder, "first")
            with kept_report(first) as kept:
                end = self.run(tried[0], True, [kept, *keeps])
            self.voice.say(end.lines)
            self.make_trees()
            for at, numbers in enumerate(tried[1:], 2):
                other = os.path.join(folder, "other")
                self.again(numbers, f"run {at} of {len(tried)} ({comparing.called(numbers)})", other)
                if not comparing.are_equal(first, other):
                    names = [comparing.called(each) for each in (tried[0], numbers)]
                    self.voice.say([f"two runs differ, A with {names[0]} and B with {names[1]}:"])
                    comparing.show_difference([first, other], names)
                    return DIFFERENT
        self.voice.note([comparing.told_equal(tried)])
        return end.status if self.request.is_strict else 0

    def make_trees(self) -> None:
        """Makes the folders that are wanted of the tree which the first run has left."""
        if self.trees:
            self.trees.make()
            self.voice.note(self.trees.notes)
            self.voice.say(self.trees.faults)

    def again(self, numbers: Dict[str, int], called: str, path: str) -> None:
        """One more run, whose report is put at a path."""
        try:
            with kept_report(path) as kept:
                self.run(numbers, False, [kept])
        except RunError as error:
            raise RunError(*(f"{called}: {line}" for line in error.lines)) from error


def check_options(request: Request, program: str) -> None:
    """Ends the tool where an option is for the program, and this one does not have it."""
    given = {"--workers": "--workers" in request.numbers, "--stdin": request.input is not None}
    for option, is_given in given.items():
        if is_given and not has_option(program, option):
            raise RunError(f"{option}: this dettrace does not have it: {shown(usage_of(program))}")


def run(request: Request, voice: Voice) -> int:
    """Does what the words ask for, and answers the status."""
    voice.show_progress(request)
    program = find_program(os.environ)
    check_options(request, program)
    kind = kind_of(request.source)
    if kind == IMAGE and request.profile is not None:
        raise RunError(f"--profile: {shown(request.source)} is an image, whose version says it: leave it out")
    with contextlib.ExitStack() as stack:
        trees = None
        if request.trees:
            from .trees import trees_of

            trees = stack.enter_context(trees_of(request, kind))
        image = request.source
        if kind != IMAGE:
            from .cache import packed

            version = request.profile or 1
            made = stack.enter_context(packed(request.source, kind, version, os.environ, voice.progress.show))
            image = made.image
            voice.note(made.notes)
        check_text(image)
        given = Given(image, blob_of(request, kind, image))
        keeps = [stack.enter_context(kept_report(request.report))] if request.report is not None else []
        runs = Runs(request, program, given, trees, voice)
        status = runs.run_one(keeps) if request.runs == 1 else runs.run_several(keeps)
        fault = runs.outlets.fault()
        if fault:
            raise fault
        # A program that failed itself may have left nothing, and its own code says more.
        return FAILED if status == 0 and trees and trees.faults else status


def tell(option: str, name: str) -> int:
    """Writes what an option asks for that runs nothing."""
    text = help_text(name) if option == "--help" else f"{name} {version_of()}\n"
    try:
        write_all(1, text.encode())
    except OSError as error:
        raise RunError(f"standard output cannot be written: {reason_of(error)}") from error
    return 0


def told_mistake(error: Exception) -> str:
    """A mistake of this tool itself, and where it is."""
    frame = traceback.extract_tb(error.__traceback__)[-1]
    place = f"{os.path.basename(frame.filename)}:{frame.lineno}"
    said = shown(" ".join(str(error).split()))
    return f"a mistake of this tool, at {place}: {type(error).__name__} {said}"


def main(words: Optional[Sequence[str]] = None, name: str = "run") -> int:
    """Runs the tool, and answers its exit status."""
    stop_on_signals()
    voice = Voice(name)
    try:
        if not open_all():
            raise RunError("standard output is closed")
        try:
            request = read_words(sys.argv[1:] if words is None else words)
        except Told as told:
            return tell(str(told), name)
        return run(request, voice)
    except (RunError, ImageError) as error:
        voice.say([line for line in error.lines])
    except Refusal as error:
        voice.say([str(error)])
    except Stopped as stopped:
        voice.progress.hide()
        return SIGNALLED + stopped.number
    except OSError as error:
        name_there = error.filename
        place = f"{shown(name_there)}: " if isinstance(name_there, (str, bytes)) else ""
        voice.say([f"{place}{reason_of(error)}"])
    except MemoryError:
        voice.say(["memory ran out"])
    except Exception as error:  # A traceback's status would be taken for the guest's.
        voice.say([told_mistake(error)])
    return FAILED
