"""Folders of plain files that are made of the tree which a run leaves, or of what is below a path of it.

The program exports the tree to a folder of ours, which is an image then, and these are unpacked from it."""
from __future__ import annotations

import contextlib
import os
from typing import Iterator, List, Sequence

from imagelib.errors import ImageError
from imagelib.folders import is_inside, parent_of
from imagelib.index import CALLED, DIR, Image, read_image
from imagelib.texts import shown
from imagelib.unpack import make_tree, place_of

from .errors import RunError
from .nostart import meant, path_fault
from .paths import ENOENT, Names, walk
from .signals import scratch
from .source import ARCHIVE, FOLDER
from .words import Request, Wanted, check_text


class Trees:
    """The folders that are wanted of one run's tree, where they are to be made, and the folder that the program exports
    it to. `fault` says why it is not there."""

    def __init__(self, wanted: Sequence[Wanted], places: Sequence[str], export: str) -> None:
        self.wanted, self.places, self.export = wanted, places, export
        self.fault = ""
        self.notes: List[str] = []
        self.faults: List[str] = []

    def make(self) -> None:
        """Makes each of them that can be made, and keeps what is said of it."""
        for each, place in zip(self.wanted, self.places):
            try:
                if self.fault:
                    raise RunError(self.fault)
                self.notes += said_of(each, make_tree(below(read_image(self.export), each.path), place))
            except (ImageError, RunError) as error:
                self.faults += said_of(each, error.lines)


@contextlib.contextmanager
def trees_of(request: Request, kind: str) -> Iterator[Trees]:
    """The folders that are wanted of a run of this kind of source, before any of them is made."""
    places = places_of(request, kind)
    with scratch() as export:
        check_text(export)
        yield Trees(request.trees, places, export)


def places_of(request: Request, kind: str) -> List[str]:
    """Where the folders are to be made; a RunError where one cannot be, so that this is known before the run."""
    places: List[str] = []
    for each in request.trees:
        try:
            place = place_of(each.folder)
        except ImageError as error:
            raise RunError(*said_of(each, error.lines)) from error
        named = f"{each.option}: {shown(each.folder)}"
        if kind != ARCHIVE and is_inside(place, request.source):
            why = "packed" if kind == FOLDER else "only read"
            raise RunError(f"{named} lies inside {shown(request.source)}, which is {why}: name another folder")
        if request.report is not None and is_within(request.report, place):
            raise RunError(f"{named} would hold {shown(request.report)} too, the report: name another folder")
        for other, before in zip(request.trees, places):
            if is_within(place, before) or is_within(before, place):
                raise RunError(f"{named} and {shown(other.folder)}, which {other.option} makes, are not apart: "
                               "name another folder")
        places.append(place)
    return places


def is_within(place: str, other: str) -> bool:
    """Whether a place is another one or lies below it."""
    real = [os.path.join(os.path.realpath(parent_of(each)), os.path.basename(each)) for each in (place, other)]
    return os.path.commonpath(real) == real[1]


def said_of(wanted: Wanted, lines: Sequence[str]) -> List[str]:
    return [f"{wanted.option}: {line}" for line in lines]


def below(image: Image, path: str) -> Image:
    """What is below a path, links of which are followed, as an image; a RunError where it leads to no directory."""
    names, word = Names(image), path if path.startswith("/") else f"/{path}"
    place = walk(names, word)
    fault = path_fault(names, place) if place.errno else None
    if fault:
        hint = meant(names, word, place) if fault.errno == ENOENT else ""
        raise RunError(f"in the tree at the end {fault.reason}{hint}")
    if names.kind(place.path) != DIR:
        called = CALLED[names.kind(place.path)]
        raise RunError(f"in the tree at the end {shown(place.path)} is {called}: name the directory that it is in")
    entries = [entry._replace(path=entry.path[len(place.path):]) for entry in image.entries
               if entry.path.startswith(f"{place.path}/")]
    return image._replace(entries=entries)
