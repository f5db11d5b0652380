"""The input of a run: the blob of its image that the program reads from standard input."""
from __future__ import annotations

from typing import Optional

from imagelib.index import read_image
from imagelib.texts import shown

from .errors import RunError
from .nostart import meant, path_fault
from .paths import ENOENT, Names, walk
from .source import IMAGE
from .words import Request


def blob_of(request: Request, kind: str, image: str) -> Optional[str]:
    """The name of the blob: the word itself where an image was named, and else that of the file which the word is the
    path of in what was packed. None where there is no such word."""
    if request.input is None or kind == IMAGE:
        return request.input
    names, word = Names(read_image(image)), request.input if request.input.startswith("/") else f"/{request.input}"
    place = walk(names, word)
    fault = path_fault(names, place)
    if fault:
        hint = meant(names, word, place) if fault.errno == ENOENT else ""
        raise RunError(f"--stdin {shown(request.input)}: in {shown(request.source)} {fault.reason}{hint}")
    return names.entries[place.path].blob
