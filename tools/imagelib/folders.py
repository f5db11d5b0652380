"""Folders that are walked without following a link, and folders that are made whole or not at all."""
from __future__ import annotations

import contextlib
import os
import secrets
import signal
import stat
from typing import IO, Iterator, List

from .errors import Outside, reason_of
from .texts import quoted

FOLDER = os.O_RDONLY | os.O_DIRECTORY | os.O_NOFOLLOW

# The signals that people stop a program with.
STOPS = frozenset({signal.SIGINT, signal.SIGTERM, signal.SIGHUP})


@contextlib.contextmanager
def opened(top: int, path: bytes) -> Iterator[int]:
    """The folder at a path (`/a/b`; empty for the top itself) below an open one.

    It goes name by name, so no link is followed, and no path is too long for the system."""
    current = os.dup(top)
    try:
        for name in path.split(b"/")[1:]:
            inner = os.open(name, FOLDER, dir_fd=current)
            os.close(current)
            current = inner
        yield current
    finally:
        os.close(current)


# ---- places


def free_place(word: str, name: str, what: str = "folder") -> str:
    """The place of a folder, or of a file, that is to be made, without `/` at its end; Outside where it cannot be made
    there."""
    place = word.rstrip("/") or word[:1]
    if not place:
        raise Outside(f"{name} is empty: it is to name the {what} that is made")
    if os.path.lexists(place):
        raise Outside(f"{quoted(place)} exists already: name a {what} that doesn't")
    parent = parent_of(place)
    try:
        mode = os.stat(parent).st_mode
    except FileNotFoundError as error:
        raise Outside(f"{quoted(place)} cannot be made: there is no folder {quoted(parent)}") from error
    except OSError as error:
        raise Outside(f"{quoted(place)} cannot be made: {quoted(parent)}: {reason_of(error)}") from error
    if not stat.S_ISDIR(mode):
        raise Outside(f"{quoted(place)} cannot be made: {quoted(parent)} is no folder")
    return place


def parent_of(place: str) -> str:
    return os.path.dirname(place) or "."


def is_inside(place: str, folder: str) -> bool:
    """Whether a place, whose own folder is there, lies below a folder."""
    top = os.path.realpath(folder)
    return os.path.commonpath([top, os.path.realpath(parent_of(place))]) == top


# ---- whole or not at all


@contextlib.contextmanager
def made_whole(place: str, mode: int = 0o777) -> Iterator[str]:
    """A new folder beside a place, which takes the place when the block ends well, and is removed when it doesn't.

    Meanwhile no signal stops the program anywhere but in `stop_if_asked`, so that none comes between."""
    with stops_held():
        folder = new_beside(place, mode)
        try:
            yield folder
            os.rename(folder, place)
        except OSError as error:
            remove(folder)
            raise Outside(f"{quoted(place)} cannot be made: {reason_of(error)}") from error
        except BaseException:
            remove(folder)
            raise


@contextlib.contextmanager
def file_made_whole(place: str) -> Iterator[IO[bytes]]:
    """The same for a new file, which is open to be written."""
    with stops_held():
        folder = new_beside(place, 0o700)
        try:
            part = os.path.join(folder, os.path.basename(place))
            with open(part, "wb") as file:
                yield file
            os.rename(part, place)
        except OSError as error:
            raise Outside(f"{quoted(place)} cannot be made: {reason_of(error)}") from error
        finally:
            remove(folder)


def new_beside(place: str, mode: int) -> str:
    """Makes a folder with a new name in a place's own folder."""
    while True:
        folder = os.path.join(parent_of(place), f".image-{secrets.token_hex(8)}.part")
        try:
            os.mkdir(folder, mode)
            return folder
        except FileExistsError:
            continue
        except OSError as error:
            raise Outside(f"{quoted(place)} cannot be made: {reason_of(error)}") from error


@contextlib.contextmanager
def stops_held() -> Iterator[None]:
    """Holds the signals that stop a program back till the block ends."""
    before = signal.pthread_sigmask(signal.SIG_BLOCK, STOPS)
    try:
        yield
    finally:
        signal.pthread_sigmask(signal.SIG_SETMASK, before)


def stop_if_asked() -> None:
    """Ends what is made where one of those signals was held back."""
    if STOPS & signal.sigpending():
        raise KeyboardInterrupt


def remove(folder: str) -> None:
    """Removes a folder that this program made, however deep it is and whatever modes the folders in it have."""
    try:
        os.chmod(folder, 0o700)
        top = os.open(folder, FOLDER)
        try:
            waiting = emptied(top, top)
            while waiting:
                name = waiting.pop()
                inner = os.open(name, FOLDER, dir_fd=top)
                try:
                    waiting += emptied(inner, top)
                finally:
                    os.close(inner)
                os.rmdir(name, dir_fd=top)
        finally:
            os.close(top)
        os.rmdir(folder)
    except OSError as error:
        raise Outside(f"{quoted(folder)} is left over, since it cannot be removed: {reason_of(error)}") from error


def emptied(folder: int, top: int) -> List[str]:
    """Removes the files of a folder, and moves its folders up to the top one, under new names, which it answers."""
    moved = []
    with os.scandir(folder) as found:
        entries = list(found)
    for entry in entries:
        if entry.is_dir(follow_symlinks=False):
            # A folder is moved only by who may write to it.
            os.chmod(entry.name, 0o700, dir_fd=folder)
            moved.append(secrets.token_hex(16))
            os.rename(entry.name, moved[-1], src_dir_fd=folder, dst_dir_fd=top)
        else:
            os.unlink(entry.name, dir_fd=folder)
    return moved
