"""The words of tools/image, what it says, and how it ends."""
from __future__ import annotations

import argparse
import os
import signal
import sys
from typing import List, NoReturn, Optional, Sequence, TextIO

from .archiving import unpack_archive
from .check import checked
from .errors import ImageError, Outside, reason_of
from .folders import STOPS
from .index import TYPES, read_image
from .listing import listed
from .pack import pack
from .texts import quoted, shown
from .unpack import unpack

TOOL = "image"

DESCRIPTION = "Images for dettrace: packs a folder or an archive as one, lists, checks and unpacks one."

STATUS = """exit status:
  0  done
  1  the image is refused, or dettrace could not read it (list, check, unpack), or it is damaged (check), or what
     was to be packed cannot be held by an image (pack)
  2  used wrongly, or something outside failed: nothing is there to be packed, a place is taken, a disk is full

For each error there is one line on standard error, which begins with `image:`. Names that begin with - stand behind
a word --."""

PACK = """Makes the folder IMAGE of the directories, files and symbolic links of FOLDER, or of a tar archive, plain
or compressed by gzip, bzip2, xz or zstd (the last takes Python 3.14 or the program zstd). Modes are kept (the
low 12 bits); owners, times, extended attributes and FOLDER's own mode are not, since the root of every image
has mode 0755. The same tree gives the same bytes wherever and whenever it is packed.

With --profile 2 the image is of version 2, whose guests have atomic instructions too. It may hold the devices
null, zero and random, which are told by their numbers (1:3, 1:5 and 1:8), and files of up to 67,108,864 bytes.

A file with several names becomes several files, and a line on standard output says so. So does one where
FOLDER is an image already, which is packed as any other folder. What an image cannot
hold is named, all of it, and then nothing is written: other devices, sockets and FIFOs; names and targets that
are no UTF-8; files of more bytes than the version has, which in version 1 are 16,777,216; names of more than 255
bytes, paths and targets of more than 4,095; more than 4,095 entries; an index of more than 4,194,304 bytes; what
cannot be read.

Of an archive's names a leading `./` or `/` is dropped. Directories that it doesn't name get mode 0755. Of
several members with one path the last counts."""

EXCLUDE = """leave out what matches a shell pattern, and what is below it: a pattern without `/` is matched with each
name (`*.o`), one with `/` with the path from FOLDER's root (`/build/tmp*`, where `*` matches `/` too); may be
given several times"""

PROFILE = "the image's version, which says what guests have (1)"

LIST = """Lists the entries of IMAGE as `ls -l` would list them to the guest: in byte order of their paths, each
owned by root, with the time 2000-01-01 00:00:00 UTC, and a device with its numbers in place of a size. Controls,
backslashes and bytes that would upset a terminal are escaped."""

CHECK = """Says in one line what IMAGE holds, or why dettrace refuses it: the refusal's number and name, the
entry that is wrong (`entry 3` is the third in image.json) and what is wrong with it. It names all entries that
are wrong in this way, at most twenty, and no other way, since dettrace refuses for the first. `store fault`
stands where dettrace could not read the folder. `damaged` stands where dettrace takes the image, but a blob
whose name is a SHA-256, as pack names them, has other bytes."""

STDIN = "look also at the blob NAME of IMAGE, which is to be a run's standard input, as `dettrace run --stdin` does"

UNPACK = """Makes FOLDER, which must be empty or not exist, with the tree of IMAGE and its modes; FOLDER's own
mode is 0755. An empty FOLDER is replaced by a new one, so it cannot be where a disk is mounted. Nothing is
written outside FOLDER, whatever the links in the image say, and FOLDER is made whole or not at all. Where the
system keeps back a set-user-id, set-group-id or sticky bit, a line on standard output says so; else nothing is
printed. Devices can be made by root alone. For anybody else each is named, and nothing is made.

With --tar it makes the tar archive ARCHIVE, which must not exist. Anybody can make that with devices in it.
All in it is owned by root and of the time 2000-01-01 00:00:00 UTC."""

TAR = "make a tar archive, not compressed, and no folder"


class Parser(argparse.ArgumentParser):
    """Says what is wrong with the words in one line, and fails where its help cannot be written."""

    def error(self, message: str) -> NoReturn:
        raise Outside(f"{shown(message)} (see {self.prog} --help)")

    def print_help(self, file: Optional[TextIO] = None) -> None:
        say(self.format_help().splitlines())


def parser() -> Parser:
    top = Parser(prog=TOOL, description=DESCRIPTION, epilog=STATUS, allow_abbrev=False, formatter_class=Plain)
    commands = top.add_subparsers(dest="command", metavar="COMMAND", required=True)
    add_pack(commands)
    for name, short, text in (
        ("list", "list the entries of an image", LIST),
        ("check", "say whether dettrace takes an image, or what is wrong with it", CHECK),
        ("unpack", "make a folder or an archive of an image", UNPACK),
    ):
        command = add_command(commands, name, short, text)
        command.add_argument("image", metavar="IMAGE", help="the image's folder")
        if name == "check":
            command.add_argument("--stdin", metavar="NAME", help=STDIN)
        if name == "unpack":
            command.add_argument("place", metavar="FOLDER|ARCHIVE", help="the folder or the archive to make")
            command.add_argument("--tar", action="store_true", help=TAR)
    return top


def add_pack(commands: argparse._SubParsersAction) -> None:
    command = add_command(commands, "pack", "make an image of a folder or an archive", PACK)
    command.add_argument("source", metavar="FOLDER|ARCHIVE", help="what to pack; a link to a folder is followed")
    command.add_argument("image", metavar="IMAGE", help="the folder to make, outside FOLDER; it must not exist")
    command.add_argument("--exclude", metavar="PATTERN", action="append", default=[], help=EXCLUDE)
    command.add_argument("--profile", type=int, choices=sorted(TYPES), default=1, help=PROFILE)


def add_command(commands: argparse._SubParsersAction, name: str, short: str, text: str) -> Parser:
    return commands.add_parser(
        name, help=short, description=text, epilog=STATUS, allow_abbrev=False, formatter_class=Plain
    )


class Plain(argparse.RawDescriptionHelpFormatter):
    """Keeps the lines of the descriptions."""


def run(words: argparse.Namespace) -> List[str]:
    """Does what the words ask for, and answers the lines for standard output."""
    if words.command == "pack":
        return pack(words.source, words.image, words.exclude, words.profile)
    if words.command == "list":
        return listed(read_image(words.image))
    if words.command == "check":
        return [checked(words.image, words.stdin)]
    return (unpack_archive if words.tar else unpack)(words.image, words.place)


def say(lines: Sequence[str]) -> None:
    """Puts lines out, as UTF-8 in any locale."""
    text = "".join(f"{line}\n" for line in lines)
    try:
        if sys.stdout is None:
            raise Outside("standard output is closed")
        sys.stdout.flush()
        sys.stdout.buffer.write(text.encode("utf-8", "backslashreplace"))
        sys.stdout.flush()
    except OSError as error:
        discard_output()
        raise Outside(f"standard output cannot be written: {reason_of(error)}") from error


def discard_output() -> None:
    """What is left in the buffer would fail again when Python ends."""
    os.dup2(os.open(os.devnull, os.O_WRONLY), sys.stdout.fileno())


def complain(lines: Sequence[str]) -> None:
    text = "".join(f"{TOOL}: {line}\n" for line in lines)
    try:
        if sys.stderr is not None:
            sys.stderr.buffer.write(text.encode("utf-8", "backslashreplace"))
            sys.stderr.flush()
    except OSError:
        # There is nobody to tell it to.
        pass


def stop_on_signals() -> None:
    """Lets a termination end the program as ctrl-C does, which leaves nothing half made."""
    for number in (signal.SIGTERM, signal.SIGHUP):
        if signal.getsignal(number) is signal.SIG_DFL:
            signal.signal(number, signal.default_int_handler)


def main(arguments: Optional[Sequence[str]] = None) -> int:
    """Runs a command, and answers the exit status."""
    try:
        say(run(parser().parse_args(arguments)))
        return 0
    except SystemExit:
        # The help was printed.
        return 0
    except ImageError as error:
        complain(error.lines)
        return error.status
    except KeyboardInterrupt:
        # A second signal isn't to end the program in another way than the first.
        signal.pthread_sigmask(signal.SIG_BLOCK, STOPS)
        complain(["stopped by a signal"])
        return 2
    except OSError as error:
        name = error.filename
        complain([f"{quoted(name)}: {reason_of(error)}" if isinstance(name, (str, bytes)) else reason_of(error)])
        return 2
    except MemoryError:
        complain(["out of memory"])
        return 2
