"""The words of tools/run: which options there are, what their values may be, and what all of it asks for."""
from __future__ import annotations

import difflib
import os
import re
from typing import Dict, List, NamedTuple, Optional, Sequence, Tuple

from imagelib.index import PATH_LIMIT, TYPES
from imagelib.texts import shown

from .errors import RunError

HIGHEST = 2**64 - 1
BUDGET_LIMIT = 1_000_000_000
BUDGET_DEFAULT = 100_000_000
WORKERS_LIMIT = 64
WORKERS_DEFAULT = 4
RUNS_LIMIT = 1_000

USAGE = "[options] FOLDER|ARCHIVE|IMAGE -- [NAME=VALUE ..] PROGRAM [ARG ..]"


class Range(NamedTuple):
    """The numbers that an option takes."""

    low: int
    high: int


# The program's own options, and those of this tool; the value of --report is a name, and the others have none.
PASSED = {"--seed": Range(0, HIGHEST), "--budget": Range(1, BUDGET_LIMIT), "--workers": Range(1, WORKERS_LIMIT),
          "--host": Range(0, HIGHEST)}
NUMBERS = {**PASSED, "--profile": Range(min(TYPES), max(TYPES)), "--check": Range(2, RUNS_LIMIT)}
# What the other options that have a value want there. One of them may stand several times.
NAMES = {"--stdin": "the name of a file", "--report": "the name of a file", "--tree": "the name of a folder",
         "--take": "PATH=FOLDER"}
SEVERAL = "--take"
FLAGS = ("--twice", "--strict", "--quiet", "--help", "--version")
OPTIONS = (*NUMBERS, *NAMES, *FLAGS)

ASSIGNMENT = re.compile(r"[A-Za-z_][A-Za-z0-9_]*=", re.ASCII)


class Wanted(NamedTuple):
    """A folder that is to be made of the final tree: of all of it, or of what is below a path."""

    option: str
    path: str
    folder: str


class Request(NamedTuple):
    """What the words ask for: `numbers` has the program's own options, `input` names the file that it reads from
    standard input, `profile` is that of the image which is packed, and `runs` is 1 unless runs are compared."""

    source: str
    numbers: Dict[str, int]
    input: Optional[str]
    profile: Optional[int]
    command: List[str]
    report: Optional[str]
    trees: List[Wanted]
    runs: int
    is_strict: bool
    is_quiet: bool

    @property
    def program(self) -> str:
        """PROGRAM, the first word behind `--` that sets no variable."""
        return self.args[0]

    @property
    def args(self) -> List[str]:
        return self.command[variables(self.command):]


def variables(command: Sequence[str]) -> int:
    """How many words NAME=VALUE begin a command."""
    return next((at for at, word in enumerate(command) if not ASSIGNMENT.match(word)), len(command))


class Told(Exception):
    """The words ask for the help or the version, by this option."""


def read_words(words: Sequence[str]) -> Request:
    """What the words ask for."""
    is_parted = "--" in words
    end = words.index("--") if is_parted else len(words)
    try:
        options, takes, names = parted(words[:end])
    except RunError:
        # Words of the program are no options of this tool.
        if is_parted:
            raise
        options, takes, names = {}, [], []
    for name in ("--help", "--version"):
        if name in options:
            raise Told(name)
    source = source_of(names, is_parted)
    command = list(words[end + 1:])
    check_command(command)
    if "--twice" in options and "--check" in options:
        raise RunError("--twice is --check 2: give one of them")
    runs = 2 if "--twice" in options else int(options.get("--check", "1"))
    profile = int(options["--profile"]) if "--profile" in options else None
    return Request(source, {name: int(options[name]) for name in PASSED if name in options}, options.get("--stdin"),
                   profile, command, options.get("--report"), trees_of(options.get("--tree"), takes), runs,
                   "--strict" in options, "--quiet" in options)


def trees_of(tree: Optional[str], takes: Sequence[str]) -> List[Wanted]:
    """The folders that are to be made, that of the whole tree first."""
    parts = [take.partition("=") for take in takes]
    whole = [] if tree is None else [Wanted("--tree", "/", tree)]
    return whole + [Wanted(f"--take {shown(path)}", path, folder) for path, _, folder in parts]


def parted(words: Sequence[str]) -> Tuple[Dict[str, str], List[str], List[str]]:
    """The options among the words before `--`, each with its value, the values of that which may stand several times,
    and the other words."""
    options: Dict[str, str] = {}
    takes = []
    names = []
    rest = list(reversed(words))
    while rest:
        word = rest.pop()
        if not word.startswith("-") or word == "-":
            names.append(word)
            continue
        name, equals, value = word.partition("=")
        name = "--help" if word == "-h" else name
        if name not in OPTIONS:
            raise RunError(unknown(name))
        if name in options:
            raise RunError(f"{name} stands twice")
        if name in FLAGS and equals:
            raise RunError(f"{shown(word)}: {name} takes no value")
        if name not in FLAGS and not equals:
            if not rest or rest[-1].startswith("--"):
                raise RunError(f"{name}: {wanted(name)} is missing behind it")
            value = rest.pop()
        if name == SEVERAL:
            takes.append(checked(name, value))
        else:
            options[name] = checked(name, value)
    return options, takes, names


def unknown(name: str) -> str:
    """What is said of a word that looks like an option and is none."""
    near = difflib.get_close_matches(name, OPTIONS, 1)
    hint = f"did you mean {near[0]}?" if near else f"a name that begins with - is written ./{shown(name)}"
    return f"{shown(name)}: there is no such option; {hint}"


def wanted(name: str) -> str:
    if name in NUMBERS:
        return f"a whole number from {NUMBERS[name].low} to {NUMBERS[name].high}"
    return NAMES[name]


def checked(name: str, value: str) -> str:
    """The value of an option, where it is one that it takes."""
    said = f"{name} {shown(value)}"
    if name == "--report" and value in ("", "-"):
        raise RunError("--report: the name of the file is empty" if not value else
                       "--report -: standard output has what the program writes; name a file")
    if name == "--tree" and not value:
        raise RunError("--tree: the name of the folder is empty")
    if name == "--stdin":
        check_stdin(said, value)
    if name == SEVERAL:
        check_take(said, value)
    if name not in NUMBERS:
        return value
    digits = value[1:] if value.startswith("+") else value
    if not (digits.isascii() and digits.isdigit()):
        raise RunError(f"{said}: not {wanted(name)}")
    low, high = NUMBERS[name]
    # Python refuses to read numbers of thousands of digits.
    digits = digits.lstrip("0") or "0"
    if len(digits) > len(str(high)) or int(digits) > high:
        raise RunError(f"{said}: at most {high}")
    if int(digits) < low:
        raise RunError(f"{said}: at least {low}")
    return digits


def check_stdin(said: str, value: str) -> None:
    """A path of what is packed, or the name of a file of an image. Both are text."""
    length = len(os.fsencode(value))
    if not value:
        raise RunError("--stdin: the name of the file is empty")
    if not is_text(value):
        raise RunError(f"{said}: the name is no UTF-8, as all names in an image are")
    if length > PATH_LIMIT:
        raise RunError(f"--stdin: the name has {length} bytes, more than {PATH_LIMIT}")


def check_take(said: str, value: str) -> None:
    """A path of the tree, which is text there, and behind the first `=` the name of a folder."""
    path, equals, folder = value.partition("=")
    length = len(os.fsencode(path))
    if not is_text(path):
        raise RunError(f"{said}: the path is no UTF-8, as all paths of an image are")
    if length > PATH_LIMIT:
        raise RunError(f"--take: the path has {length} bytes, more than {PATH_LIMIT}")
    if not equals:
        raise RunError(f"{said}: write PATH=FOLDER, as --take /bin=FOLDER")
    if not path:
        raise RunError(f"{said}: the path is empty; --tree FOLDER makes a folder of the whole tree")
    if not folder:
        raise RunError(f"{said}: the name of the folder is empty")


def source_of(names: Sequence[str], is_parted: bool) -> str:
    """The name of what is packed or run, which is the only word before `--` that is no option."""
    if not is_parted and len(names) > 1:
        raise RunError(f"no -- stands before the program: write {shown(names[0])} -- {shown(' '.join(names[1:]))}")
    if not is_parted:
        raise RunError(f"no -- stands before the program: write {USAGE}")
    if not names:
        raise RunError(f"a folder, an archive or an image is missing before --: write {USAGE}")
    if len(names) > 1:
        raise RunError(f"{shown(names[1])}: a second name before --, where {shown(names[0])} is the first")
    if not names[0]:
        raise RunError("the name of the folder, archive or image is empty")
    return names[0]


def check_command(command: Sequence[str]) -> None:
    """A word behind `--` has to be text, and one of them is the program."""
    for word in command:
        if not is_text(word):
            raise RunError(f"{shown(os.fsencode(word))}: a word behind -- that is no UTF-8")
    if variables(command) == len(command):
        behind = "all words behind -- are NAME=VALUE" if command else "nothing stands behind --"
        raise RunError(f"{behind}: the path of the program in the image is missing")


def check_text(name: str) -> None:
    """The name of an image has to be text, as all words of the program."""
    if not is_text(name):
        raise RunError(f"{shown(os.fsencode(name))} is no UTF-8, as the name of an image has to be")


def is_text(word: str) -> bool:
    try:
        os.fsencode(word).decode("utf-8")
    except UnicodeDecodeError:
        return False
    return True


def help_text(name: str) -> str:
    return HELP.replace("NAME_OF_TOOL", name)


HELP = f"""usage: NAME_OF_TOOL {USAGE}

Runs PROGRAM, a path in the image, with the arguments and the environment that stand behind --. A folder or a tar
archive is packed as an image first, and the image is kept, so that the next run packs nothing. What the program
writes to its two streams comes out of the same two here. It ends with the program's own code.

options:
  --seed N            the random bytes that the program gets: 0 to {HIGHEST} (0)
  --budget N          how many instructions it may take: 1 to {BUDGET_LIMIT} ({BUDGET_DEFAULT})
  --workers N         how many threads it may use; no report depends on it: 1 to {WORKERS_LIMIT} ({WORKERS_DEFAULT})
  --host N            what the host's choices come from; no report depends on it: 0 to {HIGHEST}
  --stdin NAME        what the program reads from standard input: a file of FOLDER or ARCHIVE, by its path there, or
                      of IMAGE; without it there is nothing to read
  --profile N         what the programs of FOLDER or ARCHIVE have: 1, or with 2 also atomic instructions, devices and
                      files of up to 64 MiB (1)
  --report FILE       keeps the report, whole or not at all
  --tree FOLDER       makes FOLDER, which must be empty or not exist, with the files as the run left them
  --take PATH=FOLDER  the same with what is below PATH, a directory that it left; it may be given several times
  --check N           runs it N times, 2 to {RUNS_LIMIT}, under other hosts and with other numbers of workers, and says
                      that the reports are equal, or what differs first; output and files are those of the first run
  --twice             the same as --check 2
  --strict            with --check: ends as the run itself would, and not with 0 where the reports are equal
  --quiet             says nothing but what went wrong
  --help              writes this
  --version           writes the version, and the commit that it was made of

exit status:
  0 to 255  the program's own code; with --check 0 where all reports are equal
  125       dettrace or this tool failed, or refused what it was told; or a folder of --tree or --take could not be
            made, where the program ended with 0
  126       the program is there and cannot be started
  127       the program is not there
  128 + N   signal N ended the program; 129, 130 and 143 also where this tool was stopped by signal 1, 2 or 15
  200       all its processes wait, and none can go on
  201       the budget is used up
  202       it made a system call that this version lacks
  203       with --check: two reports differ

For all but the program's own code there is a line on standard error that says more. Images are kept in
$XDG_CACHE_HOME/dettrace, or ~/.cache/dettrace; that folder may be removed. The program dettrace is that of the variable
DETTRACE, or the one that belongs to this tool, or that of the PATH. docs/RUN.md says more.
"""
