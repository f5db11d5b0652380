"""Where the program dettrace is, and what options its usage line has."""
from __future__ import annotations

import contextlib
import os
import shutil
import subprocess
from typing import Iterator, Mapping

from imagelib.errors import reason_of
from imagelib.texts import shown

from .errors import RunError

PROGRAM = "dettrace"
# Where the program lies that is built in a checkout.
BUILT = os.path.join("crates", PROGRAM, "out", PROGRAM)
# What only a checkout has. Its script of the program's name starts a build, which this tool never does.
MARK = "crates.txt"
# Where this tool's own parts lie, whatever links it was started by.
HERE = os.path.dirname(os.path.dirname(os.path.realpath(__file__)))


def find_program(environment: Mapping[str, str], here: str = HERE) -> str:
    """The path of the program: what DETTRACE names, or what lies beside this tool, or in the PATH."""
    named = environment.get("DETTRACE", "")
    if named:
        return named_program(named, environment)
    for place in places(environment, here):
        if is_program(place):
            return place
    raise RunError(not_built(here))


def named_program(named: str, environment: Mapping[str, str]) -> str:
    """What DETTRACE names: a path, or a name that is looked for in the PATH."""
    place = named if "/" in named else shutil.which(named, path=environment.get("PATH")) or named
    if is_program(place):
        return os.path.abspath(place)
    if os.path.isfile(place) and is_script(place):
        raise RunError(f"DETTRACE is {shown(named)}, the script that builds dettrace: "
                       f"name the program, {shown(os.path.join(os.path.dirname(os.path.realpath(place)), BUILT))}")
    what = "a folder" if os.path.isdir(place) else "no program" if os.path.lexists(place) else "not there"
    raise RunError(f"DETTRACE is {shown(named)}, which is {what}: name the program dettrace, or leave it out")


def places(environment: Mapping[str, str], here: str) -> Iterator[str]:
    """Where the program may lie: in this checkout, or where it was installed with this tool."""
    above = os.path.dirname(here)
    yield os.path.join(above, BUILT)
    for folder in (here, above):
        yield os.path.join(folder, PROGRAM)
        if os.path.basename(os.path.dirname(folder)) == "lib":
            yield os.path.join(os.path.dirname(os.path.dirname(folder)), "bin", PROGRAM)
    found = shutil.which(PROGRAM, path=environment.get("PATH"))
    if found:
        yield found
        yield os.path.join(os.path.dirname(os.path.realpath(found)), BUILT)


def is_script(place: str) -> bool:
    """Whether this is the script of a checkout."""
    return os.path.isfile(os.path.join(os.path.dirname(os.path.realpath(place)), MARK))


def is_program(place: str) -> bool:
    return os.path.isfile(place) and os.access(place, os.X_OK) and not is_script(place)


def not_built(here: str) -> str:
    """What is said where there is no program, and how to get it."""
    above = os.path.dirname(here)
    if os.path.isfile(os.path.join(above, MARK)):
        return (f"the program is not built: ./dettrace in {shown(above)} proves and builds it, or says how "
                f"(README.md, \"How to have it\"); or DETTRACE=FILE names one that is built")
    return (f"the program dettrace is not there, neither in {shown(here)} nor in the PATH: install it, "
            f"or name it by DETTRACE=FILE")


def version_of(here: str = HERE) -> str:
    """The version of this tool, and the commit that it was made of: a file of an installed place or a release has it,
    and in a checkout a script says it."""
    above = os.path.dirname(here)
    for place in (os.path.join(here, "VERSION"), os.path.join(above, "VERSION")):
        with contextlib.suppress(OSError), open(place, encoding="utf-8", errors="replace") as file:
            return shown(file.readline().strip())
    with contextlib.suppress(OSError):
        done = subprocess.run([os.path.join(here, "version")], stdin=subprocess.DEVNULL, stdout=subprocess.PIPE,
                              stderr=subprocess.DEVNULL, check=False)
        if done.returncode == 0:
            return shown(done.stdout.decode("utf-8", "replace").strip())
    return "unknown commit unknown"


def usage_of(program: str) -> str:
    """The program's usage line, which it says where it is given no words."""
    try:
        done = subprocess.run([program], stdin=subprocess.DEVNULL, stdout=subprocess.DEVNULL, stderr=subprocess.PIPE,
                              check=False)
    except OSError as error:
        raise cannot_run(program, error) from error
    return done.stderr.decode("utf-8", "replace").strip()


def has_option(program: str, name: str) -> bool:
    return f"[{name} " in usage_of(program)


def cannot_run(program: str, error: OSError) -> RunError:
    return RunError(f"{shown(program)} cannot be run: {reason_of(error)}")
