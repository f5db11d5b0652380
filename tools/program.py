"""What the tests of several tools share: where the program and the examples are, and how the program is run."""
import contextlib
import os
import pathlib
import shlex
import subprocess
import tempfile
import unittest

TOP = pathlib.Path(__file__).resolve().parent.parent
EXAMPLES = TOP / "examples"
PROGRAM = TOP / "crates/dettrace/out/dettrace"

needs_program = unittest.skipUnless(os.access(PROGRAM, os.X_OK),
                                    "the program is not built; ./dettrace build makes it, and so does rt ci")


def run(*words: object) -> subprocess.CompletedProcess:
    """Runs the program with words of the command line."""
    return subprocess.run([PROGRAM, *map(str, words)], stdin=subprocess.DEVNULL, capture_output=True)


def run_example(name: str, *options: object) -> subprocess.CompletedProcess:
    """Runs an example by the command that lies beside its image."""
    words = shlex.split((EXAMPLES / name / "command").read_text())
    return run("run", EXAMPLES / name, *options, *words)


@contextlib.contextmanager
def fresh_checkout():
    """A folder that has of this repository what commands of the documents use, and where they may make files."""
    with tempfile.TemporaryDirectory() as name:
        folder = pathlib.Path(name)
        (folder / "dettrace").symlink_to(PROGRAM)
        for part in ("examples", "tools"):
            (folder / part).symlink_to(TOP / part)
        yield folder
