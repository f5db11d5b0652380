"""What is tried: for each kind of try how it is made, as a function of a source of chance."""
from __future__ import annotations

import json
import random
import shlex
from pathlib import Path
from typing import Any, Callable, Dict, FrozenSet, List, NamedTuple, Sequence

from . import calls, instructions
from .mutations import mutated_bytes, mutated_executable, mutated_index, mutated_words

EXAMPLES = Path(__file__).resolve().parent.parent.parent / "examples"
IMAGE = "img"
BUDGET, LARGE_BUDGET = 200_000, 1_000_000
# What stands in a folder in place of a file: a folder, a FIFO, links to nothing, to itself and to the index.
PLACES = ["folder", "fifo", "nowhere", "itself", "index"]

# Statuses: a run that came to a verdict, and what else an image that is not good comes to.
VERDICTS = frozenset({0, 1, 10})
OF_IMAGES = VERDICTS | {3, 4}
OF_WORDS = OF_IMAGES | {2}


class Try(NamedTuple):
    """A command line, the image's files by name (or what stands in a file's place), and the statuses it may end with.
    Where the words may be refused, they stay as they are."""

    kind: str
    words: List[bytes]
    files: Dict[str, Any]
    statuses: FrozenSet[int]
    budget: int = BUDGET


class Example(NamedTuple):
    """An image that lies in the repository, and the words that run it."""

    name: str
    index: Dict[str, Any]
    blobs: Dict[str, bytes]
    command: List[str]


def examples() -> List[Example]:
    found = []
    for path in sorted(EXAMPLES.glob("*/image.json")):
        index = json.loads(path.read_text())
        names = {entry["blob"] for entry in index["entries"] if "blob" in entry}
        blobs = {name: (path.parent / name).read_bytes() for name in sorted(names)}
        command = shlex.split((path.parent / "command").read_text())
        found.append(Example(path.parent.name, index, blobs, command[command.index("--") + 1:]))
    return found


def index_of(*entries: Dict[str, Any]) -> bytes:
    return json.dumps({"version": 1, "entries": list(entries)}).encode()


def file_entry(path: str, blob: str, mode: int = 0o755) -> Dict[str, Any]:
    return {"path": path, "type": "file", "mode": mode, "blob": blob}


def run_words(chance: random.Random, command: Sequence[str], budget: int = BUDGET) -> List[bytes]:
    """Words that run a command, with options at random."""
    options: List[str] = []
    if chance.random() < 0.3:
        options += ["--seed", str(chance.choice([0, 1, 2**64 - 1, chance.getrandbits(64)]))]
    budget = budget if chance.random() < 0.8 else chance.randrange(1, budget)
    return [word.encode() for word in ["run", IMAGE, "--budget", str(budget), *options, "--", *command]]


class Maker:
    """Makes tries; each is a function of the seed and its number."""

    def __init__(self, seed: int) -> None:
        self.seed = seed
        self.examples = examples()
        self.kinds: Dict[str, Callable[[random.Random], Try]] = {
            "images": self.image, "executables": self.executable, "words": self.words,
            "instructions": self.instructions, "calls": self.calls, "programs": self.program}

    def make(self, number: int) -> Try:
        """Each kind in turn."""
        name = list(self.kinds)[number % len(self.kinds)]
        return self.kinds[name](random.Random(f"{self.seed} {number}"))

    def image(self, chance: random.Random) -> Try:
        """The image of an example with another index, and with blobs that are not there, are longer or are no files."""
        example = chance.choice(self.examples)
        files: Dict[str, Any] = {"image.json": mutated_index(chance, example.index), **example.blobs}
        for name in list(files):
            if chance.random() < 0.05:
                files[name] = chance.choice([None, b"", *PLACES, 16_777_216, 16_777_217, 4_194_304, 4_194_305])
        if chance.random() < 0.02:
            entry = file_entry("/many", chance.choice(sorted(example.blobs)))
            entries = [{**entry, "path": f"/many{at}"} for at in range(chance.choice([4000, 4095, 4096]))]
            files["image.json"] = index_of(*entries)
        return Try("images", run_words(chance, example.command), files, OF_IMAGES)

    def executable(self, chance: random.Random) -> Try:
        """An executable or a script of which some bytes are others."""
        kind = chance.random()
        data = chance.choice([blob for example in self.examples for blob in example.blobs.values()
                              if blob.startswith(b"\x7fELF")])
        if kind < 0.3:
            data = chance.choice([calls.random_guest, instructions.random_guest])(chance)
        started = mutated_executable(chance, data)
        if kind > 0.85:
            line = b"#!" + chance.choice([b"/q", b" /q x", b"\t/q\t", b"/p", b"", b"q", b"/q " + b"x" * 252])
            started = mutated_bytes(chance, line + chance.choice([b"\n", b""]) + b"more\n", 2)
        files = {"image.json": index_of(file_entry("/p", "p"), file_entry("/q", "q")), "p": started, "q": data}
        arguments = [chance.choice(["", "x", "y" * 100]) for _ in range(chance.choice([0, 0, 1, 50]))]
        return Try("executables", run_words(chance, ["/p", *arguments]), files, VERDICTS)

    def words(self, chance: random.Random) -> Try:
        """Words that are refused or taken, of a run or of a demonstration."""
        example = self.named("hello")
        number = str(chance.choice([0, 7, 2**64 - 1, chance.getrandbits(64)]))
        good = chance.choice([
            ["run", IMAGE, "--seed", "1", "--", "A=1", "/hello", "x"], ["run", "--budget=9", IMAGE, "--", "/hello"],
            ["run", IMAGE, "--host", number, "--workers=2", "--", "/hello"], ["demo", number],
            ["demo", "--host", "1", number, "--workers", "3"]])
        files = {"image.json": json.dumps(example.index).encode(), **example.blobs}
        return Try("words", mutated_words(chance, good), files, OF_WORDS)

    def instructions(self, chance: random.Random) -> Try:
        files = {"image.json": index_of(file_entry("/p", "p")), "p": instructions.random_guest(chance)}
        return Try("instructions", run_words(chance, ["/p"]), files, VERDICTS)

    def calls(self, chance: random.Random) -> Try:
        """A guest that makes calls on a small tree, and another one that it may start."""
        entries = [file_entry("/p", "p"), file_entry("/q", "q"), file_entry("/f", "f", 0o644), file_entry("/s", "s"),
                   {"path": "/d", "type": "dir", "mode": 0o755}, {"path": "/l", "type": "link", "target": "d"},
                   file_entry("/d/a", "f"), {"path": "/d/l", "type": "link", "target": "../d/l"}]
        files = {"image.json": index_of(*entries), "p": calls.random_guest(chance), "q": calls.random_guest(chance),
                 "f": bytes(range(256)) * chance.choice([0, 1, 300]), "s": b"#!/q x\n"}
        budget = chance.choice([BUDGET, BUDGET, BUDGET, BUDGET, LARGE_BUDGET])
        return Try("calls", run_words(chance, ["A=1", "/p", "x"], budget), files, VERDICTS, budget)

    def program(self, chance: random.Random) -> Try:
        """An example whose texts or arguments are others."""
        example = chance.choice(self.examples)
        files: Dict[str, Any] = {"image.json": json.dumps(example.index).encode(), **example.blobs}
        for name, blob in example.blobs.items():
            if not blob.startswith(b"\x7fELF"):
                files[name] = mutated_bytes(chance, blob)
        command = list(example.command)
        for _ in range(chance.choice([0, 0, 1, 3])):
            command.append(chance.choice(["", "-", "/", "poem", "x" * 1000, "*", "$(x", "9" * 30]))
        return Try("programs", run_words(chance, command, LARGE_BUDGET), files, VERDICTS, LARGE_BUDGET)

    def named(self, name: str) -> Example:
        return next(example for example in self.examples if example.name == name)
