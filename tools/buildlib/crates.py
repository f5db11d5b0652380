"""Which crates the program stands on, as crates.txt has them."""
from __future__ import annotations

from pathlib import Path
from typing import Dict, List

PROGRAM = "dettrace"


def needs_of(text: str) -> Dict[str, List[str]]:
    """The crates of crates.txt, each with those of them that it stands on."""
    lines = [line.split("#")[0].partition(":") for line in text.splitlines()]
    listed = {head.split()[0]: tail.split() for head, colon, tail in lines if colon and head.split()}
    return {crate: [name for name in names if name in listed] for crate, names in listed.items()}


def in_order(needs: Dict[str, List[str]], crate: str = PROGRAM) -> List[str]:
    """A crate behind all that it stands on, lowest first, each once."""
    found: Dict[str, None] = {}

    def visit(name: str) -> None:
        if name not in found:
            for lower in needs[name]:
                visit(lower)
            found[name] = None

    visit(crate)
    return list(found)


def read(top: Path) -> Dict[str, List[str]]:
    """The crates that the program is built of, lowest first, with what each stands on."""
    needs = needs_of((top / "crates.txt").read_text())
    return {crate: needs[crate] for crate in in_order(needs)}
