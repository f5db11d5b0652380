"""Reads the manual pages: their sections, the items of their lists, and their text without marks, as far as they go."""
from __future__ import annotations

import re
import shlex
from typing import Dict, List, NamedTuple

MACROS = frozenset("Ar Cm Dl Em Ev Fl Li Nm Ns Op Pa Pq Po Pc Ql Xr".split())
# What stands close to the word before it.
CLOSE = frozenset([",", ".", ";", ":", ")"])


class ListItem(NamedTuple):
    """An item of a list: its head, and the text below it."""

    head: str
    text: str


def sections(page: str) -> Dict[str, List[str]]:
    """The lines of each section."""
    found: Dict[str, List[str]] = {}
    for line in page.splitlines():
        if line.startswith(".Sh "):
            found[line[4:]] = []
        elif found:
            found[list(found)[-1]].append(line)
    return found


def plain(line: str, name: str = "") -> str:
    """The text of a line, in which `name` stands for the name of the page."""
    if not line.startswith("."):
        return unescaped(line)
    words, text, is_near = shlex.split(line[1:].replace("\\", "\\\\")), "", True
    for at, word in enumerate(words):
        if word in MACROS:
            is_near = is_near or word == "Ns"
            text += {"Nm": name, "Po": "(", "Pc": ")"}.get(word, "")
            is_near = is_near or word in ("Po", "Pc")
            if word == "Fl":
                text, is_near = f"{text} -" if text and not is_near else f"{text}-", True
            continue
        word = unescaped(word)
        if at >= 2 and words[at - 2] == "Xr":
            text += f"({word})"
        else:
            text += word if is_near or word in CLOSE or not text else f" {word}"
        is_near = False
    return text


def unescaped(text: str) -> str:
    return text.replace("\\-", "-").replace("\\&", "")


def items(lines: List[str], name: str = "") -> List[ListItem]:
    """The items of the lists in a section."""
    found: List[ListItem] = []
    for line in lines:
        if line.startswith(".It "):
            found.append(ListItem(plain("." + line[4:], name), ""))
        elif line.startswith(".El"):
            found.append(ListItem("", ""))
        elif found and not re.match(r"\.(Bl|Pp|Bd|Ed)\b", line):
            text = plain(line, name)
            gap = "" if text[:1] in CLOSE or found[-1].text.endswith("(") or not found[-1].text else " "
            found[-1] = ListItem(found[-1].head, found[-1].text + gap + text)
    return [item for item in found if item.head]
