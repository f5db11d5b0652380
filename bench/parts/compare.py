#!/usr/bin/env python3
"""The speed of parts by themselves, at several commits in one go: compare.py COMMIT [COMMIT ..].

Three small programs, space.rattle, machine.rattle and board.rattle, stand over dt_space, dt_rv64 and dt_board as they are in
each commit: they time a fork, a mapping of pages that nobody writes, segments of the loop of ../machine, and a sweep, a put
and a take at a board. A commit without a crate has no program over it. First `rt` proves and builds all of it, some fifteen
minutes for each commit. Then the programs run in turn, so that whatever else the machine does meets all of them."""
import os
import subprocess
import sys
import tempfile
from pathlib import Path

HERE = Path(__file__).resolve().parent
PARTS = {"space": "dt_space dt_base", "machine": "dt_rv64 dt_space dt_base",
         "board": "dt_board dt_rv64 dt_space dt_host dt_base"}
ROUNDS = 3


def source(part, crates):
    """The text of a part's program. Before hints outlived a segment, `segment` took none."""
    text = (HERE / f"{part}.rattle").read_text()
    if (crates / "dt_rv64/src/hints.rt").exists():
        return text
    lines = [line for line in text.splitlines(keepends=True) if "Hints::new()" not in line]
    return "".join(lines).replace("Hints, ", "").replace(", &mut hints", "")


def libraries(commit):
    """The libraries that each crate of a commit uses."""
    text = subprocess.run(["git", "show", f"{commit}:crates.txt"], cwd=HERE.parent.parent, check=True,
                          stdout=subprocess.PIPE, text=True).stdout
    lines = (line.split("#")[0].partition(":") for line in text.splitlines())
    return {name.strip(): used.split() for name, colon, used in lines if colon}


def below(used, crates):
    """The crates of the repository that stand below one that uses these."""
    found, left = set(), list(used)
    while left:
        name = left.pop()
        if name in crates and name not in found:
            found.add(name)
            left += crates[name]
    return found


def build(commit, top):
    """Builds the programs at a commit, and answers their paths."""
    top.mkdir()
    known = libraries(commit)
    parts = {part: used.split() for part, used in PARTS.items() if all(name in known for name in used.split())}
    names = {name: known[name] for name in sorted(set().union(*(below(used, known) for used in parts.values())))}
    files = subprocess.run(["git", "archive", commit, *(f"crates/{name}" for name in names)], cwd=HERE.parent.parent,
                           check=True, stdout=subprocess.PIPE).stdout
    subprocess.run(["tar", "-x", "-C", top], input=files, check=True)
    subprocess.run(["git", "init", "-q", top], check=True)
    crates = top / "crates"
    for part in parts:
        (crates / f"part_{part}/src").mkdir(parents=True)
        (crates / f"part_{part}/src/main.rt").write_text(source(part, crates))
    lines = {**names, **{f"part_{part}": used for part, used in parts.items()}}
    (top / "crates.txt").write_text("".join(f"{name}: {' '.join(used)}\n" for name, used in lines.items()))
    for part in parts:
        print(f"{commit}: {part} is proved and built", file=sys.stderr, flush=True)
        subprocess.run(["rt", "run"], cwd=crates / f"part_{part}", check=True, stdout=subprocess.DEVNULL,
                       stderr=subprocess.DEVNULL)
    return [crates / f"part_{part}/out/part_{part}" for part in parts]


def main():
    commits = sys.argv[1:]
    if not commits:
        sys.exit("usage: compare.py COMMIT [COMMIT ..]")
    with tempfile.TemporaryDirectory() as folder:
        programs = {commit: build(commit, Path(folder) / str(index)) for index, commit in enumerate(commits)}
        for _ in range(ROUNDS):
            for commit in commits:
                for program in programs[commit]:
                    for line in subprocess.run([os.fspath(program)], check=True, stdout=subprocess.PIPE,
                                               text=True).stdout.splitlines():
                        print(f"{commit}: {line}", flush=True)


if __name__ == "__main__":
    main()
