"""The tools and the program together: a folder becomes an image, a program runs in it, and the folder comes back."""
from __future__ import annotations

import hashlib
import json
import os
import unittest

from imagelib.testing import ImageCase, read, tree_of, write
from program import EXAMPLES, needs_program, run
from reportlib.testing import run as report

FILES = 3000


def shown_tree(top: str) -> list[tuple]:
    """What a report tells of the tree of a folder that no run has changed, in byte order of paths."""
    lines = []
    for path, (kind, *rest) in tree_of(top).items():
        if kind == "file":
            mode, data = rest
            lines.append((path, kind, f"{mode:04o}", len(data), hashlib.sha256(data).hexdigest()))
        elif kind == "dir":
            lines.append((path, kind, f"{rest[0]:04o}"))
        else:
            lines.append((path, kind, rest[0]))
    return sorted(lines, key=lambda line: os.fsencode(line[0]))


def told_tree(text: bytes) -> list[tuple]:
    """The same of a report."""
    members = {"file": ("mode", "size", "sha256"), "dir": ("mode",), "link": ("target",)}
    lines = json.loads(report("json", "-", given=text).output)["tree"]
    return [(line["path"], line["kind"], *(line[member] for member in members[line["kind"]])) for line in lines]


@needs_program
class TogetherTest(ImageCase):
    def test_a_folder_of_three_thousand_files_is_packed_run_and_unpacked_to_itself(self) -> None:
        root = self.at("root")
        write(os.path.join(root, "hello"), read(str(EXAMPLES / "hello" / "hello")), 0o755)
        for number in range(FILES):
            folder = os.path.join(root, f"d{number % 7}", f"é{number % 40}" if number % 2 else "plain")
            write(os.path.join(folder, f"f {number}"), b"%d\n" % (number % 500) * (number % 11), 0o400 + number % 128)
        os.symlink("../nowhere", os.path.join(root, "link"))
        os.chmod(os.path.join(root, "d3"), 0o1750)

        self.assertEqual(self.image("pack", root, self.at("image")).status, 0)
        ran = run("run", self.at("image"), "--", "/hello")
        self.assertEqual((ran.returncode, ran.stderr), (0, b""))
        self.assertEqual(report("output", "-", given=ran.stdout).output, b"hello\n")
        self.assertGreater(len(told_tree(ran.stdout)), FILES)
        self.assertEqual(told_tree(ran.stdout), shown_tree(root))

        self.assertEqual(self.image("unpack", self.at("image"), self.at("back")).status, 0)
        self.assertEqual(tree_of(self.at("back")), tree_of(root))


if __name__ == "__main__":
    unittest.main()
