"""Images that the program exports: tools/image lists, checks and unpacks them as any other."""
from __future__ import annotations

import os
import unittest

from imagelib.testing import Done, ImageCase, read, tree_of, write

# A tree with an empty file, a file that has two names, letters past ASCII and such as JSON escapes, a directory and a
# file that nobody may read, bits above 0777, and links, one of them to nothing.
INDEX = (
    '{"entries":['
    '{"blob":"b14","mode":0,"path":"/closed","type":"file"},'
    '{"mode":0,"path":"/d","type":"dir"},'
    '{"blob":"b3","mode":493,"path":"/d/again","type":"file"},'
    '{"mode":1023,"path":"/d/t","type":"dir"},'
    '{"path":"/d/t/up","target":"../../é \\"\\\\\\u0001\\n","type":"link"},'
    '{"path":"/gone","target":"/nowhere","type":"link"},'
    '{"blob":"b3","mode":493,"path":"/p","type":"file"},'
    '{"blob":"b12","mode":420,"path":"/é \\"\\\\\\u0001\\n","type":"file"}'
    '],"version":1}'
)
BLOBS = {"b3": b"program", "b12": b"", "b14": b"abc"}
ODD = '/é "\\\x01\n'
TREE = {
    "/closed": ("file", 0, b"abc"), "/d": ("dir", 0), "/d/again": ("file", 0o755, b"program"),
    "/d/t": ("dir", 0o1777), "/d/t/up": ("link", f"../..{ODD}"), "/gone": ("link", "/nowhere"),
    "/p": ("file", 0o755, b"program"), ODD: ("file", 0o644, b""),
}
COUNTS = "2 directories, 4 files, 2 links, 3 blobs, 10 bytes"
LIST = [
    "---------- 1 root root    3 Jan  1  2000 /closed",
    "d--------- 3 root root 4096 Jan  1  2000 /d",
    "-rwxr-xr-x 1 root root    7 Jan  1  2000 /d/again",
    "drwxrwxrwt 2 root root 4096 Jan  1  2000 /d/t",
    'lrwxrwxrwx 1 root root   13 Jan  1  2000 /d/t/up -> ../../é "\\\\\\x01\\n',
    "lrwxrwxrwx 1 root root    8 Jan  1  2000 /gone -> /nowhere",
    "-rwxr-xr-x 1 root root    7 Jan  1  2000 /p",
    '-rw-r--r-- 1 root root    0 Jan  1  2000 /é "\\\\\\x01\\n',
]


class ExportCase(ImageCase):
    def export(self, index: str = INDEX) -> None:
        write(self.at("to", "image.json"), index.encode())
        for name, data in BLOBS.items():
            write(self.at("to", name), data)


class Taken(ExportCase):
    def test_one_through_all_commands(self) -> None:
        self.export()
        self.assertEqual(self.image("check", self.at("to")), Done(0, [f"to is good: {COUNTS}"], []))
        self.assertEqual(self.image("list", self.at("to")), Done(0, LIST, []))
        self.assertEqual(self.image("unpack", self.at("to"), self.at("out")), Done(0, [], []))
        if os.geteuid() == 0:
            self.assertEqual(tree_of(self.at("out")), TREE)
        self.assertEqual(self.left(), ["out", "to"])

    def test_an_empty_tree(self) -> None:
        write(self.at("to", "image.json"), b'{"entries":[],"version":1}')
        self.assertEqual(self.image("unpack", self.at("to"), self.at("out")), Done(0, [], []))
        self.assertEqual(tree_of(self.at("out")), {})

    def test_a_file_with_two_names_becomes_two_files(self) -> None:
        self.export(INDEX.replace('"mode":0,"path":"/d"', '"mode":448,"path":"/d"'))
        self.image("unpack", self.at("to"), self.at("out"))
        write(self.at("out", "p"), b"changed")
        self.assertEqual(read(self.at("out", "d", "again")), b"program")

    def test_what_else_is_in_the_folder_counts_for_nothing(self) -> None:
        self.export()
        for name in (".b15.new", ".image.json.new", "b99", "notes"):
            write(self.at("to", name), b"half")
        os.mkdir(self.at("to", "b15"))
        self.assertEqual(self.image("check", self.at("to")), Done(0, [f"to is good: {COUNTS}"], []))

    def test_trees_of_two_exports_are_compared_by_packing_them_anew(self) -> None:
        """The same tree, of which the files were made in another order, and that has been copied."""
        self.export(INDEX.replace('"mode":0,"path":"/d"', '"mode":448,"path":"/d"'))
        other = INDEX.replace('"mode":0,"path":"/d"', '"mode":448,"path":"/d"').replace('"b3"', '"b20"', 1)
        write(self.at("other", "image.json"), other.replace('"b12"', '"b7"').encode())
        for name, data in {"b3": b"program", "b20": b"program", "b7": b"", "b14": b"abc"}.items():
            write(self.at("other", name), data)
        for name in ("to", "other"):
            self.assertEqual(self.image("unpack", self.at(name), self.at(f"{name}.tree")).status, 0)
            os.chmod(self.at(f"{name}.tree", "closed"), 0o400)
            self.assertEqual(self.image("pack", self.at(f"{name}.tree"), self.at(f"{name}.image")).status, 0)
        names = [sorted(os.listdir(self.at(f"{name}.image"))) for name in ("to", "other")]
        self.assertEqual(names[0], names[1])
        self.assertEqual(*(read(self.at(f"{name}.image", "image.json")) for name in ("to", "other")))


class TakenOfVersion2(ExportCase):
    """An export of an image of version 2, which has devices."""

    INDEX = ('{"entries":[{"device":"null","mode":438,"path":"/null","type":"dev"},'
             '{"device":"random","mode":292,"path":"/random","type":"dev"}],"version":2}')

    def test_one_through_all_commands(self) -> None:
        write(self.at("to", "image.json"), self.INDEX.encode())
        counts = "0 directories, 0 files, 0 links, 2 devices, 0 blobs, 0 bytes"
        self.assertEqual(self.image("check", self.at("to")), Done(0, [f"to is good, of version 2: {counts}"], []))
        self.assertEqual(self.image("list", self.at("to")), Done(0, [
            "crw-rw-rw- 1 root root 1, 3 Jan  1  2000 /null", "cr--r--r-- 1 root root 1, 8 Jan  1  2000 /random"], []))
        self.assertEqual(self.image("unpack", "--tar", self.at("to"), self.at("a.tar")), Done(0, [], []))
        done = self.image("pack", "--profile", "2", self.at("a.tar"), self.at("img"))
        self.assertEqual(done, Done(0, [f"img: {counts}"], []))


class NotTaken(ExportCase):
    def test_an_export_that_was_stopped_before_its_index(self) -> None:
        self.export()
        os.remove(self.at("to", "image.json"))
        line = "refused: 1 NoIndex: there is no file 'to/image.json': was an export stopped before its end?"
        for words in (["check"], ["list"], ["unpack", self.at("out")]):
            self.says(self.image(words[0], self.at("to"), *words[1:]), 1, line)
        for name in BLOBS:
            os.rename(self.at("to", name), self.at("to", f".{name}.new"))
        self.says(self.image("check", self.at("to")), 1,
                  "refused: 1 NoIndex: there is no file 'to/image.json': is it a folder that was not packed?")

    def test_one_that_has_lost_a_blob(self) -> None:
        self.export()
        os.remove(self.at("to", "b3"))
        self.says(self.image("check", self.at("to")), 1, *(
            f"refused: 6 NoBlob: entry {number}, '{path}': there is no file 'to/b3'"
            for number, path in ((3, "/d/again"), (7, "/p"))))

    def test_a_folder_inside_it(self) -> None:
        self.export()
        self.says(self.image("unpack", self.at("to"), self.at("to", "out")), 2,
                  "'to/out' lies inside 'to', which is only read: name another folder")


if __name__ == "__main__":
    unittest.main()
