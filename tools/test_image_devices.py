"""What tools/image makes of profile 2: devices and larger files; and the archives that it unpacks images to."""
from __future__ import annotations

import io
import os
import stat
import tarfile
import unittest
from typing import Dict, List, Tuple
from unittest import mock

from imagelib import folders, pack, unpack
from imagelib.testing import Done, ImageCase, read, tree_of, write

LIMIT_1, LIMIT_2 = 16_777_216, 67_108_864
NUMBERS = {"null": (1, 3), "zero": (1, 5), "random": (1, 8)}
TAKES = "(--profile 2 takes it)"
NONE = "0 directories, 0 files, 0 links"

# A tree with each device, and the same as an index and as a list.
MODES = {"/dev/null": 0o666, "/dev/random": 0o4444, "/zero": 0}
INDEX = b"""{ "version": 2,
  "entries": [ { "path": "/dev", "type": "dir", "mode": 493 },
               { "path": "/dev/null", "type": "dev", "mode": 438, "device": "null" },
               { "path": "/dev/random", "type": "dev", "mode": 2340, "device": "random" },
               { "path": "/zero", "type": "dev", "mode": 0, "device": "zero" } ] }
"""
COUNTS = "1 directory, 0 files, 0 links, 3 devices, 0 blobs, 0 bytes"
LIST = [
    "drwxr-xr-x 2 root root 4096 Jan  1  2000 /dev",
    "crw-rw-rw- 1 root root 1, 3 Jan  1  2000 /dev/null",
    "cr-Sr--r-- 1 root root 1, 8 Jan  1  2000 /dev/random",
    "c--------- 1 root root 1, 5 Jan  1  2000 /zero",
]
TREE = {"/dev": ("dir", 0o755), "/dev/null": ("dev", 0o666, (1, 3)), "/dev/random": ("dev", 0o4444, (1, 8)),
        "/zero": ("dev", 0, (1, 5))}


def name_of(path: str) -> str:
    return path.rpartition("/")[2]


def character(name: str, numbers: Tuple[int, int], mode: int = 0o644, kind: bytes = tarfile.CHRTYPE) -> tarfile.TarInfo:
    """A member that is a device."""
    member = tarfile.TarInfo(name)
    member.type, member.mode = kind, mode
    member.devmajor, member.devminor = numbers
    return member


class DeviceCase(ImageCase):
    def archive(self, *members: tarfile.TarInfo, form: int = tarfile.GNU_FORMAT) -> None:
        """Makes an archive. Each byte of a file is a zero."""
        with tarfile.open(self.at("a.tar"), "w", format=form) as archive:
            for member in members:
                archive.addfile(member, io.BytesIO(bytes(member.size)))

    def make_index(self, data: bytes, **blobs: bytes) -> None:
        for name, held in {"image.json": data, **blobs}.items():
            write(self.at("img", name), held)

    def make_node(self, path: str, numbers: Tuple[int, int], mode: int = 0o644, kind: int = stat.S_IFCHR) -> None:
        """Makes a device of the tree that is packed."""
        place = self.at("tree") + path
        os.makedirs(os.path.dirname(place), exist_ok=True)
        try:
            os.mknod(place, kind | 0o600, os.makedev(*numbers))
        except PermissionError:
            self.skipTest("a device is made by root alone")
        os.chmod(place, mode)

    def make_nodes(self) -> None:
        for path, mode in MODES.items():
            self.make_node(path, NUMBERS[name_of(path)], mode)


class ThereAndBack(DeviceCase):
    def test_a_folder_through_all_commands(self) -> None:
        self.make_nodes()
        done = self.image("pack", "--profile", "2", self.at("tree"), self.at("img"))
        self.assertEqual(done, Done(0, [f"img: {COUNTS}"], []))
        self.assertEqual(os.listdir(self.at("img")), ["image.json"])
        self.assertEqual(read(self.at("img", "image.json")), INDEX)
        self.assertEqual(self.image("unpack", self.at("img"), self.at("out")), Done(0, [], []))
        self.assertEqual(tree_of(self.at("out")), TREE)
        self.assertEqual(self.image("pack", "--profile=2", self.at("out"), self.at("again")).status, 0)
        self.assertEqual(read(self.at("again", "image.json")), INDEX)

    def test_an_archive_of_each_form(self) -> None:
        members = [character(f".{path}", NUMBERS[name_of(path)], mode) for path, mode in MODES.items()]
        for form in (tarfile.USTAR_FORMAT, tarfile.GNU_FORMAT, tarfile.PAX_FORMAT):
            with self.subTest(form):
                self.archive(*members, form=form)
                done = self.image("pack", "--profile", "2", self.at("a.tar"), self.at("img"))
                self.assertEqual(done, Done(0, [f"img: {COUNTS}"], []))
                self.assertEqual(read(self.at("img", "image.json")), INDEX)
                folders.remove(self.at("img"))

    def test_check_and_list(self) -> None:
        self.make_index(INDEX)
        self.assertEqual(self.image("check", self.at("img")), Done(0, [f"img is good, of version 2: {COUNTS}"], []))
        self.assertEqual(self.image("list", self.at("img")), Done(0, LIST, []))

    def test_several_names_of_one_device(self) -> None:
        link = tarfile.TarInfo("b")
        link.type, link.linkname = tarfile.LNKTYPE, "a"
        self.archive(character("a", (1, 5)), link)
        done = self.image("pack", "--profile", "2", self.at("a.tar"), self.at("img"))
        self.assertEqual(done, Done(0, ["'/a' and '/b' are one file there and two here",
                                        f"img: {NONE}, 2 devices, 0 blobs, 0 bytes"], []))

    def test_an_image_without_devices_differs_in_its_version_alone(self) -> None:
        write(self.at("tree", "f"), b"x")
        for version in ("1", "2"):
            done = self.image("pack", "--profile", version, self.at("tree"), self.at(version))
            self.assertEqual(done, Done(0, [f"{version}: 0 directories, 1 file, 0 links, 1 blob, 1 byte"], []))
        texts = [read(self.at(version, "image.json")) for version in ("1", "2")]
        self.assertEqual(texts[0].replace(b'"version": 1', b'"version": 2'), texts[1])


class Refused(DeviceCase):
    def refused(self, source: str, words: List[str], *lines: str) -> None:
        before = self.left()
        self.says(self.image("pack", *words, self.at(source), self.at("img")), 1, *lines)
        self.assertEqual(self.left(), before)

    def test_devices_in_version_1(self) -> None:
        lines = [f"'{path}': the device {name_of(path)}, which an image of version 1 cannot hold {TAKES}"
                 for path in MODES]
        self.archive(*(character(path[1:], NUMBERS[name_of(path)]) for path in MODES))
        for words in ([], ["--profile", "1"]):
            self.refused("a.tar", words, *lines)
        self.make_nodes()
        self.refused("tree", [], *lines)

    def test_other_devices_in_both_versions(self) -> None:
        lines = ["'/full': the character device 1:7, which an image cannot hold",
                 "'/null': the block device 1:3, which an image cannot hold",
                 "'/tty': the character device 5:3, which an image cannot hold"]
        self.archive(character("full", (1, 7)), character("null", (1, 3), kind=tarfile.BLKTYPE),
                     character("tty", (5, 3)))
        for version in ("1", "2"):
            self.refused("a.tar", ["--profile", version], *lines)
        self.make_node("/full", (1, 7))
        self.make_node("/null", (1, 3), kind=stat.S_IFBLK)
        self.make_node("/tty", (5, 3))
        for version in ("1", "2"):
            self.refused("tree", ["--profile", version], *lines)

    def test_what_stands_below_a_device(self) -> None:
        self.archive(character("a", (1, 3)), tarfile.TarInfo("a/b"))
        self.refused("a.tar", ["--profile", "2"], "'/a': a device, and '/a/b' stands below it")

    def test_a_device_for_another_than_root(self) -> None:
        self.make_index(INDEX)
        with mock.patch.object(unpack.os, "mknod", mock.Mock(side_effect=PermissionError(1, "not permitted"))):
            done = self.image("unpack", self.at("img"), self.at("out"))
        self.says(done, 2, *(f"'{path}': the device {name_of(path)}, which only root can make"
                             for path in MODES))
        self.assertEqual(self.left(), ["img"])

    @unittest.skipIf(os.geteuid() == 0, "root makes devices")
    def test_a_device_without_root(self) -> None:
        self.make_index(INDEX)
        done = self.image("unpack", self.at("img"), self.at("out"))
        self.assertEqual((done.status, done.out, len(done.err)), (2, [], 3))
        self.assertEqual(self.left(), ["img"])

    def test_devices_that_cannot_be_made_for_another_reason(self) -> None:
        self.make_index(INDEX)
        with mock.patch.object(unpack.os, "mknod", mock.Mock(side_effect=OSError(28, "full"))):
            done = self.image("unpack", self.at("img"), self.at("out"))
        self.says(done, 2, "'/zero' cannot be made: full")
        self.assertEqual(self.left(), ["img"])


class Sizes(DeviceCase):
    """Files at the limit of each version, and of one byte more."""

    def size(self, size: int, *words: str) -> Done:
        """Packs a folder with a file of this size."""
        write(self.at("tree", "f"), b"")
        os.truncate(self.at("tree", "f"), size)
        done = self.image("pack", *words, self.at("tree"), self.at("img"))
        self.assertEqual(os.path.exists(self.at("img")), done.status == 0)
        if done.status == 0:
            folders.remove(self.at("img"))
        return done

    def held(self, size: int) -> Done:
        return Done(0, [f"img: 0 directories, 1 file, 0 links, 1 blob, {size} bytes"], [])

    def test_a_file_of_a_folder(self) -> None:
        for words, size in (((), LIMIT_1), (("--profile=2",), LIMIT_1), (("--profile=2",), LIMIT_1 + 1),
                            (("--profile=2",), LIMIT_2)):
            with self.subTest(words, size=size):
                self.assertEqual(self.size(size, *words), self.held(size))
        for words, size, limit, more in (((), LIMIT_1 + 1, LIMIT_1, f" {TAKES}"), ((), LIMIT_2, LIMIT_1, f" {TAKES}"),
                                         ((), LIMIT_2 + 1, LIMIT_1, ""), (("--profile=2",), LIMIT_2 + 1, LIMIT_2, "")):
            with self.subTest(words, size=size):
                self.says(self.size(size, *words), 1, f"'/f': it has {size} bytes, more than {limit}{more}")

    def test_a_file_of_an_archive(self) -> None:
        for size in (LIMIT_1, LIMIT_1 + 1):
            member = tarfile.TarInfo("f")
            member.size = size
            self.archive(member)
            done = self.image("pack", "--profile", "2", self.at("a.tar"), self.at("img"))
            self.assertEqual(done, self.held(size))
            folders.remove(self.at("img"))
        done = self.image("pack", self.at("a.tar"), self.at("img"))
        self.says(done, 1, f"'/f': it has {LIMIT_1 + 1} bytes, more than {LIMIT_1} {TAKES}")

    def test_a_file_that_grows_while_it_is_read(self) -> None:
        write(self.at("tree", "f"), b"x")
        for version, limit in (("1", LIMIT_1), ("2", LIMIT_2)):
            os.truncate(self.at("tree", "f"), 1)
            once = [lambda limit=limit: os.truncate(self.at("tree", "f"), limit + 1)]
            with mock.patch.object(pack, "stop_if_asked", lambda once=once: once.pop()() if once else None):
                done = self.image("pack", "--profile", version, self.at("tree"), self.at("img"))
            self.says(done, 1, f"'/f': it has grown to more than {limit} bytes while it was read")


class Archives(DeviceCase):
    """Images that are unpacked to archives."""

    def unpacked(self) -> Dict[str, tuple]:
        """What is in the archive that an image is unpacked to, by the names of the members."""
        self.assertEqual(self.image("unpack", "--tar", self.at("img"), self.at("out.tar")), Done(0, [], []))
        found = {}
        with tarfile.open(self.at("out.tar"), errors="strict") as archive:
            for member in archive:
                self.assertEqual((member.uid, member.gid, member.uname, member.gname, member.mtime),
                                 (0, 0, "root", "root", 946_684_800))
                held = {tarfile.REGTYPE: lambda member=member: archive.extractfile(member).read(),
                        tarfile.SYMTYPE: lambda member=member: member.linkname,
                        tarfile.CHRTYPE: lambda member=member: (member.devmajor, member.devminor)}
                found[member.name] = (member.type, member.mode, held.get(member.type, lambda: None)())
        return found

    def packed_again(self, *words: str) -> bytes:
        """The index of an image that is packed of the archive."""
        done = self.image("pack", *words, self.at("out.tar"), self.at("again"))
        self.assertEqual((done.status, done.err), (0, []))
        return read(self.at("again", "image.json"))

    def test_devices(self) -> None:
        self.make_index(INDEX)
        self.assertEqual(self.unpacked(), {
            "dev": (tarfile.DIRTYPE, 0o755, None), "dev/null": (tarfile.CHRTYPE, 0o666, (1, 3)),
            "dev/random": (tarfile.CHRTYPE, 0o4444, (1, 8)), "zero": (tarfile.CHRTYPE, 0, (1, 5))})
        self.assertEqual(self.left(), ["img", "out.tar"])
        self.assertEqual(self.packed_again("--profile", "2"), INDEX)

    def test_all_that_an_image_of_version_1_has(self) -> None:
        name, target = "/".join(["\u00e9" * 127 + "x"] * 15 + ["n" * 254]), "t" * 4095
        write(self.at("tree", "bin", "a"), b"x" * 100_000, 0o4755)
        write(self.at("tree", "b \n\\"), b"", 0o1444)
        os.symlink(target, self.at("tree", "l"))
        os.makedirs(self.at("tree", "closed", "d"))
        os.chmod(self.at("tree", "closed"), 0)
        self.image("pack", self.at("tree"), self.at("img"))
        os.chmod(self.at("tree", "closed"), 0o700)
        first = read(self.at("img", "image.json"))
        found = self.unpacked()
        self.assertEqual(found["bin/a"], (tarfile.REGTYPE, 0o4755, b"x" * 100_000))
        self.assertEqual(found["b \n\\"], (tarfile.REGTYPE, 0o1444, b""))
        self.assertEqual(found["l"], (tarfile.SYMTYPE, 0o777, target))
        self.assertEqual(found["closed"], (tarfile.DIRTYPE, 0, None))
        self.assertEqual(self.packed_again(), first)
        for place in ("img", "again"):
            folders.remove(self.at(place))
        os.remove(self.at("out.tar"))
        folder, _, last = name.rpartition("/")
        parts = folder.split("/")
        entries = [f'{{ "path": "/{"/".join(parts[:count])}", "type": "dir", "mode": 493 }}'
                   for count in range(1, len(parts) + 1)]
        entries.append(f'{{ "path": "/{folder}/{last}", "type": "link", "target": "{target}" }}')
        lines = (",\n" + " " * 15).join(entries)
        index = f'{{ "version": 1,\n  "entries": [ {lines} ] }}\n'.encode()
        self.make_index(index)
        self.assertEqual(len(self.unpacked()), 16)
        self.assertEqual(self.packed_again(), index)

    def test_the_same_tree_gives_the_same_bytes(self) -> None:
        self.make_index(INDEX)
        self.unpacked()
        first = read(self.at("out.tar"))
        for place in ("img", "out.tar"):
            os.rename(self.at(place), self.at(f"old {place}"))
        self.make_index(INDEX.replace(b"\n", b" "))
        os.umask(0o077)
        self.unpacked()
        self.assertEqual(read(self.at("out.tar")), first)

    def test_places(self) -> None:
        self.make_index(INDEX)
        write(self.at("file"), b"kept")
        os.mkdir(self.at("folder"))
        for place, line in (
            ("file", "'file' exists already: name a file that doesn't"),
            ("folder", "'folder' exists already: name a file that doesn't"),
            ("none/x.tar", "'none/x.tar' cannot be made: there is no folder 'none'"),
            ("img/x.tar", "'img/x.tar' lies inside 'img', which is only read: name another file"),
        ):
            with self.subTest(place):
                self.says(self.image("unpack", "--tar", self.at("img"), self.at(place)), 2, line)
        self.says(self.image("unpack", "--tar", self.at("img"), ""), 2,
                  "ARCHIVE is empty: it is to name the file that is made")
        self.assertEqual(self.left(), ["file", "folder", "img"])
        self.assertEqual(read(self.at("file")), b"kept")

    def test_an_image_that_is_refused(self) -> None:
        self.make_index(INDEX.replace(b'"version": 2', b'"version": 1'))
        done = self.image("unpack", "--tar", self.at("img"), self.at("out.tar"))
        self.says(done, 1, *(f"refused: 2 BadIndex: entry {number}, '{path}': `type` is `dev`, which no entry of "
                             "version 1 has" for number, path in enumerate(MODES, 2)))
        self.assertEqual(self.left(), ["img"])


if __name__ == "__main__":
    unittest.main()
