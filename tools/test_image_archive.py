"""What tools/image makes of tar archives."""
from __future__ import annotations

import io
import os
import random
import shutil
import subprocess
import tarfile
import unittest
from typing import List, Optional, Tuple
from unittest import mock

from imagelib import folders
from imagelib.testing import Done, ImageCase, read, write

BIG = 16_777_216

# A member: its name, its type, and its bytes or the target of its link.
Member = Tuple[str, bytes, bytes]

FILE, DIR, LINK, HARD, FIFO = tarfile.REGTYPE, tarfile.DIRTYPE, tarfile.SYMTYPE, tarfile.LNKTYPE, tarfile.FIFOTYPE


def archive_of(members: List[Member], form: int = tarfile.GNU_FORMAT, mode: Optional[int] = None) -> bytes:
    """An archive with these members; the mode of a directory is 0750 and of all else 0640."""
    data = io.BytesIO()
    with tarfile.open(fileobj=data, mode="w", format=form, encoding="utf-8", errors="surrogateescape") as archive:
        for name, kind, held in members:
            member = tarfile.TarInfo(name)
            member.type = kind
            member.mode = mode or (0o750 if kind == DIR else 0o640)
            if kind in (LINK, HARD):
                member.linkname = held.decode("utf-8", "surrogateescape")
                held = b""
            member.size = len(held)
            archive.addfile(member, io.BytesIO(held))
    return data.getvalue()


def has_gnu_tar() -> bool:
    if not shutil.which("tar"):
        return False
    return b"GNU tar" in subprocess.run(["tar", "--version"], capture_output=True, check=False).stdout


class ArchiveCase(ImageCase):
    """A test with one archive."""

    def pack(self, *members: Member, words: Tuple[str, ...] = (), form: int = tarfile.GNU_FORMAT) -> Done:
        write(self.at("a.tar"), archive_of(list(members), form))
        return self.image("pack", self.at("a.tar"), self.at("img"), *words)

    def listed(self) -> List[str]:
        """Each entry of the image, without what is the same in all, and a file's bytes behind it."""
        self.image("unpack", self.at("img"), self.at("out"))
        lines = []
        for line in self.image("list", self.at("img")).out:
            path = line.split(" 2000 ")[1]
            held = f" {read(self.at('out') + path).decode()}" if line.startswith("-") else ""
            lines.append(f"{line[:10]} {path}{held}")
        folders.remove(self.at("img"))
        folders.remove(self.at("out"))
        return lines


class SameAsFolder(ArchiveCase):
    """An archive gives the image that its folder gives."""

    def setUp(self) -> None:
        super().setUp()
        write(self.at("tree", "bin", "hello"), b"hello\n", 0o4755)
        write(self.at("tree", "bin-2"), b"x" * 200_000, 0o600)
        write(self.at("tree", "\u00e9" * 90, "n" * 200), b"hello\n", 0o444)
        write(self.at("tree", "empty"), b"", 0o1644)
        os.symlink("t" * 300, self.at("tree", "l"))
        os.symlink("bin", self.at("tree", "d"))
        os.chmod(self.at("tree", "bin"), 0o2755)
        self.assertEqual(self.image("pack", self.at("tree"), self.at("want")).status, 0)

    def same(self, archive: str) -> None:
        done = self.image("pack", self.at(archive), self.at("img"))
        self.assertEqual(done, Done(0, ["img: 2 directories, 4 files, 2 links, 3 blobs, 200006 bytes"], []))
        for name in sorted({*os.listdir(self.at("want")), *os.listdir(self.at("img"))}):
            self.assertEqual(read(self.at("img", name)), read(self.at("want", name)), name)
        folders.remove(self.at("img"))

    def test_in_each_form_and_compression(self) -> None:
        for form in (tarfile.GNU_FORMAT, tarfile.PAX_FORMAT):
            for mode in ("w", "w:gz", "w:bz2", "w:xz"):
                with self.subTest(form=form, mode=mode):
                    with tarfile.open(self.at("a.tar"), mode, format=form) as archive:
                        archive.add(self.at("tree"), arcname=".")
                    self.same("a.tar")

    def test_with_other_names_for_the_same_paths(self) -> None:
        for top in ("/", "./", "/./", ".//"):
            with self.subTest(top):
                with tarfile.open(self.at("a.tar"), "w") as archive:
                    for name in sorted(os.listdir(self.at("tree")), reverse=True):
                        member = archive.gettarinfo(self.at("tree", name))
                        for path in [name] + ([f"{name}/{inner}" for inner in os.listdir(self.at("tree", name))]
                                              if member.isdir() else []):
                            member = archive.gettarinfo(self.at("tree", path))
                            member.name = top + path
                            with open(self.at("tree", path) if member.isreg() else os.devnull, "rb") as file:
                                archive.addfile(member, file)
                self.same("a.tar")

    @unittest.skipUnless(has_gnu_tar(), "needs GNU tar")
    def test_made_by_tar(self) -> None:
        for words in ("-cf", "-czf"):
            with self.subTest(words):
                subprocess.run(["tar", "-C", self.at("tree"), words, self.at("a.tar"), "."], check=True)
                self.same("a.tar")


class Members(ArchiveCase):
    """What each member becomes."""

    def test_parents_that_are_not_named(self) -> None:
        self.pack(("a/b/f", FILE, b"x"), ("a/b/g", FILE, b"y"), ("c/d", DIR, b""), ("c", DIR, b""))
        self.assertEqual(
            self.listed(),
            ["drwxr-xr-x /a", "drwxr-xr-x /a/b", "-rw-r----- /a/b/f x", "-rw-r----- /a/b/g y", "drwxr-x--- /c",
             "drwxr-x--- /c/d"],
        )

    def test_names_are_made_simple(self) -> None:
        self.pack((".", DIR, b""), ("/", DIR, b""), ("/./a//b", FILE, b"x"), ("././c/./", DIR, b""))
        self.assertEqual(self.listed(), ["drwxr-xr-x /a", "-rw-r----- /a/b x", "drwxr-x--- /c"])

    def test_the_last_of_several_counts(self) -> None:
        done = self.pack(
            ("f", FILE, b"old"), ("p", FIFO, b""), ("l", LINK, b"old"), ("f", FILE, b"new"), ("p", FILE, b"file"),
            ("./l", FILE, b"no link"), ("d", DIR, b""), ("d/", DIR, b""),
        )
        self.assertEqual(done, Done(0, ["img: 1 directory, 3 files, 0 links, 3 blobs, 14 bytes"], []))
        self.assertEqual(
            self.listed(), ["drwxr-x--- /d", "-rw-r----- /f new", "-rw-r----- /l no link", "-rw-r----- /p file"]
        )

    def test_hard_links_have_what_their_target_had_then(self) -> None:
        done = self.pack(
            ("a", FILE, b"old"), ("d/b", HARD, b"./a"), ("c", HARD, b"/d/b"), ("a", FILE, b"new"), ("e", HARD, b"a"),
            ("l", LINK, b"a"), ("m", HARD, b"l"),
        )
        lines = [
            "'/a' and '/e' are one file there and two here",
            "'/c' and '/d/b' are one file there and two here",
            "'/l' and '/m' are one file there and two here",
            "img: 1 directory, 4 files, 2 links, 2 blobs, 6 bytes",
        ]
        self.assertEqual(done, Done(0, lines, []))
        self.assertEqual(
            self.listed(),
            ["-rw-r----- /a new", "-rw-r----- /c old", "drwxr-xr-x /d", "-rw-r----- /d/b old", "-rw-r----- /e new",
             "lrwxrwxrwx /l -> a", "lrwxrwxrwx /m -> a"],
        )

    def test_what_is_excluded(self) -> None:
        done = self.pack(
            ("src/a.o", FILE, b"x"), ("src/b", HARD, b"src/a.o"), ("build/tmp/pipe", FIFO, b""), ("../x.o", FILE, b""),
            ("build/tmp/f", FILE, b""), words=("--exclude", "*.o", "--exclude", "build/tmp"),
        )
        self.assertEqual(done, Done(0, ["img: 2 directories, 1 file, 0 links, 1 blob, 1 byte"], []))
        self.assertEqual(self.listed(), ["drwxr-xr-x /build", "drwxr-xr-x /src", "-rw-r----- /src/b x"])

    def test_as_many_entries_as_may_be(self) -> None:
        done = self.pack(*((str(number), DIR, b"") for number in range(4095)))
        self.assertEqual(done, Done(0, ["img: 4095 directories, 0 files, 0 links, 0 blobs, 0 bytes"], []))

    def test_modes_keep_twelve_bits(self) -> None:
        write(self.at("a.tar"), archive_of([("f", FILE, b"x")], mode=0o107751))
        self.image("pack", self.at("a.tar"), self.at("img"))
        self.assertIn(b'"mode": 4073,', read(self.at("img", "image.json")))

    def test_long_names_in_each_form(self) -> None:
        name = "/".join(["\u00e9" * 127 + "x"] * 15 + ["n" * 254])
        self.assertEqual(len(name.encode()) + 1, 4095)
        for form in (tarfile.GNU_FORMAT, tarfile.PAX_FORMAT):
            with self.subTest(form):
                done = self.pack((name, FILE, b"x"), ("l", LINK, b"t" * 4095), form=form)
                self.assertEqual(done, Done(0, ["img: 15 directories, 1 file, 1 link, 1 blob, 1 byte"], []))
                self.assertIn(f'"path": "/{name}"'.encode(), read(self.at("img", "image.json")))
                folders.remove(self.at("img"))

    @unittest.skipUnless(has_gnu_tar(), "needs GNU tar")
    def test_sparse_files(self) -> None:
        write(self.at("tree", "s"), b"")
        with open(self.at("tree", "s"), "r+b") as file:
            file.seek(1_000_000)
            file.write(b"middle")
            file.truncate(BIG)
        self.image("pack", self.at("tree"), self.at("want"))
        for form in ("--format=gnu", "--sparse-version=0.0", "--sparse-version=0.1", "--sparse-version=1.0"):
            with self.subTest(form):
                command = ["tar", "-C", self.at("tree"), "--sparse", form, "-cf", self.at("a.tar"), "."]
                subprocess.run(command, check=True, capture_output=True)
                self.assertLess(os.path.getsize(self.at("a.tar")), BIG)
                done = self.image("pack", self.at("a.tar"), self.at("img"))
                self.assertEqual(done, Done(0, [f"img: 0 directories, 1 file, 0 links, 1 blob, {BIG} bytes"], []))
                self.assertEqual(read(self.at("img", "image.json")), read(self.at("want", "image.json")))
                folders.remove(self.at("img"))


class Refused(ArchiveCase):
    """What an image cannot hold of an archive."""

    def test_each_is_named(self) -> None:
        for members, *lines in (
            ([("tty", tarfile.CHRTYPE, b"")], "'/tty': the character device 0:0, which an image cannot hold"),
            ([("d/sda", tarfile.BLKTYPE, b"")], "'/d/sda': the block device 0:0, which an image cannot hold"),
            ([("p", FIFO, b""), ("q", HARD, b"p")], "'/p': a FIFO, which an image cannot hold",
             "'/q': a FIFO, which an image cannot hold"),
            ([("m", b"M", b"")], "'/m': a member of the unknown type `M`, which an image cannot hold"),
            ([("../x", FILE, b"")], "'../x': the name has `..`"),
            ([("/a/../x", FILE, b"")], "'/a/../x': the name has `..`"),
            ([("./", LINK, b"x")], "'./': the root is a directory, and this member is none"),
            ([("caf\udce9", FILE, b"")], "'/caf\\xe9': its name is no UTF-8"),
            ([("l", LINK, b"\xff")], "'/l': its target is no UTF-8"),
            ([("l", LINK, b"")], "'/l': the target is empty"),
            ([("l", LINK, b"t" * 4096)], "'/l': the target has 4096 bytes, more than 4095"),
            ([("n" * 256, FILE, b"")], f"'/{'n' * 256}': its name has 256 bytes, more than 255"),
            ([("n" * 256 + "/f", FILE, b"")], f"'/{'n' * 256}': its name has 256 bytes, more than 255"),
            ([("/".join(["n" * 255] * 16), FILE, b"")],
             f"'{('/' + 'n' * 255) * 16}': its path has 4096 bytes, more than 4095"),
            ([("h", HARD, b"none")], "'/h': a hard link to '/none', which is not there"),
            ([("h", HARD, b"f"), ("f", FILE, b"")], "'/h': a hard link to '/f', which is not there"),
            ([("h", HARD, b"../f")], "'/h': a hard link to '../f', which is not there"),
            ([("d", DIR, b""), ("h", HARD, b"d")], "'/h': a hard link to '/d', which is a directory"),
            ([("a", DIR, b""), ("a", LINK, b"t")], "'/a': a directory in one member, and something else in another"),
            ([("a", FILE, b""), ("a", DIR, b"")], "'/a': a directory in one member, and something else in another"),
            ([("a", LINK, b"/"), ("a/b", FILE, b"")], "'/a': a symbolic link, and '/a/b' stands below it"),
            ([("a/b/c", FILE, b""), ("a", FILE, b"")], "'/a': a file, and '/a/b/c' stands below it"),
            ([("b", FILE, b"x" * (BIG + 1))],
             "'/b': it has 16777217 bytes, more than 16777216 (--profile 2 takes it)"),
            ([(str(number), DIR, b"") for number in range(4096)], "there are 4096 entries, more than 4095"),
            ([("z", FIFO, b""), ("../a", FILE, b""), ("b", HARD, b"c"), ("ok", FILE, b"x")],
             "'../a': the name has `..`", "'/b': a hard link to '/c', which is not there",
             "'/z': a FIFO, which an image cannot hold"),
        ):
            with self.subTest(lines):
                self.says(self.pack(*members), 1, *lines)
                self.assertEqual(self.left(), ["a.tar"])

    def test_a_name_with_a_nul(self) -> None:
        data = io.BytesIO()
        with tarfile.open(fileobj=data, mode="w", format=tarfile.PAX_FORMAT) as archive:
            member = tarfile.TarInfo("f")
            member.pax_headers = {"path": "a\0b"}
            archive.addfile(member)
        write(self.at("a.tar"), data.getvalue())
        self.says(self.image("pack", self.at("a.tar"), self.at("img")), 1, "'/a\\x00b': a NUL stands in its name")


class Broken(ArchiveCase):
    """Archives that break off or are none."""

    def test_an_archive_without_members_is_an_empty_image(self) -> None:
        done = self.pack()
        self.assertEqual(done, Done(0, ["img: 0 directories, 0 files, 0 links, 0 blobs, 0 bytes"], []))

    def test_files_that_are_no_archives(self) -> None:
        for data in (b"", b"no archive\n" * 100, bytes(range(256)) * 8):
            with self.subTest(data[:10]):
                write(self.at("a.tar"), data)
                done = self.image("pack", self.at("a.tar"), self.at("img"))
                self.says(done, 2, "'a.tar' is neither a folder nor a tar archive that Python can read")

    def test_an_archive_that_is_cut_anywhere(self) -> None:
        first, second = (random.Random(size).randbytes(size) for size in (700, 2000))
        members = [("a", FILE, first), ("d", DIR, b""), ("n" * 150, FILE, second)]
        for form in (tarfile.GNU_FORMAT, tarfile.PAX_FORMAT):
            whole = archive_of(members, form)
            end = len(whole.rstrip(b"\0")) // 512 * 512 + 512
            for size in [*range(1, end, 97), *range(512, end + 1, 512)]:
                with self.subTest(size):
                    self.cut(whole[:size])
            write(self.at("a.tar"), whole[: end + 512])
            self.assertEqual(self.image("pack", self.at("a.tar"), self.at("img")).status, 0)
            folders.remove(self.at("img"))

    def cut(self, data: bytes) -> None:
        write(self.at("a.tar"), data)
        done = self.image("pack", self.at("a.tar"), self.at("img"))
        self.assertEqual((done.status, done.out, len(done.err)), (2, [], 1), done)
        self.assertRegex(done.err[0], "^image: 'a.tar' is (a broken or truncated archive|neither a folder nor a tar)")
        self.assertEqual(self.left(), ["a.tar"])

    def test_a_compressed_archive_that_is_cut_or_changed(self) -> None:
        tar = archive_of([("a", FILE, random.Random(3).randbytes(5000)), ("b", FILE, b"x")])
        for kind in ("gz", "bz2", "xz"):
            data = compressed(tar, kind)
            for cut in (len(data) - 1, len(data) - 9, len(data) // 2, 40):
                with self.subTest(kind, cut=cut):
                    self.cut(data[:cut])
            for at in (len(data) // 2, len(data) - 6):
                with self.subTest(kind, at=at):
                    self.cut(data[:at] + bytes([data[at] ^ 1]) + data[at + 1 :])

    def test_a_header_that_is_changed(self) -> None:
        data = archive_of([("a", FILE, b"x"), ("b", FILE, b"y")])
        at = 1024 + 100
        write(self.at("a.tar"), data[:at] + b"7" + data[at + 1 :])
        done = self.image("pack", self.at("a.tar"), self.at("img"))
        self.says(done, 2, "'a.tar' is a broken or truncated archive")


class Zstd(ArchiveCase):
    """Archives that are compressed by zstd, which Python reads from 3.14 on."""

    MEMBERS = [("a", FILE, b"x" * 5000), ("b", FILE, b"y")]
    # Frames that only these bytes show to be of zstd, which nothing decompresses.
    FRAMES = (b"\x28\xb5\x2f\xfd", b"\x50\x2a\x4d\x18\0\0\0\0")

    def pack_bytes(self, data: bytes) -> Done:
        write(self.at("a.tar.zst"), data)
        return self.image("pack", self.at("a.tar.zst"), self.at("img"))

    def test_it_is_told_by_name_where_nothing_reads_it(self) -> None:
        line = "'a.tar.zst' is compressed by zstd: to read it takes Python 3.14, or the program zstd in the PATH"
        methods = {name: method for name, method in tarfile.TarFile.OPEN_METH.items() if name != "zst"}
        with mock.patch.dict(os.environ, PATH=self.at()), mock.patch.object(tarfile.TarFile, "OPEN_METH", methods):
            for frame in self.FRAMES:
                with self.subTest(frame):
                    self.says(self.pack_bytes(frame + bytes(100)), 2, line)
        self.assertEqual(self.left(), ["a.tar.zst"])

    @unittest.skipUnless(shutil.which("zstd"), "there is no zstd")
    def test_the_program_zstd_reads_it(self) -> None:
        tar = archive_of(self.MEMBERS)
        data = subprocess.run(["zstd", "-c"], input=tar, capture_output=True, check=True).stdout
        write(self.at("plain.tar"), tar)
        self.assertEqual(self.image("pack", self.at("plain.tar"), self.at("plain")).status, 0)
        skipped = b"\x51\x2a\x4d\x18\x03\0\0\0abc"
        for whole in (data, skipped + data):
            counts = "0 directories, 2 files, 0 links, 2 blobs, 5001 bytes"
            self.assertEqual(self.pack_bytes(whole), Done(0, [f"img: {counts}"], []))
            self.assertEqual(sorted(os.listdir(self.at("img"))), sorted(os.listdir(self.at("plain"))))
            folders.remove(self.at("img"))
        for cut in (len(data) - 1, len(data) // 2, 8):
            with self.subTest(cut):
                done = self.pack_bytes(data[:cut])
                self.assertEqual((done.status, done.out, len(done.err)), (2, [], 1))
                self.assertRegex(done.err[0], "^image: 'a.tar.zst' is a broken or truncated archive: ")
                self.assertEqual(self.left(), ["a.tar.zst", "plain", "plain.tar"])


def compressed(data: bytes, kind: str) -> bytes:
    """The bytes compressed as tarfile compresses an archive."""
    module = __import__({"gz": "gzip", "bz2": "bz2", "xz": "lzma"}[kind])
    return module.compress(data)


if __name__ == "__main__":
    unittest.main()
