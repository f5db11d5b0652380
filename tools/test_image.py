"""What tools/image makes of folders and images, and how it refuses and fails."""
from __future__ import annotations

import hashlib
import os
import resource
import signal
import socket
import subprocess
import sys
import time
import unittest
from typing import Callable, Dict, List
from unittest import mock

from imagelib import folders, pack, unpack
from imagelib.testing import SCRIPT, TOOLS, Done, ImageCase, read, tree_of, write

BIG = 16_777_216
NAME_255 = "n" * 255


def digest(data: bytes) -> str:
    return hashlib.sha256(data).hexdigest()


def make_tree(top: str) -> None:
    """A tree with equal files, an empty one, modes with all bits, links, and paths that only bytes put in order."""
    write(f"{top}/bin/hello", b"hello\n", 0o755)
    write(f"{top}/bin/again", b"hello\n", 0o4711)
    write(f"{top}/bin-2", b"", 0o444)
    write(f"{top}/d/\u00e9 \"\\\x01\u00df", b"x" * 70_000, 0o640)
    os.makedirs(f"{top}/d/e/f")
    os.symlink("bin/hello", f"{top}/run")
    os.symlink("../\u00e9", f"{top}/d/away")
    os.chmod(f"{top}/d/e", 0o3770)
    os.chmod(f"{top}/d/e/f", 0o1777)


ODD = "/d/\u00e9 \\\"\\\\\\u0001\u00df"

INDEX = f"""{{ "version": 1,
  "entries": [ {{ "path": "/bin", "type": "dir", "mode": 493 }},
               {{ "path": "/bin-2", "type": "file", "mode": 292, "blob": "{digest(b"")}" }},
               {{ "path": "/bin/again", "type": "file", "mode": 2505, "blob": "{digest(b"hello" + bytes([10]))}" }},
               {{ "path": "/bin/hello", "type": "file", "mode": 493, "blob": "{digest(b"hello" + bytes([10]))}" }},
               {{ "path": "/d", "type": "dir", "mode": 493 }},
               {{ "path": "/d/away", "type": "link", "target": "../\u00e9" }},
               {{ "path": "/d/e", "type": "dir", "mode": 2040 }},
               {{ "path": "/d/e/f", "type": "dir", "mode": 1023 }},
               {{ "path": "{ODD}", "type": "file", "mode": 416, "blob": "{digest(b"x" * 70_000)}" }},
               {{ "path": "/run", "type": "link", "target": "bin/hello" }} ] }}
"""

COUNTS = "4 directories, 4 files, 2 links, 3 blobs, 70006 bytes"

LIST = [
    "drwxr-xr-x 2 root root  4096 Jan  1  2000 /bin",
    "-r--r--r-- 1 root root     0 Jan  1  2000 /bin-2",
    "-rws--x--x 1 root root     6 Jan  1  2000 /bin/again",
    "-rwxr-xr-x 1 root root     6 Jan  1  2000 /bin/hello",
    "drwxr-xr-x 3 root root  4096 Jan  1  2000 /d",
    "lrwxrwxrwx 1 root root     5 Jan  1  2000 /d/away -> ../\u00e9",
    "drwxrws--T 3 root root  4096 Jan  1  2000 /d/e",
    "drwxrwxrwt 2 root root  4096 Jan  1  2000 /d/e/f",
    "-rw-r----- 1 root root 70000 Jan  1  2000 /d/\u00e9 \"\\\\\\x01\u00df",
    "lrwxrwxrwx 1 root root     9 Jan  1  2000 /run -> bin/hello",
]


def image_of(top: str) -> Dict[str, bytes]:
    """The files of an image."""
    return {name: read(os.path.join(top, name)) for name in os.listdir(top)}


def make_image(top: str, entries: List[str], blobs: Dict[str, bytes]) -> None:
    write(f"{top}/image.json", f'{{"version":1,"entries":[{",".join(entries)}]}}'.encode())
    for name, data in blobs.items():
        write(f"{top}/{name}", data)


class ThereAndBack(ImageCase):
    """Trees that are packed, listed, checked and unpacked."""

    def test_one_tree_through_all_commands(self) -> None:
        make_tree(self.at("tree"))
        self.assertEqual(self.image("pack", self.at("tree"), self.at("img")), Done(0, [f"img: {COUNTS}"], []))
        self.assertEqual(read(self.at("img", "image.json")).decode(), INDEX)
        self.assertEqual(
            {name: data for name, data in image_of(self.at("img")).items() if name != "image.json"},
            {digest(data): data for data in (b"", b"hello\n", b"x" * 70_000)},
        )
        self.assertEqual(self.image("list", self.at("img")), Done(0, LIST, []))
        self.assertEqual(self.image("check", self.at("img")), Done(0, [f"img is good: {COUNTS}"], []))
        self.assertEqual(self.image("unpack", self.at("img"), self.at("out")), Done(0, [], []))
        self.assertEqual(tree_of(self.at("out")), tree_of(self.at("tree")))
        self.assertEqual(os.stat(self.at("out")).st_mode & 0o7777, 0o755)
        self.assertEqual(self.left(), ["img", "out", "tree"])

    def test_an_empty_folder(self) -> None:
        os.mkdir(self.at("tree"), 0o700)
        counts = "0 directories, 0 files, 0 links, 0 blobs, 0 bytes"
        self.assertEqual(self.image("pack", self.at("tree"), self.at("img")), Done(0, [f"img: {counts}"], []))
        self.assertEqual(image_of(self.at("img")), {"image.json": b'{ "version": 1,\n  "entries": [] }\n'})
        self.assertEqual(self.image("list", self.at("img")), Done(0, [], []))
        self.assertEqual(self.image("unpack", self.at("img"), self.at("out")), Done(0, [], []))
        self.assertEqual(os.stat(self.at("out")).st_mode & 0o7777, 0o755)

    def test_the_example_of_the_readme(self) -> None:
        example = os.path.join(os.path.dirname(TOOLS), "examples", "tree")
        self.image("unpack", example, self.at("out"))
        self.image("pack", self.at("out"), self.at("img"))
        hello = read(os.path.join(example, "hello"))
        want = read(os.path.join(example, "image.json"))
        want = want.replace(b'"blob": "hello"', f'"blob": "{digest(hello)}"'.encode())
        self.assertEqual(image_of(self.at("img")), {"image.json": want, digest(hello): hello})

    def test_three_thousand_files(self) -> None:
        blobs = {digest(bytes([number])): bytes([number]) for number in range(40)}
        names = sorted(blobs)
        rows = [(f"/d{number % 7}/{number}", number % 0o1000 | 0o400, names[number % 40]) for number in range(3000)]
        entries = [
            f'{{ "path": "{path}", "type": "file", "mode": {mode}, "blob": "{blob}" }}' for path, mode, blob in rows
        ]
        entries += [f'{{ "path": "/d{number}", "type": "dir", "mode": 493 }}' for number in range(7)]
        text = ",\n               ".join(sorted(entries, key=lambda line: line.split('"')[3]))
        for name, data in {"image.json": f'{{ "version": 1,\n  "entries": [ {text} ] }}\n'.encode(), **blobs}.items():
            write(self.at("one", name), data)
        self.assertEqual(self.image("unpack", self.at("one"), self.at("out")), Done(0, [], []))
        done = self.image("pack", self.at("out"), self.at("img"))
        self.assertEqual(done, Done(0, ["img: 7 directories, 3000 files, 0 links, 40 blobs, 40 bytes"], []))
        self.assertEqual(image_of(self.at("img")), image_of(self.at("one")))
        for path, mode, blob in rows[::100]:
            self.assertEqual(read(self.at("out") + path), blobs[blob])
            self.assertEqual(os.stat(self.at("out") + path).st_mode & 0o7777, mode)

    def test_paths_as_long_and_as_deep_as_may_be(self) -> None:
        for names in ([NAME_255] * 15 + ["n" * 254], ["d" * 12] * 314 + ["d" * 12]):
            with self.subTest(len(names)):
                paths = ["/" + "/".join(names[: count + 1]) for count in range(len(names))]
                self.assertEqual(len(paths[-1]), 4095)
                entries = [f'{{"path":"{path}","type":"dir","mode":448}}' for path in paths[:-1]]
                entries.append(f'{{"path":"{paths[-1]}","type":"file","mode":420,"blob":"b"}}')
                make_image(self.at("long"), entries, {"b": b"deep"})
                self.assertEqual(self.image("unpack", self.at("long"), self.at("out")), Done(0, [], []))
                counts = f"{len(names) - 1} directories, 1 file, 0 links, 1 blob, 4 bytes"
                self.assertEqual(self.image("pack", self.at("out"), self.at("img")), Done(0, [f"img: {counts}"], []))
                self.assertEqual(self.image("list", self.at("img")).out[-1].split()[-1], paths[-1])
                for name in ("long", "out", "img"):
                    folders.remove(self.at(name))

    def test_a_file_at_the_limit(self) -> None:
        write(self.at("tree", "big"), b"")
        os.truncate(self.at("tree", "big"), BIG)
        done = self.image("pack", self.at("tree"), self.at("img"))
        self.assertEqual(done, Done(0, [f"img: 0 directories, 1 file, 0 links, 1 blob, {BIG} bytes"], []))

    @unittest.skipIf(os.geteuid() == 0, "no directory is closed to root")
    def test_directories_that_are_closed_to_their_owner(self) -> None:
        entries = [f'{{"path":"{path}","type":"dir","mode":{mode}}}' for path, mode in (("/d", 0), ("/d/e", 0o500))]
        entries.append('{"path":"/d/e/f","type":"file","mode":2048,"blob":"b"}')
        entries.append('{"path":"/d/e/l","type":"link","target":"f"}')
        make_image(self.at("img"), entries, {"b": b"x"})
        self.assertEqual(self.image("unpack", self.at("img"), self.at("out")), Done(0, [], []))
        self.assertEqual(os.stat(self.at("out", "d")).st_mode & 0o7777, 0)
        os.chmod(self.at("out", "d"), 0o700)
        self.assertEqual(os.stat(self.at("out", "d", "e", "f")).st_mode & 0o7777, 0o4000)
        self.assertEqual(os.listdir(self.at("out", "d")), ["e"])
        self.assertEqual(os.stat(self.at("out", "d", "e")).st_mode & 0o7777, 0o500)
        self.assertEqual(sorted(os.listdir(self.at("out", "d", "e"))), ["f", "l"])

    def test_bits_that_the_system_keeps_back_are_told(self) -> None:
        make_tree(self.at("tree"))
        self.image("pack", self.at("tree"), self.at("img"))
        real = os.fchmod
        with mock.patch.object(unpack.os, "fchmod", lambda file, mode: real(file, mode & 0o1777)):
            done = self.image("unpack", self.at("img"), self.at("out"))
        lines = [
            "'/bin/again' has the mode 0711 and not 4711, as far as the system lets it",
            "'/d/e' has the mode 1770 and not 3770, as far as the system lets it",
        ]
        self.assertEqual(done, Done(0, lines, []))


class SameBytes(ImageCase):
    """One tree gives one image."""

    def packed(self, *words: str) -> Dict[str, bytes]:
        self.assertEqual(self.image("pack", *words, self.at("img")).err, [])
        found = image_of(self.at("img"))
        folders.remove(self.at("img"))
        return found

    def setUp(self) -> None:
        super().setUp()
        make_tree(self.at("tree"))
        self.first = self.packed(self.at("tree"))

    def test_on_another_day(self) -> None:
        for folder, _, names in os.walk(self.at("tree")):
            for name in names:
                os.utime(os.path.join(folder, name), (5, 7), follow_symlinks=False)
        os.umask(0o077)
        with mock.patch.dict(os.environ, TZ="Pacific/Auckland", LC_ALL="C"):
            time.tzset()
            self.addCleanup(time.tzset)
            self.assertEqual(self.packed(self.at("tree")), self.first)

    def test_from_another_path(self) -> None:
        os.makedirs(self.at("far", "away"))
        os.rename(self.at("tree"), self.at("far", "away", "\u00e9"))
        self.assertEqual(self.packed(self.at("far", "away", "\u00e9") + "/"), self.first)

    def test_through_a_link_to_the_folder(self) -> None:
        os.symlink("tree", self.at("link"))
        self.assertEqual(self.packed(self.at("link")), self.first)

    def test_in_any_order_of_a_directory(self) -> None:
        real = os.listdir
        for order in (sorted, lambda names: sorted(names, reverse=True)):
            with mock.patch.object(os, "listdir", lambda folder, order=order: order(real(folder))):
                self.assertEqual(self.packed(self.at("tree")), self.first)

    def test_packed_again_after_it_was_unpacked(self) -> None:
        self.image("pack", self.at("tree"), self.at("img"))
        self.image("unpack", self.at("img"), self.at("out"))
        folders.remove(self.at("img"))
        self.assertEqual(self.packed(self.at("out")), self.first)

    def test_by_the_script_in_other_locales(self) -> None:
        for locale in ("C", "POSIX", "C.UTF-8"):
            env = {"LC_ALL": locale, "TZ": "Asia/Tokyo", "PYTHONHASHSEED": "1"}
            done = self.script("pack", "tree", "img", env=env)
            self.assertEqual(done, Done(0, [f"img: {COUNTS}"], []))
            self.assertEqual(image_of(self.at("img")), self.first)
            folders.remove(self.at("img"))


class CannotHold(ImageCase):
    """What an image cannot hold is named, and nothing is written."""

    def setUp(self) -> None:
        super().setUp()
        write(self.at("tree", "d", "good"), b"good")

    def refused(self, *lines: str) -> None:
        self.says(self.image("pack", self.at("tree"), self.at("img")), 1, *lines)
        self.assertEqual(self.left(), ["tree"])

    def bytes_at(self, *names: bytes) -> bytes:
        return os.path.join(os.fsencode(self.at("tree")), *names)

    def test_a_fifo(self) -> None:
        os.mkfifo(self.at("tree", "d", "pipe"))
        self.refused("'/d/pipe': a FIFO, which an image cannot hold")

    def test_a_socket(self) -> None:
        self.make_socket()
        self.refused("'/d/sock': a socket, which an image cannot hold")

    def make_socket(self) -> None:
        # A socket's path may have about a hundred bytes, so it is made from within.
        before = os.open(".", os.O_RDONLY)
        try:
            os.chdir(self.at("tree", "d"))
            with socket.socket(socket.AF_UNIX) as made:
                made.bind("sock")
        finally:
            os.fchdir(before)
            os.close(before)

    def test_a_device(self) -> None:
        try:
            os.mknod(self.at("tree", "null"), 0o20666, os.makedev(1, 3))
        except PermissionError:
            self.skipTest("a device is made by root alone")
        self.refused("'/null': the device null, which an image of version 1 cannot hold (--profile 2 takes it)")

    def test_a_name_that_is_no_utf_8(self) -> None:
        os.mkdir(self.bytes_at(b"caf\xe9"))
        write(os.fsdecode(self.bytes_at(b"caf\xe9", b"f")), b"")
        self.refused("'/caf\\xe9': its name is no UTF-8")

    def test_a_target_that_is_no_utf_8(self) -> None:
        os.symlink(b"caf\xe9", self.bytes_at(b"l"))
        self.refused("'/l': its target is no UTF-8")

    def test_a_file_past_the_limit(self) -> None:
        write(self.at("tree", "big"), b"")
        os.truncate(self.at("tree", "big"), BIG + 1)
        self.refused("'/big': it has 16777217 bytes, more than 16777216 (--profile 2 takes it)")

    def test_too_many_entries(self) -> None:
        for number in range(4094):
            os.symlink("t", self.at("tree", str(number)))
        self.refused("there are 4096 entries, more than 4095")

    def test_a_path_past_the_limit(self) -> None:
        before = os.open(".", os.O_RDONLY)
        try:
            os.chdir(self.at("tree"))
            for _ in range(16):
                os.mkdir(NAME_255)
                os.chdir(NAME_255)
        finally:
            os.fchdir(before)
            os.close(before)
        self.refused(f"'{f'/{NAME_255}' * 16}': its path has 4096 bytes, more than 4095")

    def test_an_index_past_the_limit(self) -> None:
        names = [f"{number:0>250}" for number in range(15)]
        folder = self.at("tree", *names)
        os.makedirs(folder)
        here = os.open(folder, os.O_RDONLY)
        for number in range(1100):
            os.close(os.open(f"{number:0>250}", os.O_WRONLY | os.O_CREAT, dir_fd=here))
        os.close(here)
        paths = [f"/{'/'.join(names[: count + 1])}" for count in range(15)]
        files = 1100 * (len(paths[-1]) + 251 + len(entry_line("", "file")))
        folders_size = sum(len(path) + len(entry_line("", "dir")) for path in paths)
        good = len(entry_line("/d", "dir")) + len(entry_line("/d/good", "file"))
        size = files + folders_size + good + 1117 * len(",\n" + " " * 15) - len(",\n" + " " * 15)
        size += len('{ "version": 1,\n  "entries": [ ') + len(" ] }\n")
        self.refused(f"image.json would have {size} bytes, more than 4194304")

    def test_a_file_that_grows_past_the_limit_while_it_is_read(self) -> None:
        self.changes(
            lambda: os.truncate(self.at("tree", "d", "good"), BIG + 1),
            "'/d/good': it has grown to more than 16777216 bytes while it was read",
        )

    def test_a_file_that_is_gone_when_it_is_read(self) -> None:
        self.changes(
            lambda: os.remove(self.at("tree", "d", "good")), "'/d/good': it cannot be read: No such file or directory"
        )

    def test_a_file_whose_place_a_link_or_a_fifo_takes(self) -> None:
        write(self.at("tree", "secret"), b"secret")

        def swap(make: Callable[[], None]) -> Callable[[], object]:
            return lambda: (os.remove(self.at("tree", "d", "good")), make())

        self.changes(
            swap(lambda: os.symlink("../secret", self.at("tree", "d", "good"))),
            "'/d/good': it cannot be read: Too many levels of symbolic links",
        )
        os.remove(self.at("tree", "d", "good"))
        write(self.at("tree", "d", "good"), b"good")
        self.changes(
            swap(lambda: os.mkfifo(self.at("tree", "d", "good"))),
            "'/d/good': something else has taken its place while it was packed",
        )

    def changes(self, change: Callable[[], object], *lines: str) -> None:
        """A change just before the first file is copied, and what is said then."""
        once = [change]
        with mock.patch.object(pack, "stop_if_asked", lambda: once.pop()() if once else None):
            self.refused(*lines)

    def test_all_that_goes_wrong_while_files_are_read(self) -> None:
        write(self.at("tree", "a"), b"a")
        self.changes(
            lambda: (os.truncate(self.at("tree", "a"), BIG + 1), os.remove(self.at("tree", "d", "good"))),
            "'/a': it has grown to more than 16777216 bytes while it was read",
            "'/d/good': it cannot be read: No such file or directory",
        )

    def test_files_that_cannot_be_read_are_named_with_the_rest(self) -> None:
        os.mkfifo(self.at("tree", "d", "pipe"))
        with mock.patch.object(pack, "index_faults", lambda *_: os.remove(self.at("tree", "d", "good")) or []):
            self.refused(
                "'/d/good': it cannot be read: No such file or directory",
                "'/d/pipe': a FIFO, which an image cannot hold",
            )

    @unittest.skipIf(os.geteuid() == 0, "root may read everything")
    def test_what_cannot_be_read(self) -> None:
        write(self.at("tree", "closed", "f"), b"")
        write(self.at("tree", "secret"), b"", 0)
        write(self.at("tree", "other"), b"", 0)
        os.chmod(self.at("tree", "closed"), 0)
        self.refused(
            "'/closed': it cannot be read: Permission denied",
            "'/other': it cannot be read: Permission denied",
            "'/secret': it cannot be read: Permission denied",
        )

    def test_all_of_it_is_named_in_byte_order(self) -> None:
        os.mkfifo(self.at("tree", "d", "pipe"))
        os.mkfifo(self.bytes_at(b"\xff"))
        self.make_socket()
        os.symlink(b"\xff", self.bytes_at(b"l\n"))
        write(self.at("tree", "big"), b"")
        os.truncate(self.at("tree", "big"), BIG + 5)
        self.refused(
            "'/big': it has 16777221 bytes, more than 16777216 (--profile 2 takes it)",
            "'/d/pipe': a FIFO, which an image cannot hold",
            "'/d/sock': a socket, which an image cannot hold",
            "'/l\\n': its target is no UTF-8",
            "'/\\xff': its name is no UTF-8; a FIFO, which an image cannot hold",
        )


def entry_line(path: str, kind: str) -> str:
    blob = f', "blob": "{"0" * 64}"' if kind == "file" else ""
    return f'{{ "path": "{path}", "type": "{kind}", "mode": {420 if kind == "file" else 493}{blob} }}'


class Packing(ImageCase):
    """What else pack does."""

    def test_hard_links_become_files_of_their_own(self) -> None:
        write(self.at("tree", "a"), b"one")
        os.mkdir(self.at("tree", "d"))
        for name in ("b", "d/c"):
            os.link(self.at("tree", "a"), self.at("tree", name))
        write(self.at("tree", "x"), b"two")
        os.link(self.at("tree", "x"), self.at("tree", "y\n"))
        os.link(self.at("tree", "x"), self.at("outside"))
        done = self.image("pack", self.at("tree"), self.at("img"))
        lines = [
            "'/a', '/b' and '/d/c' are one file there and three here",
            "'/x' and '/y\\n' are one file there and two here",
            "img: 1 directory, 5 files, 0 links, 2 blobs, 6 bytes",
        ]
        self.assertEqual(done, Done(0, lines, []))
        self.image("unpack", self.at("img"), self.at("out"))
        self.assertEqual(os.stat(self.at("out", "a")).st_nlink, 1)

    def test_an_image_is_packed_as_a_folder_and_said_to_be_one(self) -> None:
        make_tree(self.at("tree"))
        self.image("pack", self.at("tree"), self.at("img"))
        done = self.image("pack", self.at("img"), self.at("again"))
        said = "'img' is an image already, and was packed as a folder, with its image.json as a file"
        self.assertEqual((done.status, done.out[:-1], done.err), (0, [said], []))
        self.image("unpack", self.at("again"), self.at("out"))
        self.assertEqual(image_of(self.at("out")), image_of(self.at("img")))
        write(self.at("tree", "image.json"), b"{}")
        self.assertEqual(len(self.image("pack", self.at("tree"), self.at("other")).out), 1)

    def test_links_in_the_folder_are_not_followed(self) -> None:
        write(self.at("secret", "f"), b"secret")
        os.mkdir(self.at("tree"))
        for name, target in (("abs", self.at("secret")), ("rel", "../secret"), ("loop", "loop"), ("none", "nothing")):
            os.symlink(target, self.at("tree", name))
        done = self.image("pack", self.at("tree"), self.at("img"))
        self.assertEqual(done, Done(0, ["img: 0 directories, 0 files, 4 links, 0 blobs, 0 bytes"], []))

    def test_what_is_excluded(self) -> None:
        for path in ("a.o", "src/b.o", "src/b.c", ".git/HEAD", "build/tmp1/x", "build/tmp2", "build/out"):
            write(self.at("tree", path), b"")
        write(self.at("tree", "src/build/tmp3"), b"")
        os.mkfifo(self.at("tree", "build", "tmp1", "pipe"))
        rest = {"/.git", "/.git/HEAD", "/a.o", "/build", "/build/out", "/src", "/src/b.c", "/src/b.o", "/src/build",
                "/src/build/tmp3"}
        for patterns, gone in (
            (["*.o"], {"/a.o", "/src/b.o"}),
            (["*.O", "nothing", "", "/"], set()),
            ([".git", "b.[!o]"], {"/.git", "/.git/HEAD", "/src/b.c"}),
            (["src/build"], {"/src/build", "/src/build/tmp3"}),
            (["/src/build/"], {"/src/build", "/src/build/tmp3"}),
            (["./src/*.o"], {"/src/b.o"}),
            (["build"], {"/build", "/build/out", "/src/build", "/src/build/tmp3"}),
            (["*"], rest),
        ):
            with self.subTest(patterns):
                words = [word for pattern in patterns for word in ("--exclude", pattern)]
                done = self.image("pack", self.at("tree"), self.at("img"), "--exclude", "/build/tmp*", *words)
                self.assertEqual((done.status, done.err), (0, []))
                listed = {line.split("2000 ")[1] for line in self.image("list", self.at("img")).out}
                self.assertEqual(listed, rest - gone)
                folders.remove(self.at("img"))

    def test_a_pattern_that_leaves_nothing_out_is_named(self) -> None:
        write(self.at("tree", "src", "a.o"), b"")
        words = [word for pattern in ("*.O", "src", "/src/a.o", "", "/") for word in ("--exclude", pattern)]
        self.assertEqual(self.image("pack", self.at("tree"), self.at("img"), *words), Done(0, [
            "--exclude '*.O' left nothing out",
            "--exclude '/src/a.o' left nothing out",
            "--exclude '' left nothing out",
            "--exclude '/' left nothing out",
            "img: 0 directories, 0 files, 0 links, 0 blobs, 0 bytes"], []))

    def test_a_name_that_is_no_utf_8_can_be_excluded(self) -> None:
        write(os.fsdecode(os.path.join(os.fsencode(self.at("tree")), b"caf\xe9")), b"")
        done = self.image("pack", self.at("tree"), self.at("img"), "--exclude", os.fsdecode(b"ca*\xe9"))
        self.assertEqual(done, Done(0, ["img: 0 directories, 0 files, 0 links, 0 blobs, 0 bytes"], []))

    def test_the_mask_counts_for_the_image_and_not_for_its_modes(self) -> None:
        write(self.at("tree", "f"), b"x", 0o666)
        os.umask(0o027)
        self.image("pack", self.at("tree"), self.at("img"))
        modes = [os.stat(path).st_mode & 0o7777 for path in (self.at("img"), self.at("img", digest(b"x")))]
        self.assertEqual(modes, [0o750, 0o640])
        self.assertIn(b'"mode": 438', read(self.at("img", "image.json")))


class Inside(ImageCase):
    """Images whose links point outside: nothing is written there."""

    def setUp(self) -> None:
        super().setUp()
        write(self.at("outside", "f"), b"as it was", 0o640)
        self.before = tree_of(self.at("outside"))

    def unpacked(self, *entries: str) -> Done:
        make_image(self.at("img"), list(entries), {"b": b"changed"})
        done = self.image("unpack", self.at("img"), self.at("out"))
        self.assertEqual(tree_of(self.at("outside")), self.before)
        return done

    def link(self, path: str, target: str) -> str:
        return f'{{"path":"{path}","type":"link","target":"{target}"}}'

    def file(self, path: str) -> str:
        return f'{{"path":"{path}","type":"file","mode":438,"blob":"b"}}'

    def folder(self, path: str) -> str:
        return f'{{"path":"{path}","type":"dir","mode":511}}'

    def test_links_of_all_kinds_are_made_and_not_followed(self) -> None:
        links = {"/abs": self.at("outside"), "/file": self.at("outside", "f"), "/up": "../outside/f", "/d/up": "../..",
                 "/chain": "abs", "/chain2": "chain/f", "/loop": "loop", "/here": "."}
        entries = [self.link(path, target) for path, target in links.items()]
        entries += [self.folder("/d"), self.file("/d/f"), self.folder("/upper"), self.file("/upper/f")]
        done = self.unpacked(*entries)
        self.assertEqual(done, Done(0, [], []))
        want = {path: ("link", target) for path, target in links.items()}
        for path in ("/d", "/upper"):
            want[path], want[f"{path}/f"] = ("dir", 0o777), ("file", 0o666, b"changed")
        self.assertEqual(tree_of(self.at("out")), want)
        self.assertEqual(self.left(), ["img", "out", "outside"])

    def test_what_would_stand_below_a_link_is_refused(self) -> None:
        for entries, line in (
            ([self.link("/d", self.at("outside")), self.folder("/d"), self.file("/d/f")],
             "refused: 4 Twice: entry 2, '/d': entry 1 has this path too"),
            ([self.folder("/d"), self.link("/d", "../outside"), self.file("/d/f")],
             "refused: 4 Twice: entry 2, '/d': entry 1 has this path too"),
            ([self.link("/d", self.at("outside")), self.file("/d/f")],
             "refused: 5 NoParent: entry 2, '/d/f': '/d' is a symbolic link, and no directory"),
            ([self.folder("/d"), self.link("/d/e", "../../outside"), self.file("/d/e/f")],
             "refused: 5 NoParent: entry 3, '/d/e/f': '/d/e' is a symbolic link, and no directory"),
            ([self.file("/../outside/f")],
             "refused: 3 BadPath: entry 1, '/../outside/f': the path has the name `..`"),
        ):
            with self.subTest(line):
                self.says(self.unpacked(*entries), 1, line)
                self.assertEqual(self.left(), ["img", "outside"])

    def test_a_link_that_appears_while_files_are_made_is_not_followed(self) -> None:
        make_image(self.at("img"), [self.folder("/d"), self.folder("/d/e"), self.file("/d/e/f")], {"b": b"changed"})
        real = unpack.make_files

        def swap(top: int, image: unpack.Image) -> List[str]:
            os.rmdir("d/e", dir_fd=top)
            os.symlink(self.at("outside"), "d/e", dir_fd=top)
            return real(top, image)

        with mock.patch.object(unpack, "make_files", swap):
            done = self.image("unpack", self.at("img"), self.at("out"))
        self.says(done, 2, "'out' cannot be made: Not a directory")
        self.assertEqual(tree_of(self.at("outside")), self.before)
        self.assertEqual(self.left(), ["img", "outside"])

    def test_a_blob_that_is_a_link_is_read(self) -> None:
        make_image(self.at("img"), [self.file("/f")], {})
        os.symlink("../outside/f", self.at("img", "b"))
        self.assertEqual(self.image("unpack", self.at("img"), self.at("out")), Done(0, [], []))
        self.assertEqual(tree_of(self.at("out")), {"/f": ("file", 0o666, b"as it was")})


class Places(ImageCase):
    """Where images and folders may be made."""

    def setUp(self) -> None:
        super().setUp()
        write(self.at("tree", "f"), b"x")
        self.image("pack", self.at("tree"), self.at("img"))

    def test_places_of_an_image(self) -> None:
        write(self.at("file"), b"")
        os.symlink("nothing", self.at("dangling"))
        os.mkdir(self.at("empty"))
        os.symlink("tree", self.at("link"))
        before = self.left()
        taken = "exists already, and is no image: what is packed is named first, and then the IMAGE to make"
        for place, line in (
            ("img", "'img' exists already: name another place, or remove that image first"),
            ("empty/", f"'empty' {taken}"),
            ("file", f"'file' {taken}"),
            ("dangling", f"'dangling' {taken}"),
            ("tree", f"'tree' {taken}"),
            ("none/img", "'none/img' cannot be made: there is no folder 'none'"),
            ("file/img", "'file/img' cannot be made: 'file' is no folder"),
            ("tree/img", "'tree/img' would lie inside 'tree', which is packed: name a place outside"),
            ("link/img", "'link/img' would lie inside 'tree', which is packed: name a place outside"),
        ):
            with self.subTest(place):
                self.says(self.image("pack", self.at("tree"), self.at(place)), 2, line)
        self.says(self.image("pack", self.at("tree"), ""), 2, "IMAGE is empty: it is to name the folder that is made")
        self.assertEqual(self.left(), before)
        self.assertEqual(os.listdir(self.at("tree")), ["f"])

    def test_sources_that_are_none(self) -> None:
        os.mkfifo(self.at("pipe"))
        for word, line in (
            ("none", "'none' cannot be read: No such file or directory"),
            ("tree/f/g", "'tree/f/g' cannot be read: Not a directory"),
            ("tree/f", "'tree/f' is neither a folder nor a tar archive that Python can read"),
            ("pipe", "'pipe' is neither a folder nor a file with an archive"),
        ):
            with self.subTest(word):
                self.says(self.image("pack", self.at(word), self.at("new")), 2, line)

    def test_places_of_a_folder(self) -> None:
        os.mkdir(self.at("empty"), 0o700)
        os.symlink("empty", self.at("link"))
        os.mkdir(self.at("img", "inner"))
        for place, line in (
            ("tree", "'tree' is not empty: name a folder that is, or that isn't there"),
            ("tree/f", "'tree/f' exists already: name a folder that doesn't"),
            ("none/out", "'none/out' cannot be made: there is no folder 'none'"),
            ("img/out", "'img/out' lies inside 'img', which is only read: name another folder"),
            ("img/inner", "'img/inner' lies inside 'img', which is only read: name another folder"),
        ):
            with self.subTest(place):
                self.says(self.image("unpack", self.at("img"), self.at(place)), 2, line)
        os.rmdir(self.at("img", "inner"))
        self.assertEqual(self.image("unpack", self.at("img"), self.at("link")), Done(0, [], []))
        self.assertEqual(tree_of(self.at("empty")), {"/f": ("file", 0o644, b"x")})
        self.assertEqual(os.stat(self.at("empty")).st_mode & 0o7777, 0o755)

    def test_the_folder_that_one_stands_in(self) -> None:
        os.mkdir(self.at("empty"))
        before = os.open(".", os.O_RDONLY)
        try:
            os.chdir(self.at("empty"))
            done = self.image("unpack", self.at("img"), ".")
        finally:
            os.fchdir(before)
            os.close(before)
        self.says(done, 2, "'.' is the folder that you stand in, which would be replaced: name another")

    @unittest.skipIf(os.geteuid() == 0, "root may write everywhere")
    def test_a_parent_without_permission(self) -> None:
        os.mkdir(self.at("closed"), 0o500)
        line = "'closed/new' cannot be made: Permission denied"
        self.says(self.image("pack", self.at("tree"), self.at("closed", "new")), 2, line)
        self.says(self.image("unpack", self.at("img"), self.at("closed", "new")), 2, line)


# Runs the tool, and stops it where it looks for the second time whether it is to stop.
STOPPED = f"""
import os, signal, sys
sys.path.insert(0, {TOOLS!r})
from imagelib import archiving, commands, pack, unpack
real, looks = pack.stop_if_asked, []
def stop_if_asked():
    looks.append(0)
    if len(looks) == 2:
        for _ in range(3):
            os.kill(os.getpid(), getattr(signal, sys.argv[1]))
    real()
archiving.stop_if_asked = pack.stop_if_asked = unpack.stop_if_asked = stop_if_asked
signal.signal(signal.SIGINT, signal.default_int_handler)
for number in (signal.SIGTERM, signal.SIGHUP):
    signal.signal(number, signal.SIG_DFL)
commands.stop_on_signals()
sys.exit(commands.main(sys.argv[2:]))
"""


class Whole(ImageCase):
    """Images and folders are made whole or not at all."""

    def setUp(self) -> None:
        super().setUp()
        for number in range(20):
            write(self.at("tree", "d", str(number)), bytes(5000 + number))
        self.image("pack", self.at("tree"), self.at("img"))

    def test_a_signal_leaves_nothing(self) -> None:
        for name in ("SIGINT", "SIGTERM", "SIGHUP"):
            for words in (("pack", "tree", "new"), ("unpack", "img", "new"), ("unpack", "--tar", "img", "new")):
                with self.subTest(f"{name} {words[:2]}"):
                    command = [sys.executable, "-c", STOPPED, name, *words]
                    done = subprocess.run(command, cwd=self.top, capture_output=True, check=False)
                    self.assertEqual((done.returncode, done.stdout), (2, b""))
                    self.assertEqual(done.stderr, b"image: stopped by a signal\n")
                    self.assertEqual(self.left(), ["img", "tree"])

    def test_a_full_disk_leaves_nothing(self) -> None:
        for words, line in (
            (("pack", "tree", "new"), "image: 'new' cannot be made: File too large"),
            (("unpack", "img", "new"), "image: '/d/0' cannot be made: File too large"),
            (("unpack", "--tar", "img", "new"), "image: 'new' cannot be made: File too large"),
        ):
            with self.subTest(words[:2]):
                done = subprocess.run(
                    [sys.executable, "-B", SCRIPT, *words],
                    cwd=self.top,
                    capture_output=True,
                    check=False,
                    preexec_fn=lambda: resource.setrlimit(resource.RLIMIT_FSIZE, (3000, 3000)),
                )
                self.assertEqual((done.returncode, done.stdout), (2, b""))
                self.assertEqual(done.stderr.decode().splitlines(), [line])
                self.assertEqual(self.left(), ["img", "tree"])

    def test_a_place_that_is_taken_meanwhile_is_kept(self) -> None:
        once = [lambda: write(self.at("new", "f"), b"kept")]
        with mock.patch.object(pack, "stop_if_asked", lambda: once.pop()() if once else None):
            done = self.image("pack", self.at("tree"), self.at("new"))
        self.says(done, 2, "'new' cannot be made: Directory not empty")
        self.assertEqual(tree_of(self.at("new")), {"/f": ("file", 0o644, b"kept")})
        self.assertEqual(self.left(), ["img", "new", "tree"])

    def test_a_blob_that_shrinks_while_it_is_unpacked(self) -> None:
        blob = digest(bytes(5007))
        once = [lambda: os.truncate(self.at("img", blob), 3)]
        with mock.patch.object(unpack, "stop_if_asked", lambda: once.pop()() if once else None):
            done = self.image("unpack", self.at("img"), self.at("new"))
        self.says(done, 1, f"store fault: 'img/{blob}': the file ends before the size that was told of it")
        self.assertEqual(self.left(), ["img", "tree"])

    def test_folders_of_any_mode_and_depth_are_removed(self) -> None:
        folder = self.at("new")
        os.mkdir(folder)
        top = os.open(folder, os.O_RDONLY)
        current = top
        for _ in range(1100):
            os.mkdir("d", dir_fd=current)
            inner = os.open("d", os.O_RDONLY, dir_fd=current)
            os.symlink("/", "l", dir_fd=current)
            os.fchmod(current, 0)
            if current != top:
                os.close(current)
            current = inner
        os.close(current)
        os.close(top)
        folders.remove(folder)
        self.assertEqual(self.left(), ["img", "tree"])


if __name__ == "__main__":
    unittest.main()
