"""What tools/run packs, what it keeps of that, and what it says where there is nothing to pack."""
from __future__ import annotations

import hashlib
import os
import shutil
import subprocess
import tarfile
import unittest
from unittest import mock

from imagelib.index import read_image
from imagelib.pack import pack
from runlib.cache import cache_folder
from runlib.testing import EXAMPLES, HELLO, TOOLS, Done, RunCase, elf


class Names(RunCase):
    """The word that names a folder, an archive or an image."""

    def setUp(self) -> None:
        super().setUp()
        self.stand_in(HELLO)

    def refuses(self, word: str, line: str) -> None:
        with self.subTest(word):
            self.says(self.run_words(word, "--", "/x"), 125, line)
            self.assertEqual(self.calls(), [])

    def test_nothing_is_there(self) -> None:
        os.symlink("gone", self.work / "link")
        (self.work / "file").write_bytes(b"x")
        none = "and neither folder, archive nor image of that name"
        self.refuses("nowhere", f"nowhere is not there, {none}")
        self.refuses("tre", f"tre is not there, {none}; did you mean tree?")
        self.refuses("tree/x/", f"tree/x/ is not there, {none}")
        self.refuses("no/where/x", "no/where/x is not there: nor is the folder no/where, but . is")
        self.refuses("tree/no/x", "tree/no/x is not there: nor is the folder tree/no, but tree is")
        self.refuses("link", "link is a link to gone, where nothing is")
        self.refuses("file/x", "file/x goes through file, which is no folder")
        self.refuses("n" * 300, f"{'n' * 300} cannot be read: File name too long")
        self.refuses("a\x1b[2J", f"a\\x1b[2J is not there, {none}")

    def test_a_file_that_is_neither_image_nor_archive(self) -> None:
        put = "put it into a folder, name that, and behind -- the path of it there"
        for name, data, said in (
            ("program", elf(), f"it is a program; {put}"), ("script", b"#!/bin/sh\n", f"it is a script; {put}"),
            ("empty", b"", "it is empty"),
        ):
            (self.work / name).write_bytes(data)
            self.refuses(name, f"{name} is neither an image nor an archive: {said}")
        self.refuses(str(EXAMPLES / "hello" / "image.json"),
                     f"{EXAMPLES}/hello/image.json is neither an image nor an archive: it is the index of an image, "
                     f"whose name is that of its folder, {EXAMPLES}/hello")
        (self.work / "text").write_bytes(b"some text\n")
        (line,) = self.lines_of(pack, "text", "image", [])
        self.assertIn("is neither a folder nor a tar archive", line)
        self.refuses("text", line)
        os.mkfifo(self.work / "pipe")
        self.refuses("pipe", "pipe is neither a folder nor a file: name a folder, a tar archive or an image")

    def test_an_archive_that_is_cut(self) -> None:
        self.write("a", b"x" * 5000)
        with tarfile.open(self.work / "tree.tar", "w") as archive:
            archive.add(self.work / "tree", ".")
        whole = (self.work / "tree.tar").read_bytes()
        (self.work / "tree.tar").write_bytes(whole[:2000])
        (line,) = self.lines_of(pack, "tree.tar", "image", [])
        self.assertIn("is a broken or truncated archive", line)
        self.refuses("tree.tar", line)
        self.assertEqual(self.images(), [])

    def test_what_an_image_cannot_hold_is_named_whole(self) -> None:
        os.mkfifo(self.work / "tree" / "pipe")
        (self.work / "tree" / os.fsdecode(b"\xff")).touch()
        lines = self.lines_of(pack, "tree", "image", [])
        self.assertEqual([line.split(": ")[1] for line in lines], ["a FIFO, which an image cannot hold",
                                                                  "its name is no UTF-8"])
        self.says(self.run_command("/x"), 125, *lines)
        self.assertEqual(self.images(), [])

    def test_an_image_that_is_refused_says_which_entry(self) -> None:
        shutil.copytree(EXAMPLES / "hello", self.work / "image")
        os.remove(self.work / "image" / "hello")
        self.stand_in(b"", status=3, errors="dettrace: image refused: 6 NoBlob")
        (line,) = self.lines_of(read_image, "image")
        self.assertRegex(line, "^refused: 6 NoBlob: entry 1, .*/hello.*: there is no file .*image/hello")
        self.says(self.run_words("image", "--", "/x"), 125, f"image: {line}")
        os.mkdir(self.work / "image" / "hello")
        self.stand_in(b"", status=4, errors="dettrace: store fault")
        (line,) = self.lines_of(read_image, "image")
        self.assertRegex(line, "^store fault: .*image/hello.*: a folder, and no file")
        self.says(self.run_words("image", "--", "/x"), 125, f"image: {line}")

    def test_an_image_whose_name_is_no_text(self) -> None:
        name = os.fsdecode(b"image\xff")
        shutil.copytree(EXAMPLES / "hello", self.work / name)
        self.refuses(name, "image\\xff is no UTF-8, as the name of an image has to be")

    def test_a_folder_whose_name_is_no_text_is_packed(self) -> None:
        name = os.fsdecode(b"tree\xff")
        os.mkdir(self.work / name)
        self.assertEqual(self.run_words(name, "--", "/x"), Done(0, b"hello\n", []))


def digest(data: bytes) -> str:
    return hashlib.sha256(data).hexdigest()


class Inputs(RunCase):
    """The file that the program reads from standard input."""

    def setUp(self) -> None:
        super().setUp()
        self.stand_in(HELLO)
        self.write("list", b"milk\n")
        self.write("d/\u00e4 b", b"bread\n")
        os.symlink("d", self.work / "tree" / "folder")
        with tarfile.open(self.work / "tree.tar", "w") as archive:
            archive.add(self.work / "tree", ".")

    def test_a_file_of_a_folder_or_an_archive(self) -> None:
        for source in ("tree", "tree.tar"):
            for word, data in (("list", b"milk\n"), ("/list", b"milk\n"), ("./list", b"milk\n"),
                               ("d/\u00e4 b", b"bread\n"), ("/folder/../folder/\u00e4 b", b"bread\n")):
                with self.subTest(word, source=source):
                    self.stand_in(HELLO)
                    self.assertEqual(self.run_words("--stdin", word, source, "--", "/x").status, 0)
                    self.assertEqual(self.calls()[0][2:], [f"--stdin={digest(data)}", "--", "/x"])

    def test_a_file_of_an_image_is_named_as_the_program_has_it(self) -> None:
        for word in ("hello", "-x", "/list", "n" * 255):
            self.stand_in(HELLO)
            self.assertEqual(self.run_words(f"--stdin={word}", EXAMPLES / "hello", "--", "/x").status, 0)
            self.assertEqual(self.calls(), [["run", str(EXAMPLES / "hello"), f"--stdin={word}", "--", "/x"]])

    def test_each_of_several_runs_has_it_and_so_has_an_export(self) -> None:
        self.export('{"entries":[],"version":1}')
        self.assertEqual(self.run_words("--seed", "5", "--check", "3", "--stdin", "list", "--tree", "new", "tree", "--",
                                        "/x").status, 0)
        calls = self.calls()
        self.assertEqual([call[0] for call in calls], ["export", "run", "run"])
        for call in calls:
            self.assertEqual(call[call.index("--") - 1], f"--stdin={digest(b'milk' + bytes([10]))}")

    def test_what_is_no_file_there(self) -> None:
        for word, said in (
            ("lisp", "--stdin lisp: in tree nothing is at /lisp; there is /list"),
            ("no", "--stdin no: in tree nothing is at /no; / has d, folder and list"),
            ("/", "--stdin /: in tree / is a directory"),
            ("folder", "--stdin folder: in tree /d is a directory (/folder -> d)"),
            ("list/", "--stdin list/: in tree its path goes through /list, which is a file"),
            ("n" * 256, f"--stdin {'n' * 256}: in tree a name of its path has 256 bytes, more than 255"),
        ):
            with self.subTest(word):
                self.says(self.run_words("--stdin", word, "tree", "--", "/x"), 125, said)
                self.assertEqual(self.calls(), [])

    def test_an_image_whose_input_is_refused(self) -> None:
        shutil.copytree(EXAMPLES / "hello", self.work / "image")
        for word, size, kind, line in (
            ("in", None, "9 NoInput", "there is no file 'image/in'"),
            ("big", 67_108_865, "10 InputBig", "the blob has 67108865 bytes, more than 67108864"),
        ):
            if size is not None:
                (self.work / "image" / word).touch()
                os.truncate(self.work / "image" / word, size)
            self.stand_in(b"", status=3, errors=f"dettrace: image refused: {kind}")
            self.says(self.run_words("--stdin", word, "image", "--", "/x"), 125,
                      f"image: refused: {kind}: --stdin '{word}': {line}")


class Profiles(RunCase):
    """The profile of what is packed."""

    def setUp(self) -> None:
        super().setUp()
        self.stand_in(HELLO)
        self.write("list", b"milk\n")

    def version(self, *words: str) -> int:
        """The version of the image that the program was given."""
        self.assertEqual(self.run_words(*words, "--", "/x"), Done(0, b"hello\n", []))
        return read_image(self.calls()[-1][1]).version

    def archive(self, *numbers: int) -> None:
        """An archive with a character device of these numbers."""
        with tarfile.open(self.work / "tree.tar", "w") as archive:
            member = tarfile.TarInfo("dev/null")
            member.type, (member.devmajor, member.devminor) = tarfile.CHRTYPE, numbers
            archive.addfile(member)

    def test_a_folder_has_an_image_of_each(self) -> None:
        for words, version in ((("tree",), 1), (("--profile", "2", "tree"), 2), (("--profile=1", "tree"), 1),
                               (("tree", "--profile=2"), 2)):
            with self.subTest(words):
                self.assertEqual(self.version(*words), version)
        self.assertEqual(len(self.images()), 2)

    def test_an_archive_has_an_image_of_each(self) -> None:
        with tarfile.open(self.work / "tree.tar", "w") as archive:
            archive.add(self.work / "tree", ".")
        for _ in range(2):
            self.assertEqual(self.version("tree.tar"), 1)
            self.assertEqual(self.version("--profile", "2", "tree.tar"), 2)
        key = digest((self.work / "tree.tar").read_bytes())
        self.assertEqual(self.images(), [key, f"{key}.2"])

    def test_devices(self) -> None:
        self.archive(1, 3)
        self.assertEqual(self.version("--profile", "2", "tree.tar"), 2)
        self.says(self.run_words("tree.tar", "--", "/x"), 125,
                  "'/dev/null': the device null, which an image of version 1 cannot hold (--profile 2 takes it)")
        self.archive(5, 0)
        self.says(self.run_words("--profile", "2", "tree.tar", "--", "/x"), 125,
                  "'/dev/null': the character device 5:0, which an image cannot hold")

    def test_files_past_the_limit_of_the_first(self) -> None:
        os.truncate(self.work / "tree" / "list", 16_777_217)
        self.says(self.run_command("/x"), 125,
                  "'/list': it has 16777217 bytes, more than 16777216 (--profile 2 takes it)")
        self.assertEqual(self.version("--profile", "2", "tree"), 2)

    def test_an_image_has_its_own(self) -> None:
        for number in ("1", "2"):
            self.says(self.run_words("--profile", number, EXAMPLES / "hello", "--", "/x"), 125,
                      f"--profile: {EXAMPLES}/hello is an image, whose version says it: leave it out")
        self.assertEqual(self.calls(), [])


class Cache(RunCase):
    def setUp(self) -> None:
        super().setUp()
        self.stand_in(HELLO)
        self.write("bin/hello", b"abc")
        self.write("list", b"milk\n", 0o640)
        os.symlink("bin/hello", self.work / "tree" / "run")

    def run_tree(self, word: str = "tree") -> str:
        """Runs it, and answers the image that the program was given."""
        self.assertEqual(self.run_words(word, "--", "/x"), Done(0, b"hello\n", []))
        return self.calls()[-1][1]

    def test_a_folder_is_kept_under_the_digest_of_its_index(self) -> None:
        image = self.run_tree()
        with open(os.path.join(image, "image.json"), "rb") as index:
            digest = hashlib.sha256(index.read()).hexdigest()
        self.assertEqual(image, str(self.cache / "dettrace" / "images" / digest))
        packed = subprocess.run([TOOLS / "image", "pack", "tree", "other"], cwd=self.work, stdout=subprocess.DEVNULL,
                                check=True)
        self.assertEqual(packed.returncode, 0)
        self.assertEqual(sorted(os.listdir(image)), sorted(os.listdir(self.work / "other")))

    def test_a_second_run_packs_nothing(self) -> None:
        image = self.run_tree()
        before = os.stat(image)
        self.assertEqual(self.run_tree(), image)
        self.assertEqual((os.stat(image).st_ino, self.images()), (before.st_ino, [os.path.basename(image)]))

    def test_a_change_of_bytes_modes_or_links_is_another_image(self) -> None:
        images = {self.run_tree()}
        self.write("list", b"silk\n", 0o640)
        # The same size and time, as some tools leave them.
        os.utime(self.work / "tree" / "list", (0, 0))
        images.add(self.run_tree())
        os.chmod(self.work / "tree" / "list", 0o600)
        images.add(self.run_tree())
        os.remove(self.work / "tree" / "run")
        os.symlink("bin//hello", self.work / "tree" / "run")
        images.add(self.run_tree())
        self.assertEqual((len(images), len(self.images())), (4, 4))

    def test_an_archive_is_kept_under_the_digest_of_its_bytes(self) -> None:
        for name, mode in (("tree.tar", "w"), ("tree.tar.gz", "w:gz"), ("tree.tar.xz", "w:xz")):
            with self.subTest(name):
                with tarfile.open(self.work / name, mode) as archive:
                    archive.add(self.work / "tree", ".")
                digest = hashlib.sha256((self.work / name).read_bytes()).hexdigest()
                image = self.run_tree(name)
                self.assertEqual(os.path.basename(image), digest)
                before = os.stat(image).st_ino
                self.assertEqual(self.run_tree(name), image)
                self.assertEqual(os.stat(image).st_ino, before)
                self.assertEqual([entry.path for entry in read_image(image).entries],
                                 ["/bin", "/bin/hello", "/list", "/run"])

    def test_an_image_is_run_where_it_is(self) -> None:
        for word in (str(EXAMPLES / "hello"), f"{EXAMPLES}/hello/"):
            self.assertEqual(self.run_tree(word), word)
        self.assertEqual(self.images(), [])

    def test_a_kept_image_that_lost_a_part_is_packed_anew(self) -> None:
        image = self.run_tree()
        held = sorted(os.listdir(image))
        for name in held:
            os.remove(os.path.join(image, name))
            self.assertEqual(self.run_tree(), image)
            self.assertEqual(sorted(os.listdir(image)), held)
        self.assertEqual(len(self.images()), 1)

    def test_an_archive_that_changes_while_it_is_packed_is_not_kept(self) -> None:
        with tarfile.open(self.work / "tree.tar", "w") as archive:
            archive.add(self.work / "tree", ".")
        with mock.patch("runlib.cache.archive_key", side_effect=["1", "1", "2"]):
            self.says(self.run_words("tree.tar", "--", "/x"), 125,
                      "tree.tar was changed while it was packed: run it again")
        self.assertEqual(self.images(), [])

    def test_several_runs_at_a_time_pack_one_image(self) -> None:
        for number in range(200):
            self.write(f"more/{number}", b"%d" % number)
        running = [self.start("tree", "--", "/x") for _ in range(6)]
        for each in running:
            with each:
                self.assertEqual(each.communicate(timeout=60), (b"hello\n", b""))
        self.assertEqual(len(self.images()), 1)

    def test_files_of_several_names_are_told_once_and_not_where_it_is_to_be_quiet(self) -> None:
        os.link(self.work / "tree" / "list", self.work / "tree" / "other")
        said = self.image_notes()
        self.assertEqual(len(said), 1)
        self.assertRegex(said[0], "^run: .*/list.* and .*/other.* are one file there and two here$")
        self.assertEqual(self.run_words("tree", "--", "/x"), Done(0, b"hello\n", said))
        self.assertEqual(self.run_words("tree", "--", "/x"), Done(0, b"hello\n", []))
        os.link(self.work / "tree" / "list", self.work / "tree" / "third")
        self.assertEqual(self.run_words("--quiet", "tree", "--", "/x"), Done(0, b"hello\n", []))

    def image_notes(self) -> list:
        """What the tool for images says of the tree, but for the counts."""
        done = subprocess.run([TOOLS / "image", "pack", "tree", "other"], cwd=self.work, stdout=subprocess.PIPE,
                              text=True, check=True)
        return [f"run: {line}" for line in done.stdout.splitlines()[:-1]]

    def test_a_cache_that_cannot_be_made(self) -> None:
        (self.work / "file").touch()
        self.environment["XDG_CACHE_HOME"] = str(self.work / "file")
        done = self.run_words("tree", "--", "/x")
        self.assertEqual((done.status, done.out, done.err), (0, b"hello\n", [
            "run: file/dettrace/images keeps no images, so this one is not kept: Not a directory"]))
        self.assertFalse(os.path.exists(self.calls()[0][1]))

    def test_a_cache_inside_what_is_packed(self) -> None:
        self.environment["XDG_CACHE_HOME"] = str(self.work / "tree" / "cache")
        self.says(self.run_words("tree", "--", "/x"), 125,
                  "tree/cache/dettrace/images, where images are kept, lies inside tree, which is packed: "
                  "name another folder for them by XDG_CACHE_HOME")
        self.assertFalse((self.work / "tree" / "cache").exists())

    def test_where_the_cache_is(self) -> None:
        for environment, folder in (
            ({"XDG_CACHE_HOME": "/c", "HOME": "/h"}, "/c/dettrace/images"),
            ({"XDG_CACHE_HOME": "c", "HOME": "/h"}, "/h/.cache/dettrace/images"),
            ({"XDG_CACHE_HOME": "", "HOME": "/h"}, "/h/.cache/dettrace/images"),
            ({}, os.path.expanduser("~/.cache/dettrace/images")),
        ):
            with self.subTest(environment):
                self.assertEqual(cache_folder(environment), folder)


if __name__ == "__main__":
    unittest.main()
