"""The program's exports: which files they make in a folder, that equal runs give equal ones, and what is refused."""
from __future__ import annotations

import errno
import filecmp
import json
import os
import resource
import shutil
import signal
import subprocess
import unittest
from pathlib import Path
from typing import Any, Callable, Dict, List, Optional

from folder_case import (DEEP, FAULT, FolderCase, IMAGE_REFUSED, OUTPUT_FAULT, REFUSED, STORE_FAULT, USAGE,
                         WORDS_REFUSED, files_of, folder_entry, go_deep, refused, small_guest)
from hostilelib import tracing
from hostilelib.building import ROOM, Guest
from hostilelib.numbers import AT_FDCWD, CHDIR, FTRUNCATE, LINKAT, MKDIRAT, O_CREAT, O_RDWR, OPENAT, SYMLINKAT, UNLINKAT
from hostilelib.numbers import WRITE
from hostilelib.tries import file_entry, index_of
from imagelib.index import read_image
from imagelib.testing import tree_of
from program import EXAMPLES, PROGRAM
from reportlib.reader import Entry, Reader

OUT_OF_ROOM = 1000
NAMES = sorted(index.parent.name for index in EXAMPLES.glob("*/image.json"))
# Linux's calls by which a file is put, on x86-64, beside those that write.
UNLINK, RENAME, UNLINKAT_64, RENAMEAT, RENAMEAT2 = 87, 82, 263, 264, 316

needs_tracing = unittest.skipUnless(tracing.can_trace(), "processes cannot be traced here")


def index_text(*entries: Dict[str, Any]) -> bytes:
    """The index of these entries, as the program writes it."""
    value = {"version": 1, "entries": sorted(entries, key=lambda entry: entry["path"].encode())}
    return json.dumps(value, sort_keys=True, separators=(",", ":"), ensure_ascii=False).encode()


class ExportCase(FolderCase):
    """A test in a folder with an image, `img`, and an empty folder, `to`."""

    def setUp(self) -> None:
        super().setUp()
        (self.top / "to").mkdir()

    def export(self, *words: object, to: str = "to", **options: Any) -> tuple:
        """Status, output and line of an export of the image; by itself, of its program."""
        done = self.call("export", "img", to, *(words or ("--", "/p")), **options)
        return done.returncode, done.stdout, done.stderr

    def empty(self) -> None:
        shutil.rmtree(self.top / "to")
        (self.top / "to").mkdir()

    def is_refused(self, reason: str) -> None:
        """Asserts that nothing is put of the tree that the program leaves, behind the whole report."""
        self.assertEqual(self.export(), (REFUSED, self.report(), refused(reason)))
        self.assertEqual(files_of(self.top / "to"), {})


def file_held_open() -> Guest:
    """Removes `/f`, which it has open, and makes `/g`."""
    guest = small_guest()
    guest.open(b"/f")
    guest.call(UNLINKAT, AT_FDCWD, guest.text(b"/f"), 0)
    guest.expect(0)
    guest.call(OPENAT, AT_FDCWD, guest.text(b"/g"), O_RDWR | O_CREAT, 0o666)
    guest.expect(4)
    return guest


class Put(ExportCase):
    def make(self) -> None:
        self.image(file_held_open(), file_entry("/f", "f", 0o644), f=b"abc")

    def test_a_file_that_has_no_name_is_not_put(self) -> None:
        self.make()
        self.assertEqual(self.export(), (0, self.report(), b""))
        self.assertEqual(files_of(self.top / "to"), {
            "image.json": b'{"entries":[{"blob":"b4","mode":420,"path":"/g","type":"file"},'
                          b'{"blob":"b3","mode":493,"path":"/p","type":"file"}],"version":1}',
            "b3": (self.top / "img" / "p").read_bytes(), "b4": b""})

    def test_a_folder_that_has_an_index_is_left_as_it_is(self) -> None:
        self.make()
        self.export()
        before = {path: path.stat() for path in (self.top / "to").iterdir()}
        self.assertEqual(self.export(), (REFUSED, b"", refused("1 Exists")))
        self.assertEqual({path: path.stat() for path in (self.top / "to").iterdir()}, before)
        self.assertEqual(self.export(to="img"), (REFUSED, b"", refused("1 Exists")))
        (self.top / "img" / "image.json").write_text("{")
        self.assertEqual(self.export(), (IMAGE_REFUSED, b"", b"dettrace: image refused: 2 BadIndex\n"))

    def test_links_directories_letters_and_two_names_of_one_file(self) -> None:
        guest = small_guest()
        guest.call(MKDIRAT, AT_FDCWD, guest.text("/é \"\\".encode()), 0o700)
        guest.call(SYMLINKAT, guest.text(b"../\x01\n/\t"), AT_FDCWD, guest.text("/é \"\\/\x7f".encode()))
        guest.open_new(b"/new")
        guest.call(WRITE, 3, guest.text(b"abcdefgh"), 8)
        guest.call(FTRUNCATE, 3, 3)
        guest.call(LINKAT, AT_FDCWD, guest.text(b"/new"), AT_FDCWD, guest.text(b"/a"), 0)
        guest.expect(0)
        self.image(guest)
        self.assertEqual(self.export()[0], 0)
        self.assertEqual(files_of(self.top / "to"), {
            "image.json": index_text(
                file_entry("/a", "b5", 0o644), file_entry("/new", "b5", 0o644), file_entry("/p", "b2"),
                {**folder_entry("/é \"\\"), "mode": 0o700},
                {"path": "/é \"\\/\x7f", "type": "link", "target": "../\x01\n/\t"}),
            "b2": (self.top / "img" / "p").read_bytes(), "b5": b"abc"})

    def test_what_else_is_in_the_folder_stays(self) -> None:
        self.make()
        others = {"b9": b"nine", "notes": b"mine", ".b4.new": b"half of one that was killed"}
        for name, data in others.items():
            (self.top / "to" / name).write_bytes(data)
        (self.top / "to" / "b3").write_bytes(b"of one that was killed")
        self.assertEqual(self.export()[0], 0)
        left = files_of(self.top / "to")
        self.assertEqual((left["b9"], left["notes"]), (b"nine", b"mine"))
        self.assertEqual(left["b3"], (self.top / "img" / "p").read_bytes())
        self.assertEqual(sorted(left), ["b3", "b4", "b9", "image.json", "notes"])

    def test_a_run_that_ends_otherwise_leaves_its_tree_too(self) -> None:
        guest = file_held_open()
        guest.code.exit(7)
        self.image(guest, file_entry("/f", "f", 0o644), f=b"abc")
        for words, status in ((("--", "/p"), 1), (("--budget", "10", "--", "/p"), 10), (("--", "/no"), 10)):
            with self.subTest(words):
                self.empty()
                self.assertEqual(self.export(*words), (status, self.report(*words, status=status), b""))
                paths = [entry.path for entry in read_image(str(self.top / "to")).entries]
                self.assertEqual(paths, ["/g", "/p"] if status == 1 else ["/f", "/p"])

    def test_an_image_of_nothing(self) -> None:
        (self.top / "img" / "image.json").write_bytes(index_of())
        self.assertEqual(self.export("--", "/x")[0], 10)
        self.assertEqual(files_of(self.top / "to"), {"image.json": b'{"entries":[],"version":1}'})

    def test_names_of_the_folder(self) -> None:
        self.make()
        for name in ("to/", "./to", str(self.top / "to"), "ä b", "-"):
            with self.subTest(name):
                (self.top / name).mkdir(exist_ok=True)
                self.assertEqual(self.export(to=name)[0], 0)
                self.assertEqual(len(files_of(self.top / name)), 3)
                shutil.rmtree(self.top / name)


class Words(ExportCase):
    def test_words_that_are_refused(self) -> None:
        self.image(small_guest())
        for words in (("export",), ("export", "img"), ("export", "img", "to"), ("export", "img", "to", "--"),
                      ("export", "img", "to", "--", "A=1"), ("export", "img", "--", "/p"),
                      ("export", "img", "to", "to", "--", "/p"), ("export", "--", "img", "to"),
                      ("export", "img", "to", "--budget", "0", "--", "/p"), ("export", "-to", "img", "--", "/p"),
                      ("export", "img", "to", "--to", "to", "--", "/p"), ("exports", "img", "to", "--", "/p"),
                      ("run", "img", "to", "--", "/p"), ("--", "export", "img", "to", "/p"), ("export", "--help")):
            with self.subTest(words):
                done = self.call(*words)
                self.assertEqual((done.returncode, done.stdout, done.stderr), (WORDS_REFUSED, b"", USAGE))
        self.assertEqual(files_of(self.top / "to"), {})

    def test_options_stand_anywhere_before_the_dashes(self) -> None:
        self.image(small_guest())
        for words in (("export", "--seed", "7", "img", "to"), ("export", "img", "--host=3", "to", "--workers", "1"),
                      ("export", "img", "to", "--budget", "1000000")):
            with self.subTest(words):
                self.empty()
                self.assertEqual(self.call(*words, "--", "A=1", "/p", "--").returncode, 0)
                self.assertEqual(len(files_of(self.top / "to")), 2)


class Examples(ExportCase):
    """The trees that the examples leave."""

    def exported(self, name: str, to: str, *options: object) -> Path:
        shutil.rmtree(self.top / to, ignore_errors=True)
        (self.top / to).mkdir()
        words = (EXAMPLES / name / "command").read_text()
        done = subprocess.run(f'"{PROGRAM}" export "{EXAMPLES / name}" {to} {" ".join(map(str, options))} {words}',
                              shell=True, cwd=self.top, stdin=subprocess.DEVNULL, capture_output=True, check=False)
        self.assertEqual((done.stdout, done.stderr), ((EXAMPLES / name / "report").read_bytes(), b""))
        return self.top / to

    def test_equal_runs_give_equal_exports(self) -> None:
        for name in NAMES:
            with self.subTest(name):
                first, *others = [self.exported(name, f"{name}{host}", "--host", host, "--workers", workers)
                                  for host, workers in ((1, 4), (2, 1), (2**64 - 1, 3))]
                names = sorted(os.listdir(first))
                for other in others:
                    self.assertEqual(sorted(os.listdir(other)), names)
                    self.assertEqual(filecmp.cmpfiles(first, other, names, shallow=False), (names, [], []))

    def test_each_is_the_tree_that_its_report_tells(self) -> None:
        for name in NAMES:
            with self.subTest(name):
                told = [item for item in Reader().feed((EXAMPLES / name / "report").read_bytes())
                        if isinstance(item, Entry)]
                image = read_image(str(self.exported(name, "to")))
                self.assertEqual([entry.path.encode() for entry in image.entries], [entry.path for entry in told])
                again = self.call("run", "to", "--", "/nothing at all").stdout
                found = [item for item in Reader().feed(again) if isinstance(item, Entry)]
                self.assertEqual([entry._replace(inode=0, stamp=0) for entry in found],
                                 [entry._replace(inode=0, stamp=0) for entry in told])

    def test_steps_one_on_the_tree_of_the_other(self) -> None:
        compiled = self.exported("processes", "compiled")
        for number, words in enumerate((("/bin/join", "/all", "/out/poem", "/src/two"), ("/bin/show", "/all")), 1):
            (self.top / f"step{number}").mkdir()
            done = self.call("export", "compiled" if number == 1 else "step1", f"step{number}", "--", *words)
            self.assertEqual(done.returncode, 0)
        poem = (EXAMPLES / "processes" / "report").read_text().split("out 1 176\n")[1][:176]
        two = (EXAMPLES / "processes" / "two").read_text()
        self.assertIn(f"out 1 {len(poem + two)}\n{poem}{two}\n", done.stdout.decode())
        self.assertEqual(len(read_image(str(self.top / "step2")).entries), len(read_image(str(compiled)).entries) + 1)

    def test_what_was_exported_is_unpacked(self) -> None:
        self.exported("processes", "to")
        done = subprocess.run([EXAMPLES.parent / "tools" / "image", "unpack", "to", "out"], cwd=self.top, check=False)
        self.assertEqual(done.returncode, 0)
        tree = tree_of(str(self.top / "out"))
        self.assertEqual(tree["/out/three"], ("file", 0o644, b"AND AFTER MANY A SUMMER DIES THE SWAN.\n"))
        self.assertEqual(tree["/out"], ("dir", 0o755))


class Refusals(ExportCase):
    """Trees at each bound, and one past it."""

    def deep(self, act: Callable[[Guest], None]) -> None:
        """An image with the directories, and with a program that does something in the deepest."""
        guest = small_guest()
        go_deep(guest)
        act(guest)
        self.image(guest, *map(folder_entry, DEEP), file_entry("/f", "f", 0o644), f=b"")

    def test_a_path_that_is_too_long(self) -> None:
        self.deep(lambda guest: guest.open_new(b"n" * 254))
        self.assertEqual(self.export(), (0, self.report(), b""))
        self.assertEqual(max(len(entry.path) for entry in read_image(str(self.top / "to")).entries), 4095)
        self.empty()
        self.deep(lambda guest: guest.open_new(b"n" * 255))
        self.is_refused("2 LongPath")

    def test_too_many_paths(self) -> None:
        # Beside `/f` and `/p`.
        for count in (4093, 4094):
            guest = small_guest()
            guest.make_names(count, b"/f")
            guest.expect(0)
            self.image(guest, file_entry("/f", "f", 0o644), f=b"one")
            if count == 4093:
                self.assertEqual(self.export(), (0, self.report(), b""))
                self.assertEqual(len(read_image(str(self.top / "to")).entries), 4095)
                self.assertEqual(sorted(os.listdir(self.top / "to")), ["b2", "b3", "image.json"])
                self.empty()
            else:
                self.is_refused("3 TooMany")

    def test_paths_and_targets_that_are_no_text(self) -> None:
        for path, target in ((b"/\xff", b"t"), (b"/t", b"\xc0\xaf")):
            guest = small_guest()
            guest.call(SYMLINKAT, guest.text(target), AT_FDCWD, guest.text(path))
            guest.expect(0)
            self.image(guest)
            self.is_refused("4 NotText")

    def index_of_names(self, deep: int, flat: int, last: str) -> bytes:
        """The index of the tree that has so many more names of a file in the deepest directory and in the root, and one
        more in the root."""
        names = ["".join(chr(ord("a") + (number >> 4 * place & 15)) for place in range(8))
                 for number in range(1, deep + 1)]
        paths = [f"{DEEP[-1]}/{name}" for name in names] + [f"/{name}" for name in [*names[:flat], last, "f"]]
        # The directories come first, and then the file and the program.
        blobs = [f"b{len(DEEP) + 2}", f"b{len(DEEP) + 3}"]
        return index_text(*map(folder_entry, DEEP), *(file_entry(path, blobs[0], 0o644) for path in paths),
                          file_entry("/p", blobs[1]))

    def test_an_index_that_is_too_long(self) -> None:
        limit, one = 4_194_304, len(self.index_of_names(1, 1, "z"))
        deep_size, flat_size = len(self.index_of_names(2, 1, "z")) - one, len(self.index_of_names(2, 2, "z")) - len(
            self.index_of_names(2, 1, "z"))
        deep, rest = 1 + (limit - one) // deep_size, (limit - one) % deep_size
        flat, rest = 1 + rest // flat_size, rest % flat_size
        for last in ("z" * (1 + rest), "z" * (2 + rest)):
            def act(guest: Guest) -> None:
                guest.make_names(deep, b"/f")
                guest.call(CHDIR, guest.text(b"/"))
                guest.make_names(flat, b"/f")
                guest.call(LINKAT, AT_FDCWD, guest.text(b"/f"), AT_FDCWD, guest.text(last.encode()), 0)
                guest.expect(0)

            self.deep(act)
            wanted = self.index_of_names(deep, flat, last)
            if len(wanted) == limit:
                self.assertEqual(self.export(), (0, self.report(), b""))
                self.assertEqual((self.top / "to" / "image.json").read_bytes(), wanted)
                self.assertEqual(len(read_image(str(self.top / "to")).entries), len(DEEP) + deep + flat + 3)
                self.empty()
            else:
                self.assertEqual(len(wanted), limit + 1)
                self.is_refused("5 BigIndex")

    def test_the_first_of_several(self) -> None:
        def act(guest: Guest) -> None:
            guest.call(SYMLINKAT, guest.text(b"\xff"), AT_FDCWD, guest.text(b"/a"))
            guest.make_names(4093, b"/f")

        guest = small_guest()
        act(guest)
        self.image(guest, file_entry("/f", "f", 0o644), f=b"")
        self.is_refused("3 TooMany")
        self.deep(lambda guest: (act(guest), guest.open_new(b"n" * 255)))
        self.is_refused("2 LongPath")
        shutil.rmtree(self.top / "to")
        self.assertEqual(self.export(), (REFUSED, self.report(), refused("2 LongPath")))


class Faults(ExportCase):
    """Folders that cannot be written, or not to the end."""

    def setUp(self) -> None:
        super().setUp()
        guest = small_guest()
        guest.open_new(b"/new")
        guest.call(WRITE, 3, ROOM, OUT_OF_ROOM * 2)
        self.image(guest, file_entry("/a", "a"), a=b"x" * 100)

    def test_a_folder_that_is_not_there(self) -> None:
        shutil.rmtree(self.top / "to")
        self.assertEqual(self.export(), (STORE_FAULT, self.report(), FAULT))
        self.assertFalse((self.top / "to").exists())

    def test_what_is_no_folder_is_found_before_the_run(self) -> None:
        (self.top / "file").touch()
        (self.top / "to" / "image.json").mkdir()
        for name in ("file", "to", "image.json" * 30):
            self.assertEqual(self.export(to=name), (STORE_FAULT, b"", FAULT))
        (self.top / "to" / "image.json").rmdir()
        (self.top / "to" / "b2").mkdir()
        self.assertEqual(self.export(), (STORE_FAULT, self.report(), FAULT))
        self.assertEqual(os.listdir(self.top / "to"), ["b2"])

    @unittest.skipIf(os.geteuid() == 0, "root may write everywhere")
    def test_a_folder_that_may_not_be_written(self) -> None:
        (self.top / "to").chmod(0o500)
        self.assertEqual(self.export(), (STORE_FAULT, self.report(), FAULT))
        self.assertEqual(files_of(self.top / "to"), {})

    def test_no_room_for_a_file(self) -> None:
        def limit() -> None:
            signal.signal(signal.SIGXFSZ, signal.SIG_IGN)
            resource.setrlimit(resource.RLIMIT_FSIZE, (OUT_OF_ROOM, OUT_OF_ROOM))

        self.assertEqual(self.export(preexec_fn=limit), (STORE_FAULT, self.report(), FAULT))
        self.assertEqual(sorted(files_of(self.top / "to")), ["b2", "b3"])
        # With room it goes on from there.
        self.assertEqual(self.export()[0], 0)
        self.assertEqual(sorted(files_of(self.top / "to")), ["b2", "b3", "b4", "image.json"])

    def test_an_output_that_fails_leaves_nothing(self) -> None:
        with open("/dev/full", "wb") as full:
            done = subprocess.run([PROGRAM, "export", "img", "to", "--", "/p"], cwd=self.top, stdout=full,
                                  stderr=subprocess.PIPE, check=False)
        self.assertEqual((done.returncode, done.stderr), (OUTPUT_FAULT, b"dettrace: output fault\n"))
        self.assertEqual(files_of(self.top / "to"), {})


@needs_tracing
class Traced(ExportCase):
    """Each call of the machine by which a folder is written fails once."""

    PUTS = (*tracing.OPENS, *tracing.WRITES, UNLINK, RENAME, UNLINKAT_64, RENAMEAT, RENAMEAT2)
    WORDS = ("export", "img", "to", "--host", "1", "--workers", "1", "--", "/p")

    def setUp(self) -> None:
        super().setUp()
        self.image(file_held_open(), file_entry("/f", "f", 0o644), f=b"abc")
        self.whole = self.report()
        self.calls = self.trace(lambda call: None)[1]
        self.wanted = files_of(self.top / "to")
        # The report is written before anything is put.
        self.start = 1 + max(call.place for call in self.calls
                             if call.number in tracing.WRITES and call.arguments[0] == 1)

    def trace(self, act: Callable[[tracing.Call], Optional[int]]) -> tuple:
        self.empty()
        with open(self.top / "out", "w+b") as out, open(self.top / "err", "w+b") as err, open(os.devnull, "rb") as null:
            ended = tracing.run([str(PROGRAM), *self.WORDS], self.top, act,
                                [null.fileno(), out.fileno(), err.fileno()])
        return ended.status, ended.calls

    def puts(self) -> List[tracing.Call]:
        return [call for call in self.calls[self.start:] if call.number in self.PUTS]

    def test_each_call_that_fails(self) -> None:
        self.assertEqual(len([call for call in self.puts() if call.number in (RENAME, RENAMEAT, RENAMEAT2)]), 3)
        for number in (errno.EIO, errno.ENOSPC, errno.EACCES, errno.EINTR):
            for put in self.puts():
                with self.subTest(errno.errorcode[number], place=put.place):
                    status, _ = self.trace(lambda call: -number if call.place == put.place else None)
                    self.is_as_it_may_be(status)

    def is_as_it_may_be(self, status: int) -> None:
        """All is there, or the status says that something is not; and no name has half of a file."""
        self.assertEqual((self.top / "out").read_bytes(), self.whole)
        left = files_of(self.top / "to")
        if status == 0:
            self.assertEqual((left, (self.top / "err").read_bytes()), (self.wanted, b""))
            return
        self.assertEqual((status, (self.top / "err").read_bytes()), (STORE_FAULT, FAULT))
        self.assertNotIn("image.json", left)
        for name, data in left.items():
            self.assertEqual(data, self.wanted[name])

    def test_writes_of_one_byte_each(self) -> None:
        status, _ = self.trace(lambda call: tracing.ONE if call.place >= self.start and call.number in tracing.WRITES
                               else None)
        self.assertEqual((status, files_of(self.top / "to")), (0, self.wanted))

    def test_a_write_that_takes_nothing(self) -> None:
        for put in self.puts():
            if put.number in tracing.WRITES:
                status, _ = self.trace(lambda call: 0 if call.place == put.place else None)
                self.is_as_it_may_be(status)


if __name__ == "__main__":
    unittest.main()
