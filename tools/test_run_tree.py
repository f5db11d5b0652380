"""The options --tree and --take of tools/run: the folders that they make of the tree which a run leaves."""
from __future__ import annotations

import os
import signal
import tempfile
import time
import unittest
from pathlib import Path
from typing import Dict, List
from unittest import mock

from imagelib.testing import tree_of
from runlib.testing import ENDED, HELLO, Done, RunCase, out, report

# A tree as the program exports it: two names of one file, a link to a directory, and one to nothing.
INDEX = ('{"entries":[{"mode":493,"path":"/bin","type":"dir"},'
         '{"blob":"b3","mode":493,"path":"/bin/hello","type":"file"},'
         '{"path":"/last","target":"out/one","type":"link"},{"mode":448,"path":"/out","type":"dir"},'
         '{"mode":493,"path":"/out/one","type":"dir"},'
         '{"blob":"b8","mode":420,"path":"/out/one/ä \\"x\\"","type":"file"},'
         '{"blob":"b8","mode":420,"path":"/out/two","type":"file"},{"path":"/out/up","target":"../bin","type":"link"}],'
         '"version":1}')
BLOBS = {"b3": b"\x7fELF", "b8": b"made\n"}
ONE = {'/ä "x"': ("file", 0o644, b"made\n")}
OUT = {"/one": ("dir", 0o755), **{f"/one{path}": node for path, node in ONE.items()},
       "/two": ("file", 0o644, b"made\n"), "/up": ("link", "../bin")}
ALL = {"/bin": ("dir", 0o755), "/bin/hello": ("file", 0o755, b"\x7fELF"), "/last": ("link", "out/one"),
       "/out": ("dir", 0o700), **{f"/out{path}": node for path, node in OUT.items()}}
FAILED_ITSELF = report(b"exit 1 code 7\n")
SECONDS = 30


class TreeCase(RunCase):
    def setUp(self) -> None:
        super().setUp()
        # Python looks at TMPDIR once.
        patched = mock.patch.object(tempfile, "tempdir", str(self.temporary()))
        patched.start()
        self.addCleanup(patched.stop)
        self.stand_in(HELLO)
        self.export(INDEX, **BLOBS)

    def made(self, name: str) -> Dict[str, tuple]:
        place = self.work / name
        self.assertEqual(place.stat().st_mode & 0o7777, 0o755)
        return tree_of(str(place))

    def left_in_work(self) -> List[str]:
        """What there is beside the tree, where nothing of the tool's own may be left."""
        self.assertEqual(os.listdir(self.temporary()), [])
        return sorted(set(os.listdir(self.work)) - {"tree"})


class Folders(TreeCase):
    def test_the_whole_tree(self) -> None:
        self.assertEqual(self.run_words("--tree", "new", "tree", "--", "/x"), Done(0, b"hello\n", []))
        self.assertEqual(self.made("new"), ALL)
        self.assertEqual(self.left_in_work(), ["new"])
        ((form, _, to, *rest),) = self.calls()
        self.assertEqual((form, Path(to).parent, rest), ("export", self.temporary(), ["--", "/x"]))

    def test_what_is_below_a_path(self) -> None:
        for path, wanted in (("/out", OUT), ("/out/", OUT), ("out", OUT), ("/bin/../out/.", OUT), ("/out/one", ONE),
                             ("/last", ONE), ("/out/up", {"/hello": ("file", 0o755, b"\x7fELF")}), ("/", ALL)):
            with self.subTest(path):
                done = self.run_words("--take", f"{path}=a=b", "tree", "--", "/x")
                self.assertEqual(done, Done(0, b"hello\n", []))
                self.assertEqual(self.made("a=b"), wanted)
                self.assertEqual(self.left_in_work(), ["a=b"])
                os.rename(self.work / "a=b", self.top / f"made{path.replace('/', '-')}")

    def test_several_folders_of_one_run_beside_its_other_options(self) -> None:
        done = self.run_words("--take=/bin=one", "--seed", "5", "--tree=all", "--report", "kept", "--take", "/out=two",
                              "tree", "--", "A=b", "/x", "--tree")
        self.assertEqual(done, Done(0, b"hello\n", []))
        self.assertEqual((self.made("all"), self.made("two")), (ALL, OUT))
        self.assertEqual((self.work / "kept").read_bytes(), HELLO)
        self.assertEqual(self.left_in_work(), ["all", "kept", "one", "two"])
        ((form, _, _, *rest),) = self.calls()
        self.assertEqual((form, rest), ("export", ["--seed", "5", "--", "A=b", "/x", "--tree"]))

    def test_an_empty_folder_is_replaced(self) -> None:
        (self.work / "empty").mkdir(0o700)
        (self.work / "link").symlink_to("empty")
        self.assertEqual(self.run_words("--tree", "link/", "tree", "--", "/x"), Done(0, b"hello\n", []))
        self.assertEqual(self.made("empty"), ALL)

    def test_the_tree_is_that_of_the_first_of_several_runs(self) -> None:
        done = self.run_words("--check", "3", "--quiet", "--tree", "new", "tree", "--", "/x")
        self.assertEqual(done, Done(0, b"hello\n", []))
        self.assertEqual([call[0] for call in self.calls()], ["export", "run", "run"])
        self.assertEqual(self.made("new"), ALL)
        self.stand_in(HELLO, report(out(1, b"hallo\n"), ENDED))
        done = self.run_words("--twice", "--tree", "other", "tree", "--", "/x")
        self.assertEqual((done.status, self.made("other")), (203, ALL))

    def test_a_run_that_ends_otherwise_leaves_its_tree_too(self) -> None:
        for number, (text, status, code) in enumerate((
                (FAILED_ITSELF, 1, 7), (report(b"exit 1 signal 15\n"), 1, 143), (report(verdict="budget"), 10, 201),
                (report(verdict="nostart 2"), 10, 127))):
            with self.subTest(code):
                self.stand_in(text, status=status)
                done = self.run_words("--quiet", "--tree", f"new{number}", "tree", "--", "/x")
                self.assertEqual((done.status, self.made(f"new{number}")), (code, ALL))

    def test_without_these_options_nothing_is_exported(self) -> None:
        self.assertEqual(self.run_command("/x"), Done(0, b"hello\n", []))
        self.assertEqual(self.calls()[0][0], "run")

    def test_a_reader_that_has_gone_leaves_the_run_its_end(self) -> None:
        reader, writer = os.pipe()
        os.close(reader)
        done = self.run_words("--tree", "new", "tree", "--", "/x", stdout=writer)
        os.close(writer)
        self.assertEqual(done, Done(125, b"", []))
        self.assertEqual(self.made("new"), ALL)


class Refused(TreeCase):
    """What is said before anything is run."""

    def refuses(self, *cases: tuple) -> None:
        before = self.left_in_work()
        for words, line in cases:
            with self.subTest(words):
                self.says(self.run_words(*words, "tree", "--", "/x"), 125, line)
                self.assertEqual(self.left_in_work(), before)
        self.assertEqual(self.calls(), [])

    def test_words(self) -> None:
        self.refuses(
            (("--tree", ""), "--tree: the name of the folder is empty"),
            (("--tree", "a", "--tree", "b"), "--tree stands twice"),
            (("--take", "/out"), "--take /out: write PATH=FOLDER, as --take /bin=FOLDER"),
            (("--take", "=a"), "--take =a: the path is empty; --tree FOLDER makes a folder of the whole tree"),
            (("--take=/out=",), "--take /out=: the name of the folder is empty"),
            (("--take", os.fsdecode(b"/\xff=a")),
             "--take /\\xff=a: the path is no UTF-8, as all paths of an image are"),
            (("--take", f"/{'n' * 4095}=a"), "--take: the path has 4096 bytes, more than 4095"))
        done = self.run_words("tree", "--take", "--", "/x")
        self.says(done, 125, "--take: PATH=FOLDER is missing behind it")

    def test_folders(self) -> None:
        (self.work / "full").mkdir()
        (self.work / "full" / "file").touch()
        (self.work / "empty").mkdir()
        self.refuses(
            (("--tree", "full"), "--tree: 'full' is not empty: name a folder that is, or that isn't there"),
            (("--take", "/out=full"), "--take /out: 'full' is not empty: name a folder that is, or that isn't there"),
            (("--tree", "full/file"), "--tree: 'full/file' exists already: name a folder that doesn't"),
            (("--tree", "none/new"), "--tree: 'none/new' cannot be made: there is no folder 'none'"),
            (("--tree", "tree/new"), "--tree: tree/new lies inside tree, which is packed: name another folder"),
            (("--tree", "empty", "--report", "empty/r"),
             "--tree: empty would hold empty/r too, the report: name another folder"),
            (("--take", "/=a", "--take", "/bin=./a"),
             "--take /bin: ./a and a, which --take / makes, are not apart: name another folder"),
            (("--tree", "empty", "--take", "/bin=empty/bin"),
             "--take /bin: empty/bin and empty, which --tree makes, are not apart: name another folder"))

    def test_a_folder_inside_an_image(self) -> None:
        self.export(INDEX, **BLOBS)
        os.rename(self.folder / "exported", self.work / "image")
        self.says(self.run_words("--tree", "image/new", "image", "--", "/x"), 125,
                  "--tree: image/new lies inside image, which is only read: name another folder")


class NotThere(TreeCase):
    """What is said after a run whose tree is another than was thought."""

    def test_a_path_that_leads_to_no_directory(self) -> None:
        for path, line in (
            ("/no", "nothing is at /no; / has bin, last and out"),
            ("/out/no/x", "nothing is at /out/no; /out has one, two and up"),
            ("/hello", "nothing is at /hello; there is /bin/hello"),
            ("/bin/hello", "/bin/hello is a file: name the directory that it is in"),
            ("/bin/hello/x", "its path goes through /bin/hello, which is a file"),
            ("/bin/hello/", "its path goes through /bin/hello, which is a file"),
        ):
            with self.subTest(path):
                done = self.run_words("--take", f"{path}=new", "tree", "--", "/x")
                self.assertEqual(done, Done(125, b"hello\n", [f"run: --take {path}: in the tree at the end {line}"]))
                self.assertEqual(self.left_in_work(), [])

    def test_the_other_folders_are_made_and_the_report_is_kept(self) -> None:
        done = self.run_words("--take", "/no=a", "--report", "kept", "--take", "/out=b", "tree", "--", "/x")
        self.assertEqual((done.status, len(done.err)), (125, 1))
        self.assertEqual((self.made("b"), (self.work / "kept").read_bytes()), (OUT, HELLO))
        self.assertEqual(self.left_in_work(), ["b", "kept"])

    def test_the_code_of_a_program_that_failed_itself_comes_first(self) -> None:
        self.stand_in(FAILED_ITSELF, status=1)
        done = self.run_words("--take", "/no=a", "tree", "--", "/x")
        self.assertEqual((done.status, len(done.err)), (7, 1))

    def test_a_tree_that_no_image_can_hold(self) -> None:
        for name, line in (("2 LongPath", "a path has more than 4095 bytes"),
                           ("3 TooMany", "there are more than 4095 paths"),
                           ("4 NotText", "a path or the target of a link is no UTF-8"),
                           ("5 BigIndex", "its index would have more than 4194304 bytes"),
                           ("9 New", "dettrace: export refused: 9 New")):
            with self.subTest(name):
                self.stand_in(HELLO, status=8, errors=f"dettrace: export refused: {name}\n")
                done = self.run_words("--report", "kept", "--tree", "a", "--take", "/b=b", "tree", "--", "/x")
                said = f"no image can hold the tree at the end: {line}"
                self.assertEqual(done, Done(125, b"hello\n", [f"run: --tree: {said}", f"run: --take /b: {said}"]))
                self.assertEqual((self.work / "kept").read_bytes(), HELLO)
                self.assertEqual(self.left_in_work(), ["kept"])
        self.stand_in(FAILED_ITSELF, status=8, errors="dettrace: export refused: 4 NotText\n")
        self.assertEqual(self.run_words("--tree", "a", "tree", "--", "/x").status, 7)

    def test_a_disk_that_is_full_while_the_tree_is_exported(self) -> None:
        self.stand_in(HELLO, status=4, errors="dettrace: store fault\n")
        done = self.run_words("--tree", "a", "tree", "--", "/x")
        self.assertEqual(done, Done(125, b"hello\n", [
            "run: --tree: dettrace could not write the tree to a folder in tmp: is the disk full? TMPDIR names another "
            "place"]))

    def test_a_program_without_exports_and_a_report_that_is_cut(self) -> None:
        self.stand_in(b"", status=2, errors="dettrace: usage: x")
        done = self.run_words("--tree", "a", "tree", "--", "/x")
        self.says(done, 125, "stand-in/dettrace refuses these words: is it of the same version as this tool? "
                             "dettrace: usage: x")
        for status in (4, 8):
            self.stand_in(HELLO[:-1], status=status)
            self.assertEqual(self.run_words("--quiet", "--tree", "a", "tree", "--", "/x").status, 125)
        self.assertEqual(self.left_in_work(), [])

    def test_what_was_exported_is_no_image(self) -> None:
        self.export('{"entries":[]}')
        done = self.run_words("--tree", "a", "tree", "--", "/x")
        self.assertEqual((done.status, done.out, self.left_in_work()), (125, b"hello\n", []))
        self.assertEqual(done.err, ["run: --tree: refused: 2 BadIndex: image.json: the member `version` is missing"])

    def test_a_place_that_is_taken_during_the_run_is_kept(self) -> None:
        self.stand_in(HELLO, more=f"mkdir {self.work}/new; echo mine >{self.work}/new/file")
        done = self.run_words("--tree", "new", "tree", "--", "/x")
        self.assertEqual((done.status, done.out, len(done.err)), (125, b"hello\n", 1))
        self.assertEqual(tree_of(str(self.work / "new")), {"/file": ("file", 0o644, b"mine\n")})
        self.assertEqual(self.left_in_work(), ["new"])


class Devices(TreeCase):
    """The tree that a run on an image of version 2 leaves."""

    def setUp(self) -> None:
        super().setUp()
        self.export('{"entries":[{"mode":493,"path":"/dev","type":"dir"},{"device":"null","mode":438,'
                    '"path":"/dev/null","type":"dev"}],"version":2}')

    def test_they_are_made_by_root_and_named_for_anybody_else(self) -> None:
        with mock.patch("imagelib.unpack.os.mknod", side_effect=PermissionError(1, "not permitted")):
            done = self.run_words("--tree", "new", "tree", "--", "/x")
        self.assertEqual(done, Done(125, b"hello\n", [
            "run: --tree: '/dev/null': the device null, which only root can make"]))
        self.assertEqual(self.left_in_work(), [])
        if os.geteuid() == 0:
            self.assertEqual(self.run_words("--take", "dev=new", "tree", "--", "/x"), Done(0, b"hello\n", []))
            self.assertEqual(self.made("new"), {"/null": ("dev", 0o666, (1, 3))})

    def test_paths_of_devices(self) -> None:
        for path, line in (("/dev/null", "/dev/null is a device: name the directory that it is in"),
                           ("/dev/null/x", "its path goes through /dev/null, which is a device")):
            done = self.run_words("--take", f"{path}=new", "tree", "--", "/x")
            self.assertEqual(done, Done(125, b"hello\n", [f"run: --take {path}: in the tree at the end {line}"]))


class Stops(TreeCase):
    def test_a_signal_during_the_run_leaves_no_folder(self) -> None:
        self.stand_in(b"", more="printf 'dettrace 1\\nout 1 6\\nfir'; exec sleep 100")
        for number, status in ((signal.SIGINT, 130), (signal.SIGTERM, 143)):
            with self.start("--tree", "new", "tree", "--", "/x") as running:
                self.assertEqual(os.read(running.stdout.fileno(), 100), b"fir")
                running.send_signal(number)
                self.assertEqual(running.communicate(timeout=SECONDS), (b"", b""))
            self.assertEqual(running.returncode, status)
            self.assertEqual(self.left_in_work(), [])

    def test_a_signal_while_the_folder_is_made(self) -> None:
        entries = ",".join(f'{{"blob":"b1","mode":420,"path":"/f{number:04}","type":"file"}}' for number in range(4000))
        self.export(f'{{"entries":[{entries}],"version":1}}', b1=b"x" * 65536)
        for wait in (0.1, 0.4):
            with self.start("--tree", "new", "tree", "--", "/x") as running:
                self.assertEqual(os.read(running.stdout.fileno(), 100), b"hello\n")
                time.sleep(wait)
                running.send_signal(signal.SIGTERM)
                running.communicate(timeout=SECONDS)
            if running.returncode == 143:
                self.assertEqual(self.left_in_work(), [])
            else:
                # All was done before the signal came.
                self.assertEqual((running.returncode, len(self.made("new"))), (0, 4000))
                os.rename(self.work / "new", self.top / f"new{wait}")


if __name__ == "__main__":
    unittest.main()
