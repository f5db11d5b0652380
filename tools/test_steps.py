"""Steps: that their reports are those of exports made one after the other, where they stop, and what is refused."""
from __future__ import annotations

import hashlib
import json
import os
import resource
import shutil
import signal
import subprocess
import unittest
from typing import Any, Callable, Dict, List, Sequence

from folder_case import (DEEP, FAULT, FolderCase, IMAGE_REFUSED, OUTPUT_FAULT, REFUSED, STORE_FAULT, USAGE,
                         WORDS_REFUSED, files_of, folder_entry, go_deep, refused, small_guest)
from hostilelib.building import Guest
from hostilelib.numbers import AT_FDCWD, LINKAT, SYMLINKAT
from hostilelib.tries import file_entry
from program import EXAMPLES, PROGRAM

HELLO = (EXAMPLES / "hello" / "report").read_bytes()
HELLO_FILE = (EXAMPLES / "hello" / "hello").read_bytes()
BAD_STEPS = b"dettrace: image refused: 11 BadSteps\n"
STEP_LIMIT, SIZE_LIMIT = 64, 4_194_304
# What comes of a program that is not there, on the image of `hello`.
NOT_THERE = b"dettrace 1\nverdict nostart 2\n" + HELLO.split(b"verdict ended\n")[1]

Step = Dict[str, Any]


def step(*args: str, **members: Any) -> Step:
    return {"args": list(args), **members}


def joined(reports: Sequence[bytes]) -> bytes:
    """What is written of steps that have these reports."""
    return b"".join(b"step %d\n%b" % (number, report) for number, report in enumerate(reports, 1))


def file_line(inode: int, mode: int, data: bytes, path: str) -> bytes:
    """The line of a file that nothing has changed since the image."""
    return f"file {inode} {mode:04o} 0 {len(data)} {hashlib.sha256(data).hexdigest()} {path}\n".encode()


def hello_on(*lines: bytes) -> bytes:
    """The report of `/hello` on an image of which the report has these lines."""
    return HELLO.split(b"tree ")[0] + b"tree %d\n" % len(lines) + b"".join(lines)


class StepsCase(FolderCase):
    """A test whose image has a file of steps, `list`."""

    def example(self, name: str) -> None:
        shutil.rmtree(self.top / "img")
        shutil.copytree(EXAMPLES / name, self.top / "img")

    def beside_hello(self, guest: Guest, *entries: Dict[str, Any], **blobs: bytes) -> None:
        """An image of the program `/p`, of `/hello`, and of what else there is."""
        self.image(guest, file_entry("/hello", "hello"), *entries, hello=HELLO_FILE, **blobs)

    def lists(self, *steps: Step) -> None:
        self.put(json.dumps(steps).encode())

    def put(self, data: bytes, name: str = "list") -> None:
        (self.top / "img" / name).write_bytes(data)

    def steps(self, *words: object, file: str = "list", **options: Any) -> tuple:
        """Status, output and line of the steps that a file lists."""
        done = self.call("steps", "img", file, *words, **options)
        return done.returncode, done.stdout, done.stderr

    def chain(self, *steps: Step, words: Sequence[str] = ()) -> List[bytes]:
        """The reports of the same commands, each exported to the folder on which the next one is run."""
        reports, image = [], "img"
        for number, one in enumerate(steps, 1):
            shutil.rmtree(self.top / f"to{number}", ignore_errors=True)
            (self.top / f"to{number}").mkdir()
            done = self.call("export", image, f"to{number}", *words, "--", *one.get("env", []), *one["args"])
            self.assertEqual((done.returncode, done.stderr), (0, b""))
            reports.append(done.stdout)
            image = f"to{number}"
        return reports

    def is_chain(self, *steps: Step, words: Sequence[str] = ()) -> List[bytes]:
        """Asserts that the steps have the reports of the chain, and gives these."""
        self.lists(*steps)
        reports = self.chain(*steps, words=words)
        self.assertEqual(self.steps(*words), (0, joined(reports), b""))
        return reports


class Reports(StepsCase):
    BUILD = (step("/make"), step("/bin/join", "/all", "/out/poem", "/src/link"), step("/bin/show", "/all", env=["A=1"]))

    def test_one_step_and_two_that_are_the_same(self) -> None:
        self.example("hello")
        for count in (1, 2):
            self.lists(*[step("/hello")] * count)
            self.assertEqual(self.steps(), (0, joined([HELLO] * count), b""))

    def test_a_build_has_the_reports_of_exports(self) -> None:
        self.example("processes")
        first, _, last = self.is_chain(*self.BUILD)
        self.assertEqual(first, (EXAMPLES / "processes" / "report").read_bytes())
        poem = first.split(b"out 1 176\n")[1][:176]
        link = (EXAMPLES / "processes" / "link").read_bytes()
        self.assertTrue(last.startswith(b"dettrace 1\nout 1 %d\n%b\nexit 1 code 0\n" % (len(poem + link), poem + link)))

    def test_neither_hosts_nor_workers_show(self) -> None:
        self.example("processes")
        self.lists(*self.BUILD)
        whole = self.steps()
        self.assertEqual(whole[0], 0)
        for words in ((), ("--host", 1, "--workers", 4), ("--host", 2, "--workers", 1),
                      ("--host", 2**64 - 1, "--workers", 3)):
            with self.subTest(words):
                self.assertEqual(self.steps(*words), whole)

    def test_each_step_has_the_seed(self) -> None:
        self.example("race")
        seeded = self.is_chain(step("/race"), step("/race"), words=("--seed", "1"))
        self.assertNotEqual(seeded[0], (EXAMPLES / "race" / "report").read_bytes())

    def test_each_step_has_the_whole_budget(self) -> None:
        self.example("hello")
        self.is_chain(step("/hello"), step("/hello", "x"), step("/hello", "y"), words=("--budget", "9"))

    def test_a_step_that_comes_again(self) -> None:
        self.example("processes")
        made, again, third = self.is_chain(*[step("/bin/join", "/a", "/src/two")] * 3)
        self.assertNotEqual(made, again)
        self.assertEqual(again, third)

    def test_arguments_and_environment(self) -> None:
        self.example("start")
        self.is_chain(step("/start", "one", "", "é", env=["A=1", "_b=x=y", "C="]), step("/start", env=[]))

    def test_a_program_may_look_like_a_variable(self) -> None:
        self.example("hello")
        for program in ("A=1", "", "hello=/hello"):
            self.lists(step(program, "/hello"))
            self.assertEqual(self.steps(), (10, joined([NOT_THERE]), b""))

    def test_nothing_is_written_into_a_folder(self) -> None:
        self.example("processes")
        self.lists(*self.BUILD)
        before = files_of(self.top / "img")
        self.assertEqual(self.steps()[0], 0)
        self.assertEqual((os.listdir(self.top), files_of(self.top / "img")), (["img"], before))


class Ends(StepsCase):
    """Where steps stop."""

    def test_a_step_that_ends_otherwise_is_the_last(self) -> None:
        self.example("hello")
        self.lists(step("/hello"), step("/nothere"), step("/hello"))
        self.assertEqual(self.steps(), (10, joined([HELLO, NOT_THERE]), b""))
        self.lists(step("/hello"), step("/hello"))
        whole = self.report("--budget", "8", "--", "/hello", status=10)
        self.assertEqual(self.steps("--budget", "8"), (10, joined([whole]), b""))

    def test_a_code_that_is_not_0(self) -> None:
        self.example("processes")
        made, = self.chain(step("/bin/compile", "/src/one", "/one"))
        self.lists(step("/bin/compile", "/src/one", "/one"), step("/bin/show"), step("/bin/show", "/one"))
        failed = self.call("run", "to1", "--", "/bin/show")
        self.assertTrue(failed.stdout.startswith(b"dettrace 1\nexit 1 code 2\nverdict ended\n"))
        self.assertEqual(self.steps(), (1, joined([made, failed.stdout]), b""))

    def is_bound(self, make: Callable[[bool], None], reason: str) -> None:
        """Asserts that the tree of the program is an image where it is at a bound, and none where it is past it, which
        is told where another step is to come."""
        for is_past in (False, True):
            make(is_past)
            self.lists(step("/p"))
            self.assertEqual(self.steps(), (0, joined([self.report()]), b""))
            self.lists(step("/p"), step("/hello"), step("/hello"))
            if is_past:
                self.assertEqual(self.steps(), (REFUSED, joined([self.report()]), refused(reason)))
            else:
                self.is_chain(step("/p"), step("/hello"), step("/hello"))

    def test_a_path_that_is_too_long(self) -> None:
        def make(is_past: bool) -> None:
            guest = small_guest()
            go_deep(guest)
            guest.open_new(b"n" * (255 if is_past else 254))
            self.beside_hello(guest, *map(folder_entry, DEEP))

        self.is_bound(make, "2 LongPath")

    def test_too_many_paths(self) -> None:
        def make(is_past: bool) -> None:
            guest = small_guest()
            # Beside `/f`, `/hello` and `/p`.
            guest.make_names(4093 if is_past else 4092, b"/f")
            guest.expect(0)
            self.beside_hello(guest, file_entry("/f", "f", 0o644), f=b"one")

        self.is_bound(make, "3 TooMany")

    def test_a_step_that_fails_is_told_before_its_tree_is_refused(self) -> None:
        guest = small_guest()
        guest.make_names(4093, b"/f")
        guest.code.exit(7)
        self.beside_hello(guest, file_entry("/f", "f", 0o644), f=b"one")
        self.lists(step("/p"), step("/hello"))
        self.assertEqual(self.steps(), (1, joined([self.report(status=1)]), b""))

    def test_names_that_are_no_text_and_two_names_of_one_file(self) -> None:
        guest = small_guest()
        guest.call(SYMLINKAT, guest.text(b"\xc0"), AT_FDCWD, guest.text(b"/\xff"))
        guest.call(LINKAT, AT_FDCWD, guest.text(b"/f"), AT_FDCWD, guest.text(b"/a"), 0)
        guest.expect(0)
        self.beside_hello(guest, file_entry("/f", "f", 0o600), f=b"abc")
        program = (self.top / "img" / "p").read_bytes()
        self.lists(step("/p"), step("/hello"))
        left = hello_on(file_line(2, 0o600, b"abc", "/a"), file_line(3, 0o600, b"abc", "/f"),
                        file_line(4, 0o755, HELLO_FILE, "/hello"), file_line(5, 0o755, program, "/p"),
                        b"link 6 0 /%FF %C0\n")
        self.assertEqual(self.steps(), (0, joined([self.report(), left]), b""))


class Files(StepsCase):
    """Files of steps that are taken, and that are refused."""

    def setUp(self) -> None:
        super().setUp()
        self.example("hello")

    def is_refused(self, file: str = "list") -> None:
        self.assertEqual(self.steps(file=file), (IMAGE_REFUSED, b"", BAD_STEPS))

    def test_as_many_steps_as_a_file_may_list_and_one_more(self) -> None:
        self.lists(*[step("/hello")] * STEP_LIMIT)
        self.assertEqual(self.steps(), (0, joined([HELLO] * STEP_LIMIT), b""))
        for count in (0, STEP_LIMIT + 1):
            self.lists(*[step("/hello")] * count)
            self.is_refused()

    def test_what_is_no_list_of_steps(self) -> None:
        for data in (b"", b" ", b"null", b"{}", b"[", b"[1]", b"[[]]", b"[{}]", b'{"args":["/hello"]}', b'["/hello"]',
                     b'[{"args":["/hello"]}]x', b'[{"args":["/hello"]},]', b"[{'args':['/hello']}]",
                     b'\xef\xbb\xbf[{"args":["/hello"]}]', b'[{"args":["/hello"]},{}]', b"\x7fELF"):
            with self.subTest(data):
                self.put(data)
                self.is_refused()

    def test_arguments_that_are_refused(self) -> None:
        for args in (b"[]", b"null", b'"/hello"', b"{}", b'["/hello",1]', b'["/hello",null]', b'["/hello",["x"]]',
                     b'["/hel\\u0000lo"]', b'["/hello","x\\u0000"]', b'["/hello","\xff"]', b'["/hello","\\ud800"]',
                     b'["/hello"],"args":[]'):
            with self.subTest(args):
                self.put(b'[{"args":["/hello"]},{"args":%b}]' % args)
                self.is_refused()

    def test_environments_that_are_refused(self) -> None:
        for env in (b"null", b'"A=1"', b'{"A":"1"}', b"[1]", b'[["A=1"]]', b'["A"]', b'[""]', b'["=1"]', b'["1A=2"]',
                    b'["A B=1"]', b'["\xc3\xa9=1"]', b'["A=1","B"]', b'["A=\\u0000"]', b'["A=\\ud800"]'):
            with self.subTest(env):
                self.put(b'[{"args":["/hello"],"env":%b}]' % env)
                self.is_refused()

    def test_other_forms_of_what_is_taken(self) -> None:
        for data in (b' [ { "args" : [ "/hello" ] } ]\n', b'[{"args":["\\u002fhello","\xc3\xa9"],"env":["A="]}]',
                     b'[{"env":[],"name":{"x":[1]},"args":["/hello"]}]', b'[{"args":[],"args":["/hello"]}]'):
            with self.subTest(data):
                self.put(data)
                self.assertEqual(self.steps(), (0, joined([HELLO]), b""))

    def test_a_file_of_the_greatest_size_and_one_byte_more(self) -> None:
        text = b'[{"args":["/hello"]}]'
        self.put(text.ljust(SIZE_LIMIT))
        self.assertEqual(self.steps(), (0, joined([HELLO]), b""))
        self.put(text.ljust(SIZE_LIMIT + 1))
        self.is_refused()

    def test_names_of_files(self) -> None:
        text = b'[{"args":["/hello"]}]'
        (self.top / "img" / "sub").mkdir()
        for name in (".list", "li st", "list\n", "ä", "sub/list"):
            self.put(text, name)
        for name in ("", ".list", "li st", "list\n", "ä", "sub/list", "./list", "../img/list", "x" * 256,
                     str(self.top / "img" / "list"), "nothere", "image.json", "hello"):
            with self.subTest(name):
                self.put(text)
                self.is_refused(name)
        for name in ("A_9.-", "-", "x" * 255):
            with self.subTest(name):
                self.put(text, name)
                self.assertEqual(self.steps(file=name), (0, joined([HELLO]), b""))

    def test_an_image_that_is_refused_comes_first(self) -> None:
        self.put(b"[]")
        (self.top / "img" / "image.json").write_text("{")
        self.assertEqual(self.steps(), (IMAGE_REFUSED, b"", b"dettrace: image refused: 2 BadIndex\n"))
        self.assertEqual(self.steps(file=".list"), (IMAGE_REFUSED, b"", b"dettrace: image refused: 2 BadIndex\n"))
        done = self.call("steps", "nowhere", "list")
        self.assertEqual((done.returncode, done.stderr), (IMAGE_REFUSED, b"dettrace: image refused: 1 NoIndex\n"))


class Words(StepsCase):
    def setUp(self) -> None:
        super().setUp()
        self.example("hello")
        self.lists(step("/hello"))

    def test_words_that_are_refused(self) -> None:
        for words in (("steps",), ("steps", "img"), ("steps", "img", "list", "more"), ("steps", "img", "list", "--"),
                      ("steps", "img", "list", "--", "/hello"), ("steps", "--", "img", "list"),
                      ("--", "steps", "img", "list"), ("steps", "img", "list", "--budget", "0"),
                      ("steps", "img", "list", "--workers", "65"), ("steps", "img", "--seed=1", "--seed=1", "list"),
                      ("steps", "img", "--file", "list"), ("steps", "-img", "list"), ("steps", "--help"),
                      ("step", "img", "list"), ("Steps", "img", "list"), ("run", "img", "list"), ("demo", "7", "list")):
            with self.subTest(words):
                done = self.call(*words)
                self.assertEqual((done.returncode, done.stdout, done.stderr), (WORDS_REFUSED, b"", USAGE))

    def test_options_stand_anywhere(self) -> None:
        for words in (("--seed", "7", "img", "list"), ("img", "--host=3", "list", "--workers", "1"),
                      ("img", "list", "--budget", "1000000"), ("img/", "list"), (self.top / "img", "list")):
            with self.subTest(words):
                done = self.call("steps", *words)
                self.assertEqual((done.returncode, done.stdout, done.stderr), (0, joined([HELLO]), b""))


class Faults(StepsCase):
    def setUp(self) -> None:
        super().setUp()
        self.example("hello")
        self.lists(step("/hello"), step("/hello"))
        self.whole = joined([HELLO] * 2)

    def test_what_is_no_file_is_a_store_fault(self) -> None:
        (self.top / "img" / "folder").mkdir()
        os.mkfifo(self.top / "img" / "fifo")
        (self.top / "img" / "itself").symlink_to("itself")
        for name in ("folder", "fifo", "itself"):
            with self.subTest(name):
                self.assertEqual(self.steps(file=name), (STORE_FAULT, b"", FAULT))
        (self.top / "img" / "nowhere").symlink_to("not/there")
        self.assertEqual(self.steps(file="nowhere"), (IMAGE_REFUSED, b"", BAD_STEPS))

    @unittest.skipIf(os.geteuid() == 0, "root may read everything")
    def test_a_file_that_may_not_be_read_is_a_store_fault(self) -> None:
        (self.top / "img" / "list").chmod(0)
        self.assertEqual(self.steps(), (STORE_FAULT, b"", FAULT))

    def test_an_output_that_ends_leaves_a_prefix(self) -> None:
        for room in (0, 6, len(joined([HELLO])) - 1, len(joined([HELLO])) + 1, len(self.whole) - 1):
            def limit() -> None:
                signal.signal(signal.SIGXFSZ, signal.SIG_IGN)
                resource.setrlimit(resource.RLIMIT_FSIZE, (room, room))

            with self.subTest(room), open(self.top / "out", "wb") as out:
                done = subprocess.run([PROGRAM, "steps", "img", "list"], cwd=self.top, stdin=subprocess.DEVNULL,
                                      stdout=out, stderr=subprocess.PIPE, preexec_fn=limit, check=False)
                self.assertEqual((done.returncode, done.stderr), (OUTPUT_FAULT, b"dettrace: output fault\n"))
                self.assertEqual((self.top / "out").read_bytes(), self.whole[:room])


if __name__ == "__main__":
    unittest.main()
