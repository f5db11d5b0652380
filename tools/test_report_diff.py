"""Tests of what the tool for reports says of two: that they are equal, or what differs first, and where each ends."""
from __future__ import annotations

import re
import subprocess
import unittest
from typing import List, Tuple

from program import PROGRAM, TOP, needs_program
from reportlib.testing import DEVICES, EMPTY_DIGEST, OTHER_DIGEST, SMALL, Case, examples, file_line, out, report, run

CODE_0 = b"exit 1 code 0\n"
LONG = b"x" * 70000
LINE_END = b"\n"


def tree(*lines: bytes) -> bytes:
    return report(CODE_0, tree=list(lines))


# Two reports, and the first line that tells how they differ.
DIFFERENCES = [
    (tree(), tree().replace(b"dettrace 1", b"dettrace 2"), "the version differs: 1 in A, and 2 in B"),
    (tree()[:10], DEVICES, "the version differs: A is cut in it, and 2 in B"),
    (DEVICES, DEVICES.replace(b"0 null", b"0 zero"),
     "tree line 3 differs: of /dev/null the device is null in A and zero in B"),
    (DEVICES, DEVICES.replace(b"dev 3 0666 0 null", b"dir 3 0666 0"),
     "tree line 3 differs: of /dev/null the kind is dev in A and dir in B"),
    (report(b"exit 2 code 1\n"), report(b"exit 2 code 0\n"),
     "event 1 differs: process 2 ended with code 1 in A, and with code 0 in B"),
    (report(b"exit 2 code 9\n"), report(b"exit 2 signal 9\n"),
     "event 1 differs: process 2 ended with code 9 in A, and by signal 9 in B"),
    (report(out(1, b"a"), b"exit 2 code 0\n"), report(out(1, b"a"), b"exit 3 code 0\n"),
     "event 2 differs: process 2 ended with code 0 in A, and process 3 ended with code 0 in B"),
    (report(b"exit 2 code 1\n"), report(out(1, b"a" * 34)),
     "event 1 differs: process 2 ended with code 1 in A, and 34 bytes were written to standard output in B"),
    (report(out(1, b"a")), report(out(2, b"a")),
     "event 1 differs: 1 byte was written to standard output in A, and 1 byte was written to standard error in B"),
    (report(out(2, b"one\ntwo")), report(out(2, b"one\nTwo")),
     'event 1 differs: 7 bytes were written to standard error in both; byte 5 is the first that differs, "t" in A and '
     '"T" in B'),
    (report(out(1, b"a ")), report(out(1, b"a\x80")),
     "event 1 differs: 2 bytes were written to standard output in both; byte 2 is the first that differs, "
     "a space in A and the byte 0x80 in B"),
    (report(out(1, b"one")), report(out(1, b"only two")),
     "event 1 differs: 3 bytes were written to standard output in A, and 8 in B; byte 3 is the first that differs"),
    (report(out(1, b"one")), report(out(1, b"one\n")),
     "event 1 differs: 3 bytes were written to standard output in A, and 4 in B; the first 3 are equal"),
    (report(out(1, LONG + b"a")), report(out(1, LONG + b"bc")),
     "event 1 differs: 70001 bytes were written to standard output in A, and 70002 in B; byte 70001 is the first that "
     "differs"),
    (report(out(1, LONG * 9)), report(out(1, LONG * 10)),
     "event 1 differs: 630000 bytes were written to standard output in A, and 700000 in B; "
     "the first 630000 are equal"),
    (report(out(1, b"a")), report(out(1, b"a" * 10)),
     "event 1 differs: 1 byte was written to standard output in A, and 10 in B; the first is equal"),
    (report(CODE_0), report(),
     "event 1 differs: process 1 ended with code 0 in A, and the verdict, ended, comes in B"),
    (report(CODE_0, verdict=b"budget"), report(CODE_0, verdict=b"deadlock"),
     "the verdict differs: budget in A, and deadlock in B"),
    (report(verdict=b"nostart 2"), report(verdict=b"unsupported 3 291"),
     "the verdict differs: nostart (errno 2) in A, and unsupported (system call 291 of process 3) in B"),
    (report(verdict=b"nostart 2"), report(verdict=b"nostart 20"),
     "the verdict differs: nostart (errno 2) in A, and nostart (errno 20) in B"),
    (tree(file_line(size=15)), tree(file_line(size=16, digest=OTHER_DIGEST)),
     "tree line 1 differs: of /a the size is 15 in A and 16 in B, the content (digest) is "
     f"{EMPTY_DIGEST} in A and {OTHER_DIGEST} in B"),
    (tree(file_line(mode="0644")), tree(file_line(mode="0600")),
     "tree line 1 differs: of /a the mode is 0644 in A and 0600 in B"),
    (tree(file_line(inode=2, stamp=0)), tree(file_line(inode=20, stamp=1000)),
     "tree line 1 differs: of /a the inode is 2 in A and 20 in B, the stamp is 0 in A and 1000 in B"),
    (tree(file_line(), b"link 3 0 /b c"), tree(file_line(), b"link 3 0 /b c%20d"),
     "tree line 2 differs: of /b the target is c in A and c%20d in B"),
    (tree(b"dir 2 0755 0 /a"), tree(file_line()),
     "tree line 1 differs: of /a the kind is dir in A and file in B, the mode is 0755 in A and 0644 in B"),
    (tree(b"link 2 0 /a b", file_line(path="/c")), tree(b"dir 2 0755 0 /a", file_line(path="/c")),
     "tree line 1 differs: of /a the kind is link in A and dir in B"),
    (tree(file_line(), file_line(path="/b")), tree(file_line(), file_line(path="/%C3%A9")),
     "tree line 2 differs: /b is only in A"),
    (tree(file_line(), file_line(path="/b")), tree(file_line()),
     "the number of paths is 2 in A and 1 in B; tree line 2 differs: /b is only in A"),
    (tree(file_line(path="/b")), tree(),
     "the number of paths is 1 in A and 0 in B; tree line 1 differs: /b is only in A"),
    (tree(file_line(path="/b"), file_line(path="/c")), tree(*(file_line(path=f"/b{n}") for n in range(10))),
     "the number of paths is 2 in A and 10 in B; tree line 1 differs: /b is only in A")]


def swapped(line: str) -> str:
    """What is told of a difference in the other order, where the first of the two names stands first."""
    return re.sub(r"\b[AB]\b", lambda letter: "B" if letter[0] == "A" else "A", line)


class WordsTest(Case):
    def first_line(self, a: bytes, b: bytes) -> str:
        files = self.written(a=a, b=b)
        result = run("diff", files["a"], files["b"])
        self.assertEqual((result.status, result.errors), (1, ""))
        return result.output.decode().split("\n")[0]

    def test_each_kind_of_difference_is_told(self) -> None:
        for a, b, words in DIFFERENCES:
            with self.subTest(words=words):
                self.assertEqual(self.first_line(a, b), words)

    def test_each_difference_names_the_same_place_in_the_other_order(self) -> None:
        for a, b, words in DIFFERENCES:
            with self.subTest(words=words):
                told = self.first_line(b, a)
                self.assertEqual(*(re.split(" differs| is ", line)[0] for line in (told, words)))
                for only in re.findall(r"/\S+ is only in [AB]", words):
                    self.assertIn(swapped(only), told)

    def test_equal_reports_are_equal(self) -> None:
        for text in [SMALL, *examples()]:
            name = self.write("one", text)
            code = re.findall(rb"(?m)^exit 1 code (\d+)$", text)[-1].decode()
            told = ("equal\n" if code == "0" else f"equal, and both ended with code {code}\n").encode()
            self.assertEqual(run("diff", name, "-", given=text), (0, told, ""))
            self.assertEqual(run("diff", "-", name, given=text), (0, told, ""))
            self.assertEqual(run("diff", name, name), (0, told, ""))

    def test_equal_reports_of_runs_that_failed_say_how_both_ended(self) -> None:
        large = out(1, LONG)
        for end, told in ((b"code 1", "with code 1"), (b"code 255", "with code 255"), (b"signal 9", "by signal 9")):
            for before in (b"", large, b"exit 2 code 0\n", b"exit 11 code 7\n"):
                with self.subTest(end, before=before[:20]):
                    text = report(before, b"exit 1 " + end + b"\n", b"exit 3 signal 9\n", tree=[])
                    line = f"equal, and both ended {told}\n"
                    self.assertEqual(run("diff", self.write("one", text), "-", given=text), (0, line.encode(), ""))

    def test_equal_reports_of_runs_that_did_not_end_say_so(self) -> None:
        for verdict, told in (("nostart 2", "nostart (errno 2)"), ("budget", "budget"), ("deadlock", "deadlock"),
                              ("unsupported 1 435", "unsupported (system call 435 of process 1)")):
            with self.subTest(verdict):
                text = f"dettrace 1\nverdict {verdict}\ntree 0\n".encode()
                line = f"equal, and neither run came to its end: the verdict is {told}\n"
                self.assertEqual(run("diff", self.write("one", text), "-", given=text), (0, line.encode(), ""))

    def test_reports_that_are_cut_at_one_offset_are_equal_and_cut(self) -> None:
        last = len(SMALL) - 1
        for length, where in [(0, "0 bytes, before the first line"), (1, "1 byte, in the first line"),
                              (22, "22 bytes, in event 1"), (last, f"{last} bytes, in tree line 5 of 5")]:
            with self.subTest(length=length):
                name = self.write("one", SMALL[:length])
                told = f"equal, and both are cut: they end after {where}\n"
                self.assertEqual(run("diff", name, "-", given=SMALL[:length]), (1, told.encode(), ""))


class CutTest(Case):
    def test_every_prefix_is_told_as_one(self) -> None:
        whole = self.write("whole", SMALL)
        for length in range(len(SMALL)):
            with self.subTest(length=length):
                told = rf"is cut: it ends after {length} bytes?, [a-z0-9 ]+, and is a prefix of"
                result = run("diff", "-", whole, given=SMALL[:length])
                self.assertEqual((result.status, result.errors), (1, ""))
                self.assertRegex(result.output.decode(), rf"\AA {told} B\n--- A: standard input\n\+\+\+ B: ")
                result = run("diff", whole, "-", given=SMALL[:length])
                self.assertEqual((result.status, result.errors), (1, ""))
                self.assertRegex(result.output.decode(), rf"\AB {told} A\n--- A: ")

    def test_each_of_two_that_are_cut_is_told(self) -> None:
        short = self.write("short", SMALL[:22])
        cases = [
            (SMALL[:25], ["A is cut: it ends after 22 bytes, in event 1, and is a prefix of B",
                          "B is cut: it ends after 25 bytes, in event 1"]),
            (SMALL[:20] + b"EL", ["event 1 differs: 6 bytes were written to standard output in both; "
                                  'byte 2 is the first that differs, "e" in A and "E" in B',
                                  "A is cut: it ends after 22 bytes, in event 1",
                                  "B is cut: it ends after 22 bytes, in event 1"]),
            (SMALL[:11] + out(1, b"hexo") + b"exit 2", [
                "event 1 differs: 6 bytes were written to standard output in A, and 4 in B; "
                "byte 3 is the first that differs",
                "A is cut: it ends after 22 bytes, in event 1", "B is cut: it ends after 30 bytes, in event 2"]),
            (SMALL[:11] + out(1, b"help") + b"exit 2", [
                "event 1 differs: 6 bytes were written to standard output in A, and 4 in B; the first 3 are equal",
                "A is cut: it ends after 22 bytes, in event 1", "B is cut: it ends after 30 bytes, in event 2"]),
            (SMALL[:11] + b"exi", ["event 1 differs: 6 bytes were written to standard output in A, and B is cut in it",
                                   "A is cut: it ends after 22 bytes, in event 1",
                                   "B is cut: it ends after 14 bytes, in event 1"]),
            (SMALL[:11] + b"ver", ["event 1 differs: 6 bytes were written to standard output in A, and B is cut in it",
                                   "A is cut: it ends after 22 bytes, in event 1",
                                   "B is cut: it ends after 14 bytes, in the verdict"])]
        for text, lines in cases:
            with self.subTest(text=text):
                result = run("diff", short, "-", given=text)
                told = result.output.decode().split("\n--- A: ")[0].split("\n")
                self.assertEqual((result.status, told, result.errors), (1, lines, ""))

    def test_a_cut_in_a_verdict_is_told(self) -> None:
        name = self.write("whole", report(CODE_0))
        result = run("diff", "-", name, given=report(CODE_0)[:-6] + b"dead")
        told = result.output.decode().split("\n--- A: ")[0].split("\n")
        self.assertEqual(told, ["the verdict differs: A is cut in it, and ended in B",
                                "A is cut: it ends after 37 bytes, in the verdict",
                                "B is cut: it ends after 39 bytes, behind the verdict"])

    def test_a_cut_in_a_tree_is_told_with_what_differs(self) -> None:
        whole = tree(file_line(), file_line(path="/b"), file_line(path="/c"))
        name = self.write("whole", whole)
        lines = whole.split(b"\n")
        head = b"\n".join(lines[:3]) + b"\n"
        cases = [
            (head + b"tree 4\n" + lines[4] + b"\n" + lines[5][:-7],
             ["the number of paths is 3 in A and 4 in B; tree line 2 differs: B is cut in it",
              "in tree line 2 of 4"]),
            (head + b"tree 4\n",
             ["the number of paths is 3 in A and 4 in B; tree line 1 is not there in B, which is cut",
              "before tree line 1 of 4"]),
            (head + b"tree 4",
             ["the number of paths is 3 in A and not known in B", "in the line that begins the tree"]),
            (head + b"tree 3\n" + lines[4] + b"\nlink", ["tree line 2 differs: B is cut in it",
                                                         "in tree line 2 of 3"])]
        for text, (words, where) in cases:
            with self.subTest(text=text):
                result = run("diff", name, "-", given=text)
                told = result.output.decode().split("\n--- A: ")[0].split("\n")
                self.assertEqual(told, [words, f"B is cut: it ends after {len(text)} bytes, {where}"])
                self.assertEqual((result.status, result.errors), (1, ""))


class RefusedTest(Case):
    def test_a_report_and_something_that_is_none_is_refused(self) -> None:
        files = self.written(good=SMALL, bad=SMALL + b"x", other=SMALL.replace(b"hello", b"hallo") + b"x",
                             none=b"{}", cut=SMALL[:30])
        behind = (f"byte {len(SMALL) + 1}, line {SMALL.count(LINE_END) + 1}: not a report: "
                  'expected nothing behind 5 lines of the tree, found "x"')
        begin = 'byte 1, line 1: not a report: expected "dettrace 1" or "dettrace 2", found "{"'
        for a, b, wrong, told in [("good", "bad", "bad", behind), ("bad", "good", "bad", behind),
                                  ("good", "other", "other", behind), ("other", "cut", "other", behind),
                                  ("bad", "bad", "bad", behind), ("none", "good", "none", begin),
                                  ("cut", "none", "none", begin), ("none", "none", "none", begin)]:
            with self.subTest(a=a, b=b):
                result = run("diff", files[a], files[b])
                self.assertEqual(result, (2, b"", f"report: {files[wrong]}: {told}\n"))


class UnifiedTest(Case):
    def diff(self, a: bytes, b: bytes) -> List[str]:
        """The lines behind those that tell in words."""
        files = self.written(a=a, b=b)
        lines = run("diff", files["a"], files["b"]).output.decode().split("\n")
        start = lines.index(f"--- A: {files['a']}")
        self.assertEqual(lines[start + 1], f"+++ B: {files['b']}")
        self.assertEqual(lines.pop(), "")
        return lines[start + 2:]

    def test_the_texts_are_shown_with_three_lines_of_context(self) -> None:
        a = report(*(out(1, b"line %d" % n) for n in range(9)), tree=[])
        b = a.replace(b"out 1 6\nline 5\n", b"exit 7 code 3\n")
        self.assertEqual(self.diff(a, b), [
            "@@ -9,8 +9,7 @@", " line 3", " out 1 6", " line 4", "-out 1 6", "-line 5", "+exit 7 code 3",
            " out 1 6", " line 6", " out 1 6"])

    def test_what_is_no_text_is_escaped(self) -> None:
        shown = "\\xff\\x00 \\x1b[1m\\x09\\\\x00 \u00e9\\xc2\\x85\\xe2\\x80\\xae\\xf0\\x9f"
        data = b"\xff\x00 \x1b[1m\t\\x00 \xc3\xa9\xc2\x85\xe2\x80\xae\xf0\x9f"
        lines = self.diff(report(out(1, b"a" + data)), report(out(1, b"b" + data)))
        self.assertEqual(lines, [
            "@@ -1,4 +1,4 @@", " dettrace 1", " out 1 23", f"-a{shown}", f"+b{shown}", " verdict ended"])

    def test_a_text_without_a_line_end_is_told(self) -> None:
        self.assertEqual(self.diff(SMALL[:22], SMALL[:25]), [
            "@@ -1,3 +1,3 @@", " dettrace 1", " out 1 6", "-hel", "\\ No newline at end of file", "+hello"])
        self.assertEqual(self.diff(b"", SMALL[:14]), [
            "@@ -0,0 +1,2 @@", "+dettrace 1", "+out", "\\ No newline at end of file"])

    def test_200_lines_are_shown_and_that_more_follows(self) -> None:
        ends = [b"exit %d code 0\n" % n for n in range(1, 1000)]
        a = report(*ends, tree=[])
        b = report(*ends[:500], b"exit 5000 code 1\n", *ends[500:], tree=[])
        self.assertEqual(self.diff(a, b), [
            "@@ -499,6 +499,7 @@", " exit 498 code 0", " exit 499 code 0", " exit 500 code 0", "+exit 5000 code 1",
            " exit 501 code 0", " exit 502 code 0", " exit 503 code 0",
            "\\ A goes on: no more of it is shown or compared here than up to line 701",
            "\\ B goes on: no more of it is shown or compared here than up to line 701"])
        self.assertEqual(self.diff(b, a)[4:6], ["-exit 5000 code 1", " exit 501 code 0"])
        self.assertEqual(len(self.diff(b, a)), 10)
        lines = self.diff(a, report(b"exit 5000 code 1\n" * 300, tree=[]))
        self.assertEqual(lines[:2] + lines[-2:], [
            "@@ -1,201 +1,201 @@", " dettrace 1",
            "\\ A goes on: no more of it is shown or compared here than up to line 201",
            "\\ B goes on: no more of it is shown or compared here than up to line 201"])
        self.assertEqual(lines[2:-2], [f"-exit {n} code 0" for n in range(1, 201)] + ["+exit 5000 code 1"] * 200)

    def test_64_kib_are_shown_of_long_lines(self) -> None:
        a, b = (report(out(1, b"\n".join(letter + b"x" * 19999 for _ in range(9)))) for letter in (b"a", b"b"))
        text = "x" * 19999
        self.assertEqual(self.diff(a, b), [
            "@@ -1,5 +1,5 @@", " dettrace 1", " out 1 180008", *[f"-a{text}"] * 3, *[f"+b{text}"] * 3,
            "\\ A goes on: no more of it is shown or compared here than up to line 5",
            "\\ B goes on: no more of it is shown or compared here than up to line 5"])

    def test_lines_of_context_are_shown_whole_or_not_at_all(self) -> None:
        # The last block before that of the difference, of 64 KiB, is kept with what is common in this one.
        for length, whole in [(20000, 3), (40000, 3), (45000, 2), (66000, 1), (140000, 0)]:
            with self.subTest(length=length):
                before = b"".join(b"%d" % n + b"x" * length + b"\n" for n in range(8))
                a, b = (report(out(1, before + letter)) for letter in (b"a", b"b"))
                kept = (a.index(b"\na\n") + 1) % 65536 + 65536
                self.assertEqual(min(kept // (length + 2), 3), whole)
                lines = self.diff(a, b)
                self.assertEqual(lines[1:lines.index("-a")], [f" {n}" + "x" * length for n in range(8 - whole, 8)])

    def test_a_difference_far_in_a_line_is_shown_from_near_it(self) -> None:
        for before, after in [(5000, 10), (300000, 100000)]:
            with self.subTest(before=before):
                a, b = (report(out(1, b"x" * before + letter + b"y" * after)) for letter in (b"a", b"b"))
                behind = min(after, 65535)
                lines = self.diff(a, b)
                self.assertEqual(lines[0], f"\\ Line 3 is shown from its byte {before - 255} on")
                for letter in "ab":
                    mark = "-" if letter == "a" else "+"
                    self.assertIn(mark + "x" * 256 + letter + "y" * behind, lines)
                self.assertEqual(lines.count("\\ The line goes on"), 2 * (behind < after))


class HandMadeTest(Case):
    """What the next tests show of the program's reports, on reports of the examples."""

    def test_two_runs_are_equal(self) -> None:
        text = self.processes()
        self.assertEqual(run("diff", self.write("one", text), self.write("two", text)), (0, b"equal\n", ""))

    def test_a_run_whose_output_was_closed_is_a_prefix(self) -> None:
        text = self.processes()
        lines = run("diff", self.write("cut", text[:100]), self.write("whole", text)).output.decode().split("\n")
        self.assertEqual(lines[0], "A is cut: it ends after 100 bytes, in event 3, and is a prefix of B")

    def test_two_seeds_differ_in_their_random_bytes(self) -> None:
        a = next(text for text in examples() if b"AT_RANDOM" in text)
        b = a.replace(b"0xf7 0x44", b"0xf7 0x45")
        lines = run("diff", self.write("one", a), self.write("two", b)).output.decode().split("\n")
        offset = a.index(b"0x44") + 4 - a.index(b"arguments 3")
        self.assertEqual(lines[0], "event 1 differs: 631 bytes were written to standard output in both; "
                                   f'byte {offset} is the first that differs, "4" in A and "5" in B')
        self.assertEqual([line[:12] for line in lines if line[:1] in ("-", "+")][2:], ["-AT_RANDOM 0", "+AT_RANDOM 0"])

    def processes(self) -> bytes:
        return next(text for text in examples() if b"make 1: started /bin/compile as 2" in text)


@needs_program
class ProgramTest(Case):
    def dettrace(self, name: str, *words: str) -> Tuple[int, str]:
        path = self.folder / name
        with open(path, "wb") as file:
            done = subprocess.run([PROGRAM, "run", *words], stdout=file, check=False, cwd=TOP)
        return done.returncode, str(path)

    def test_two_hosts_give_equal_reports(self) -> None:
        one, two = (self.dettrace(host, "examples/processes", "--host", host, "--", "/make") for host in ("1", "2"))
        self.assertEqual((one[0], two[0]), (0, 0))
        self.assertEqual(run("diff", one[1], two[1]), (0, b"equal\n", ""))

    def test_a_run_whose_output_is_closed_gives_a_prefix(self) -> None:
        # More than a pipe holds, so that the program still writes when its reader closes.
        words = ["examples/start", "--", "/start", "x" * 100000]
        status, whole = self.dettrace("whole", *words)
        self.assertEqual(status, 0)
        with subprocess.Popen([PROGRAM, "run", *words], stdout=subprocess.PIPE, stderr=subprocess.PIPE,
                              bufsize=0, cwd=TOP) as process:
            cut = b""
            while len(cut) < 100:
                cut += process.stdout.read(100 - len(cut))
            process.stdout.close()
            self.assertEqual(process.stderr.read(), b"dettrace: output fault\n")
        self.assertEqual(process.returncode, 6)
        result = run("diff", self.write("cut", cut), whole)
        self.assertEqual((result.status, result.errors), (1, ""))
        self.assertEqual(result.output.decode().split("\n")[0],
                         "A is cut: it ends after 100 bytes, in event 1, and is a prefix of B")

    def test_two_seeds_differ_in_their_random_bytes(self) -> None:
        one, two = (self.dettrace(seed, "examples/start", "--seed", seed, "--", "/start") for seed in ("1", "2"))
        self.assertEqual((one[0], two[0]), (0, 0))
        outputs = [run("output", name).output for _, name in (one, two)]
        offset = next(at for at, (first, second) in enumerate(zip(*outputs)) if first != second)
        self.assertEqual(outputs[0][:offset].rsplit(b"\n", 1)[1][:10], b"AT_RANDOM ")
        result = run("diff", one[1], two[1])
        self.assertEqual((result.status, result.errors), (1, ""))
        sizes = [len(output) for output in outputs]
        written = f"event 1 differs: {sizes[0]} bytes were written to standard output in "
        written += "both; " if sizes[0] == sizes[1] else f"A, and {sizes[1]} in B; "
        told = f"{written}byte {offset + 1} is the first that differs"
        self.assertEqual(result.output.decode()[:len(told)], told)


if __name__ == "__main__":
    unittest.main()
