"""Tests of the page that the tool for reports makes of one report or two, as a parser of HTML and a browser read it."""
from __future__ import annotations

import base64
import hashlib
import html
import html.parser
import json
import os
import re
import shutil
import subprocess
import tempfile
import time
import unittest
from typing import Any, Dict, Iterator, List, Optional, Tuple, Union

from reportlib import page_bytes
from reportlib.page_lanes import drawings, heads
from reportlib.reader import Cut, Exit, Output, Verdict
from reportlib.testing import (DEVICES, EMPTY_DIGEST, OTHER_DIGEST, SMALL, Case, examples, file_line, out, report, run,
                            run_script)
from test_report_diff import DIFFERENCES

CODE_0 = b"exit 1 code 0\n"
END = "verdict: ended"
VOID = {"meta", "input", "br", "img", "link"}
BROWSER = next((path for path in map(shutil.which, ("chromium", "chromium-browser", "google-chrome")) if path), None)
needs_browser = unittest.skipUnless(BROWSER, "there is no chromium")

# What would act in a page if it were not escaped.
HOSTILE = ["</script><script>document.title = 'taken'</script>\n",
           "</pre></li></ol></body><img src=http://example.org/x onerror=\"document.title = 'taken'\">\n",
           "<style>* { display: none }</style><!-- <![CDATA[ --> &lt;b&gt; &amp; &#60; \" ' `\n",
           "\n\n<a href=javascript:alert(1)>\ttwo lines before and behind\n\n\n", "without a line's end <",
           "\u017c\u00f3\u0142\u0107 \u6f22\u5b57 \ufeff\ufffe\ufdd0\U0001ffff\n"]
HOSTILE_PATHS = ["/\"q\"", "/&amp;", "/'%20onmouseover='alert(1)", "/<script>alert(1)<", "/<script>alert(1)</script>",
                 "/%C3%A9"]


class Node:
    """An element of a page."""

    def __init__(self, tag: str, members: Dict[str, str]) -> None:
        self.tag, self.members = tag, members
        self.parts: List[Union[str, Node]] = []

    def text(self) -> str:
        return "".join(part if isinstance(part, str) else part.text() for part in self.parts)

    def all(self) -> Iterator[Node]:
        for part in self.parts:
            if isinstance(part, Node):
                yield part
                yield from part.all()

    def find(self, tag: str, kind: Optional[str] = None, **members: str) -> List[Node]:
        return [node for node in self.all() if node.tag == tag and (kind is None or kind in node.kinds())
                and all(node.members.get(name) == value for name, value in members.items())]

    def kinds(self) -> List[str]:
        return self.members.get("class", "").split()

    def written(self) -> str:
        """The text of an element whose first line's end a browser drops."""
        return re.sub(r"\A\n", "", self.text())


class Document(html.parser.HTMLParser):
    """Reads a page, in which every element is closed in its turn."""

    def __init__(self, text: str) -> None:
        super().__init__(convert_charrefs=True)
        self.root = Node("", {})
        self.open = [self.root]
        self.feed(text)
        self.close()
        assert len(self.open) == 1, [node.tag for node in self.open]

    def handle_starttag(self, tag: str, attrs: List[Tuple[str, Optional[str]]]) -> None:
        assert len({name for name, _ in attrs}) == len(attrs)
        node = Node(tag, {name: value or "" for name, value in attrs})
        self.open[-1].parts.append(node)
        if tag not in VOID:
            self.open.append(node)

    def handle_startendtag(self, tag: str, attrs: List[Tuple[str, Optional[str]]]) -> None:
        self.open[-1].parts.append(Node(tag, {name: value or "" for name, value in attrs}))

    def handle_endtag(self, tag: str) -> None:
        assert self.open.pop().tag == tag, tag

    def handle_data(self, data: str) -> None:
        self.open[-1].parts.append(data)


def cells_of(item: Node) -> List[Node]:
    return [cell for cell in item.parts if isinstance(cell, Node) and cell.tag == "div"]


def cells_of_first(root: Node) -> List[Node]:
    """The cells of the first report, or of the only one."""
    return [cell for item in root.find("li") for cell in item.find("div", "a")]


def told_in(cell: Node) -> Tuple[str, Optional[str]]:
    """What a cell says, and the bytes that it shows."""
    heads = [node.text() for node in cell.find("p") if "flag" not in node.kinds()]
    shown = [node.written() for node in cell.find("pre")]
    return " / ".join(heads), shown[0] if shown else None


def rows_of(document: Node) -> List[List[str]]:
    """The cells of the lines of the tree."""
    body = document.find("section", id="tree")[0].find("tbody")[0]
    return [[cell.text() for cell in row.parts if isinstance(cell, Node)] for row in body.find("tr")]


def told_event(event: Dict[str, Any]) -> Tuple[str, Optional[str]]:
    """The same of an event in JSON that a report of the examples has."""
    if event["kind"] == "exit":
        return f"process {event['pid']} ended with code {event['code']}", None
    stream = {1: "standard output", 2: "standard error"}[event["stream"]]
    return f"{stream}, {event['size']:,} bytes", event["text"]


class PageCase(Case):
    def page(self, *texts: bytes, status: int = 0) -> str:
        names = [self.write(f"report{at}", text) for at, text in enumerate(texts)]
        result = run("page", *names)
        self.assertEqual(result.status, status)
        self.assertEqual(result.errors.count("\n"), 0 if status == 0 else result.errors.count("report: "))
        return result.output.decode()

    def document(self, *texts: bytes, status: int = 0) -> Node:
        return Document(self.page(*texts, status=status)).root

    def items(self, *texts: bytes, status: int = 0) -> List[List[Tuple[str, Optional[str]]]]:
        """For each row of the list what its cells say."""
        root = self.document(*texts, status=status)
        return [[told_in(cell) for cell in cells_of(item)] for item in root.find("li")]


class OneTest(PageCase):
    """The page of one report."""

    def test_every_event_of_the_examples_is_there_in_order(self) -> None:
        for text in examples():
            events = json.loads(run("json", "-", given=text).output)["events"]
            with self.subTest(text=text):
                wanted = [[told_event(event)] for event in events] + [[(END, None)]]
                self.assertEqual(self.items(text), wanted)

    def test_every_path_of_the_examples_is_there_in_order(self) -> None:
        for text in examples():
            tree = json.loads(run("json", "-", given=text).output)["tree"]
            kinds = {"dir": "directory", "file": "file", "link": "link", "dev": "device"}
            wanted = [[entry["path"] + (f" leads to {entry['target']}" if "target" in entry else ""),
                       " ".join([kinds[entry["kind"]], entry.get("device", "")]).strip(), entry.get("mode", ""),
                       f"{entry['size']:,}" if "size" in entry else "",
                       f"{entry['stamp']:,}", str(entry["inode"]), entry.get("sha256", "")] for entry in tree]
            with self.subTest(text=text):
                self.assertEqual(rows_of(self.document(text)), wanted)

    def test_each_kind_of_event_and_line_is_shown(self) -> None:
        self.assertEqual(self.items(SMALL), [
            [("standard output, 6 bytes", "hello\n")], [("process 2 ended with code 255", None)],
            [("standard error, 4 bytes", "00000000  0a ff 00 0a              ....\n")],
            [("process 31 ended by signal 9 (KILL)", None)], [("process 1 ended with code 0", None)], [(END, None)]])
        self.assertEqual(rows_of(self.document(SMALL)), [
            ["/bin", "directory", "0750", "", "5,000", "3", ""],
            ["/bin/%20%C3%A9", "file", "0644", "0", "0", "2", EMPTY_DIGEST],
            ["/bin/a%FF", "file", "4755", "89", "12,000", "9", OTHER_DIGEST],
            ["/bin/a%FF%25 leads to ../a%20%25b", "link", "", "", "7,000", "4", ""],
            ["/run leads to %80", "link", "", "", "18,446,744,073,709,551,615", "5", ""]])

    def test_each_verdict_is_told(self) -> None:
        for verdict, row, told in [
                ("budget", "budget", "budget: a turn would have taken more instructions than were left"),
                ("deadlock", "deadlock", "deadlock: all processes wait, so that none can go on"),
                ("unsupported 3 291", "unsupported (system call 291 of process 3)",
                 "unsupported: process 3 made the system call 291, which this version does not have, or not with what "
                 "it was handed"),
                ("nostart 40", "nostart (errno 40)",
                 "nostart: the program could not be started, for the reason with the errno 40 (ELOOP)"),
                ("nostart 99", "nostart (errno 99)",
                 "nostart: the program could not be started, for the reason with the errno 99")]:
            with self.subTest(verdict=verdict):
                root = self.document(report(verdict=verdict.encode(), tree=[]))
                self.assertEqual([told_in(cell) for cell in cells_of_first(root)], [(f"verdict: {row}", None)])
                self.assertEqual(self.glance(root)["Verdict"], told)
        self.assertEqual(self.glance(self.document(report(b"exit 1 signal 11\n", tree=[])))["Verdict"],
                         "ended: the first process ended by signal 11 (SEGV)")

    def glance(self, root: Node) -> Dict[str, str]:
        rows = root.find("table", "summary")[0].find("tr")
        return {row.find("th")[0].text(): row.find("td")[0].text() for row in rows}

    def test_numbers_are_told_at_a_glance(self) -> None:
        self.assertEqual(self.glance(self.document(SMALL)), {
            "Verdict": "ended: the first process ended with code 0", "Standard output": "6 bytes in 1 event",
            "Standard error": "4 bytes in 1 event", "Processes that ended": "3, 2 of them not with code 0",
            "Final tree": "2 files, 1 directory, 2 links, 89 bytes"})
        two_names = [file_line(inode=2, size=1500, path="/a"), file_line(inode=2, size=1500, path="/b")]
        self.assertEqual(self.glance(self.document(report(CODE_0, tree=two_names))), {
            "Verdict": "ended: the first process ended with code 0", "Standard output": "nothing",
            "Standard error": "nothing", "Processes that ended": "1",
            "Final tree": "2 files, 0 directories, 0 links, 1,500 bytes"})
        self.assertEqual(self.glance(self.document(DEVICES))["Final tree"],
                         "0 files, 1 directory, 0 links, 3 devices, 0 bytes")

    def test_each_process_has_its_end_in_a_table(self) -> None:
        table = self.document(SMALL).find("details")[0].find("table")[0]
        self.assertEqual([[cell.text() for cell in row.parts] for row in table.find("tbody")[0].find("tr")], [
            ["1", "with code 0, event 5"], ["2", "with code 255, event 2"], ["31", "by signal 9 (KILL), event 4"]])
        table = self.document(report(b"exit 2 code 0\n", verdict=b"deadlock", tree=[])).find("details")[0]
        self.assertEqual([[cell.text() for cell in row.parts] for row in table.find("tbody")[0].find("tr")],
                         [["1", "no end, verdict"], ["2", "with code 0, event 1"]])

    def test_links_lead_to_what_is_there(self) -> None:
        for texts in [SMALL], [SMALL, SMALL.replace(b"hello", b"hallo")], [report(verdict=b"nostart 2", tree=[])]:
            root = self.document(*texts)
            ids = [node.members["id"] for node in root.all() if "id" in node.members]
            self.assertEqual(len(set(ids)), len(ids))
            for link in root.find("a"):
                self.assertIn(link.members["href"][1:], ids)
            for node in root.all():
                for name in ("aria-labelledby", "aria-describedby", "for"):
                    self.assertIn(node.members.get(name, ids[0]), ids)

    def test_a_page_is_the_same_each_time_and_in_a_file(self) -> None:
        name, file = self.write("one", SMALL), str(self.folder / "page.html")
        result = run("page", name)
        self.assertEqual(run("page", name, "-o", file), (0, b"", ""))
        self.assertEqual((self.folder / "page.html").read_bytes(), result.output)
        self.assertEqual(run("page", f"--output={file}", "-", given=SMALL), (0, b"", ""))
        self.assertEqual((self.folder / "page.html").read_bytes(),
                         result.output.replace(name.encode(), b"standard input"))


class BytesTest(PageCase):
    """How bytes are shown."""

    def shown(self, data: bytes) -> str:
        return self.document(report(out(1, data), CODE_0, tree=[])).find("pre")[0].written()

    def test_hostile_bytes_are_shown_and_nothing_else(self) -> None:
        plain = {node.tag for node in self.document(SMALL).all()}
        events = [out(1 + at % 2, text.encode()) for at, text in enumerate(HOSTILE)]
        tree = [file_line(path=path) for path in HOSTILE_PATHS] + [b"link 9 0 /%FF </a><script>"]
        name = self.write("<b>&\"'", report(*events, CODE_0, tree=tree))
        root = Document(run("page", name).output.decode()).root
        self.assertEqual({node.tag for node in root.all()} - plain, set())
        self.assertEqual([node.written() for node in root.find("pre")], HOSTILE)
        self.assertEqual([row[0] for row in rows_of(root)], [*HOSTILE_PATHS, "/%FF leads to </a><script>"])
        self.assertEqual(root.find("h1")[0].text(), f"A run: {name}")
        self.assertEqual(len(root.find("script")), 1)

    def test_bytes_that_are_no_text_are_shown_in_hexadecimal(self) -> None:
        line = b"a line of text that is long enough " * 3
        root = self.document(report(out(1, line + b"\x00\xff\x1b[1m\r\n\xe2\x80\xae\tend\n"), CODE_0, tree=[]))
        pre = root.find("pre")[0]
        self.assertEqual(pre.written(), line.decode() + "\\x00\\xff\\x1b[1m\\x0d\n\\xe2\\x80\\xae\tend\n")
        self.assertEqual([node.text() for node in pre.find("span", "bytes")],
                         ["\\x00\\xff\\x1b", "\\x0d", "\\xe2\\x80\\xae"])
        for byte in [*range(9), *range(11, 32), 127, *range(128, 256)]:
            with self.subTest(byte=byte):
                self.assertEqual(self.shown(line + bytes([byte])), f"{line.decode()}\\x{byte:02x}")

    def test_mostly_other_bytes_are_shown_as_a_dump(self) -> None:
        self.assertEqual(self.shown(bytes(range(0x38, 0x48)) + bytes(range(0xF8, 0x100))),
                         "00000000  38 39 3a 3b 3c 3d 3e 3f  89:;<=>?\n"
                         "00000008  40 41 42 43 44 45 46 47  @ABCDEFG\n"
                         "00000010  f8 f9 fa fb fc fd fe ff  ........\n")
        # An eighth of them is the most that stands among text.
        self.assertEqual(self.shown(b"1234567\x01"), "1234567\\x01")
        self.assertEqual(self.shown(b"123456\x01"), "00000000  31 32 33 34 35 36 01     123456.\n")

    def test_all_that_is_text_is_shown_as_it_is(self) -> None:
        text = "".join(map(chr, [9, 10, *range(32, 127), *range(160, 1564), 0x20AC, 0xFFFD, 0x1F642])) + "\n\n"
        self.assertEqual(self.shown(text.encode()), text)

    def test_a_line_s_end_that_lacks_is_told(self) -> None:
        self.assertEqual([row[0][0] for row in self.items(report(out(1, b"a"), out(2, b"b\n"), CODE_0, tree=[]))][:2],
                         ["standard output, 1 byte, no line's end", "standard error, 2 bytes"])

    def test_an_event_of_many_bytes_is_shown_up_to_a_limit(self) -> None:
        most = page_bytes.SHOWN
        for data, shown, left in [(b"x" * most, most, ""), (b"x" * (most + 1), most, "1 byte more is left out here"),
                                  (b"x" * (most - 1) + "\u20ac".encode() * 500, most - 1,
                                   "1,500 bytes more are left out here")]:
            with self.subTest(size=len(data)):
                root = self.document(report(out(1, data), CODE_0, tree=[]))
                self.assertEqual(root.find("pre")[0].written(), "x" * shown)
                self.assertEqual([node.text() for node in cells_of_first(root)[0].find("p", "note")],
                                 [left] if left else [])


class TwoTest(PageCase):
    """The page of two reports."""

    def test_each_difference_is_told_and_marked_once(self) -> None:
        for a, b, words in DIFFERENCES:
            with self.subTest(words=words):
                cut = [text for text in (a, b) if not text.endswith(b"\n") or b"\ntree " not in text]
                root = self.document(a, b, status=1 if cut else 0)
                self.assertEqual(root.find("p", "differing")[0].text(), words)
                found = re.match(r"event (\d+) differs|the verdict differs", words)
                marked = root.find("li", "first")
                if not found:
                    self.assertEqual((marked, len(root.find("p", "flag"))), ([], 0))
                    continue
                number = int(found[1]) if found[1] else len(root.find("li"))
                self.assertEqual([item.members["id"] for item in marked], [f"e{number}"])
                self.assertEqual([[flag.text() for flag in cell.find("p", "flag")] for cell in cells_of(marked[0])],
                                 [["first difference"]] * 2)
                self.assertEqual([link.text() for link in root.find("a", href=f"#e{number}")][:1],
                                 ["First difference"])

    def test_both_reports_are_there_row_by_row(self) -> None:
        a = report(out(1, b"same\n"), out(1, b"one\n"), CODE_0, tree=[])
        b = report(out(1, b"same\n"), b"exit 2 signal 15\n", out(2, b"two\n"), CODE_0, tree=[])
        same, one = ("standard output, 5 bytes", "same\n"), ("standard output, 4 bytes", "one\n")
        two, end = ("standard error, 4 bytes", "two\n"), ("process 1 ended with code 0", None)
        self.assertEqual(self.items(a, b), [
            [same, same], [one, ("process 2 ended by signal 15 (TERM)", None)], [end, two], [(END, None), end],
            [("", None), (END, None)]])
        self.assertEqual(self.items(b, a)[4], [(END, None), ("", None)])
        numbers = [item.parts[0] for item in self.document(a, b).find("li")]
        self.assertEqual(numbers[:4], ["1", "2", "3", "4"])
        self.assertIsInstance(numbers[4], Node)

    def test_bytes_are_marked_from_the_first_that_differs_to_the_line_s_end(self) -> None:
        far = b"y" * 2**21
        for first, second, marks in [
                (b"one\ntwo\nend\n", b"one\ntoo\nend\n", ["wo", "oo"]), (b"one\n", b"one two\n", ["", " two"]),
                (b"one", b"one\n", ["", ""]), ("\u20ac\n".encode(), "\u20ad\n".encode(), ["\u20ac", "\u20ad"]),
                (b"\x00" * 20, b"\x00" * 12 + b"\x01" * 8,
                 ["00000008  00 00 00 00 00 00 00 00  ........", "00000008  00 00 00 00 01 01 01 01  ........"]),
                (far + b"a\n", far + b"b\n", ["a", "b"])]:
            with self.subTest(first=first[-12:], second=second[-12:]):
                root = self.document(report(out(1, first), tree=[]), report(out(1, second), tree=[]))
                self.assertEqual([mark.text() for mark in root.find("mark")], marks)
                self.assertEqual([mark.kinds() for mark in root.find("mark")],
                                 [[] if mark else ["end"] for mark in marks])
        notes = [node.text() for node in cells_of_first(root)[-2].find("p", "note")]
        self.assertEqual(notes, ["2,093,056 bytes before are left out here"])

    def test_equal_reports_are_told_to_be_equal(self) -> None:
        root = self.document(SMALL, SMALL)
        self.assertEqual([node.text() for node in root.find("p", "equal")], ["equal"])
        self.assertEqual((root.find("li", "first"), root.find("tr", "differs"), root.find("mark")), ([], [], []))
        self.assertEqual([row[1] for row in rows_of(root)], ["A B"] * 5)

    def test_devices(self) -> None:
        root = self.document(DEVICES)
        self.assertEqual(rows_of(root), [
            ["/dev", "directory", "0755", "", "0", "2", ""],
            ["/dev/%20", "device random", "0444", "", "18,446,744,073,709,551,615", "4", ""],
            ["/dev/null", "device null", "0666", "", "0", "3", ""],
            ["/dev/%FF", "device zero", "4777", "", "2,000", "5", ""]])
        root = self.document(DEVICES, DEVICES.replace(b"0 null", b"0 zero"))
        self.assertEqual([[cell.text() for cell in row.all() if "new" in cell.kinds()]
                          for row in root.find("tr", "differs")], [["device null"], ["device zero"]])

    def test_what_differs_in_the_trees_is_marked(self) -> None:
        shared = file_line(inode=3, path="/both")
        a = report(CODE_0, tree=[file_line(), shared, b"link 4 0 /l one", b"dir 5 0755 0 /only"])
        b = report(CODE_0, tree=[file_line(mode="0600", size=1500, digest=OTHER_DIGEST), shared, b"link 4 0 /l two",
                                 b"dir 6 0755 0 /other"])
        root = self.document(a, b)
        file = ["file", "0644", "0", "0"]
        self.assertEqual(rows_of(root), [
            ["/a", "A", "differs: mode, size, content", *file, "2", EMPTY_DIGEST],
            ["/a", "B", "differs: mode, size, content", "file", "0600", "1,500", "0", "2", OTHER_DIGEST],
            ["/both", "A B", "", *file, "3", EMPTY_DIGEST],
            ["/l leads to one", "A", "differs: target", "link", "", "", "0", "4", ""],
            ["/l leads to two", "B", "differs: target", "link", "", "", "0", "4", ""],
            ["/only", "A", "only in A", "directory", "0755", "", "0", "5", ""],
            ["/other", "B", "only in B", "directory", "0755", "", "0", "6", ""]])
        self.assertEqual(["differs" in row.kinds() for row in root.find("tbody")[-1].find("tr")],
                         [True, True, False, True, True, True, True])
        self.assertEqual([[cell.text() for cell in row.all() if "new" in cell.kinds()]
                          for row in root.find("tr", "differs")], [
            ["0644", "0", EMPTY_DIGEST], ["0600", "1,500", OTHER_DIGEST], ["/l leads to one"], ["/l leads to two"],
            ["/only"], ["/other"]])

    def test_what_a_cut_tree_lacks_is_not_told_to_differ(self) -> None:
        whole = report(CODE_0, tree=[file_line(path="/a"), file_line(path="/c"), file_line(path="/d")])
        cut = report(CODE_0, tree=[file_line(path="/b"), file_line(path="/c"), file_line(path="/d")])[:-40]
        rows = rows_of(self.document(whole, cut, status=1))
        self.assertEqual([row[:3] for row in rows], [
            ["/a", "A", "only in A"], ["/b", "B", "only in B"], ["/c", "A B", ""],
            ["/d", "A", "not known in B, which is cut"]])

    def test_ends_of_processes_stand_side_by_side(self) -> None:
        root = self.document(report(b"exit 2 code 1\n", CODE_0, tree=[]), report(b"exit 3 code 2\n", CODE_0, tree=[]))
        rows = root.find("details")[0].find("tbody")[0].find("tr")
        self.assertEqual([[cell.text() for cell in row.parts] for row in rows], [
            ["1", "with code 0, event 2", "with code 0, event 2"], ["2", "with code 1, event 1", "not named"],
            ["3", "not named", "with code 2, event 1"]])


class LanesTest(unittest.TestCase):
    """The lanes: a letter for each column of a row, where `l` is a line, `d` a dotted one and `n` none."""

    def columns(self, *rows: Any) -> List[str]:
        return [drawing.columns for drawing in drawings(rows)]

    def test_a_lane_goes_down_to_the_end_of_its_process(self) -> None:
        output, ended = Output(1, 2, 0, b"a\n"), Verdict("ended")
        rows = [output, Exit(3, "code", 0), output, Exit(2, "code", 7), Exit(1, "code", 0), ended]
        # The second process is there when the third ends.
        self.assertEqual(self.columns(*rows), ["lddnnnnn", "llnnnnnn", "llnnnnnn", "lnnnnnnn", "nnnnnnnn", "nnnnnnnn"])
        signs = [re.findall(r'class="(\w+)" (?:d="M(\d+)|cx="(\d+))', drawing.signs) for drawing in drawings(rows)]
        self.assertEqual(signs, [[], [("dots", "30", ""), ("good", "", "30")], [],
                                 [("line", "18", ""), ("bad", "18", "")], [("line", "6", ""), ("good", "", "6")], []])

    def test_a_process_without_an_end_has_a_lane_to_the_last_row(self) -> None:
        output = Output(1, 2, 0, b"a\n")
        for end in Verdict("budget"), Verdict("deadlock"), Cut(20, "in event 2", b""):
            drawn = drawings([output, end])
            self.assertEqual([drawing.columns for drawing in drawn], ["lnnnnnnn", "nnnnnnnn"])
            self.assertIn('class="open"', drawn[1].signs)
        drawn = drawings([output, Verdict("unsupported", pid=2, number=5)])
        self.assertEqual([drawing.columns for drawing in drawn], ["ldnnnnnn", "nnnnnnnn"])
        self.assertEqual([drawing.signs for drawing in drawings([Verdict("nostart", errno=2)])], [""])

    def test_ids_stand_above_lanes_of_their_own(self) -> None:
        for pids, wanted in [([3, 20, 2], "1 2 3 20"), ([*range(2, 9)], "1 2 3 4 5 6 7 8"), ([*range(2, 10)], ""),
                             ([3, 100], "")]:
            rows = [*(Exit(pid, "code", 0) for pid in pids), Exit(1, "code", 0), Verdict("ended")]
            found = re.findall(r'x="(\d+)" y="\d+">(\d+)<', heads(rows))
            self.assertEqual(" ".join(pid for _, pid in found), wanted)
            self.assertEqual([int(x) for x, _ in found], [6 + 12 * at for at in range(len(found))])

    def test_many_processes_take_turns(self) -> None:
        rows = [*(Exit(pid, "code", 0) for pid in range(2, 102)), Exit(1, "code", 0), Verdict("ended")]
        columns = self.columns(*rows)
        self.assertEqual(columns[:3], ["lndddddd", "ldnddddd", "lddndddd"])
        self.assertEqual({len(letters) for letters in columns}, {8})
        for at, drawing in enumerate(drawings(rows)):
            self.assertEqual(drawing.signs.count("<circle"), 1 if at < 101 else 0)


class AloneTest(PageCase):
    """A page loads nothing, and runs its own script alone."""

    def test_nothing_is_referred_to_outside_the_page(self) -> None:
        for texts in [SMALL], [SMALL, SMALL.replace(b"/run %80", b"/run %90")], *([text] for text in examples()):
            page = self.page(*texts)
            root = Document(page).root
            for node in root.all():
                self.assertNotIn(node.tag, {"link", "img", "iframe", "object", "embed", "base", "form"})
                for name, value in node.members.items():
                    self.assertNotIn(name, {"src", "srcset", "style", "action", "data", "background"})
                    self.assertFalse(name.startswith("on"), name)
                    if name in ("href", "xlink:href"):
                        self.assertRegex(value, r"\A#[a-z0-9-]+\Z")
            for node in root.find("style") + root.find("script"):
                self.assertNotRegex(node.text(), r"url\(|@import|https?:|//[a-z]|import\(|fetch|XMLHttp|</")

    def test_the_policy_names_the_script_and_the_style(self) -> None:
        root = self.document(SMALL)
        policy = root.find("meta", **{"http-equiv": "Content-Security-Policy"})[0].members["content"]
        digests = {name: base64.b64encode(hashlib.sha256(root.find(name)[0].text().encode()).digest()).decode()
                   for name in ("style", "script")}
        self.assertEqual(policy, f"default-src 'none'; style-src 'sha256-{digests['style']}'; "
                                 f"script-src 'sha256-{digests['script']}'; base-uri 'none'; form-action 'none'")

    def test_tables_have_captions_and_headings_follow_each_other(self) -> None:
        for texts in [SMALL], [SMALL, SMALL]:
            root = self.document(*texts)
            self.assertEqual(root.find("html")[0].members["lang"], "en")
            self.assertEqual([node.tag for node in root.all() if re.match(r"h\d\Z", node.tag)], ["h1", "h2", "h2"])
            for table in root.find("table"):
                self.assertEqual(len(table.find("caption")), 1)
                for head in table.find("th"):
                    self.assertIn(head.members.get("scope"), ("row", "col"))
            self.assertEqual([node.members["for"] for node in root.find("label") if "for" in node.members], ["filter"])


class RefusedTest(PageCase):
    def test_what_is_no_report_gives_no_page(self) -> None:
        files = self.written(good=SMALL, bad=b"{}")
        missing, page = str(self.folder / "missing"), str(self.folder / "page.html")
        bad = f'report: {files["bad"]}: byte 1, line 1: not a report: expected "dettrace 1" or "dettrace 2", found "{{"\n'
        none = f"report: {missing}: cannot be read: No such file or directory\n"
        for names, told in [([files["bad"]], bad), ([files["good"], files["bad"]], bad), ([missing], none),
                            ([files["bad"], files["good"]], bad), ([files["good"], missing], none)]:
            for words in [], ["-o", page]:
                with self.subTest(names=names, words=words):
                    self.assertEqual(run("page", *names, *words), (2, b"", told))
                    self.assertFalse(os.path.exists(page))
        self.assertEqual(run("page", "-", "-", given=SMALL),
                         (2, b"", "report: only one of two reports can be -, standard input\n"))

    def test_a_report_that_is_cut_is_shown_as_far_as_it_goes(self) -> None:
        cases = [(0, []), (22, [("standard output, 3 of 6 bytes, no line's end", "hel")]),
                 (35, [("standard output, 6 bytes", "hello\n")])]
        for length, events in cases:
            with self.subTest(length=length):
                name = self.write("cut", SMALL[:length])
                result = run("page", name)
                where = {0: "before the first line", 22: "in event 1", 35: "in event 2"}[length]
                told = f"it ends after {length} bytes, {where}"
                self.assertEqual((result.status, result.errors), (1, f"report: {name}: the report is cut: {told}\n"))
                root = Document(result.output.decode()).root
                self.assertEqual([told_in(cell) for cell in cells_of_first(root)],
                                 [*events, (f"The report is cut: {told}.", None)])
                self.assertEqual([node.text() for node in root.find("section", id="tree")[0].find("p", "bad")],
                                 [f"The report is cut: {told}."])
                self.assertEqual(rows_of(root), [])

    def test_every_prefix_gives_a_page_beside_the_whole(self) -> None:
        whole = self.write("whole", SMALL)
        for length in range(0, len(SMALL), 3):
            with self.subTest(length=length):
                result = run("page", whole, "-", given=SMALL[:length])
                self.assertEqual((result.status, result.errors.count("\n")), (1, 1))
                root = Document(result.output.decode()).root
                self.assertRegex(root.find("p", "differing")[0].text(), r"\AB is cut: .*, and is a prefix of A\Z")
                self.assertEqual(root.find("li", "first"), [])

    def test_two_reports_that_are_cut_are_told_in_two_lines(self) -> None:
        files = self.written(one=SMALL[:22], two=SMALL[:30])
        result = run("page", files["one"], files["two"])
        self.assertEqual((result.status, result.errors.count(": the report is cut: ")), (1, 2))

    def test_a_page_that_cannot_be_written_is_told(self) -> None:
        name = self.write("one", SMALL)
        self.assertEqual(run("page", name, "-o", str(self.folder)),
                         (2, b"", f"report: {self.folder}: cannot be written: Is a directory\n"))
        self.assertEqual(run("page", name, "-o", ""),
                         (2, b"", "report: a file without a name: cannot be written: No such file or directory\n"))
        if os.path.exists("/dev/full"):
            with open("/dev/full", "wb") as full:
                done = run_script("page", name, stdout=full)
            self.assertEqual((done.returncode, done.stderr),
                             (2, b"report: standard output: cannot be written: No space left on device\n"))
            self.assertEqual(run("page", name, "-o", "/dev/full"),
                             (2, b"", "report: /dev/full: cannot be written: No space left on device\n"))

    def test_a_closed_output_ends_it_quietly(self) -> None:
        read_end, write_end = os.pipe()
        os.close(read_end)
        done = run_script("page", self.write("one", report(out(1, b"line\n" * 100000), tree=[])), stdout=write_end)
        os.close(write_end)
        self.assertEqual((done.returncode, done.stderr), (2, b""))

    def test_wrong_words_are_refused_and_the_help_says_the_statuses(self) -> None:
        for words, named in [(["page"], "REPORT"), (["page", "a", "b", "c"], "c"), (["page", "a", "-o"], "-o")]:
            result = run(*words)
            self.assertEqual((result.status, result.output), (2, b""))
            self.assertRegex(result.errors, rf"\Areport: [^\n]*{named}[^\n]* \(report [a-z ]*--help says more\)\n\Z")
        text = run("page", "--help").output.decode()
        self.assertIn("json, output and page: a report is cut, and what is there was written", text)
        self.assertIn(f"at most {page_bytes.SHOWN:,} bytes", text)
        self.assertLessEqual(max(map(len, text.split("\n"))), 120)


def many_events(count: int, other: Optional[int] = None) -> bytes:
    """A report of so many events, of which one can be another than it is without."""
    parts = []
    for at in range(1, count):
        if at % 20 == 0:
            parts.append(b"exit %d code %d\n" % (at // 20 + 1, at // 20 % 10 == 0))
        else:
            parts.append(out(1 + (at % 7 == 0), b"%s %d of <many>\n" % (b"Line" if at == other else b"line", at)))
    tree = [file_line(inode=at + 2, size=at, path=f"/file{at:04}") for at in range(4095)]
    return report(*parts, CODE_0, tree=tree)


class ManyTest(PageCase):
    def test_50000_events_are_all_there_in_short_lists(self) -> None:
        started = time.process_time()
        page = self.page(many_events(50000), many_events(50000, other=40001))
        self.assertLess(time.process_time() - started, 60)
        self.assertEqual(re.findall(r'<li id="e(\d+)"', page), [str(at) for at in range(1, 50002)])
        self.assertEqual(re.findall(r'<li id="e(\d+)"[^>]* class="first"', page), ["40001"])
        self.assertEqual(page.count("line 49999 of &lt;many&gt;\n"), 2)
        self.assertEqual(max(part.count("<li ") for part in page.split("<ol ")), 100)
        self.assertEqual(page.split('<section id="tree"')[1].count("<tr>"), 4096)
        self.assertLess(len(page), 60_000_000)


# Tells the test what a browser does with a page, in the place of the page.
TELL = "document.documentElement.replaceChildren(JSON.stringify((() => { %s })()));"
# Whether the boxes of texts in a cell lie in it, and beside or below each other.
OVERLAPS = """
const boxes = [], told = [];
for (const cell of document.querySelectorAll(".events .a, .events .b, .summary tr, #tree tr, nav, .filter")) {
  const parts = Array.from(cell.querySelectorAll(":scope > p, :scope > pre, :scope > th, :scope > td, :scope > a, " +
    ":scope > label, :scope > input, :scope > output"));
  const all = parts.map((part) => [part, part.getBoundingClientRect()]);
  const shown = all.filter(([, box]) => box.width * box.height > 1);
  for (const [at, [part, box]] of shown.entries()) {
    boxes.push(box);
    if (part.scrollWidth > part.clientWidth + 1 && getComputedStyle(part).overflowX === "visible" && part.clientWidth) {
      told.push("wide: " + part.textContent.slice(0, 40));
    }
    for (const [other, next] of shown.slice(at + 1)) {
      const isBeside = box.right <= next.left + 1 || next.right <= box.left + 1;
      if (!isBeside && box.bottom > next.top + 1 && next.bottom > box.top + 1) {
        told.push(part.textContent.slice(0, 40) + " | " + other.textContent.slice(0, 40));
      }
    }
  }
}
return [innerWidth, document.documentElement.scrollWidth, boxes.length, told];
"""
KEYS = """
const events = document.getElementById("events");
const press = (key) => {
  document.activeElement.dispatchEvent(new KeyboardEvent("keydown", { key, bubbles: true, cancelable: true }));
  return document.activeElement.id;
};
const first = events.querySelector("li[tabindex='0']");
first.focus();
const keys = ["ArrowUp", "ArrowDown", "ArrowDown", "ArrowUp", "End", "ArrowDown", "ArrowUp", "Home", "x"];
const been = [document.activeElement.id, ...keys.map(press)];
const outline = getComputedStyle(document.activeElement).outlineStyle;
return [been, events.querySelectorAll("li[tabindex='0']").length, outline];
"""
FILTER = """
const filter = document.getElementById("filter"), only = document.getElementById("only");
const shown = () => [Array.from(document.querySelectorAll("#tree tbody tr")).filter((row) => row.offsetHeight)
  .map((row) => row.cells[0].textContent), document.getElementById("filter-count").textContent];
const type = (text) => { filter.value = text; filter.dispatchEvent(new Event("input")); return shown(); };
const told = [shown(), type("B"), type("no such path"), type("")];
if (only) { only.click(); told.push(shown()); }
return told;
"""
SEEN = """
const item = document.getElementById("%s");
item.scrollIntoView();
item.focus();
const box = item.getBoundingClientRect();
return [document.getElementsByTagName("li").length, box.top < innerHeight && box.bottom > 0, item.innerText.trim()];
"""


@needs_browser
class BrowserTest(PageCase):
    """What a real browser makes of a page."""

    def dump(self, page: str, *options: str) -> str:
        """The document that a browser makes of a page, once its scripts have run."""
        (self.folder / "page.html").write_text(page, encoding="utf-8", newline="\n")
        # Not every machine has a sandbox for a browser, and the page is this test's own.
        words = [BROWSER, "--headless", "--no-sandbox", "--disable-gpu", "--hide-scrollbars", *options, "--dump-dom"]
        with tempfile.TemporaryDirectory() as profile:
            done = subprocess.run([*words, f"--user-data-dir={profile}", (self.folder / "page.html").as_uri()],
                                  capture_output=True, timeout=300, check=False, env={**os.environ, "HOME": profile})
        self.assertEqual(done.returncode, 0, done.stderr)
        return done.stdout.decode()

    def told(self, page: str, script: str, *options: str) -> Any:
        """What a script answers that runs in the page, which then has no policy that would keep it from running."""
        page = re.sub(r'<meta http-equiv="Content-Security-Policy"[^>]*>', "", page)
        asked = f"<script>addEventListener('load', () => {{ {TELL % script} }});</script></body>"
        dumped = self.dump(page.replace("</body>", asked), *options)
        return json.loads(html.unescape(re.split(r"<html[^>]*>|</html>", dumped)[1]))

    def test_the_text_of_each_event_and_path_is_what_was_written(self) -> None:
        events = [out(1 + at % 2, text.encode()) for at, text in enumerate(HOSTILE)]
        page = self.page(report(*events, b"exit 2 signal 9\n", CODE_0, tree=[file_line(path=path)
                                                                            for path in HOSTILE_PATHS]))
        title, texts, heads, paths, tags = self.told(page, """
            const texts = (chosen) => Array.from(document.querySelectorAll(chosen)).map((node) => node.textContent);
            return [document.title, texts("li pre"), texts("li p"), texts("#tree tbody th"),
                    ["script", "style", "img", "form"].map((tag) => document.getElementsByTagName(tag).length)];""")
        self.assertEqual(texts, HOSTILE)
        self.assertEqual(paths, HOSTILE_PATHS)
        self.assertEqual(heads[len(HOSTILE):],
                         ["process 2 ended by signal 9 (KILL)", "process 1 ended with code 0", END])
        self.assertTrue(title.endswith(": a run of dettrace"), title)
        # The second script is that of this test.
        self.assertEqual(tags, [2, 1, 0, 0])

    def test_every_event_and_path_of_the_examples_is_in_the_dom(self) -> None:
        texts = examples()
        both = self.page(texts[0], texts[-1])
        for page in [*map(self.page, texts[:3]), both]:
            wanted = Document(page).root
            found = Document(re.sub(r"(?s)\A.*?(?=<body)|</html>\s*\Z", "", self.dump(page))).root
            for tag in "li", "tr":
                # A browser drops the first line's end of an element `pre`.
                self.assertEqual(*([re.sub(r"\s+", "", node.text()) for node in root.find(tag)]
                                   for root in (found, wanted)))

    def test_no_other_script_runs(self) -> None:
        page = self.page(SMALL)
        script = "<script>document.title = 'taken';</script></body>"
        self.assertIn("a run of dettrace</title>", self.dump(page.replace("</body>", script)))
        without = re.sub(r'<meta http-equiv="Content-Security-Policy"[^>]*>', "", page)
        self.assertIn("<title>taken</title>", self.dump(without.replace("</body>", script)))
        self.assertIn(">5 of 5 lines</output>", self.dump(page))

    def test_events_and_tree_are_there_without_scripts(self) -> None:
        dumped = self.dump(re.sub("script-src '[^']*'", "script-src 'none'", self.page(SMALL)))
        for text in "hello\n", "process 31 ended by signal 9 (KILL)", END, "../a%20%25b", 'scripted" hidden=""':
            self.assertIn(text, dumped)
        self.assertNotIn("of 5 lines", dumped)

    def test_the_filter_shows_what_fits(self) -> None:
        tree = [b"dir 2 0755 0 /bin", file_line(inode=3, path="/bin/One"), file_line(inode=4, path="/other")]
        one = report(CODE_0, tree=tree)
        every, some = ["/bin", "/bin/One", "/other"], ["/bin", "/bin/One"]
        self.assertEqual(self.told(self.page(one), FILTER), [
            [every, "3 of 3 lines"], [some, "2 of 3 lines"], [[], "0 of 3 lines"], [every, "3 of 3 lines"]])
        two = report(CODE_0, tree=[tree[0], file_line(inode=3, mode="0600", path="/bin/One"), tree[2]])
        told = self.told(self.page(one, two), FILTER)
        self.assertEqual(told[1], [["/bin", "/bin/One", "/bin/One"], "3 of 4 lines"])
        self.assertEqual(told[4], [["/bin/One", "/bin/One"], "2 of 4 lines"])

    def test_keys_lead_from_event_to_event(self) -> None:
        page = self.page(report(*(out(1, b"%d\n" % at) for at in range(150)), CODE_0, tree=[]))
        been, count, outline = self.told(page, KEYS)
        self.assertEqual(been, ["e1", "e1", "e2", "e3", "e2", "e152", "e152", "e151", "e1", "e1"])
        self.assertEqual((count, outline), (1, "solid"))
        step = 'document.getElementById("e100").focus(); ' + KEYS.split("const first")[0]
        self.assertEqual(self.told(page, step + 'return [press("ArrowDown"), press("ArrowUp")];'), ["e101", "e100"])

    def test_no_texts_overlap_at_any_width(self) -> None:
        long = report(out(1, b"a-long-line-without-spaces" * 20 + b"\n"), out(2, bytes(range(200))),
                      *(b"exit %d signal 15\n" % pid for pid in range(2, 12)), CODE_0,
                      tree=[file_line(size=16777216, stamp=10**12, path="/" + "/".join(["a-long-name"] * 20))])
        other = long.replace(b"without", b"WITHOUT").replace(b" 0644 ", b" 0600 ")
        widths = 320, 400, 800, 1600
        for texts in [long], [long, other]:
            # A browser's own window has a least width, and a frame has none.
            page = re.sub(r'<meta http-equiv="Content-Security-Policy"[^>]*>', "", self.page(*texts))
            frames = "".join(f'<iframe style="border: 0" width="{width}" height="900" srcdoc="{html.escape(page)}">'
                             "</iframe>" for width in widths)
            asked = "return Array.from(document.querySelectorAll('iframe')).map((frame) => " \
                    f"frame.contentWindow.Function({json.dumps(OVERLAPS)})());"
            told = self.told(f"<!DOCTYPE html><html><body>{frames}</body></html>", asked, "--window-size=1700,1000")
            for width, (inner, scrolled, boxes, overlapping) in zip(widths, told):
                with self.subTest(count=len(texts), width=width):
                    self.assertEqual((inner, scrolled, overlapping), (width, width, []))
                    self.assertGreater(boxes, 30)

    def test_colours_follow_the_scheme(self) -> None:
        script = """const style = getComputedStyle(document.body);
            return [style.backgroundColor, style.color].map((colour) => colour.match(/\\d+/g).map(Number));"""
        for scheme, is_dark in (1, False), (0, True):
            ground, text = self.told(self.page(SMALL), script, f"--blink-settings=preferredColorScheme={scheme}")
            self.assertEqual(sum(ground) < sum(text), is_dark)
            self.assertGreater(abs(sum(ground) - sum(text)), 450)

    def test_50000_events_can_be_looked_at(self) -> None:
        page = self.page(many_events(50000), many_events(50000, other=40001))
        count, is_seen, text = self.told(page, SEEN % "e40001", "--window-size=1200,800")
        self.assertEqual((count, is_seen), (50001, True))
        self.assertEqual(text.split("\n")[0], "40001")
        self.assertIn("Line 40001 of <many>", text)


if __name__ == "__main__":
    unittest.main()
