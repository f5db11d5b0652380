"""Tests of the tool for reports: what it reads and refuses, its JSON, the bytes of streams, and its statuses."""
from __future__ import annotations

import base64
import json
import re
import unittest
from typing import Any, Dict, List, Union
from unittest import mock

from reportlib import reader
from reportlib.reader import Cut, Item, NotReport, Output, Reader
from reportlib.testing import (DEVICES, EMPTY_DIGEST, OTHER_DIGEST, SMALL, Case, examples, file_line, out, report, run,
                            run_script)

NEVER = re.compile(rb"(?!)")
HEAD = b"dettrace 1\n"
TREE = HEAD + b"verdict ended\ntree 2\n"
BIN = b"dir 3 0755 0 /bin\n"
ESCAPE = 'two upper-case hexadecimal digits of a byte that is to be escaped'
PLAIN = 'a character or, for a control, a space, "%" or a byte past ASCII, its escape by "%"'
ORDER = "a path behind the one before it in byte order"
U64 = "a number from 0 to 18446744073709551615"
FROM_1 = "a number from 1 to 18446744073709551615"


def read(text: bytes, size: int = 65536) -> List[Union[Item, Cut, None]]:
    """The items of a text that comes in blocks of this size, and its end."""
    reader = Reader()
    items: List[Union[Item, Cut, None]] = []
    for at in range(0, len(text), size):
        items += reader.feed(text[at:at + size])
    return [*items, reader.finish()]


def outcome(text: bytes, size: int = 65536) -> Union[List[Any], str]:
    """The same with the pieces of each output put together, or why the text is refused."""
    try:
        items = read(text, size)
    except NotReport as error:
        return str(error)
    joined: List[Any] = []
    for item in items:
        if isinstance(item, Output) and joined and isinstance(joined[-1], Output) and item.start + len(item.data) > 0 \
                and len(joined[-1].data) == item.start:
            item = item._replace(start=0, data=joined.pop().data + item.data)
        joined.append(item)
    return joined


def bytes_positions(text: bytes) -> List[bool]:
    """For each position of SMALL or another whole report, whether it lies in the bytes of an output."""
    inside = [False] * (len(text) + 1)
    at = 0
    while at < len(text):
        end = text.index(b"\n", at) + 1
        if text.startswith(b"out ", at):
            size = int(text[at:end].split()[2])
            inside[end:end + size] = [True] * size
            end += size + 1
        at = end
    return inside


class PrefixTest(unittest.TestCase):
    def test_every_prefix_is_cut_where_it_ends(self) -> None:
        for length in range(len(SMALL)):
            prefix = SMALL[:length]
            with self.subTest(length=length):
                end = read(prefix)[-1]
                self.assertIsInstance(end, Cut)
                self.assertEqual(end.size, length)
        self.assertIsNone(read(SMALL)[-1])

    def test_where_a_cut_is_is_told(self) -> None:
        places = [
            (b"", "before the first line"), (b"dettra", "in the first line"), (HEAD[:-1], "in the first line"),
            (HEAD, "behind the first line"), (HEAD + b"o", "in event 1"), (HEAD + b"out 1 3\n", "in event 1"),
            (HEAD + b"out 1 3\nabc", "in event 1"), (HEAD + out(1, b"abc"), "behind event 1"),
            (HEAD + out(1, b"abc") + b"exit 2 code 0", "in event 2"), (HEAD + b"verd", "in the verdict"),
            (HEAD + b"verdict ended", "in the verdict"), (report(), "behind the verdict"),
            (report() + b"tree 1", "in the line that begins the tree"), (TREE, "before tree line 1 of 2"),
            (TREE + b"dir 3", "in tree line 1 of 2"), (TREE + BIN, "before tree line 2 of 2"),
            (TREE + BIN + b"link 4 0 /bin/a b", "in tree line 2 of 2")]
        for text, where in places:
            with self.subTest(text=text):
                rest = b"" if b"\nout 1 3\nabc" == text[-12:] else text[text.rfind(b"\n") + 1:]
                self.assertEqual(read(text)[-1], Cut(len(text), where, rest))

    def test_a_wrong_byte_behind_each_prefix_is_refused_at_its_offset(self) -> None:
        inside = bytes_positions(SMALL)
        self.assertEqual(inside.count(True), 10)
        for length in range(len(SMALL) + 1):
            for wrong in (b"\x00", b"\r", b"\x80"):
                text = SMALL[:length] + wrong
                with self.subTest(text=text):
                    if inside[length]:
                        self.assertEqual(read(text)[-1].size, length + 1)
                        continue
                    line = SMALL.count(b"\n", 0, length) + 1
                    told = f"byte {length + 1}, line {line}: not a report: expected "
                    with self.assertRaises(NotReport) as caught:
                        read(text)
                    self.assertEqual(str(caught.exception)[:len(told)], told)
                    self.assertTrue(str(caught.exception).endswith(f", found the byte 0x{wrong[0]:02X}"))

    def test_what_is_read_does_not_depend_on_the_blocks(self) -> None:
        texts = [SMALL, SMALL[:40], SMALL[:-3], SMALL + b"x", SMALL.replace(b"signal 9", b"signal 99"), *examples()]
        for text in texts:
            whole = outcome(text)
            for size in (1, 2, 7, 64):
                with self.subTest(text=text, size=size):
                    self.assertEqual(outcome(text, size), whole)

    def test_the_fast_way_reads_what_the_exact_way_reads(self) -> None:
        texts = [SMALL[:at] + change + SMALL[at + 1:]
                 for at in range(len(SMALL)) for change in (b"", b"0", b"/", b" ", b"%", b"\n")]
        fast = [outcome(text) for text in texts]
        with mock.patch.object(reader, "FAST_EVENT", NEVER), \
                mock.patch.object(reader, "FAST_FILE", NEVER), \
                mock.patch.object(reader, "FAST_DIR", NEVER):
            for text, expected in zip(texts, fast):
                with self.subTest(text=text):
                    self.assertEqual(outcome(text), expected)


# Texts that are no reports: the offset of the first wrong byte, what is expected there, and what is found.
NOT_REPORTS = [
    (b"{}", 1, 1, '"dettrace 1" or "dettrace 2"', '"{"'),
    (b"dettrace: image refused: 1 NoIndex\n", 9, 1, '" 1" or " 2"', '":"'),
    (b"dettrace 3\n", 10, 1, '"1" or "2"', '"3"'),
    (b"dettrace 2 \n", 11, 1, "a line's end", "a space"),
    (b"dettrace 1\r\n", 11, 1, "a line's end", "the byte 0x0D"),
    (b"\ndettrace 1\n", 1, 1, '"dettrace 1" or "dettrace 2"', "a line's end"),
    (HEAD + b"\n", 12, 2, '"out" or "exit" or "verdict"', "a line's end"),
    (HEAD + b"exix 1 code 0\n", 15, 2, '"t"', '"x"'),
    (HEAD + b"out 3 1\na\n", 16, 2, '"1" or "2"', '"3"'),
    (HEAD + b"out 0 1\na\n", 16, 2, '"1" or "2"', '"0"'),
    (HEAD + b"out 1 0\n\n", 18, 2, FROM_1, '"0"'),
    (HEAD + b"out 1 01\na\n", 18, 2, FROM_1, '"0"'),
    (HEAD + b"out 1 -1\n", 18, 2, FROM_1, '"-"'),
    (HEAD + b"out 1 1 \na\n", 19, 2, "a line's end", "a space"),
    (HEAD + b"out 1 18446744073709551616\n", 37, 2, FROM_1, '"6"'),
    (HEAD + b"out 1 184467440737095516150\n", 38, 2, FROM_1, '"0"'),
    (HEAD + b"out 1 2\nabverdict", 22, 3, "a line's end behind the 2 bytes of the output", '"v"'),
    (HEAD + b"out 1 1\nabc\n", 21, 3, "a line's end behind the 1 byte of the output", '"b"'),
    (HEAD + b"out 1 2\n\n\n\x80", 22, 5, "a line's end behind the 2 bytes of the output", "the byte 0x80"),
    (HEAD + b"exit 0 code 0\n", 17, 2, FROM_1, '"0"'),
    (HEAD + b"exit 01 code 0\n", 17, 2, FROM_1, '"0"'),
    (HEAD + b"exit 1 code 256\n", 26, 2, "a number from 0 to 255", '"6"'),
    (HEAD + b"exit 1 code 00\n", 25, 2, "a number without leading zeros", '"0"'),
    (HEAD + b"exit 1 code \n", 24, 2, "a number from 0 to 255", "a line's end"),
    (HEAD + b"exit 1 signal 0\n", 26, 2, "a number from 1 to 64", '"0"'),
    (HEAD + b"exit 1 signal 65\n", 27, 2, "a number from 1 to 64", '"5"'),
    (HEAD + b"exit 1 status 0\n", 20, 2, '"ignal"', '"t"'),
    (HEAD + b"exit 1 code 0\nverdict nostart 2\n", 34, 3, '"ended" or "deadlock" or "budget" or "unsupported"', '"n"'),
    (HEAD + b"verdict Ended\n", 20, 2, '"ended" or "deadlock" or "budget" or "unsupported" or "nostart"', '"E"'),
    (HEAD + b"verdict ended 0\n", 25, 2, "a line's end", "a space"),
    (HEAD + b"verdict unsupported 0 5\n", 32, 2, FROM_1, '"0"'),
    (HEAD + b"verdict unsupported 1\n", 33, 2, "a space", "a line's end"),
    (HEAD + b"verdict unsupported 1 18446744073709551616\n", 53, 2, U64, '"6"'),
    (HEAD + b"verdict nostart 02\n", 29, 2, "a number without leading zeros", '"2"'),
    (HEAD + b"verdict nostart\n", 27, 2, "a space", "a line's end"),
    (HEAD + b"tree 0\n", 12, 2, '"out" or "exit" or "verdict"', '"t"'),
    (report() + b"verdict ended\n", 26, 3, '"tree"', '"v"'),
    (report() + b"tree 01\n", 32, 3, "a number without leading zeros", '"1"'),
    (report() + b"tree -1\n", 31, 3, U64, '"-"'),
    (report(tree=[]) + BIN, 33, 4, "nothing behind 0 lines of the tree", '"d"'),
    (report(tree=[b"dir 2 0755 0 /a"]) + b"\n", 49, 5, "nothing behind 1 line of the tree", "a line's end"),
    (TREE + BIN + b"exit 1 code 0\n", 51, 5, '"file" or "dir" or "link"', '"e"'),
    (TREE + BIN + b"dir 4 0755 0 /c\nlink 5 0 /d c\n", 67, 6, "nothing behind 2 lines of the tree", '"l"')]

# The same of a line of a tree that follows the line of /bin: the offset in that line alone.
NOT_LINES = [
    (b" dir 4 0755 0 /c\n", 1, '"file" or "dir" or "link"', "a space"),
    (b"fifo 4 0755 0 /c\n", 3, '"le"', '"f"'),
    (b"dir 04 0755 0 /c\n", 6, "a number without leading zeros", '"4"'),
    (b"dir 4 0855 0 /c\n", 8, "a mode of four octal digits", '"8"'),
    (b"dir 4 755 0 /c\n", 10, "a mode of four octal digits", "a space"),
    (b"dir 4 00755 0 /c\n", 11, "a space", '"5"'),
    (b"dir 4 0755 18446744073709551616 /c\n", 31, U64, '"6"'),
    (b"dir 4 0755 /c\n", 12, U64, '"/"'),
    (b"dir 4 0755 0  /c\n", 14, 'a path, which begins with "/"', "a space"),
    (b"file 4 0644 0 /c\n", 15, U64, '"/"'),
    (file_line(digest=EMPTY_DIGEST[1:], path="/c"), 80, "a digest of 64 lower-case hexadecimal digits", "a space"),
    (file_line(digest=EMPTY_DIGEST.upper(), path="/c"), 17, "a digest of 64 lower-case hexadecimal digits", '"E"'),
    (file_line(digest=EMPTY_DIGEST + "0", path="/c"), 81, "a space", '"0"'),
    (b"link 4 0755 0 /c d\n", 9, "a number without leading zeros", '"7"'),
    (b"dir 4 0755 0 c\n", 14, 'a path, which begins with "/"', '"c"'),
    (b"dir 4 0755 0 /\n", 15, "a name of the path", "a line's end"),
    (b"dir 4 0755 0 //c\n", 15, "a name of the path", '"/"'),
    (b"dir 4 0755 0 /c/\n", 17, "a name of the path", "a line's end"),
    (b"dir 4 0755 0 /c d\n", 16, "a line's end", "a space"),
    (b"dir 4 0755 0 /c\t\n", 16, PLAIN, "the byte 0x09"),
    (b"dir 4 0755 0 /c\x7f\n", 16, PLAIN, "the byte 0x7F"),
    (b"dir 4 0755 0 /\xc3\xa9\n", 15, PLAIN, "the byte 0xC3"),
    (b"dir 4 0755 0 /c%c3\n", 17, ESCAPE, '"c"'),
    (b"dir 4 0755 0 /c%C\n", 18, ESCAPE, "a line's end"),
    (b"dir 4 0755 0 /c%2f\n", 18, ESCAPE, '"f"'),
    (b"dir 4 0755 0 /c%2F\n", 18, ESCAPE, '"F"'),
    (b"dir 4 0755 0 /c%41\n", 17, ESCAPE, '"4"'),
    (b"dir 4 0755 0 /c%7E\n", 18, ESCAPE, '"E"'),
    (b"dir 4 0755 0 /a\n", 15, ORDER, '"a"'),
    (b"dir 4 0755 0 /bh\n", 16, ORDER, '"h"'),
    (b"dir 4 0755 0 /bi\n", 17, ORDER, "a line's end"),
    (b"dir 4 0755 0 /bin\n", 18, ORDER, "a line's end"),
    (b"link 4 0 /bin a\n", 14, ORDER, "a space"),
    (b"dir 4 0755 0 /%20\n", 16, ORDER, '"2"'),
    (b"dir 4 0755 0 /b%25\n", 17, ORDER, '"2"'),
    (b"dir 4 0755 0 /%7F/\n", 19, "a name of the path", "a line's end"),
    (b"link 4 0 /c\n", 12, "a space", "a line's end"),
    (b"link 4 0 /c \n", 13, PLAIN, "a line's end"),
    (b"link 4 0 /c d e\n", 14, "a line's end", "a space"),
    (b"link 4 0 /c %5e\n", 14, ESCAPE, '"5"')]

# And of a report of version 2. One of version 1 has no devices at all.
KINDS = '"file" or "dir" or "link" or "dev"'
NAMES = '"null" or "zero" or "random"'
NOT_LINES_2 = [
    (b" dev 4 0666 0 null /c\n", 1, KINDS, "a space"),
    (b"dx 4 0666 0 null /c\n", 2, '"ir" or "ev"', '"x"'),
    (b"devi 4 0666 0 null /c\n", 4, "a space", '"i"'),
    (b"dev 04 0666 0 null /c\n", 6, "a number without leading zeros", '"4"'),
    (b"dev 4 666 0 null /c\n", 10, "a mode of four octal digits", "a space"),
    (b"dev 4 0666 0 /c\n", 14, NAMES, '"/"'),
    (b"dev 4 0666 0 tty /c\n", 14, NAMES, '"t"'),
    (b"dev 4 0666 0 nul /c\n", 17, '"l"', "a space"),
    (b"dev 4 0666 0 nulls /c\n", 18, "a space", '"s"'),
    (b"dev 4 0666 0 zero\n", 18, "a space", "a line's end"),
    (b"dev 4 0666 0 null /a\n", 20, ORDER, '"a"'),
    (b"dev 4 0666 0 null /c d\n", 21, "a line's end", "a space"),
    (file_line(path="/a"), 83, ORDER, '"a"')]

# Texts of paths in the byte order of the paths, which is not the order of the texts.
ORDERED = [b"/%00", b"/%20", b"/!", b"/%25", b"/-", b"/A", b"/a", b"/a%09", b"/a%20b", b"/a-", b"/a/b", b"/a/%FF",
           b"/aa", b"/~", b"/%7F", b"/%80", b"/%C3%A9", b"/%C3%AA", b"/%FF", b"/%FF%FF"]


class RefusalTest(Case):
    def test_each_text_that_is_no_report_is_refused_with_its_line(self) -> None:
        for text, byte, line, expected, found in NOT_REPORTS:
            with self.subTest(text=text):
                name = self.write("text", text)
                told = f"report: {name}: byte {byte}, line {line}: not a report: expected {expected}, found {found}\n"
                result = run("output", name)
                self.assertEqual((result.status, result.errors), (2, told))

    def test_each_line_that_no_tree_has_is_refused(self) -> None:
        before = TREE + BIN
        for line, offset, expected, found in NOT_LINES:
            with self.subTest(line=line):
                with self.assertRaises(NotReport) as caught:
                    read(before + line)
                self.assertEqual(str(caught.exception), f"byte {len(before) + offset}, line 5: not a report: "
                                                        f"expected {expected}, found {found}")

    def test_lines_of_devices_that_no_tree_has_are_refused(self) -> None:
        before = (TREE + BIN).replace(HEAD, b"dettrace 2\n")
        rows = [(before, *row) for row in NOT_LINES_2] + [(TREE + BIN, b"dev 4 0666 0 null /c\n", 2, '"ir"', '"e"')]
        for begin, line, offset, expected, found in rows:
            with self.subTest(line=line):
                with self.assertRaises(NotReport) as caught:
                    read(begin + line)
                self.assertEqual(str(caught.exception), f"byte {len(begin) + offset}, line 5: not a report: "
                                                        f"expected {expected}, found {found}")

    def test_paths_come_in_the_byte_order_of_what_they_escape(self) -> None:
        for before in ORDERED:
            for after in ORDERED:
                with self.subTest(before=before, after=after):
                    text = report(tree=[b"dir 4 0755 0 " + before, b"link 5 0 " + after + b" t"])
                    if ORDERED.index(before) < ORDERED.index(after):
                        self.assertIsNone(read(text)[-1])
                        continue
                    with self.assertRaises(NotReport) as caught:
                        read(text)
                    self.assertIn(f"expected {ORDER}, found ", str(caught.exception))

    def test_a_beginning_that_no_greater_path_has_is_refused(self) -> None:
        for written, found in [(b"/bi", None), (b"/bin", None), (b"/%", None), (b"/%2", '"2"'), (b"/a", '"a"'),
                               (b"/b%", None), (b"/b%0", '"0"'), (b"/b%7", None), (b"/b%8", None)]:
            with self.subTest(written=written):
                text = TREE + BIN + b"dir 4 0755 0 " + written
                if found is None:
                    self.assertEqual(read(text)[-1].size, len(text))
                    continue
                with self.assertRaises(NotReport) as caught:
                    read(text)
                self.assertEqual(str(caught.exception), f"byte {len(text)}, line 5: not a report: "
                                                        f"expected {ORDER}, found {found}")

    def test_the_greatest_numbers_are_read(self) -> None:
        highest = b"18446744073709551615"
        line = f"file {highest.decode()} 7777 {highest.decode()} {highest.decode()} {EMPTY_DIGEST} /a".encode()
        text = report(b"exit %b code 255\n" % highest, b"exit 1 signal 64\n",
                      verdict=b"unsupported %b %b" % (highest, highest), tree=[line])
        self.assertIsNone(read(text)[-1])
        self.assertEqual(read(HEAD + b"out 2 " + highest + b"\nab")[-1], Cut(len(HEAD) + 29, "in event 1", b""))

    def test_a_long_line_that_is_wrong_is_refused_at_its_offset(self) -> None:
        text = TREE + b"link 4 0 /" + b"a" * 300000 + b" b"
        with self.assertRaises(NotReport) as caught:
            read(text + b" ")
        self.assertEqual(str(caught.exception), f"byte {len(text) + 1}, line 4: not a report: "
                                                "expected a line's end, found a space")
        self.assertEqual(read(text + b"\n")[-1], Cut(len(text) + 1, "before tree line 2 of 2", b""))

    def test_what_stands_before_the_wrong_byte_is_written(self) -> None:
        text = HEAD + out(1, b"one") + out(2, b"two") + b"end\n"
        told = "report: standard input: byte 37, line 6: not a report: expected \"xit\", found \"n\"\n"
        self.assertEqual(run("output", "-", given=text), (2, b"onetwo", told))
        lines = (b'{"version": 1, "events": [\n{"kind": "out", "stream": 1, "size": 3, "text": "one"},\n'
                 b'{"kind": "out", "stream": 2, "size": 3, "text": "two"}')
        self.assertEqual(run("json", "-", given=text), (2, lines, told))


SMALL_JSON = """{"version": 1, "events": [
{"kind": "out", "stream": 1, "size": 6, "text": "hello\\n"},
{"kind": "exit", "pid": 2, "code": 255},
{"kind": "out", "stream": 2, "size": 4, "base64": "Cv8ACg=="},
{"kind": "exit", "pid": 31, "signal": 9},
{"kind": "exit", "pid": 1, "code": 0}
], "verdict": {"kind": "ended"}, "tree": [
{"kind": "dir", "inode": 3, "mode": "0750", "stamp": 5000, "path": "/bin"},
{"kind": "file", "inode": 2, "mode": "0644", "stamp": 0, "size": 0, "sha256": "%s", "path": "/bin/ \u00e9"},
{"kind": "file", "inode": 9, "mode": "4755", "stamp": 12000, "size": 89, "sha256": "%s", \
"path_base64": "L2Jpbi9h/w=="},
{"kind": "link", "inode": 4, "stamp": 7000, "path_base64": "L2Jpbi9h/yU=", "target": "../a %%b"},
{"kind": "link", "inode": 5, "stamp": 18446744073709551615, "path": "/run", "target_base64": "gA=="}
], "cut": null}
""" % (EMPTY_DIGEST, OTHER_DIGEST)


DEVICES_JSON = """{"version": 2, "events": [
{"kind": "exit", "pid": 1, "code": 0}
], "verdict": {"kind": "ended"}, "tree": [
{"kind": "dir", "inode": 2, "mode": "0755", "stamp": 0, "path": "/dev"},
{"kind": "dev", "inode": 4, "mode": "0444", "stamp": 18446744073709551615, "path": "/dev/ ", "device": "random"},
{"kind": "dev", "inode": 3, "mode": "0666", "stamp": 0, "path": "/dev/null", "device": "null"},
{"kind": "dev", "inode": 5, "mode": "4777", "stamp": 2000, "path_base64": "L2Rldi//", "device": "zero"}
], "cut": null}
"""


def escaped(data: bytes) -> bytes:
    return b"".join(b"%%%02X" % byte if byte < 33 or byte == 37 or byte > 126 else bytes([byte]) for byte in data)


def bytes_of(members: Dict[str, Any], text_name: str, base64_name: str) -> bytes:
    if text_name in members:
        return members[text_name].encode()
    return base64.b64decode(members[base64_name], validate=True)


def report_of(text: bytes) -> bytes:
    """The report whose JSON this is."""
    whole = json.loads(text)
    parts = [b"dettrace %d\n" % whole["version"]]
    for event in whole["events"]:
        if event["kind"] == "out":
            parts.append(out(event["stream"], bytes_of(event, "text", "base64")))
        else:
            how = "code" if "code" in event else "signal"
            parts.append(f"exit {event['pid']} {how} {event[how]}\n".encode())
    parts.append(" ".join(["verdict", *map(str, whole["verdict"].values())]).encode() + b"\n")
    parts.append(b"tree %d\n" % len(whole["tree"]))
    for entry in whole["tree"]:
        path = escaped(bytes_of(entry, "path", "path_base64"))
        names = [name for name in ("kind", "inode", "mode", "stamp", "size", "sha256", "device")
                 if name in entry]
        fields = [str(entry[name]).encode() for name in names]
        target = [escaped(bytes_of(entry, "target", "target_base64"))] if entry["kind"] == "link" else []
        parts.append(b" ".join([*fields, path, *target]) + b"\n")
    return b"".join(parts)


class JsonTest(Case):
    def test_each_kind_of_event_and_line_has_its_line_of_json(self) -> None:
        self.assertEqual(run("json", "-", given=SMALL), (0, SMALL_JSON.encode(), ""))
        self.assertEqual(run("json", "-", given=DEVICES), (0, DEVICES_JSON.encode(), ""))
        self.assertEqual(report_of(DEVICES_JSON.encode()), DEVICES)

    def test_each_verdict_has_its_members(self) -> None:
        verdicts = [(b"ended", '{"kind": "ended"}'), (b"deadlock", '{"kind": "deadlock"}'),
                    (b"budget", '{"kind": "budget"}'), (b"nostart 2", '{"kind": "nostart", "errno": 2}'),
                    (b"unsupported 3 18446744073709551615",
                     '{"kind": "unsupported", "pid": 3, "number": 18446744073709551615}')]
        for verdict, members in verdicts:
            with self.subTest(verdict=verdict):
                wanted = '{"version": 1, "events": [\n], "verdict": ' + members + ', "tree": [\n], "cut": null}\n'
                given = report(verdict=verdict, tree=[])
                self.assertEqual(run("json", "-", given=given), (0, wanted.encode(), ""))

    def test_what_could_upset_a_terminal_is_escaped(self) -> None:
        data = 'a"\\\x00\x1b\t\x7f\u0085\u2028\u202e\u00e9\U0001f600\n'.encode()
        wanted = '"text": "a\\"\\\\\\u0000\\u001b\\t\\u007f\\u0085\\u2028\\u202e\u00e9\U0001f600\\n"}'
        lines = run("json", "-", given=report(out(1, data), tree=[])).output.decode().split("\n")
        self.assertEqual(lines[1], f'{{"kind": "out", "stream": 1, "size": {len(data)}, {wanted}')

    def test_the_reports_of_the_readme_come_back_from_their_json(self) -> None:
        texts = examples()
        self.assertGreaterEqual(len(texts), 9)
        for text in [SMALL, *texts]:
            with self.subTest(text=text):
                result = run("json", "-", given=text)
                self.assertEqual((result.status, result.errors), (0, ""))
                self.assertEqual(report_of(result.output), text)

    def test_large_outputs_come_back_from_their_json(self) -> None:
        for data in ("a\u00e9\u20ac\U0001f600\n" * 20000).encode(), b"x" * 70000 + b"\xc3", bytes(range(256)) * 1000:
            for shift in range(4):
                with self.subTest(data=data[:9], shift=shift):
                    text = report(out(1, b"x" * shift + data), tree=[])
                    self.assertEqual(report_of(run("json", "-", given=text).output), text)

    def test_the_json_of_a_cut_report_is_whole_and_says_where_it_is_cut(self) -> None:
        head = '{"version": 1, "events": ['
        event = '\n{"kind": "out", "stream": 1, "size": 6, "text": "hello\\n"}'
        no_verdict = '\n], "verdict": null, "tree": null, "cut": '
        cases = [
            (0, '{"version": null, "events": [' + no_verdict, "before the first line", ""),
            (10, '{"version": null, "events": [' + no_verdict, "in the first line", "dettrace 1"),
            (11, head + no_verdict, "behind the first line", ""),
            (18, head + no_verdict, "in event 1", "out 1 6"),
            (19, head + event.replace("hello\\n", "") + no_verdict, "in event 1", ""),
            (22, head + event.replace("hello\\n", "hel") + no_verdict, "in event 1", ""),
            (25, head + event + no_verdict, "in event 1", ""),
            (26, head + event + no_verdict, "behind event 1", "")]
        for length, text, where, rest in cases:
            with self.subTest(length=length):
                end = f'{{"bytes": {length}, "where": "{where}", "text": "{rest}"}}}}\n'
                told = f"report: standard input: the report is cut: it ends after {length} bytes, {where}\n"
                self.assertEqual(run("json", "-", given=SMALL[:length]), (1, (text + end).encode(), told))

    def test_every_prefix_gives_json_with_what_is_there(self) -> None:
        whole = json.loads(SMALL_JSON)
        for length in range(len(SMALL)):
            with self.subTest(length=length):
                result = run("json", "-", given=SMALL[:length])
                members = json.loads(result.output)
                self.assertEqual((result.status, members["cut"]["bytes"]), (1, length))
                self.assertEqual(list(members), ["version", "events", "verdict", "tree", "cut"])
                for name in "events", "tree":
                    there = members[name] or []
                    self.assertEqual(there[:-1], whole[name][:len(there)][:-1])
                if SMALL[:length].endswith(b"ended\n"):
                    self.assertEqual((members["verdict"], members["tree"]), ({"kind": "ended"}, None))


class OutputTest(Case):
    TEXT = report(out(1, b"a\n"), out(2, b"b\xff"), b"exit 1 code 0\n", out(1, b"c"), tree=[])

    def test_the_bytes_of_each_stream_are_written(self) -> None:
        name = self.write("one", self.TEXT)
        for words, wanted in [(["1"], b"a\nc"), (["2"], b"b\xff"), ([], b"a\nb\xffc")]:
            with self.subTest(words=words):
                self.assertEqual(run("output", name, *words), (0, wanted, ""))
                self.assertEqual(run("output", "-", *words, given=self.TEXT), (0, wanted, ""))

    def test_what_is_there_of_a_cut_report_is_written(self) -> None:
        for length in range(len(self.TEXT)):
            with self.subTest(length=length):
                told = f"report: standard input: the report is cut: it ends after {length} byte"
                result = run("output", "-", given=self.TEXT[:length])
                there = bytes(byte for byte, inside in zip(self.TEXT[:length], bytes_positions(self.TEXT)) if inside)
                self.assertEqual((result.status, result.output), (1, there))
                self.assertEqual(result.errors[:len(told)], told)

    def test_a_report_is_read_from_standard_input(self) -> None:
        with open(self.write("one", self.TEXT), "rb") as file:
            result = run_script("output", "-", stdin=file)
        self.assertEqual((result.returncode, result.stdout, result.stderr), (0, b"a\nb\xffc", b""))


if __name__ == "__main__":
    unittest.main()
