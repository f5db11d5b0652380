"""Which images tools/image refuses, and what it says of each: a table, held to the program where that is built."""
from __future__ import annotations

import hashlib
import os
import re
import subprocess
import unittest
from typing import Dict, List, NamedTuple, Optional, Tuple, Union

from imagelib.testing import Done, ImageCase, write
from program import needs_program, run

BIG, BIG_2 = 16_777_216, 67_108_864

# What stands in the folder beside image.json: bytes, a size of a file of zeros, or what else.
FOLDER, BROKEN_LINK, FIFO = "a folder", "a link to nothing", "a FIFO"
Beside = Dict[str, Union[bytes, int, str]]
ONE: Beside = {"b": b"x"}


INDEX_MISSING = "refused: 1 NoIndex: there is no file 'img/image.json': is it a folder that was not packed?"


class Row(NamedTuple):
    """An image, the lines that are said of it, and the input that is named."""

    name: str
    index: Union[bytes, str, None]
    want: Tuple[str, ...] = ()
    beside: Beside = ONE
    input: Optional[str] = None

    def words(self) -> List[str]:
        return [] if self.input is None else [f"--stdin={self.input}"]


def index(*entries: str, version: int = 1) -> bytes:
    return f'{{"version":{version},"entries":[{",".join(entries)}]}}'.encode()


def index_2(*entries: str) -> bytes:
    return index(*entries, version=2)


def file(path: str, blob: str = "b", mode: str = "420") -> str:
    return f'{{"path":"{path}","type":"file","mode":{mode},"blob":"{blob}"}}'


def folder(path: str, mode: str = "493") -> str:
    return f'{{"path":"{path}","type":"dir","mode":{mode}}}'


def link(path: str, target: str = "t") -> str:
    return f'{{"path":"{path}","type":"link","target":"{target}"}}'


def device(path: str, name: str = "null", mode: str = "438") -> str:
    return f'{{"path":"{path}","type":"dev","mode":{mode},"device":"{name}"}}'


def with_value(value: str) -> str:
    """An index with a value in a member that is ignored."""
    return f'{{"version":1,"entries":[],"x":{value}}}'


def json_row(name: str, text: Union[str, bytes], place: str, why: str) -> Row:
    data = text.encode() if isinstance(text, str) else text
    return Row(name, data, (f"refused: 2 BadIndex: image.json, {place}: {why}",))


def value_row(name: str, value: str, column: int, why: str) -> Row:
    """A row about a value that is ignored, with the column counted from the value's start."""
    return json_row(name, with_value(value), f"line 1, column {len(with_value('')) - 1 + column}", why)


def rows_of(number: int, name: str, *rows: tuple) -> List[Row]:
    """Rows for one refusal: a name, entries, and what is said of them behind the refusal's name."""
    return [
        Row(row[0], index(*row[1]), tuple(f"refused: {number} {name}: {line}" for line in row[2:])) for row in rows
    ]


WANTED = "a value is wanted here"
CONTROL = "a control character stands in a string without an escape"
HALF = "half of a surrogate pair stands alone"
LARGE = "the number is too large for a double"
ENDS = "the text ends where a value is wanted"
DEEP = "arrays and objects nest more than 127 deep"
COMMA = "`,` or `}` is wanted here"

NO_UTF_8 = "it is no UTF-8 from there on"
NAME = 'a member\'s name in `"` is wanted here'

NO_JSON = [
    json_row("empty", "", "line 1, column 1", ENDS),
    json_row("white space alone", " \n\t ", "line 2, column 3", ENDS),
    json_row("a byte order mark", "\ufeff" + with_value("1"), "line 1, column 1", "a byte order mark stands here"),
    json_row("Latin-1", with_value('"caf\u00e9"').encode("latin-1"), "byte 35", NO_UTF_8),
    json_row("UTF-16", with_value("1").encode("utf-16"), "byte 1", NO_UTF_8),
    json_row("UTF-16 without a mark", with_value("1").encode("utf-16-le"), "line 1, column 2",
             NAME),
    json_row("a surrogate as three bytes", b'{"version":1,"entries":[],"x":"\xed\xa0\x80"}', "byte 32",
             NO_UTF_8),
    json_row("an overlong `/`", b'{"version":1,"entries":[],"x":"\xc0\xaf"}', "byte 32", NO_UTF_8),
    json_row("something behind", with_value("1") + "\nx", "line 2, column 1", "something follows the value"),
    json_row("two values", "{}{}", "line 1, column 3", "something follows the value"),
    json_row("a NUL behind", with_value("1") + "\0", "line 1, column 33", "something follows the value"),
    json_row("an open object", '{"version":1', "line 1, column 13", COMMA),
    json_row("no colon", '{"version" 1}', "line 1, column 12", "`:` is wanted here"),
    json_row("a name without quotes", "{version:1}", "line 1, column 2", NAME),
    json_row("a name that is a number", "{1:1}", "line 1, column 2", NAME),
    json_row("a comma at an object's end", '{"version":1,}', "line 1, column 14", NAME),
    json_row("no comma", '{"version":1 "entries":[]}', "line 1, column 14", COMMA),
    json_row("a form feed as white space", '{"version":1,\f"entries":[]}', "line 1, column 14",
             NAME),
    json_row("half a pair in a name", '{"\\ud800":1}', "line 1, column 3", HALF),
    value_row("NaN", "NaN", 1, WANTED),
    value_row("Infinity", "Infinity", 1, WANTED),
    value_row("-Infinity", "-Infinity", 1, WANTED),
    value_row("True", "True", 1, WANTED),
    value_row("a comment", "1/**/", 1, WANTED),
    value_row("a comma at an array's end", "[1,]", 4, WANTED),
    value_row("a comma alone", "[,]", 2, WANTED),
    value_row("an array closed by `}`", "[1}", 3, "`,` or `]` is wanted here"),
    value_row("single quotes", "'a'", 1, WANTED),
    value_row("a no-break space", "\u00a01", 1, WANTED),
    value_row("a tab in a string", '"a\tb"', 3, CONTROL),
    value_row("a NUL in a string", '"\0"', 2, CONTROL),
    value_row("an open string", '"a', 4, "the text ends within a string"),
    value_row("an escape that is none", '"\\x41"', 2, "no such escape"),
    value_row("a short escape", '"\\u12"', 2, "no such escape"),
    value_row("an escape with a sign", '"\\u+123"', 2, "no such escape"),
    value_row("a high half alone", '"\\ud800"', 2, HALF),
    value_row("a high half before a letter", '"\\ud800\\u0041"', 2, HALF),
    value_row("two high halves and a low one", '"\\ud800\\ud800\\udc00"', 2, HALF),
    value_row("a low half alone", '"\\udc00"', 2, HALF),
    value_row("halves in the wrong order", '"\\udc00\\ud800"', 2, HALF),
    value_row("a number too large", "1e400", 1, LARGE),
    value_row("a negative number too large", "-1e400", 1, LARGE),
    value_row("a whole number too large", "1" + "0" * 400, 1, LARGE),
    value_row("more digits than Python converts", "1" * 5000, 1, LARGE),
    value_row("just past the largest double", "1.7976931348623159e308", 1, LARGE),
    value_row("a zero before it", "01", 1, WANTED),
    value_row("no digit behind the point", "1.", 1, WANTED),
    value_row("no digit before the point", ".5", 1, WANTED),
    value_row("a plus before it", "+1", 1, WANTED),
    value_row("no exponent", "1e", 1, WANTED),
    value_row("hexadecimal", "0x10", 1, WANTED),
    value_row("a minus alone", "-", 1, WANTED),
    value_row("digits of another script", "\u0661", 1, WANTED),
    value_row("arrays 127 deep within the object", "[" * 127 + "]" * 127, 127, DEEP),
    json_row("many more open arrays", "[" * 100_000, "line 1, column 128", DEEP),
]

FIRST = "image.json: the member `version` is missing"
NOT_ONE = "and not the number 1 or 2"
MODES = "and not a whole number from 0 to 4095"


def bad_index(name: str, text: Union[str, bytes], *lines: str) -> Row:
    data = text.encode() if isinstance(text, str) else text
    return Row(name, data, tuple(f"refused: 2 BadIndex: {line}" for line in lines))


def bad_entry(name: str, entry: str, line: str) -> Row:
    return bad_index(name, index(entry), f"entry 1{line}")


NO_INDEX = [
    bad_index("an array", "[]", "image.json is an array, and no object"),
    bad_index("null", "null", "image.json is null, and no object"),
    bad_index("nothing of it", "{}", FIRST, "image.json: the member `entries` is missing"),
    bad_index("version 3", '{"version":3,"entries":[]}', f"image.json: `version` is the number 3, {NOT_ONE}"),
    bad_index("version 0", '{"version":0,"entries":[]}', f"image.json: `version` is the number 0, {NOT_ONE}"),
    bad_index("version -1", '{"version":-1,"entries":[]}', f"image.json: `version` is the number -1, {NOT_ONE}"),
    bad_index("version 2.0", '{"version":2.0,"entries":[]}', f"image.json: `version` is the number 2.0, {NOT_ONE}"),
    bad_index("version 1.0", '{"version":1.0,"entries":[]}', f"image.json: `version` is the number 1.0, {NOT_ONE}"),
    bad_index("version 1e0", '{"version":1e0,"entries":[]}', f"image.json: `version` is the number 1.0, {NOT_ONE}"),
    bad_index("a text as version", '{"version":"1","entries":[]}',
              f"image.json: `version` is the text `1`, {NOT_ONE}"),
    bad_index("true as version", '{"version":true,"entries":[]}', f"image.json: `version` is true, {NOT_ONE}"),
    bad_index("the last version counts", '{"version":1,"entries":[],"version":3}',
              f"image.json: `version` is the number 3, {NOT_ONE}"),
    bad_index("entries in an object", '{"version":1,"entries":{}}',
              "image.json: `entries` is an object, and not an array"),
    bad_index("no entries", '{"version":1}', "image.json: the member `entries` is missing"),
    bad_entry("an entry that is a text", '"/a"', ": it is the text `/a`, and no object"),
    bad_entry("an entry without members", "{}", ": the member `path` is missing; the member `type` is missing"),
    bad_entry("no path", '{"type":"dir","mode":0}', ": the member `path` is missing"),
    bad_entry("a number as path", '{"path":5,"type":"dir","mode":0}', ": `path` is the number 5, and not a text"),
    bad_entry("no type", '{"path":"/a","mode":0}', ", '/a': the member `type` is missing"),
    bad_entry("another type", '{"path":"/a","type":"pipe","mode":0}',
              ", '/a': `type` is the text `pipe`, and not `file`, `dir` or `link`"),
    bad_entry("a type in capitals", '{"path":"/a","type":"Dir","mode":0}',
              ", '/a': `type` is the text `Dir`, and not `file`, `dir` or `link`"),
    bad_entry("an array as type", '{"path":"/a","type":["dir"],"mode":0}',
              ", '/a': `type` is an array, and not `file`, `dir` or `link`"),
    bad_entry("no mode", '{"path":"/a","type":"dir"}', ", '/a': the member `mode` is missing"),
    bad_entry("a mode past 4095", folder("/a", "4096"), f", '/a': `mode` is the number 4096, {MODES}"),
    bad_entry("a negative mode", folder("/a", "-1"), f", '/a': `mode` is the number -1, {MODES}"),
    bad_entry("mode -0", folder("/a", "-0"), f", '/a': `mode` is the number -0.0, {MODES}"),
    bad_entry("mode 1.0", folder("/a", "1.0"), f", '/a': `mode` is the number 1.0, {MODES}"),
    bad_entry("mode 1e2", folder("/a", "1e2"), f", '/a': `mode` is the number 100.0, {MODES}"),
    bad_entry("mode 2^64", folder("/a", "18446744073709551616"),
              f", '/a': `mode` is the number 1.8446744073709552e+19, {MODES}"),
    bad_entry("mode 2^64 and more, of which the low bits are good", file("/a", mode="18446744073709552036"),
              f", '/a': `mode` is the number 1.8446744073709552e+19, {MODES}"),
    bad_entry("a text as mode", folder("/a", '"493"'), f", '/a': `mode` is the text `493`, {MODES}"),
    bad_entry("true as mode", folder("/a", "true"), f", '/a': `mode` is true, {MODES}"),
    bad_entry("the last mode counts", '{"path":"/a","type":"dir","mode":493,"mode":null}',
              f", '/a': `mode` is null, {MODES}"),
    bad_entry("no blob", '{"path":"/a","type":"file","mode":0}', ", '/a': the member `blob` is missing"),
    bad_entry("null as blob", '{"path":"/a","type":"file","mode":0,"blob":null}',
              ", '/a': `blob` is null, and not a text"),
    bad_entry("no target", '{"path":"/a","type":"link","blob":"b","mode":0}', ", '/a': the member `target` is missing"),
    bad_entry("a number as target", '{"path":"/a","type":"link","target":1}',
              ", '/a': `target` is the number 1, and not a text"),
    bad_entry("mode and blob", '{"path":"/a","type":"file","mode":[],"blob":{}}',
              f", '/a': `mode` is an array, {MODES}; `blob` is an object, and not a text"),
    bad_index("all that are wrong, and no path", index(folder("a"), folder("/b", "-1"), folder("/c"), "7"),
              f"entry 2, '/b': `mode` is the number -1, {MODES}", "entry 4: it is the number 7, and no object"),
    bad_index("twenty, and how many more", index(*["null"] * 25),
              *(f"entry {number}: it is null, and no object" for number in range(1, 21)), "and 5 more"),
    Row("an index past the limit", with_value("1").ljust(4_194_305).encode(),
        ("refused: 2 BadIndex: image.json has 4194305 bytes, more than 4194304",)),
]

THREE = "and not `null`, `zero` or `random`"


def bad_device(name: str, entry: str, line: str) -> Row:
    return bad_index(name, index_2(entry), f"entry 1, '/a': {line}")


NO_DEVICE = [
    bad_entry("a device in version 1", device("/a"), ", '/a': `type` is `dev`, which no entry of version 1 has"),
    bad_index("devices in version 1, and what else is wrong", index(device("/a", mode="-1"), device("/b"), folder("c")),
              f"entry 1, '/a': `type` is `dev`, which no entry of version 1 has; `mode` is the number -1, {MODES}",
              "entry 2, '/b': `type` is `dev`, which no entry of version 1 has"),
    bad_index("a device in a version that is none", index(device("/a"), folder("/b", "-1"), version=3),
              f"image.json: `version` is the number 3, {NOT_ONE}", f"entry 2, '/b': `mode` is the number -1, {MODES}"),
    bad_device("another type", '{"path":"/a","type":"pipe","mode":0}',
               "`type` is the text `pipe`, and not `file`, `dir`, `link` or `dev`"),
    bad_device("no device", '{"path":"/a","type":"dev","mode":0}', "the member `device` is missing"),
    bad_device("another device", device("/a", "tty"), f"`device` is the text `tty`, {THREE}"),
    bad_device("a device in capitals", device("/a", "Null"), f"`device` is the text `Null`, {THREE}"),
    bad_device("a device by its path", device("/a", "/dev/null"), f"`device` is the text `/dev/null`, {THREE}"),
    bad_device("null as device", '{"path":"/a","type":"dev","mode":0,"device":null}', f"`device` is null, {THREE}"),
    bad_device("an array as device", '{"path":"/a","type":"dev","mode":0,"device":["null"]}',
               f"`device` is an array, {THREE}"),
    bad_device("the last device counts", '{"path":"/a","type":"dev","mode":0,"device":"null","device":1}',
               f"`device` is the number 1, {THREE}"),
    bad_device("no mode of a device", '{"path":"/a","type":"dev","device":"null"}', "the member `mode` is missing"),
    bad_device("a mode of a device past 4095", device("/a", mode="4096"), f"`mode` is the number 4096, {MODES}"),
    Row("the path of a device", index_2(device("/a"), device("b")),
        ("refused: 3 BadPath: entry 2, 'b': the path doesn't begin with `/`",)),
    Row("two devices", index_2(device("/a"), device("/a", "zero")),
        ("refused: 4 Twice: entry 2, '/a': entry 1 has this path too",)),
    Row("below a device", index_2(device("/a"), file("/a/b")),
        ("refused: 5 NoParent: entry 2, '/a/b': '/a' is a device, and no directory",)),
]

LONG = "n" * 255
E_ACUTE = "\u00e9"

BAD_PATH = rows_of(
    3,
    "BadPath",
    ("no `/` at the beginning", [folder("a")], "entry 1, 'a': the path doesn't begin with `/`"),
    ("empty", [folder("")], "entry 1, '': the path doesn't begin with `/`"),
    ("the root", [folder("/")],
     "entry 1, '/': the path has an empty name: a `/` stands at its end, or behind another"),
    ("a `/` at the end", [folder("/a/")],
     "entry 1, '/a/': the path has an empty name: a `/` stands at its end, or behind another"),
    ("two `/`", [folder("//a")],
     "entry 1, '//a': the path has an empty name: a `/` stands at its end, or behind another"),
    (".", [folder("/.")], "entry 1, '/.': the path has the name `.`"),
    ("..", [folder("/a"), folder("/a/../b")], "entry 2, '/a/../b': the path has the name `..`"),
    ("a NUL", [folder("/a\\u0000b")], "entry 1, '/a\\x00b': a NUL stands in the path"),
    ("a name of 256 bytes", [folder(f"/{LONG}n")],
     f"entry 1, '/{LONG}n': the path has a name of 256 bytes, more than 255"),
    ("a name of 256 bytes and fewer letters", [folder("/" + E_ACUTE * 128)],
     f"entry 1, '/{E_ACUTE * 128}': the path has a name of 256 bytes, more than 255"),
    ("a path of 4096 bytes", [folder("/d" * 2048)],
     f"entry 1, '{'/d' * 2048}': the path has 4096 bytes, more than 4095"),
    ("a path of 4097 bytes and fewer letters", [folder(f"/{E_ACUTE * 100}" * 20 + f"/{E_ACUTE * 38}")],
     f"entry 1, '{f'/{E_ACUTE * 100}' * 20}/{E_ACUTE * 38}': the path has 4097 bytes, more than 4095"),
    ("an empty target", [link("/l", "")], "entry 1, '/l': the target is empty"),
    ("a target of 4096 bytes", [link("/l", "t" * 4096)], "entry 1, '/l': the target has 4096 bytes, more than 4095"),
    ("a target of 4096 bytes and fewer letters", [link("/l", E_ACUTE * 2048)],
     "entry 1, '/l': the target has 4096 bytes, more than 4095"),
    ("a NUL in a target", [link("/l", "a\\u0000")], "entry 1, '/l': a NUL stands in the target"),
    ("an empty blob's name", [file("/f", "")], "entry 1, '/f': the blob's name is empty"),
    ("a blob that begins with a `.`", [file("/f", ".b")], "entry 1, '/f': the blob's name `.b` begins with a `.`"),
    ("a blob in a folder", [file("/f", "d/b")],
     "entry 1, '/f': the blob's name `d/b` has more than letters and digits of ASCII, `.`, `_` and `-`"),
    ("a blob that is no ASCII", [file("/f", E_ACUTE)],
     f"entry 1, '/f': the blob's name `{E_ACUTE}` has more than letters and digits of ASCII, `.`, `_` and `-`"),
    ("a blob with a line's end", [file("/f", "b\\n")],
     "entry 1, '/f': the blob's name `b\\n` has more than letters and digits of ASCII, `.`, `_` and `-`"),
    ("a blob's name of 256", [file("/f", LONG + "n")],
     "entry 1, '/f': the blob's name has 256 characters, more than 255"),
    ("a path and its blob", [file("f", "..")],
     "entry 1, 'f': the path doesn't begin with `/`; the blob's name `..` begins with a `.`"),
    ("before Twice, and all of them", [folder("/a"), folder("/a"), link("/l", ""), folder("/b/.")],
     "entry 3, '/l': the target is empty", "entry 4, '/b/.': the path has the name `.`"),
    ("a control, which is escaped", [folder("a\\u001b[31m")],
     "entry 1, 'a\\x1b[31m': the path doesn't begin with `/`"),
)

TWICE = rows_of(
    4,
    "Twice",
    ("two directories", [folder("/a"), folder("/a")], "entry 2, '/a': entry 1 has this path too"),
    ("a link and a directory", [link("/a", "/etc"), folder("/a"), file("/a/b")],
     "entry 2, '/a': entry 1 has this path too"),
    ("one path with an escape", [folder("/a"), link("/\\u0061")], "entry 2, '/a': entry 1 has this path too"),
    ("three, and before NoParent", [folder("/x/y"), folder("/a"), link("/a"), file("/a")],
     "entry 3, '/a': entry 2 has this path too", "entry 4, '/a': entry 2 has this path too"),
)

NO_PARENT = rows_of(
    5,
    "NoParent",
    ("nothing there", [file("/x"), folder("/c"), file("/a/b")], "entry 3, '/a/b': nothing stands at '/a'"),
    ("only the one around that", [folder("/a"), folder("/a/b/c")], "entry 2, '/a/b/c': nothing stands at '/a/b'"),
    ("a longer name", [folder("/ab"), file("/a/b")], "entry 2, '/a/b': nothing stands at '/a'"),
    ("a file", [file("/a"), file("/a/b")], "entry 2, '/a/b': '/a' is a file, and no directory"),
    ("a link to a directory", [folder("/d"), link("/a", "/d"), file("/a/b")],
     "entry 3, '/a/b': '/a' is a symbolic link, and no directory"),
    ("before NoBlob, and all of them", [file("/f", "none"), file("/a/b"), folder("/c/d")],
     "entry 2, '/a/b': nothing stands at '/a'", "entry 3, '/c/d': nothing stands at '/c'"),
)


def many(count: int) -> bytes:
    return index(*(file(f"/{number}") for number in range(count)))


STORED = [
    Row("no folder or no index", None, (INDEX_MISSING,)),
    Row("an index that is a link to nothing", None, (INDEX_MISSING,),
        {"image.json": BROKEN_LINK}),
    Row("an index that is a folder", None, ("store fault: 'img/image.json': a folder, and no file",),
        {"image.json": FOLDER}),
    Row("an index that is a FIFO", None, ("store fault: 'img/image.json': no file that can be read from its start",),
        {"image.json": FIFO}),
    Row("no blob", index(file("/f", "b"), file("/e", "c"), file("/d", "c")),
        ("refused: 6 NoBlob: entry 2, '/e': there is no file 'img/c'",
         "refused: 6 NoBlob: entry 3, '/d': there is no file 'img/c'")),
    Row("a blob that is a link to nothing", index(file("/f", "c")),
        ("refused: 6 NoBlob: entry 1, '/f': there is no file 'img/c'",), {"c": BROKEN_LINK}),
    Row("a blob that is a folder", index(file("/f", "c")), ("store fault: 'img/c': a folder, and no file",),
        {"c": FOLDER}),
    Row("a blob that is a FIFO", index(file("/f", "c")),
        ("store fault: 'img/c': no file that can be read from its start",), {"c": FIFO}),
    Row("a blob that is a folder before one that is missing", index(file("/b", "none"), file("/a", "c")),
        ("store fault: 'img/c': a folder, and no file",), {"c": FOLDER}),
    Row("a blob that is missing before one that is a folder", index(file("/b", "c"), file("/a", "none")),
        ("refused: 6 NoBlob: entry 2, '/a': there is no file 'img/none'",), {"c": FOLDER}),
    Row("a blob that is a folder before one too big", index(file("/a", "c"), file("/b", "d")),
        ("store fault: 'img/d': a folder, and no file",), {"c": BIG + 1, "d": FOLDER}),
    Row("no blob before one too big", index(file("/a", "c"), file("/b", "none")),
        ("refused: 6 NoBlob: entry 2, '/b': there is no file 'img/none'",), {"c": BIG + 1}),
    Row("too big", index(file("/a", "c"), file("/b"), file("/A", "c")),
        ("refused: 7 TooBig: entry 1, '/a': the blob c has 16777217 bytes, more than 16777216",
         "refused: 7 TooBig: entry 3, '/A': the blob c has 16777217 bytes, more than 16777216"),
        {"b": b"", "c": BIG + 1}),
    Row("too many", many(4096), ("refused: 8 TooMany: there are 4096 entries, more than 4095",)),
    Row("too big before too many", many(4095)[:-2] + f',{file("/big", "c")}]}}'.encode(),
        ("refused: 7 TooBig: entry 4096, '/big': the blob c has 16777217 bytes, more than 16777216",),
        {"b": b"", "c": BIG + 1}),
]

STORED_2 = [
    Row("too big in version 2", index_2(file("/a", "c"), device("/d")),
        ("refused: 7 TooBig: entry 1, '/a': the blob c has 67108865 bytes, more than 67108864",), {"c": BIG_2 + 1}),
    Row("too many in version 2", index_2(*(device(f"/{number}") for number in range(4096))),
        ("refused: 8 TooMany: there are 4096 entries, more than 4095",)),
]


def input_row(name: str, number: int, kind: str, value: str, why: str, beside: Beside = ONE) -> Row:
    return Row(name, index(file("/f")), (f"refused: {number} {kind}: --stdin '{value}': {why}",), {**ONE, **beside},
               value)


ASCII = "has more than letters and digits of ASCII, `.`, `_` and `-`"

NO_INPUT = [
    input_row("no such input", 9, "NoInput", "in", "there is no file 'img/in'"),
    input_row("an input that is a link to nothing", 9, "NoInput", "in", "there is no file 'img/in'",
              {"in": BROKEN_LINK}),
    input_row("an empty name", 9, "NoInput", "", "the blob's name is empty"),
    input_row("a name that begins with a `.`", 9, "NoInput", ".in", "the blob's name `.in` begins with a `.`",
              {".in": b"x"}),
    input_row("a path", 9, "NoInput", "d/in", f"the blob's name `d/in` {ASCII}"),
    input_row("the path of an entry", 9, "NoInput", "/f", f"the blob's name `/f` {ASCII}"),
    input_row("a name that is no ASCII", 9, "NoInput", E_ACUTE, f"the blob's name `{E_ACUTE}` {ASCII}"),
    input_row("a name of 256", 9, "NoInput", LONG + "n", "the blob's name has 256 characters, more than 255"),
    input_row("an input too big", 10, "InputBig", "in", "the blob has 67108865 bytes, more than 67108864",
              {"in": BIG_2 + 1}),
    Row("an input too big in version 2", index_2(),
        ("refused: 10 InputBig: --stdin 'in': the blob has 67108865 bytes, more than 67108864",),
        {"in": BIG_2 + 1}, "in"),
    Row("an input that is a folder", index(), ("store fault: 'img/in': a folder, and no file",), {"in": FOLDER}, "in"),
    Row("an input that is a FIFO", index(), ("store fault: 'img/in': no file that can be read from its start",),
        {"in": FIFO}, "in"),
    Row("too many before no input", many(4096), ("refused: 8 TooMany: there are 4096 entries, more than 4095",), ONE,
        "in"),
    Row("too big before no input", index(file("/a", "c")),
        ("refused: 7 TooBig: entry 1, '/a': the blob c has 16777217 bytes, more than 16777216",), {"c": BIG + 1}, ""),
]

BAD = NO_JSON + NO_INDEX + NO_DEVICE + BAD_PATH + TWICE + NO_PARENT + STORED + STORED_2 + NO_INPUT

IGNORED = '"x":[1e308,-0,"\\ud83d\\ude00",18446744073709551616,1e-400],"version":1'

GOOD = [
    Row("no entries", index(), ("0 directories, 0 files, 0 links, 0 blobs, 0 bytes",)),
    Row("at each limit",
        index(folder("/" + LONG, "4095"), file("/f", "b" * 255, "0"), link("/l", "t" * 4095), folder("/\\u007f")),
        ("2 directories, 1 file, 1 link, 1 blob, 16777216 bytes",), {"b" * 255: BIG}),
    Row("as many as there may be", many(4095), ("0 directories, 4095 files, 0 links, 1 blob, 1 byte",)),
    Row("an index at the limit", with_value("1").ljust(4_194_304).encode(),
        ("0 directories, 0 files, 0 links, 0 blobs, 0 bytes",)),
    Row("values 127 deep", with_value("[" * 126 + "]" * 126).encode(),
        ("0 directories, 0 files, 0 links, 0 blobs, 0 bytes",)),
    Row("members that are ignored", f'{{{IGNORED},"entries":[{{"path":5,"path":"/d","type":"dir","mode":1,'
        '"blob":7,"target":""}]}'.encode(), ("1 directory, 0 files, 0 links, 0 blobs, 0 bytes",)),
    Row("entries in any order", index(file("/d/f"), link("/d/l", "../.."), folder("/d")),
        ("1 directory, 1 file, 1 link, 1 blob, 1 byte",)),
    Row("the index as a blob", index(file("/f", "image.json")), ("0 directories, 1 file, 0 links, 1 blob, 84 bytes",)),
    Row("names that only look like `.`", index(file("/..."), file("/.a"), file("/ ")),
        ("0 directories, 3 files, 0 links, 1 blob, 1 byte",)),
    Row("an input that is no entry", index(file("/f")),
        ("0 directories, 1 file, 0 links, 1 blob, 1 byte; the input has 3 bytes",), {**ONE, "in": b"abc"}, "in"),
    Row("an input that an entry has", index(file("/f")),
        ("0 directories, 1 file, 0 links, 1 blob, 1 byte; the input has 1 byte",), ONE, "b"),
    Row("an empty input", index(), ("0 directories, 0 files, 0 links, 0 blobs, 0 bytes; the input has 0 bytes",),
        {"-": b""}, "-"),
    Row("the index as input", index(), ("0 directories, 0 files, 0 links, 0 blobs, 0 bytes; the input has 26 bytes",),
        ONE, "image.json"),
    Row("an input that no file of the version may be", index(),
        (f"0 directories, 0 files, 0 links, 0 blobs, 0 bytes; the input has {BIG + 1} bytes",), {"in": BIG + 1}, "in"),
]

GOOD_2 = [
    Row("no entries in version 2", index_2(), ("0 directories, 0 files, 0 links, 0 blobs, 0 bytes",)),
    Row("devices", index_2(device("/d/z", "zero", "4095"), folder("/d"), device("/d/r", "random", "0"), device("/n"),
                           device("/m")), ("1 directory, 0 files, 0 links, 4 devices, 0 blobs, 0 bytes",)),
    Row("members that are ignored of a device", '{"version":2,"entries":[{"path":"/d","type":"dev","mode":1,'
        '"device":"zero","blob":7,"target":""},{"path":"/e","type":"dir","mode":1,"device":7}]}',
        ("1 directory, 0 files, 0 links, 1 device, 0 blobs, 0 bytes",)),
    Row("a file past the limit of version 1", index_2(file("/f")),
        (f"0 directories, 1 file, 0 links, 1 blob, {BIG + 1} bytes",), {"b": BIG + 1}),
    Row("files and an input at the limit", index_2(file("/f"), file("/g")),
        (f"0 directories, 2 files, 0 links, 1 blob, {BIG_2} bytes; the input has {BIG_2} bytes",),
        {"b": BIG_2, "in": BIG_2}, "in"),
]


class Check(ImageCase):
    """Images of the tables."""

    def make(self, row: Row) -> str:
        """Makes the image of a row, where it has one."""
        place = self.at("img")
        os.mkdir(place)
        if row.index is not None:
            write(self.at("img", "image.json"), row.index if isinstance(row.index, bytes) else row.index.encode())
        for name, held in row.beside.items():
            beside = self.at("img", name)
            if held == FOLDER:
                os.mkdir(beside)
            elif held == FIFO:
                os.mkfifo(beside)
            elif held == BROKEN_LINK:
                os.symlink("nothing", beside)
            else:
                write(beside, held if isinstance(held, bytes) else b"")
                os.truncate(beside, held if isinstance(held, int) else len(held))
        return place

    def unmake(self) -> None:
        subprocess.run(["rm", "-r", self.at("img")], check=True)

    def test_each_bad_image_is_refused_with_its_reasons(self) -> None:
        self.assertGreaterEqual(len(BAD), 60)
        for row in BAD:
            with self.subTest(row.name):
                self.says(self.image("check", self.make(row), *row.words()), 1, *row.want)
            self.unmake()

    def test_each_good_image_is_told_in_counts(self) -> None:
        for told, rows in (("is good", GOOD), ("is good, of version 2", GOOD_2)):
            for row in rows:
                with self.subTest(row.name):
                    done = self.image("check", self.make(row), *row.words())
                    self.assertEqual(done, Done(0, [f"img {told}: {row.want[0]}"], []))
                self.unmake()

    def test_list_and_unpack_refuse_as_check_does(self) -> None:
        for row in (NO_JSON[0], BAD_PATH[6], TWICE[1], NO_PARENT[4], STORED[0], STORED[2], STORED[4]):
            with self.subTest(row.name):
                place = self.make(row)
                self.says(self.image("list", place), 1, *row.want)
                self.says(self.image("unpack", place, self.at("out")), 1, *row.want)
                self.assertEqual(self.left(), ["img"])
            self.unmake()

    def test_places_that_are_no_folder(self) -> None:
        write(self.at("file"), b"")
        for word, line in (
            ("nowhere", "refused: 1 NoIndex: there is no folder 'nowhere'"),
            ("a b's\n", "refused: 1 NoIndex: there is no folder 'a b\\'s\\n'"),
            ("file", "store fault: 'file/image.json': Not a directory"),
        ):
            with self.subTest(word):
                self.says(self.image("check", self.at(word)), 1, line)

    def test_blobs_and_indexes_that_are_links_are_read(self) -> None:
        write(self.at("data"), b"four")
        write(self.at("text"), index(file("/f")))
        os.mkdir(self.at("img"))
        os.symlink("../data", self.at("img", "b"))
        os.symlink("../text", self.at("img", "image.json"))
        os.symlink("img", self.at("again"))
        done = self.image("check", self.at("again"))
        self.assertEqual(done, Done(0, ["again is good: 0 directories, 1 file, 0 links, 1 blob, 4 bytes"], []))

    def test_a_blob_with_other_bytes_than_its_name_says_is_damaged(self) -> None:
        good, other = hashlib.sha256(b"good").hexdigest(), hashlib.sha256(b"bad").hexdigest()
        line = f"the blob {good} has bytes of another SHA-256, {other}"
        blobs = {"/z": good, "/a": good, "/b": good.upper(), "/c": good[1:], "/d": other}
        write(self.at("img", "image.json"), index(*(file(path, blob) for path, blob in blobs.items())))
        for name in (good, good.upper(), good[1:], other):
            write(self.at("img", name), b"bad")
        self.says(self.image("check", self.at("img")), 1, f"damaged: entry 1, '/z': {line}")
        write(self.at("img", good), b"good")
        self.assertEqual(self.image("check", self.at("img")).status, 0)
        write(self.at("img", other), b"")
        self.assertEqual(self.image("check", self.at("img")).err[0][:34], "image: damaged: entry 5, '/d': the")
        for command in ("list", "unpack"):
            with self.subTest(command):
                words = [self.at("img")] + ([self.at("out")] if command == "unpack" else [])
                self.assertEqual(self.image(command, *words).status, 0)

    def test_an_input_with_other_bytes_than_its_name_says_is_damaged(self) -> None:
        good, other = hashlib.sha256(b"good").hexdigest(), hashlib.sha256(b"bad").hexdigest()
        write(self.at("img", "image.json"), index(file("/f")))
        write(self.at("img", "b"), b"x")
        write(self.at("img", good), b"bad")
        self.assertEqual(self.image("check", self.at("img")).status, 0)
        self.says(self.image("check", self.at("img"), "--stdin", good), 1,
                  f"damaged: --stdin '{good}': the blob {good} has bytes of another SHA-256, {other}")
        write(self.at("img", "image.json"), index(file("/f", good)))
        self.says(self.image("check", self.at("img"), "--stdin", good), 1,
                  f"damaged: entry 1, '/f': the blob {good} has bytes of another SHA-256, {other}")

    def test_at_most_twenty_damaged_blobs_are_named(self) -> None:
        names = [f"{number:064x}" for number in range(25)]
        write(self.at("img", "image.json"), index(*(file(f"/{name}", name) for name in names)))
        for name in names:
            write(self.at("img", name), b"")
        done = self.image("check", self.at("img"))
        self.assertEqual((done.status, len(done.err), done.err[-1]), (1, 21, "image: damaged: and 5 more"))

    @unittest.skipIf(os.geteuid() == 0, "root may read every file")
    def test_files_without_permission_are_store_faults_but_for_empty_ones(self) -> None:
        fault = "store fault: 'img/b': Permission denied"
        for name, size, lines in (
            ("b", 1, [fault]),
            ("b", 0, []),
            ("image.json", 1, ["store fault: 'img/image.json': Permission denied"]),
            ("image.json", 0, [f"refused: 2 BadIndex: image.json, line 1, column 1: {ENDS}"]),
        ):
            with self.subTest(name, size=size):
                place = self.make(Row("", index(file("/f")), (), {"b": 0, name: size}))
                os.chmod(self.at("img", name), 0)
                for words in (["check", place], ["unpack", place, self.at("out")]):
                    self.assertEqual(self.image(*words).err, [f"image: {line}" for line in lines])
                if not lines:
                    os.remove(self.at("out", "f"))
                    os.rmdir(self.at("out"))
            self.unmake()

    @needs_program
    def test_the_program_says_the_same(self) -> None:
        for row in BAD + GOOD + GOOD_2:
            with self.subTest(row.name):
                done = run("run", self.make(row), *row.words(), "--", "/x")
                self.assertEqual((done.returncode, done.stderr.decode()), program_end(row))
            self.unmake()


def program_end(row: Row) -> Tuple[int, str]:
    """The status and the line with which the program ends on a row's image; of a good one it finds no /x."""
    refusal = re.match(r"refused: (\d+ \w+): ", row.want[0])
    if refusal:
        return 3, f"dettrace: image refused: {refusal.group(1)}\n"
    return (4, "dettrace: store fault\n") if row.want[0].startswith("store fault") else (10, "")


if __name__ == "__main__":
    unittest.main()
