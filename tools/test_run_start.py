"""What tools/run says of a program that could not be started, from what stands in the image."""
from __future__ import annotations

import os
import unittest

from runlib.testing import RunCase, elf, report

PAGE = " (docs/GUESTS.md, \"When it doesn't work\")"
BUILD = "; build it with -march=rv64im -mabi=lp64 -static -fno-pie -no-pie" + PAGE
LOAD, INTERPRETER = (1, 0, 0x10000, 64, 64), (3, 0, 0, 0, 0)


class Starts(RunCase):
    def refused(self, errno: int, line: str, *command: str) -> None:
        """The program refuses the first word of a command with this errno, and this is what is said of it."""
        with self.subTest(command[:1], line=line):
            self.stand_in(report(verdict=f"nostart {errno}"), status=10)
            self.says(self.run_command(*command), 127 if errno == 2 else 126, line)

    def test_nothing_is_at_the_path(self) -> None:
        self.write("bin/hello", elf())
        self.write("bin/list", elf())
        self.write("etc/a", b"")
        os.symlink("bin/gone", self.work / "tree" / "run")
        os.symlink("/run", self.work / "tree" / "again")
        no = "cannot be started: in tree nothing is at"
        self.refused(2, f"hello {no} /hello; there is /bin/hello, and no PATH is searched", "hello")
        self.refused(2, f"/tree/bin/list {no} /tree; there is /bin/list", "/tree/bin/list")
        self.refused(2, f"/bin/helo {no} /bin/helo; there is /bin/hello", "/bin/helo")
        self.refused(2, f"/opt/x {no} /opt; / has again, bin, etc and run", "/opt/x")
        self.refused(2, f"/etc/nowhere {no} /etc/nowhere; /etc has a", "/etc/nowhere")
        self.refused(2, f"/run {no} /bin/gone (/run -> bin/gone); /bin has hello and list", "/run")
        self.refused(2, f"/again {no} /bin/gone (/again -> /run, /run -> bin/gone); /bin has hello and list", "/again")
        self.refused(2, "a program of an empty name cannot be started: the word behind -- is empty, "
                        "and is to be its path", "")
        self.refused(2, f"--seed {no} /--seed; options stand before the word --", "--seed", "5", "/bin/hello")
        self.refused(2, f"1A=b {no} /1A=b; no variable can have the name 1A, so this word is the program", "1A=b",
                     "/bin/hello")

    def test_a_folder_with_nothing_and_one_with_many_names(self) -> None:
        self.refused(2, "/a cannot be started: in tree nothing is at /a; / has nothing in it", "/a")
        for number in range(9):
            self.write(f"file{number}", b"")
        self.refused(2, "/a cannot be started: in tree nothing is at /a; / has file0, file1, file2, file3, file4, "
                        "file5 and 3 more", "/a")

    def test_paths_that_lead_to_no_file(self) -> None:
        self.write("file", elf())
        self.write("bin/x", elf())
        os.symlink("loop", self.work / "tree" / "loop")
        os.symlink("bin/", self.work / "tree" / "folder")
        os.symlink("file/", self.work / "tree" / "slash")
        self.refused(13, "/bin cannot be started: in tree /bin is a directory", "/bin")
        self.refused(13, "/folder cannot be started: in tree /bin is a directory (/folder -> bin/)", "/folder")
        self.refused(13, "/bin/.. cannot be started: in tree / is a directory", "/bin/..")
        self.refused(20, "/file/x cannot be started: in tree its path goes through /file, which is a file", "/file/x")
        self.refused(20, "/file/ cannot be started: in tree its path goes through /file, which is a file", "/file/")
        self.refused(20, "/slash cannot be started: in tree its path goes through /file, which is a file "
                         "(/slash -> file/)", "/slash")
        self.refused(40, "/loop cannot be started: in tree its path has more than 40 links, /loop among them", "/loop")
        name = "n" * 256
        self.refused(36, f"/{name} cannot be started: in tree a name of its path has 256 bytes, more than 255",
                     f"/{name}")
        path = "/a" * 2048
        self.refused(36, f"{path} cannot be started: its path has 4096 bytes, more than 4095", path)

    def test_devices(self) -> None:
        image = self.work / "image"
        image.mkdir()
        (image / "image.json").write_text('{"version":2,"entries":[{"path":"/null","type":"dev","mode":511,'
                                          '"device":"null"},{"path":"/run","type":"link","target":"null"}]}')
        for errno, path, said in (
            (13, "/null", "/null is a device"), (13, "/run", "/null is a device (/run -> null)"),
            (20, "/null/x", "its path goes through /null, which is a device"),
        ):
            with self.subTest(path):
                self.stand_in(report(verdict=f"nostart {errno}"), status=10)
                self.says(self.run_words("image", "--", path), 126, f"{path} cannot be started: in image {said}")

    def test_too_many_words_and_too_much_memory(self) -> None:
        self.write("a", elf())
        self.write("large", elf(segments=[LOAD, (1, 0, 0x100000, 0, 64 << 20)]))
        self.refused(7, f"/a cannot be started: arguments and environment take 131073 bytes, more than 131072{PAGE}",
                     "/a", "x" * 65521, "y" * 65523)
        self.refused(7, f"/large cannot be started: the segments of its file pass 64 MiB, its stack included{PAGE}",
                     "/large")

    def test_executables_that_are_none(self) -> None:
        self.write("x86", elf(machine=62, kind=3, segments=[LOAD, INTERPRETER]))
        self.write("pie", elf(kind=3))
        self.write("dynamic", elf(segments=[LOAD, INTERPRETER]))
        self.write("glibc", elf(kind=3, flags=5, segments=[LOAD, INTERPRETER]))
        self.write("object", elf(kind=1))
        self.write("arm", elf(machine=40, head=b"\x7fELF\1\1\1"))
        self.write("big", elf(head=b"\x7fELF\2\2\1"))
        no = "cannot be started:"
        x86 = "it is for x86-64, and not for RISC-V"
        pie = "it is position-independent (Type DYN)"
        static = "it is not static: it asks for a program interpreter (INTERP)"
        self.refused(8, f"/x86 {no} {x86}; {pie}; {static}{BUILD}", "/x86")
        self.refused(8, f"/pie {no} {pie}{BUILD}", "/pie")
        self.refused(8, f"/dynamic {no} {static}{BUILD}", "/dynamic")
        self.refused(8, f"/glibc {no} {pie}; {static}; it has compressed instructions (flag RVC); it has "
                        f"floating-point instructions (its flags name a float ABI){BUILD}", "/glibc")
        self.refused(8, f"/object {no} it is an object file that was not linked, and no executable (Type EXEC){BUILD}",
                     "/object")
        self.refused(8, f"/arm {no} it is 32-bit, and not ELF-64 with the lowest byte first{BUILD}", "/arm")
        self.refused(8, f"/big {no} it is with the highest byte first, and not ELF-64 with the lowest byte first"
                        + BUILD, "/big")

    def test_headers_and_segments_that_lie_badly(self) -> None:
        no = "/x cannot be started:"
        for data, said in (
            (elf(head=b"\x7fELF\3\1\1"), "it is of an unknown class, and not ELF-64 with the lowest byte first"),
            (elf(kind=4), "it is a core dump, and no executable (Type EXEC)"),
            (elf(kind=9), "it is of the type 9, and no executable (Type EXEC)"),
            (elf(machine=999), "it is for the machine 999, and not for RISC-V"),
            (elf()[:40], "it is cut short: it has 40 bytes, and a header alone has 64"),
            (elf()[:100], "it is cut short: its program headers run past its end"),
            (elf(entry_size=32), "its program headers have 32 bytes, and not 56"),
            (elf(count=0), "it has 0 program headers, and not 1 to 64"),
            (elf(entry=1 << 38), "it is entered at 0x4000000000, and not below 0x4000000000"),
            (elf(segments=[(2, 0, 0, 0, 0)]), "it has no segment that takes memory"),
            (elf(segments=[(1, 0, 0x10000, 65, 64)]), "segment 1 has more bytes in the file than in memory"),
            (elf(segments=[(1, 0, 0x10000, 900, 900)]), "it is cut short: segment 1 runs past its end"),
            (elf(segments=[LOAD, (1, 0, 0, 64, 64)]),
             "segment 2 stands at 0x0 to 0x40, and not within 0x1000 to 0x2000000000"),
            (elf(segments=[LOAD, (1, 0, 0x10020, 64, 64)]), "segment 2 shares bytes of memory with another one"),
        ):
            self.write("x", data)
            self.refused(8, f"{no} {said}{BUILD}", "/x")

    def test_files_that_are_no_executables(self) -> None:
        self.write("empty", b"")
        self.write("text", b"echo hello\n")
        self.write("bytes", b"\x00\x01\x02")
        no = "cannot be started: it is"
        self.refused(8, f"/empty {no} an empty file{PAGE}", "/empty")
        self.refused(8, f"/text {no} a text whose first line does not begin with #!{PAGE}", "/text")
        self.refused(8, f"/bytes {no} no ELF file{PAGE}", "/bytes")

    def test_scripts(self) -> None:
        self.write("bin/sh", elf())
        self.write("bin/pie", elf(kind=3))
        self.write("bin/script", b"#!/bin/sh\n")
        no = "/x cannot be started: it is a script"
        for errno, data, said in (
            (2, b"#!/usr/bin/sh -e\n",
             ", and its interpreter /usr/bin/sh is not to be had: nothing is at /usr; there is /bin/sh"),
            (2, b"#! /bin/sh\r\necho\r\n",
             ", and its interpreter /bin/sh\\r is not to be had: nothing is at /bin/sh\\r; "
             "the line ends with a carriage return, which belongs to the path"),
            (2, b"#!/opt/perl\n", ", and its interpreter /opt/perl is not to be had: nothing is at /opt"),
            (2, b"#!/bin/\xff\n", ", and its interpreter /bin/\\xff is no UTF-8, as all paths of an image are"),
            (13, b"#!/bin\n", ", and its interpreter /bin is not to be had: /bin is a directory"),
            (20, b"#!/x/y\n", ", and its interpreter /x/y is not to be had: its path goes through /x, which is a file"),
            (8, b"#!\n", " whose first line names no interpreter" + PAGE),
            (8, b"#!/bin/sh\0\n", " whose first line has a NUL" + PAGE),
            (8, b"#!/bin/sh " + b"x" * 246 + b"\n", " whose first line has 256 bytes, more than 255" + PAGE),
            (8, b"#!/bin/script", ", and its interpreter /bin/script is a script too" + PAGE),
            (8, b"#!\t/bin/pie\n", "; the interpreter is position-independent (Type DYN)" + BUILD),
        ):
            self.write("x", data)
            self.refused(errno, no + said, "/x")

    def test_a_reason_that_the_image_does_not_show(self) -> None:
        self.write("x", elf())
        self.refused(8, "/x cannot be started: its file, or that of its interpreter, is no executable of this kind"
                        + PAGE, "/x")
        self.refused(99, "/x cannot be started: the errno is 99", "/x")

    def test_an_image_that_has_gone_meanwhile(self) -> None:
        self.write("x", b"#!/none\n")
        self.stand_in(report(verdict="nostart 2"), status=10, more="rm -r \"$2\"")
        self.says(self.run_command("/x"), 127,
                  "/x cannot be started: nothing is at its path, or at that of its interpreter")


if __name__ == "__main__":
    unittest.main()
