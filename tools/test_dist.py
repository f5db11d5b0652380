"""What `make dist` makes of a commit and a program: the same bytes everywhere, installed without a toolchain."""
from __future__ import annotations

import hashlib
import io
import os
import re
import shutil
import struct
import subprocess
import tarfile
import time
import unittest
from pathlib import Path
from typing import List

from distlib import archive, elf
from program import needs_program
from release_case import ANY_PROGRAM, PLACE, PLAIN_PATH, ReleaseCase, files_below, needs_tools, run
from test_examples import session


class DistCase(ReleaseCase):
    def dist(self, top: Path, **more: str) -> Path:
        """The release of a checkout."""
        self.said = self.made(top, "dist", **more).splitlines()
        return top / self.said[0].split(":")[0]

    def unpacked(self, path: Path) -> Path:
        """A fresh folder with what is in a release, as GNU tar unpacks it."""
        place = self.folder / "fresh"
        place.mkdir()
        self.assertEqual(run(["tar", "-xzf", str(path)], place).stderr, "")
        (folder,) = place.iterdir()
        return folder


@needs_tools
class DistTest(DistCase):
    def test_the_same_commit_gives_the_same_bytes_in_other_places_and_at_other_times(self) -> None:
        first = self.dist(self.checkout("one"))
        other = self.checkout("another place")
        for path in other.rglob("*"):
            if path.is_file() and ".git" not in path.parts:
                os.utime(path, (7, 7))
                path.chmod(0o700 if os.access(path, os.X_OK) else 0o600)
        self.git(other, "status")
        os.utime(other / PLACE, (time.time(), time.time()))
        second = self.dist(other, TZ="Asia/Tokyo", LC_ALL="C.UTF-8")
        self.assertEqual((first.name, first.read_bytes()), (second.name, second.read_bytes()))

    def test_what_it_says_of_the_archive_is_so(self) -> None:
        top = self.checkout("top")
        path = self.dist(top)
        commit = self.git(top, "rev-parse", "HEAD").strip()
        self.assertEqual(path, top / f"out/dettrace-20250302.{commit[:12]}.tar.gz")
        data = path.read_bytes()
        tar = subprocess.run(["gzip", "-dc", path], capture_output=True, check=True).stdout
        with tarfile.open(path) as opened:
            count = len(opened.getmembers())
        self.assertEqual(self.said, [
            f"out/{path.name}: {count} files, {len(data)} bytes", f"  its SHA-256: {hashlib.sha256(data).hexdigest()}",
            f"  that of the tar in it: {hashlib.sha256(tar).hexdigest()}",
            f"  the program needs the GNU C library {elf.c_library(ANY_PROGRAM.read_bytes())} or later"])
        self.assertEqual([name for name in os.listdir(top / "out") if name != path.name], [])

    def test_no_member_has_a_time_an_owner_or_another_mode(self) -> None:
        path = self.dist(self.checkout("top"))
        self.assertEqual(path.read_bytes()[3:8], bytes(5), "the name's flag and the time")
        with tarfile.open(path) as opened:
            members = opened.getmembers()
        self.assertEqual([member.name for member in members], sorted(member.name for member in members))
        for member in members:
            self.assertEqual((member.mtime, member.uid, member.gid, member.uname, member.gname, member.type),
                             (0, 0, 0, "", "", tarfile.REGTYPE))
            self.assertIn(member.mode, (0o644, 0o755))

    def test_it_holds_what_somebody_needs_who_has_no_toolchain(self) -> None:
        top = self.checkout("top")
        folder = self.unpacked(self.dist(top))
        names = files_below(folder)
        for name in ("dettrace", "VERSION", "NEEDS", "SHA256SUMS", "README.md", "Makefile", "tools/install",
                     "tools/image", "tools/report", "tools/imagelib/pack.py", "man/dettrace.1", "docs/FARM.md",
                     "completion/dettrace.bash", "examples/hello/image.json"):
            self.assertIn(name, names)
        left = [name for name in names if re.search(r"test|crates|distlib|buildlib|\.git|bench|vectors", name)]
        self.assertEqual(left, [])
        for name in names - {"dettrace", "VERSION", "NEEDS", "SHA256SUMS"}:
            self.assertEqual((folder / name).read_bytes(), (top / name).read_bytes(), name)
        self.assertEqual((folder / "dettrace").read_bytes(), ANY_PROGRAM.read_bytes())
        self.assertRegex((folder / "NEEDS").read_text(), r"(?m)^- the GNU C library, version \d\.\d+ or later$")

    def test_its_sums_are_those_of_all_its_files(self) -> None:
        folder = self.unpacked(self.dist(self.checkout("top")))
        self.assertEqual(run(["sha256sum", "-c", "--quiet", "--strict", "SHA256SUMS"], folder).stdout, "")
        listed = {line.split("  ")[1] for line in (folder / "SHA256SUMS").read_text().splitlines()}
        self.assertEqual(listed, files_below(folder) - {"SHA256SUMS"})
        with open(folder / "README.md", "a", encoding="utf-8") as file:
            file.write("x")
        self.assertEqual(run(["sha256sum", "-c", "--quiet", "SHA256SUMS"], folder).stdout, "README.md: FAILED\n")

    def test_it_installs_the_same_as_the_checkout(self) -> None:
        top = self.checkout("top")
        folder = self.unpacked(self.dist(top))
        self.made(top, "install", f"PREFIX={self.folder}/one")
        self.made(folder, "install", f"PREFIX={self.folder}/two")
        one, two = ({name: (self.folder / which / name).read_bytes() for name in files_below(self.folder / which)}
                    for which in ("one", "two"))
        # Of the examples, what makes reports anew is for a checkout.
        self.assertEqual(set(one) - set(two), {"share/doc/dettrace/examples/reports.sh"})
        self.assertEqual({name: one[name] for name in two}, two)

    def test_what_is_for_a_checkout_says_so(self) -> None:
        folder = self.unpacked(self.dist(self.checkout("top")))
        for target in ("dist", "check", "bench"):
            with self.subTest(target):
                done = self.make(folder, target)
                self.assertNotEqual(done.returncode, 0)
                said = "This is a release, which has no sources: take a checkout."
                self.assertEqual(done.stderr.splitlines()[0], said)

    def test_changes_that_no_commit_has_are_not_packed(self) -> None:
        for change in (lambda top: (top / "docs/new.md").touch(), lambda top: (top / "README.md").write_text("x"),
                       lambda top: (top / PLACE).unlink(),
                       lambda top: os.utime(top / "crates/dettrace/src/main.rt", (2**33, 2**33))):
            with self.subTest(change):
                top = self.checkout("top")
                change(top)
                done = self.make(top, "dist")
                self.assertNotEqual(done.returncode, 0)
                self.assertRegex(done.stderr.splitlines()[0], r"^dist: (there are changes that no commit has: "
                                 r"(docs/new\.md|README\.md)|the program is older)|^There is no program")
                self.assertFalse((top / "out").exists())
                shutil.rmtree(top)

    def test_without_gnu_gzip_nothing_is_made(self) -> None:
        top = self.checkout("top")
        programs = self.folder / "bin"
        programs.mkdir()
        (programs / "gzip").write_text("#!/bin/sh\necho another 1.0\n")
        (programs / "gzip").chmod(0o755)
        done = self.make(top, "dist", PATH=f"{programs}:{PLAIN_PATH['PATH']}")
        self.assertEqual(done.stderr.splitlines()[0], "dist: GNU gzip is missing, whose bytes are the same everywhere")

    @needs_program
    def test_unpacked_without_a_toolchain_the_sessions_of_the_readme_print_what_it_shows(self) -> None:
        folder = self.unpacked(self.dist(self.checkout("top")))
        self.made(folder, "install", f"PREFIX={self.folder}/place")
        self.assertEqual(shutil.which("rt", path=PLAIN_PATH["PATH"]), None)
        for heading in ("A session", "Your own files"):
            play(self, folder, heading, [])


def play(test: unittest.TestCase, folder: Path, heading: str, before: List[str]) -> None:
    """Runs the commands of a section of the README one after the other, each by such words."""
    status = 0
    for command, wanted in session(heading):
        with test.subTest(command):
            words = [*before, "sh", "-c", f"umask 022; (exit {status}); {command}"]
            done = subprocess.run(words, cwd=folder, env=PLAIN_PATH, stdin=subprocess.DEVNULL, text=True,
                                  stdout=subprocess.PIPE, stderr=subprocess.STDOUT, check=False)
            test.assertEqual(done.stdout, wanted)
            status = done.returncode


class ArchiveTest(unittest.TestCase):
    def test_long_names_are_parted_and_too_long_ones_refused(self) -> None:
        for name in ("a", "a" * 100, "d/" + "a" * 100, "d" * 155 + "/" + "a" * 100, "/".join(["d" * 50] * 4)):
            prefix, short = archive.parted(name)
            self.assertEqual(f"{prefix}/{short}" if prefix else short, name)
        for name in ("a" * 101, "d" * 156 + "/" + "a" * 100, "é"):
            with self.subTest(name), self.assertRaises(archive.Failed):
                archive.parted(name)

    def test_an_archive_of_any_size_is_read_by_others(self) -> None:
        files = {f"{'d' * 60}/{'e' * 60}/{size}": archive.File(bytes([size % 251]) * size, bool(size % 2))
                 for size in (0, 1, 511, 512, 513, 70_000)}
        data = archive.tar(files)
        self.assertEqual(len(data) % archive.RECORD, 0)
        with tarfile.open(fileobj=io.BytesIO(data)) as opened:
            read = {member.name: archive.File(opened.extractfile(member).read(), bool(member.mode & 0o100))
                    for member in opened}
        self.assertEqual(read, files)


class LibraryTest(unittest.TestCase):
    @unittest.skipUnless(shutil.which("readelf"), "there is no readelf")
    def test_it_is_the_greatest_version_that_readelf_shows(self) -> None:
        for path in {ANY_PROGRAM, Path("/bin/sh").resolve(), Path("/bin/ls").resolve()}:
            with self.subTest(path):
                shown = subprocess.run(["readelf", "-W", "-V", path], capture_output=True, text=True, check=True).stdout
                found = re.findall(r"Name: GLIBC_([\d.]+)", shown)
                wanted = max(found, key=lambda version: [int(part) for part in version.split(".")])
                self.assertEqual(elf.c_library(path.read_bytes()), wanted)

    def test_what_needs_no_library_says_nothing(self) -> None:
        header = elf.LITTLE_64 + bytes(34) + struct.pack("<Q", 0) + bytes(10) + struct.pack("<HHH", 64, 0, 0)
        self.assertEqual(elf.c_library(header), "")

    def test_what_is_no_such_program_is_refused(self) -> None:
        for data in (b"", b"#!/bin/sh\n", elf.LITTLE_64, b"\x7fELF\x01\x01" + bytes(100)):
            with self.subTest(data[:6]), self.assertRaises(elf.NotElf):
                elf.c_library(data)

    def test_versions_are_compared_by_their_numbers(self) -> None:
        self.assertGreater(elf.number("2.34"), elf.number("2.4"))
        self.assertGreater(elf.number("2.2.5"), elf.number("2.2"))


if __name__ == "__main__":
    unittest.main()
