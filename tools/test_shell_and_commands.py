"""The shell and the commands of examples/shell-and-commands: each prints what the file beside its script says, on
whatever host. They are built from Debian's sources."""
from __future__ import annotations

import re
import shutil
import subprocess
import unittest

from guest_case import GuestCase, call, environment, output_of
from program import EXAMPLES, TOP, fresh_checkout, needs_program, run

SCRIPTS = EXAMPLES / "shell-and-commands" / "scripts"
NAMES = sorted(path.stem for path in SCRIPTS.glob("*.sh"))
HOSTS = (0, 7, 2**64 - 1)
# What each of the commands has to be tried for, by the names of the scripts.
WANTED = {"touch", "cp", "tar", "sed", "read", "find", "sort", "awk", "ls", "nproc", "wait", "others"}


# What of BusyBox's configuration is no command.
SETTINGS = {"desktop", "lfs", "busybox"}
NAMED = {"test1": "[", "test2": "[["}


def commands() -> set:
    """The commands that BusyBox is built with."""
    names = re.findall(r"(?m)^CONFIG_([A-Z0-9]+)=y$", (SCRIPTS.parent / "busybox.config").read_text())
    return {NAMED.get(name.lower(), name.lower()) for name in names} - SETTINGS


def section() -> str:
    """What docs/GUESTS.md has of the shell."""
    return (TOP / "docs" / "GUESTS.md").read_text().split("\n## A shell and its commands\n")[1].split("\n## ")[0]


class Files(unittest.TestCase):
    def test_each_script_has_its_output_beside_it(self) -> None:
        self.assertEqual(set(NAMES), WANTED)
        for name in NAMES:
            self.assertTrue((SCRIPTS / f"{name}.out").is_file(), name)

    def test_each_command_is_called_in_a_script(self) -> None:
        scripts = "\n".join((SCRIPTS / f"{name}.sh").read_text() for name in NAMES)
        self.assertGreater(len(commands()), 100)
        for command in sorted(commands()):
            with self.subTest(command):
                self.assertTrue(re.search(rf"(?m)(^|[\s;|(&!]){re.escape(command)}(\s|$|;|\))", scripts))

    def test_the_page_names_each_command(self) -> None:
        named = section().split("these commands are BusyBox's: ")[1].split(". Each is called")[0]
        self.assertEqual(set(re.findall(r"`(\S+)`", named)), commands())


@needs_program
class Runs(GuestCase):
    script = "shell-and-commands"

    def test_each_script_prints_its_output_on_every_host(self) -> None:
        shutil.copytree(SCRIPTS, self.made / "scripts", ignore=shutil.ignore_patterns("*.out"))
        image = self.folder / "image"
        self.assertEqual(call(TOP / "tools" / "image", "pack", self.made, image).returncode, 0)
        for name in NAMES:
            with self.subTest(name):
                words = ("--", "PATH=/bin", "/bin/sh", f"/scripts/{name}.sh")
                reports = [run("run", image, "--host", host, *words) for host in HOSTS]
                self.assertEqual(output_of(reports[0].stdout).decode(), (SCRIPTS / f"{name}.out").read_text())
                self.assertEqual({done.stdout for done in reports}, {reports[0].stdout})
                self.assertEqual([done.returncode for done in reports], [0] * len(HOSTS))

    def test_the_lines_of_the_page_print_what_it_shows(self) -> None:
        lines = [line[4:] for line in section().split("\n") if line.startswith("    ")]
        at = next(index for index, line in enumerate(lines) if line.startswith("tools/run")) + 1
        with fresh_checkout() as folder:
            more = {**environment(), "XDG_CACHE_HOME": str(self.folder / "cache")}
            done = subprocess.run(["sh", "-e", "-c", "\n".join(lines[:at])], cwd=folder, env=more, text=True,
                                  stdin=subprocess.DEVNULL, capture_output=True, check=False)
        self.assertEqual((done.returncode, done.stdout.splitlines(), done.stderr), (0, lines[at:], ""))

    def test_a_script_of_ones_own_needs_no_path_in_the_environment(self) -> None:
        tree = self.folder / "tree"
        shutil.copytree(self.made, tree, symlinks=True)
        script = tree / "mine"
        script.write_text("#!/usr/bin/env sh\nls / | wc -l\nfind /etc -type f -exec basename {} \\;\n")
        script.chmod(0o755)
        done = self.run_tool("--twice", "--strict", "--quiet", tree, "--", "/mine")
        self.assertEqual((done.returncode, done.stderr), (0, b""))
        self.assertEqual(done.stdout.decode().splitlines()[1:], ["group", "passwd"])


if __name__ == "__main__":
    unittest.main()
