"""Every example gives the report that lies beside it, under every host, and the README shows what is printed."""
import re
import subprocess
import unittest

from program import EXAMPLES, TOP, fresh_checkout, needs_program, run_example

NAMES = sorted(index.parent.name for index in EXAMPLES.glob("*/image.json"))
HOSTS = (0, 1, 5, 77, 2**64 - 1)


def session(heading: str) -> list[tuple[str, str]]:
    """The commands that a section of the README shows, each with what it prints."""
    section = (TOP / "README.md").read_text().split(f"\n## {heading}\n")[1].split("\n## ")[0]
    lines = [line[4:] for line in section.split("\n") if line.startswith("    ") or not line]
    steps = ("\n" + "\n".join(lines).strip()).split("\n$ ")[1:]
    return [tuple(f"{step}\n".split("\n", 1)) for step in steps]


class Folders(unittest.TestCase):
    def test_each_example_has_a_command_and_a_report_and_is_named_on_their_page(self):
        page = (EXAMPLES / "README.md").read_text()
        self.assertGreater(len(NAMES), 10)
        for name in NAMES:
            with self.subTest(name):
                self.assertTrue((EXAMPLES / name / "command").is_file())
                self.assertTrue((EXAMPLES / name / "report").is_file())
                self.assertRegex(page, rf"(?m)^\| `{re.escape(name)}` \|")


@needs_program
class Runs(unittest.TestCase):
    def test_each_example_gives_its_report_under_every_host(self):
        for name in NAMES:
            wanted = (EXAMPLES / name / "report").read_bytes()
            for host in HOSTS:
                with self.subTest(name, host=host):
                    self.assertEqual(run_example(name, "--host", host).stdout, wanted)

    def test_the_race_has_one_outcome_under_a_hundred_hosts_and_another_with_another_seed(self):
        reports = {run_example("race", "--host", host).stdout for host in range(100)}
        self.assertEqual(reports, {(EXAMPLES / "race" / "report").read_bytes()})
        self.assertNotIn(run_example("race", "--seed", 1).stdout, reports)

    def test_the_sessions_of_the_readme_print_what_it_shows(self):
        for heading in ("A session", "Your own files", "A build in steps"):
            self.assertGreater(len(session(heading)), 4)
            with fresh_checkout() as folder:
                self.play(folder, session(heading))

    def play(self, folder, commands):
        """Runs commands one after the other, as a user types them."""
        status = 0
        for command, wanted in commands:
            with self.subTest(command):
                ran = subprocess.run(["sh", "-c", f"umask 022; (exit {status}); {command}"], cwd=folder, text=True,
                                     stdin=subprocess.DEVNULL, stdout=subprocess.PIPE, stderr=subprocess.STDOUT)
                self.assertEqual(ran.stdout, wanted)
                status = ran.returncode


if __name__ == "__main__":
    unittest.main()
