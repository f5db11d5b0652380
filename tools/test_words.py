"""Words of the command line that are not text, and a program whose own name is not."""
import subprocess
import unittest

from folder_case import USAGE
from program import EXAMPLES, PROGRAM, needs_program

HELLO = (b"run", bytes(EXAMPLES / "hello"), b"--", b"/hello")
# A byte that stands in no UTF-8.
NO_TEXT = b"\xff"


def run(name: bytes, *words: bytes) -> tuple[int, bytes, bytes]:
    """A run of the program under a name: its status, and what it wrote to its two streams."""
    done = subprocess.run([name, *words], executable=PROGRAM, stdin=subprocess.DEVNULL, capture_output=True)
    return done.returncode, done.stdout, done.stderr


@needs_program
class WordsTest(unittest.TestCase):
    def test_a_word_that_is_not_text_is_refused(self) -> None:
        for words in [(NO_TEXT,), (NO_TEXT, *HELLO[1:]), (*HELLO, NO_TEXT), (*HELLO, b"x", b"x" + NO_TEXT, b"x"),
                      (*HELLO[:3], b"A=" + NO_TEXT, HELLO[3]), (b"steps", HELLO[1], NO_TEXT),
                      (b"steps", NO_TEXT, b"list")]:
            with self.subTest(words):
                self.assertEqual(run(b"dettrace", *words), (2, b"", USAGE))

    def test_the_name_of_the_program_need_not_be_text(self) -> None:
        report = (EXAMPLES / "hello" / "report").read_bytes()
        for name in (b"dettrace", b"", b"/" + NO_TEXT + b"/dettrace"):
            with self.subTest(name):
                self.assertEqual(run(name, *HELLO), (0, report, b""))
                self.assertEqual(run(name), (2, b"", USAGE))


if __name__ == "__main__":
    unittest.main()
