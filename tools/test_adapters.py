"""The folder and the streams that the program stands on: whatever becomes of them while it runs, it ends with status 4
or 6, or as if nothing had been, and what it wrote is a prefix of the report.

Where a change comes at a system call of the program, ptrace(2) stops it there."""
from __future__ import annotations

import errno
import fcntl
import os
import resource
import shutil
import socket
import subprocess
import tempfile
import threading
import time
import unittest
from pathlib import Path
from typing import Callable, Dict, List, NamedTuple, Optional, Sequence

from hostilelib import tracing
from hostilelib.building import Guest
from hostilelib.code import S0
from hostilelib.numbers import WRITE as CALL_WRITE
from hostilelib.running import write_files
from hostilelib.tracing import Call, LOOKS, ONE, OPENS, READS, WRITE, WRITES
from hostilelib.tries import Maker, file_entry, index_of
from program import EXAMPLES, PROGRAM, needs_program

HELLO, BLOB, INDEX = ("run", "img", "--host", "1", "--workers", "1", "--", "/hello"), "img/hello", "img/image.json"
STORE_FAULT, OUTPUT_FAULT, NO_MEMORY = 4, 6, 7
LINES = {STORE_FAULT: b"dettrace: store fault\n", OUTPUT_FAULT: b"dettrace: output fault\n",
         NO_MEMORY: b"dettrace: out of memory\n"}
# Further system calls of Linux on x86-64.
CLOSE, MMAP, MUNMAP, BRK, MREMAP, MADVISE, EXIT_GROUP = 3, 9, 11, 12, 25, 28, 231
CLONES = (56, 435)
ERRNOS = (errno.EINTR, errno.EAGAIN, errno.EIO, errno.EACCES, errno.ENOMEM, errno.ESTALE, errno.EMFILE, errno.ELOOP)

needs_tracing = unittest.skipUnless(tracing.can_trace(), "processes cannot be traced here")


class Came(NamedTuple):
    """How a run ended, and what it wrote."""

    status: int
    out: bytes
    err: bytes


class Case(unittest.TestCase):
    """A test in a folder with an image, of which `whole` is the report."""

    def setUp(self) -> None:
        self.top = Path(tempfile.mkdtemp(prefix="adapters-"))
        self.addCleanup(shutil.rmtree, self.top, True)
        self.make_image()
        self.whole = self.run_with().stdout

    def make_image(self) -> None:
        shutil.rmtree(self.top / "img", ignore_errors=True)
        shutil.copytree(EXAMPLES / "hello", self.top / "img")

    def run_with(self, *words: str, **options: object) -> "subprocess.CompletedProcess[bytes]":
        options = {"stdout": subprocess.PIPE, "stderr": subprocess.PIPE, "stdin": subprocess.DEVNULL, **options}
        return subprocess.run([PROGRAM, *(words or HELLO)], cwd=self.top, timeout=60, check=False, **options)

    def is_fault(self, came: Came, status: int, whole: Optional[bytes] = None) -> None:
        """Asserts that a run ended with a fault's status and line, and a prefix of the report: at 4 an empty one."""
        self.assertEqual((came.status, came.err), (status, LINES[status]))
        whole = b"" if status == STORE_FAULT else self.whole if whole is None else whole
        self.assertTrue(whole.startswith(came.out), came.out)


@needs_program
class Folders(Case):
    """What stands in a file's place from the start."""

    def stand(self, place: str, what: str) -> None:
        path = self.top / place
        path.unlink()
        if what == "a folder":
            path.mkdir()
        elif what == "a FIFO":
            os.mkfifo(path)
        elif what == "a socket":
            # Its path may be longer than a socket's address.
            here = os.open(self.top / "img", os.O_RDONLY)
            listening = socket.socket(socket.AF_UNIX)
            listening.bind(f"/proc/self/fd/{here}/{path.name}")
            self.addCleanup(listening.close)
            os.close(here)
        else:
            through = "image.json/x" if place == BLOB else "hello/x"
            path.symlink_to({"a device": "/dev/null", "a link to itself": path.name, "a path through a file": through,
                             "a name that is too long": "x" * 256}[what])

    def test_what_is_no_file_is_a_store_fault(self) -> None:
        for place in INDEX, BLOB:
            for what in ("a folder", "a FIFO", "a socket", "a device", "a link to itself", "a path through a file",
                         "a name that is too long"):
                with self.subTest(place=place, what=what):
                    self.make_image()
                    self.stand(place, what)
                    done = self.run_with()
                    self.is_fault(Came(done.returncode, done.stdout, done.stderr), STORE_FAULT)

    def test_what_leads_nowhere_is_not_there(self) -> None:
        for place, line in (INDEX, b"1 NoIndex"), (BLOB, b"6 NoBlob"):
            for makes_link in False, True:
                with self.subTest(place=place, makes_link=makes_link):
                    self.make_image()
                    (self.top / place).unlink()
                    if makes_link:
                        (self.top / place).symlink_to("nowhere")
                    done = self.run_with()
                    self.assertEqual((done.returncode, done.stdout, done.stderr),
                                     (3, b"", b"dettrace: image refused: " + line + b"\n"))

    def test_a_link_to_a_file_elsewhere_is_followed(self) -> None:
        """docs/SECURITY.md tells what this means for folders that others made."""
        for place in INDEX, BLOB:
            path = self.top / place
            path.rename(self.top / "elsewhere")
            path.symlink_to(self.top / "elsewhere")
            done = self.run_with()
            self.assertEqual((done.returncode, done.stdout, done.stderr), (0, self.whole, b""))
            self.make_image()

    @unittest.skipIf(os.geteuid() == 0, "root may read everything")
    def test_what_may_not_be_read_is_a_store_fault(self) -> None:
        for place in INDEX, BLOB:
            with self.subTest(place=place):
                self.make_image()
                (self.top / place).chmod(0)
                done = self.run_with()
                self.is_fault(Came(done.returncode, done.stdout, done.stderr), STORE_FAULT)

    def test_names_of_the_folder_itself(self) -> None:
        for folder in "img/hello", "x" * 256, "/" * 5000:
            with self.subTest(folder=folder[:9]):
                done = self.run_with("run", folder, "--", "/hello")
                self.is_fault(Came(done.returncode, done.stdout, done.stderr), STORE_FAULT)


@needs_program
@needs_tracing
class Traced(Case):
    """A test that stops the program at its system calls."""

    def setUp(self) -> None:
        super().setUp()
        self.calls = self.trace(lambda call: None)[1]
        # The calls behind the first look at the folder: those before it start the program.
        self.start = next(call.place for call in self.calls if call.path == INDEX.encode())

    def trace(self, act: Callable[[Call], Optional[int]], words: Sequence[str] = HELLO) -> tuple:
        """A run, and its calls."""
        with open(self.top / "out", "w+b") as out, open(self.top / "err", "w+b") as err, open(os.devnull) as none:
            ended = tracing.run([str(PROGRAM), *words], self.top, act, [none.fileno(), out.fileno(), err.fileno()])
            return Came(ended.status, (self.top / "out").read_bytes(), (self.top / "err").read_bytes()), ended.calls

    def places(self, *numbers: int) -> List[int]:
        """Where the program makes one of these calls, on the folder or on a stream."""
        return [call.place for call in self.calls if call.number in numbers and call.place >= self.start]

    def answered(self, place: int, answer: int) -> Came:
        """A run of which one call is answered so, and not made."""
        return self.trace(lambda call: answer if call.place == place else None)[0]


class Reading(Traced):
    def test_each_file_is_looked_at_opened_and_read(self) -> None:
        self.assertEqual([len(self.places(*numbers)) for numbers in (LOOKS, OPENS, READS)], [2, 2, 2])

    def test_a_call_that_fails_is_a_store_fault(self) -> None:
        for number in ERRNOS:
            for place in self.places(*LOOKS, *OPENS, *READS):
                with self.subTest(errno.errorcode[number], place=place):
                    came = self.answered(place, -number)
                    if number == errno.EINTR and came.status == 0:
                        # What was interrupted may be tried again.
                        self.assertEqual(came, Came(0, self.whole, b""))
                    else:
                        self.is_fault(came, STORE_FAULT)

    def test_a_read_that_gives_nothing_is_a_store_fault(self) -> None:
        for place in self.places(*READS):
            self.is_fault(self.answered(place, 0), STORE_FAULT)

    def test_reads_of_one_byte_each(self) -> None:
        came, calls = self.trace(lambda call: ONE if call.place >= self.start and call.number in READS else None)
        self.assertEqual(came, Came(0, self.whole, b""))
        size = sum((self.top / name).stat().st_size for name in (INDEX, BLOB))
        self.assertEqual(len([call for call in calls[self.start:] if call.number in READS]), size)


CHANGES: Dict[str, Callable[[Path], None]] = {
    "is cut": lambda path: os.truncate(path, path.stat().st_size - 1),
    "is emptied": lambda path: os.truncate(path, 0),
    "grows": lambda path: os.truncate(path, path.stat().st_size + 5000),
    "is removed": lambda path: path.unlink(),
    "becomes a folder": lambda path: (path.unlink(), path.mkdir()),
    "becomes a link to nothing": lambda path: (path.unlink(), path.symlink_to("nowhere")),
    "becomes a link to itself": lambda path: (path.unlink(), path.symlink_to(path.name)),
    "becomes a device": lambda path: (path.unlink(), path.symlink_to("/dev/null")),
}


class Changing(Traced):
    """A file that changes before one of the calls that look at it, open it or read it."""

    def changed(self, name: str, place: int, change: Callable[[Path], None]) -> Came:
        self.make_image()

        def act(call: Call) -> None:
            if call.place == place:
                change(self.top / name)

        return self.trace(act)[0]

    def test_each_change_before_each_call(self) -> None:
        for name, first in (INDEX, 0), (BLOB, 1):
            look, opens, read = (self.places(*numbers)[first] for numbers in (LOOKS, OPENS, READS))
            for what, change in CHANGES.items():
                for place in look, opens, read:
                    with self.subTest(name, what=what, place=place):
                        self.is_sound(self.changed(name, place, change), what, place, look, read)

    def is_sound(self, came: Came, what: str, place: int, look: int, read: int) -> None:
        """Before the look it is another image. Between look and open it is a fault, but where the file only grows. Once
        it is open, what becomes of its name does not matter."""
        if place == look:
            self.assertIn(came.status, (0, 1, 3, 4, 10))
        elif what == "grows" or (place == read and not what.startswith("is cut") and what != "is emptied"):
            self.assertEqual(came, Came(0, self.whole, b""))
        else:
            self.is_fault(came, STORE_FAULT)

    def test_a_file_that_becomes_a_fifo_is_a_store_fault_once_somebody_opens_that(self) -> None:
        """Until then the program waits, as open(2) does: docs/SECURITY.md tells so."""
        for name, first in (INDEX, 0), (BLOB, 1):
            with self.subTest(name):
                self.make_image()
                path = self.top / name
                writer = threading.Thread(target=write_to_fifo, args=(path,))

                def act(call: Call) -> None:
                    if call.place == self.places(*OPENS)[first]:
                        path.unlink()
                        os.mkfifo(path)
                        writer.start()

                came, _ = self.trace(act)
                # Whoever still waits for a reader has one now.
                os.close(os.open(path, os.O_RDONLY | os.O_NONBLOCK))
                writer.join()
                self.is_fault(came, STORE_FAULT)

    def test_a_folder_that_is_swapped_between_two_files(self) -> None:
        def act(call: Call) -> None:
            if call.place == self.places(*LOOKS)[1]:
                (self.top / "img").rename(self.top / "old")

        came, _ = self.trace(act)
        self.assertEqual(came, Came(3, b"", b"dettrace: image refused: 6 NoBlob\n"))


def write_to_fifo(path: Path) -> None:
    with open(path, "wb", buffering=0) as fifo:
        try:
            fifo.write(b"x")
        except OSError:
            pass


class Writing(Traced):
    def test_a_write_that_fails_is_an_output_fault(self) -> None:
        for number in (*ERRNOS, errno.ENOSPC, errno.EPIPE, errno.EFBIG, errno.EBADF, errno.EDQUOT):
            for place in self.places(*WRITES):
                with self.subTest(errno.errorcode[number], place=place):
                    self.is_fault(self.answered(place, -number), OUTPUT_FAULT)

    def test_a_write_that_takes_nothing_is_an_output_fault(self) -> None:
        self.assertTrue(self.places(*WRITES))
        for place in self.places(*WRITES):
            self.is_fault(self.answered(place, 0), OUTPUT_FAULT)

    def test_writes_of_one_byte_each(self) -> None:
        came, calls = self.trace(lambda call: ONE if call.number in WRITES else None)
        self.assertEqual(came, Came(0, self.whole, b""))
        self.assertEqual(len([call for call in calls if call.number in WRITES]), len(self.whole))

    def test_a_write_that_fails_after_each_number_of_bytes(self) -> None:
        for count in range(0, len(self.whole), 10):
            with self.subTest(count=count):
                written: List[int] = []

                def act(call: Call) -> Optional[int]:
                    if call.number not in WRITES or call.arguments[0] != 1:
                        return None
                    written.append(call.place)
                    return ONE if len(written) <= count else -errno.EIO

                came, _ = self.trace(act)
                self.is_fault(came, OUTPUT_FAULT)
                self.assertEqual(came.out, self.whole[:count])

    def test_a_fault_of_standard_error_changes_no_status(self) -> None:
        for words, status in (("run",), 2), (("run", "nowhere", "--", "/x"), 3), (("run", BLOB, "--", "/x"), 4):
            for number in ERRNOS:
                with self.subTest(words, errno=errno.errorcode[number]):
                    came, _ = self.trace(lambda call: -number if call.number in WRITES else None, words)
                    self.assertEqual(came, Came(status, b"", b""))


class Memory(Traced):
    """Memory that ends while a run goes on."""

    def make_large(self, size: int) -> Sequence[str]:
        """An image with a file of that size beside the program, and the words that run it."""
        (self.top / "large").mkdir()
        shutil.copy(self.top / BLOB, self.top / "large/hello")
        (self.top / "large/bytes").write_bytes(bytes(size))
        entries = file_entry("/bytes", "bytes"), file_entry("/hello", "hello")
        (self.top / "large/image.json").write_bytes(index_of(*entries))
        return "run", "large", "--", "/hello"

    def test_memory_that_ends_at_each_call_that_asks_for_it(self) -> None:
        # The host's choices decide how much memory is asked for, so they are the same each time.
        words = (*self.make_large(1 << 20)[:2], "--host", "1", "--", "/hello")
        came, calls = self.trace(lambda call: None, words)
        self.assertEqual(came.status, 0)
        start = next(call.place for call in calls if call.path == b"large/image.json")
        places = [call.place for call in calls if call.number in (BRK, MMAP, MREMAP) and call.place >= start]
        self.assertTrue(places)
        for place in places:
            with self.subTest(place=place):
                self.is_fault(self.trace(Ending(place), words)[0], NO_MEMORY, came.out)

    def test_threads_that_cannot_be_made_change_nothing(self) -> None:
        refused: List[int] = []

        def act(call: Call) -> Optional[int]:
            if call.number in CLONES:
                refused.append(call.place)
                return -errno.EAGAIN
            return None

        (self.top / "computing").mkdir()
        (self.top / "computing/p").write_bytes(computing_guest())
        (self.top / "computing/image.json").write_bytes(index_of(file_entry("/p", "p")))
        words = ("run", "computing", "--workers", "4", "--", "/p")
        came, _ = self.trace(act, words)
        self.assertEqual(came, Came(0, self.run_with(*words).stdout, b""))
        self.assertTrue(refused)

    def test_limits_of_addresses(self) -> None:
        """A run has memory enough, or ends with status 7. Below the first of these limits no program starts."""
        words = self.make_large(12 << 20)
        whole = self.run_with(*words).stdout
        statuses = []
        for kib in range(6000, 60_000, 1500):
            limit = (kib * 1024, kib * 1024)
            done = self.run_with(*words, preexec_fn=lambda: resource.setrlimit(resource.RLIMIT_AS, limit))
            statuses.append(done.returncode)
            if done.returncode != 0:
                self.is_fault(Came(done.returncode, done.stdout, done.stderr), NO_MEMORY, whole)
        self.assertEqual(set(statuses), {0, 7})


class Reach(Traced):
    """What a run asks of the kernel: the image's files at first, and then memory, and one output."""

    def test_guests_whose_calls_are_random_reach_nothing_of_the_machine(self) -> None:
        maker, words = Maker(11), ("run", "img", "--budget", "50000", "--host", "1", "--workers", "1", "--", "/p")
        for number in range(4, 154, 6):
            tried = maker.make(number)
            self.assertEqual(tried.kind, "calls")
            shutil.rmtree(self.top / "img")
            write_files(self.top / "img", tried.files)
            came, calls = self.trace(lambda call: None, words)
            with self.subTest(number=number):
                self.assertIn(came.status, (0, 1, 10))
                self.asks_for_little(calls, [f"img/{name}".encode() for name in tried.files])

    def asks_for_little(self, calls: List[Call], files: List[bytes]) -> None:
        start = next(call.place for call in calls if call.path == INDEX.encode())
        self.assertEqual({call.path for call in calls[start:] if call.path}, set(files))
        opened = {call.arguments[2] & os.O_ACCMODE for call in calls[start:] if call.number in OPENS}
        self.assertEqual(opened, {os.O_RDONLY})
        last = max(call.place for call in calls if call.number in READS)
        numbers = {call.number for call in calls[last + 1:]}
        self.assertEqual(numbers - {BRK, MMAP, MUNMAP, MREMAP, MADVISE, CLOSE, WRITE, EXIT_GROUP}, set())
        self.assertEqual({call.arguments[0] for call in calls[last + 1:] if call.number == WRITE}, {1})


class Ending:
    """Memory ends at a call: no later one gives any. A break that cannot be moved is answered as it is."""

    def __init__(self, place: int) -> None:
        self.place, self.last_break = place, 0

    def __call__(self, call: Call) -> Optional[int]:
        if call.number == BRK and call.place < self.place:
            self.last_break = call.arguments[0] or self.last_break
        if call.place < self.place:
            return None
        return {BRK: self.last_break, MMAP: -errno.ENOMEM, MREMAP: -errno.ENOMEM}.get(call.number)


def computing_guest() -> bytes:
    """A guest whose children compute for so long that workers run them side by side."""
    guest = Guest(4096)
    for _ in range(3):
        guest.child(lambda: guest.code.spin(200_000))
    guest.code.spin(200_000)
    for _ in range(3):
        guest.wait()
    return guest.executable()


@needs_program
class Streams(Case):
    """Streams as a shell hands them over."""

    def came(self, line: str) -> Came:
        """A run of a line of sh, which knows the program's words as $@."""
        done = subprocess.run(["sh", "-c", line, "sh", PROGRAM, *HELLO], cwd=self.top, timeout=60, check=False,
                              stdin=subprocess.DEVNULL, capture_output=True)
        return Came(done.returncode, done.stdout, done.stderr)

    def test_an_output_that_is_closed_full_or_only_read_is_an_output_fault(self) -> None:
        for output in ">&-", ">/dev/full", "1</dev/null", "<&- >&-":
            with self.subTest(output):
                self.is_fault(self.came(f'"$@" {output}'), OUTPUT_FAULT)

    def test_a_closed_standard_error_changes_no_status(self) -> None:
        for error in "2>&-", "2>/dev/full", "2</dev/null":
            for output, status in ("", 0), (">&-", 6), (">/dev/full", 6):
                with self.subTest(error=error, output=output):
                    came = self.came(f'"$@" {output} {error}')
                    self.assertEqual((came.status, came.err), (status, b""))

    def test_a_closed_input_changes_nothing(self) -> None:
        self.assertEqual(self.came('"$@" <&-'), Came(0, self.whole, b""))

    def test_a_reader_that_is_gone_is_an_output_fault(self) -> None:
        reader, writer = os.pipe()
        os.close(reader)
        done = self.run_with(stdout=writer)
        os.close(writer)
        self.is_fault(Came(done.returncode, b"", done.stderr), OUTPUT_FAULT)

    def test_a_file_that_may_not_be_longer_is_an_output_fault_where_its_signal_is_ignored(self) -> None:
        self.is_fault(self.came('trap "" XFSZ; ulimit -f 0; "$@" >file'), OUTPUT_FAULT)


@needs_program
class Blocking(Case):
    """An output that takes nothing for a while."""

    def setUp(self) -> None:
        super().setUp()
        self.reader, self.writer = os.pipe()
        self.addCleanup(os.close, self.reader)

    def started(self) -> "subprocess.Popen[bytes]":
        child = subprocess.Popen([PROGRAM, *HELLO], cwd=self.top, stdin=subprocess.DEVNULL, stdout=self.writer,
                                 stderr=subprocess.PIPE)
        os.close(self.writer)
        self.addCleanup(child.stderr.close)
        self.addCleanup(child.wait)
        self.addCleanup(child.kill)
        return child

    def fill(self) -> int:
        """Leaves no room in the pipe; answers how many bytes are in it."""
        fcntl.fcntl(self.writer, fcntl.F_SETFL, os.O_NONBLOCK)
        count = 0
        while True:
            try:
                count += os.write(self.writer, bytes(4096))
            except BlockingIOError:
                return count

    def read_all(self) -> bytes:
        pieces = []
        while True:
            piece = os.read(self.reader, 1)
            if not piece:
                return b"".join(pieces)
            pieces.append(piece)

    def test_a_run_waits_for_a_slow_reader(self) -> None:
        count = self.fill()
        fcntl.fcntl(self.writer, fcntl.F_SETFL, 0)
        child = self.started()
        time.sleep(0.3)
        self.assertIsNone(child.poll())
        self.assertEqual(self.read_all(), bytes(count) + self.whole)
        self.assertEqual((child.wait(60), child.stderr.read()), (0, b""))

    def test_a_reader_that_goes_while_a_run_waits_is_an_output_fault(self) -> None:
        self.fill()
        fcntl.fcntl(self.writer, fcntl.F_SETFL, 0)
        child = self.started()
        time.sleep(0.3)
        self.assertIsNone(child.poll())
        os.dup2(os.open(os.devnull, os.O_RDONLY), self.reader)
        self.assertEqual((child.wait(60), child.stderr.read()), (OUTPUT_FAULT, LINES[OUTPUT_FAULT]))

    def test_an_output_that_would_block_is_an_output_fault(self) -> None:
        count = self.fill()
        child = self.started()
        self.assertEqual((child.wait(60), child.stderr.read()), (OUTPUT_FAULT, LINES[OUTPUT_FAULT]))
        self.assertEqual(self.read_all(), bytes(count))

    def test_a_run_that_is_stopped_and_goes_on(self) -> None:
        self.fill()
        fcntl.fcntl(self.writer, fcntl.F_SETFL, 0)
        child = self.started()
        for _ in range(5):
            time.sleep(0.05)
            child.send_signal(19)
            child.send_signal(18)
        self.assertTrue(self.read_all().endswith(self.whole))
        self.assertEqual(child.wait(60), 0)


@needs_program
class Streaming(Case):
    """What a turn shows is there while the run goes on."""

    # More than a pipe holds, so that the run cannot end before its output is read.
    ROUNDS, LINE = 40, b"x" * 4095 + b"\n"
    FIRST = b"dettrace 1\nout 1 4096\n" + LINE + b"\n"
    WORDS = ("run", "writing", "--", "/p")

    def setUp(self) -> None:
        super().setUp()
        guest = Guest(4096)
        text = guest.text(self.LINE)
        with guest.code.loop(S0, self.ROUNDS):
            guest.code.spin(500_000)
            guest.call(CALL_WRITE, 1, text, len(self.LINE))
        write_files(self.top / "writing", {"p": guest.executable(), "image.json": index_of(file_entry("/p", "p"))})

    def started(self) -> "subprocess.Popen[bytes]":
        child = subprocess.Popen([PROGRAM, *self.WORDS], cwd=self.top, stdin=subprocess.DEVNULL,
                                 stdout=subprocess.PIPE, stderr=subprocess.PIPE)
        for end in (child.wait, child.kill, child.stderr.close, child.stdout.close):
            self.addCleanup(end)
        return child

    def test_each_line_is_there_before_the_next(self) -> None:
        child = self.started()
        self.assertEqual(child.stdout.read(len(self.FIRST)), self.FIRST)
        self.assertIsNone(child.poll())
        self.assertEqual(self.FIRST + child.stdout.read(), self.run_with(*self.WORDS).stdout)
        self.assertEqual((child.wait(60), child.stderr.read()), (0, b""))

    def test_a_run_that_is_ended_leaves_how_its_report_begins(self) -> None:
        child = self.started()
        begun = child.stdout.read(len(self.FIRST) + 100)
        child.kill()
        begun += child.stdout.read()
        whole = self.run_with(*self.WORDS).stdout
        self.assertLess(len(begun), len(whole))
        self.assertEqual(begun, whole[:len(begun)])


if __name__ == "__main__":
    unittest.main()
