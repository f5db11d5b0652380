"""Guests that are built for one purpose: with texts and lists, great memory, loops and children."""
from __future__ import annotations

import struct
from typing import Callable

from .code import A0, A7, BEQ, Code, ECALL, S0, T0, T1, ZERO, addi, program
from .numbers import (AT_FDCWD, CHDIR, CLONE, CLOSE, EXIT, LINKAT, MKDIRAT, O_CREAT, O_RDWR, OPENAT, READ, SYMLINKAT,
                      WAIT4)

MIB = 1 << 20
# Texts and lists; and zeros that files are read into, which with the stack are nearly all that a process may have.
TEXTS, ROOM, ROOM_SIZE = 0x100000, 0x1000000, 62 * MIB
# The code with which a guest ends where an answer is another than it has to be.
WRONG = 99


class Guest:
    """A guest whose code comes to be call by call."""

    def __init__(self, room: int = ROOM_SIZE) -> None:
        self.code, self.room = Code(), room
        self.texts = bytearray()
        self.labels = 0

    def executable(self, code: int = 0) -> bytes:
        """The file, of a guest that ends with this code where all came as it had to."""
        self.call(EXIT, code)
        self.code.label("wrong")
        self.call(EXIT, WRONG)
        return program(self.code, (TEXTS, bytes(self.texts), 1), (ROOM, b"", self.room))

    def fresh(self) -> str:
        """A label that is set later."""
        self.labels += 1
        return f"label {self.labels}"

    def text(self, text: bytes) -> int:
        address = TEXTS + len(self.texts)
        self.texts += text + bytes(8 - len(text) % 8)
        return address

    def numbers(self, *numbers: int) -> int:
        address = TEXTS + len(self.texts)
        self.texts += b"".join(struct.pack("<Q", number % 2**64) for number in numbers)
        return address

    def call(self, number: int, *arguments: int) -> None:
        self.code.call(number, *arguments)

    def expect(self, answer: int) -> None:
        """Ends the guest where the last call answered otherwise."""
        right = self.fresh()
        self.code.li(T0, answer)
        self.code.branch(BEQ, A0, T0, right)
        self.code.jump("wrong")
        self.code.label(right)

    def child(self, does: Callable[[], None]) -> None:
        """A child that does something and ends with code 0."""
        child, behind = self.fresh(), self.fresh()
        self.call(CLONE, 17, 0, 0, 0, 0)
        self.code.branch(BEQ, A0, ZERO, child)
        self.code.jump(behind)
        self.code.label(child)
        does()
        self.call(EXIT, 0)
        self.code.label(behind)

    def wait(self) -> None:
        """Waits for any child."""
        self.call(WAIT4, -1, 0, 0, 0)

    def open(self, path: bytes, flags: int = 0) -> None:
        self.call(OPENAT, AT_FDCWD, self.text(path), flags, 0o644)

    def open_new(self, path: bytes) -> None:
        self.open(path, O_RDWR | O_CREAT)

    def open_at(self, address: int) -> None:
        """Opens or makes the file whose path stands at an address."""
        self.call(OPENAT, AT_FDCWD, address, O_RDWR | O_CREAT, 0o644)

    def read_file(self, path: bytes, address: int, size: int) -> None:
        """Reads a file into memory, with the lowest free descriptor, which is the third."""
        self.open(path)
        self.call(READ, 3, address, size)
        self.call(CLOSE, 3)

    def call_told(self, number: int, address: int, *arguments: int) -> None:
        """A call whose first argument is the descriptor of 32 bits at an address."""
        for place, argument in enumerate(arguments, 1):
            self.code.li(A0 + place, argument)
        self.code.li(T0, address)
        self.code.li(A7, number)
        # lw a0, 0(t0)
        self.code.add(T0 << 15 | 2 << 12 | A0 << 7 | 0x03, ECALL)

    def touch_pages(self, address: int, count: int) -> None:
        """Writes a byte to so many pages."""
        self.code.li(T1, address)
        with self.code.loop(T0, count):
            # sb t0, 0(t1); lui t2, 1; add t1, t1, t2
            self.code.add(T0 << 20 | T1 << 15 | 0x23, 1 << 12 | 7 << 7 | 0x37, 7 << 20 | T1 << 15 | T1 << 7 | 0x33)

    def make_names(self, count: int, target: bytes) -> None:
        """So many names of a file in the working directory, each of eight letters."""
        old, name = self.text(target), self.text(b"aaaaaaaa")
        with self.code.loop(S0, count):
            self.write_letters(name, S0)
            self.call(LINKAT, AT_FDCWD, old, AT_FDCWD, name, 0)

    def write_letters(self, address: int, register: int) -> None:
        """Writes a register as eight letters from a to p, one for each four bits."""
        self.code.li(T1, address)
        for place in range(8):
            # srli t0, register, 4 * place; andi t0, t0, 15; addi t0, t0, 'a'; sb t0, place(t1)
            self.code.add(4 * place << 20 | register << 15 | 5 << 12 | T0 << 7 | 0x13,
                          15 << 20 | T0 << 15 | 7 << 12 | T0 << 7 | 0x13,
                          addi(T0, T0, ord("a")), T0 << 20 | T1 << 15 | place << 7 | 0x23)

    def go_down(self, count: int, name: bytes) -> None:
        """Makes directories one in another, and goes down to the last."""
        text = self.text(name)
        with self.code.loop(S0, count):
            self.call(MKDIRAT, AT_FDCWD, text, 0o755)
            self.call(CHDIR, text)

    def make_links(self) -> None:
        """Forty symbolic links of up to 4,095 bytes, `l00` and so on, each to the next one, the last to the root."""
        for number in range(40):
            following = b"l%02d" % (number + 1) if number < 39 else b"/"
            target = following if number == 39 else b"./" * ((4095 - len(following)) // 2) + following
            self.call(SYMLINKAT, self.text(target), AT_FDCWD, self.text(b"l%02d" % number))
