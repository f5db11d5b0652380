"""Guests of random instructions: good ones with random fields, mostly, and words that are none."""
from __future__ import annotations

import random
from typing import List

from .code import A7, BEQ, BLTU, Code, EXECUTE, READ, Segment, WRITE, branch_to, executable, jump_to
from .numbers import BRK, EXIT_GROUP, GETPID, GETRANDOM, SCHED_YIELD, WRITE as WRITE_CALL

DATA, DATA_SIZE = 0x40000, 0x4000
ODD_REGISTERS = [0, 1, 2**31 - 1, 2**31, 2**32 - 1, 2**63 - 1, 2**63, 2**64 - 1, 2**64 - 8, 0x5555555555555555,
                 DATA, DATA + 1, DATA + DATA_SIZE - 4, DATA + DATA_SIZE, 0x3FFFFFE000, 0x3FFFFFF000, 2**38 - 4, 2**38]
COMPUTING = 0x33
# Opcodes and how often each comes: computations, jumps, loads and stores, counters and calls.
OPCODES = {0x13: 10, COMPUTING: 10, 0x1B: 5, 0x3B: 5, 0x37: 3, 0x17: 3, 0x03: 8, 0x23: 8, 0x63: 5, 0x6F: 2, 0x67: 2,
           0x0F: 1, 0x73: 1}


def instruction(chance: random.Random) -> int:
    """A word: one in twenty may be anything."""
    if chance.random() < 0.05:
        return chance.getrandbits(32)
    opcode, = chance.choices(list(OPCODES), list(OPCODES.values()))
    word = chance.getrandbits(25) << 7 | opcode
    if opcode in (0x63, 0x6F):
        # A few instructions forward or back.
        offset = 4 * chance.randrange(-12, 13)
        return branch_to(chance.choice([*range(BEQ, BLTU + 2)]), word >> 15 & 31, word >> 20 & 31, offset) \
            if opcode == 0x63 else jump_to(word >> 7 & 31, offset)
    if opcode in (COMPUTING, 0x3B):
        return word & 0x1FFFFFF | chance.choice([0, 0, 1, 1, 0x20]) << 25
    if opcode in (0x03, 0x23) and chance.random() < 0.8:
        # By one of the registers that have an address of data.
        return word & ~(31 << 15) | chance.randrange(20, 24) << 15
    if opcode == 0x73 and chance.random() < 0.9:
        return chance.choice([0x73, 0x00100073, 0xC0002073 | word & 0xF80, 0xC0102073 | word & 0xF80])
    return word


def random_guest(chance: random.Random) -> bytes:
    """The executable of a guest of up to some thousand instructions; its code may be written at times."""
    code = Code()
    for register in range(1, 32):
        code.li(register, chance.choice(ODD_REGISTERS))
    for register in range(20, 24):
        code.li(register, DATA + 8 * chance.randrange(DATA_SIZE // 8))
    code.li(A7, chance.choice([WRITE_CALL, SCHED_YIELD, GETPID, BRK, GETRANDOM, 1000]))
    words: List[int] = [instruction(chance) for _ in range(chance.choice([10, 100, 1000]))]
    code.add(*words)
    code.call(EXIT_GROUP, 3)
    text = code.bytes()
    rights = READ | EXECUTE | (WRITE if chance.random() < 0.2 else 0)
    data = bytes(chance.getrandbits(8) for _ in range(256))
    return executable(code.address, [Segment(code.address, text, len(text), rights),
                                     Segment(DATA, data, DATA_SIZE, READ | WRITE)])
