#!/usr/bin/env python3
"""Makes the table of vectors of atomics that change memory.

Each row is (word, offset, held, b, register, memory): the eight bytes at the data's address hold `held`, x10 is that
address and the offset, x11 is b; after the word x12 and the eight bytes are as given. The words come from the GNU
assembler, and what each does from a guest of all of them that runs under qemu-riscv64. Neither knows anything of this
repository.

    apt-get install qemu-user binutils-riscv64-linux-gnu
    python3 vectors/atomics.py > crates/dt_tests_machine/src/atomic_vectors.rt
"""
import os
import struct
import subprocess
import tempfile

AS, LD, COPY, QEMU = "riscv64-linux-gnu-as", "riscv64-linux-gnu-ld", "riscv64-linux-gnu-objcopy", "qemu-riscv64"
M64 = 2**64 - 1
LOW, HIGH = 2**63, 2**63 - 1
NAMES = "amoswap amoadd amoxor amoand amoor amomin amomax amominu amomaxu".split()
DOUBLES = [(HIGH, 1), (LOW, M64), (M64, 1), (1, M64), (0x0F0F0F0F80000000, 0xF0FF00FF7FFFFFFF)]
WORDS = [(0, 0x112233447FFFFFFF, 1), (4, 0x7FFFFFFF00000005, 1), (0, 0x1122334480000000, 0x7FFFFFFF), (4, 0xFFFFFFFF12345678, 0x00000001FFFFFFFE), (0, 5, 0xFFFFFFFF00000003), (0, 0xFFFFFFFF00000003, 0x80000005)]
ORDERS = ["", ".aq", ".rl", ".aqrl"]


def rows():
    """Each instruction as text, with its offset, what is held, and b."""
    for name in NAMES:
        for i, (offset, held, b) in enumerate(WORDS):
            yield (f"{name}.w{ORDERS[i % 4]} x12, x11, (x10)", offset, held, b)
        for i, (held, b) in enumerate(DOUBLES):
            yield (f"{name}.d{ORDERS[i % 4]} x12, x11, (x10)", 0, held, b)


def assembled(lines, path):
    with open(path + ".s", "w") as file:
        file.write("\n".join([".option norelax"] + lines) + "\n")
    subprocess.run([AS, "-march=rv64ima", path + ".s", "-o", path + ".o"], check=True)


def words(texts):
    """The words of these instructions."""
    with tempfile.TemporaryDirectory() as folder:
        path = os.path.join(folder, "w")
        assembled(texts, path)
        subprocess.run([COPY, "-O", "binary", "-j", ".text", path + ".o", path], check=True)
        with open(path, "rb") as file:
            data = file.read()
    assert len(data) == 4 * len(texts), "an instruction became more than one word"
    return struct.unpack(f"<{len(texts)}I", data)


def guest(table):
    """A program that carries each out and writes both results as eight bytes each."""
    out = [".globl _start", "_start:", "la s1, results", "la s0, data"]
    for word, offset, held, b in table:
        out += [f"li t0, {held:#x}", "sd t0, 0(s0)", f"addi x10, s0, {offset}", f"li x11, {b:#x}", f".word {word:#x}"]
        out += ["sd x12, 0(s1)", "ld t0, 0(s0)", "sd t0, 8(s1)", "addi s1, s1, 16"]
    out += ["li a0, 1", "la a1, results", f"li a2, {16 * len(table)}", "li a7, 64", "ecall", "li a0, 0", "li a7, 93", "ecall"]
    return out + [".bss", ".p2align 3", "data: .skip 8", f"results: .skip {16 * len(table)}"]


def carried_out(table):
    """What qemu makes of each."""
    with tempfile.TemporaryDirectory() as folder:
        path = os.path.join(folder, "g")
        assembled(guest(table), path)
        subprocess.run([LD, "--no-relax", path + ".o", "-o", path], check=True)
        data = subprocess.run([QEMU, path], check=True, stdout=subprocess.PIPE).stdout
    assert len(data) == 16 * len(table), "the guest did not end"
    return struct.iter_unpack("<2Q", data)


def main():
    texts = list(rows())
    table = [(word, *rest) for (_, *rest), word in zip(texts, words([text for text, *_ in texts]))]
    print("// Vectors of atomics that change memory, made by vectors/atomics.py with qemu-riscv64.")
    print()
    print("/// A row a line: word, offset, held, b, and the register and the memory after it, in hexadecimal.")
    lines = [" ".join([f"{word:08x}"] + [f"{n:x}" for n in (*rest, *found)]) for (word, *rest), found in zip(table, carried_out(table))]
    print('pub const ATOMICS: &str = "' + "\n".join(lines) + '";')


main()
