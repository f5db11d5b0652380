#!/usr/bin/env python3
"""Makes the table of vectors that the machine's test walks.

Each row of the table is (word, a, b, expected). The words come from the GNU assembler, and what each instruction
does from a guest of all of them that runs under qemu-riscv64. Neither knows anything of this repository.

    apt-get install qemu-user binutils-riscv64-linux-gnu
    python3 vectors/make.py > crates/dt_tests_machine/src/vectors.rt

What a and b are, and what is expected, by the instruction:

    computations   x10 is a, x11 is b                                          x12 after it
    AUIPC          as computations                                             x12 less the instruction's address
    branches       x10 is a, x11 is b                                          the next address less the branch's
    JAL            nothing                                                     the next address less the jump's
    JALR           x10 is the jump's address and a                             the next address less the jump's
    loads          x10 is the data's address and a, b lies at the data's       x12 after it
    stores         x10 is the data's address and a, x11 is b, and              the eight bytes at the data's address
                   0x1122334455667788 lies at the data's address
"""
import os
import struct
import subprocess
import sys
import tempfile

AS, LD, COPY, QEMU = "riscv64-linux-gnu-as", "riscv64-linux-gnu-ld", "riscv64-linux-gnu-objcopy", "qemu-riscv64"
M64 = 2**64 - 1
LOW, HIGH = 2**63, 2**63 - 1
BACKGROUND = 0x1122334455667788
PAIRS = [(0, 0), (1, M64), (M64, 1), (LOW, M64), (HIGH, 1), (M64, M64), (LOW, HIGH), (HIGH, LOW)]
PAIRS_32 = [(0x80000000, M64), (0x7FFFFFFF, 1), (0xFFFFFFFF80000000, 0xFFFFFFFF), (7, 0), (7, 2**32), (0x123456789ABCDEF0, 0xFFFFFFFE)]
DIVIDED = [(7, 0), (M64 - 6, 2), (7, M64 - 1), (M64 - 6, M64 - 1), (LOW, 0), (0xDEADBEEFCAFEF00D, 0x12345)]
SHIFTED = [(0x8000000000000001, s) for s in (0, 1, 31, 32, 63, 64)] + [(0x123456789ABCDEF0, 95), (0xFFFFFFFF80000000, 4), (0x7FFFFFFF, 33)]
CONSTANTS = [0, 1, -1, 2047, -2048]


def rows():
    """Each instruction as text, with a and b; a text may name its own offset by a number."""
    for name in "add sub slt sltu xor or and mul mulh mulhsu mulhu".split():
        yield from ((f"{name} x12, x10, x11", a, b) for a, b in PAIRS)
    for name in "div divu rem remu".split():
        yield from ((f"{name} x12, x10, x11", a, b) for a, b in PAIRS[1:] + DIVIDED)
    for name in "sll srl sra sllw srlw sraw".split():
        yield from ((f"{name} x12, x10, x11", a, b) for a, b in SHIFTED)
    for name in "addw subw mulw".split():
        yield from ((f"{name} x12, x10, x11", a, b) for a, b in PAIRS[2:5] + PAIRS_32)
    for name in "divw divuw remw remuw".split():
        yield from ((f"{name} x12, x10, x11", a, b) for a, b in PAIRS_32 + DIVIDED[1:4])
    for name in "addi slti sltiu xori ori andi".split():
        for a, constant in [(0, 0), (1, -1), (M64, 1), (LOW, -1), (HIGH, 1), (M64, 2047), (HIGH, -2048), (2047, 2047), (5, 6)]:
            yield (f"{name} x12, x10, {constant}", a, 0)
    for a, constant in [(0, 0), (0x7FFFFFFF, 1), (0x80000000, -1), (M64, 2047), (0xFFFFFFFF, -2048), (LOW, 5), (0xFFFFFFFF7FFFFFFF, 1)]:
        yield (f"addiw x12, x10, {constant}", a, 0)
    for name in "slli srli srai".split():
        for a, shift in [(1, 0), (LOW, 31), (LOW, 32), (0x8000000000000001, 63), (HIGH, 62), (0x123456789ABCDEF0, 7)]:
            yield (f"{name} x12, x10, {shift}", a, 0)
    for name in "slliw srliw sraiw".split():
        for a, shift in [(1, 0), (0x80000000, 0), (0x80000001, 31), (0x7FFFFFFF, 1), (0xFFFFFFFF00000000, 4), (0x123456789ABCDEF0, 7)]:
            yield (f"{name} x12, x10, {shift}", a, 0)
    for name in "lui auipc".split():
        for upper in (0, 1, 0x7FFFF, 0x80000, 0xFFFFF, 0x12345):
            yield (f"{name} x12, {upper:#x}", 0, 0)
    for name in "lb lh lw ld lbu lhu lwu".split():
        for a, constant, b in [(0, 0, LOW), (8, -8, HIGH), (-2047 & M64, 2047, M64), (2048, -2048, 0x00000000800080FF), (1, 0, 0x0000FF807F00817F), (0, 3, 0x8899AABBCCDDEEFF), (4, 1, 0x0123456789ABCDEF)]:
            yield (f"{name} x12, {constant}(x10)", a, b)
    for name in "sb sh sw sd".split():
        for a, constant, b in [(0, 0, LOW), (8, -8, M64), (-2047 & M64, 2047, 0x8899AABBCCDDEEFF), (2048, -2048, 0x80), (1, 0, 0x0123456789ABCDEF), (0, 3, 0x8899AABBCCDDEEFF), (0, -3, 0x8899AABBCCDDEEFF)]:
            yield (f"{name} x11, {constant}(x10)", a, b)
    for name in "beq bne blt bge bltu bgeu".split():
        for a, b in PAIRS[:6]:
            yield (f"{name} x10, x11, . + 8", a, b)
        for a, b in [(1, 2), (2, 1)]:
            for offset in (-4096, 4092, 2048, -2044):
                yield (f"{name} x10, x11, . + {offset}", a, b)
        for offset in (-4096, 4092):
            yield (f"{name} x10, x11, . + {offset}", 5, 5)
    for offset in (8, -64, 2048, 4096, -1048576, 1048572, 0x55554, -0x2AAAC):
        yield (f"jal x12, . + {offset}", 0, 0)
    for a, constant in [(8, 0), (9, 0), (-2002 & M64, 2047), (4096, -2048), (512, -8), (0, 1024)]:
        yield (f"jalr x12, {constant}(x10)", a, 0)
    for a in (12, 64):
        yield ("jalr x10, 0(x10)", a, 0)


def words(texts):
    """The words of these instructions."""
    with tempfile.TemporaryDirectory() as folder:
        path = os.path.join(folder, "w")
        with open(path + ".s", "w") as file:
            file.write(".option norelax\n" + "".join(text + "\n" for text in texts))
        subprocess.run([AS, "-march=rv64im", path + ".s", "-o", path + ".o"], check=True)
        subprocess.run([COPY, "-O", "binary", "-j", ".text", path + ".o", path], check=True)
        with open(path, "rb") as file:
            data = file.read()
    assert len(data) == 4 * len(texts), "an instruction became more than one word"
    return struct.unpack(f"<{len(texts)}I", data)


def offset_of(text, a):
    """Where a jump or a branch leads, seen from it, or None."""
    name = text.split()[0]
    if name == "jalr":
        constant = int(text.split()[2].split("(")[0])
        return ((a + constant + 2**63) % 2**64 - 2**63) & ~1
    return int(text.split(". +")[1]) if ". +" in text else None


def guest(table):
    """A program that carries each out and writes the results as eight bytes each."""
    out = [".option norelax", ".globl _start", "_start:", "la s1, results"]
    for i, (text, word, a, b) in enumerate(table):
        name, leads = text.split()[0], offset_of(text, a)
        landed = f"landed{i}: li x12, {leads}; la t0, done{i}; jr t0"
        out += [f"li x10, {a:#x}", f"li x11, {b:#x}", "la s0, data", f"li t1, {BACKGROUND:#x}"]
        if name in "lb lh lw ld lbu lhu lwu".split():
            out += ["add x10, x10, s0", "sd zero, -8(s0)", "sd x11, 0(s0)", "sd zero, 8(s0)"]
        if name in "sb sh sw sd".split():
            out += ["add x10, x10, s0", "sd t1, 0(s0)"]
        if name == "jalr":
            out += [f"la t1, here{i}", "add x10, x10, t1"]
        if leads is not None:
            out += [f"la t0, here{i}; jr t0"]
        if leads is not None and leads < 0:
            out += [landed, f". = landed{i} + {-leads}"]
        out += [f"here{i}: .word {word:#x}"]
        if leads is not None and leads != 4:
            out += [f"li x12, 4; la t0, done{i}; jr t0" if leads > 8 + 16 else f"j missed{i}"]
        if leads is not None and leads > 0:
            out += [f". = here{i} + {leads}", landed]
        if leads is not None:
            out += [f"missed{i}: li x12, 4"]
        out += [f"done{i}:"]
        if name in "sb sh sw sd".split():
            out += ["la s0, data", "ld x12, 0(s0)"]
        if name == "auipc":
            out += [f"la t1, here{i}", "sub x12, x12, t1"]
        out += ["sd x12, 0(s1)", "addi s1, s1, 8"]
    out += ["li a0, 1", "la a1, results", f"li a2, {8 * len(table)}", "li a7, 64", "ecall", "li a0, 0", "li a7, 93", "ecall"]
    out += [".bss", ".p2align 12", ".skip 4096", "data: .skip 4096", f"results: .skip {8 * len(table)}"]
    return "\n".join(out) + "\n"


def carried_out(table):
    """What qemu makes of each."""
    with tempfile.TemporaryDirectory() as folder:
        path = os.path.join(folder, "g")
        with open(path + ".s", "w") as file:
            file.write(guest(table))
        subprocess.run([AS, "-march=rv64im", path + ".s", "-o", path + ".o"], check=True)
        subprocess.run([LD, "--no-relax", path + ".o", "-o", path], check=True)
        data = subprocess.run([QEMU, path], check=True, stdout=subprocess.PIPE).stdout
    assert len(data) == 8 * len(table), "the guest did not end"
    return struct.unpack(f"<{len(table)}Q", data)


def main():
    texts = list(rows())
    table = [(text, word, a, b) for (text, a, b), word in zip(texts, words([text for text, _, _ in texts]))]
    expected = carried_out(table)
    print("// Vectors of instructions, made by vectors/make.py with qemu-riscv64.")
    print()
    print("/// A row a line: word, a, b, and what is expected, in hexadecimal.")
    lines = [f"{word:08x} {a:x} {b:x} {value:x}" for (_, word, a, b), value in zip(table, expected)]
    print('pub const TABLE: &str = "' + "\n".join(lines) + '";')
    print(f"{len(table)} rows, {len({text.split()[0] for text, *_ in table})} instructions", file=sys.stderr)


if __name__ == "__main__":
    main()
