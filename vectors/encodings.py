#!/usr/bin/env python3
"""Makes the words that the assembler's test walks: each instruction at the limits of its fields, as the GNU assembler has it.

    apt-get install binutils-riscv64-linux-gnu
    python3 vectors/encodings.py > crates/dt_tests_machine/src/encodings.rt
"""
import os
import struct
import subprocess
import tempfile

REGISTERS = "add sub sll slt sltu xor srl sra or and mul mulh mulhsu mulhu div divu rem remu addw subw sllw srlw sraw mulw divw divuw remw remuw"

ATOMICS = "sc amoswap amoadd amoxor amoand amoor amomin amomax amominu amomaxu"


def rows():
    """Each instruction as text."""
    for name in REGISTERS.split():
        for rd, rs1, rs2 in (31, 0, 0), (0, 31, 0), (0, 0, 31):
            yield f"{name} x{rd}, x{rs1}, x{rs2}"
    for size in "wd":
        for rd, rs1 in (31, 0), (0, 31):
            yield f"lr.{size} x{rd}, (x{rs1})"
        for name in ATOMICS.split():
            for rd, rs1, rs2 in (31, 0, 0), (0, 31, 0), (0, 0, 31):
                yield f"{name}.{size} x{rd}, x{rs2}, (x{rs1})"
    for name in "addi slti sltiu xori ori andi addiw".split():
        for rd, rs1, i in (31, 0, -2048), (0, 31, 2047):
            yield f"{name} x{rd}, x{rs1}, {i}"
    for name, most in [(n, 63) for n in "slli srli srai".split()] + [(n, 31) for n in "slliw srliw sraiw".split()]:
        for rd, rs1, shift in (31, 0, 0), (0, 31, most):
            yield f"{name} x{rd}, x{rs1}, {shift}"
    for name in "lb lh lw ld lbu lhu lwu jalr".split():
        for rd, rs1, i in (31, 0, -2048), (0, 31, 2047):
            yield f"{name} x{rd}, {i}(x{rs1})"
    for name in "sb sh sw sd".split():
        for rs1, rs2, i in (31, 0, -2048), (0, 31, 2047):
            yield f"{name} x{rs2}, {i}(x{rs1})"
    for name in "beq bne blt bge bltu bgeu".split():
        for rs1, rs2, i in (31, 0, -4096), (0, 31, 4094):
            yield f"{name} x{rs1}, x{rs2}, .{i:+}"
    for name in "lui auipc".split():
        for rd, i in (31, -(2**31)), (0, 2**31 - 4096):
            yield f"{name} x{rd}, {(i >> 12) & 0xFFFFF}"
    for rd, i in (31, -(2**20)), (0, 2**20 - 2):
        yield f"jal x{rd}, .{i:+}"
    yield "ecall"
    yield "ebreak"
    for rd, counter in (31, 0xC00), (0, 0xC01), (1, 0xC02):
        yield f"csrrs x{rd}, {counter:#x}, x0"


def words(texts):
    """The words of instructions."""
    with tempfile.TemporaryDirectory() as folder:
        source, made, plain = (os.path.join(folder, name) for name in ("a.s", "a.o", "a.bin"))
        with open(source, "w") as file:
            file.write(".option norvc\n.option norelax\n" + "".join(text + "\n" for text in texts))
        subprocess.run(["riscv64-linux-gnu-as", "-march=rv64ima_zicsr", "-o", made, source], check=True)
        subprocess.run(["riscv64-linux-gnu-objcopy", "-O", "binary", "-j", ".text", made, plain], check=True)
        with open(plain, "rb") as file:
            code = file.read()
    found = list(struct.unpack(f"<{len(code) // 4}I", code))
    assert len(found) == len(texts)
    return found


def main():
    texts = list(rows())
    print("// Words of instructions at the limits of their fields, made by vectors/encodings.py with the GNU assembler.")
    print()
    print("/// A word a line, in hexadecimal, and its instruction.")
    print('pub const WORDS: &str = "' + "\n".join(f"{word:08x} {text}" for text, word in zip(texts, words(texts))) + '";')


main()
