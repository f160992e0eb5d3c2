#!/usr/bin/env python3
"""Compares `asm` and `disasm` with the assembler of GNU's binutils on what both languages have: the words that qemu's rows have, words of
each instruction with random bits, and random sources with labels. A target that is a number is how far it is in `asm` and where it is
in GNU's language, so it is written as `. + NUMBER` there. Needs the packages binutils-riscv64-unknown-elf and the program that was built.

    bench/gnu_assembler.py [PROGRAM]     PROGRAM is crates/reversal_cli/out/reversal_cli where nothing is said
"""
import os
import random
import re
import struct
import subprocess
import sys
import tempfile

from reading import sources

TOP = os.path.join(os.path.dirname(os.path.realpath(__file__)), "..")
PROGRAM = os.path.abspath(sys.argv[1] if len(sys.argv) > 1 else os.path.join(TOP, "crates/reversal_cli/out/reversal_cli"))


def ours(command, data, folder):
    with open(f"{folder}/input", "wb") as file:
        file.write(data)
    return subprocess.run([PROGRAM, command, "input"], cwd=folder, check=True, capture_output=True).stdout


def gnu(text, folder):
    """the bytes that GNU's assembler makes of our text"""
    text = re.sub(rb"(?m)^((?:\w+: )?(?:jal|beq|bne|blt|bge|bltu|bgeu) .*, )(-?\d+)$", rb"\1. + \2", text)
    with open(f"{folder}/gnu.s", "wb") as file:
        file.write(b".option norelax\n.text\n" + text)
    subprocess.run(["riscv64-unknown-elf-as", "-march=rv32im", "-mabi=ilp32", "-mno-relax", "gnu.s", "-o", "gnu.o"], cwd=folder, check=True)
    subprocess.run(["riscv64-unknown-elf-objcopy", "-O", "binary", "-j", ".text", "gnu.o", "gnu.bin"], cwd=folder, check=True)
    with open(f"{folder}/gnu.bin", "rb") as file:
        return file.read()


def random_words(count):
    """words of each instruction with random operands; fence has none, and its other bits are no line of ours"""
    rows = [name for name in sources.BASE if name not in ("fence", "ecall", "ebreak")]
    for _ in range(count):
        name = random.choice(rows)
        word = sources.BASE[name]
        for want in sources.shape(name):
            if isinstance(want, str):
                continue
            if want[0] == "register":
                word |= random.randrange(32) << want[1]
            else:
                number = random.randrange(want[1], want[2] + 1)
                word = sources.with_number(name, word, number - number % 2 if want[0] == "target" else number)
        yield word


def random_source(count):
    """instructions, some of them behind labels, some of them jumps to such"""
    labels = [f"label_{k}" for k in range(count // 8)]
    lines = [sources.line_of(word) for word in random_words(count)]
    for label in labels:
        jump = random.choice(["jal x1, {}", "beq x5, x6, {}", "bgeu x7, x0, {}", "blt x8, x9, {}"]).format(random.choice(labels))
        lines.insert(random.randrange(len(lines)), jump)
    for place, label in zip(random.sample(range(len(lines)), len(labels)), labels):
        lines[place] = f"{label}: {lines[place]}"
    return "".join(line + "\n" for line in lines).encode()


def main():
    random.seed(1)
    taken = [int(row.split("\t")[1], 16) for row in open(f"{TOP}/crates/machine_rows/data/rv32.tsv") if not row.startswith("#")]
    words = taken + list(random_words(20000))
    program = struct.pack(f"<{len(words)}I", *words)
    with tempfile.TemporaryDirectory() as folder:
        listed = ours("disasm", program, folder)
        assert gnu(listed, folder) == program, "GNU's assembler reads a line of ours as another word"
        assert ours("asm", listed, folder) == program, "a line of ours is another word to us"
        for _ in range(20):
            source = random_source(800)
            assert ours("asm", source, folder) == gnu(source, folder), source
    print(f"{len(words)} words and 20 sources of 900 lines: GNU's assembler agrees")


main()
