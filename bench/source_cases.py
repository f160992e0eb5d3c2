#!/usr/bin/env python3
"""Makes crates/reversal_calls/data/sources.jsonl: calls of `asm` and `disasm` at the edges of the language. What has to come is by
bench/reading/sources.py.

    bench/source_cases.py      writes the file anew, and tells how many calls it has
"""
import base64
import json
import os
import struct

from reading import sources
from reading.refused import Refused

TOP = os.path.join(os.path.dirname(os.path.realpath(__file__)), "..")
DATA = os.path.join(TOP, "crates/reversal_calls/data")
QUIET = [[0, 0, 0]] * 4
CASES = []

COUNTER = """lui x8, 17
next: addi x10, x0, 0
addi x11, x8, 4
addi x12, x0, 1
addi x17, x0, 63
ecall
beq x10, x0, end
lw x5, 0(x8)
addi x5, x5, 1
sw x5, 0(x8)
jal x0, next
end: addi x17, x0, 93
ecall
"""


def said(data):
    """bytes as a case has them: a text where they are one"""
    try:
        text = data.decode("ascii")
        if all(it >= " " or it in "\n\t\r" for it in text):
            return text
    except UnicodeDecodeError:
        pass
    return {"base64": base64.b64encode(data).decode()}


def add(name, words, inputs, status, ended, written, asked, **more):
    comes = dict(status=status, ended=ended, written=written, steps=0, calls=QUIET, asked=asked)
    CASES.append(dict(name=name, words=words, inputs=inputs, **more, comes=comes))


def call(name, command, data, given=None, options=()):
    made = sources.assembled if command == "asm" else sources.listed
    written, status, ended = b"", 0, ""
    try:
        written = made(data)
    except Refused as refused:
        status, ended = refused.status, refused.text
    add(f"{command}: {name}", [*options, command, "s"], {"s": given or said(data)}, status, ended, said(written), ["s"])


def asm(name, text):
    call(name, "asm", text if isinstance(text, bytes) else text.encode())


# Operands: each of each instruction, at both ends of its range and one past it

def spelled(name, operands):
    return name + " " + "".join(it + " " if it == "," else it for it in operands)


def edges():
    for name in [*sources.BASE, ".word"]:
        shape = sources.shape(name)
        usual = [want if isinstance(want, str) else {"register": "x1"}.get(want[0], "0") for want in shape]
        asm(f"{name} as it is written", spelled(name, usual).strip() + "\n")
        asm(f"{name} and one token more", spelled(name, usual) + " ,\n")
        for k, want in enumerate(shape):
            if isinstance(want, str):
                asm(f"{name} without its {want} at token {k + 2}", spelled(name, usual[:k] + usual[k + 1:]) + "\n")
                continue
            if want[0] == "register":
                tries = ["x0", "x31", "x32"]
            else:
                by = 2 if want[0] == "target" else 1
                tries = [str(it) for it in (want[1], want[2], want[1] - by, want[2] + by)]
                tries += ["1"] if want[0] == "target" else []
            for text in tries:
                asm(f"{name} with {text} at token {k + 2}", spelled(name, [*usual[:k], text, *usual[k + 1:]]) + "\n")


# Spellings

def spellings():
    for text in ("x32", "x01", "x00", "X1", "x", "x1.", "a0", "_1", "1", "-1", "x1_", "xx1", ".x1", "(", "x-1"):
        asm(f"{text} in the place of a register", f"add {text}, x0, x0\n")
    for text in ("-0", "0x", "0xA", "0xa", "0X1", "0x0", "0x00000001", "0x000000001", "0xffffffff", "00", "01", "+1", "--1", "-", "1.", "1_0", "x", "'1", "- 1",
                 "-0x1", "4294967296", "99999999999999999999", "-4294967296", "0x7ff", "0x800"):
        asm(f"{text} in the place of a number", f"addi x1, x0, {text}\n")
    for text in ("0xffffffff", "4294967295", "4294967296", "-1", "0x1ffffffff"):
        asm(f".word {text}", f".word {text}\n")
    for name in ("ADD", "Add", "add.", ".add", "adi", "word", ".Word", "nop", "li", "mv", "c.nop", "fence.i", "add_"):
        asm(f"{name} in the place of an instruction", f"{name} x1, x2, x3\n")
        asm(f"{name} alone", f"{name}\n")
    for text in ("jal x0, -0", "jal x0, 2", "jal x0, 3", "jal x0, 0x10", "jal x0, .x", "jal x0, (", "jal x0, x1", "beq x0, x0, -2", "beq x0, x0, 7", "beq x0, x0, away"):
        asm(f"the target of {text}", text + "\n")


# Labels

def labels():
    name = "a" * 32
    asm("a label before its use", "here: ecall\njal x0, here\n")
    asm("a label behind its use", "jal x0, there\necall\nthere: ecall\n")
    asm("a label at the end, behind the last word", "jal x0, end\nend:\n")
    asm("a label alone on a line", "here:\n\n# nothing\necall\nbeq x0, x0, here\n")
    asm("two labels of one place", "one:\ntwo: ecall\njal x1, one\njal x1, two\n")
    asm("a label of the instruction itself", "self: jal x0, self\n")
    asm("a label twice", "a: ecall\na: ebreak\n")
    asm("a label twice, and used", "a: ecall\njal x0, a\na: ebreak\n")
    asm("a label twice behind another fault", "a: addi x1, x0, 2048\na: ebreak\n")
    asm("a label twice on lines without instructions", "a:\na:\n")
    asm("a label of 32 letters", f"{name}: jal x0, {name}\n")
    asm("a label of 33 letters", f"{name}a: ecall\n")
    asm("a target of 33 letters", f"ecall\njal x0, {name}a\n")
    asm("a label that begins with a digit", "1a: ecall\n")
    asm("a label with a point", "a.b: ecall\n")
    asm("a label with `-`", "a-b: ecall\n")
    asm("a label with `_` first", "_1: jal x0, _1\n")
    asm("labels that differ in case", "a: ecall\nA: jal x0, a\njal x0, A\n")
    asm("a label with the name of an instruction", "add: add x1, x2, x3\njal x0, add\n")
    asm("a label with the name of a register", "x1: ecall\njal x1, x1\n")
    asm("two labels on a line", "a: b: ecall\n")
    asm("blanks before a colon", "a :ecall\njal x0, a\n")
    asm("a colon alone", ": ecall\n")
    asm("a colon behind a label", "a:: ecall\n")
    asm("a label of a line with a fault", "a: adi x1, x0, 5\njal x0, a\n")
    asm("a target that no line has, behind a line with a fault", "jal x0, away\na: adi x1, x0, 5\n")
    asm("a fault before a target that no line has", "addi x1, x0, 2048\njal x0, away\n")
    for many in (1023, 1024):
        asm(f"a branch over {many} words", "beq x0, x0, end\n" + "ecall\n" * (many - 1) + "end: ecall\n")
    for many in (1024, 1025):
        asm(f"a branch back over {many} words", "start: ecall\n" + "ecall\n" * (many - 1) + "beq x0, x0, start\n")


# Lines

def lines():
    asm("no bytes", "")
    asm("one line end", "\n")
    asm("blanks", " \t\r\n  \n")
    asm("comments", "# one\n  # two\n#")
    asm("labels and no instruction", "a:\nb: # nothing\n")
    asm("no line end behind the last line", "ecall")
    asm("a carriage return before each line end", "ecall\r\naddi x1, x0, 1\r\n")
    asm("a carriage return in a line that ends too early", "addi x1, x0,\r\n")
    asm("a carriage return alone ends no line", "ecall\recall\n")
    asm("tabs", "\taddi\tx1\t,\tx0\t,\t1\t\n")
    asm("no blanks but behind the name", "addi x1,x0,1\nlw x1,0(x2)\n")
    asm("blanks around each token", "lw  x1 , 0 ( x2 )  \n")
    asm("a comment behind an instruction", "ecall # call\nebreak# stop\n")
    asm("a comment that hides the last operand", "addi x1, x0, # 1\n")
    asm("a comment behind a label", "a: # here\necall\n")
    asm("a line that ends behind the name", "addi\n")
    asm("a line that ends behind a label and a name", "a: addi\n")
    asm("two instructions on a line", "ecall ebreak\n")
    asm("a semicolon", "ecall; ebreak\n")
    asm("a byte above 127", b"addi x1, x0, \xc3\xa9\n")
    asm("a byte above 127 in the place of a name", b"\xff\n")
    asm("a byte above 127 in a comment", b"ecall # \xc3\xa9\n")
    asm("a zero byte", b"ecall\0\n")
    asm("a vertical tab is no blank", b"addi\x0bx1, x0, 1\n")
    asm("the fault of the third line", "ecall\n\nadd x1, x2\nadd x1\n")
    asm("columns count bytes", b"a: \t addi x1, x0, 5000\n")
    asm("a number out of range", "addi x5, x0, 2048")
    asm("a target that no line has", "jal x0, away")


# Words

def words():
    call("the counter program", "asm", COUNTER.encode())
    call("the counter program", "disasm", sources.assembled(COUNTER.encode()))
    call("the word 0", "disasm", bytes(4))
    for size in (0, 1, 2, 3, 5, 7):
        call(f"{size} bytes", "disasm", bytes(size))
    table = os.path.join(TOP, "crates/machine_rows/data/rv32.tsv")
    taken = [int(row.split("\t")[1], 16) for row in open(table) if not row.startswith("#")]
    program = struct.pack(f"<{len(taken)}I", *taken)
    call(f"{len(taken)} words of qemu's rows", "disasm", program)
    call("the lines of qemu's rows", "asm", sources.listed(program))
    for name, base in sources.BASE.items():
        tries = [base] + [base ^ 1 << bit for bit in range(32)]
        call(f"the word of {name}, and with each bit turned", "disasm", struct.pack(f"<{len(tries)}I", *tries))
        call(f"the lines of the word of {name}, and with each bit turned", "asm", sources.listed(struct.pack(f"<{len(tries)}I", *tries)))
    for many in (1, 63, 64, 65, 128):
        call(f"{many} words", "disasm", struct.pack("<I", 0x73) * many)


# Calls

def calls():
    for options in (["--raw"], ["--stack=3"], ["--workers=64"], ["--unit=1024"], ["--raw", "--stack=1", "--unit=2", "--files=0:d"]):
        call(f"with {' '.join(options)}", "asm", b"ecall\n", options=options)
        call(f"with {' '.join(options)}", "disasm", b"\x73\0\0\0", options=options)
    for words in (["asm"], ["asm", "s", "t"], ["asm", ""], ["disasm"], ["disasm", ""], ["disasm", "s", "1"], ["asm", "--raw", "s"], ["assemble", "s"], ["ASM", "s"]):
        add(f"the words {' '.join(map(repr, words))}", words, {"s": "ecall\n"}, 2, "reversal: 2 Words 0 0 0", "", [])
    add("asm: with no page of a stack", ["--stack=0", "asm", "s"], {"s": "ecall\n"}, 10, "reversal: 10 Limit 0 1 4", "", [])
    for command in ("asm", "disasm"):
        add(f"{command}: an input that isn't there", [command, "t"], {"s": "ecall\n"}, 3, "reversal: 3 Input 1 0 0", "", ["t"])
        add(f"{command}: an input that can't be read", [command, "s"], {"s": "ecall\n"}, 3, "reversal: 3 Input 1 0 0", "", ["s"], fails={"input": 1})
    add("asm: the first write fails", ["asm", "s"], {"s": "ecall\n"}, 14, "reversal: 14 Sink 0 0 0", "", ["s"], fails={"write": 1})
    add("asm: there is one write", ["asm", "s"], {"s": "ecall\necall\n"}, 0, "", said(struct.pack("<2I", 0x73, 0x73)), ["s"], fails={"write": 2})
    line = "ecall\n"
    for many, fails, written in ((64, 1, 0), (64, 2, 64), (65, 2, 64), (128, 2, 64), (129, 3, 128)):
        program = {"base64": base64.b64encode(struct.pack("<I", 0x73) * many).decode()}
        ends = (0, "") if written == many else (14, "reversal: 14 Sink 0 0 0")
        add(f"disasm: {many} words, and write {fails} fails", ["disasm", "p"], {"p": program}, *ends, line * written, ["p"], fails={"write": fails})
    add("disasm: a program that is one byte too long", ["disasm", "p"], {"p": {"repeat": "s", "times": 4194305}}, 10, "reversal: 10 Limit 1 4194304 8", "", ["p"])
    add("asm: 1,048,577 instructions", ["asm", "s"], {"s": {"repeat": "ecall\n", "times": 1048577}}, 19, "reversal: 19 Source 1048577 1 6", "", ["s"])
    add("asm: 1,048,577 instructions behind blanks, a comment behind each", ["asm", "s"], {"s": {"repeat": "  ecall#\n", "times": 1048577}}, 19,
        "reversal: 19 Source 1048577 3 6", "", ["s"])


for make in (words, labels, lines, spellings, edges, calls):
    make()
assert len({case["name"] for case in CASES}) == len(CASES), [case["name"] for case in CASES if sum(it["name"] == case["name"] for it in CASES) > 1]
with open(os.path.join(DATA, "sources.jsonl"), "w") as file:
    for case in CASES:
        file.write(json.dumps(case, separators=(",", ":")) + "\n")
print(f"sources.jsonl {len(CASES)}")
