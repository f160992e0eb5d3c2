#!/usr/bin/env python3
"""Makes crates/reversal_calls/data/moved.jsonl: calls of `console`. Each order is given where it may go wrong, calls of the storage, of
the output and of the inputs fail in turn, and each fault of a script is made. What has to come is by bench/reading.

    bench/console_cases.py      writes the file anew, and tells how many calls it has
"""
import base64
import json
import os
import struct

import hostile_cases
from reading import Call
from reading.sources import assembled

DATA = os.path.join(os.path.dirname(os.path.realpath(__file__)), "../crates/reversal_calls/data")
CASES = []

# x5 counts to three, and each number is stored; then the program ends
COUNTER = assembled(b"""lui x8, 16
addi x6, x0, 3
next: addi x5, x5, 1
sw x5, 64(x8)
bne x5, x6, next
addi x17, x0, 93
ecall
""")
# the same word is written again and again, and changed by every fourth step; the program never ends
WRITER = assembled(b"""lui x8, 16
next: sw x5, 64(x8)
sw x5, 64(x8)
addi x5, x5, 1
jal x0, next
""")
READER = assembled(b"""lui x8, 16
next: addi x11, x8, 64
addi x12, x0, 4
addi x17, x0, 63
ecall
bne x10, x0, next
ebreak
""")
JOURNAL = b"RVJL" + struct.pack("<II", 1, 2) + struct.pack("<I", 6) + b"abcdef" + struct.pack("<I", 3) + b"xyz"


def book(*slots):
    names = "RAM", "DISK", "FAR", "TAPE"
    levels = [dict(name=name, slots=count, write=k, read=k) for k, (name, count) in enumerate(zip(names, slots))]
    return json.dumps(dict(forward=1, reverse=1, levels=levels), separators=(",", ":"))


def add(name, program, levels, script, count, journal=None, fails=None, options=(), kind=("--raw",)):
    words = [*kind, *options, "console", "p", "j" if journal is not None else "-", "b", "s", str(count)]
    inputs = {"p": program, "b": book(*levels).encode(), "s": script if isinstance(script, bytes) else script.encode()}
    if journal is not None:
        inputs["j"] = journal
    call = Call(words, inputs, fails)
    comes = call.comes()
    del comes["steps"], comes["held"]
    if not getattr(call, "is_counted", True):
        # which marks an order gets that looks for its place isn't said
        del comes["calls"]
    said = {key: {"base64": base64.b64encode(data).decode()} if key in "pj" or not data.isascii() else data.decode() for key, data in inputs.items()}
    CASES.append({"name": f"console: {name}", "words": words, "inputs": said, **({"fails": fails} if fails else {}), "comes": comes})


def orders():
    pc = "0x00010008"
    seven = ["back 1", "step 1", "goto 7", f"back-to {pc}", f"run-to {pc}", "back-change 0x00010040", "back-write 0x00010040"]
    for levels in ([1], [3], [2, 2], [64], [None], [1, None]):
        name = " and ".join("no bound" if it is None else str(it) for it in levels)
        for order in seven:
            for place in (0, 6, 7, 12, 13, 14, 39, 40):
                add(f"{order} at place {place} of 40, slots {name}", WRITER, levels, f"goto {place}\n{order}\n", 40)
    for order in seven[:2] + seven[3:]:
        add(f"{order} in a run of no steps", WRITER, [2], order, 0)
        add(f"{order} in a run of one step", WRITER, [2], f"{order}\n{order}\n", 1)
        add(f"{order} where the program has stopped", COUNTER, [3, 2], f"goto 30\n{order}\n{order}\n", 40)
        add(f"{order} again and again", WRITER, [2, 2], f"goto 21\n" + f"{order}\n" * 8, 30)
    for k in (0, 1, 5, 6, 1000000):
        add(f"back {k} from 5", WRITER, [3], f"goto 5\nback {k}", 20)
        add(f"step {k} from 15 of 20", WRITER, [3], f"goto 15\nstep {k}", 20)
    add("goto to each state in turn, over two levels", WRITER, [2, 3], "".join(f"goto {n}\n" for n in range(24)), 23)
    add("goto to each state, backward", WRITER, [3], "".join(f"goto {23 - n}\n" for n in range(24)), 23)
    add("an answer that there is none leaves the place", WRITER, [3], "goto 5\nback-to 0x00020000\nback 1\nrun-to 0x00020000\nstep 1\n", 20)
    for word in ("0x0001003d", "0x00010043", "0x00010044", "0xfffffffc", "0x00000000", "0x0000ffff"):
        add(f"the last write of the word at {word}", WRITER, [3], f"goto 20\nback-write {word}\nback-change {word}\n", 20)
    add("words that a read fills", READER, [2, 2], "goto 30\nback-write 0x00010040\nback-change 0x00010040\nback-write 0x00010042\n", 30, JOURNAL)
    add("recorded input is gone through again", READER, [1], "goto 11\nback 6\nstep 3\ngoto 30\n", 30, JOURNAL)
    add("an empty script", WRITER, [1], "", 10)
    add("comments and blank lines alone", WRITER, [1], "# one\n\n \t\r\n  # two", 10)
    add("blanks of each kind", WRITER, [2], " goto\t 5 \r\n\tback  1\r", 10)
    add("over a stack of one page", WRITER, [2], "goto 1\n", 5, options=["--stack=1"])
    for option in (["--stack=3"], ["--workers=4"], ["--unit=7"]):
        add(f"with {option[0]}", WRITER, [2], "goto 5\nback 1\n", 10, options=option)


def storage():
    script = "goto 9\nback 2\nstep 30\nback 40\n"
    for levels in ([3], [2, 2], [0, 4], [1, 1, 1, 1]):
        name = " and ".join(map(str, levels))
        for level in range(len(levels)):
            for op, times in (("put", 5), ("get", 6), ("free", 1)):
                for k in range(1, times + 1):
                    add(f"{op} {k} of level {level} fails, slots {name}", WRITER, levels, script, 20, fails={"keeper": [level, op, k]})
            for k in range(1, 5):
                for byte in (0, 4, 100, 163, 5000):
                    add(f"get {k} of level {level} has a wrong bit in byte {byte}, slots {name}", WRITER, levels, script, 20, fails={"flip": [level, k, byte]})
    for k in range(1, 6):
        add(f"write {k} fails", WRITER, [3], script, 20, fails={"write": k})
        add(f"write {k} fails, and orders look for their places", WRITER, [3], "goto 9\nback-to 0x0001000c\nback-to 0x00020000\nback-write 0x00010040\n", 20, fails={"write": k})
        add(f"input {k} can't be read", WRITER, [3], script, 20, JOURNAL, fails={"input": k})
    for levels in ([0], [0, 0]):
        for count in (0, 1, 20):
            add(f"no slot on {len(levels)} levels, {count} steps", WRITER, levels, "goto 99\n", count)


def tour():
    # the program file that adds up its recorded input, in a run of a thousand steps: where its counter was written and changed
    script = "goto 1000\nback-write 0x00011000\nback 1\nback-to 0x00010014\nback-change 0x00011000\nrun-to 0x0001002c\nback-to 0x00020000\n"
    add("a tour of a program file over two levels", hostile_cases.COUNTER, [4, 8], script, 1000, hostile_cases.NINETY_BYTES, kind=())
    add("the second mark on the slow level can't be put", hostile_cases.COUNTER, [4, 8], script, 1000, hostile_cases.NINETY_BYTES, {"keeper": [1, "put", 2]}, kind=())
    add("a state past the end of a program file's run", hostile_cases.COUNTER, [4, 8], "goto 1001\n", 1000, hostile_cases.NINETY_BYTES, kind=())
    add("back from the start of a program file's run", hostile_cases.COUNTER, [4, 8], "back 5\n", 0, hostile_cases.NINETY_BYTES, kind=())


def scripts():
    texts = ["jump 3", "goto", "goto ", "goto 5 6", "goto 5 # to five", "goto 5#", "goto 11", "goto 1000000", "goto 1000001", "goto 01", "goto 00", "goto -1", "goto +1",
             "goto 0x5", "goto 5.", "goto x", "GOTO 5", "back", "back 1000001", "back 1 1", "step", "step 1000001", "step 99999999999999999999", "back-to", "back-to 5",
             "back-to 0x5", "back-to 0x0001000C", "back-to 0x000100000", "back-to 0X00010000", "back-to 0xffffffff", "run-to 0xffffffff", "run-to", "run-to 0x0001000g",
             "back-write 0xfffffffc", "back-write 0xfffffffd", "back-write 0xffffffff", "back-change 0xfffffffd", "back-change", "back-write 0xfffffffd 1", "goto 11 1",
             "back_to 0x00010000", "back-", "#goto 5", "# goto", "goto\x0b5", "goto,5", "\tgoto\t11", "   jump", "goto 5\rback 1"]
    for text in texts:
        add(f"the script {text!r}", WRITER, [2], text, 10)
        add(f"the script {text!r} in the third line", WRITER, [2], f"goto 1\n\n{text}\njump\n", 10)
    add("a script with a byte above 127", WRITER, [2], b"goto \xc3\xa9\n", 10)
    add("a script with a zero byte", WRITER, [2], b"goto 1\0\n", 10)
    script = b"goto 10\nback-to 0x0001000c\nstep 2\n"
    for size in range(len(script)):
        add(f"a script that is cut behind {size} bytes", WRITER, [2], script[:size], 10)
    add("the script is looked at behind program and journal", b"\0", [2], "jump", 10)
    add("the script is looked at behind the journal", WRITER, [2], "jump", 10, b"RVJX")
    add("the slots are looked at before the program", b"\0", [0], "jump", 10)


for make in (orders, storage, tour, scripts):
    make()
names = [case["name"] for case in CASES]
assert len(set(names)) == len(names), [name for name in names if names.count(name) > 1]
with open(os.path.join(DATA, "moved.jsonl"), "w") as file:
    for case in CASES:
        file.write(json.dumps(case, separators=(",", ":")) + "\n")
print(f"moved.jsonl {len(CASES)}")
