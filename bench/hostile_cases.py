#!/usr/bin/env python3
"""Makes three files of calls, crates/reversal_calls/data: in `failing.jsonl` one call of the storage, of the output or of the
inputs fails, or an image comes back with a wrong bit; in `cut.jsonl` an input ends early, at every length; and in
`changed.jsonl` a byte of an input is another, each byte in eight ways. Of a schedule the first line of each form is changed
alone. What has to come is by bench/reading.py.

    bench/hostile_cases.py      writes the files anew, and tells how many calls each has
"""
import base64
import hashlib
import json
import os
import re
import struct

from reading import Call

DATA = os.path.join(os.path.dirname(os.path.realpath(__file__)), "../crates/reversal_calls/data")


# The inputs

def book(*slots):
    """Levels with these slots, the first in memory and the second on disk."""
    kinds = '"name":"RAM","slots":%s,"write":0,"read":0', '"name":"DISK","slots":%s,"write":2,"read":1'
    levels = ",".join("{%s}" % (kind % count) for kind, count in zip(kinds, slots))
    return ('{"forward":1,"reverse":1,"levels":[%s]}' % levels).encode()


def words(*numbers):
    return b"".join(struct.pack("<I", it) for it in numbers)


def lines(text):
    """Actions in short: s01R stores state 0 on RAM and steps to 1, t12 tapes, f12 steps, r21 reverses, c0RW copies, and m0DR moves.
    Where a number has more digits there are commas between them all."""
    level = {"R": "RAM", "D": "DISK", "W": "WORK"}
    said = {
        "s": lambda a, b, at: f"Forward({a}, {b}, True, False, {level[at]})", "t": lambda a, b: f"Forward({a}, {b}, False, True, WORK)",
        "f": lambda a, b: f"Forward({a}, {b}, False, False, NONE)", "r": lambda a, b: f"Reverse({a}, {b}, True)",
        "c": lambda n, at, to: f"Copy({n}, {level[at]}, {level[to]})", "m": lambda n, at, to: f"Move({n}, {level[at]}, {level[to]})",
        "E": lambda: "EndForward()", ".": lambda: "EndReverse()",
    }
    parts = [(it[0], it[1:].split(",") if "," in it else it[1:]) for it in text.split()]
    return "".join(said[letter](*numbers) + "\n" for letter, numbers in parts).encode()


def journal(*items):
    return b"RVJL" + struct.pack("<II", 1, len(items)) + b"".join(struct.pack("<I", len(it)) + it for it in items)


def program_file(code, *segments):
    head = b"\x7fELF\1\1\1".ljust(16, b"\0") + struct.pack("<HHIIIIIHHHHHH", 2, 243, 0, 0x10000, 52, 0, 0, 0, 32, len(segments), 0, 0, 0)
    return head + b"".join(struct.pack("<IIIIIIII", 1, offset, at, 0, size, memory, 0, 0) for offset, at, size, memory in segments) + code


FOUR_WORDS = words(0x00700513, 0x00100293, 0x00228313, 0x05D00893)
# reads the recorded input to its end, and counts its bytes in a word of memory
COUNTER = program_file(words(0x00011437, 0x00000513, 0x00440593, 0x00100613, 0x03F00893, 0x00000073, 0x00050A63, 0x00042283, 0x00128293,
                             0x00542023, 0xFDDFF06F, 0x05D00893, 0x00000073), (116, 0x10000, 52, 52), (168, 0x11000, 0, 8))
# reads up to four bytes, three times
THREE_READS = words(0x000105B7, 0x10058593, 0x00400613, 0x03F00893, 0x00000073, 0x00000073, 0x00000073)
SIX_BYTES = journal(b"abcdef")
NINETY_BYTES = journal(*[bytes(range(k, k + 30)) for k in (48, 65, 97)])
THREE_ITEMS = journal(b"ab", b"", b"c")

NO_STEPS = lines("E .")
ONE_STEP = lines("t01 E r10 .")
FOUR_STEPS = lines("s01R s13R t34 E r43 c1RW f12 t23 r32 m1RW t12 r21 m0RW t01 r10 .")
FOUR_ON_TWO = lines("s01D s13R t34 E r43 c1RW f12 t23 r32 m1RW t12 r21 m0DW t01 r10 .")
SIX_STEPS = lines("s02D s25R t56 E r65 c2RW f24 t45 r54 c2RW f23 t34 r43 m2RW t23 r32 m0DW s01R t12 r21 m0RW t01 r10 .")
THREE_STEPS = lines("s02R t23 E r32 c0RW f01 t12 r21 m0RW t01 r10 .")
# a state goes from disk to memory and back
TWO_STEPS = lines("s01D t12 E r21 c0DR m0RW m0DR c0RD c0RW m0DW m0RD m0DW t01 r10 .")

REVOLVE = b"#! revolve 2 8\n"
PLACES = b"#! places 3\n"
NESTED = b"#! nested\n#! F 0 0 2 - -\n#! F 0 1 2 5 9\n#! H 0 0 2 5 9\n#! F 1 0 2 5 9\n#! F 1 1 2 5 9\n#! H 1 0 3 6 10\n#! end\n"
DISK = b"#! disk\n#! F 0 0 2 - -\n#! F 0 1 2 5 9\n#! H 0 0 2 5 9\n#! Fd 2 5 9\n#! Hd 3 6 10\n#! end\n"

# Calls, by what they are: the words, and the inputs by their names: p the program, j the recorded input, b the book, s the schedule and
# c the certificate
CALLS = {
    "no steps": ("--raw run p - b s 0", dict(p=FOUR_WORDS, b=book(0), s=NO_STEPS)),
    "four steps": ("--raw run p - b s 4", dict(p=FOUR_WORDS, b=book(2), s=FOUR_STEPS)),
    "six steps over two levels": ("--raw run p - b s 6", dict(p=FOUR_WORDS, b=book(1, 1), s=SIX_STEPS)),
    "copies between levels": ("--raw run p - b s 2", dict(p=FOUR_WORDS, b=book(1, 1), s=TWO_STEPS)),
    "a program file": ("run p j b @revolve 20", dict(p=COUNTER, j=NINETY_BYTES, b=book(2))),
    "a program file that is loaded": ("run p - b s 1", dict(p=COUNTER, b=book(0), s=ONE_STEP)),
    "a program file that reads three items": ("run p j b @revolve 24", dict(p=COUNTER, j=THREE_ITEMS, b=book(2))),
    "three reads": ("--raw run p j b @revolve 7", dict(p=THREE_READS, j=SIX_BYTES, b=book(2))),
    "ask state": ("--raw ask state p - b s 4 1", dict(p=FOUR_WORDS, b=book(2), s=FOUR_STEPS)),
    "ask last-write": ("ask last-write p j b s 4 0x00011004", dict(p=COUNTER, j=NINETY_BYTES, b=book(2), s=FOUR_STEPS)),
    "ask last-change": ("--raw ask last-change p j b s 6 0x00010104", dict(p=THREE_READS, j=SIX_BYTES, b=book(1, 1), s=SIX_STEPS)),
    "plan revolve": ("plan revolve b 4", dict(b=book(1, 1))),
    "demo": ("demo 1 10 2", {}),
    "check": ("check b s 4", dict(b=book(2), s=FOUR_STEPS)),
    "cost": ("cost b s 6", dict(b=book(1, 1), s=SIX_STEPS)),
    "certify by revolve": ("certify b s c 4", dict(b=book(2), s=FOUR_STEPS, c=REVOLVE)),
    "certify by places": ("certify b s c 4", dict(b=book(1, 1), s=FOUR_ON_TWO, c=PLACES)),
    "certify by nested": ("certify b s c 3", dict(b=book(1, 1), s=THREE_STEPS, c=NESTED)),
    "certify by disk": ("certify b s c 3", dict(b=book(1, "null"), s=THREE_STEPS, c=DISK)),
}


# The cases

def said(data):
    try:
        return data.decode()
    except UnicodeDecodeError:
        return {"base64": base64.b64encode(data).decode()}


def case(name, words, inputs, fails=None):
    """A case of a call, with what it has to come to; the whole is said where something fails."""
    call = Call(words.split(), inputs, fails)
    comes = call.comes()
    if len(call.written) > 100:
        comes["written"] = {"length": len(call.written), "sha256": hashlib.sha256(call.written.encode()).hexdigest()}
    if not fails:
        comes = {it: comes[it] for it in ("status", "ended", "written")}
    made = {"name": f"{name}: {call.ended[10:86] or 'done'}", "words": words.split(), "inputs": {it: said(data) for it, data in inputs.items()}}
    return {**made, **({"fails": fails} if fails else {}), "comes": comes}


def failing(name):
    """Each call that is made fails, and one more, which is never made; and each image that is got has a wrong bit, in each part of it."""
    words, inputs = CALLS[name]
    call = Call(words.split(), inputs)
    for k in range(1, len(call.asked) + 2):
        yield f"{name}, input {k} can't be read", {"input": k}
    for k in range(1, call.writes + 2):
        yield f"{name}, write {k} fails", {"write": k}
    for level, counts in enumerate(call.calls):
        if not any(counts):
            continue
        for op, count in zip(("put", "get", "free"), counts):
            for k in range(1, count + 2):
                yield f"{name}, {op} {k} of level {level} fails", {"keeper": [level, op, k]}
        for k in range(1, counts[1] + 1):
            for at in 3, 40, 143, 170, 100_000:
                yield f"{name}, byte {at} of get {k} of level {level} has a wrong bit", {"flip": [level, k, at]}


def failing_cases():
    # a program file is run once
    for name in [it for it in CALLS if not it.startswith("a program file that")]:
        for shows, fails in failing(name):
            yield case(shows, *CALLS[name], fails)


def with_input(name, at, data):
    words, inputs = CALLS[name]
    return words, {**inputs, at: data}


WHAT = {"p": "program", "j": "recorded input", "b": "book", "s": "schedule", "c": "certificate"}


def cut_cases():
    for name, at in (("four steps", "p"), ("a program file", "p"), ("three reads", "j"), ("a program file", "j"), ("check", "b"), ("cost", "b"),
                     ("check", "s"), ("certify by revolve", "c"), ("certify by places", "c"), ("certify by nested", "c"), ("certify by disk", "c")):
        whole = CALLS[name][1][at]
        for size in range(len(whole) + 1):
            yield case(f"{name}, {size} bytes of the {WHAT[at]}", *with_input(name, at, whole[:size]))


# What a byte becomes: the first eight that differ from it of bits beside it, and of bytes that mean something there.
TEXT = (1, 2, 32), b"\n 0#\xff-9A,"
JSON = (1, 2, 32), b'"\\ 9\xff-,}0'
BINARY = (1, 2, 128), b"\x00\xff\x20\x7f\x10\x03\x40\x05\x33"
OTHERS = {"p": BINARY, "j": BINARY, "b": JSON, "s": TEXT, "c": TEXT}


def others(byte, at):
    bits, bytes_ = OTHERS[at]
    values = [*(byte ^ bit for bit in bits), *bytes_]
    return [it for it in dict.fromkeys(values) if it != byte][:8]


def places(at, whole, seen):
    """The places of the bytes that are changed: of a schedule those of the lines whose form wasn't seen."""
    if at != "s":
        yield from range(len(whole))
        return
    for line in re.finditer(rb".*\n", whole):
        form = re.sub(rb"\d+|RAM|DISK", b"", line.group())
        if form not in seen:
            yield from range(*line.span())
        seen.add(form)


CHANGED = (
    ("four steps", "p"), ("a program file that is loaded", "p"), ("a program file that reads three items", "p"),
    ("three reads", "j"), ("a program file that reads three items", "j"), ("check", "b"), ("certify by disk", "b"),
    ("no steps", "s"), ("check", "s"), ("copies between levels", "s"),
    ("certify by revolve", "c"), ("certify by places", "c"), ("certify by nested", "c"), ("certify by disk", "c"),
)


def changed_cases():
    seen = set()
    # the headers of a program file show in its start, and its words in what they do
    header = range(116)
    for name, at in CHANGED:
        whole = CALLS[name][1][at]
        for k in places(at, whole, seen):
            if whole == COUNTER and (k in header) != name.endswith("loaded"):
                continue
            for value in others(whole[k], at):
                changed = whole[:k] + bytes([value]) + whole[k + 1:]
                yield case(f"{name}, byte {k} of the {WHAT[at]} is {value:02x}", *with_input(name, at, changed))


def main():
    for name, cases in ("failing", failing_cases()), ("cut", cut_cases()), ("changed", changed_cases()):
        with open(f"{DATA}/{name}.jsonl", "w") as file:
            texts = [json.dumps(it, ensure_ascii=False, separators=(",", ":")) for it in cases]
            file.write("\n".join(texts) + "\n")
        print(f"{name}.jsonl {len(texts)}")


if __name__ == "__main__":
    main()
