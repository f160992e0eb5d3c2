#!/usr/bin/env python3
"""Makes crates/timeline_walks/data: programs with recorded input in inputs.jsonl, and in walks.jsonl random walks over their runs, each
of 50 orders to a timeline. What has to come is by bench/reading/moves.py. The head of crates/timeline_walks/src/main.rt says what
the lines of both files mean.

    bench/timeline_cases.py [COUNT]     writes the files anew, with so many walks (1,000), and tells what they have
"""
import base64
import collections
import json
import os
import random
import struct
import sys
import zlib

from reading.machine import load, load_raw, read_journal
from reading.moves import WORD, Moves, Run, Trace
from reading.sources import assemble, assembled

HERE = os.path.dirname(os.path.realpath(__file__))
DATA = f"{HERE}/../crates/timeline_walks/data"
STACK, ORDERS, MOST_STEPS, MOST_SAID = 16, 50, 24_000, 12

# Words of a table are stored at `spot`, and run there; and in a second page, where they are stored at the same offset by the instruction
# just before. What they write, and where they jump to, differs from word to word.
TABLE = ["sw x5, 0(x10)", "jal x0, 8", "sb x5, 5(x10)", "addi x10, x10, 4", "sh x5, 2(x10)", "beq x0, x0, 8", "addi x0, x0, 0", "sw x9, 64(x10)",
         "lw x15, 0(x10)", "bne x5, x15, 8", "sw x15, 128(x10)", "lui x16, 5", "sw x16, 8(x10)", "blt x15, x5, 8", "sh x0, 5(x10)", "jal x0, 8"]
FIRST_PAGE = """lui x8, 16
lui x12, 17
lui x10, 18
again: add x6, x8, x9
lw x7, 256(x6)
sw x7, 28(x8)
addi x5, x5, 1
spot: addi x0, x0, 0
addi x11, x11, 1
addi x9, x9, 4
andi x9, x9, 60
jalr x1, 24(x12)
jal x0, again
"""
SECOND_PAGE = """sw x7, 28(x12)
spot: addi x0, x0, 0
addi x13, x13, 1
jalr x0, 0(x1)
"""

# Words are read from the input to where they are run next; what they say is among these. The second half of one is read alone.
FETCHER = """lui x8, 16
next: addi x11, x8, 24
addi x12, x0, 4
addi x17, x0, 63
ecall
beq x10, x0, 16
spot: addi x0, x0, 0
addi x5, x5, 1
jal x0, next
addi x17, x0, 93
ecall
"""
FETCHED = ["addi x0, x0, 0", "sw x5, 512(x8)", "sb x5, 513(x8)", "jal x0, 8", "sh x5, 516(x8)", "bne x5, x0, 8", "sw x0, 508(x8)", "addi x6, x6, 1"]

# The last bytes of the stack are written, and bytes at 0; reads and writes are asked for that end behind the stack. The last store
# goes from the last address over to 0, of which only the second is mapped.
EDGES = """lui x9, 786432
addi x9, x9, -2
addi x5, x0, 40
next: sh x5, 0(x9)
sb x5, 1(x9)
sw x5, -2(x9)
sw x5, 0(x0)
sb x5, 1(x0)
addi x17, x0, 63
addi x11, x9, 0
addi x12, x0, 3
ecall
addi x12, x0, 2
ecall
addi x12, x0, 0
ecall
addi x17, x0, 64
addi x12, x0, 3
ecall
addi x12, x0, 2
ecall
addi x5, x5, -1
bne x5, x0, next
sw x5, -2(x0)
"""

PROSE = "We keep a few states in checkpoints and take the steps between them again".split()


def self_modifying():
    first = assembled(FIRST_PAGE.encode()).ljust(256, b"\0") + assembled("\n".join(TABLE).encode())
    second = assembled(b"addi x0, x0, 0\n" * 6 + SECOND_PAGE.encode())
    return first.ljust(4096, b"\0") + second.ljust(4096, b"\0") + bytes(4096)


def elf(entry, *segments):
    """A program file with segments: an address, bytes, and how many bytes are mapped there."""
    start = 52 + 32 * len(segments)
    header = b"\x7fELF\1\1\1".ljust(16, b"\0") + struct.pack("<HHIIIIIHHHHHH", 2, 243, 1, entry, 52, 0, 0, 52, 32, len(segments), 0, 0, 0)
    body = b""
    for address, data, size in segments:
        header += struct.pack("<8I", 1, start + len(body), address, address, len(data), size, 7, 4096)
        body += data
    return header + body


def edges():
    code = assembled(EDGES.encode())
    return elf(0x10000, (0, b"", 4096), (0x10000, code, len(code)))


def journal(items):
    return b"RVJL" + struct.pack("<II", 1, len(items)) + b"".join(struct.pack("<I", len(item)) + item for item in items)


def fetched_items(drawn):
    words = [struct.pack("<I", word) for word in assemble("\n".join(FETCHED).encode())]
    items = [b"".join(drawn.choices(words, k=drawn.randint(1, 3))) for _ in range(700)]
    items[300] = words[0] + words[4][:2]
    items[301] = words[4][2:] + words[1]
    return items


def sums_items(drawn):
    return [struct.pack("<I", drawn.getrandbits(32)) for _ in range(900)]


def prose(drawn, count):
    return " ".join(drawn.choices(PROSE, k=count)).encode() + b"\n"


def file(name):
    with open(f"{HERE}/../{name}", "rb") as it:
        return it.read()


def inputs():
    """The programs and the recorded input, by their names."""
    drawn = random.Random(1)
    return {
        **{name: file(f"examples/{name}") for name in ("collatz.elf", "primes.elf", "ring.elf", "sums.elf", "overrun.elf")},
        "inflate.elf": file("bench/inflate.elf"),
        "edges.elf": edges(),
        "modifying.raw": self_modifying(),
        "fetching.raw": assembled(FETCHER.encode()).ljust(1024, b"\0"),
        "few words": journal([b"We keep a few states in checkpoints\n"]),
        "many words": journal([prose(drawn, 40) for _ in range(40)]),
        "two numbers": journal([struct.pack("<I", 20), struct.pack("<I", 38)]),
        "many numbers": journal(sums_items(drawn)),
        "zlib": journal([zlib.compress(prose(drawn, 400))]),
        "instructions": journal(fetched_items(drawn)),
        "letters": journal([b"abc", b"defgh", b"", b"ijklmnopqrstuvwxyz"]),
    }


# what is run, and how often
RUNS = {
    ("collatz.elf", None): 1, ("primes.elf", None): 1, ("ring.elf", None): 1, ("sums.elf", "two numbers"): 1, ("sums.elf", "many numbers"): 1,
    ("overrun.elf", None): 0.2, ("overrun.elf", "few words"): 1, ("overrun.elf", "many words"): 1, ("inflate.elf", "zlib"): 2,
    ("edges.elf", None): 0.5, ("edges.elf", "letters"): 1, ("modifying.raw", None): 3, ("fetching.raw", "instructions"): 2,
}


class Known:
    """A run of the longest that there is, and where it writes."""

    def __init__(self, data, items):
        state = (load if data[:4] == b"\x7fELF" else load_raw)(data, STACK)
        self.pages = len(state.pages)
        self.trace = Trace(state, items, MOST_STEPS)
        self.steps = len(self.trace.pc) - 1
        self.pcs = sorted(set(self.trace.pc))
        self.writes = [wrote for wrote in self.trace.written if wrote]
        self.bytes = sorted(set().union(*self.writes))
        self.speaks = any(self.trace.output)


def budget_of(drawn, pages):
    """Bytes for so many marks, and some more that are too few for another."""
    each = 4100 * pages + 512
    marks = drawn.choice([0, 2, 3, 4, 5, 8, 16, 50, 200])
    return marks * each + drawn.randrange(each)


def most_of(drawn, known):
    """The most steps of a run: some, as many as it has, or more."""
    if known.steps < MOST_STEPS and drawn.random() < 0.4:
        return known.steps + drawn.choice([0, 1, drawn.randint(0, 1000), drawn.randint(0, 4_000_000_000)])
    few = drawn.random() < 0.3
    return round(known.steps ** drawn.random()) - 1 if few else drawn.randint(known.steps // 10, known.steps)


class Walk:
    def __init__(self, number, known_runs):
        self.drawn = random.Random(1000 + number)
        self.program, self.journal = self.drawn.choices(list(RUNS), list(RUNS.values()))[0]
        self.known = known_runs[self.program, self.journal]
        self.most = most_of(self.drawn, self.known)
        self.budget = budget_of(self.drawn, self.known.pages)
        self.run = Run(self.known.trace, self.most)
        self.moves = Moves(self.run)
        self.place, self.said, self.hits = 0, [], []
        self.stops()
        while len(self.said) < ORDERS:
            self.order()

    def line(self):
        members = {"program": self.program, "journal": self.journal, "most": self.most, "budget": self.budget, "orders": self.said,
                   "sum": f"{self.known.trace.sums[self.place]:x}"}
        return json.dumps({name: it for name, it in members.items() if it is not None}, separators=(",", ":")) + "\n"

    def order(self):
        """Most orders lead away from the ends of the run."""
        on = 2 if self.place == self.last() else 10
        back = 2 if self.place == 0 else 10
        weights = {
            self.stops: 7, self.go_to: 6, self.output: 1 if self.known.speaks else 0,
            self.step_on: on, self.many_on: on / 10, self.run_on: on,
            self.step_back: back, self.many_back: back / 5, self.run_back: back,
        }
        self.drawn.choices(list(weights), list(weights.values()))[0]()

    def say(self, order, place, hit):
        self.place = place
        self.hits.append("output" if order.startswith("output") else hit or "none")
        self.said.append(f"{order}: {place} {self.known.trace.pc[place]:x}" + (f" {hit}" if hit else ""))

    def last(self):
        return min(self.most, self.known.steps)

    # the orders

    def stops(self):
        addresses = [self.address() for _ in range(self.drawn.choice([0, 0, 1, 1, 2]))]
        ranges = [self.range() for _ in range(self.drawn.choice([0, 1, 1, 2, 3]))]
        if len(ranges) > 1 and self.drawn.random() < 0.3:
            # two that overlap
            start, length = ranges[0]
            ranges[1] = (start + self.drawn.randint(-2, 2)) % WORD, length + self.drawn.randint(0, 2)
        self.moves = Moves(self.run, addresses, ranges)
        self.said.append("stops" + "".join(f" {at:x}" for at in addresses) + "".join(f" {at:x}+{length:x}" for at, length in ranges))

    def address(self):
        """A place where something is run, often or seldom; or near one, or anywhere."""
        kind = self.drawn.random()
        if kind < 0.3:
            return self.known.trace.pc[self.drawn.randint(0, self.last())]
        if kind < 0.9:
            return self.drawn.choice(self.known.pcs)
        return self.drawn.choice([self.drawn.choice(self.known.pcs) + 2, self.drawn.getrandbits(32)])

    def range(self):
        """Bytes that some step writes, or near them; or some that go on at 0 behind the last address; or any."""
        kind = self.drawn.random()
        if kind < 0.1:
            return self.drawn.choice([0x5000_0000, 0xC000_0000, self.drawn.getrandbits(32)]), self.drawn.choice([0, 1, 4, 0x1000])
        if kind < 0.2 or not self.known.bytes:
            return self.wrapped_range()
        at = self.drawn.choice(self.known.bytes) if kind < 0.8 else min(self.drawn.choice(self.known.writes))
        before = self.drawn.choice([0, 0, 0, 1, 3, 4])
        return (at - before) % WORD, self.drawn.choice([0, 1, 1, 2, 4, 4, 8, 100])

    def wrapped_range(self):
        """One that goes on at 0 behind the last address."""
        start = self.drawn.choice([WORD - 1, WORD - 2, WORD - 16, 0xBFFF_FFFF, 0x8000_0000])
        end = self.drawn.choice([0, 1, 2, 4, *self.known.bytes[:1], *self.known.bytes[-1:]])
        return start, (end - start) % WORD

    def go_to(self):
        near, last = self.drawn.randint(-40, 40), self.last()
        inner = self.drawn.randint(0, last)
        place = max(0, min(self.most, self.drawn.choice([inner, inner, inner, self.place + near, last + near, 0, last + 1, self.most])))
        self.say(f"go_to {place}", self.moves.go_to(place), None)

    def step_on(self):
        self.say("step_on", *self.moves.step_ahead(self.place))

    def step_back(self):
        self.say("step_back", *self.moves.step_behind(self.place))

    def run_on(self):
        self.say(self.drawn.choice(["run_on", "run_on", "part_on"]), *self.moves.forward(self.place))

    def run_back(self):
        self.say(self.drawn.choice(["run_back", "run_back", "part_back"]), *self.moves.backward(self.place))

    def output(self):
        """What was written to the output since a place, which is nearer where that is much."""
        start = self.drawn.randint(0, self.place)
        while len(said := b"".join(self.known.trace.output[start:self.place])) > MOST_SAID:
            start += (self.place - start + 1) // 2
        self.say(f"output_from {start}", self.place, said.hex())

    def many(self, name, step):
        """As many steps as are asked for, or up to the first that isn't taken."""
        count, place, how = self.drawn.choice([2, 3, 5, 20, 1023, 1024, 1025, 2500]), self.place, "went"
        for _ in range(count):
            if how == "went":
                place, how = step(place)
        self.say(f"{name} {count}", place, how)

    def many_back(self):
        self.many("step_back", self.moves.step_behind)

    def many_on(self):
        self.many("step_on", self.moves.step_ahead)


def write(name, lines):
    with open(f"{DATA}/{name}", "w") as file:
        file.writelines(lines)
    print(f"{name} {len(lines)} lines, {sum(map(len, lines)):,} bytes")


def main(count):
    os.makedirs(DATA, exist_ok=True)
    held = inputs()
    known = {(name, items): Known(held[name], read_journal(held[items]) if items else []) for name, items in RUNS}
    for (name, items), it in known.items():
        print(f"{name}, {items or 'no input'}: {it.steps:,} steps{'' if it.trace.runs[-1] else ', and it has stopped'}; {it.pages} pages; {len(it.writes):,} steps write")
    write("inputs.jsonl", [json.dumps({"name": name, "base64": base64.b64encode(data).decode()}, separators=(",", ":")) + "\n" for name, data in held.items()])
    walks = [Walk(number, known) for number in range(count)]
    write("walks.jsonl", [walk.line() for walk in walks])
    for hit, times in sorted(collections.Counter(hit for walk in walks for hit in walk.hits).items()):
        print(f"{hit}: {times:,}")


if __name__ == "__main__":
    main(int(sys.argv[1]) if len(sys.argv) > 1 else 1000)
