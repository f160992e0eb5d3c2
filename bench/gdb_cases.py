#!/usr/bin/env python3
"""Makes crates/gdb_cases/data: programs with recorded input in inputs.jsonl, and cases in cases.jsonl, each of which is a session with a
debugger. What has to go for what comes is by bench/reading/gdb.py. sessions.jsonl has sessions of real gdb, which are read alone: this
tells whether the reading answers them as gdb was answered, and adds two that show what the program writes. The head of
crates/gdb_cases/src/main.rt says what the lines of these files mean.

    bench/gdb_cases.py                  writes inputs.jsonl and cases.jsonl anew, and tells what they have
    bench/gdb_cases.py FOLDER           first makes sessions.jsonl of the transcripts in FOLDER, and takes its programs
"""
import base64
import collections
import json
import os
import random
import struct
import sys
import zlib

from reading.gdb import Recorded, Session, packet
from reading.machine import load, load_raw, read_journal
from reading.sources import assembled

HERE = os.path.dirname(os.path.realpath(__file__))
DATA = f"{HERE}/../crates/gdb_cases/data"
STACK, TRACED, MOST, CASES, ROOM = 16, 24_000, 4_294_967_294, 33, 300_000
OFTEN = 1 << 30
QUIET = packet(b"qRcmd," + b"quiet on".hex().encode())

# It writes its output in pieces, and then loops for ever.
SPEAKER = assembled(b"""lui x9, 16
addi x11, x9, 128
addi x12, x0, 3
addi x17, x0, 64
next: addi x10, x0, 1
ecall
addi x5, x5, 1
sw x5, 256(x9)
addi x6, x0, 12
bne x5, x6, next
sb x5, 260(x9)
stay: addi x7, x7, 1
sh x7, 264(x9)
jal x0, stay
""").ljust(128, b"\0") + b"a#$}*\n".ljust(384, b"\0")

# It stops at a trap: it stores where there is no memory.
TRAPPED = assembled(b"""lui x9, 16
addi x5, x0, 7
sw x5, 64(x9)
lui x9, 4096
sw x5, 0(x9)
""").ljust(128, b"\0")


def journal(items):
    return b"RVJL" + struct.pack("<II", 1, len(items)) + b"".join(struct.pack("<I", len(item)) + item for item in items)


def file(name):
    with open(name, "rb") as it:
        return it.read()


def text_of(data):
    return data.decode("latin-1")


def compact(row):
    return json.dumps(row, separators=(",", ":")) + "\n"


def read_lines(name):
    with open(f"{DATA}/{name}") as it:
        return [json.loads(line) for line in it]


def write(name, rows):
    lines = [compact(row) for row in rows]
    with open(f"{DATA}/{name}", "w") as it:
        it.writelines(lines)
    print(f"{name} {len(lines)} lines, {sum(map(len, lines)):,} bytes")


def inputs(folder):
    """The programs and the recorded input, by their names: those of the sessions, and ours."""
    if folder:
        held = {name: file(f"{folder}/programs/{name}") for name in sorted(os.listdir(f"{folder}/programs")) if name.endswith((".elf", ".journal"))}
    else:
        held = {row["name"]: base64.b64decode(row["base64"]) for row in read_lines("inputs.jsonl")}
    ours = {
        "primes.elf": file(f"{HERE}/../examples/primes.elf"), "inflate.elf": file(f"{HERE}/inflate.elf"),
        "speaker.raw": SPEAKER, "trapped.raw": TRAPPED, "zlib": journal([zlib.compress(b"a run that is recorded, and read again " * 4)]),
    }
    return {**held, **ours}


def state_of(held, name):
    return (load if name.endswith(".elf") else load_raw)(held[name], STACK)


def run_of(held, program, items, most=MOST):
    return Recorded(state_of(held, program), read_journal(held[items]) if items else [], most, TRACED)


# ---- sessions of real gdb

def sessions_of(folder):
    """The transcripts, each behind a command that keeps silent what the program writes, which they don't show."""
    with open(f"{folder}/transcripts.jsonl") as it:
        for row in map(json.loads, it):
            about = {"name": row["name"], "program": row["program"], "journal": row["journal"], "most": MOST, "budget": OFTEN, "at_once": 4096}
            yield {**{key: value for key, value in about.items() if value is not None}, "turns": [[text_of(QUIET), "+$OK#9a"], *row["turns"]]}


def differs(held, row):
    """The first turn of a session that the reading answers otherwise."""
    session = Session(run_of(held, row["program"], row.get("journal")))
    return next((turn for turn in row["turns"] if text_of(session.feed(turn[0].encode("latin-1"))) != turn[1]), None)


def shown(held, row):
    """The session without the command that keeps output silent, as the reading answers it."""
    session = Session(run_of(held, row["program"], row.get("journal")))
    turns = [[asked, text_of(session.feed(asked.encode("latin-1")))] for asked, _ in row["turns"][1:]]
    return {**row, "name": row["name"] + ", with output", "turns": turns}


# ---- cases of our own

RUNS = [("collatz.elf", None), ("overrun.elf", "overrun.journal"), ("sums.elf", "sums.journal"), ("primes.elf", None), ("inflate.elf", "zlib"),
        ("speaker.raw", None), ("trapped.raw", None), ("nest.O0.elf", None)]
UNKNOWN = [b"vMustReplyEmpty", b"vCont?", b"qTStatus", b"qL1200000000000000000", b"vKill;1", b"Z3,10000,4", b"Z4,10000,4", b"z3,10000,4",
           b"Z0,10000", b"Z0,,4", b"Z0;10000,4", b"m", b"m10000", b"m10000,123456789", b"mxyz,4", b"pzz", b"p123456789", b"qRcmd,7", b"qRcmd,zz", b"s10000",
           b"c10000", b"bcx", b"b", b"", b"qSupportedx", b"D;1", b"k1", b"!", b"R00", b"qXfer:features:read:other.xml:0,10", b"qXfer:features:read:target.xml:0"]
# cases in which a call of the line fails, of programs that write no output
FAILING = (16, 22, 31)
WRITES = [b"G00", b"P5=00000000", b"M10000,1:ff", b"X10000,0:", b"X10000,2:\x7d\x03}"]
NOISE = [b"+", b"++", b"x", b"\n", b"#", b"\xff", b"*"]


class Case:
    def __init__(self, number, held, known):
        self.drawn = drawn = random.Random(7000 + number)
        self.program, self.items = RUNS[number % len(RUNS)]
        whole = known[self.program, self.items]
        steps = len(whole.trace.pc) - 1
        short = drawn.random() < 0.3 or whole.trace.runs[-1]
        self.most = drawn.randint(steps // 3, steps) if short else MOST
        self.run = run_of(held, self.program, self.items, self.most)
        self.run.kept = whole.kept
        self.last = len(self.run.trace.pc) - 1
        self.session = Session(self.run)
        self.pcs = sorted(set(self.run.trace.pc))
        self.bytes = sorted(set().union(*self.run.trace.written))
        self.at_once = drawn.choice([1, 1, 2, 3, 7, 64, 4096])
        self.budget = drawn.choice([0, 1 << 20, 1 << 22, OFTEN])
        self.turns, self.kinds, self.failing = [], collections.Counter(), None
        self.fill(drawn.randint(16, 29))
        if number in FAILING:
            self.failing = drawn.randint(1, len(self.turns) // 2)

    def fill(self, count):
        if self.drawn.random() < 0.7:
            self.ask(b"QStartNoAckMode")
        if self.drawn.random() < 0.4 or self.program == "primes.elf":
            self.command(b"quiet on")
        for _ in range(count):
            self.drawn.choices([self.move, self.stop, self.see, self.damaged, self.odd, self.user, self.interrupted], [34, 18, 12, 5, 11, 10, 4])[0]()
        self.ask(self.drawn.choice([b"D", b"k"]))
        self.say(packet(b"g"))

    def line(self):
        row = {"program": self.program, "journal": self.items, "most": self.most, "budget": self.budget, "at_once": self.at_once,
               "failing": self.failing, "turns": self.turns}
        return {key: value for key, value in row.items() if value is not None}

    def say(self, data):
        self.turns.append([text_of(data), text_of(self.session.feed(data))])

    def ask(self, text):
        ack = self.drawn.choice([b"+", b""]) if self.session.acks else b""
        self.say(ack + packet(text))

    def command(self, text):
        self.kinds["monitor"] += 1
        self.ask(b"qRcmd," + text.hex().encode())

    # what is asked

    def move(self):
        motion = self.drawn.choice([b"s", b"bs", b"c", b"bc"])
        before = self.session.place
        for _ in range(self.drawn.choice([1, 1, 1, 2, 5])):
            self.ask(motion)
        self.kinds[motion.decode() + (" stays" if self.session.place == before else "")] += 1
        self.where()

    def where(self):
        """The place is told, if not always, as stop replies don't tell it."""
        if self.drawn.random() < 0.6:
            self.command(b"when")
        else:
            self.ask(b"p20")

    def stop(self):
        inserts, kind = self.drawn.choice([b"Z", b"Z", b"z"]), self.drawn.choice([b"0", b"1", b"2"])
        if inserts == b"z" and self.drawn.random() < 0.8 and (self.session.addresses or self.session.ranges):
            ranges = [(b"2", *it) for it in self.session.ranges]
            kind, at, size = self.drawn.choice([*ranges, *((b"0", it, 4) for it in self.session.addresses)])
        elif kind == b"2":
            at, size = (self.drawn.choice(self.bytes) if self.bytes else 0x2000), self.drawn.choice([1, 1, 2, 4, 8])
        else:
            at, size = self.drawn.choice(self.pcs), 4
        self.kinds["stop " + inserts.decode()] += 1
        self.ask(b"%s%s,%x,%x" % (inserts, kind, at, size))

    def see(self):
        at = self.drawn.choice([*self.pcs, *self.bytes[:50], 0xBFFFFFF0, 0xBFFFFFFE, 0xC0000000, 0])
        text = self.drawn.choice([b"g", b"p%x" % self.drawn.randrange(36), b"m%x,%x" % (at, self.drawn.choice([0, 1, 4, 16, 40])), b"?", b"qAttached", b"Hg0",
                                  b"qXfer:features:read:target.xml:%x,%x" % (self.drawn.choice([0, 0xF0, 0x8F0, 0x2000]), self.drawn.choice([0, 20, 100]))])
        self.kinds["see"] += 1
        self.ask(text)

    def damaged(self):
        text = packet(self.drawn.choice([b"c", b"s", b"bs", b"g"]))
        self.kinds["damaged"] += 1
        self.say(text[:-2] + self.drawn.choice([b"zz", b"00", text[-2:].translate(bytes.maketrans(b"0123456789abcdef", b"123456789abcdef0"))]))
        self.say(self.drawn.choice([b"-", b"", text]))
        self.where()

    def odd(self):
        """What isn't known, writes, noise, and acks."""
        self.kinds["odd"] += 1
        kind = self.drawn.random()
        if kind < 0.6:
            self.ask(self.drawn.choice(UNKNOWN))
        elif kind < 0.75:
            self.ask(self.drawn.choice(WRITES))
        else:
            self.say(self.drawn.choice([*NOISE, b"-", b"\3"]))

    def user(self):
        place = self.drawn.choice([self.drawn.randint(0, self.last), self.drawn.randint(0, self.last), 0, self.last, self.last + 1, self.most, 4294967295, 4294967296])
        self.command(self.drawn.choice([b"when", b"goto %d" % place, b"goto %d" % place, b"goto %d" % place, b"end", b"line", b"quiet off", b"help", b"goto", b"goto -1", b"goto +1", b"what"]))

    def interrupted(self):
        """Ctrl-C with a move forward, which is broken off behind its first step; and then the move again."""
        self.kinds["interrupted"] += 1
        self.say(packet(b"c") + b"\3")
        self.command(b"when")
        self.ask(b"c")
        self.where()


def main(words):
    os.makedirs(DATA, exist_ok=True)
    folder = words[0] if words else None
    held = inputs(folder)
    write("inputs.jsonl", [{"name": name, "base64": base64.b64encode(data).decode()} for name, data in held.items()])
    real = list(sessions_of(folder)) if folder else [row for row in read_lines("sessions.jsonl") if not row["name"].endswith(", with output")]
    wrong = [(row["name"], turn) for row in real if (turn := differs(held, row))]
    print(f"{len(real) - len(wrong)} of {len(real)} sessions of gdb are answered by the reading as they were", *wrong)
    speaking = [row for row in real if row["name"] in ("break_next_step_finish", "watch_both_ways")]
    write("sessions.jsonl", real + [shown(held, row) for row in speaking])
    known = {names: run_of(held, *names) for names in RUNS}
    cases = [Case(number, held, known) for number in range(CASES)]
    write("cases.jsonl", [case.line() for case in cases])
    for kind, times in sorted(sum((case.kinds for case in cases), collections.Counter()).items()):
        print(f"{kind}: {times}")
    size = sum(os.path.getsize(f"{DATA}/{name}") for name in os.listdir(DATA))
    print(f"{size:,} bytes in all")
    return bool(wrong) or size > ROOM


if __name__ == "__main__":
    sys.exit(main(sys.argv[1:]))
