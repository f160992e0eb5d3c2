"""A session of gdb over a recorded run, as the protocol's page tells it: what goes for all that comes. It keeps no marks, and shows states
that are stepped to anew."""

import copy

from .machine import line_of, step
from .moves import WORD, Moves, Run, Trace

FEATURES = b"PacketSize=4000;qXfer:features:read+;QStartNoAckMode+;ReverseStep+;ReverseContinue+"
REFUSAL = b"E.the run is recorded: its past can't be changed"
NAMES = "zero ra sp gp tp t0 t1 t2 fp s1 a0 a1 a2 a3 a4 a5 a6 a7 s2 s3 s4 s5 s6 s7 s8 s9 s10 s11 t3 t4 t5 t6 pc".split()
CODE, DATA = ("ra", "pc"), ("sp", "gp", "tp", "fp")
TRAPS = {0: "a jump to an address that is no multiple of four", 1: "a fetch where there is no memory", 2: "a word that is no instruction",
         3: "an EBREAK", 5: "a load where there is no memory", 7: "a store where there is no memory"}
HINT = "monitor when: the state that is shown; monitor goto N: show state N\n"
HELP = """monitor when: the state that is shown
monitor goto N: show state N
monitor end: show the last state of the run
monitor line: the state that is shown, as the line that reversal_cli writes of it
monitor quiet on, monitor quiet off: don't show, show what the program writes
monitor help: these lines
"""
DIGITS = b"0123456789abcdefABCDEF"
MOST_SHOWN = 8192


def description():
    kinds = {**{name: "code_ptr" for name in CODE}, **{name: "data_ptr" for name in DATA}}
    registers = "".join(f'<reg name="{name}" bitsize="32" type="{kinds.get(name, "int")}" regnum="{n}"/>' for n, name in enumerate(NAMES))
    return ('<?xml version="1.0"?><!DOCTYPE target SYSTEM "gdb-target.dtd"><target version="1.0"><architecture>riscv:rv32</architecture>'
            f'<osabi>none</osabi><feature name="org.gnu.gdb.riscv.cpu">{registers}</feature></target>').encode()


# ---- the line

def packet(text):
    body = b"".join(bytes([0x7D, byte ^ 32]) if byte in b"#$}*" else bytes([byte]) for byte in text)
    return b"$%s#%02x" % (body, sum(body) % 256)


def unescaped(body):
    text, at = bytearray(), 0
    while at < len(body):
        escape = body[at] == 0x7D and at + 1 < len(body)
        text.append(body[at + 1] ^ 32 if escape else body[at])
        at += 2 if escape else 1
    return bytes(text)


def next_item(data):
    """The item at the front, with its text, and how many bytes it has; or nothing where it hasn't come whole."""
    if not data:
        return None
    if data[0] != 0x24:
        return {3: "interrupt", 0x2D: "resend"}.get(data[0], "noise"), b"", 1
    end = data.find(b"#")
    if end < 0 or end + 3 > len(data):
        return None
    digits = data[end + 1:end + 3]
    sound = all(digit in DIGITS for digit in digits) and int(digits, 16) == sum(data[1:end]) % 256
    return ("packet" if sound else "damaged"), unescaped(data[1:end]), end + 3


# ---- requests

def number(text):
    """A number of one to eight hexadecimal digits."""
    return int(text, 16) if 1 <= len(text) <= 8 and all(digit in DIGITS for digit in text) else None


def numbers(text):
    """Two numbers with a comma between them."""
    first, comma, second = text.partition(b",")
    pair = number(first), number(second)
    return pair if comma and None not in pair else None


def decoded(digits):
    """The bytes that digits spell, two for each."""
    return bytes.fromhex(digits.decode()) if len(digits) % 2 == 0 and all(digit in DIGITS for digit in digits) else None


class Recorded(Run):
    """A run whose states can be seen."""

    APART = 512

    def __init__(self, start, journal, most, traced):
        """At most so many steps of the run are looked at: it stops before, or `most` is less."""
        super().__init__(Trace(copy.deepcopy(start), journal, min(most, traced)), most)
        self.journal, self.kept = journal, {0: copy.deepcopy(start)}

    def state(self, place):
        at = max(it for it in self.kept if it <= place)
        state = copy.deepcopy(self.kept[at])
        for n in range(at, place):
            if n % self.APART == 0:
                self.kept.setdefault(n, copy.deepcopy(state))
            step(state, self.journal)
        return state


class Session:
    """What goes for what comes. `interrupt` says what a move does that Ctrl-C stands behind."""

    def __init__(self, run):
        self.run, self.place, self.acks, self.quiet, self.open = run, 0, True, False, True
        self.addresses, self.ranges, self.last, self.held = [], [], b"", b""

    def feed(self, data):
        """What goes for these bytes, which come next."""
        self.held += data
        went = b""
        while self.open and (item := next_item(self.held)):
            kind, text, size = item
            self.held = self.held[size:]
            went += self.answer_item(kind, text)
        return went

    def answer_item(self, kind, text):
        acks = self.acks
        if kind == "packet":
            return b"+" * acks + self.sent(self.answer(text))
        if kind == "damaged":
            return b"-" * acks
        return self.last if kind == "resend" and acks else b""

    def sent(self, texts):
        packets = [packet(text) for text in texts]
        self.last = packets[-1] if packets else self.last
        return b"".join(packets)

    # the replies to a packet, as texts

    def answer(self, text):
        whole = {
            b"qSupported": FEATURES, b"?": b"T05", b"qAttached": b"1",
        }
        motions = {b"s": self.step_on, b"c": self.run_on, b"bs": self.step_back, b"bc": self.run_back}
        if text == b"k":
            self.open = False
            return []
        if text == b"D":
            self.open = False
            return [b"OK"]
        if text == b"QStartNoAckMode":
            self.acks = False
            return [b"OK"]
        if text in whole:
            return [whole[text]]
        if text in motions:
            return motions[text]()
        if text == b"g":
            return [self.registers()]
        return [self.answer_long(text)]

    def answer_long(self, text):
        """A reply to a request of a letter or a word, and what stands behind it."""
        if text.startswith(b"qSupported:"):
            return FEATURES
        if text.startswith(b"qRcmd,"):
            return self.monitor(decoded(text[6:]))
        name = b"qXfer:features:read:target.xml:"
        if text.startswith(name):
            return self.features(numbers(text[len(name):]))
        if text[:1] == b"H":
            return b"OK"
        if text[:1] in (b"G", b"P", b"M", b"X"):
            return REFUSAL
        if text[:1] == b"m":
            return self.memory(numbers(text[1:]))
        if text[:1] == b"p":
            return self.register(number(text[1:]))
        if text[:1] in (b"Z", b"z") and text[1:2] in (b"0", b"1", b"2") and text[2:3] == b",":
            return self.stop(text[:1] == b"Z", text[1:2], numbers(text[3:]))
        return b""

    def features(self, pair):
        if pair is None:
            return b""
        start, size = pair
        piece = description()[start:start + size]
        return (b"m" if start + size < len(description()) else b"l") + piece

    def state(self):
        return self.run.state(self.place)

    def registers(self):
        state = self.state()
        return b"".join(word.to_bytes(4, "little").hex().encode() for word in [*state.x, state.pc])

    def register(self, n):
        if n is None:
            return b""
        return self.registers()[8 * n:8 * n + 8] if n <= 32 else b"E01"

    def memory(self, pair):
        """The bytes up to the first that isn't mapped."""
        if pair is None:
            return b""
        at, size = pair
        state, found = self.state(), b""
        for where in range(at, at + min(size, MOST_SHOWN)):
            if not state.has(where % WORD, 1):
                break
            found += state.get(where % WORD, 1)
        return found.hex().encode() or b"E01"

    def stop(self, inserts, kind, pair):
        """Inserts or removes a breakpoint or a watched range; each is there once."""
        if pair is None:
            return b""
        held, it = (self.ranges, pair) if kind == b"2" else (self.addresses, pair[0])
        if inserts and it not in held:
            held.append(it)
        if not inserts and it in held:
            held.remove(it)
        return b"OK"

    # moves

    def moves(self):
        return Moves(self.run, tuple(self.addresses), tuple(self.ranges))

    def went_on(self, place, halt):
        """The replies to a move forward: what the program writes on the way, why the run ends, and the stop reply."""
        said = b"" if self.quiet else b"".join(self.run.trace.output[self.place:place])
        self.place = place
        texts = [b"O" + said.hex().encode()] if said else []
        if halt == b"T05replaylog:end;":
            texts.append(b"O" + self.ending().encode().hex().encode())
        return [*texts, halt]

    def ending(self):
        kind, _, value = self.state().status.partition(":")
        why = {"run": "the program still runs, and the run may have no more steps", "exit": f"the program exited with code {value}"}.get(kind)
        return f"reversal: {why or 'the program stopped at a trap: ' + TRAPS[int(value)]} (state {self.place})\n"

    def halt(self, hit, otherwise):
        """The stop reply for what is hit, or for how a step ended."""
        if hit in ("break", "went"):
            return b"T05"
        if hit in (None, "end"):
            return b"T05replaylog:%s;" % otherwise
        return b"T05watch:%x;" % self.ranges[int(hit.split()[1])][0]

    def step_on(self):
        place, how = self.moves().step_ahead(self.place)
        return self.went_on(place, self.halt(how, b"end"))

    def run_on(self):
        place, hit = self.moves().forward(self.place)
        if self.interrupts() and place > self.place:
            return self.went_on(self.place + 1, b"T02")
        return self.went_on(place, self.halt(hit, b"end"))

    def step_back(self):
        self.place, how = self.moves().step_behind(self.place)
        return [self.halt(how, b"begin")]

    def run_back(self):
        assert not self.interrupts(), "where it stops isn't said"
        self.place, hit = self.moves().backward(self.place)
        return [self.halt(hit, b"begin")]

    def interrupts(self):
        """Whether Ctrl-C is next, but for acks and noise. It breaks off a move forward behind its first step."""
        front = self.held.lstrip(bytes(byte for byte in range(256) if byte not in b"$-\3"))
        return front[:1] == b"\3"

    # commands

    def monitor(self, command):
        if command is None:
            return b""
        text = self.obey(command)
        return text.encode().hex().encode() or b"OK"

    def obey(self, command):
        if command in (b"quiet on", b"quiet off"):
            self.quiet = command == b"quiet on"
            return ""
        if command == b"when":
            return self.where()
        if command == b"end":
            return self.go_to(self.run.most)
        if command == b"line":
            return line_of(self.place, self.state())
        if command == b"help":
            return HELP
        digits = command[5:]
        if command.startswith(b"goto ") and digits.isdigit() and int(digits) < WORD:
            return self.go_to(int(digits))
        return HINT

    def go_to(self, place):
        self.place = self.moves().go_to(min(place, self.run.most))
        return self.where()

    def where(self):
        state = self.state()
        kind, _, value = state.status.partition(":")
        return f"state {self.place}, pc 0x{state.pc:x}{f', {kind} {value}' if value else ''}\n"
