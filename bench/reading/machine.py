"""Program files, recorded input, the machine, images and lines."""

import hashlib
import struct

from .refused import Refused

PAGE = 4096
ZEROS = bytes(PAGE)
FILE_HEADER = "< 4s 3B 9x H H 4x I I 10x H H"


class State:
    def __init__(self, pc, pages):
        self.pc, self.x, self.status = pc, [0] * 32, "run"
        self.x[2] = 0xBFFFFFF0
        self.item = self.offset = self.written = 0
        self.pages = {number: bytearray(PAGE) for number in pages}

    def put(self, at, data):
        for k, byte in enumerate(data):
            where = (at + k) % 2**32
            self.pages[where // PAGE][where % PAGE] = byte

    def has(self, at, size):
        first, last = at // PAGE, (at + size - 1) // PAGE
        return size == 0 or all(page % 2**20 in self.pages for page in range(first, last + 1))

    def get(self, at, size):
        return bytes(self.pages[where % 2**32 // PAGE][where % PAGE] for where in range(at, at + size))


def pages_of(stretches, stack):
    """The numbers of the mapped pages; more than 4,096 are refused."""
    numbers = set(range(0xC0000 - stack, 0xC0000))
    for at, size in stretches:
        numbers |= set(range(at // PAGE, (at + size - 1) // PAGE + 1))
    if len(numbers) > 4096:
        raise Refused(4, len(numbers), 0, 8)
    return sorted(numbers)


def load(data, stack):
    if len(data) < 52 or data[:4] != b"\x7fELF":
        raise Refused(4, 0, 0, 1)
    _, bits, order, version, kind, machine, entry, offset, size, count = struct.unpack(FILE_HEADER, data[:46])
    if (bits, order, version) != (1, 1, 1):
        raise Refused(4, 0, 0, 2)
    if kind != 2:
        raise Refused(4, 0, 0, 3)
    if machine != 243:
        raise Refused(4, 0, 0, 4)
    if not count or size != 32 or offset + 32 * count > len(data):
        raise Refused(4, 0, 0, 5)
    headers = [struct.unpack("<IIIxxxxII", data[offset + 32 * i:offset + 32 * i + 24]) for i in range(count)]
    segments = [(i, *fields[1:]) for i, fields in enumerate(headers) if fields[0] == 1 and fields[4]]
    for i, start, at, size, memory in segments:
        if size > memory or start + size > len(data) or at + memory > 0xC0000000 - PAGE * stack:
            raise Refused(4, i, 0, 6)
    for n, (i, _, at, _, memory) in enumerate(segments):
        for j, _, other, _, its in segments[n + 1:]:
            if at < other + its and other < at + memory:
                raise Refused(4, i, j, 7)
    pages = pages_of([(at, memory) for _, _, at, _, memory in segments], stack)
    if entry % 4 or entry // PAGE not in pages:
        raise Refused(4, entry, 0, 9)
    state = State(entry, pages)
    for _, start, at, size, _ in segments:
        state.put(at, data[start:start + size])
    return state


def load_raw(data, stack):
    if not data or len(data) % 4:
        raise Refused(4, len(data), 0, 11)
    state = State(0x10000, pages_of([(0x10000, len(data))], stack))
    state.put(0x10000, data)
    return state


def read_journal(data):
    if data[:4] != b"RVJL":
        raise Refused(5, 0, 0, 1)

    def number(at):
        if at + 4 > len(data):
            raise Refused(5, at, 0, 3)
        return int.from_bytes(data[at:at + 4], "little")

    if number(4) != 1:
        raise Refused(5, 4, 0, 2)
    count, at, items = number(8), 12, []
    if count > 65_536:
        raise Refused(5, 8, 0, 4)
    for _ in range(count):
        size = number(at)
        if size > 1_048_576:
            raise Refused(5, at, 0, 4)
        if at + 4 + size > len(data):
            # its bytes begin behind its length
            raise Refused(5, at + 4, 0, 3)
        items.append(data[at + 4:at + 4 + size])
        at += 4 + size
    if at < len(data):
        raise Refused(5, at, 0, 5)
    return items


def signed(value, bits=32):
    return value - 2**bits if value >> bits - 1 else value


def quotient(a, b):
    """The quotient and the remainder, rounded to zero."""
    q = abs(a) // abs(b)
    q = q if (a < 0) == (b < 0) else -q
    return q, a - q * b


def product_or_quotient(funct3, a, b):
    x, y = signed(a), signed(b)
    if funct3 < 4:
        return [a * b, x * y >> 32, x * b >> 32, a * b >> 32][funct3]
    if funct3 in (4, 6):
        return (2**32 - 1 if funct3 == 4 else a) if b == 0 else quotient(x, y)[funct3 == 6]
    return (2**32 - 1 if funct3 == 5 else a) if b == 0 else (a // b if funct3 == 5 else a % b)


def arithmetic(funct3, funct7, a, b, immediate):
    """The value of an instruction on two registers, or on one and an immediate; None where it is none."""
    if funct3 in (1, 5) or not immediate:
        if funct7 == 1 and not immediate:
            return product_or_quotient(funct3, a, b)
        if funct7 not in ((0, 0x20) if funct3 == 5 or funct3 == 0 else (0,)):
            return None
    other = funct7 == 0x20 and (funct3 == 5 or not immediate)
    shift = b % 32
    return [a - b if other else a + b, a << shift, int(signed(a) < signed(b)), int(a < b), a ^ b,
            signed(a) >> shift if other else a >> shift, a | b, a & b][funct3]


def is_taken(funct3, a, b):
    x, y = signed(a), signed(b)
    return {0: a == b, 1: a != b, 4: x < y, 5: x >= y, 6: a < b, 7: a >= b}.get(funct3)


def trap(state, cause):
    state.status = f"trap:{cause}"
    return set()


def jump(state, rd, target):
    if target % 4:
        return trap(state, 0)
    link, state.pc = (state.pc + 4) % 2**32, target
    if rd:
        state.x[rd] = link
    return set()


def go_on(state, rd=0, value=0):
    if rd:
        state.x[rd] = value % 2**32
    state.pc = (state.pc + 4) % 2**32
    return set()


def system_call(state, journal):
    number, at, size = state.x[17], state.x[11], state.x[12]
    if number in (93, 94):
        state.status = f"exit:{state.x[10] % 256}"
        return set()
    if number == 64:
        if not state.has(at, size):
            return go_on(state, 10, -14)
        state.written = (state.written + size) % 2**64
        return go_on(state, 10, size)
    if number != 63:
        return go_on(state, 10, -38)
    if state.item >= len(journal):
        return go_on(state, 10, 0)
    item = journal[state.item]
    size = min(size, len(item) - state.offset)
    if not state.has(at, size):
        return go_on(state, 10, -14)
    state.put(at, item[state.offset:state.offset + size])
    state.offset += size
    if state.offset >= len(item):
        state.item, state.offset = state.item + 1, 0
    go_on(state, 10, size)
    return {(at + k) % 2**32 for k in range(size)}


def step(state, journal):
    """Takes a step, and gives the addresses that it wrote."""
    if state.status != "run":
        return set()
    if not state.has(state.pc, 4):
        return trap(state, 1)
    word = int.from_bytes(state.get(state.pc, 4), "little")
    opcode, rd, funct3, funct7 = word & 0x7F, word >> 7 & 31, word >> 12 & 7, word >> 25
    a, b = state.x[word >> 15 & 31], state.x[word >> 20 & 31]
    i = signed(word >> 20, 12)
    if word == 0x73:
        return system_call(state, journal)
    if word == 0x100073:
        return trap(state, 3)
    if opcode in (0x37, 0x17):
        return go_on(state, rd, (word & 0xFFFFF000) + (state.pc if opcode == 0x17 else 0))
    if opcode == 0x6F:
        far = signed(word >> 31 << 20 | (word >> 12 & 0xFF) << 12 | (word >> 20 & 1) << 11 | (word >> 21 & 0x3FF) << 1, 21)
        return jump(state, rd, (state.pc + far) % 2**32)
    if opcode == 0x67 and funct3 == 0:
        return jump(state, rd, (a + i) % 2**32 & ~1)
    if opcode == 0x63 and is_taken(funct3, a, b) is not None:
        far = signed(word >> 31 << 12 | (word >> 7 & 1) << 11 | (word >> 25 & 0x3F) << 5 | (word >> 8 & 15) << 1, 13)
        return jump(state, 0, (state.pc + far) % 2**32) if is_taken(funct3, a, b) else go_on(state)
    if opcode == 0x03 and funct3 in (0, 1, 2, 4, 5):
        at, size = (a + i) % 2**32, 1 << funct3 % 4
        if not state.has(at, size):
            return trap(state, 5)
        value = int.from_bytes(state.get(at, size), "little")
        return go_on(state, rd, signed(value, 8 * size) if funct3 < 4 else value)
    if opcode == 0x23 and funct3 < 3:
        at, size = (a + signed(funct7 << 5 | rd, 12)) % 2**32, 1 << funct3
        if not state.has(at, size):
            return trap(state, 7)
        state.put(at, (b % 2**(8 * size)).to_bytes(size, "little"))
        go_on(state)
        return {(at + k) % 2**32 for k in range(size)}
    if opcode in (0x13, 0x33):
        value = arithmetic(funct3, funct7, a, i % 2**32 if opcode == 0x13 else b, opcode == 0x13)
        return trap(state, 2) if value is None else go_on(state, rd, value)
    return go_on(state) if opcode == 0x0F and funct3 == 0 else trap(state, 2)


def image_of(state):
    kind, _, value = state.status.partition(":")
    pages = [(number, bytes(page)) for number, page in sorted(state.pages.items()) if page != ZEROS]
    head = struct.pack("<4sII31I", b"RVST", 1, state.pc, *state.x[1:])
    head += struct.pack("<IIIIQI", ["run", "exit", "trap"].index(kind), int(value or 0), state.item, state.offset, state.written, len(pages))
    return head + b"".join(struct.pack("<I", number) + page for number, page in pages)


def line_of(n, state):
    digest = hashlib.sha256(image_of(state)).hexdigest()
    words = " ".join(f"{it:08x}" for it in [state.pc, *state.x[1:]])
    return f"{n} {words} {state.status} {state.item}:{state.offset} {state.written} {digest}\n"


class Run:
    """The states 0 to N: their lines, their images, which bytes each step writes, and the bytes of memory as they were asked for."""

    def __init__(self, state, journal, steps, word=None):
        self.lines, self.images, self.wrote, self.seen = [], [], [], []
        for n in range(steps + 1):
            self.lines.append(line_of(n, state))
            self.images.append(image_of(state))
            self.look(state)
            self.seen.append(word and [bytes(state.get(word + k, 1)) if state.has(word + k, 1) else None for k in range(4)])
            if n < steps:
                self.wrote.append(step(state, journal))

    def look(self, state):
        """What else is to be noted of a state."""


def demo_program(number):
    """The words that are made from a number: LUI x5, 0x11, 62 drawn ones, and a jump back to the first of these."""
    words = [0x000112B7]
    for _ in range(62):
        number = (1664525 * number + 1013904223) % 2**32
        c, a, b, m = 8 + (number >> 14) % 8, 8 + (number >> 8) % 8, 8 + (number >> 11) % 8, (number >> 17) % 2048
        at = 4 * (m % 512)
        words.append([m << 20 | a << 15 | c << 7 | 0x13, b << 20 | a << 15 | 4 << 12 | c << 7 | 0x33,
                      (at >> 5) << 25 | b << 20 | 5 << 15 | 2 << 12 | (at & 31) << 7 | 0x23, b << 20 | a << 15 | c << 7 | 0x33][(number >> 28) % 4])
    return struct.pack("<64I", *words, 0xF09FF06F).ljust(8192, b"\0")
