"""Sources of instructions: the words that a source means, and the line of a word."""

import re
import struct

from .refused import Refused

MOST = 1048576
SIMM = (-2048, 2047)
BASE = {
    "lui": 0x37, "auipc": 0x17, "jal": 0x6F, "jalr": 0x67, "fence": 0x0FF0000F, "ecall": 0x73, "ebreak": 0x100073,
    **{name: 0x63 | f << 12 for name, f in zip("beq bne blt bge bltu bgeu".split(), (0, 1, 4, 5, 6, 7))},
    **{name: 0x03 | f << 12 for name, f in zip("lb lh lw lbu lhu".split(), (0, 1, 2, 4, 5))},
    **{name: 0x23 | f << 12 for name, f in zip("sb sh sw".split(), (0, 1, 2))},
    **{name: 0x13 | f << 12 for name, f in zip("addi slti sltiu xori ori andi".split(), (0, 2, 3, 4, 6, 7))},
    "slli": 0x1013, "srli": 0x5013, "srai": 0x40005013,
    **{name: 0x33 | f << 12 for name, f in zip("add sll slt sltu xor srl or and".split(), range(8))},
    "sub": 0x40000033, "sra": 0x40005033,
    **{name: 0x02000033 | f << 12 for name, f in zip("mul mulh mulhsu mulhu div divu rem remu".split(), range(8))},
}
LOADS, STORES = "jalr lb lh lw lbu lhu".split(), "sb sh sw".split()
BRANCHES = "beq bne blt bge bltu bgeu".split()
IMMEDIATE, SHIFTS = "addi slti sltiu xori ori andi".split(), "slli srli srai".split()


def shape(name):
    """what stands behind a name: registers by the bit of their field, marks, numbers and targets with their range"""
    rd, rs1, rs2 = ("register", 7), ("register", 15), ("register", 20)
    if name in ("lui", "auipc"):
        return [rd, ",", ("number", 0, 1048575)]
    if name == "jal":
        return [rd, ",", ("target", -1048576, 1048574)]
    if name in LOADS:
        return [rd, ",", ("number", *SIMM), "(", rs1, ")"]
    if name in BRANCHES:
        return [rs1, ",", rs2, ",", ("target", -4096, 4094)]
    if name in STORES:
        return [rs2, ",", ("number", *SIMM), "(", rs1, ")"]
    if name in IMMEDIATE:
        return [rd, ",", rs1, ",", ("number", *SIMM)]
    if name in SHIFTS:
        return [rd, ",", rs1, ",", ("number", 0, 31)]
    if name in ("fence", "ecall", "ebreak"):
        return []
    if name == ".word":
        return [("number", 0, 4294967295)]
    return [rd, ",", rs1, ",", rs2]


def is_instruction(name):
    return name in BASE or name == ".word"


def with_number(name, word, n):
    n &= 0xFFFFFFFF
    if name == ".word":
        return n
    if name in ("lui", "auipc"):
        return word | n << 12 & 0xFFFFFFFF
    if name == "jal":
        return word | (n >> 20 & 1) << 31 | (n >> 1 & 0x3FF) << 21 | (n >> 11 & 1) << 20 | (n >> 12 & 0xFF) << 12
    if name in BRANCHES:
        return word | (n >> 12 & 1) << 31 | (n >> 5 & 0x3F) << 25 | (n >> 1 & 0xF) << 8 | (n >> 11 & 1) << 7
    if name in STORES:
        return word | (n >> 5 & 0x7F) << 25 | (n & 0x1F) << 7
    if name in SHIFTS:
        return word | n << 20
    return word | (n & 0xFFF) << 20


def number_of(text):
    if re.fullmatch("0|-?[1-9][0-9]*", text):
        return int(text)
    return int(text[2:], 16) if re.fullmatch("0x[0-9a-f]{1,8}", text) else None


def is_name(text):
    return re.fullmatch("[A-Za-z_][A-Za-z0-9_]{0,31}", text) is not None


def tokens(line):
    text = line.decode("latin-1").split("#")[0]
    return [(it.group(), it.start() + 1) for it in re.finditer(r"[A-Za-z0-9_.\-]+|[^ \t\r]", text)]


def labelled(found):
    return len(found) > 1 and is_name(found[0][0]) and found[1][0] == ":"


def behind(found):
    return found[2:] if labelled(found) else found


def assemble(source):
    """the words of a source; refuses it by status 19, with line, column and rule"""
    lines = source.split(b"\n")
    read = [tokens(line) for line in lines]
    labels, count = {}, 0
    for number, found in enumerate(read, 1):
        if labelled(found):
            labels.setdefault(found[0][0], (number, count))
        rest = behind(found)
        count += bool(rest) and is_instruction(rest[0][0])
    words = []
    for number, (line, found) in enumerate(zip(lines, read), 1):
        def fault(rule, column):
            raise Refused(19, number, column, rule)
        if labelled(found) and labels[found[0][0]][0] < number:
            fault(5, found[0][1])
        rest = behind(found)
        if not rest:
            continue
        name, column = rest[0]
        end = len(line) + 1
        if not is_instruction(name):
            if rest is found and is_name(name):
                fault(1, found[1][1] if len(found) > 1 else end)
            fault(1, column)
        if len(words) == MOST:
            fault(6, column)
        words.append(word_of(name, rest[1:], end, len(words), labels, fault))
    if not words:
        raise Refused(19, 0, 0, 7)
    return words


def word_of(name, found, end, place, labels, fault):
    word = BASE.get(name, 0)
    wanted = shape(name)
    for k, want in enumerate(wanted):
        if k == len(found):
            fault(1, end)
        text, column = found[k]
        if isinstance(want, str):
            if text != want:
                fault(1, column)
        elif want[0] == "register":
            if not re.fullmatch("x(0|[1-9]|[12][0-9]|3[01])", text):
                fault(3 if re.match("[A-Za-z]", text) else 1, column)
            word |= int(text[1:]) << want[1]
        else:
            kind, low, high = want
            if re.match("[0-9-]", text):
                n = number_of(text)
            elif kind == "target" and is_name(text):
                if text not in labels:
                    fault(4, column)
                n = 4 * (labels[text][1] - place)
            else:
                fault(1, column)
            if n is None or not low <= n <= high or kind == "target" and n % 2:
                fault(2, column)
            word = with_number(name, word, n)
    if len(found) > len(wanted):
        fault(1, found[len(wanted)][1])
    return word


def number_in(name, word):
    """the number that a word of this name has"""
    def signed(n, bits):
        return n - (1 << bits) if n >> bits - 1 else n
    if name in ("lui", "auipc"):
        return word >> 12
    if name == "jal":
        return signed((word >> 31) << 20 | (word >> 12 & 0xFF) << 12 | (word >> 20 & 1) << 11 | (word >> 21 & 0x3FF) << 1, 21)
    if name in BRANCHES:
        return signed((word >> 31) << 12 | (word >> 7 & 1) << 11 | (word >> 25 & 0x3F) << 5 | (word >> 8 & 0xF) << 1, 13)
    if name in STORES:
        return signed((word >> 25) << 5 | word >> 7 & 0x1F, 12)
    return word >> 20 & 0x1F if name in SHIFTS else signed(word >> 20, 12)


def line_of(word):
    """the line of a word, without its end"""
    for name in BASE:
        wanted = shape(name)
        made, said = BASE[name], []
        for want in wanted:
            if isinstance(want, str):
                said.append(", " if want == "," else want)
            elif want[0] == "register":
                register = word >> want[1] & 31
                made |= register << want[1]
                said.append(f"x{register}")
            else:
                n = number_in(name, word)
                made = with_number(name, made, n)
                said.append(str(n))
        if made == word:
            return name + (" " if said else "") + "".join(said)
    return f".word 0x{word:08x}"


def words_of(program):
    if not program or len(program) % 4:
        raise Refused(4, len(program), 0, 11)
    return list(struct.unpack(f"<{len(program) // 4}I", program))


def assembled(source):
    return b"".join(struct.pack("<I", word) for word in assemble(source))


def listed(program):
    return "".join(line_of(word) + "\n" for word in words_of(program)).encode()
