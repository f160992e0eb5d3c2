#!/usr/bin/env python3
"""Makes recorded input for a program, and shows what recorded input has.

    examples/journal.py files JOURNAL FILE ..     writes JOURNAL with one item for each file
    examples/journal.py lines JOURNAL             writes JOURNAL with one item for each line of standard input, its end too
    examples/journal.py show JOURNAL              tells how many items JOURNAL has, and shows each one's first bytes

A `read` of the program gives bytes of one item at most. So lines are what a terminal gives, a line a read, and files are what
a program sees that reads to the end of each. A file of more than 1,048,576 bytes, the most that an item may have, becomes
more items. The format is said in docs/FORMATS.md."""
import struct
import sys

LETTERS, VERSION = b"RVJL", 1
MOST_ITEMS, MOST_BYTES, MOST_IN_ALL = 65_536, 1_048_576, 67_108_864
SHOWN = 48


class Fault(Exception):
    """no journal: the rule of status 5 that is broken, and the offset of its place"""


def written(items):
    """The bytes of a journal with these items."""
    head = LETTERS + struct.pack("<II", VERSION, len(items))
    return head + b"".join(struct.pack("<I", len(item)) + item for item in items)


def number(data, at):
    if len(data) < at + 4:
        raise Fault(3, at)
    return struct.unpack_from("<I", data, at)[0]


def items_of(data):
    """The items of a journal's bytes."""
    if data[:4] != LETTERS:
        raise Fault(1, 0)
    if number(data, 4) != VERSION:
        raise Fault(2, 4)
    count, at, items = number(data, 8), 12, []
    if count > MOST_ITEMS:
        raise Fault(4, 8)
    for _ in range(count):
        length = number(data, at)
        if length > MOST_BYTES:
            raise Fault(4, at)
        if len(data) < at + 4 + length:
            raise Fault(3, at + 4)
        items.append(data[at + 4:at + 4 + length])
        at += 4 + length
    if at < len(data):
        raise Fault(5, at)
    return items


def pieces(data):
    """Bytes in pieces that fit an item; one without bytes where there are none."""
    return [data[at:at + MOST_BYTES] for at in range(0, max(1, len(data)), MOST_BYTES)]


def write(name, parts):
    items = [piece for part in parts for piece in pieces(part)]
    data = written(items)
    if len(items) > MOST_ITEMS or len(data) > MOST_IN_ALL:
        raise SystemExit(f"journal.py: {len(items):,} items and {len(data):,} bytes; a journal has at most {MOST_ITEMS:,} and {MOST_IN_ALL:,}")
    with open(name, "wb") as file:
        file.write(data)
    print(told(items))


def many(number, one):
    return f"{number:,} {one}{'' if number == 1 else 's'}"


def told(items):
    return f"{many(len(items), 'item')}, {many(sum(map(len, items)), 'byte')}"


def show(name):
    with open(name, "rb") as file:
        data = file.read()
    try:
        items = items_of(data)
    except Fault as fault:
        raise SystemExit("journal.py: no journal: rule {} at byte {}".format(*fault.args))
    print(told(items))
    for place, item in enumerate(items):
        more = " .." if len(item) > SHOWN else ""
        print(f"{place}: {many(len(item), 'byte')}: {repr(item[:SHOWN])[1:]}{more}")


def main(words):
    match words:
        case ["files", journal, *names] if names:
            write(journal, [open(name, "rb").read() for name in names])
        case ["lines", journal]:
            write(journal, sys.stdin.buffer.readlines())
        case ["show", journal]:
            show(journal)
        case _:
            raise SystemExit(__doc__)


if __name__ == "__main__":
    try:
        main(sys.argv[1:])
    except OSError as wrong:
        raise SystemExit(f"journal.py: {wrong}")
