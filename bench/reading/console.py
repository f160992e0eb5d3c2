"""Scripts of orders, and a console that answers them."""

import re

from .machine import Run
from .refused import Refused

NUMBERED = ("back", "step", "goto")
ADDRESSED = ("back-to", "run-to", "back-change", "back-write")


def read_script(data, count):
    orders = []
    for number, line in enumerate(data.split(b"\n"), 1):
        words = [(it.group().decode("latin-1"), it.start() + 1) for it in re.finditer(rb"[^ \t\r]+", line)]
        if not words or words[0][0].startswith("#"):
            continue
        order, place = words[0]
        if order not in NUMBERED + ADDRESSED:
            raise Refused(20, number, place, 1)
        if len(words) == 1:
            raise Refused(20, number, len(line) + 1, 1)
        operand, place = words[1]
        if order in NUMBERED:
            if not re.fullmatch("0|[1-9][0-9]{0,6}", operand) or int(operand) > 1000000:
                raise Refused(20, number, place, 2)
            value, greatest = int(operand), count if order == "goto" else 1000000
        else:
            if not re.fullmatch("0x[0-9a-f]{8}", operand):
                raise Refused(20, number, place, 3)
            value, greatest = int(operand, 16), 0xFFFFFFFC if order in ("back-change", "back-write") else 0xFFFFFFFF
        if value > greatest:
            raise Refused(20, number, place, 4)
        if len(words) > 2:
            raise Refused(20, number, words[2][1], 1)
        orders.append((order, value))
    return orders


class Marks:
    """Where the marks of a run stand: their distance, how many there are, and the level of each."""

    def __init__(self, book, count):
        self.span = max(count, 1)
        room = book.total_room(self.span)
        if not room:
            raise Refused(11, count, 0, 1)
        self.stride = max(1, -(-count // room))
        self.count = -(-self.span // self.stride)
        self.levels = [k for k in range(len(book.levels)) for _ in range(book.room(k, self.span))]

    def below(self, n):
        """the last mark whose state isn't above n"""
        return min(n, self.span - 1) // self.stride


def new_place(order, value, place, count, run, words):
    """where an order leads from a place, or None"""
    if order == "back":
        return max(place - value, 0)
    if order == "step":
        return min(place + value, count)
    if order == "goto":
        return value
    if order in ("back-to", "run-to"):
        found = [n for n in range(count + 1) if run.lines[n].split()[1] == f"{value:08x}"]
        earlier, later = [n for n in found if n < place], [n for n in found if n > place]
        return max(earlier, default=None) if order == "back-to" else min(later, default=None)
    bytes_of = set((value + k) % 2**32 for k in range(4))
    steps = range(min(place, len(run.wrote)))
    if order == "back-write":
        return max((n for n in steps if run.wrote[n] & bytes_of), default=None)
    return max((n for n in steps if words[value][n] != words[value][n + 1]), default=None)


class Tour(Run):
    """A run whose states tell the bytes of some words."""

    def __init__(self, state, journal, count, words):
        self.words = {word: [] for word in words}
        super().__init__(state, journal, count)

    def look(self, state):
        for word, seen in self.words.items():
            seen.append([bytes(state.get(word + k, 1)) if state.has(word + k, 1) else None for k in range(4)])
