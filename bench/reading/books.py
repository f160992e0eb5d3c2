"""Books."""

import json
import math
import re

from .refused import Refused


class Level:
    def __init__(self, name, slots, write, read):
        self.name, self.slots, self.write, self.read = name, slots, write, read


class Book:
    def __init__(self, forward, reverse, levels):
        self.forward, self.reverse, self.levels = forward, reverse, levels

    def room(self, level, steps):
        slots = self.levels[level].slots
        return steps if slots is None else min(slots, steps)

    def total_room(self, steps):
        return min(steps, sum(self.room(k, steps) for k in range(len(self.levels))))

    def level(self, name):
        return next((k for k, it in enumerate(self.levels) if it.name == name), None)


def json_of(data):
    """The value of a JSON text; a number with a sign, a point or an exponent becomes a float."""
    def whole(text):
        return float(text) if text.startswith("-") else int(text)

    def other(text):
        if math.isinf(float(text)):
            raise ValueError(text)
        return float(text)

    def constant(text):
        raise ValueError(text)

    value = json.loads(data.decode(), parse_int=whole, parse_float=other, parse_constant=constant)
    json.dumps(value, ensure_ascii=False).encode()  # half of a pair of surrogates is no text
    return value


def is_whole(value):
    return type(value) is int and value < 2**64


def read_book(data):
    try:
        value = json_of(data)
    except ValueError:
        raise Refused(6, 0, 0, 1)
    if type(value) is not dict:
        raise Refused(6, 0, 0, 2)
    for field, name, fits in (1, "forward", is_whole), (2, "reverse", is_whole), (3, "levels", lambda it: type(it) is list):
        if name not in value or not fits(value[name]):
            raise Refused(6, field, 0, 2)
    entries = value["levels"]
    if not 1 <= len(entries) <= 4:
        raise Refused(6, len(entries), 0, 3)
    kinds = [("name", lambda it: type(it) is str), ("slots", lambda it: it is None or is_whole(it)), ("write", is_whole), ("read", is_whole)]
    for k, entry in enumerate(entries):
        for at, (name, fits) in enumerate(kinds):
            if type(entry) is not dict or name not in entry or not fits(entry[name]):
                raise Refused(6, 4 + 4 * k + at, 0, 2)
    levels = [Level(*[entry[name] for name, _ in kinds]) for entry in entries]
    book = Book(value["forward"], value["reverse"], levels)
    for k, level in enumerate(levels):
        if not re.fullmatch("[A-Z][A-Z0-9_]{0,15}", level.name) or level.name in ("WORK", "NONE") or book.level(level.name) != k:
            raise Refused(6, k, 0, 4)
    for place, costs in [(k, (it.write, it.read)) for k, it in enumerate(levels)] + [(254, (book.forward,)), (255, (book.reverse,))]:
        if max(costs) > 1_000_000:
            raise Refused(6, place, 0, 5)
    for k, level in enumerate(levels):
        if level.slots is not None and level.slots > 1_000_000:
            raise Refused(6, k, 0, 6)
    for k, (before, level) in enumerate(zip(levels, levels[1:])):
        if level.write < before.write or level.read < before.read:
            raise Refused(6, k + 1, 0, 7)
    return book
