"""The text of schedules."""

import re

from .refused import Refused

# An action is a tuple, ("Store", from, to, level), ("Tape", from, to), ("Step", from, to), ("Reverse", from, to),
# ("Copy" or "Move", state, level, level or "WORK"), ("EndForward",) or ("EndReverse",)

SHAPES = {
    b"Forward": "( number , number , truth , truth , place )", b"Reverse": "( number , number , truth )",
    b"Copy": "( number , level , target )", b"Move": "( number , level , target )", b"EndForward": "( )", b"EndReverse": "( )",
}


def number_of(word, most):
    """The number that a word says, or None."""
    return int(word) if re.fullmatch(b"0|[1-9][0-9]*", word) and int(word) <= most else None


def token_value(token, wanted, book):
    """The value of a token where this is wanted, or the number of the rule that it breaks."""
    if wanted == "number":
        value = number_of(token, 1_000_000)
        return (value, 0) if value is not None else (None, 2 if token[:1].isdigit() else 1)
    if wanted == "truth":
        return (token == b"True", 0) if token in (b"True", b"False") else (None, 1)
    if wanted in ("level", "target", "place"):
        words = {"level": [], "target": [b"WORK"], "place": [b"WORK", b"NONE"]}[wanted]
        if token in words:
            return token.decode(), 0
        level = book.level(token.decode("latin-1"))
        return (level, 0) if level is not None else (None, 3 if re.fullmatch(rb"[A-Za-z0-9_]+", token) else 1)
    return (None, 0) if token == wanted.encode() else (None, 1)


def action_of(name, values):
    """The action of a line that fits its shape, or None where there is no such action."""
    if name == "Forward":
        first, last, stores, tapes, place = values
        if stores and not tapes and type(place) is int:
            return "Store", first, last, place
        if tapes and not stores and place == "WORK" and last == first + 1:
            return "Tape", first, last
        return ("Step", first, last) if not stores and not tapes and type(place) is str else None
    if name == "Reverse":
        return ("Reverse", values[0], values[1]) if values[2] and values[0] == values[1] + 1 else None
    return (name, *values)


def read_line(line, number, book):
    tokens = [(it.group(), it.start() + 1) for it in re.finditer(rb"[A-Za-z0-9_]+|[^ \t\r]", line, re.S)]
    if not tokens or tokens[0][0] == b"#":
        return None
    name, column = tokens[0]
    if name not in SHAPES:
        raise Refused(7, number, column, 1)
    wanted, values = SHAPES[name].split(), []
    for (token, at), want in zip(tokens[1:], wanted):
        value, rule = token_value(token, want, book)
        if rule:
            raise Refused(7, number, at, rule)
        values += [value] if want.isalpha() else []
    if len(tokens) - 1 != len(wanted):
        raise Refused(7, number, len(line) + 1 if len(tokens) <= len(wanted) else tokens[len(wanted) + 1][1], 1)
    action = action_of(name.decode(), values)
    if not action:
        raise Refused(7, number, column, 4)
    return action


def read_actions(data, book):
    actions = [read_line(line, number, book) for number, line in enumerate(data.split(b"\n"), 1)]
    return [it for it in actions if it]


def text_of(action, book):
    """The line of an action, as it is written."""
    kind, *numbers = action
    name = {"Store": "Forward", "Tape": "Forward", "Step": "Forward"}.get(kind, kind)
    names = [it if it == "WORK" else book.levels[it].name for it in numbers[1:]] if kind in ("Copy", "Move") else []
    words = {
        "Store": lambda: [*numbers[:2], True, False, book.levels[numbers[2]].name], "Tape": lambda: [*numbers, False, True, "WORK"],
        "Step": lambda: [*numbers, False, False, "NONE"], "Reverse": lambda: [*numbers, True],
    }.get(kind, lambda: [*numbers[:1], *names])()
    return f"{name}({', '.join(map(str, words))})\n"
