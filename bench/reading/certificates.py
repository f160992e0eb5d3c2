"""Certificates: their text, the classes of schedules, and what a certificate shows."""

import math
import re

from .refused import Refused
from .rules import beta, counts_of, price, revolve_list
from .schedules import number_of

NEVER = math.inf


def words_of(line):
    return [(it.group(), it.start() + 1) for it in re.finditer(rb"[^ \t\r]+", line)]


class CertificateText:
    """The lines that begin with #!, which are taken one after the other."""

    def __init__(self, data):
        lines = data.split(b"\n")
        self.count = len(lines) - (lines[-1] == b"")
        self.lines = [(number, line) for number, line in enumerate(lines, 1) if line.startswith(b"#!")]

    def take(self):
        if not self.lines:
            raise Refused(9, self.count + 1, 1, 4)
        self.number, line = self.lines.pop(0)
        self.end = len(line) + 1
        self.words = [(word, column + 2) for word, column in words_of(line[2:])]

    def refuse(self, rule, column):
        raise Refused(9, self.number, column, rule)

    def word(self):
        if not self.words:
            self.refuse(4, self.end)
        return self.words.pop(0)

    def expect(self, *wanted):
        for want in wanted:
            word, column = self.word()
            if word != want.encode():
                self.refuse(4, column)

    def value(self, most=2**64 - 1, or_never=False):
        word, column = self.word()
        value = NEVER if or_never and word == b"-" else number_of(word, most)
        if value is None:
            self.refuse(3, column)
        return value

    def end_line(self):
        if self.words:
            self.refuse(4, self.words[0][1])

    def row(self, steps, *head):
        self.take()
        self.expect(*head)
        entries = [self.value(or_never=True) for _ in range(steps)]
        self.end_line()
        return [None, *entries]


def read_certificate(data, steps, book):
    """The kind, and its numbers or its tables by ("F" or "H", level, free slots), "Fd" and "Hd"."""
    text = CertificateText(data)
    if not text.lines:
        raise Refused(9, 0, 0, 1)
    text.take()
    kind, column = text.words.pop(0) if text.words else (b"", text.end)
    if kind not in (b"revolve", b"places", b"nested", b"disk"):
        text.refuse(2, column)
    levels = range(len(book.levels)) if kind == b"nested" else range(1)
    if kind in (b"nested", b"disk") and (steps > (2048 if kind == b"nested" else 8192) or any(book.room(k, steps) > 64 for k in levels)):
        text.refuse(5, column)
    found = {}
    if kind == b"revolve":
        found = {"k": text.value(1_000_000), "value": text.value()}
    elif kind == b"places":
        found = {"threshold": text.value()}
    text.end_line()
    if kind in (b"nested", b"disk"):
        for k in levels:
            for table, more in ("F", 1), ("H", 0):
                for m in range(book.room(k, steps) + more):
                    found[table, k, m] = text.row(steps, table, str(k), str(m))
        for table in ("Fd", "Hd") if kind == b"disk" else ():
            found[table] = text.row(steps, table)
        text.row(0, "end")
    if text.lines:
        text.take()
        text.refuse(4, text.words[0][1] if text.words else text.end)
    return kind.decode(), found


def is_nested(actions, book, steps):
    """Whether a valid list is in the nested class."""
    stack, left, due = [], steps, None
    for action in actions:
        kind, *numbers = action
        if due and not (kind == "Tape" and numbers[0] == due[0] or kind == "Store" and numbers[0] == due[0] and numbers[2] < due[1]):
            return False
        due = None
        if kind == "Store":
            if stack and (numbers[0] <= stack[-1][0] or numbers[2] > stack[-1][1]):
                return False
            stack.append((numbers[0], numbers[2]))
        elif kind in ("Copy", "Move"):
            if numbers[2] != "WORK" or not stack or stack[-1] != (numbers[0], numbers[1]):
                return False
            if kind == "Move":
                stack.pop()
                due = (numbers[0], numbers[1]) if numbers[0] < left else None
        elif kind == "Reverse":
            left = numbers[1]
    return True


def is_disk(actions, book, steps):
    if len(book.levels) != 2 or book.levels[1].slots is not None or not is_nested(actions, book, steps):
        return False
    before = actions[:actions.index(("EndForward",))]
    behind = actions[len(before):]
    return all(it[0] in ("Store", "Tape", "Step") for it in before) and not any(it[0] == "Store" and it[3] == 1 for it in behind)


def stack_levels(actions, book, steps):
    """The level of each used place of a list of the multistage class, and None for any other list."""
    if len(book.levels) != 2 or steps >= 2 and not book.total_room(steps):
        return None
    plain = revolve_list(steps, book)
    if len(plain) != len(actions):
        return None
    levels = {}
    for one, other in zip(plain, actions):
        at = {"Store": 3, "Copy": 2, "Move": 2}.get(one[0])
        if at is None:
            if one != other:
                return None
        elif one[:at] != other[:at] or one[at + 1:] != other[at + 1:] or levels.setdefault(one[at], other[at]) != other[at]:
            return None
    fits = all(book.levels[k].slots is None or list(levels.values()).count(k) <= book.levels[k].slots for k in range(2))
    return levels if fits else None


def savings(steps, book):
    """What each used place of the stack saves on level 0."""
    saved = {}
    near, far = book.levels
    for action in revolve_list(steps, book):
        if action[0] == "Store":
            saved[action[3]] = saved.get(action[3], 0) + far.write - near.write
        elif action[0] in ("Copy", "Move"):
            saved[action[2]] += far.read - near.read
    return saved


def entries_of(found, levels, steps, book):
    """Each clause of F and H: where it stands in the order of tables, and whether it fails."""
    u, v = book.forward, book.reverse
    for k in levels:
        w, r, room = book.levels[k].write, book.levels[k].read, book.room(k, steps)
        for m in range(room + 1):
            F = found["F", k, m]
            for l in range(1, steps + 1):
                yield (0, k, m, l, 1), l == 1 and F[1] > u + v
                yield (0, k, m, l, 2), k and F[l] > found["F", k - 1, book.room(k - 1, steps)][l]
                yield (0, k, m, l, 3), m and any(F[l] > w + j * u + found["F", k, m - 1][l - j] + found["H", k, m - 1][j] for j in range(1, l))
                yield (0, k, m, l, 4), m and F[l] > w + found["H", k, m - 1][l]
        for m in range(room):
            H = found["H", k, m]
            for l in range(1, steps + 1):
                yield (1, k, m, l, 5), l == 1 and H[1] > r + u + v
                yield (1, k, m, l, 6), k and H[l] > r + found["F", k - 1, book.room(k - 1, steps)][l]
                yield (1, k, m, l, 7), any(H[l] > r + i * u + found["F", k, m][l - i] + H[i] for i in range(1, l))


def disk_entries_of(found, steps, book):
    u, w, r = book.forward, book.levels[1].write, book.levels[1].read
    F, D, H = found["F", 0, book.room(0, steps)], found["Fd"], found["Hd"]
    for l in range(1, steps + 1):
        yield (2, 1, 0, l, 11), D[l] > F[l]
        yield (2, 1, 0, l, 12), any(D[l] > w + j * u + D[l - j] + H[j] for j in range(1, l))
        yield (2, 1, 0, l, 13), D[l] > w + H[l]
        yield (3, 1, 0, l, 14), H[l] > r + F[l]
        yield (3, 1, 0, l, 15), any(H[l] > r + i * u + F[l - i] + H[i] for i in range(1, l))


def refuse_entry(failing):
    """Refuses the first entry at which a clause fails; places come by the clause first."""
    failing = list(failing)
    if failing:
        table, level, free, steps, clause = min(failing, key=lambda it: (it[4], it[2]) if it[0] == 4 else it)
        raise Refused(15, 0, 0, 3, f" entry {['F', 'H', 'Fd', 'Hd', 'places'][table]} {level} {free} {steps} {clause}")


def weigh_places(actions, steps, book, threshold):
    levels = stack_levels(actions, book, steps)
    if levels is None:
        raise Refused(15, 0, 0, 2)
    failing = []
    for place, saved in savings(steps, book).items():
        if levels[place] == 0 and saved < threshold:
            failing.append((4, 0, place, 0, 21))
        if levels[place] == 1 and saved > threshold:
            failing.append((4, 1, place, 0, 22))
    if threshold and list(levels.values()).count(0) < book.room(0, steps):
        failing.append((4, 0, 0, 0, 23))
    refuse_entry(failing)
    return "multistage"


def weigh_revolve(actions, steps, book, k, value):
    forward = counts_of(actions, book)[0]
    least = steps + k * steps - beta(book.total_room(steps) + 1, k - 1)
    if forward != value or value != least:
        raise Refused(15, forward, value if forward != value else max(least, 0), 4)
    return "valid"


def weigh(actions, steps, book, kind, found):
    """The class in which a valid list is shown to be the least."""
    if kind == "revolve":
        return weigh_revolve(actions, steps, book, **found)
    if kind == "places":
        return weigh_places(actions, steps, book, **found)
    if not (is_nested if kind == "nested" else is_disk)(actions, book, steps):
        raise Refused(15, 0, 0, 2)
    levels = range(len(book.levels)) if kind == "nested" else range(1)
    failing = [entry for entry, fails in entries_of(found, levels, steps, book) if fails]
    if kind == "disk":
        failing += [entry for entry, fails in disk_entries_of(found, steps, book) if fails]
    refuse_entry(failing)
    last = len(book.levels) - 1
    top = (found["Fd"] if kind == "disk" else found["F", last, book.room(last, steps)])[steps] if steps else 0
    if price(actions, book) != top:
        raise Refused(15, price(actions, book), 2**64 - 1 if top == NEVER else top, 4)
    return kind
