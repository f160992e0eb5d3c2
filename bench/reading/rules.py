"""The rules of a schedule, what it costs, and the schedule of Revolve."""

import math

from .refused import Refused


class Config:
    def __init__(self, steps, book):
        self.steps, self.book = steps, book
        self.work, self.held, self.tape, self.left, self.forward_ended, self.ended = 0, [set() for _ in book.levels], None, steps, False, False

    def is_full(self, level):
        slots = self.book.levels[level].slots
        return slots is not None and len(self.held[level]) >= slots

    def into(self, level, n):
        """The rules that are asked where state n comes to a level."""
        yield 4, self.is_full(level)
        yield 5, n in self.held[level]

    def rules(self, action):
        """Each rule that is asked of an action, and whether it is broken."""
        kind, *numbers = action
        if self.ended:
            yield 15, True
        elif kind in ("Store", "Tape", "Step"):
            first, last = numbers[:2]
            yield 1, first != self.work
            yield 2, first >= last or last > self.steps
            yield 3, last > self.left
            if kind == "Store":
                yield from self.into(numbers[2], first)
            yield 8, kind == "Tape" and (last != first + 1 or last != self.left)
            yield 9, kind == "Tape" and self.tape is not None
        elif kind in ("Copy", "Move"):
            n, level, target = numbers
            if target not in ("WORK", level):
                yield from self.into(target, n)
            yield 6, n not in self.held[level]
            yield 7, target == level
        elif kind == "Reverse":
            yield 10, self.tape is None
            yield 11, numbers[0] != self.left or numbers[1] + 1 != numbers[0]
            yield 12, not self.forward_ended
        elif kind == "EndForward":
            yield 13, self.forward_ended
            yield 14, self.work != self.steps
        else:
            yield 12, not self.forward_ended
            yield 16, self.left != 0

    def take(self, action):
        kind, *numbers = action
        if kind in ("Store", "Tape", "Step"):
            if kind == "Store":
                self.held[numbers[2]].add(numbers[0])
            self.tape = numbers[0] if kind == "Tape" else self.tape
            self.work = numbers[1]
        elif kind in ("Copy", "Move"):
            n, level, target = numbers
            if kind == "Move":
                self.held[level].remove(n)
            if target == "WORK":
                self.work = n
            else:
                self.held[target].add(n)
        elif kind == "Reverse":
            self.left, self.tape = numbers[1], None
        elif kind == "EndForward":
            self.forward_ended = True
        else:
            self.ended = True


def judge(actions, steps, book):
    config = Config(steps, book)
    for place, action in enumerate(actions, 1):
        broken = min((rule for rule, is_broken in config.rules(action) if is_broken), default=0)
        if broken:
            # of what breaks rule 4 the level is told
            level = action[3] if broken == 4 else 0
            raise Refused(8, place, level, broken)
        config.take(action)
    if not config.ended:
        raise Refused(8, len(actions) + 1, 0, 16)


def counts_of(actions, book):
    """Forward steps, taped ones, reversed ones, and writes and reads of each level."""
    forward = sum(it[2] - it[1] for it in actions if it[0] in ("Store", "Tape", "Step"))
    writes = [sum((it[0] == "Store" or it[0] in ("Copy", "Move")) and it[3] == k for it in actions) for k in range(len(book.levels))]
    reads = [sum(it[0] in ("Copy", "Move") and it[2] == k for it in actions) for k in range(len(book.levels))]
    return forward, sum(it[0] == "Tape" for it in actions), sum(it[0] == "Reverse" for it in actions), writes, reads


def price(actions, book):
    forward, _, reversed_, writes, reads = counts_of(actions, book)
    return forward * book.forward + reversed_ * book.reverse + sum(
        w * level.write + r * level.read for w, r, level in zip(writes, reads, book.levels))


def report(actions, book):
    forward, taped, reversed_, writes, reads = counts_of(actions, book)
    levels = [f"{it.name} writes {w} reads {r}\n" for it, w, r in zip(book.levels, writes, reads)]
    return [f"forward {forward}\n", f"taped {taped}\n", f"reversed {reversed_}\n", *levels, f"total {price(actions, book)}\n"]


def beta(c, k):
    return math.comb(c + k, c) if k >= 0 else 0


def revolve_list(steps, book):
    """The schedule of Revolve, with a place of the stack in place of each level."""
    slots = book.total_room(steps)
    if steps >= 2 and not slots:
        raise Refused(11, steps, slots, 1)
    actions = []

    def split(l, c):
        times = next(k for k in range(l + 1) if l <= beta(c, k))
        return max(1, beta(c, times - 2), l - beta(c - 1, times))

    def tape(b):
        actions.append(("Tape", b, b + 1))
        if b + 1 == steps:
            actions.append(("EndForward",))
        actions.append(("Reverse", b + 1, b))

    def fresh(b, l, c):
        if l == 1:
            return tape(b)
        j = split(l, c)
        actions.append(("Store", b, b + j, slots - c))
        fresh(b + j, l - j, c - 1)
        held(b, j, c)

    def held(b, l, c):
        if l == 1:
            actions.append(("Move", b, slots - c, "WORK"))
            return tape(b)
        j = split(l, c)
        actions.extend([("Copy", b, slots - c, "WORK"), ("Step", b, b + j)])
        fresh(b + j, l - j, c - 1)
        held(b, j, c)

    if steps:
        fresh(0, steps, slots)
    else:
        actions.append(("EndForward",))
    return actions + [("EndReverse",)]


def on_levels(actions, level_of):
    """The same actions with the level of each place."""
    put = {"Store": lambda it: (*it[:3], level_of(it[3])), "Copy": lambda it: (*it[:2], level_of(it[2]), it[3])}
    put["Move"] = put["Copy"]
    return [put.get(it[0], lambda it: it)(it) for it in actions]


def first_with_room(book, steps):
    """On which level each place of the stack is: the first whose slots with those before it are more."""
    places = [k for k in range(len(book.levels)) for _ in range(book.room(k, steps))]
    return lambda place: places[place]


def revolve_certificate(steps, book):
    """The line of the certificate of Revolve's schedule."""
    repeats = next(k for k in range(steps + 1) if steps <= 1 or steps <= beta(book.total_room(steps), k))
    return f"#! revolve {repeats} {counts_of(revolve_list(steps, book), book)[0]}\n"
