"""Drives a solver by a checkpoint schedule: reads the schedule a line at a time, and calls the solver's methods.

    book = read_book("book.json")
    with open_schedule("plan.txt") as text:
        counts = drive(actions(text, book), solver)

Books and schedules are those of docs/FORMATS.md, and rules go by their numbers in docs/ENDINGS.md. It wants Python 3.10 and
nothing else. The classes of actions, and their fields, are named as those of the Python package checkpoint_schedules.

The driver knows which state is in work, which step is reversed next, and whether one is taped. It keeps no list of the states
on a level, so rules 4 to 6 are the solver's to tell: its `store` sees a level that is full, or that holds the state already,
and its `load` a state that isn't there."""
from __future__ import annotations

import json
import re
from collections.abc import Collection, Iterable, Iterator
from dataclasses import dataclass, field
from typing import Protocol, TextIO

# ---- actions


@dataclass(frozen=True)
class Action:
    """An action of a schedule, and the line that it stands on."""

    line: int = field(default=0, kw_only=True, repr=False, compare=False)


@dataclass(frozen=True)
class Forward(Action):
    """Steps from state n0 to state n1. State n0 is stored on the level `storage` before with `write_ics`, and the step is
    taped with `write_adj_deps`."""

    n0: int
    n1: int
    write_ics: bool
    write_adj_deps: bool
    storage: str


@dataclass(frozen=True)
class Reverse(Action):
    """Reverses the step from state n0 to state n1."""

    n1: int
    n0: int
    clear_adj_deps: bool = True


@dataclass(frozen=True)
class Copy(Action):
    """Brings state n from a level to work, or to another level."""

    n: int
    from_storage: str
    to_storage: str


@dataclass(frozen=True)
class Move(Action):
    """The same, and frees the slot that the state comes from."""

    n: int
    from_storage: str
    to_storage: str


@dataclass(frozen=True)
class EndForward(Action):
    """The last state is in work."""


@dataclass(frozen=True)
class EndReverse(Action):
    """Ends the schedule."""


class Refused(Exception):
    """A line that is no action, or an action that breaks a rule. `rule` is 0 for a line."""

    def __init__(self, line: int, action: int, what: str, rule: int = 0) -> None:
        super().__init__(f"line {line}, action {action}: {what}")
        self.line, self.action, self.rule = line, action, rule


class Stopped(Exception):
    """A method of the solver raised the exception that is the cause of this one."""

    def __init__(self, line: int, action: int, why: Exception) -> None:
        super().__init__(f"line {line}, action {action}: {why}")
        self.line, self.action = line, action


# ---- books and schedules

NUMBER, TRUTH, PLACE = "(0|[1-9][0-9]{0,5}|1000000)", "(True|False)", "([A-Z][A-Z0-9_]{0,15})"
SHAPES: dict[str, str] = {
    "Forward": rf"Forward \( {NUMBER} , {NUMBER} , {TRUTH} , {TRUTH} , {PLACE} \)",
    "Reverse": rf"Reverse \( {NUMBER} , {NUMBER} , True \)",
    "Copy": rf"Copy \( {NUMBER} , {PLACE} , {PLACE} \)",
    "Move": rf"Move \( {NUMBER} , {PLACE} , {PLACE} \)",
    "EndForward": r"EndForward \( \)",
    "EndReverse": r"EndReverse \( \)",
}


def read_book(name: str) -> dict[str, int | None]:
    """The levels of a book's file, the fastest first: their names, and their slots, None where there is no bound."""
    with open(name, encoding="utf-8") as file:
        return {level["name"]: level["slots"] for level in json.load(file)["levels"]}


def open_schedule(name: str) -> TextIO:
    """The file of a schedule, of which comments may have any bytes."""
    return open(name, encoding="latin-1", newline="\n")


def forward(words: tuple[str, ...], line: int) -> Action | None:
    """The Forward of these words, or None where they don't fit each other."""
    act = Forward(int(words[0]), int(words[1]), words[2] == "True", words[3] == "True", words[4], line=line)
    if act.write_ics:
        fits = not act.write_adj_deps and act.storage not in ("WORK", "NONE")
    elif act.write_adj_deps:
        fits = act.storage == "WORK" and act.n1 == act.n0 + 1
    else:
        fits = act.storage in ("WORK", "NONE")
    return act if fits else None


def parse(tokens: list[str], line: int) -> Action | None:
    """The action of a line's tokens, or None where they are none."""
    found = re.fullmatch(SHAPES.get(tokens[0], "(?!)"), " ".join(tokens))
    if not found:
        return None
    words: tuple[str, ...] = found.groups()
    if tokens[0] == "Forward":
        return forward(words, line)
    if tokens[0] == "Reverse":
        return Reverse(int(words[0]), int(words[1]), line=line) if int(words[0]) == int(words[1]) + 1 else None
    if tokens[0] in ("Copy", "Move"):
        kind = Copy if tokens[0] == "Copy" else Move
        fits = words[1] not in ("WORK", "NONE") and words[2] != "NONE"
        return kind(int(words[0]), words[1], words[2], line=line) if fits else None
    return EndForward(line=line) if tokens[0] == "EndForward" else EndReverse(line=line)


def places(action: Action) -> tuple[str, ...]:
    """The places that an action names."""
    match action:
        case Forward():
            return (action.storage,)
        case Copy() | Move():
            return action.from_storage, action.to_storage
        case _:
            return ()


def actions(text: Iterable[str], book: Collection[str]) -> Iterator[Action]:
    """The actions of a schedule, one line at a time, where `book` has the names of the levels. The text is a file that is
    opened by `open_schedule`, or lines, or one string. A line that is no action raises Refused.

    >>> for action in actions("#! revolve 0 1\\nForward(0, 1, False, True, WORK)\\nEndForward()", ["RAM"]):
    ...     print(action.line, action)
    2 Forward(n0=0, n1=1, write_ics=False, write_adj_deps=True, storage='WORK')
    3 EndForward()
    >>> list(actions("Copy(0, TAPE, WORK)", ["RAM", "DISK"]))
    Traceback (most recent call last):
    reverse.Refused: line 1, action 1: the book has no level TAPE
    """
    count = 0
    for line, words in enumerate(text.split("\n") if isinstance(text, str) else text, 1):
        tokens = re.findall("[A-Za-z0-9_]+|[^ \t\r]", words.rstrip("\n"))
        if not tokens or tokens[0] == "#":
            continue
        count += 1
        action = parse(tokens, line)
        if action is None:
            raise Refused(line, count, f"this is no action: {words.strip()}")
        for place in places(action):
            if place not in book and place not in ("WORK", "NONE"):
                raise Refused(line, count, f"the book has no level {place}")
        yield action


# ---- the run


class Solver(Protocol):
    """What `drive` calls. State 0 is in work at the start, and step n leads from state n to n + 1. A level goes by its name
    in the book. A method ends the run by an exception.

    A solver may have a method `transfer(level, target, n, keep)` too, which copies state n to another level, and frees its
    slot unless `keep`. No plan does so."""

    @property
    def steps(self) -> int:
        """How many steps there are."""

    def advance(self, start: int, end: int) -> None:
        """Take the steps from one state to the other."""

    def store(self, level: str, n: int) -> None:
        """Keep the state in work, which is n, on the level."""

    def load(self, level: str, n: int, keep: bool) -> None:
        """Bring state n from the level to work, and free its slot unless `keep`."""

    def tape(self, n: int) -> None:
        """Take step n, and keep what its reversal needs."""

    def reverse(self, n: int) -> None:
        """Reverse step n, the one that is taped."""

    def at_end(self) -> None:
        """The last state is in work: begin the adjoint."""


@dataclass
class Counts:
    """The counts of a run, in the words of `reversal_cli cost`."""

    forward: int = 0
    taped: int = 0
    reversed: int = 0
    writes: dict[str, int] = field(default_factory=dict)
    reads: dict[str, int] = field(default_factory=dict)

    def lines(self, book: Iterable[str]) -> str:
        """What `reversal_cli cost` writes, but for the total.

        >>> print(Counts(8, 4, 4, {"RAM": 2}, {"RAM": 3}).lines(["RAM"]), end="")
        forward 8
        taped 4
        reversed 4
        RAM writes 2 reads 3
        """
        levels = [f"{name} writes {self.writes.get(name, 0)} reads {self.reads.get(name, 0)}\n" for name in book]
        return f"forward {self.forward}\ntaped {self.taped}\nreversed {self.reversed}\n" + "".join(levels)


@dataclass
class Position:
    """Where a run is: the state in work, and how many steps are still to be reversed."""

    steps: int
    left: int
    work: int = 0
    taped: bool = False
    forward_ended: bool = False
    over: bool = False
    line: int = 0

    def rule(self, action: Action) -> int:
        """The lowest rule that the action breaks and that can be told without a list of what is held, or 0."""
        rules: list[tuple[bool, int]] = []
        match action:
            case _ if self.over:
                return 15
            case Forward(n0, n1, _, taped):
                rules = [(n0 != self.work, 1), (n0 >= n1 or n1 > self.steps, 2), (n1 > self.left, 3)]
                rules += [(taped and (n1 != n0 + 1 or n1 != self.left), 8), (taped and self.taped, 9)]
            case Reverse(n1, n0):
                rules = [(not self.taped, 10), (n1 != self.left or n0 + 1 != n1, 11), (not self.forward_ended, 12)]
            case Copy(_, level, target) | Move(_, level, target):
                rules = [(level == target, 7)]
            case EndForward():
                rules = [(self.forward_ended, 13), (self.work != self.steps, 14)]
            case EndReverse():
                rules = [(not self.forward_ended, 12), (self.left > 0, 16)]
        return next((number for broken, number in rules if broken), 0)

    def move_on(self, action: Action) -> None:
        """The same behind the action."""
        self.line = action.line
        match action:
            case Forward(_, n1, _, taped):
                self.work, self.taped = n1, self.taped or taped
            case Reverse(_, n0):
                self.left, self.taped = n0, False
            case Copy(n, _, "WORK") | Move(n, _, "WORK"):
                self.work = n
            case EndForward():
                self.forward_ended = True
            case EndReverse():
                self.over = True


def perform(action: Action, solver: Solver) -> None:
    """Calls the methods of the solver that do the action."""
    match action:
        case Forward(n0, _, _, True):
            solver.tape(n0)
        case Forward(n0, n1, stores, _, level):
            if stores:
                solver.store(level, n0)
            solver.advance(n0, n1)
        case Reverse(_, n0):
            solver.reverse(n0)
        case Copy(n, level, "WORK") | Move(n, level, "WORK"):
            solver.load(level, n, isinstance(action, Copy))
        case Copy(n, level, target) | Move(n, level, target):
            getattr(solver, "transfer")(level, target, n, isinstance(action, Copy))
        case EndForward():
            solver.at_end()


def count(action: Action, counts: Counts) -> None:
    """Adds to the counts what the action does."""
    match action:
        case Forward(n0, n1, stores, taped, level):
            counts.forward += n1 - n0
            counts.taped += taped
            if stores:
                counts.writes[level] = counts.writes.get(level, 0) + 1
        case Reverse():
            counts.reversed += 1
        case Copy(_, level, target) | Move(_, level, target):
            counts.reads[level] = counts.reads.get(level, 0) + 1
            if target != "WORK":
                counts.writes[target] = counts.writes.get(target, 0) + 1


def drive(actions: Iterable[Action], solver: Solver) -> Counts:
    """Does the actions up to EndReverse, and returns the counts. An action that breaks a rule raises Refused, and an exception
    of the solver becomes the cause of a Stopped. What stands before is done by then, so let `reversal_cli check` judge the
    schedule before.

    >>> class Doubling:
    ...     steps = 2
    ...     state, slope, kept = 3.0, 0.0, {}
    ...     def advance(self, start, end): self.state *= 2 ** (end - start)
    ...     def store(self, level, n): self.kept[n] = self.state
    ...     def load(self, level, n, keep): self.state = self.kept[n]
    ...     def tape(self, n): self.state *= 2
    ...     def reverse(self, n): self.slope *= 2
    ...     def at_end(self): self.slope = 1.0
    >>> solver = Doubling()
    >>> drive([Forward(0, 1, True, False, "RAM"), Forward(1, 2, False, True, "WORK"), EndForward(), Reverse(2, 1),
    ...        Move(0, "RAM", "WORK"), Forward(0, 1, False, True, "WORK"), Reverse(1, 0), EndReverse()], solver)
    Counts(forward=3, taped=2, reversed=2, writes={'RAM': 1}, reads={'RAM': 1})
    >>> solver.state, solver.slope
    (6.0, 4.0)
    >>> drive([Forward(0, 1, False, False, "NONE"), Reverse(2, 1)], Doubling())
    Traceback (most recent call last):
    reverse.Refused: line 0, action 2: this breaks rule 10
    """
    now, counts, number = Position(solver.steps, solver.steps), Counts(), 0
    for number, action in enumerate(actions, 1):
        rule = now.rule(action)
        if rule:
            raise Refused(action.line, number, f"this breaks rule {rule}", rule)
        try:
            perform(action, solver)
        except Exception as why:
            raise Stopped(action.line, number, why) from why
        count(action, counts)
        now.move_on(action)
    if not now.over:
        raise Refused(now.line, number + 1, "this breaks rule 16", 16)
    return counts
