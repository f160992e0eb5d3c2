#!/usr/bin/env python3
"""The gradient of a misfit at the end of a run of Burgers' equation, by a checkpoint schedule.

    burgers.py BOOK SCHEDULE N [FOLDER]

It is burgers.c once more, with the same operations in the same order, and writes the same lines."""
from __future__ import annotations

import math
import sys
from array import array
from pathlib import Path

from reverse import Refused, Stopped, actions, drive, open_schedule, read_book

Field = list[float]  # the values at the points, with the ends before and behind them, which stay 0

POINTS = 64
VISCOSITY, TIME_STEP, SPACING = 0.01, 0.001, 1.0 / (POINTS + 1)
CONVECTION, DIFFUSION = TIME_STEP / (4 * SPACING), VISCOSITY * TIME_STEP / (SPACING * SPACING)
SMALL_CHANGE, TOLERANCE = 1e-4, 1e-6
INSIDE = range(1, POINTS + 1)

# ---- the equation, and the adjoint of a step


def field(values: list[float]) -> Field:
    """The field with these values at its points."""
    return [0.0, *values, 0.0]


def start() -> Field:
    """The field of state 0."""
    return field([6.75 * (i * SPACING) * (i * SPACING) * (1 - i * SPACING) for i in INSIDE])


def direction() -> Field:
    """The direction in which differences are taken."""
    return field([(i * SPACING) * (1 - i * SPACING) for i in INSIDE])


def target(i: int) -> float:
    """What the last field should be at a point."""
    return 2 * (i * SPACING) * (1 - i * SPACING)


def take_step(u: Field) -> Field:
    """The field behind a step from u."""
    return field([
        middle - CONVECTION * (right * right - left * left) + DIFFUSION * (right - 2 * middle + left)
        for left, middle, right in zip(u, u[1:], u[2:])
    ])


def step_adjoint(u: Field, gradient: Field) -> Field:
    """From the gradient with respect to the field behind a step to that with respect to u, the field before it."""
    return field([
        (1 - 2 * DIFFUSION) * middle + (DIFFUSION - 2 * CONVECTION * at) * left + (DIFFUSION + 2 * CONVECTION * at) * right
        for at, left, middle, right in zip(u[1:], gradient, gradient[1:], gradient[2:])
    ])


def misfit(u: Field) -> float:
    """Half the square of the distance from the target."""
    total = 0.0
    for i in INSIDE:
        total += (u[i] - target(i)) * (u[i] - target(i))
    return total * SPACING / 2


def misfit_gradient(u: Field) -> Field:
    """The gradient of the misfit with respect to the last field."""
    return field([(u[i] - target(i)) * SPACING for i in INSIDE])


# ---- the solver


class Burgers:
    """A run of the equation, as `drive` wants it. States on RAM are in memory, and others in files of the folder."""

    def __init__(self, steps: int, book: dict[str, int | None], folder: str) -> None:
        self.steps, self.slots, self.folder = steps, book, Path(folder)
        self.work = start()
        self.taped: Field = []
        self.gradient: Field = []
        self.memory: dict[int, Field] = {}
        self.held: dict[str, set[int]] = {name: set() for name in book}

    def file(self, level: str, n: int) -> Path:
        """The file of a state that isn't in memory."""
        return self.folder / f"{level}-{n}.state"

    def advance(self, start: int, end: int) -> None:
        """Takes the steps from one state to the other."""
        for _ in range(start, end):
            self.work = take_step(self.work)

    def put(self, level: str, n: int, u: Field) -> None:
        """Keeps state n, which is u, on the level."""
        slots = self.slots[level]
        if slots is not None and len(self.held[level]) >= slots:
            raise ValueError(f"{level} is full")
        if n in self.held[level]:
            raise ValueError(f"{level} holds state {n} already")
        self.held[level].add(n)
        if level == "RAM":
            self.memory[n] = u
        else:
            self.file(level, n).write_bytes(array("d", u).tobytes())

    def take(self, level: str, n: int, keep: bool) -> Field:
        """State n from the level, whose slot is freed unless `keep`."""
        if n not in self.held[level]:
            raise ValueError(f"{level} doesn't hold state {n}")
        if not keep:
            self.held[level].remove(n)
        if level == "RAM":
            return self.memory[n] if keep else self.memory.pop(n)
        u = array("d", self.file(level, n).read_bytes()).tolist()
        if not keep:
            self.file(level, n).unlink()
        return u

    def store(self, level: str, n: int) -> None:
        """Keeps the state in work on the level."""
        self.put(level, n, self.work)

    def load(self, level: str, n: int, keep: bool) -> None:
        """Brings state n to work."""
        self.work = self.take(level, n, keep)

    def transfer(self, level: str, to: str, n: int, keep: bool) -> None:
        """Copies state n to another level."""
        self.put(to, n, self.take(level, n, keep))

    def tape(self, n: int) -> None:
        """Takes step n, and keeps the field before it."""
        self.taped = self.work
        self.advance(n, n + 1)

    def reverse(self, n: int) -> None:
        """Reverses step n."""
        self.gradient = step_adjoint(self.taped, self.gradient)

    def at_end(self) -> None:
        """Begins with the gradient of the misfit."""
        self.gradient = misfit_gradient(self.work)


# ---- what the gradient is compared with


def keep_all(steps: int) -> Field:
    """The gradient by a run that keeps all states."""
    states = [start()]
    for _ in range(steps):
        states.append(take_step(states[-1]))
    gradient = misfit_gradient(states[steps])
    for u in reversed(states[:steps]):
        gradient = step_adjoint(u, gradient)
    return gradient


def misfit_of(steps: int, change: float) -> float:
    """The misfit at the end of a run from a start that is changed along the direction."""
    u = [value + change * along for value, along in zip(start(), direction())]
    for _ in range(steps):
        u = take_step(u)
    return misfit(u)


def product(a: Field, b: Field) -> float:
    """The scalar product."""
    total = 0.0
    for i in INSIDE:
        total += a[i] * b[i]
    return total


def from_differences(steps: int, gradient: Field) -> float:
    """How far the gradient is from central differences along the direction, relative to them."""
    slope = (misfit_of(steps, SMALL_CHANGE) - misfit_of(steps, -SMALL_CHANGE)) / (2 * SMALL_CHANGE)
    return abs(product(gradient, direction()) - slope) / abs(slope)


def judge(steps: int, gradient: Field) -> bool:
    """Writes what there is to say of the gradient, and tells whether it is right."""
    other, differences = keep_all(steps), from_differences(steps, gradient)
    print(f"gradient norm {math.sqrt(product(gradient, gradient)):.17g}")
    print(f"from all states {max(abs(a - b) for a, b in zip(gradient, other)):.3g}")
    print(f"from differences {differences:.3g}")
    return array("d", gradient).tobytes() == array("d", other).tobytes() and differences <= TOLERANCE


def main(words: list[str]) -> int:
    """Runs the equation by the words of the command."""
    if len(words) not in (3, 4):
        raise SystemExit(__doc__)
    book, steps = read_book(words[0]), int(words[2])
    solver = Burgers(steps, book, words[3] if len(words) == 4 else ".")
    try:
        with open_schedule(words[1]) as text:
            counts = drive(actions(text, book), solver)
    except (Refused, Stopped) as wrong:
        print(f"burgers.py: {wrong}", file=sys.stderr)
        return 1
    right = judge(steps, solver.gradient)
    print(counts.lines(book), end="")
    return 0 if right else 1


if __name__ == "__main__":
    sys.exit(main(sys.argv[1:]))
