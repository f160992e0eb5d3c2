"""Where moves over a run of the machine end. It follows the definitions of crates/run_timeline/specs/Moves.antt one by one, over a
list of all states of the run; it keeps no marks and undoes nothing."""

from functools import cache

from .machine import PAGE, State, step

WORD = 2**32
ECALL = b"\x73\0\0\0"


def weight(at):
    return (at * 2654435761 | 1) % WORD


class SummedState(State):
    """A state that keeps the sum of all bytes of its memory, each with the weight of its address."""

    def __init__(self, state):
        self.__dict__.update(state.__dict__)
        self.memory = sum(byte * weight(number * PAGE + k) for number, page in self.pages.items() for k, byte in enumerate(page) if byte)

    def put(self, at, data):
        for k, byte in enumerate(data):
            where = (at + k) % WORD
            self.memory += (byte - self.pages[where // PAGE][where % PAGE]) * weight(where)
        super().put(at, data)

    def sum(self):
        """The sum of the memory, and of the registers and what was read and written, each with the weight of its place."""
        words = [*self.x, self.item, self.offset, self.written]
        return (self.memory + sum(word * weight(k) for k, word in enumerate(words))) % WORD


def output(state):
    """The bytes that the step from a state writes to the output."""
    is_call = state.status == "run" and state.x[17] == 64 and state.has(state.pc, 4) and state.get(state.pc, 4) == ECALL
    return state.get(state.x[11], state.x[12]) if is_call and state.has(state.x[11], state.x[12]) else b""


class Trace:
    """The states of a run, to the first that is stopped, or of so many steps: their pcs, the addresses that the step from each writes,
    and what it writes to the output, whether it runs, and its sum."""

    def __init__(self, state, journal, steps):
        self.pc, self.written, self.output, self.runs, self.sums = [], [], [], [], []
        state = SummedState(state)
        for _ in range(steps + 1):
            self.pc.append(state.pc)
            self.runs.append(state.status == "run")
            self.sums.append(state.sum())
            self.output.append(output(state))
            self.written.append(step(state, journal))
            if not self.runs[-1]:
                break


class Run:
    """A run of at most so many steps."""

    def __init__(self, trace, most):
        self.trace, self.most = trace, most

    def is_end(self, m):
        return m == self.most or not self.trace.runs[m]


def is_in(at, start, length):
    return (at + (WORD - start)) % WORD < length


def writes_in(addresses, start, length):
    return any(is_in(at, start, length) for at in addresses)


class Moves:
    """The moves over a run with these addresses of breakpoints, and these watched ranges. What is hit is `break`, or `watch` with the
    index of a range, or nothing."""

    def __init__(self, run, addresses=(), ranges=()):
        self.run, self.addresses, self.ranges = run, addresses, ranges
        self.watched = cache(self.watched)

    def broken(self, m):
        return "break" if self.run.trace.pc[m] in self.addresses else None

    def watched(self, m):
        """The first range of which the step from place m writes a byte."""
        written = () if self.run.is_end(m) else self.run.trace.written[m]
        for index, (start, length) in enumerate(self.ranges):
            if writes_in(written, start, length):
                return index
        return None

    def crossed(self, m):
        index = self.watched(m)
        return None if index is None else f"watch {index}"

    def ahead(self, p, m):
        return (self.broken(m) if p < m else None) or self.crossed(m)

    def behind(self, p, m):
        if m == 0:
            return self.broken(0) if p > 0 else None
        return (self.broken(m) if m < p else None) or self.crossed(m - 1)

    def forward(self, p):
        """Where a move forward from p ends, and what it hits."""
        m = p
        while not self.ahead(p, m) and not self.run.is_end(m):
            m += 1
        return m, self.ahead(p, m)

    def backward(self, p):
        """Where a move backward from p ends, and what it hits."""
        m = p
        while not self.behind(p, m) and m > 0:
            m -= 1
        return m, self.behind(p, m)

    def step_ahead(self, p):
        """Where a step from p ends, and how."""
        if self.run.is_end(p):
            return p, "end"
        index = self.watched(p)
        return (p + 1, "went") if index is None else (p, f"watched {index}")

    def step_behind(self, p):
        """Where a step back from p ends, and how."""
        if p == 0:
            return 0, "end"
        index = self.watched(p - 1)
        return (p - 1, "went") if index is None else (p, f"watched {index}")

    def go_to(self, place):
        """Where a move to a place ends: there, or at the end of the run where that comes first."""
        m = 0
        while m < place and not self.run.is_end(m):
            m += 1
        return m
