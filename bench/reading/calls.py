"""Whole calls."""

import hashlib

from .books import Book, Level, read_book
from .certificates import read_certificate, weigh
from .console import Marks, Tour, new_place, read_script
from .machine import Run, demo_program, load, load_raw, read_journal
from .refused import Refused
from .rules import counts_of, first_with_room, judge, on_levels, report, revolve_certificate, revolve_list
from .schedules import read_actions, text_of


class Call:
    """One call with its inputs, four keepers with ample slots, and an output with ample room. `fails` is what fails, as in a case."""

    def __init__(self, words, inputs, fails=None):
        self.fails = fails or {}
        self.inputs, self.asked, self.written, self.writes, self.steps = inputs, [], "", 0, 0
        self.calls, self.held, self.faults = [[0, 0, 0] for _ in range(4)], [set() for _ in range(4)], [0] * 6
        self.flipped = self.fails.get("flip", [None])[0]
        options = [it for it in words if it.startswith("--")]
        words = words[len(options):]
        self.raw = "--raw" in options
        self.stack = next((int(it[8:]) for it in options if it.startswith("--stack=")), 16)
        try:
            self.command(*words)
            self.status, self.ended = 0, ""
        except Refused as refused:
            self.status, self.ended = refused.status, refused.text

    def comes(self):
        held = [None if level == self.flipped else len(slots) for level, slots in enumerate(self.held)]
        return {"status": self.status, "ended": self.ended, "written": self.written, "steps": self.steps, "calls": self.calls, "held": held,
                "asked": self.asked, "faults": self.faults}

    def read(self, name):
        self.asked.append(name)
        if self.fails.get("input") == len(self.asked) or name not in self.inputs:
            self.faults[0] += 1
            raise Refused(3, len(self.asked))
        return self.inputs[name]

    def write(self, text, place=0):
        self.writes += 1
        if self.fails.get("write") == self.writes:
            self.faults[1] += 1
            raise Refused(14, place)
        self.written += text

    def keeper(self, level, op, place):
        at = ["put", "get", "free"].index(op)
        self.calls[level][at] += 1
        if self.fails.get("keeper") == [level, op, self.calls[level][at]]:
            self.faults[2 + level] += 1
            raise Refused(12, place, level)

    def command(self, name, *words):
        if name in ("run", "ask"):
            return self.perform_words(name, *words)
        if name == "plan":
            return self.plan(*words)
        if name == "demo":
            return self.demo(*map(int, words))
        if name == "console":
            return self.console(*words)
        certificate = words[2] if name == "certify" else None
        texts = [self.read(it) for it in words[:-1]]
        steps, book = int(words[-1]), read_book(texts[0])
        actions = read_actions(texts[1], book)
        judge(actions, steps, book)
        if certificate:
            return self.write(f"least {weigh(actions, steps, book, *read_certificate(texts[2], steps, book))}\n")
        for line in report(actions, book) if name == "cost" else [f"valid {len(actions)}\n"]:
            self.write(line)

    def plan(self, _, name, steps):
        steps, book = int(steps), read_book(self.read(name))
        actions = on_levels(revolve_list(steps, book), first_with_room(book, steps))
        # a short list is one piece
        for piece in "".join(text_of(it, book) for it in actions), revolve_certificate(steps, book):
            self.write(piece)

    def demo(self, number, steps, slots):
        book = Book(1, 1, [Level("RAM", slots, 0, 0)])
        actions = revolve_list(steps, book)
        lines = Run(load_raw(demo_program(number), 16), [], steps).lines
        self.steps = counts_of(actions, book)[0]
        digest = hashlib.sha256("".join(reversed(lines)).encode()).hexdigest()
        self.write(f"demo {number} {steps} {slots}\nforward {self.steps}\nlines {steps + 1}\nsha256 {digest}\n")

    def perform_words(self, name, *words):
        question, words = (words[0], words[1:]) if name == "ask" else (None, words)
        program, journal, book, schedule, steps = words[:5]
        data = {it: self.read(it) for it in (program, journal, book, schedule) if not (it == journal and it == "-") and it != "@revolve"}
        steps, book = int(steps), read_book(data[book])
        actions = on_levels(revolve_list(steps, book), first_with_room(book, steps)) if schedule == "@revolve" else None
        state = (load_raw if self.raw else load)(data[program], self.stack)
        items = read_journal(data[journal]) if journal != "-" else []
        if actions is None:
            actions = read_actions(data[schedule], book)
            judge(actions, steps, book)
        asks = question in ("last-write", "last-change")
        run = Run(state, items, steps, int(words[5], 16) if asks else None)
        if not question:
            return self.perform(actions, run, self.write_line)
        answer = int(words[5]) if question == "state" else self.answer(question, run, int(words[5], 16))
        self.perform(actions, run, (lambda *it: self.write_line(*it) if it[1] == answer else None) if not asks else lambda *it: None, answer)
        if asks:
            self.write("none\n" if answer is None else f"{answer}\n")

    def console(self, program, journal, book, script, count):
        data = {it: self.read(it) for it in (program, journal, book, script) if not (it == journal and it == "-")}
        count, book = int(count), read_book(data[book])
        marks = Marks(book, count)
        state = (load_raw if self.raw else load)(data[program], self.stack)
        items = read_journal(data[journal]) if journal != "-" else []
        orders = read_script(data[script], count)
        # what an order gets that looks for its place is known up to a bound alone
        self.is_counted = all(order in ("back", "step", "goto") for order, _ in orders)
        run = Tour(state, items, count, {value for order, value in orders if order == "back-change"})
        for mark in range(marks.count):
            self.keep(marks.levels[mark], mark * marks.stride, 0)
        self.steps += (marks.count - 1) * marks.stride
        place = 0
        for number, (order, value) in enumerate(orders, 1):
            found = new_place(order, value, place, count, run, run.words)
            if found is not None:
                mark = marks.below(found)
                self.keeper(marks.levels[mark], "get", number)
                self.look(mark * marks.stride, marks.levels[mark], number, run)
                self.steps += found - mark * marks.stride
                place = found
            self.write("none\n" if found is None else run.lines[found], number)

    def answer(self, question, run, word):
        """The number of the last step that writes, or changes, a byte of a word."""
        steps = [m for m, wrote in enumerate(run.wrote) if (
            wrote & set(range(word, word + 4)) if question == "last-write" else run.seen[m] != run.seen[m + 1])]
        return max(steps, default=None)

    def write_line(self, run, n, place):
        self.write(run.lines[n], place)

    def perform(self, actions, run, hand_out, last=None):
        """Performs the actions, as far as the one that hands out the state `last`."""
        for place, (kind, *numbers) in enumerate(actions, 1):
            if kind == "Store":
                self.keep(numbers[2], numbers[0], place)
            if kind in ("Store", "Tape", "Step"):
                self.steps += numbers[1] - numbers[0]
            if kind in ("Copy", "Move"):
                self.fetch(kind, *numbers, place, run)
            if kind in ("EndForward", "Reverse"):
                n = len(run.lines) - 1 if kind == "EndForward" else numbers[1]
                hand_out(run, n, place)
                if n == last:
                    return

    def keep(self, level, n, place):
        self.keeper(level, "put", place)
        self.held[level].add(n)

    def fetch(self, kind, n, level, target, place, run):
        self.keeper(level, "get", place)
        self.look(n, level, place, run)
        if target != "WORK":
            self.keep(target, n, place)
        if kind == "Move":
            self.keeper(level, "free", place)
            self.held[level].remove(n)

    def look(self, n, level, place, run):
        """Refuses an image of which a bit came back wrong."""
        of, get, at = self.fails.get("flip", (None, 0, 0))
        image = run.images[n]
        if of == level and get == self.calls[level][1] and at < len(image):
            got = image[:at] + bytes([image[at] ^ 1]) + image[at + 1:]
            put, got = hashlib.sha256(image).hexdigest(), hashlib.sha256(got).hexdigest()
            raise Refused(13, place, level, 0, f" put {put} got {got}")
