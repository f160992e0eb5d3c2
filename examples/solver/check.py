"""What examples/check tries of this folder: that both solvers compile and run, that their gradients are right, that they count
what `cost` counts, and that they refuse what `check` refuses."""
from __future__ import annotations

import json
import re
import shutil
import sys
from pathlib import Path
from typing import Any, Callable

HERE = Path(__file__).resolve().parent
sys.path.insert(0, str(HERE))
import burgers
import reverse

STRICT = ["cc", "-std=c99", "-Wall", "-Wextra", "-pedantic", str(HERE / "burgers.c")]
HELD = (4, 5, 6)  # the rules that a driver leaves to its solver
Expect = Callable[..., None]


def book(ram: int | None, disk: int | None = 0) -> str:
    """A book with slots of memory and, but for 0, of disk."""
    levels = [{"name": "RAM", "slots": ram, "write": 0, "read": 0}, {"name": "DISK", "slots": disk, "write": 2, "read": 1}]
    return json.dumps({"forward": 1, "reverse": 1, "levels": levels[:1 if disk == 0 else 2]})


PLANS: list[tuple[str, str, tuple[int, ...]]] = [
    ("revolve", book(3), (1,)),
    ("revolve", book(3), (10,)),
    ("revolve", book(3), (1000,)),
    ("disk", book(8, None), (2000,)),
    ("hrevolve", book(2, 2), (200,)),
    ("multistage", book(3, 5), (300,)),
    ("periodic", book(4, None), (300, 40)),
    ("revolve", book(None), (7,)),
    ("revolve", book(0), (0,)),
]


def compiled(calls: Any, expect: Expect, tell: Callable[..., None]) -> bool:
    """Compiles burgers.c, as `burgers` and, where the compiler can, as `checked` with sanitizers."""
    if not shutil.which("cc"):
        tell("not tried", "burgers.c: there is no C compiler")
        return False
    status, _, said = calls.call(*STRICT, "-O2", "-o", "burgers", "-lm")
    expect(status == 0 and said == "", "burgers.c compiles without a warning", f" {said}")
    sanitizers = ["-g", "-fsanitize=address,undefined", "-fno-sanitize-recover"]
    status, _, said = calls.call(*STRICT, *sanitizers, "-o", "checked", "-lm")
    if status != 0:
        tell("not tried", "burgers.c with sanitizers: the compiler has none")
        shutil.copy(Path(calls.folder, "burgers"), Path(calls.folder, "checked"))
    else:
        expect(said == "", "burgers.c compiles with sanitizers without a warning", f" {said}")
    return True


def try_python(calls: Any, expect: Expect, tell: Callable[..., None]) -> None:
    """The examples in docstrings, and the type hints."""
    status, said, wrong = calls.call(sys.executable, "-B", "-m", "doctest", str(HERE / "reverse.py"))
    expect(status == 0 and said == "", "the examples in reverse.py", said + wrong)
    if not shutil.which("mypy"):
        tell("not tried", "the type hints of reverse.py and burgers.py: mypy isn't there")
        return
    files = [str(HERE / name) for name in ("reverse.py", "burgers.py")]
    status, said, wrong = calls.call("mypy", "--strict", "--python-version=3.10", "--cache-dir=types", *files)
    expect(status == 0, "the type hints of reverse.py and burgers.py", f" {said}{wrong}")


def try_schedule(calls: Any, expect: Expect, what: str, steps: str) -> None:
    """Both solvers by `plan` over `levels`: the gradient, the counts of `cost`, and the same lines from both."""
    counts = calls.ours("cost", "levels", "plan", steps)[1].splitlines(keepends=True)[:-1]
    status, written, wrong = calls.call("./checked", "levels", "plan", steps, "disk")
    lines = written.splitlines(keepends=True)
    expect(status == 0 and wrong == "", f"burgers.c by {what}", f" {wrong}")
    expect(lines[1:2] == ["from all states 0\n"], f"burgers.c by {what}: the gradient of all states", f" {written}")
    expect(len(lines) > 2 and float(lines[2].split()[-1]) <= 1e-6, f"burgers.c by {what}: differences", f" {written}")
    expect(counts and lines[3:] == counts, f"burgers.c by {what}: the counts", f" {lines[3:]}, and `cost` says {counts}")
    same = calls.call(sys.executable, "-B", str(HERE / "burgers.py"), "levels", "plan", steps, "disk")
    expect(same == (0, written, ""), f"burgers.py by {what} writes what burgers.c does", f" {same}")
    expect(not list(Path(calls.folder, "disk").iterdir()), f"{what} leaves no files")


def try_plan(calls: Any, expect: Expect, kind: str, levels: str, numbers: tuple[int, ...]) -> None:
    """Both solvers by a plan."""
    calls.put("levels", levels)
    calls.plan("plan", kind, "levels", *numbers)
    try_schedule(calls, expect, f"{kind} {numbers} over {levels}", str(numbers[0]))


def try_detours(calls: Any, expect: Expect) -> None:
    """Both solvers by a schedule in which states go from memory to work over the disk."""
    calls.put("levels", book(3, 1))
    plan = Path(calls.folder, calls.plan("plan", "revolve", calls.put("one", book(3)), 10))
    over_disk = re.sub(r"Move\((\d+), RAM, WORK\)", r"Move(\1, RAM, DISK)\nMove(\1, DISK, WORK)", plan.read_text())
    plan.write_text(over_disk)
    try_schedule(calls, expect, "a schedule over the disk", "10")


# ---- what is refused

REPLACED = [("Copy", "Move"), ("Move", "Copy"), ("True", "False"), ("False", "True"), ("RAM", "DISK"), ("RAM", "TAPE")]
REPLACED += [("WORK", "RAM"), ("NONE", "RAM"), ("NONE", "WORK"), ("Forward", "Reverse"), (")", ""), ("(", "(("), ("(", "(0")]
Said = tuple[str, int, int]  # (valid, 0, 0), (text, the line, 0) or (rule, the action, the rule)


def changed(line: str) -> list[str]:
    """Lines that someone might make of a line by mistake."""
    def moved(pattern: str, by: int) -> str:
        return re.sub(pattern, lambda found: str(max(0, int(found[0]) + by)), line, count=1)

    first, last = r"\d+", r"\d+(?=\D*$)"
    made = [moved(first, 1), moved(first, -1), moved(last, 1), moved(last, -1)]
    made += [line.replace(old, new) for old, new in REPLACED]
    made += ["", line + "\n" + line, line + " x", "0" + line, line.lower()]
    return [new for new in dict.fromkeys(made) if new != line]


def changes(plan: str) -> list[str]:
    """Schedules with one line changed, and schedules that are cut off."""
    lines = plan.splitlines()
    lists = [lines[:place] + [new] + lines[place + 1:] for place, line in enumerate(lines) for new in changed(line)]
    return ["\n".join(list_) + "\n" for list_ in lists + [lines[:place] for place in range(len(lines))]]


def said_by_check(calls: Any, steps: int) -> Said:
    """What `check` says of a schedule."""
    status, _, wrong = calls.ours("check", "levels", "changed", str(steps))
    if status == 0:
        return "valid", 0, 0
    words = wrong.split()
    return ("text", int(words[3]), 0) if status == 7 else ("rule", int(words[3]), int(words[5]))


def said_by_c(calls: Any, steps: int) -> Said:
    """The same of burgers.c."""
    status, _, wrong = calls.call("./checked", "levels", "changed", str(steps), "disk")
    if status == 0:
        return "valid", 0, 0
    found = re.fullmatch(r"burgers: line (\d+), action (\d+): (?:.* (?:rule|code) (\d+)|.*)\n", wrong)
    if not found:
        return wrong, 0, 0
    return ("rule", int(found[2]), int(found[3])) if found[3] else ("text", int(found[1]), 0)


def said_by_python(folder: str, steps: int) -> Said:
    """The same of burgers.py, where the rule of an action that the solver stops is 0."""
    levels = reverse.read_book(str(Path(folder, "levels")))
    solver = burgers.Burgers(steps, levels, str(Path(folder, "disk")))
    try:
        with reverse.open_schedule(str(Path(folder, "changed"))) as text:
            reverse.drive(reverse.actions(text, levels), solver)
    except reverse.Refused as wrong:
        return ("rule", wrong.action, wrong.rule) if wrong.rule else ("text", wrong.line, 0)
    except reverse.Stopped as wrong:
        return "rule", wrong.action, 0
    return "valid", 0, 0


def agree(ours: Said, theirs: Said) -> bool:
    """Whether a driver says what `check` says. Where an action breaks a rule of HELD, burgers.py says 0, and a driver may say
    that it breaks rule 7 too."""
    return ours == theirs or (theirs[2] in HELD and ours[:2] == theirs[:2] and ours[2] in (0, 7))


def try_changed(calls: Any, expect: Expect, kind: str, levels: str, numbers: tuple[int, ...]) -> None:
    """Schedules with a changed line are refused at the line, or the action, at which `check` refuses them."""
    calls.put("levels", levels)
    plan = calls.plan("plan", kind, "levels", *numbers)
    text = "".join(line + "\n" for line in Path(calls.folder, plan).read_text().splitlines() if not line.startswith("#"))
    verdicts = set()
    for new in changes(text):
        calls.put("changed", new)
        theirs = said_by_check(calls, numbers[0])
        verdicts.add(theirs[0])
        for name, ours in ("burgers.c", said_by_c(calls, numbers[0])), ("burgers.py", said_by_python(calls.folder, numbers[0])):
            expect(agree(ours, theirs), f"{name} by a changed {kind}", f" says {ours}, and `check` says {theirs}, of\n{new}")
    expect(verdicts == {"valid", "text", "rule"}, f"changes of {kind} of all kinds", f" {verdicts}")


def try_forms(calls: Any, expect: Expect) -> None:
    """Blanks, comments and odd books are read as the program reads them."""
    other = '"more": [{"levels": [{"name": "X"}]}, {"name": "{\\"", "levels": [1, -2.5e3, [true]]}]'
    level = f'{{"slots":\t3 , "name":"RAM", {other}, "write":0, "read":0}}'
    calls.put("levels", f'{{{other},"levels" : [{level}],"forward":1,"reverse":1}}')
    plan = Path(calls.folder, calls.plan("plan", "revolve", "levels", 10)).read_text()
    spaced = "# a comment \\ \0\n\n\t\r\n  #! not a certificate\n" + re.sub(r"([(),])", " \\1\t", plan).replace("\n", "\r\n")
    calls.put("changed", spaced.rstrip("\n"))
    valid = calls.ours("check", "levels", "changed", "10")[1]
    expect(valid == "valid 40\n", "`check` reads blanks, comments and an odd book", valid)
    expect(said_by_c(calls, 10)[0] == "valid", "burgers.c reads blanks, comments and an odd book", f" {said_by_c(calls, 10)}")
    expect(said_by_python(calls.folder, 10)[0] == "valid", "burgers.py reads blanks, comments and an odd book")


def try_solver(calls: Any, expect: Expect, tell: Callable[..., None]) -> None:
    """All of these, in the folder of `calls`."""
    Path(calls.folder, "disk").mkdir()
    try_python(calls, expect, tell)
    if compiled(calls, expect, tell):
        for kind, levels, numbers in PLANS:
            try_plan(calls, expect, kind, levels, numbers)
        try_detours(calls, expect)
        try_changed(calls, expect, "revolve", book(3), (10,))
        try_changed(calls, expect, "hrevolve", book(1, 2), (6,))
        try_forms(calls, expect)
