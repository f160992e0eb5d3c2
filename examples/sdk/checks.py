"""What examples/check tries of examples/cc, examples/steps and examples/columns.

Programs are built, run to their ends under qemu-riscv32 and by reversal_cli, and compared: what they print, how they end, and after how
many instructions. Where MAKHRODZE_SOURCES names a folder in which `apt-get source cjson lua5.4 zlib` was called, programs of these
packages are tried too."""
import os
import re
import shutil
import struct
import subprocess
import sys
import zlib
from dataclasses import dataclass, field
from pathlib import Path

EXAMPLES = Path(__file__).resolve().parent.parent
PROGRAMS = EXAMPLES / "sdk/programs"
sys.path.insert(0, str(EXAMPLES))
import journal

COMPILER, QEMU = "riscv64-unknown-elf-gcc", "qemu-riscv32"
WORDS = b"We keep a few states in checkpoints\n"
PLAIN = [("sums", b"hello"), ("collatz", b""), ("primes", b""), ("overrun", WORDS)]  # programs of examples/ without a C library


def library_is_there():
    """Whether examples/cc builds programs with a C library here."""
    return shutil.which(COMPILER) is not None and run(COMPILER, "--specs=picolibc.specs", "-E", "-x", "c", os.devnull).returncode == 0


def run(*words, given=b"", folder=None, path=None):
    environment = dict(os.environ, PATH=path or os.environ["PATH"])
    return subprocess.run(list(map(str, words)), input=given, capture_output=True, cwd=folder, env=environment)


@dataclass
class Case:
    """A program, how it is built, its standard input, and whether it prints by the C library."""
    name: str
    sources: list
    given: bytes = b""
    words: list = field(default_factory=list)
    prints: bool = True


def own_cases():
    named = [("hello", b""), ("sort", b""), ("json", (PROGRAMS / "json.input").read_bytes()), ("cave", (PROGRAMS / "cave.input").read_bytes())]
    cases = [Case(name, [PROGRAMS / f"{name}.c"], given) for name, given in named]
    broken = Case("broken json", [PROGRAMS / "json.c"], b'{"a": [1, 2}\n')
    plain = [Case(name, [EXAMPLES / f"{name}.c"], given, prints=False) for name, given in PLAIN]
    return [*cases, broken, Case("ring", [EXAMPLES / "ring.c"], WORDS), *plain]


LUA = b"""\
local squares = {}
for place = 1, 10 do squares[#squares + 1] = place * place end
print(table.concat(squares, " "), ("%5.2f"):format(math.pi))
"""


def cases_of_others(folder, room):
    """Programs of Debian's packages whose sources stand in the folder."""
    cases, found = [], {name: next(Path(folder).glob(f"{name}-*/"), None) for name in ("cjson", "lua5.4", "zlib")}
    if found["cjson"]:
        cases.append(Case("the test of cJSON", [found["cjson"] / "cJSON.c", found["cjson"] / "test.c"], words=["-O2"]))
    if found["lua5.4"]:
        Path(room, "lua5.4-deb-multiarch.h").write_text('#define DEB_HOST_MULTIARCH "riscv32"\n')
        sources = [source for source in sorted((found["lua5.4"] / "src").glob("*.c")) if source.name != "luac.c"]
        # Lua makes the seed of its hashes from the address of a local variable, and the stack of QEMU is elsewhere.
        cases.append(Case("lua", sources, LUA, ["-O2", "-w", f"-I{room}", "-Dluai_makeseed(L)=1", '-DWORDS="lua","-"']))
    if found["zlib"]:
        parts = "adler32", "crc32", "deflate", "inffast", "inflate", "inftrees", "trees", "zutil", "examples/zpipe"
        sources = [found["zlib"] / f"{part}.c" for part in parts]
        packed = zlib.compress((found["zlib"] / "README").read_bytes()[:3000])
        cases.append(Case("zpipe of zlib", sources, packed, ["-O2", "-w", f"-I{found['zlib']}", '-DWORDS="zpipe","-d"']))
    return cases


@dataclass
class End:
    """How a program ends: what it wrote, its exit code, and after how many instructions."""
    output: bytes
    errors: bytes
    code: int
    steps: int


def under_qemu(program, given, room):
    """The end under QEMU, which lists each instruction that it carries out."""
    each = "-one-insn-per-tb" if b"-one-insn-per-tb" in run(QEMU, "-help").stdout else "-singlestep"
    listed = Path(room, "listed")
    ended = run(QEMU, each, "-d", "nochain,exec", "-D", listed, program, given=given)
    steps = sum(line.startswith(b"Trace ") for line in listed.open("rb"))
    listed.unlink()
    return End(ended.stdout, ended.stderr, ended.returncode, steps)


class Image:
    """The image of a state."""

    def __init__(self, data):
        self.kind, self.code = struct.unpack_from("<II", data, 136)
        starts = range(164, len(data), 4100)
        self.pages = {struct.unpack_from("<I", data, start)[0]: data[start + 4:start + 4100] for start in starts}

    def bytes_at(self, address, count):
        pages = range(address >> 12, (address + count + 4095 >> 12) + 1)
        whole = b"".join(self.pages.get(page, bytes(4096)) for page in pages)
        return whole[address & 4095:][:count]


class Ours:
    """Calls of the program that is checked, in a folder."""

    def __init__(self, program, room):
        self.program, self.room = program, Path(room)
        (self.room / "bin").mkdir()
        (self.room / "bin/reversal_cli").symlink_to(program)
        self.path = f"{self.room / 'bin'}:{os.environ['PATH']}"

    def journal(self, given):
        (self.room / "journal").write_bytes(journal.written(journal.pieces(given) if given else []))
        return self.room / "journal"

    def steps(self, *words):
        ended = run(EXAMPLES / "steps", *words, path=self.path)
        return (ended.stdout or ended.stderr).decode().strip()

    def console(self, program, given, slots, orders, steps, *options):
        """The words of each answer."""
        (self.room / "book").write_text('{"forward":1,"reverse":1,"levels":[{"name":"RAM","slots":%d,"write":0,"read":0}]}' % slots)
        (self.room / "orders").write_text(orders)
        words = "console", program, self.journal(given), self.room / "book", self.room / "orders", steps
        return [line.split() for line in run(self.program, *options, *words).stdout.decode().splitlines()]

    def last_image(self, program, given):
        """The image of a state near the last that there is: the end, of a program that ended."""
        (self.room / "images").mkdir(exist_ok=True)
        self.console(program, given, 64, "", 1_000_000, f"--files=0:{self.room / 'images'}")
        return Image((self.room / "images/level0-slot63.img").read_bytes())


def kept_output(image, address, size):
    """What the buffer of standard output in sdk/calls.c has kept: its bytes are followed by their number."""
    return image.bytes_at(address, struct.unpack("<I", image.bytes_at(address + size, 4))[0])


def symbol(program, name):
    """Address and size of a symbol."""
    for line in run("riscv64-unknown-elf-nm", "-S", program).stdout.decode().splitlines():
        words = line.split()
        if words[-1] == name and len(words) == 4:
            return int(words[0], 16), int(words[1], 16)
    return None


def try_case(ours, case, expect):
    """One program ends alike under QEMU and here."""
    program = ours.room / "program.elf"
    built = run(EXAMPLES / "cc", *case.words, *case.sources, "-o", program)
    expect(built.returncode == 0, f"examples/cc builds {case.name}", "\n" + built.stderr.decode())
    if built.returncode == 0:
        compare(ours, case.name, program, case.given, case.prints, expect)


def compare(ours, name, program, given, prints, expect):
    theirs = under_qemu(program, given, ours.room)
    told = ours.steps(program, ours.journal(given))
    alike = told.startswith(f"{theirs.steps} steps, then exit:{theirs.code} at ")
    expect(alike, f"{name} ends as under {QEMU}", f": {told}; there {theirs}")
    if not alike:
        return
    last = ours.console(program, given, 1, f"goto {theirs.steps - 1}\nstep 1\n", theirs.steps)
    expect([words[33] for words in last] == ["run", f"exit:{theirs.code}"], f"{name} runs up to its last step")
    expect(last[-1][35] == str(len(theirs.output + theirs.errors)), f"{name} writes as many bytes as under {QEMU}", f": {last[-1][35]}")
    buffer = symbol(program, "output") if prints and shutil.which("riscv64-unknown-elf-nm") else None
    if buffer:
        address, size = buffer[0], buffer[1] - 8
        image = ours.last_image(program, given)
        kept, wanted = kept_output(image, address, size), theirs.output[(len(theirs.output) - 1) // size * size:]
        expect((image.kind, image.code, kept) == (1, theirs.code, wanted), f"{name} prints as under {QEMU}", f": {kept}")


def try_runs(ours, expect):
    """examples/steps tells of the programs of examples/ what the lines of their runs say."""
    for name, items, steps in [*((name, [given], 1000) for name, given in PLAIN), ("sums", [b"hello", b"abc"], 100)]:
        program, recorded, book = EXAMPLES / f"{name}.elf", ours.room / "recorded", ours.room / "book"
        recorded.write_bytes(journal.written(items))
        book.write_text('{"forward":1,"reverse":1,"levels":[{"name":"RAM","slots":9,"write":0,"read":0}]}')
        lines = run(ours.program, "run", program, recorded, book, "@revolve", steps).stdout.decode().splitlines()
        words = [line.split() for line in lines]
        ended = [line for line in words if line[33] != "run"]
        told = ours.steps(program, recorded)
        wanted = f"{ended[-1][0]} steps, then {ended[-1][33]} at 0x{ended[-1][1]}" if ended else "lines of a program that ends"
        expect(told == wanted and len(lines) == steps + 1, f"examples/steps of examples/{name}.elf", f": {told}, and its run says {wanted}")


def try_programs(ours, tell, expect):
    if not shutil.which(QEMU):
        return tell("not tried", f"programs under {QEMU}: it isn't there")
    compare(ours, "examples/ring.elf", EXAMPLES / "ring.elf", WORDS, True, expect)
    if not library_is_there():
        return tell("not tried", "programs with a C library: gcc-riscv64-unknown-elf or picolibc-riscv64-unknown-elf isn't there")
    try_wrong_builds(ours, expect)
    try_stack(ours, expect)
    folder = os.environ.get("MAKHRODZE_SOURCES")
    for case in own_cases() + (cases_of_others(folder, ours.room) if folder else []):
        try_case(ours, case, expect)
    if not folder:
        tell("not tried", "programs of others: MAKHRODZE_SOURCES names no folder with their sources")


MOVES = """\
#include "%s/calls.h"
static char one[400], other[400];
int main(int count, char **words) {
    unsigned long most = sizeof one - count;
    __builtin_memset(one, 7, most);
    __builtin_memcpy(other, one, most);
    __builtin_memmove(other + count, other, most - count);
    other[0] = 9;
    double half = other[0] / 2.0;
    write(1, "moved\\n", 6);
    return (int)(half * 4) + __builtin_memcmp(other + 1, one, most - 1);
}
"""


def try_without_library(ours, tell, expect):
    """A program without a C library, as where picolibc isn't installed, and what is said where a package is missing."""
    if not shutil.which(COMPILER):
        said = run(EXAMPLES / "cc", "some.c").stderr
        return expect(b"gcc-riscv64-unknown-elf" in said, "examples/cc names the package that is missing", f": {said}")
    without = ours.room / "without"
    without.mkdir()
    (without / COMPILER).write_text(f'#!/bin/sh\ncase "$*" in *picolibc*) exit 1;; esac\nexec {shutil.which(COMPILER)} "$@"\n')
    (without / COMPILER).chmod(0o755)
    path = f"{without}:{os.environ['PATH']}"
    (ours.room / "moves.c").write_text(MOVES % EXAMPLES)
    for level in "-O1", "-O2", "-Os":
        built = run(EXAMPLES / "cc", level, "-fno-builtin", ours.room / "moves.c", "-o", ours.room / "moves.elf", path=path)
        expect(built.returncode == 0, "examples/cc builds a program without a C library", f": {built.stderr.decode()}")
        told = ours.steps(ours.room / "moves.elf")
        expect(" steps, then exit:18 at " in told, f"a program without a C library, {level}", f": {told}")
        if shutil.which(QEMU):
            compare(ours, f"a program without a C library, {level}", ours.room / "moves.elf", b"", False, expect)
    said = run(EXAMPLES / "cc", PROGRAMS / "hello.c", "-o", ours.room / "none.elf", path=path)
    expect(said.returncode == 1 and b"picolibc-riscv64-unknown-elf" in said.stderr, "examples/cc names picolibc where it is missing", f": {said}")
    (without / "dirname").symlink_to(shutil.which("dirname"))
    (without / COMPILER).unlink()
    said = subprocess.run([shutil.which("sh"), EXAMPLES / "cc", "some.c"], capture_output=True, env={"PATH": str(without)})
    expect(said.returncode == 1 and b"gcc-riscv64-unknown-elf" in said.stderr, "examples/cc names the compiler where it is missing", f": {said}")


COUNTED = "lui x5, {high}\naddi x5, x5, {low}\n{more}addi x5, x5, -1\nbne x5, x0, -4\naddi x17, x0, 93\necall\n"

# sources, and what is told of them: the numbers are counted by hand
SMALL = [
    ("jal x0, 0\n", "more than 1,000,000 steps: it runs on at 0x00010000"),
    ("addi x17, x0, 93\necall\n", "2 steps, then exit:0 at 0x00010004"),
    ("addi x5, x0, 1\naddi x5, x0, 1\n.word 0x00010001  # two instructions of 16 bits\n", "3 steps, then trap:2 at 0x00010008"),
    (".word 0x30529073  # csrw mtvec, t0\n", "1 step, then trap:2 at 0x00010000"),
    ("lui x2, 131072\nsw x5, -4(x2)\n", "2 steps, then trap:7 at 0x00010004"),
    ("jal x0, 6\n.word 0\n.word 0\n", "1 step, then trap:0 at 0x00010000"),
    ("ebreak\n", "1 step, then trap:3 at 0x00010000"),
    ("lui x5, 16\nlw x6, 0(x5)\naddi x5, x5, 4\njal x0, -8\n", "3074 steps, then trap:5 at 0x00010004"),
    (COUNTED.format(high=122, low=286, more=""), "1000000 steps, then exit:0 at 0x00010014"),
    (COUNTED.format(high=122, low=286, more="addi x6, x0, 0\n"), "more than 1,000,000 steps: it runs on at 0x00010018"),
]


def try_steps(ours, expect):
    for source, wanted in SMALL:
        (ours.room / "small.s").write_text(source)
        (ours.room / "small.bin").write_bytes(run(ours.program, "asm", ours.room / "small.s").stdout)
        told = ours.steps("--raw", ours.room / "small.bin")
        expect(told == wanted, f"examples/steps of\n{source}", f" tells {told} in place of {wanted}")


def try_wrong_builds(ours, expect):
    """What examples/README.md says of programs that weren't made for this machine."""
    barred = ours.room / "barred.c"
    barred.write_text('int main(void) {\n    asm volatile(".option arch, +zicsr; csrw mtvec, zero");\n    return 0;\n}\n')
    hello, program = PROGRAMS / "hello.c", ours.room / "wrong.elf"
    builds = [
        ("compressed code", [EXAMPLES / "cc", "-march=rv32imac", hello], r"\d\d? steps, then trap:[02] at .*"),
        ("csrw", [EXAMPLES / "cc", barred], r"\d+ steps, then trap:2 at .*"),
        ("a stack of its own", [COMPILER, "--specs=picolibc.specs", "--oslib=semihost", "-march=rv32im", "-mabi=ilp32", hello], r"\d\d? steps, then trap:7 at .*"),
    ]
    for name, words, wanted in builds:
        built = run(*words, "-o", program)
        told = ours.steps(program) if built.returncode == 0 else built.stderr.decode()
        expect(re.fullmatch(wanted, told), f"a program with {name} ends at a trap", f": {told}")


DEEP = """\
static int deep(int more) {
    volatile char room[1000];
    room[0] = more;
    return more ? deep(more - 1) + room[0] : 7;
}
int main(void) {
    return deep(100) & 127;
}
"""


def try_stack(ours, expect):
    """A stack of more than 64 KB takes more pages than there are, and is had by --stack."""
    source, program = ours.room / "deep.c", ours.room / "deep.elf"
    source.write_text(DEEP)
    run(EXAMPLES / "cc", source, "-o", program)
    last = ours.steps(program).split()
    words = ours.console(program, b"", 1, f"goto {last[0]}\n", last[0])[0]
    expect(last[3].startswith("trap:7") and int(words[3], 16) < 0xbfff0000, "a stack that outgrows its pages", f": {last} {words}")
    told = ours.steps("--stack=64", program)
    expect(f", then exit:{(5050 + 7) & 127} at " in told, "a stack that --stack makes greater", f": {told}")


# words of a line by their names, as docs/FORMATS.md has them
COLUMNS = {"state": 1, "pc": 2, "x1": 3, "x31": 33, "ra": 3, "sp": 4, "gp": 5, "tp": 6, "a0": 12, "a1": 13, "a7": 19, "t0": 7, "t2": 9, "t3": 30, "t6": 33, "s0": 10, "fp": 10, "s1": 11, "s2": 20, "s11": 29, "status": 34, "input": 35, "written": 36, "digest": 37}


def try_columns(expect):
    line = " ".join(map(str, range(1, 38))) + "\nnone\n"
    said = run(EXAMPLES / "columns", *COLUMNS, given=line.encode()).stdout.decode()
    expect(said == " ".join(map(str, COLUMNS.values())) + "\nnone\n", "examples/columns", f": {said}")
    expect(run(EXAMPLES / "columns", "x32").returncode == 1, "examples/columns refuses a name that is none")


def try_all(program, room, tell, expect):
    ours = Ours(program, room)
    try_columns(expect)
    try_steps(ours, expect)
    try_runs(ours, expect)
    try_without_library(ours, tell, expect)
    try_programs(ours, tell, expect)
