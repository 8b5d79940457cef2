#!/usr/bin/env python3
"""Spellings of x64 instructions by GNU as, as the rows of a test table.

  x64_vectors.py              prints the rows of crates/isa_rows/src/x64_spellings.rt
  x64_vectors.py --random N   prints a table of N random instructions instead
  x64_vectors.py --check      tells whether spellings.rt is what the assembler gives now

Each row is an instruction of the crate and the bytes that `as` gives for its text. Where `as` is missing
the script says so and ends well. The texts ask for the table's one spelling where `as` would pick
another: `{load}` for mov from a register, `{rex}` for REX on bytes, `{disp8}` for a displacement of 0,
`{disp32}` for jumps.
"""
import os, random, re, shutil, subprocess, sys, tempfile

REGS = "rax rcx rdx rbx rsp rbp rsi rdi r8 r9 r10 r11 r12 r13 r14 r15".split()
R32 = "eax ecx edx ebx esp ebp esi edi".split() + [f"r{i}d" for i in range(8, 16)]
R16 = "ax cx dx bx sp bp si di".split() + [f"r{i}w" for i in range(8, 16)]
R8 = "al cl dl bl spl bpl sil dil".split() + [f"r{i}b" for i in range(8, 16)]
CONDITIONS = [("o", "Overflow"), ("no", "NotOverflow"), ("b", "Below"), ("ae", "AboveOrEqual"), ("e", "Equals"),
              ("ne", "NotEquals"), ("be", "BelowOrEqual"), ("a", "Above"), ("s", "Sign"), ("ns", "NotSign"),
              ("l", "LessThan"), ("ge", "GreaterOrEqual"), ("le", "LessOrEqual"), ("g", "GreaterThan")]
SIZES = {64: ("qword ptr ", REGS), 32: ("dword ptr ", R32), 16: ("word ptr ", R16), 8: ("byte ptr ", R8)}
MIN, MAX = -(1 << 31), (1 << 31) - 1


def reg(n):
    return "X64Reg::" + REGS[n].capitalize()


class Place:
    def __init__(self, base, disp):
        self.base, self.disp = base, disp  # base None: RIP

    def rust(self):
        if self.base is None:
            return f"Place::Rip {{ displacement: {self.disp} }}"
        return f"Place::Base {{ base: {reg(self.base)}, displacement: {self.disp} }}"

    def text(self, size):
        name = "rip" if self.base is None else REGS[self.base]
        word = SIZES[size][0] if size else ""
        return f"{word}[{name}{self.disp:+d}]"

    def hint(self):
        return "{disp8} " if self.base is not None and self.disp == 0 else ""


def rows_of(pick):
    """One or more rows of each form; pick gives registers, places and numbers."""
    out = []

    def row(variant, fields, text):
        body = ", ".join(f"{k}: {v}" for k, v in fields)
        out.append((f"XInstr::{variant} {{ {body} }}" if fields else f"XInstr::{variant}", text))

    def pairs(variant, load, mnemonic, to, size, reg_hint=""):
        for r, q in pick.registers():
            row(variant, [("r", reg(r)), ("q", reg(q))], f"{reg_hint}{mnemonic} {to[r]}, {SIZES[size][1][q]}")
        for r, m in pick.places():
            row(load, [("r", reg(r)), ("m", m.rust())], f"{m.hint()}{mnemonic} {to[r]}, {m.text(size)}")

    pairs("MovReg", "MovLoad", "mov", REGS, 64, "{load} ")
    pairs("Mov32Reg", "Mov32Load", "mov", R32, 32, "{load} ")
    for variant, size in (("MovStore", 64), ("Mov32Store", 32), ("Mov16Store", 16), ("Mov8Store", 8)):
        for r, m in pick.places():
            hint = "{rex} " if size == 8 else ""
            row(variant, [("m", m.rust()), ("r", reg(r))], f"{hint}{m.hint()}mov {m.text(size)}, {SIZES[size][1][r]}")
    for kind in ("movzx", "movsx"):
        for size in (8, 16):
            name = kind.capitalize() + str(size)
            pairs(name + "Reg", name + "Load", kind, REGS, size)
    pairs("Movsx32Reg", "Movsx32Load", "movsxd", REGS, 32)
    for r, n in pick.wide_numbers():
        row("MovImm64", [("r", reg(r)), ("imm", n)], f"movabs {REGS[r]}, {n:#x}")
    for r, m in pick.places():
        row("Lea", [("r", reg(r)), ("m", m.rust())], f"{m.hint()}lea {REGS[r]}, {m.text(None)}")
    for name in ("Add", "Or", "And", "Sub", "Xor", "Cmp"):
        for r, q in pick.registers():
            row(name + "Reg", [("q", reg(q)), ("r", reg(r))], f"{name.lower()} {REGS[q]}, {REGS[r]}")
        for q, n in pick.numbers():
            if q == 0 and not -128 <= n <= 127:
                q = 9  # as has a shorter spelling for rax, which is not in the table
            row(name + "Imm", [("q", reg(q)), ("imm", n)], f"{name.lower()} {REGS[q]}, {n}")
    for r, q in pick.registers():
        row("TestReg", [("q", reg(q)), ("r", reg(r))], f"test {REGS[q]}, {REGS[r]}")
        row("ImulReg", [("r", reg(r)), ("q", reg(q))], f"imul {REGS[r]}, {REGS[q]}")
    for name in ("Not", "Neg", "Div", "Idiv"):
        for q in pick.ones():
            row(name + "Reg", [("q", reg(q))], f"{name.lower()} {REGS[q]}")
    row("Cqo", [], "cqo")
    for name in ("Shl", "Shr", "Sar"):
        for q in pick.ones():
            row(name + "Cl", [("q", reg(q))], f"{name.lower()} {REGS[q]}, cl")
            for n in pick.counts():
                row(name + "Imm", [("q", reg(q)), ("imm", n)], f"{name.lower()} {REGS[q]}, {n}")
    for letters, name in CONDITIONS:
        q, n = pick.one(), pick.number()
        row("Setcc", [("c", "Condition::" + name), ("q", reg(q))], f"{{rex}} set{letters} {R8[q]}")
        row("Jcc", [("c", "Condition::" + name), ("rel", n)], f"{{disp32}} j{letters} .+6{n:+d}")
    for _, n in pick.numbers():
        row("JmpRel", [("rel", n)], f"{{disp32}} jmp .+5{n:+d}")
        row("CallRel", [("rel", n)], f"call .+5{n:+d}")
    for name in ("Call", "Jmp"):
        for q in pick.ones():
            row(name + "Reg", [("q", reg(q))], f"{name.lower()} {REGS[q]}")
        for _, m in pick.places():
            row(name + "Mem", [("m", m.rust())], f"{m.hint()}{name.lower()} {m.text(64)}")
    for name in ("Push", "Pop"):
        for r in pick.ones():
            row(name, [("r", reg(r))], f"{name.lower()} {REGS[r]}")
    for name in ("Ret", "Int3", "Ud2"):
        row(name, [], name.lower())
    return out


class Ends:
    """Low and high registers, each mode, and numbers at their ends, in turn."""

    def __init__(self):
        self.turn = 0

    def step(self, xs, k):
        got = [xs[(self.turn + i) % len(xs)] for i in range(k)]
        self.turn += k
        return got

    def registers(self):
        return self.step([(0, 4), (12, 13), (5, 8), (15, 1), (7, 10), (9, 6)], 2)

    def places(self):
        return self.step([(0, Place(3, 0)), (9, Place(4, 127)), (4, Place(13, -128)), (8, Place(12, 128)), (3, Place(None, 4096)),
                          (15, Place(5, -129)), (6, Place(12, 0)), (14, Place(15, MAX)), (2, Place(None, MIN)), (5, Place(4, MIN))], 3)

    def numbers(self):
        return self.step([(4, 32), (12, 127), (1, 128), (0, -128), (15, -129), (6, MAX), (8, MIN)], 2)

    def number(self):
        return self.step([0, 5, -6, MAX, MIN], 1)[0]

    def wide_numbers(self):
        return [(1, 0x1122334455667788), (0, (1 << 64) - 1), (15, 1)]

    def ones(self):
        return self.step([0, 12, 4, 8, 15], 2)

    def one(self):
        return self.step([0, 4, 8, 7, 13], 1)[0]

    def counts(self):
        return self.step([0, 63, 7], 1)


class Random:
    def __init__(self, seed):
        self.random = random.Random(seed)

    def one(self):
        return self.random.randrange(16)

    def number(self):
        bits = self.random.choice([4, 7, 8, 9, 16, 31])
        return max(MIN, min(MAX, self.random.randint(-(1 << bits), 1 << bits)))

    def place(self):
        return Place(None if self.random.random() < 0.15 else self.one(), self.number())

    def registers(self):
        return [(self.one(), self.one()) for _ in range(2)]

    def places(self):
        return [(self.one(), self.place()) for _ in range(3)]

    def numbers(self):
        return [(self.one(), self.number()) for _ in range(2)]

    def wide_numbers(self):
        return [(self.one(), self.random.getrandbits(64))]

    def ones(self):
        return [self.one(), self.one()]

    def counts(self):
        return [self.random.choice([0] + list(range(2, 64)))]  # as has another spelling for 1


def assemble(texts):
    """The bytes of each text, as GNU as gives them."""
    with tempfile.TemporaryDirectory() as folder:
        source, listing = os.path.join(folder, "a.s"), os.path.join(folder, "a.lst")
        with open(source, "w") as f:
            f.write(".intel_syntax noprefix\n" + "".join(t + "\n" for t in texts))
        subprocess.run(["as", f"-aln={listing}", "--listing-lhs-width=8", source, "-o", os.path.join(folder, "a.o")], check=True)
        found = {}
        for line in open(listing):
            m = re.match(r"\s*(\d+) [0-9a-f]{4} ([0-9A-F ]+?)(?:\s{2,}|\t|$)", line)
            if m:
                found.setdefault(int(m.group(1)), "")
                found[int(m.group(1))] += m.group(2).replace(" ", "")
    return [bytes.fromhex(found[i + 2]) for i in range(len(texts))]


def table(rows):
    texts = [t for _, t in rows]
    text = ("//! Spellings as GNU as gives them: made by `tools/x64_vectors.py`.\n\n"
            "use reg_map::registers::X64Reg;\nuse x64_isa::instruction::{Condition, Place, XInstr};\n\n"
            f"pub static SPELLINGS: [(XInstr, &[u8]); {len(rows)}] = [\n")
    for (rust, source), code in zip(rows, assemble(texts)):
        spelled = "".join("\\x%02X" % b for b in code)
        text += f"    // {source}\n    ({rust}, b\"{spelled}\"),\n"
    return text + "];\n"


def main():
    if shutil.which("as") is None:
        print("GNU as is not here: nothing is done", file=sys.stderr)
        return 0
    if "--random" in sys.argv:
        pick, n, rows = Random(1), int(sys.argv[sys.argv.index("--random") + 1]), []
        while len(rows) < n:
            rows += rows_of(pick)
        print(table(rows[:n]), end="")
        return 0
    made = table(rows_of(Ends()))
    if "--check" in sys.argv:
        path = os.path.join(os.path.dirname(__file__), "..", "crates", "isa_rows", "src", "x64_spellings.rt")
        rows = lambda s: s[s.index("static SPELLINGS"):s.index("\n];")]
        squeeze = lambda s: re.sub(r"[\s,]+", "", re.sub(r"//.*", "", rows(s)))
        same = squeeze(open(path).read()) == squeeze(made)
        print("the table is the assembler's" if same else "the table differs")
        return 0 if same else 1
    print(made, end="")
    return 0


sys.exit(main())
