#!/usr/bin/env python3
"""Compares the crate `a64_isa` with assemblers that others wrote.

  a64_vectors.py rows            prints the rows of the table in crates/isa_rows/src/a64_words.rt
  a64_vectors.py compare [N] [SEED]
                                 N words (20,000 by default): what `decode` says of each, and the
                                 word that `encode` gives back, against GNU objdump's text

A word's text comes from `aarch64-linux-gnu-objdump` (package binutils-aarch64-linux-gnu); where
`llvm-mc` (package llvm) is there too, it assembles each text of `rows` and has to give the word
again. This file has the syntax of the texts alone: which words are instructions, and which, is
what the tools say. Without objdump it says so and ends with status 0.
"""

import os
import random
import re
import shutil
import struct
import subprocess
import sys
import tempfile

OBJDUMP = "aarch64-linux-gnu-objdump"
ROOT = os.path.dirname(os.path.dirname(os.path.abspath(__file__)))
CONDITIONS = {
    "eq": "Equal", "ne": "NotEqual", "cs": "CarrySet", "cc": "CarryClear", "mi": "Minus",
    "pl": "Plus", "vs": "Overflow", "vc": "NoOverflow", "hi": "Higher", "ls": "LowerOrSame",
    "ge": "GreaterOrEqual", "lt": "Less", "gt": "Greater", "le": "LessOrEqual",
}
SHIFTED = {"add": "Add", "sub": "Sub", "adds": "Adds", "subs": "Subs"}
LOGICAL = {"and": "And", "orr": "Orr", "eor": "Eor", "orn": "Orn"}
BINARY = {"udiv": "Udiv", "sdiv": "Sdiv", "lslv": "Lslv", "lsrv": "Lsrv", "asrv": "Asrv",
          "lsl": "Lslv", "lsr": "Lsrv", "asr": "Asrv"}
MEMORY = {"ldr x": ("LdrX", 8), "str x": ("StrX", 8), "ldr w": ("LdrW", 4), "str w": ("StrW", 4),
          "ldrh w": ("Ldrh", 2), "strh w": ("Strh", 2), "ldrb w": ("Ldrb", 1),
          "strb w": ("Strb", 1), "ldrsb x": ("Ldrsb", 1), "ldrsh x": ("Ldrsh", 2),
          "ldrsw x": ("Ldrsw", 4)}


def texts_of(words):
    """What objdump writes of each word, the word at place k standing at address 4 k."""
    with tempfile.NamedTemporaryFile(suffix=".bin") as file:
        file.write(struct.pack("<%dI" % len(words), *words))
        file.flush()
        out = subprocess.run(
            [OBJDUMP, "-D", "-z", "-b", "binary", "-m", "aarch64", "-M", "no-aliases", file.name],
            capture_output=True, text=True, check=True).stdout
    texts = {}
    for line in out.splitlines():
        found = re.match(r"\s*([0-9a-f]+):\t([0-9a-f]{8}) \t(.*)$", line)
        if found:
            texts[int(found[1], 16)] = found[3]
    return [texts[4 * k] for k in range(len(words))]


def number(text):
    """`#N`, or nothing."""
    found = re.fullmatch(r"#(-?(?:0x[0-9a-f]+|[0-9]+))", text)
    return int(found[1], 0) if found else None


def register(text, size="x", last="zr"):
    """The number of a register of this size, where 31 is spelled `xzr` or `sp`."""
    if text == ("sp" if last == "sp" else size + last):
        return 31
    found = re.fullmatch(size + r"([0-9]|[12][0-9]|30)", text)
    return int(found[1]) if found else None


def made(form, **operands):
    """A form with its operands, or nothing where one of them is none."""
    return None if any(v is None for v in operands.values()) else (form, operands)


def parts_of(operands):
    """The operands of a text, brackets kept whole."""
    return [p.strip() for p in re.split(r",(?![^\[]*\])", operands)] if operands else []


def base_and_offset(text):
    """`[n]` and `[n, #N]`."""
    found = re.fullmatch(r"\[(\w+)(?:, (#-?\w+))?\]", text)
    if not found:
        return None, None
    return register(found[1], last="sp"), number(found[2] or "#0")


def memory_form(name, ops):
    size = ops[0][0] if ops else ""
    form, unit = MEMORY.get(name + " " + size, (None, 1))
    if form is None or len(ops) != 2:
        return None
    n, offset = base_and_offset(ops[1])
    if offset is None or offset < 0 or offset % unit:
        return None
    return made(form, t=register(ops[0], size), n=n, offset=offset // unit)


def pair_form(name, ops):
    if len(ops) not in (3, 4):
        return None
    form, place = {"stp": "Stp", "ldp": "Ldp"}[name], ops[2]
    if len(ops) == 4:
        if name == "stp":
            return None
        form, moved = "LdpPost", number(ops[3])
        n, offset = base_and_offset(place)
        offset = moved if offset == 0 else None
    elif place.endswith("!"):
        if name == "ldp":
            return None
        form = "StpPre"
        n, offset = base_and_offset(place[:-1])
    else:
        n, offset = base_and_offset(place)
    t, t2 = register(ops[0]), register(ops[1])
    if n is None or offset is None or t is None or t2 is None:
        return None
    apart = form in ("Stp", "Ldp") or n == 31 or n not in (t, t2)
    if not apart or (name == "ldp" and t == t2):
        return None  # unpredictable, as llvm-mc's warnings say; see `rows`
    return made(form, t=t, n=n, t2=t2, offset=offset // 8)


def sum_form(name, ops):
    flags = name.endswith("s")
    immediate = len(ops) in (3, 4) and ops[2].startswith("#")
    if immediate:
        shifted = len(ops) == 4
        if shifted and ops[3] != "lsl #12":
            return None
        d = register(ops[0], last="zr" if flags else "sp")
        return made(SHIFTED[name] + "Immediate", d=d, n=register(ops[1], last="sp"),
                    imm=number(ops[2]), shift12=shifted)
    return three(SHIFTED[name] + "Register", ops)


def three(form, ops):
    if len(ops) != 3:
        return None
    return made(form, d=register(ops[0]), n=register(ops[1]), m=register(ops[2]))


def form_of(text, place):
    """The form of the table that a text is, with its operands; nothing for other texts."""
    text = re.split(r"\s*(?://|;)", text)[0].strip()
    name, _, rest = text.partition("\t")
    ops = parts_of(rest.strip())
    target = int(ops[-1], 16) if ops and re.fullmatch(r"0x[0-9a-f]+", ops[-1]) else None
    hop = None if target is None else (((target - place + 2**63) % 2**64) - 2**63) // 4
    if name in SHIFTED:
        return sum_form(name, ops)
    if name in LOGICAL:
        return three(LOGICAL[name] + "Register", ops)
    if name in BINARY:
        return three(BINARY[name], ops)
    if name in ("madd", "msub") and len(ops) == 4:
        return made(name.capitalize(), d=register(ops[0]), n=register(ops[1]),
                    a=register(ops[3]), m=register(ops[2]))
    if name in ("movz", "movk", "movn") and len(ops) in (2, 3):
        shift = number(ops[2].replace("lsl ", "")) if len(ops) == 3 else 0
        return made(name.capitalize(), d=register(ops[0]), imm=number(ops[1]), hw=shift // 16)
    if name == "adr" and target is not None:
        return made("Adr", d=register(ops[0]), offset=(target - place + 2**63) % 2**64 - 2**63)
    if name == "adrp" and target is not None:
        pages = ((target - place // 4096 * 4096 + 2**63) % 2**64 - 2**63) // 4096
        return made("Adrp", d=register(ops[0]), offset=pages)
    if name in ("ldp", "stp"):
        return pair_form(name, ops)
    if name.startswith(("ldr", "str")):
        return memory_form(name, ops)
    if name in ("b", "bl") and len(ops) == 1:
        return made(name.capitalize(), offset=hop)
    if name.startswith("b.") and len(ops) == 1:
        return made("BCond", condition=CONDITIONS.get(name[2:]), offset=hop)
    if name in ("cbz", "cbnz") and len(ops) == 2:
        return made(name.capitalize(), t=register(ops[0]), offset=hop)
    if name in ("br", "blr", "ret"):
        n = register(ops[0]) if ops else 30
        return made(name.capitalize(), n=None if n == 31 else n)
    if name == "csinc" and len(ops) == 4:
        return made("Csinc", d=register(ops[0]), n=register(ops[1]),
                    condition=CONDITIONS.get(ops[3]), m=register(ops[2]))
    if name in ("ubfm", "sbfm") and len(ops) == 4:
        return made(name.capitalize(), d=register(ops[0]), n=register(ops[1]),
                    imms=number(ops[3]), immr=number(ops[2]))
    if name == "nop" or (name == "hint" and ops == ["#0x0"]):
        return made("Nop")
    if name == "brk" and len(ops) == 1:
        return made("Brk", imm=number(ops[0]))
    return None


def shown(form):
    """A form as Rust's `{:?}` prints it."""
    if form is None:
        return "none"
    name, operands = form
    fields = []
    for field, value in operands.items():
        if field in ("d", "n", "m", "a", "t", "t2"):
            value = "A64Reg(%d)" % value
        elif isinstance(value, bool):
            value = str(value).lower()
        fields.append("%s: %s" % (field, value))
    return name + " { " + ", ".join(fields) + " }" if fields else name


def written(form):
    """A form as a value of Rust."""
    text = shown(form).replace("condition: ", "condition: Condition::")
    return "AInstr::" + text


# Where the bits of operands may stand in words near the table: a base, and its free bits.
BASES = [
    (0x91000000, 0x007FFFFF), (0xD1000000, 0x007FFFFF), (0xB1000000, 0x007FFFFF),
    (0xF1000000, 0x007FFFFF), (0x8B000000, 0x001F03FF), (0xCB000000, 0x001F03FF),
    (0xAB000000, 0x001F03FF), (0xEB000000, 0x001F03FF), (0x8A000000, 0x001F03FF),
    (0xAA000000, 0x001F03FF), (0xCA000000, 0x001F03FF), (0xAA200000, 0x001F03FF),
    (0x9AC00800, 0x001F03FF), (0x9AC00C00, 0x001F03FF), (0x9AC02000, 0x001F03FF),
    (0x9AC02400, 0x001F03FF), (0x9AC02800, 0x001F03FF), (0x9B000000, 0x001F7FFF),
    (0x9B008000, 0x001F7FFF), (0xD2800000, 0x007FFFFF), (0xF2800000, 0x007FFFFF),
    (0x92800000, 0x007FFFFF), (0x10000000, 0x60FFFFFF), (0x90000000, 0x60FFFFFF),
    (0xF9400000, 0x003FFFFF), (0xF9000000, 0x003FFFFF), (0xB9400000, 0x003FFFFF),
    (0xB9000000, 0x003FFFFF), (0x79400000, 0x003FFFFF), (0x79000000, 0x003FFFFF),
    (0x39400000, 0x003FFFFF), (0x39000000, 0x003FFFFF), (0x39800000, 0x003FFFFF),
    (0x79800000, 0x003FFFFF), (0xB9800000, 0x003FFFFF), (0xA9000000, 0x003FFFFF),
    (0xA9400000, 0x003FFFFF), (0xA9800000, 0x003FFFFF), (0xA8C00000, 0x003FFFFF),
    (0x14000000, 0x03FFFFFF), (0x94000000, 0x03FFFFFF), (0x54000000, 0x00FFFFEF),
    (0xB4000000, 0x00FFFFFF), (0xB5000000, 0x00FFFFFF), (0xD61F0000, 0x000003E0),
    (0xD63F0000, 0x000003E0), (0xD65F0000, 0x000003E0), (0x9A800400, 0x001FF3FF),
    (0xD3400000, 0x003FFFFF), (0x93400000, 0x003FFFFF), (0xD503201F, 0x00000000),
    (0xD4200000, 0x001FFFE0),
]


def chosen_words(count, seed):
    """Half words with operands at random, a quarter of these with one bit turned, a quarter any."""
    rng, words = random.Random(seed), []
    for k in range(count):
        base, free = rng.choice(BASES)
        word = base | (rng.getrandbits(32) & free)
        if k % 7 == 0:
            word |= 0x3E0 & free  # n is 31
        if k % 11 == 0:
            word |= 0x1F & free  # d or t is 31
        if k % 4 == 2:
            word ^= 1 << rng.randrange(32)
        if k % 4 == 3:
            word = rng.getrandbits(32)
        words.append(word)
    return words


READER = """// Prints what each word of the input is, and the word that it encodes to again.
#![tactic(auto)]

use a64_isa::words::{decode, encode};
use std::io;

fn main(rt: HostRuntime) -> io::Result<()> {
    for line in rt.lines(rt.alloc()) {
        let text = line?;
        if let Ok(word) = u32::from_str_radix(text.as_str(), 16) {
            match decode(word) {
                Some(i) => {
                    let again = encode(&i);
                    println!(rt; "{again:08x} {i:?}")?
                },
                None => println!(rt; "{word:08x} none")?,
            }
        }
    }
    Ok(())
}
"""


def read_by_crate(words):
    """What the crate says of each word: the word again, and the instruction."""
    with tempfile.TemporaryDirectory() as top:
        crates = os.path.join(top, "crates")
        for name in ("hx_words", "hx_bits", "reg_map", "a64_isa"):
            shutil.copytree(os.path.join(ROOT, "crates", name), os.path.join(crates, name),
                            ignore=shutil.ignore_patterns("out", "must-fail"))
        source = os.path.join(crates, "a64_reader", "src")
        os.makedirs(source)
        with open(os.path.join(source, "main.rt"), "w") as file:
            file.write(READER)
        with open(os.path.join(crates, "a64_reader", "stdin"), "w") as file:
            file.write("".join("%08x\n" % w for w in words))
        with open(os.path.join(top, "crates.txt"), "w") as file:
            with open(os.path.join(ROOT, "crates.txt")) as listed:
                for line in listed:
                    if line.split(":")[0] in ("hx_words", "hx_bits", "reg_map", "a64_isa"):
                        file.write(line)
            file.write("a64_reader: a64_isa\n")
        with open(os.path.join(crates, "a64_reader", "stdin")) as given:
            done = subprocess.run(["rt", "try"], cwd=os.path.join(crates, "a64_reader"),
                                  stdin=given, capture_output=True, text=True)
    lines = [l for l in done.stdout.splitlines() if re.match(r"[0-9a-f]{8} (none|[A-Z])", l)]
    if len(lines) != len(words):
        sys.exit("the crate answered %d of %d words:\n%s%s"
                 % (len(lines), len(words), done.stdout[-2000:], done.stderr[-2000:]))
    return lines


def compare(count, seed):
    words = chosen_words(count, seed)
    texts, wrong, inside, forms = texts_of(words), 0, 0, set()
    for k, (word, text, line) in enumerate(zip(words, texts, read_by_crate(words))):
        form = form_of(text, 4 * k)
        want = "%08x %s" % (word, shown(form))
        inside += form is not None
        if form:
            forms.add(form[0])
        if line != want:
            wrong += 1
            print("%08x %r: the crate says %r, wanted %r" % (word, text, line, want))
    print("%d words, %d of the table, of %d forms, %d answers differ"
          % (len(words), inside, len(forms), wrong))
    return wrong != 0


def assembled(text, place):
    """The word that llvm-mc gives for objdump's text."""
    plain = re.split(r"\s*(?://|;)", text)[0].strip()
    target = re.search(r"(?<![#\w])0x([0-9a-f]+)$", plain)
    if target:
        distance = (int(target[1], 16) - place + 2**63) % 2**64 - 2**63
        if plain.startswith("adrp"):
            pages = (int(target[1], 16) - place // 4096 * 4096 + 2**63) % 2**64 - 2**63
            distance = pages
        plain = plain[:target.start()] + "#%d" % distance
    done = subprocess.run(["llvm-mc", "-triple=aarch64", "--show-encoding"], input=plain + "\n",
                          capture_output=True, text=True)
    found = re.search(r"encoding: \[([^\]]*)\]", done.stdout)
    if not found or "A" in found[1]:
        return None
    return int.from_bytes(bytes(int(b, 16) for b in found[1].split(",")), "little")


def is_unpredictable(word):
    """Whether llvm-mc warns of a word that it reads."""
    data = " ".join("0x%02x" % b for b in struct.pack("<I", word))
    done = subprocess.run(["llvm-mc", "--disassemble", "-triple=aarch64"], input=data,
                          capture_output=True, text=True)
    return "potentially undefined" in done.stderr


def row_words():
    """Words for the table of the test: each form at its corners, and words just outside."""
    rng, words = random.Random(64), [0x91004020, 0xD65F03C0]
    for base, free in BASES:
        for pattern in (rng.getrandbits(32), rng.getrandbits(32), 0xFFFFFFFF):
            words.append(base | (pattern & free))
    words += [0, 0xFFFFFFFF, 0xA9400400, 0xA9400000, 0xA8C10401, 0xA8C10420, 0xA8C107E0,
              0xA9810401, 0xA9810420, 0xA98107E0, 0x5400000E, 0x5400000F, 0x54000010, 0x9A80E400,
              0x9A80F400, 0xD61F03E0, 0xD63F03E0, 0xD65F03E0, 0x11004020, 0x8B010C20, 0x8B210020,
              0xF8408420, 0xA8810420, 0xA9C10420, 0xD503203F, 0xD4000001, 0x9B210000, 0xD3000000,
              0x1B000000, 0xF2C00000, 0x17FFFFFF, 0x97FFFFFF, 0x54FFFFED, 0xA97F8420, 0x70FFFFFF,
              0xF0FFFFFF]
    return list(dict.fromkeys(words))


def rows():
    words, has_llvm, checked, outside = row_words(), shutil.which("llvm-mc"), 0, 0
    for k, (word, text) in enumerate(zip(words, texts_of(words))):
        form = form_of(text, 4 * k)
        if form and has_llvm:
            again = assembled(text, 4 * k)
            if again != word:
                sys.exit("%08x: llvm-mc assembles %r to %s" % (word, text, again))
            checked += 1
        if has_llvm and word >> 22 in (0x2A5, 0x2A6, 0x2A3):  # LDP, STP pre, LDP post
            if is_unpredictable(word) != (form is None):
                sys.exit("%08x: llvm-mc judges %r otherwise" % (word, text))
        outside += form is None
        plain = re.sub(r"\s+", " ", re.split(r"\s*(?://|;)", text)[0].strip())
        hop = form and form[1].get("offset")
        if form and form[0] in ("B", "Bl", "BCond", "Cbz", "Cbnz", "Adr", "Adrp"):
            scale = {"Adr": 1, "Adrp": 4096}.get(form[0], 4)
            plain = re.sub(r"0x[0-9a-f]+$", ".%+d" % (hop * scale), plain)
        value = "None" if form is None else "Some(%s)" % written(form)
        print('    // %s\n    0x%04X_%04X => %s,' % (plain, word >> 16, word & 0xFFFF, value))
    print("%d rows, %d outside the table, %d assembled again by llvm-mc"
          % (len(words), outside, checked), file=sys.stderr)


def main(words):
    if shutil.which(OBJDUMP) is None:
        print("skipped: there is no " + OBJDUMP)
        return 0
    if words[:1] == ["rows"]:
        rows()
        return 0
    if words[:1] == ["compare"]:
        count = int(words[1]) if len(words) > 1 else 20000
        return compare(count, int(words[2]) if len(words) > 2 else 1)
    print(__doc__)
    return 2


if __name__ == "__main__":
    sys.exit(main(sys.argv[1:]))
