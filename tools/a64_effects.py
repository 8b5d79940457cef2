#!/usr/bin/env python3
"""Runs A64 instructions in an emulator that others wrote.

  a64_effects.py rows            prints the rows of crates/isa_rows/src/a64_effects.rt

Each case is one instruction, with x0 to x3, the flags and 32 bytes of memory before it; GNU as
assembles it, and qemu-aarch64 (packages binutils-aarch64-linux-gnu and qemu-user) says what these
are after it and where the code goes on. Without these programs it says so and ends with status 0.
"""

import os
import random
import shutil
import struct
import subprocess
import sys
import tempfile

AS, LD, NM = ("aarch64-linux-gnu-" + tool for tool in ("as", "ld", "nm"))
BUFFER = 0x60000000
CODE = 0x40000000
MEMORY = bytes((37 * k + 129) % 256 for k in range(32))
MIN, MAX = 1 << 63, (1 << 64) - 1
PAIRS = [(5, 7), (7, 5), (MIN, 1), (MAX, 1), (MIN, MAX), (MIN - 1, 1), (0, 0),
         (0x123456789ABCDEF0, 0x0FEDCBA987654321)]


def cases():
    """The text of an instruction, x0 to x3, and the flags N, Z, C, V as one number."""
    rows = []
    for name in ("adds", "subs"):
        rows += [(name + " x0, x1, x2", 9, a, b, 0, 0) for a, b in PAIRS]
    for name in ("add", "sub", "and", "orr", "eor", "orn"):
        rows += [(name + " x0, x1, x2", 9, a, b, 0, 5) for a, b in (PAIRS[3], PAIRS[7])]
    for name in ("udiv", "sdiv"):
        rows += [(name + " x0, x1, x2", 9, a, b, 0, 3)
                 for a, b in ((100, 7), (MAX - 99, 7), (100, MAX - 6), (100, 0), (MIN, MAX))]
    for name in ("lslv", "lsrv", "asrv"):
        rows += [(name + " x0, x1, x2", 9, 0xFEDCBA9876543210, k, 0, 9) for k in (0, 4, 63, 68)]
    rows += [("add x0, x1, #4095, lsl #12", 0, 1, 0, 0, 0), ("sub x0, x1, #1", 0, 0, 0, 0, 0),
             ("adds x0, x1, #1", 0, MAX, 0, 0, 0), ("subs xzr, x1, #7", 3, 7, 0, 0, 0),
             ("adds xzr, x1, x2", 3, MIN, MIN, 0, 0), ("add x0, xzr, x2", 3, 1, 8, 0, 0)]
    for name in ("madd", "msub"):
        rows += [(name + " x0, x1, x2, x3", 0, 3, 5, 100, 0),
                 (name + " x0, x1, x2, x3", 0, MAX, MAX - 1, 7, 0)]
    rows += [("movz x0, #4660, lsl #32", MAX, 0, 0, 0, 0), ("movk x0, #4660", MAX, 0, 0, 0, 0),
             ("movk x0, #22136, lsl #16", 0x1111222233334444, 0, 0, 0, 0),
             ("movk x0, #22136, lsl #48", MAX, 0, 0, 0, 0), ("movn x0, #1", 0, 0, 0, 0, 0),
             ("movn x0, #65535, lsl #48", 0, 0, 0, 0, 0), ("adr x0, .+20", 0, 0, 0, 0, 0),
             ("adr x0, .-1048576", 0, 0, 0, 0, 0), ("adrp x0, .+8192", 0, 0, 0, 0, 0)]
    for name in ("ubfm", "sbfm"):
        rows += [("%s x0, x1, #%d, #%d" % (name, r, s), 0, 0xF23456789ABCDE81, 0, 0, 0)
                 for r, s in ((0, 63), (0, 7), (4, 63), (60, 59), (8, 3), (56, 7), (63, 0))]
    for name in ("ldr x0", "ldr w0", "ldrh w0", "ldrb w0", "ldrsb x0", "ldrsh x0", "ldrsw x0"):
        rows.append((name + ", [x1, #8]", MAX, BUFFER, 0, 0, 0))
    rows += [("ldrsb x0, [x1]", 0, BUFFER + 9, 0, 0, 0), ("ldrsh x0, [x1]", 0, BUFFER + 15, 0, 0, 0)]
    for name in ("str x0", "str w0", "strh w0", "strb w0"):
        rows.append((name + ", [x1, #8]", 0x1122334455667788, BUFFER, 0, 0, 0))
    rows += [("str xzr, [x1]", 1, BUFFER + 3, 0, 0, 0), ("stp x0, x2, [x1, #8]", 1, BUFFER, 2, 0, 0),
             ("stp x0, x2, [x1, #-16]!", 1, BUFFER + 16, 2, 0, 0),
             ("ldp x0, x2, [x1, #-8]", 1, BUFFER + 16, 2, 0, 0),
             ("ldp x0, x2, [x1], #504", 1, BUFFER, 2, 0, 0), ("ldp x1, x2, [x1]", 1, BUFFER, 2, 0, 0)]
    for k, name in enumerate("eq ne cs cc mi pl vs vc hi ls ge lt gt le".split()):
        rows += [("b.%s .+12" % name, 0, 0, 0, 0, f) for f in (0, 0b0110, 0b1001)]
        rows.append(("csinc x0, x1, x2, " + name, 0, 10, MAX, 0, (5 * k + 2) % 16))
    for name in ("cbz", "cbnz"):
        rows += [(name + " x1, .+12", 0, v, 0, 0, 0) for v in (0, MIN)]
    return rows + [("b .+12", 0, 0, 0, 0, 0), ("nop", 1, 2, 3, 4, 15)]


def program(rows):
    """Code that makes each case and writes x0 to x3, the flags, the way on and the memory."""
    text = [".text", ".global _start", "_start:", "ldr x28, =%d" % BUFFER]
    for k, (code, *registers, flags) in enumerate(rows):
        text += ["ldr x24, =before", "ldp x0, x1, [x24]", "ldp x2, x3, [x24, #16]",
                 "stp x0, x1, [x28]", "stp x2, x3, [x28, #16]"]
        text += ["ldr x%d, =%d" % (r, v) for r, v in enumerate(registers)]
        text += ["ldr x24, =%d" % (flags << 28), "msr nzcv, x24", "case%d:" % k, code,
                 "b 1f", "nop", "mov x23, #12", "b 2f", "1: mov x23, #4", "2: mrs x24, nzcv",
                 "ldr x18, =after", "stp x0, x1, [x18]", "stp x2, x3, [x18, #16]",
                 "stp x24, x23, [x18, #32]", "ldp x0, x1, [x28]", "ldp x2, x3, [x28, #16]",
                 "stp x0, x1, [x18, #48]", "stp x2, x3, [x18, #64]",
                 "mov x0, #1", "mov x1, x18", "mov x2, #80", "mov x8, #64", "svc #0", "b 3f",
                 ".ltorg", "3:"]
    text += ["mov x0, #0", "mov x8, #93", "svc #0", ".ltorg", ".balign 8", "before:",
             ".byte " + ", ".join(map(str, MEMORY)), ".section .buffer, \"aw\"", ".skip 4096",
             ".data", "after: .skip 80"]
    return "\n".join(text) + "\n"


def run(rows):
    with tempfile.TemporaryDirectory() as top:
        at = lambda name: os.path.join(top, name)
        with open(at("code.s"), "w") as file:
            file.write(program(rows))
        subprocess.run([AS, "-o", at("code.o"), at("code.s")], check=True)
        subprocess.run([LD, "-Ttext=%#x" % CODE, "--section-start=.buffer=%#x" % BUFFER,
                        "-o", at("code"), at("code.o")], check=True)
        names = subprocess.run([NM, at("code")], capture_output=True, text=True, check=True).stdout
        places = {l.split()[2]: int(l.split()[0], 16) for l in names.splitlines()}
        with open(at("code"), "rb") as file:
            image = file.read()
        out = subprocess.run(["qemu-aarch64", at("code")], capture_output=True, check=True).stdout
        offset = struct.unpack_from("<Q", image, struct.unpack_from("<Q", image, 32)[0] + 8)[0]
        start = struct.unpack_from("<Q", image, struct.unpack_from("<Q", image, 32)[0] + 16)[0]
        for k in range(len(rows)):
            place = places["case%d" % k]
            word = struct.unpack_from("<I", image, place - start + offset)[0]
            yield place, word, struct.unpack_from("<10Q", out, 80 * k)


def rows():
    table = cases()
    for case, (place, word, after) in zip(table, run(table)):
        code, *before, flags = case
        way = 12 if after[5] == 12 else 4
        numbers = [place, word, flags] + before + list(after[:4]) + [after[4] >> 28, way]
        numbers += list(after[6:])
        print("    // %s\n    [%s]," % (code, ", ".join("%#x" % n if n > 99 else str(n) for n in numbers)))
    print("%d rows" % len(table), file=sys.stderr)


def main(words):
    missing = [t for t in (AS, LD, NM, "qemu-aarch64") if shutil.which(t) is None]
    if missing:
        print("skipped: there is no " + ", ".join(missing))
        return 0
    if words != ["rows"]:
        print(__doc__)
        return 2
    rows()
    return 0


if __name__ == "__main__":
    sys.exit(main(sys.argv[1:]))
