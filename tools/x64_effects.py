#!/usr/bin/env python3
"""Runs x64 instructions on the processor of this machine.

  x64_effects.py rows            prints the rows of crates/isa_rows/src/x64_effects.rt

Each case is one instruction, with rax, rcx, rdx, rbx, the flags and a word of memory before it; GNU as
assembles it, and an x86-64 processor says what these are after it and where the code goes on. Flags that
Intel's manual leaves undefined are given the values that this project fixes. Without GNU as, or on
another processor, it says so and ends with status 0.
"""

import os
import platform
import shutil
import struct
import subprocess
import sys
import tempfile

BUFFER = 0x60000000
CODE = 0x40000000
STACK = 32
MEMORY = bytes((37 * k + 129) % 256 for k in range(64))
MIN, MAX = 1 << 63, (1 << 64) - 1
SAMPLE = 0xFEDCBA9876543210
PAIRS = [(5, 7), (7, 5), (MIN, 1), (MAX, 1), (MIN, MAX), (MIN - 1, 1), (0, 0),
         (0x123456789ABCDEF0, 0x0FEDCBA987654321)]
CONDITIONS = "o no b ae e ne be a s ns l ge le g".split()
CF, ZF, SF, OF = 1, 2, 4, 8


def numbers():
    """Text, rax, rcx, rdx, rbx, and flags as CF + 2 ZF + 4 SF + 8 OF, of the instructions of numbers."""
    rows = []
    for name in ("add", "sub", "cmp"):
        rows += [(name + " rax, rcx", a, b, 0, 0, 15) for a, b in PAIRS]
    for name in ("and", "or", "xor", "test"):
        rows += [(name + " rax, rcx", a, b, 0, 0, 15) for a, b in (PAIRS[0], PAIRS[2], PAIRS[7])]
    for name in ("add", "or", "and", "sub", "xor", "cmp"):
        rows += [("%s rcx, %d" % (name, z), 0, 100, 0, 0, 0) for z in (-128, 100, -0x80000000)]
    rows += [("imul rax, rcx", a, b, 0, 0, 15)
             for a, b in PAIRS[:6] + [(1 << 32, 1 << 31), (1 << 32, (1 << 31) - 1), (MIN, 0)]]
    for name in ("not", "neg"):
        rows += [(name + " rdx", 0, 0, v, 0, 0) for v in (0, 5, MIN, MAX)]
    rows += [("cqo", v, 0, 77, 0, 5) for v in (5, MIN, MAX)]
    for name in ("shl", "shr", "sar"):
        rows += [("%s rdx, cl" % name, 0, n, v, 0, 15)
                 for n in (0, 1, 4, 63, 64, 65, 0x144) for v in (SAMPLE, 3)]
        rows += [("%s rdx, %d" % (name, n), 0, 0, SAMPLE, 0, 0) for n in (2, 63)]
    # C1 by 0 and by 1, which as would spell otherwise
    rows += [(".byte 0x48, 0xC1, 0x%X, %d" % (0xC2 + 8 * n, k), 0, 0, SAMPLE, 0, 15)
             for n in (4, 5, 7) for k in (0, 1)]
    rows += [("div rcx", low, d, high, 0, 15)
             for high, low, d in ((0, 100, 7), (6, 5, 7), (0, MAX, 1), (1, 0, MAX), (MAX - 1, 9, MAX))]
    rows += [("idiv rcx", low, d, high, 0, 15)
             for high, low, d in ((0, 100, 7), (MAX, MAX - 99, 7), (0, 100, MAX - 6),
                                  (MAX, MAX - 99, MAX - 6), (0, 5, 7), (MAX, MIN, 1),
                                  (0xC000000000000000, 5, MIN), (MAX, MAX, MIN))]
    return rows


def ways():
    """The same of the instructions that read the flags, and of those that move or go elsewhere."""
    rows = []
    for c in CONDITIONS:
        rows += [("{rex} set%s dl" % c, 0, 0, SAMPLE, 0, f) for f in (0, CF, ZF + OF, SF)]
        rows += [("{disp32} j%s taken" % c, 0, 0, 0, 0, f) for f in (0, CF + SF, ZF, SF + OF)]
    at = "[rbx+16]"
    rows += [("{load} mov rax, rcx", 1, MAX, 0, 0, 9), ("{load} mov eax, ecx", MAX, SAMPLE, 0, 0, 9),
             ("movabs rax, 0xFEDCBA9876543210", 1, 0, 0, 0, 9)]
    rows += [("%s %s" % (name, at), MAX, 0, 0, BUFFER, 9)
             for name in ("mov rax, qword ptr", "mov eax, dword ptr", "movzx rax, byte ptr",
                          "movzx rax, word ptr", "movsx rax, byte ptr", "movsx rax, word ptr",
                          "movsxd rax, dword ptr", "lea rax,")]
    rows += [("%s ptr %s, %s" % (size, at, r), SAMPLE, 0, 0, BUFFER, 9)
             for size, r in (("mov qword", "rax"), ("mov dword", "eax"), ("mov word", "ax"),
                             ("{rex} mov byte", "al"))]
    rows += [("%s rax, %s" % (name, r), 7, v, 0, 0, 9)
             for name, r in (("movzx", "cl"), ("movzx", "cx"), ("movsx", "cl"), ("movsx", "cx"),
                             ("movsxd", "ecx")) for v in (SAMPLE, 0x89ABCDEF)]
    rows += [("mov rax, qword ptr [rip+buffer+16]", 0, 0, 0, 0, 9),
             ("mov qword ptr [rip+buffer+16], rax", SAMPLE, 0, 0, 0, 9),
             ("lea rax, [rip-77]", 0, 0, 0, 0, 9), ("lea rax, [rbx-128]", 0, 0, 0, 5, 9),
             ("{disp8} mov rax, qword ptr [rsp+0]", 0, 0, 0, 0, 9)]
    rows += [("push rax", SAMPLE, 0, 0, 0, 9), ("push rsp", 0, 0, 0, 0, 9), ("pop rax", 0, 0, 0, 0, 9),
             ("pop rsp", 0, 0, 0, 0, 9)]
    return rows + [("{disp32} jmp taken", 0, 0, 0, 0, 9), ("call taken", 0, 0, 0, 0, 9),
                   ("jmp rax", "taken", 0, 0, 0, 9), ("call rax", "taken", 0, 0, 0, 9),
                   ("jmp qword ptr [rbx+32]", 0, 0, 0, BUFFER, 9),
                   ("call qword ptr [rbx+32]", 0, 0, 0, BUFFER, 9), ("ret", 0, 0, 0, 0, 9)]


def flags_in(f):
    return (f & 1) + ((f >> 1 & 1) << 6) + ((f >> 2 & 1) << 7) + ((f >> 3 & 1) << 11)


def flags_out(r):
    return (r & 1) + (r >> 6 & 1) * 2 + (r >> 7 & 1) * 4 + (r >> 11 & 1) * 8


def goes_by_memory(code):
    return code == "ret" or "[rbx+32]" in code


def program(rows):
    """Code that makes each case and writes what it left."""
    text = [".intel_syntax noprefix", ".text", ".global _start", "_start:", "mov r15, rsp"]
    for k, (code, *registers, flags) in enumerate(rows):
        text += ["mov rax, offset before%s\nmov rcx, offset buffer\n" % ""]
        text += ["mov rdx, [rax+%d]\nmov [rcx+%d], rdx" % (n, n) for n in range(0, 64, 8)]
        if goes_by_memory(code):
            text += ["mov rdx, offset taken%d\nmov [rcx+32], rdx" % k]
        text += ["push %d" % flags_in(flags), "popfq"]
        text += ["movabs %s, %s" % (r, "offset taken%d" % k if v == "taken" else v)
                 for r, v in zip(("rax", "rcx", "rdx", "rbx"), registers)]
        text += ["mov rsp, offset buffer+%d" % STACK, "case%d:" % k, code.replace("taken", "taken%d" % k),
                 "after%d:" % k, "mov r14, 0", "{disp32} jmp out%d" % k, ".skip 9, 0x90",
                 "taken%d:" % k, "mov r14, 1", "out%d:" % k,
                 "mov r13, offset result", "mov [r13], rax", "mov [r13+8], rcx", "mov [r13+16], rdx",
                 "mov [r13+24], rbx", "mov [r13+32], rsp", "mov rsp, r15", "pushfq", "pop rax",
                 "mov [r13+40], rax", "mov [r13+48], r14", "mov rax, [buffer+16]", "mov [r13+56], rax",
                 "mov rax, [buffer+24]", "mov [r13+64], rax",
                 "mov rax, 1", "mov rdi, 1", "mov rsi, r13", "mov rdx, 72", "syscall"]
    text += ["mov rax, 60", "mov rdi, 0", "syscall", ".data", "before:",
             ".byte " + ", ".join(map(str, MEMORY)), "result: .skip 72",
             '.section .buffer, "aw"', "buffer: .skip 4096"]
    return "\n".join(text) + "\n"


def run(rows):
    with tempfile.TemporaryDirectory() as top:
        at = lambda name: os.path.join(top, name)
        with open(at("code.s"), "w") as file:
            file.write(program(rows))
        subprocess.run(["as", "-o", at("code.o"), at("code.s")], check=True)
        subprocess.run(["ld", "-Ttext=%#x" % CODE, "--section-start=.buffer=%#x" % BUFFER,
                        "-o", at("code"), at("code.o")], check=True)
        names = subprocess.run(["nm", at("code")], capture_output=True, text=True, check=True).stdout
        places = {l.split()[2]: int(l.split()[0], 16) for l in names.splitlines()}
        subprocess.run(["objcopy", "-O", "binary", "-j", ".text", at("code"), at("text")], check=True)
        with open(at("text"), "rb") as file:
            image = file.read()
        out = subprocess.run([at("code")], capture_output=True, check=True).stdout
        assert len(out) == 72 * len(rows)
        for k in range(len(rows)):
            start, end = places["case%d" % k], places["after%d" % k]
            yield (start, image[start - CODE:end - CODE], places["taken%d" % k] - start,
                   struct.unpack_from("<9Q", out, 72 * k))


def mended(code, count, before, after):
    """The flags with the values that this project gives to those that the manual leaves undefined."""
    name = code.split()[0]
    if name == "imul":
        return after & (CF + OF)
    if name in ("div", "idiv"):
        return 0
    if name in ("shl", "shr", "sar", ".byte") and count > 1:
        return after & (CF + ZF + SF)
    return after


def rows():
    table = numbers() + ways()
    for case, (place, spelled, far, after) in zip(table, run(table)):
        code, *before, flags = case
        before = [place + far if v == "taken" else v for v in before]
        word = place + far if goes_by_memory(code) else struct.unpack_from("<Q", MEMORY, 32)[0]
        count = before[1] % 64 if "cl" in code else int(code.split(",")[-1], 0) if "," in code and \
            code.split(",")[-1].strip().isdigit() else 0
        left = mended(code, count, flags, flags_out(after[5]))
        way = far if after[6] == 1 else len(spelled)
        row = [place, flags] + before + [word] + list(after[:4]) + [after[4], left, way] + list(after[7:])
        name = ("shl", "shr", None, "sar")[(spelled[2] - 0xC2) // 8 - 4] + " rdx, %d" % spelled[3] \
            if code.startswith(".byte") else code
        print("    // %s\n    (b\"%s\", [%s])," % (name, "".join("\\x%02X" % b for b in spelled),
              ", ".join("%#x" % n if n > 99 else str(n) for n in row)))
    print("%d rows" % len(table), file=sys.stderr)


def main(words):
    missing = [t for t in ("as", "ld", "nm", "objcopy") if shutil.which(t) is None]
    if missing or platform.machine() != "x86_64" or platform.system() != "Linux":
        print("skipped: it needs an x86-64 processor, Linux and GNU binutils")
        return 0
    if words != ["rows"]:
        print(__doc__)
        return 2
    rows()
    return 0


if __name__ == "__main__":
    sys.exit(main(sys.argv[1:]))
