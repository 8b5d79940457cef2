#!/usr/bin/env python3
"""Compares where calls put their values with a compiler that others wrote.

  clang_placement.py [N] [SEED]  N signatures (200 by default) of integers and structs of 1 to 40 bytes

For each signature clang-19 compiles a callee that copies its arguments out and a caller that reads them
from memory, for `arm64ec-pc-windows-msvc` and for `x86_64-pc-windows-msvc`. Both run here, under
qemu-aarch64 and as they are: the callee is entered with each value at the place that this file's reading of
`sig_core` gives it, with garbage in the bytes that don't count, and has to copy and give back the right
bytes; the caller calls a probe, which finds each value at its place. The names of thunks that clang writes
are compared with the code of the signature. Packages clang-19, llvm-19, lld-19 and qemu-user; without them
it says so and ends with status 0.

What differs is this project's profile, and stands in docs/CALLS.md: clang's names tell the places of values
and not their types. The names that are alike only so are counted, and the pointers on x64 to copies that
clang doesn't put at a multiple of 16.
"""

import os
import random
import re
import shutil
import struct
import subprocess
import sys
import tempfile

CLANG, LD, NM = "clang-19", "ld.lld-19", "llvm-nm-19"
WORDS = [("signed char", 1), ("unsigned short", 2), ("int", 4), ("long long", 8), ("void *", 8)]
SIZE = 1024        # bytes of each area below
RECORD = "<II9Q2QII%ds%ds%ds" % (SIZE, SIZE, SIZE)
ANSWER = "<10Q2Q%ds%ds%ds" % (SIZE, SIZE, 2 * SIZE)

MAIN = r"""
typedef unsigned long long u64; typedef unsigned int u32;
struct record { u32 at, caller; u64 regs[9], back[2]; u32 hidden_size, hidden_reg;
  char stack[1024], in[1024], copies[1024]; };
struct answer { u64 regs[9], sp, got[2]; char out[1024], hidden[1024], stack[2048]; };
__attribute__((aligned(64))) char in_bytes[1024], out_bytes[1024], copies[1024], hidden[1024];
static struct record r; static struct answer a; u64 back[2], got[2];
extern u64 (*const callees[])(void), (*const callers[])(void);
void call_it(void *f, u64 *regs, char *stack);
void *memcpy(void *to, const void *from, u64 n) {
  char volatile *t = to; const char *f = from; while (n--) *t++ = *f++; return to; }
void *memset(void *to, int b, u64 n) { char volatile *t = to; while (n--) *t++ = b; return to; }
void probe_c(u64 *regs, char *sp) {
  memcpy(a.regs, regs, sizeof a.regs); a.sp = (u64)sp; memcpy(a.stack, sp, sizeof a.stack);
  if (r.hidden_size) memcpy((void *)regs[r.hidden_reg], in_bytes, r.hidden_size);
}
static long call(long number, long x, void *p, long n) {
#ifdef __aarch64__
  register long x8 __asm__("x8") = number, x0 __asm__("x0") = x, x2 __asm__("x2") = n;
  register void *x1 __asm__("x1") = p;
  __asm__ volatile("svc 0" : "+r"(x0) : "r"(x8), "r"(x1), "r"(x2) : "memory"); return x0;
#else
  __asm__ volatile("syscall" : "+a"(number) : "D"(x), "S"(p), "d"(n) : "rcx", "r11", "memory"); return number;
#endif
}
#ifdef __aarch64__
enum { READ = 63, WRITE = 64, EXIT = 93 };
#else
enum { READ = 0, WRITE = 1, EXIT = 60 };
#endif
static int whole(long number, long file, char *p, long n) {
  while (n) { long k = call(number, file, p, n); if (k <= 0) return 0; p += k; n -= k; } return 1; }
void start_c(void) {
  while (whole(READ, 0, (char *)&r, sizeof r)) {
    memset(&a, 0, sizeof a); memset(out_bytes, 0, 1024); memset(hidden, 0, 1024);
    memcpy(in_bytes, r.in, 1024); memcpy(copies, r.copies, 1024); memcpy(back, r.back, 16);
    call_it(r.caller ? callers[r.at] : callees[r.at], r.regs, r.stack);
    memcpy(a.got, got, 16); memcpy(a.out, out_bytes, 1024); memcpy(a.hidden, hidden, 1024);
    if (!whole(WRITE, 1, (char *)&a, sizeof a)) break;
  }
  call(EXIT, 0, 0, 0);
}
"""

EC_GLUE = r"""
.text
.globl _start
_start: sub sp, sp, #8192
  b start_c
.globl probe
probe: stp x29, x30, [sp, #-112]!
  stp x0, x1, [sp, #16]
  stp x2, x3, [sp, #32]
  stp x4, x5, [sp, #48]
  stp x6, x7, [sp, #64]
  str x8, [sp, #80]
  add x0, sp, #16
  add x1, sp, #112
  bl probe_c
  adrp x9, back
  add x9, x9, :lo12:back
  ldp x0, x1, [x9]
  ldp x29, x30, [sp], #112
  ret
.globl call_it
call_it: stp x29, x30, [sp, #-112]!
  stp x19, x20, [sp, #16]
  stp x21, x22, [sp, #32]
  stp x23, x24, [sp, #48]
  stp x25, x26, [sp, #64]
  stp x27, x28, [sp, #80]
  mov x29, sp
  sub sp, sp, #1024
  mov x9, #0
1: ldr x10, [x2, x9]
  str x10, [sp, x9]
  add x9, x9, #8
  cmp x9, #1024
  b.lo 1b
  mov x16, x0
  mov x17, x1
  ldp x0, x1, [x17]
  ldp x2, x3, [x17, #16]
  ldp x4, x5, [x17, #32]
  ldp x6, x7, [x17, #48]
  ldr x8, [x17, #64]
  cbnz x4, 2f
  mov x4, sp
2: blr x16
  adrp x9, got
  add x9, x9, :lo12:got
  stp x0, x1, [x9]
  mov sp, x29
  ldp x19, x20, [sp, #16]
  ldp x21, x22, [sp, #32]
  ldp x23, x24, [sp, #48]
  ldp x25, x26, [sp, #64]
  ldp x27, x28, [sp, #80]
  ldp x29, x30, [sp], #112
  ret
"""

# the registers go by their Arm64 numbers here too: rcx, rdx, r8 and r9 are 0 to 3, rax is 8
X64_GLUE = r"""
.text
.intel_syntax noprefix
.globl _start
_start: sub rsp, 8192
  and rsp, -16
  call start_c
.globl probe
probe: push rbp
  mov rbp, rsp
  push rsi
  push rdi
  sub rsp, 80
  mov [rsp], rcx
  mov [rsp+8], rdx
  mov [rsp+16], r8
  mov [rsp+24], r9
  mov rdi, rsp
  lea rsi, [rbp+16]
  call probe_c
  mov rax, [rip+back]
  lea rsp, [rbp-16]
  pop rdi
  pop rsi
  pop rbp
  ret
.globl call_it
call_it: push rbp
  mov rbp, rsp
  push rbx
  push r12
  push r13
  push r14
  push r15
  sub rsp, 1032
  xor eax, eax
1: mov rcx, [rdx+rax]
  mov [rsp+rax], rcx
  add rax, 8
  cmp rax, 1024
  jb 1b
  mov rax, rdi
  mov r10, rsi
  mov rcx, [r10]
  mov rdx, [r10+8]
  mov r8, [r10+16]
  mov r9, [r10+24]
  call rax
  mov [rip+got], rax
  lea rsp, [rbp-40]
  pop r15
  pop r14
  pop r13
  pop r12
  pop rbx
  pop rbp
  ret
.att_syntax
"""


# ---- this file's reading of sig_core

def by_pointer(c):
    return isinstance(c, int) and c not in (1, 2, 4, 8)


def code(c):
    return "i8" if c == "word" else "v" if c == "void" else "m%d" % c


def code_of(result, args, variadic):
    return code(result) + "$" + ("".join(map(code, args)) or "v") + ("$varargs" if variadic else "")


def in_slots(result, args, first, back):
    places, slot = [], int(by_pointer(result))
    for c in args:
        if slot < 4:
            places.append(("RegPointer", slot) if by_pointer(c) else ("Reg", slot, 1))
        else:
            at = 8 * (slot - first)
            places.append(("StackPointer", at) if by_pointer(c) else ("Stack", at, 1))
        slot += 1
    return places, back, 8 * (slot - first) if slot > 4 else 0


def place_x64(result, args):
    back = ("Nothing",) if result == "void" else ("Hidden", 0) if by_pointer(result) else ("Regs", 8, 1)
    return in_slots(result, args, 0, back)


def place_ec_variadic(result, args):
    return in_slots(result, args, 4, ("Nothing",) if result == "void" else ("Regs", 0, 1))


def place_ec(result, args):
    places, total, stack = [], 0, 0
    for c in args:
        large = c != "word" and c > 16
        words = 1 if c == "word" or large else (c + 7) // 8
        total += words
        if total <= 8:
            places.append(("RegPointer", total - words) if large else ("Reg", total - words, words))
        else:
            places.append(("StackPointer", stack) if large else ("Stack", stack, words))
            stack += 8 * words
    if result == "void":
        return places, ("Nothing",), stack
    if result != "word" and result > 16:
        return places, ("Hidden", 8), stack
    return places, ("Regs", 0, 1 if result == "word" else (result + 7) // 8), stack


# ---- signatures and their C

class Signature:
    def __init__(self, draw, variadic):
        def value(structs):
            if draw.random() < 0.55:
                name, size = draw.choice(WORDS)
                return "word", name, size
            size = draw.choice(structs)
            return size, "struct s%d" % size, size
        self.variadic = variadic
        # clang passes other fixed structs of a variadic Arm64EC function as if it weren't one
        sizes = [1, 2, 4, 8] + list(range(17, 41)) if variadic else range(1, 41)
        self.args = [value(sizes) for _ in range(draw.randrange(0, 13))]
        self.result = draw.choice([("void", "void", 0), value([1, 2, 4, 8] if variadic else range(1, 41))])
        self.extras = draw.randrange(0, 9) if variadic else 0
        if variadic:
            self.args.append(("word", "int", 4))
        self.all = self.args + [("word", "long long", 8)] * self.extras
        self.classes = [c for c, _, _ in self.all]
        self.code = code_of(self.result[0], [c for c, _, _ in self.args], variadic)

    def texts(self, k):
        rest = ", ..." if self.variadic else ""
        head = "%s %%s_%d(%s%s)" % (self.result[1], k, ", ".join(
            "%s a%d" % (t, i) for i, (_, t, _) in enumerate(self.args)) or "void", rest)
        take, call, at = [], [], 0
        for i, (_, t, n) in enumerate(self.all):
            if i < len(self.args):
                take.append("memcpy(out_bytes + %d, &a%d, %d);" % (at, i, n))
            else:
                take.append("{ long long x = va_arg(ap, long long); memcpy(out_bytes + %d, &x, 8); }" % at)
            call.append("%s a%d; memcpy(&a%d, in_bytes + %d, %d);" % (t, i, i, at, n))
            at += n
        if self.variadic:
            take = ["va_list ap; va_start(ap, a%d);" % (len(self.args) - 1)] + take + ["va_end(ap);"]
        give, keep = "", "%s"
        if self.result[2]:
            give = "%s r; memcpy(&r, in_bytes, %d); return r;" % self.result[1:]
            keep = self.result[1] + " r = %%s memcpy(out_bytes, &r, %d);" % self.result[2]
        names = ", ".join("a%d" % i for i in range(len(self.all)))
        return "%s { %s %s }\n%s;\nvoid caller_%d(void) { %s %s }\n" % (
            head % "callee", " ".join(take), give, head % "target", k, " ".join(call),
            keep % ("target_%d(%s);" % (k, names)))


def source(signatures):
    text = "#define memcpy __builtin_memcpy\n#include <stdarg.h>\nextern char in_bytes[], out_bytes[];\n"
    text += "".join("struct s%d { char b[%d]; };\n" % (n, n) for n in range(1, 41))
    return text + "".join(s.texts(k) for k, s in enumerate(signatures))


# ---- from clang's text for Windows to a program that runs here

def bodies(text):
    """The code of the callees and callers, with names that an ELF assembler takes."""
    lines, inside = [], False
    for line in text.splitlines():
        label = re.match(r'^"?#?(call(?:ee|er)_\d+)"?:', line)
        if label:
            inside = True
            lines.append(label[1] + ":")
        elif "-- End function" in line:
            inside = False
        elif inside and re.match(r"^(\.L\w+:|\t[^.])", line):
            lines.append(re.sub(r'"#(\w+)"', r"\1", line))
    return "\n".join(lines) + "\n"


def thunks(text):
    """The name of the thunk of each symbol, by the rows of .hybmp$x."""
    rows = re.findall(r'\.symidx\s+"?([^"\s]+)"?\s+\.symidx\s+"?([^"\s]+)"?\s+\.word\s+(\d)', text)
    return {(source, kind): thunk for source, thunk, kind in rows}


def compiled(folder, target, unit):
    out = os.path.join(folder, target + ".s")
    subprocess.run([CLANG, "--target=%s-pc-windows-msvc" % target, "-O1", "-w", "-S",
                    "-fno-stack-protector", "-x", "c", "-", "-o", out], input=unit, text=True, check=True)
    with open(out) as file:
        return file.read()


def program(folder, machine, text, glue, count):
    table = "".join(".set target_%d, probe\n" % k for k in range(count)) + ".data\n.p2align 3\n"
    for name in ("callee", "caller"):
        table += ".globl %ss\n%ss:\n" % (name, name)
        table += "".join(".quad %s_%d\n" % (name, k) for k in range(count))
    path = os.path.join(folder, machine)
    with open(path + ".s", "w") as file:
        file.write(glue + bodies(text) + table)
    with open(path + ".c", "w") as file:
        file.write(MAIN)
    aim = [CLANG, "--target=%s-linux-gnu" % machine, "-c"]
    subprocess.run(aim + [path + ".s", "-o", path + ".1.o"], check=True)
    subprocess.run(aim + ["-mgeneral-regs-only", "-O1", "-w", "-ffreestanding", "-fno-pic",
                          "-fno-stack-protector", path + ".c", "-o", path + ".2.o"], check=True)
    subprocess.run([LD, "-static", path + ".1.o", path + ".2.o", "-o", path], check=True)
    names = subprocess.run([NM, path], capture_output=True, text=True, check=True).stdout
    return path, {p[2]: int(p[0], 16) for p in map(str.split, names.splitlines()) if len(p) == 3}


# ---- one case each way

def callee_case(draw, s, placed, at):
    """The state before the call with values at their places, and what the callee has to copy."""
    places, back, stack = placed
    regs = [draw.getrandbits(64) for _ in range(9)]
    area, copies, free, copied = bytearray(draw.randbytes(SIZE)), bytearray(SIZE), 0, b""
    for (_, _, size), place in zip(s.all, places):
        value = draw.randbytes(size)
        copied += value
        words = value
        if place[0].endswith("Pointer"):
            copies[free:free + size] = value
            words = struct.pack("<Q", at["copies"] + free)
            free += (size + 15) // 16 * 16
        if place[0].startswith("Reg"):
            words += draw.randbytes(-len(words) % 8)
            for i in range(len(words) // 8):
                regs[place[1] + i] = int.from_bytes(words[8 * i:8 * i + 8], "little")
        else:
            area[place[1]:place[1] + len(words)] = words
    if back[0] == "Hidden":
        regs[back[1]] = at["hidden"]
    given = draw.randbytes(SIZE)
    if s.variadic:
        regs[4], regs[5] = 0, stack      # 0 stands for sp, which only the program knows
    return regs, bytes(area), given, bytes(copies), copied


def find(place, size, regs, sp, dump):
    """The bytes that the probe found at a place, and where a pointer there points."""
    if place[0].startswith("Reg"):
        words = struct.pack("<2Q", *(regs + [0])[place[1]:place[1] + 2])
    else:
        words = dump[place[1]:place[1] + 16]
    if not place[0].endswith("Pointer"):
        return words[:size], None
    pointer = int.from_bytes(words[:8], "little")
    offset = pointer - sp
    return (dump[offset:offset + size] if 0 <= offset <= len(dump) - size else None), pointer


def run(path, records):
    command = ["qemu-aarch64", path] if path.endswith("aarch64") else [path]
    done = subprocess.run(command, input=b"".join(records), capture_output=True)
    if done.returncode:
        raise SystemExit("%s: some address isn't where it is looked for" % os.path.basename(path))
    out = done.stdout
    size = struct.calcsize(ANSWER)
    return [struct.unpack(ANSWER, out[i:i + size]) for i in range(0, len(out), size)]


def result_of(back, size, answer):
    got = struct.pack("<2Q", *answer[10:12])
    return answer[13][:size] if back[0] == "Hidden" else got[:size]


def compare(draw, side, signatures, place, path, at):
    """Runs each callee and caller, and counts the values at their places."""
    wrong, values, unaligned, pointers = [], 0, 0, 0
    placed = [place(s) for s in signatures]
    cases = [callee_case(draw, s, placed[k], at) for k, s in enumerate(signatures)]
    records = []
    for k, (regs, area, given, copies, _) in enumerate(cases):
        records.append(struct.pack(RECORD, k, 0, *regs, 0, 0, 0, 0, area, given, copies))
    answers = run(path, records)
    for k, answer in enumerate(answers):
        s, (_, back, _) = signatures[k], placed[k]
        copied, given = cases[k][4], cases[k][2]
        if answer[12][:len(copied)] != copied:
            wrong.append("%s callee %s: reads elsewhere" % (side, s.code))
        if back[0] != "Nothing" and result_of(back, s.result[2], answer) != given[:s.result[2]]:
            wrong.append("%s callee %s: gives its result elsewhere" % (side, s.code))
        values += len(s.all)
    records = []
    for k, s in enumerate(signatures):
        _, back, _ = placed[k]
        given = draw.randbytes(SIZE)
        low = struct.unpack("<2Q", draw.randbytes(16))
        hidden = (s.result[2], back[1]) if back[0] == "Hidden" else (0, 0)
        records.append(struct.pack(RECORD, k, 1, *[0] * 9, *low, *hidden, bytes(SIZE), given, bytes(SIZE)))
        cases[k] = (given, low)
    for k, answer in enumerate(run(path, records)):
        s, (places, back, stack), (given, low) = signatures[k], placed[k], cases[k]
        regs, sp, dump, from_byte = list(answer[:9]), answer[9], answer[14], 0
        for (_, _, size), where in zip(s.all, places):
            found, pointer = find(where, size, regs, sp, dump)
            if found != given[from_byte:from_byte + size]:
                wrong.append("%s caller %s: nothing at %s" % (side, s.code, where))
            if pointer is not None:
                pointers += 1
                unaligned += pointer % 16 != 0
            from_byte += size
            values += 1
        if sp % 16:
            wrong.append("%s caller %s: sp is no multiple of 16" % (side, s.code))
        if s.variadic and side == "ec" and (regs[4] - sp, regs[5] & 0xFFFFFFFF) != (0, stack):
            wrong.append("%s caller %s: x4 is sp + %d and x5 %d" % (side, s.code, regs[4] - sp, regs[5]))
        want = given[:s.result[2]] if back[0] == "Hidden" else struct.pack("<2Q", *low)[:s.result[2]]
        if answer[12][:s.result[2]] != want:
            wrong.append("%s caller %s: takes its result elsewhere" % (side, s.code))
    print("%s: %d signatures, %d values read and written, %d pointers of which %d not at a multiple of 16, "
          "%d wrong" % (side, len(signatures), values, pointers, unaligned, len(wrong)))
    return wrong


def as_clang(s):
    """The code with the classes that clang's thunks go by: what the Arm64EC place of a value holds."""
    def argument(c):
        return "m16" if c not in ("word", "void") and 8 < c <= 16 else "i8"
    back = s.result[0]
    left = code(back) if back == "void" or (back != "word" and back > 16) else argument(back)
    right = "".join(argument(c) for c, _, _ in s.args) or "v"
    return left + "$" + ("varargs" if s.variadic else right)


def names(signatures, text):
    """The codes that clang writes, against ours."""
    found, same, by_place, wrong = thunks(text), 0, 0, []
    for k, s in enumerate(signatures):
        entry = found.get(("#callee_%d" % k, "1"), "").replace("$ientry_thunk$cdecl$", "")
        leave = found.get(("target_%d" % k, "4"), "").replace("$iexit_thunk$cdecl$", "")
        for theirs in (entry, leave):
            same += theirs == s.code
            by_place += theirs != s.code and theirs == as_clang(s)
            if theirs not in (s.code, as_clang(s)):
                wrong.append("name of %s: clang has %s" % (s.code, theirs))
    print("names: %d alike, %d alike by the places of values, %d wrong" % (same, by_place, len(wrong)))
    return wrong


def main():
    missing = [t for t in (CLANG, LD, NM, "qemu-aarch64") if not shutil.which(t)]
    if missing:
        print("not here: " + " ".join(missing))
        return 0
    count = int(sys.argv[1]) if len(sys.argv) > 1 else 200
    draw = random.Random(int(sys.argv[2]) if len(sys.argv) > 2 else 1)
    signatures = [Signature(draw, k % 5 == 4) for k in range(count)]
    unit = source(signatures)
    wrong = []
    with tempfile.TemporaryDirectory() as folder:
        ec = compiled(folder, "arm64ec", unit)
        wrong += names(signatures, ec)
        path, at = program(folder, "aarch64", ec, EC_GLUE, count)
        wrong += compare(draw, "ec", signatures, lambda s: (place_ec_variadic if s.variadic else place_ec)(
            s.result[0], s.classes), path, at)
        path, at = program(folder, "x86_64", compiled(folder, "x86_64", unit), X64_GLUE, count)
        wrong += compare(draw, "x64", signatures, lambda s: place_x64(s.result[0], s.classes), path, at)
    for line in wrong:
        print(line)
    return 1 if wrong else 0


if __name__ == "__main__":
    sys.exit(main())
