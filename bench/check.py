#!/usr/bin/env python3
"""Times `ecc check` on a unit of 512 KiB and on one of 1 MiB, in one run.

  bench/check.py PROGRAM        the built program, as crates/ec_cli/out/ec_cli

The units are calls of sixty-four functions with long names. Prints the best of five runs of each, and
their ratio: linear work gives 2 at most, and less where starting the program takes a part of the time.
"""
import os
import subprocess
import sys
import tempfile
import time

FUNCTIONS = 64


def name(number):
    return f"f{number}_" + "abcdefghij" * 10


def unit(size, end=""):
    """A unit of exactly so many bytes, filled up with blanks, with this text at its end."""
    parts = [f"int {name(k)}(int a,int b){{return a-b;}}\n" for k in range(FUNCTIONS)]
    parts.append("int main(void){\n")
    have, last = sum(map(len, parts)), "return 0;}\n"
    number = 0
    while True:
        call = f"{name(number % FUNCTIONS)}({number},{name((number + 7) % FUNCTIONS)}(1,2));\n"
        if have + len(call) + len(last) + len(end) > size:
            break
        parts.append(call)
        have += len(call)
        number += 1
    return "".join(parts) + last + " " * (size - have - len(last) - len(end)) + end


def best(program, folder, text, note, status):
    path = os.path.join(folder, "unit.c")
    with open(path, "w") as file:
        file.write(text)
    times = []
    for _ in range(5):
        begun = time.perf_counter()
        done = subprocess.run([program, "check", path], stdout=subprocess.PIPE, stderr=subprocess.PIPE)
        times.append(time.perf_counter() - begun)
        assert done.returncode == status and done.stdout == b"" and done.stderr == note, done
    return min(times)


def compared(end, note, status):
    program = os.path.abspath(sys.argv[1])
    with tempfile.TemporaryDirectory() as folder:
        half, whole = (best(program, folder, unit(size, end), note(size), status) for size in (524_288, 1_048_576))
    print(f"512 KiB {half * 1000:.0f} ms, 1 MiB {whole * 1000:.0f} ms, ratio {whole / half:.2f}")


if __name__ == "__main__":
    compared("", lambda size: b"checked\n", 0)
