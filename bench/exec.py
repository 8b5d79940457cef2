#!/usr/bin/env python3
"""Times `ecc exec` on units of p and of 2p calls of put_byte, in one run.

  bench/exec.py PROGRAM        the built program, as crates/ec_cli/out/ec_cli

Prints the best of five runs of each, and their ratio: linear work gives 2 at most, and less where
starting the program takes a part of the time.
"""
import os
import subprocess
import sys
import tempfile
import time


def best(program, folder, calls):
    unit = os.path.join(folder, "unit.c")
    with open(unit, "w") as file:
        file.write("int main(void){" + "put_byte(65);" * calls + "return 0;}")
    times = []
    for _ in range(5):
        begun = time.perf_counter()
        done = subprocess.run([program, "exec", unit, "-o", os.path.join(folder, "unit.img")], stdout=subprocess.PIPE, stderr=subprocess.PIPE)
        times.append(time.perf_counter() - begun)
        assert done.returncode == 0 and done.stdout == b"A" * calls and done.stderr == b"exit 0\n", done
    return min(times)


def main():
    program = os.path.abspath(sys.argv[1])
    with tempfile.TemporaryDirectory() as folder:
        one, two = best(program, folder, 10_000), best(program, folder, 20_000)
    print(f"10,000 calls {one * 1000:.0f} ms, 20,000 calls {two * 1000:.0f} ms, ratio {two / one:.2f}")


main()
