#!/usr/bin/env python3
"""Times `ecc interp` on a loop of 10^6 units and on one of 2*10^6 units, in one run.

  bench/interp.py PROGRAM       the built program, as crates/ec_cli/out/ec_cli

The loop is endless and is stopped by its fuel. Prints the best of five runs of each, their ratio, and the
units per second of the longer one: linear work gives a ratio of 2 at most, and less where starting the
program takes a part of the time.
"""
import os
import subprocess
import sys
import tempfile
import time

UNIT = """
struct pair { long long first; long long second; };
struct pair kept;
int step(int a, int b) { return a * 3 + b; }
int main(void) {
  int i;
  int at[8];
  int sum = 0;
  for (i = 0; ; i++) {
    at[i & 7] = sum;
    sum = step(sum, at[(i + 3) & 7]);
    kept.first += sum;
  }
  return 0;
}
"""


def best(program, path, fuel):
    times = []
    for _ in range(5):
        begun = time.perf_counter()
        done = subprocess.run([program, "interp", path, "--fuel", str(fuel)], stdout=subprocess.PIPE, stderr=subprocess.PIPE)
        times.append(time.perf_counter() - begun)
        assert done.returncode == 11 and done.stdout == b"" and done.stderr.startswith(b"budget units "), done
    return min(times)


def main():
    program = os.path.abspath(sys.argv[1])
    with tempfile.TemporaryDirectory() as folder:
        path = os.path.join(folder, "loop.c")
        with open(path, "w") as file:
            file.write(UNIT)
        once, twice = (best(program, path, fuel) for fuel in (1_000_000, 2_000_000))
    print(f"10^6 units {once * 1000:.0f} ms, 2*10^6 units {twice * 1000:.0f} ms, ratio {twice / once:.2f}, {2_000_000 / twice:.0f} units a second")


if __name__ == "__main__":
    main()
