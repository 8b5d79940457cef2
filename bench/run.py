#!/usr/bin/env python3
"""Times `ecc run` on loops in x64 code, in EC code, and in an image of 94 sections.

  bench/run.py PROGRAM       the built program, as crates/ec_cli/out/ec_cli

Each loop takes 2 steps a turn. Prints for each side the best of five runs of two million and of four million turns, their
ratio (2 at most for linear work), steps per second, and the ratio of the loop in an image of 94 sections to the one in four.
"""
import os
import subprocess
import sys
import tempfile
import time

sys.path.insert(0, os.path.join(os.path.dirname(os.path.abspath(__file__)), "..", "tools"))
from image_sample import loop

TURNS = 2_000_000


def best(program, path):
    times = []
    for _ in range(5):
        begun = time.perf_counter()
        done = subprocess.run([program, "run", path], stdout=subprocess.PIPE, stderr=subprocess.PIPE)
        times.append(time.perf_counter() - begun)
        assert done.returncode == 0 and done.stderr == b"exit 0\n", done
    return min(times)


def main():
    program = os.path.abspath(sys.argv[1])
    with tempfile.TemporaryDirectory() as folder:
        def timed(side, turns, more):
            path = os.path.join(folder, f"{side}.{turns}.{more}.img")
            with open(path, "wb") as out:
                out.write(loop(side, turns, more))
            return best(program, path)

        for side in ("x64", "ec"):
            once, twice = timed(side, TURNS, 0), timed(side, 2 * TURNS, 0)
            print(f"{side}: 4*10^6 steps {once * 1000:.0f} ms, 8*10^6 steps {twice * 1000:.0f} ms, ratio {twice / once:.2f}, {4 * TURNS / twice:.0f} steps a second")
            many = timed(side, 2 * TURNS, 90)
            print(f"{side}: in 94 sections {many * 1000:.0f} ms, ratio {many / twice:.2f}")


if __name__ == "__main__":
    main()
