#!/usr/bin/env python3
"""Times `ecc check` on units of 512 KiB and of 1 MiB that are refused at their last byte, in one run.

  bench/parse.py PROGRAM        the built program, as crates/ec_cli/out/ec_cli

Such units are read, cut into tokens and parsed, and never checked. The texts are those of bench/check.py
with a parenthesis at the end. Prints the best of five runs of each, and their ratio.
"""
import check

if __name__ == "__main__":
    check.compared(")", lambda size: f"unit 0: Syntax at {size - 1}\n".encode(), 20)
