#!/usr/bin/env python3
"""Times `ecc check` on units of many names and of deep types, of n and of 2n in one run.

  bench/names.py PROGRAM        the built program, as crates/ec_cli/out/ec_cli

Globals that a body names, locals of a block that its statements name, structs that hold the last one, an array behind
brackets, fields of one struct that a body names, and assignments of a struct that is 15 times two of the last, which are
more than a frame may keep; then a unit of 1 MiB that is all brackets. Prints the best of five runs of each, and their ratio: linear work gives 2 at most, and less where
starting the program takes a part of the time. Ends with 1 where a ratio passes 2.3.
"""
import os
import sys
import tempfile

from check import best


def globals_named(n):
    return "".join(f"int g{k};" for k in range(n)) + "int main(void){" + "".join(f"g{k}=1;" for k in range(n)) + "return 0;}"


def locals_named(n):
    return "int main(void){" + "".join(f"int v{k};" for k in range(n)) + "".join(f"v{k}=1;" for k in range(n)) + "return 0;}"


def structs_nested(n):
    return "struct s0{int x;};" + "".join(f"struct s{k + 1}{{struct s{k} x;}};" for k in range(n)) + "int main(void){return 0;}"


def brackets(n):
    return "int a" + "[1]" * n + ";int main(void){return 0;}"


def fields_named(n):
    return ("struct s{" + "".join(f"int f{k};" for k in range(n)) + "};struct s g;int main(void){"
            + "".join(f"g.f{k}=1;" for k in range(n)) + "return 0;}")


def doubled(n):
    return ("struct s0{char x;};" + "".join(f"struct s{k + 1}{{struct s{k} x;struct s{k} y;}};" for k in range(15))
            + "struct s15 g;struct s15 h;int main(void){" + "g=h;" * n + "return 0;}")


def frame_limit(n):
    return f"limit frame-bytes {65_536 * n + 4}\n".encode()


ROWS = (
    ("globals", globals_named, 4_000),
    ("locals", locals_named, 4_000),
    ("structs", structs_nested, 8_000),
    ("brackets", brackets, 20_000),
    ("fields", fields_named, 2_000),
    ("doubled structs", doubled, 100),
)


def main():
    program = os.path.abspath(sys.argv[1])
    steep = False
    with tempfile.TemporaryDirectory() as folder:
        for name, text, n in ROWS:
            told = (lambda count: (frame_limit(count), 21)) if text is doubled else (lambda count: (b"checked\n", 0))
            once, twice = (best(program, folder, text(count), *told(count)) for count in (n, 2 * n))
            print(f"{name}: {n} in {once * 1000:.0f} ms, {2 * n} in {twice * 1000:.0f} ms, ratio {twice / once:.2f}")
            steep |= twice / once > 2.3
        whole = best(program, folder, brackets(349_000), b"checked\n", 0)
        print(f"1 MiB of brackets: {whole * 1000:.0f} ms")
    sys.exit(1 if steep else 0)


if __name__ == "__main__":
    main()
