#!/usr/bin/env python3
"""Times `x64_isa::decode` on one and on two million instructions, in one run.

  bench/decode.py              needs the kit's `rt`

Builds a small program over copies of this repository's crates in a temporary folder, since no program of
the repository only decodes. It prints the best of five runs of each, their ratio (linear work gives 2),
and the time of one instruction.
"""
import os
import shutil
import subprocess
import sys
import tempfile

TOP = os.path.join(os.path.dirname(os.path.abspath(__file__)), "..")
CRATES = ("hx_words", "reg_map", "x64_isa")
LISTED = """hx_words: sqlite_items
reg_map:
x64_isa: hx_words reg_map arrayvec thiserror
decode_bench: x64_isa
"""
# one instruction of each shape: mov, load, store, imm64, lea, add, sub imm8 and imm32, movzx, setcc, jcc, call
PROGRAM = r"""#![tactic(auto)]

use std::io;
use std::time::Instant;
use x64_isa::decode;

static SPELLED: [&[u8]; 12] = [
    b"\x48\x8B\xC4",
    b"\x4D\x8B\x84\x24\x80\x00\x00\x00",
    b"\x48\x89\x5C\x24\x08",
    b"\x48\xB8\x08\x07\x06\x05\x04\x03\x02\x01",
    b"\x48\x8D\x0D\x00\x10\x00\x00",
    b"\x4C\x01\xC8",
    b"\x48\x83\xEC\x20",
    b"\x48\x81\xEC\x00\x10\x00\x00",
    b"\x48\x0F\xB6\x45\x10",
    b"\x40\x0F\x94\xC0",
    b"\x0F\x84\x00\x01\x00\x00",
    b"\xFF\xD0",
];

/// The bytes of so many instructions.
fn decoded(count: u32) -> u64 {
    let mut size = 0u64;
    for k in 0..count {
        if let Ok((_, n)) = decode(SPELLED[(k % 12) as usize]) {
            size = size.wrapping_add(n as u64);
        }
    }
    size
}

fn main(rt: HostRuntime) -> io::Result<()> {
    for count in [1_000_000u32, 2_000_000] {
        for _ in 0..5 {
            let begun = Instant::now(&rt)?;
            let size = decoded(count);
            let took = begun.elapsed(&rt)?.as_micros();
            println!(rt; "{count} {size} {took}")?;
        }
    }
    Ok(())
}
"""


def main():
    if shutil.which("rt") is None:
        print("skipped: there is no rt")
        return 0
    with tempfile.TemporaryDirectory() as top:
        for name in CRATES:
            for part in ("src", "specs", "proofs"):
                shutil.copytree(os.path.join(TOP, "crates", name, part), os.path.join(top, "crates", name, part))
        folder = os.path.join(top, "crates", "decode_bench")
        os.makedirs(os.path.join(folder, "src"))
        with open(os.path.join(top, "crates.txt"), "w") as file:
            file.write(LISTED)
        with open(os.path.join(folder, "src", "main.rt"), "w") as file:
            file.write(PROGRAM)
        done = subprocess.run(["rt", "run"], cwd=folder, capture_output=True, text=True)
    best = {}
    for line in done.stdout.splitlines():
        words = line.split()
        if len(words) == 3 and all(word.isdigit() for word in words):
            count, _, took = map(int, words)
            best[count] = min(took, best.get(count, took))
    if len(best) != 2:
        print(done.stdout, done.stderr)
        return 1
    one, two = best[1_000_000], best[2_000_000]
    print(f"1,000,000 instructions {one / 1000:.1f} ms, 2,000,000 {two / 1000:.1f} ms, ratio {two / one:.2f}, {one / 1000:.1f} ns each")
    return 0


sys.exit(main())
