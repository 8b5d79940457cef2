#!/usr/bin/env python3
"""Shows the object of the tests of `coff_write` to llvm-readobj.

  coff_sample.py              reads the bytes in crates/object_rows/src/sample.rt, and says whether
                              llvm-readobj, llvm-objdump and llvm-nm (package llvm-19, else llvm)
                              read all their parts without complaint

Releases before LLVM 15 don't know the machine of Arm64EC, 0xA641; for these the machine is made
that of Arm64, 0xAA64, whose relocation types are the same. Without the program it says so and ends
with status 0.
"""

import pathlib
import re
import shutil
import subprocess
import sys
import tempfile

TESTS = pathlib.Path(__file__).resolve().parent.parent / "crates/object_rows/src/sample.rt"
WANTED = [
    "SectionCount: 4",
    "SymbolCount: 5",
    "StringTableSize: 53",
    "Name: .text$thunk (2F 30 30 30 30 30 30 34)",
    "RawDataSize: 16",
    "Name: .hybmp$x",
    "IMAGE_REL_ARM64_BRANCH26 put_byte (4)",
    "AuxSymbolCount: 1",
    "Selection: Any (0x2)",
    "Name: $ientry_thunk$cdecl$i8$v",
]


def sample():
    text = TESTS.read_text()
    table = text[text.index("static SAMPLE") :]
    table = table[table.index("= [") : table.index("\n];")]
    table = re.sub(r"//.*", "", table)
    return bytes(int(number, 16) for number in re.findall(r"0x([0-9A-F]{2})\b", table))


def shown(tool, data):
    with tempfile.NamedTemporaryFile(suffix=".obj") as file:
        file.write(data)
        file.flush()
        parts = ["--file-headers", "--sections", "--relocations", "--symbols"]
        return subprocess.run([tool, *parts, file.name], capture_output=True, text=True)


def complaints(data):
    """What llvm-objdump and llvm-nm of the same release say against the object."""
    found = []
    with tempfile.NamedTemporaryFile(suffix=".obj") as file:
        file.write(data)
        file.flush()
        for name, words in (("llvm-objdump-19", ["-d", "-r"]), ("llvm-nm-19", [])):
            if shutil.which(name):
                said = subprocess.run([name, *words, file.name], capture_output=True, text=True)
                if said.returncode != 0 or said.stderr:
                    found.append(f"{name}: {said.stderr}")
    return found


def main():
    tool = next(filter(None, map(shutil.which, ["llvm-readobj-19", "llvm-readobj"])), None)
    if tool is None:
        print("no llvm-readobj here: nothing compared")
        return 0
    data = sample()
    said = shown(tool, data)
    if said.returncode != 0:
        print("this llvm-readobj doesn't know the machine 0xA641: read as Arm64")
        said = shown(tool, b"\x64\xaa" + data[2:])
    missing = [want for want in WANTED if want not in said.stdout]
    if said.returncode != 0 or said.stderr or missing:
        print(said.stderr, "missing:", missing)
        return 1
    against = complaints(data)
    if against:
        print("\n".join(against))
        return 1
    print(f"{len(data)} bytes read, each part as it was meant")
    return 0


if __name__ == "__main__":
    sys.exit(main())
