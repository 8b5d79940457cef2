#!/usr/bin/env python3
"""Reads images with outside tools, and fails where one complains.

  image_readers.py             the file that the writer gives of a small image (the bytes that its test expects), and the
                               samples of image_sample.py, one of 94 sections among them
  image_readers.py FILE..      these files

The tools are llvm-readobj, objdump and pefile (Debian's llvm, binutils and python3-pefile); those that are missing are
skipped, and said to be. A tool complains where its status isn't 0, or where it writes to standard error; that a small image
is mostly zeros, which pefile remarks, is none.
"""
import os
import re
import shutil
import subprocess
import sys
import tempfile

HERE = os.path.dirname(os.path.abspath(__file__))
sys.path.insert(0, HERE)
from image_sample import loop, sample

PEFILE = """
import pefile, sys
pe = pefile.PE(sys.argv[1])
pe.full_load()
print(pe.dump_info())
sys.exit("; ".join(it for it in pe.get_warnings() if not it.startswith("Byte 0x00 makes up")) or 0)
"""


def readers():
    """The command lines of the tools that are there, by name."""
    found = {}
    if shutil.which("llvm-readobj"):
        found["llvm-readobj"] = ["llvm-readobj", "--file-headers", "--sections", "--coff-imports", "--coff-basereloc"]
    if shutil.which("objdump"):
        found["objdump"] = ["objdump", "-x"]
    for python in (sys.executable, "/usr/bin/python3"):
        if os.path.exists(python) and subprocess.run([python, "-c", "import pefile"], stderr=subprocess.DEVNULL).returncode == 0:
            found.setdefault("pefile", [python, "-c", PEFILE])
    return found


def written():
    """The file that the writer's test expects: headers, and the contents of four sections, each padded to 512 bytes."""
    with open(os.path.join(HERE, "..", "crates", "machine_rows", "src", "files.rt")) as file:
        text = file.read()
    out = b""
    for name in ("HEADERS", "CODE", "EC_CODE", "DATA", "BLOCKS"):
        body = re.search(r"static " + name + r": \[u8; (\d+)\] = \[(.*?)\n\];", text, re.S)
        part = bytes(int(it, 16) for it in re.findall(r"0x([0-9A-F]{2})", re.sub(r"//[^\n]*", "", body.group(2))))
        assert len(part) == int(body.group(1)), name
        out += part + bytes(-len(part) % 512)
    return out


def main(names):
    tools, failed = readers(), 0
    with tempfile.TemporaryDirectory() as folder:
        if not names:
            for name, data in (("written", written()), ("sample", sample()), ("many", loop("x64", 1, 90))):
                names.append(os.path.join(folder, name + ".img"))
                with open(names[-1], "wb") as out:
                    out.write(data)
        for tool in ("llvm-readobj", "objdump", "pefile"):
            if tool not in tools:
                print(f"{tool}: missing, skipped")
                continue
            for name in names:
                done = subprocess.run([*tools[tool], name], stdout=subprocess.PIPE, stderr=subprocess.PIPE)
                well = done.returncode == 0 and not done.stderr
                failed += not well
                print(f"{tool}: {os.path.basename(name)}: {'read' if well else 'COMPLAINT ' + done.stderr.decode(errors='replace').strip()}")
    return 1 if failed else 0


if __name__ == "__main__":
    sys.exit(main(sys.argv[1:]))
