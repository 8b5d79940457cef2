#!/usr/bin/env python3
"""Makes the files that the cases of crates/transcripts/data/images.txt are edits of.

  image_cases.py FOLDER        writes small.img and sample.img

`sample.img` is the sample of image_sample.py with its three imports alone and its contents without padding. `small.img`
is written out below by the rules of the format (docs/IMAGES.md): x64 code at 1000h with a fast-forward sequence at 1010h,
EC code at 2000h, imports, load configuration and metadata at 3000h, base relocations at 4000h.
"""
import struct
import sys

import image_sample

BASE = 0x140000000


def rdata():
    """Imports of exit and put_byte, the load configuration at 3090h and the metadata at 3160h."""
    out = struct.pack("<5I", 0x3030, 0, 0, 0x3084, 0x3050) + bytes(28)
    out += struct.pack("<4Q", 0x3070, 0x3078, 0, 0) * 2
    out += b"\0\0exit\0\0" + b"\0\0put_byte\0\0" + b"ecrt.dll\0\0\0\0"
    assert len(out) == 0x90
    out += struct.pack("<I", 208) + bytes(196) + struct.pack("<Q", BASE + 0x3160)
    out += struct.pack("<7I", 1, 0x317C, 2, 0x318C, 1, 0x3194, 3)
    out += struct.pack("<4I", 0x1002, 0x20, 0x2001, 0x10) + struct.pack("<2I", 0x1010, 0x2004)
    out += struct.pack("<4I", 6, 0x31C4, 0x1000, 0x1010) + struct.pack("<4I", 5, 0x31CA, 0x1010, 0x1020)
    out += struct.pack("<4I", 1, 0x31CF, 0x2004, 0x2010)
    return out + b"start\0main\0main\0"


def small():
    # sub rsp, 20h; add rcx, 7; call [exit]; ud2
    code = b"\x48\x83\xEC\x20\x48\x83\xC1\x07\xFF\x15" + struct.pack("<i", 0x3050 - 0x100E) + b"\x0F\x0B"
    code += b"\x48\x8B\xC4\x48\x89\x58\x20\x5D\x5D\xE9\xD6\x0F\0\0\xCC\xCC"
    ec = b"\0\0\0\0\xE0\x03\x1F\x2A\xC0\x03\x5F\xD6\x1F\x20\x03\xD5"
    blocks = struct.pack("<2I2H", 0x3000, 12, 0xA158, 0)
    sections = [(b".text", 0x1000, 64, code, 0x60000020), (b".textec", 0x2000, 16, ec, 0x60000020),
                (b".rdata", 0x3000, 468, rdata(), 0x40000040), (b".reloc", 0x4000, 12, blocks, 0x42000040)]
    out = b"MZ" + bytes(58) + struct.pack("<I", 64)
    out += b"PE\0\0" + struct.pack("<2H3I2H", 0x8664, 4, 0, 0, 0, 240, 0x22)
    out += struct.pack("<H14xI4xQ2I", 0x20B, 0x1000, BASE, 0x1000, 0x200)
    out += struct.pack("<16x2I4x2HQ28xI", 0x5000, 0x200, 3, 0x160, 0x100000, 16)
    directories = [(0, 0)] * 16
    directories[1], directories[5], directories[10] = (0x3000, 40), (0x4000, 12), (0x3090, 208)
    out += b"".join(struct.pack("<2I", *it) for it in directories)
    place, contents = 488, b""
    for name, rva, size, data, flags in sections:
        out += name.ljust(8, b"\0") + struct.pack("<4I12xI", size, rva, len(data), place + len(contents), flags)
        contents += data
    return out + contents


def main(folder):
    del image_sample.NAMES[3:]
    for name, data in (("small.img", small()), ("sample.img", image_sample.sample(1))):
        with open(f"{folder}/{name}", "wb") as out:
            out.write(data)


if __name__ == "__main__":
    main(sys.argv[1])
