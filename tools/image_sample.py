#!/usr/bin/env python3
"""Makes files of small hybrid images, from the rules of the format alone.

  image_sample.py FILE            the sample: x64 code that takes a byte, puts it, calls EC code by an address that is
                                  relocated, and exits with what that gives
  image_sample.py --rust          the sample with its three imports alone and its contents without padding, as an array for a test
  image_sample.py --loop SIDE N FILE   a loop of N turns in x64 or EC code; `--many` behind it makes an image of 94 sections

Layout (Microsoft PE/COFF; hybrid metadata as docs/IMAGES.md has it): .text at 1000h, .textec at 2000h, .rdata at 3000h with
imports, load configuration and metadata, and .reloc at 4000h; further sections, one page each, behind them.
"""
import struct
import sys

BASE = 0x140000000
NAMES = ["put_byte", "get_byte", "exit", "trap", "#put_byte", "#get_byte", "#exit", "#trap",
         "__os_arm64x_check_icall", "__os_arm64x_dispatch_call_no_redirect", "__os_arm64x_dispatch_ret"]
TABLES = 0x3000 + 40


def slots():
    """The RVA of the address table."""
    return TABLES + 8 * (len(NAMES) + 1)


def slot(name):
    """The RVA of the import slot of a name."""
    return slots() + 8 * NAMES.index(name)


def rdata(x64, ec, more):
    """The contents of .rdata: import descriptor, both tables, names, load configuration, metadata."""
    out = bytearray(40)
    names, at = bytearray(), slots() + 8 * (len(NAMES) + 1)
    rows = []
    for name in NAMES:
        rows.append(at + len(names))
        text = b"\0\0" + name.encode() + b"\0"
        names += text + b"\0" * (len(text) % 2)
    dll = at + len(names)
    names += b"ecrt.dll\0"
    struct.pack_into("<5I", out, 0, TABLES, 0, 0, dll, slots())
    table = b"".join(struct.pack("<Q", it) for it in rows) + bytes(8)
    out += table + table + names
    out += bytes(-len(out) % 16)
    config = 0x3000 + len(out)
    meta = config + 208
    out += struct.pack("<I", 208) + bytes(196) + struct.pack("<Q", BASE + meta)
    ranges = [(0x1000 | 2, len(x64)), (0x2000 | 1, len(ec))] + [(rva | 2, n) for rva, n in more]
    texts, rows = b"start\0main\0", [(6, 0, 0x1000, 0x1000 + len(x64)), (1, 6, 0x2004, 0x2000 + len(ec))]
    starts = meta + 28
    table_rows = starts + 8 * len(ranges)
    first = table_rows + 16 * len(rows)
    out += struct.pack("<7I", 1, starts, len(ranges), table_rows, 0, table_rows, len(rows))
    out += b"".join(struct.pack("<2I", *it) for it in ranges)
    out += b"".join(struct.pack("<4I", kind, first + name, start, end) for kind, name, start, end in rows) + texts
    return bytes(out), config


def blocks(sites):
    """Base relocations, a block a page."""
    out = b""
    for page in sorted({it & ~0xFFF for it in sites}):
        entries = [0xA000 | (it & 0xFFF) for it in sorted(sites) if it & ~0xFFF == page]
        entries += [0] * (len(entries) % 2)
        out += struct.pack("<2I", page, 8 + 2 * len(entries)) + b"".join(struct.pack("<H", it) for it in entries)
    return out


def image(x64, ec, sites=(), more=0, unit=512):
    """The file of an image with this code and these sites, and so many further sections of x64 code that halts.
    Contents stand at multiples of the unit."""
    extra = [(0x5000 + 0x1000 * k, b"\xF4") for k in range(more)]
    data, config = rdata(x64, ec, [(rva, len(code)) for rva, code in extra])
    assert len(data) <= 0x1000
    sites = list(sites) + [config + 200]
    reloc = blocks(sites)
    sections = [(b".text", 0x1000, x64, 0x60000020), (b".textec", 0x2000, ec, 0x60000020),
                (b".rdata", 0x3000, data, 0x40000040), (b".reloc", 0x4000, reloc, 0x42000040)]
    sections += [(b".more", rva, code, 0x60000020) for rva, code in extra]
    end = sections[-1][1] + 0x1000
    headers = 328 + 40 * len(sections)
    place = -(-headers // unit) * unit
    dos = b"MZ" + bytes(58) + struct.pack("<I", 64)
    coff = b"PE\0\0" + struct.pack("<2H3I2H", 0x8664, len(sections), 0, 0, 0, 240, 0x22)
    optional = struct.pack("<H14xI4xQ2I", 0x20B, 0x1000, BASE, 0x1000, 0x200)
    optional += struct.pack("<16x2I4x2HQ28xI", end, place, 3, 0x160, 0x100000, 16)
    directories = [(0, 0)] * 16
    directories[1], directories[5], directories[10] = (0x3000, 40), (0x4000, len(reloc)), (config, 208)
    optional += b"".join(struct.pack("<2I", *it) for it in directories)
    assert len(optional) == 240
    table, contents = b"", b""
    for name, rva, bytes_, flags in sections:
        table += name.ljust(8, b"\0") + struct.pack("<4I12xI", len(bytes_), rva, len(bytes_), place + len(contents), flags)
        contents += bytes_ + bytes(-len(bytes_) % unit)
    return (dos + coff + optional + table).ljust(place, b"\0") + contents


def call(at, name):
    """`call [rip + d]` of an import, at an RVA."""
    return b"\xFF\x15" + struct.pack("<i", slot(name) - (at + 6))


def sample(unit=512):
    x64 = b"\x48\x83\xEC\x20"                                   # sub rsp, 20h
    x64 += call(0x1000 + len(x64), "get_byte") + b"\x48\x8B\xC8"   # mov rcx, rax
    x64 += call(0x1000 + len(x64), "put_byte") + b"\x48\xB8"
    site = 0x1000 + len(x64)
    x64 += struct.pack("<Q", BASE + 0x2004) + b"\xFF\xD0\x48\x8B\xC8"   # mov rax, function; call rax; mov rcx, rax
    x64 += call(0x1000 + len(x64), "exit") + b"\x0F\x0B"
    # the word of the function, whose thunk it is; mov x8, 42; mov x16, dispatch_ret; br x16
    ec = b"\x01\0\0\0\x48\x05\x80\xD2\x10\x04\x82\xD2\xF0\xFF\xCF\xF2\0\x02\x1F\xD6"
    return image(x64, ec, [site], 0, unit)


def loop(side, turns, more):
    """Takes one from a register until it is 0, then exits with 0."""
    if side == "x64":
        # mov rcx, N; L: sub rcx, 1; jnz L; call exit
        x64 = b"\x48\x83\xEC\x20\x48\xB9" + struct.pack("<Q", turns) + b"\x48\x83\xE9\x01\x0F\x85" + struct.pack("<i", -10)
        return image(x64 + call(0x1000 + len(x64), "exit"), b"\x01\0\0\0\0\0\x20\xD4", [], more)
    # call function; there: movz x0, N low; movk x0, N high; L: subs x0, x0, 1; b.ne L; mov x16, #exit; blr x16
    x64 = b"\x48\x83\xEC\x20\xE8" + struct.pack("<i", 0x2004 - 0x1009) + b"\x0F\x0B"
    words = [0xD2800000 | (turns & 0xFFFF) << 5, 0xF2A00000 | (turns >> 16 & 0xFFFF) << 5, 0xF1000400, 0x54FFFFE1]
    ec = b"\x01\0\0\0" + b"".join(struct.pack("<I", it) for it in words)
    ec += struct.pack("<3I", 0xD2800010 | 0x1050 << 5, 0xF2C00010 | 0x7FFF << 5, 0xD63F0200)
    return image(x64, ec, [], more)


def main(words):
    if words[:1] == ["--rust"]:
        del NAMES[3:]
        data = sample(1)
        for at in range(0, len(data), 16):
            print("    " + ", ".join(f"0x{it:02X}" for it in data[at:at + 16]) + ",")
    elif words[:1] == ["--loop"]:
        with open(words[3], "wb") as out:
            out.write(loop(words[1], int(words[2]), 90 if words[4:] == ["--many"] else 0))
    else:
        with open(words[0], "wb") as out:
            out.write(sample())


if __name__ == "__main__":
    main(sys.argv[1:])
