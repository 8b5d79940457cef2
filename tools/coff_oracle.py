#!/usr/bin/env python3
"""Reads objects by the rules of docs/OBJECTS.md, apart from the crates.

    tools/coff_oracle.py            compares the table of crates/object_rows/src/reading.rt with what is told here
    tools/coff_oracle.py FILE..     prints the object in each file, or its first refusal
"""
import pathlib
import re
import struct
import sys

LIMIT = 134_217_728
SIZES = {
    0x8664: {0: 1, 1: 8, 3: 4, 4: 4},
    0xA641: {0: 1, 2: 4, 3: 4, 4: 4, 6: 4, 7: 4, 14: 8},
}


class Refused(Exception):
    pass


def refuse_if(holds, name):
    if holds:
        raise Refused(name)


def word(data, at):
    return struct.unpack("<H", (data[at:at + 2] + b"\0\0")[:2])[0]


def dword(data, at):
    return struct.unpack("<I", (data[at:at + 4] + b"\0" * 4)[:4])[0]


def byte(data, at):
    return data[at] if at < len(data) else 0


def in_section(number):
    return 0 < number < 65_534


def sections_of(data):
    count = word(data, 2)
    refuse_if(20 + 40 * count > len(data), "SectionRange")
    sections = []
    for p in range(20, 20 + 40 * count, 40):
        sections.append({
            "field": data[p:p + 8].split(b"\0")[0],
            "size": dword(data, p + 16),
            "at": dword(data, p + 20),
            "rows_at": dword(data, p + 24),
            "rows": word(data, p + 32),
            "flags": dword(data, p + 36),
        })
    for s in sections:
        s["zeros"] = bool(s["flags"] & 0x80)
        refuse_if(not s["zeros"] and s["at"] + s["size"] > len(data), "SectionRange")
    return sections


def symbols_of(data, sections):
    table, count = dword(data, 8), dword(data, 12)
    strings = table + 18 * count
    refuse_if(strings + 4 > len(data), "SymbolRange")
    size = dword(data, strings)
    refuse_if(size < 4 or strings + size > len(data), "SymbolRange")
    records, skip = [], 0
    for p in range(table, strings, 18):
        records.append({
            "main": skip == 0,
            "field": data[p:p + 8],
            "value": dword(data, p + 8),
            "section": word(data, p + 12),
            "class": byte(data, p + 16),
            "more": byte(data, p + 17),
            "selection": byte(data, p + 32),
        })
        skip = byte(data, p + 17) if skip == 0 else skip - 1
    refuse_if(skip, "SymbolRange")
    for r in records:
        if r["main"] and in_section(r["section"]):
            refuse_if(r["section"] > len(sections), "SymbolRange")
            refuse_if(r["value"] > sections[r["section"] - 1]["size"], "SymbolRange")
    return records, data[strings:strings + size]


def text_at(strings, offset):
    refuse_if(offset < 4 or 0 not in strings[offset:], "NameRange")
    return strings[offset:].split(b"\0")[0]


def read_names(sections, records, strings):
    for s in sections:
        s["name"] = s["field"]
        if s["field"][:1] == b"/":
            refuse_if(not re.fullmatch(rb"[0-9]+", s["field"][1:]), "NameRange")
            s["name"] = text_at(strings, int(s["field"][1:]))
    for r in records:
        if r["main"]:
            long = r["field"][:4] == b"\0" * 4
            r["name"] = text_at(strings, dword(r["field"], 4)) if long else r["field"].split(b"\0")[0]


def check_kinds(machine, sections, records):
    for r in records:
        if not r["main"]:
            continue
        refuse_if(r["class"] not in (2, 3, 103), "SymbolKind")
        refuse_if(r["class"] != 103 and r["section"] == 65_534, "SymbolKind")
        if r["class"] == 2 and in_section(r["section"]) and r["name"][:1] == b"#":
            home = sections[r["section"] - 1]
            code = home["flags"] & 0x2000_0000
            refuse_if(r["value"] == home["size"] or not code or machine == 0x8664, "SymbolKind")


def check_comdat(sections, records):
    for number, s in enumerate(sections, 1):
        if s["flags"] & 0x1000:
            found = [r for r in records if r["main"] and r["class"] == 3 and r["value"] == 0
                     and in_section(r["section"]) and r["section"] == number]
            refuse_if(not found or not found[0]["more"] or found[0]["selection"] != 2, "Comdat")


def is_dropped(s):
    name = s["name"]
    return (name.startswith((b".pdata", b".xdata", b".debug")) or name in (b".drectve", b".hybmp$x")
            or bool(s["flags"] & 0xA00))


def read_sites(data, machine, sections, records):
    kept = [s for s in sections if not is_dropped(s)]
    for s in kept:
        first = 0
        if s["flags"] & 0x0100_0000 and s["rows"] == 65_535:
            refuse_if(s["rows_at"] + 10 > len(data), "RelocationRange")
            s["rows"], first = dword(data, s["rows_at"]), 1
        refuse_if(s["rows_at"] + 10 * s["rows"] > len(data), "RelocationRange")
        places = range(s["rows_at"] + 10 * first, s["rows_at"] + 10 * s["rows"], 10)
        s["sites"] = [(dword(data, p), dword(data, p + 4), word(data, p + 8)) for p in places]
    refuse_if(any(t[2] not in SIZES[machine] for s in kept for t in s["sites"]), "RelocationKind")
    for r in records:
        r["able"] = (r["main"] and r["class"] != 103
                     and not (in_section(r["section"]) and is_dropped(sections[r["section"] - 1])))
    for s in kept:
        size = 0 if s["zeros"] else s["size"]
        for at, symbol, kind in s["sites"]:
            outside = at + SIZES[machine][kind] > size or symbol >= len(records)
            refuse_if(outside or not records[symbol]["able"], "RelocationPlace")
    return kept


def read_rows(data, sections, records, numbers):
    rows = []
    for s in sections:
        if s["name"] != b".hybmp$x" or s["zeros"]:
            continue
        refuse_if(s["size"] % 12, "HybridRecord")
        for p in range(s["at"], s["at"] + s["size"], 12):
            source, thunk, kind = (dword(data, p + k) for k in (0, 4, 8))
            refuse_if(source not in numbers or thunk not in numbers or kind not in (0, 1, 4), "HybridRecord")
            rows.append((numbers[source], numbers[thunk], kind))
    return rows


def read(data):
    refuse_if(len(data) > LIMIT, "TooLarge")
    refuse_if(len(data) < 20, "Short")
    refuse_if(data[:4] == b"\0\0\xFF\xFF", "BigObject")
    machine = word(data, 0)
    refuse_if(machine not in SIZES, "Machine")
    refuse_if(word(data, 16), "OptionalHeader")
    sections = sections_of(data)
    records, strings = symbols_of(data, sections)
    read_names(sections, records, strings)
    check_kinds(machine, sections, records)
    check_comdat(sections, records)
    kept = read_sites(data, machine, sections, records)
    named = {t[1] for s in kept for t in s["sites"]}
    stay = [j for j, r in enumerate(records) if r["able"] and (r["section"] != 65_535 or j in named)]
    numbers = {j: n for n, j in enumerate(stay)}
    rows = read_rows(data, sections, records, numbers)
    homes = {sections.index(s) + 1: n for n, s in enumerate(kept, 1)}
    return {
        "machine": hex(machine),
        "sections": [{
            "name": s["name"], "flags": hex(s["flags"] & ~0x0100_0000),
            "bytes": b"" if s["zeros"] else data[s["at"]:s["at"] + s["size"]],
            "zeros": s["size"] if s["zeros"] else 0, "comdat": bool(s["flags"] & 0x1000),
            "sites": [(at, numbers[symbol], kind) for at, symbol, kind in s["sites"]],
        } for s in kept],
        "symbols": [(r["name"], r["value"], homes.get(r["section"], r["section"]), r["class"] == 2)
                    for r in (records[j] for j in stay)],
        "hybrid": rows,
    }


def told(data):
    try:
        read(data)
        return "None"
    except Refused as refusal:
        return f"Some(ObjRefusal::{refusal})"


def compare():
    rows = pathlib.Path(__file__).parent.parent / "crates/object_rows/src"
    sample, text = (rows / "sample.rt").read_text(), (rows / "reading.rt").read_text()
    sample = sample[sample.index("static SAMPLE"):]
    sample = sample[sample.index("= [") + 3:sample.index("];")]
    lines = [line.split("//")[0] for line in sample.split("\n")]
    data = bytes(int(n, 16) for n in re.findall(r"0x([0-9A-F]{2})\b", "\n".join(lines)))
    edits = re.findall(r"\((\d+), 0x([0-9A-F]+), (None|Some\(ObjRefusal::\w+\))\)", text)
    wrong = 0
    for at, number, expected in edits:
        edited = bytearray(data)
        edited[int(at):int(at) + 2] = struct.pack("<H", int(number, 16))
        if told(bytes(edited)) != expected:
            wrong += 1
            print(f"{number} at {at}: {told(bytes(edited))}, and {expected} in the table")
    print(f"{len(edits)} edits, {wrong} of them told otherwise here")
    return 1 if wrong or not edits else 0


def main():
    if len(sys.argv) == 1:
        return compare()
    for name in sys.argv[1:]:
        try:
            print(name, read(pathlib.Path(name).read_bytes()))
        except Refused as refusal:
            print(name, refusal)
    return 0


if __name__ == "__main__":
    sys.exit(main())
