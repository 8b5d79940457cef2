#!/usr/bin/env python3
"""Proves and builds the program `ec_cli`, and nothing that it doesn't stand on, on all processors.

Each crate is proved by `rt lib` once those below it are, as many side by side as there are processors and
memory (3 GB a crate), those with the longest way up first. `rt` locks a crate and all below it while it works,
so each lane has a copy of the sources, and takes the libraries that other lanes built; the program is then built
here, of what the lanes left. On standard error it says which crate of how many is being proved. Its status is 0
where the program was built.
"""
import concurrent.futures as futures
import os
import shutil
import subprocess
import sys
import tempfile

TOP = os.path.dirname(os.path.dirname(os.path.abspath(__file__)))
PROGRAM = "ec_cli"


def crates_below(name):
    """Returns, for each crate that the program stands on, and for itself, those of this repository that it names."""
    lines = open(f"{TOP}/crates.txt", encoding="utf-8").read().splitlines()
    rows = dict(line.split(":", 1) for line in lines if ":" in line and not line.startswith("#"))
    listed = {one: [other for other in rest.split() if other in rows] for one, rest in rows.items()}
    found, wanted = {}, [name]
    while wanted:
        one = wanted.pop()
        if one not in found:
            found[one] = listed[one]
            wanted += listed[one]
    return found


def ways_up(below):
    """Returns how many crates stand on the longest way from each crate to the program."""
    height = {}

    def visit(one, so_far):
        if height.get(one, -1) < so_far:
            height[one] = so_far
            for other in below[one]:
                visit(other, so_far + 1)

    visit(PROGRAM, 0)
    return height


def lanes():
    """Returns how many crates are proved side by side."""
    pages = os.sysconf("SC_PHYS_PAGES") * os.sysconf("SC_PAGE_SIZE")
    return max(1, min(os.cpu_count() or 1, pages // (3 << 30)))


def copy_sources(to):
    """Makes a lane: a copy of the sources, without what was built of them."""
    shutil.copytree(f"{TOP}/crates", f"{to}/crates", ignore=shutil.ignore_patterns("out"))
    for name in ("crates.txt", "HANDLES"):
        shutil.copyfile(f"{TOP}/{name}", f"{to}/{name}")


def build(top, one, verb):
    """Proves a crate of a copy. Returns the status and what was said."""
    ran = subprocess.run(
        ["rt", verb], cwd=f"{top}/crates/{one}", stdin=subprocess.DEVNULL, text=True, errors="replace",
        stdout=subprocess.PIPE, stderr=subprocess.STDOUT)
    return ran.returncode, ran.stdout


def failed(one, said):
    """Tells the end of what was said of a crate that wasn't built."""
    print("".join(said.splitlines(True)[-20:]), end="", file=sys.stderr)
    print(f"ecc: {one} wasn't built", file=sys.stderr, flush=True)
    return 1


def prove_libraries(below, room):
    """Proves all crates but the program, in lanes below the folder. Returns the status."""
    height = ways_up(below)
    free = [f"{room}/{lane}" for lane in range(lanes())]
    for lane in free:
        copy_sources(lane)
    done, running = {PROGRAM}, {}
    with futures.ThreadPoolExecutor(len(free)) as pool:
        while len(done) < len(below):
            busy = [one for one, _ in running.values()]
            ready = [one for one in below if one not in done and one not in busy and done.issuperset(below[one])]
            for one in sorted(ready, key=lambda it: (-height[it], it))[: len(free)]:
                lane = free.pop()
                running[pool.submit(build, lane, one, "lib")] = (one, lane)
                number = len(done) + len(running) - 1
                print(f"ecc: {number} of {len(below)}: {one}", file=sys.stderr, flush=True)
            for end in futures.wait(running, return_when=futures.FIRST_COMPLETED).done:
                one, lane = running.pop(end)
                free.append(lane)
                status, said = end.result()
                if status:
                    return failed(one, said)
                done.add(one)
    return 0


def main():
    below = crates_below(PROGRAM)
    with tempfile.TemporaryDirectory(prefix="ecc-build-") as room:
        status = prove_libraries(below, room)
        if status:
            return status
        print(f"ecc: {len(below)} of {len(below)}: {PROGRAM}", file=sys.stderr, flush=True)
        # With no words the program says 'usage' and ends with status 2: what counts is that it is there.
        _, said = build(TOP, PROGRAM, "run")
    return 0 if os.access(f"{TOP}/crates/{PROGRAM}/out/{PROGRAM}", os.X_OK) else failed(PROGRAM, said)


sys.exit(main())
