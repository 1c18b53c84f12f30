#!/usr/bin/env python3
"""Imports bookmark files over linked slots and over vectors by `pairs_main`, and times exports.

    bench/exports.py [PROGRAM]
    bench/exports.py PROGRAM vectors    times an export over vectors too, which takes a minute

The files are those of `imports.py`. The largest is imported into both, and the replies are
compared; one of 5,000 rows too, and the exports. The time of an export alone is that of a run that
imports and exports without that of one that imports, of three runs of each the least. It is no
timed test: it fails only where what is compared differs, or where an export does not come back.
"""
import pathlib
import subprocess
import sys
import time

from imports import bookmark, file_of

HOME = pathlib.Path(__file__).resolve().parent.parent
PROGRAM = HOME / "crates/pairs_main/out/pairs_main"
LARGEST = 50_000
SMALL = 5_000
# Of so many rows 409 are folders.
EXPORTED = 20_409
RUNS = 3


def run(program, rows, work, data):
    """What a run says, and its time in seconds."""
    start = time.monotonic()
    done = subprocess.run([program, rows, work], input=data, stdout=subprocess.PIPE)
    seconds = time.monotonic() - start
    if done.returncode:
        said = done.stdout[:1000].decode(errors="backslashreplace")
        sys.exit(f"exports.py: {rows} {work}: {said}")
    return done.stdout, seconds


def least(program, rows, work, data, times):
    """What a run says, and the least time of so many."""
    done = [run(program, rows, work, data) for _ in range(times)]
    return done[0][0], min(seconds for _, seconds in done)


def compare(program, work, rows):
    said, seconds = run(program, "both", work, file_of(rows, bookmark).encode())
    print(f"{work} of {rows} rows into both: {said.decode().strip()}, {seconds:.1f} s", flush=True)


def export(program, rows, data, times):
    """The bookmark file of a store that imports this one."""
    said, importing = least(program, rows, "import", data, times)
    text, whole = least(program, rows, "export", data, times)
    print(f"{rows}: {said.decode().strip()}")
    print(f"  import {importing:.2f} s, export alone {whole - importing:.2f} s, {len(text)} bytes")
    return text


def main():
    program, over_vectors = (sys.argv[1:] + [str(PROGRAM)])[0], sys.argv[2:] == ["vectors"]
    compare(program, "import", LARGEST)
    compare(program, "export", SMALL)
    data = file_of(EXPORTED, bookmark).encode()
    text = export(program, "linked", data, RUNS)
    if run(program, "linked", "export", text)[0] != text:
        sys.exit("exports.py: what was exported does not come back the same")
    if over_vectors and export(program, "flat", data, 1) != text:
        sys.exit("exports.py: the exports differ")


if __name__ == "__main__":
    main()
