#!/usr/bin/env python3
"""Opens files that are longer or shorter than their header says, and tells the time and memory of each.

    bench/lengths.py [PROGRAM]

A store of ten pages is made by `linked_file.py`. It stands alone, before 3 GiB that hold nothing, and under headers that
name fewer pages, more than the file has, the most that a store may have, and more than these. A run on each asks for
`stats` (`places run FILE`): of nine times the least is told, and the peak of memory of one more run, by `/usr/bin/time`.
The two stores of ten pages have to open, with one reply, and all others to be refused; each file has to stay as it was; and
where no more than ten pages are there or are named, no run may take more than twice the time or memory of the first one.
"""
import os
import pathlib
import subprocess
import sys
import tempfile
import time

import linked_file
from linked_file import HEADER, LINK, PAGE_SIZE, Page, Store, Visit, roots
from program import program

RUNS = 9
PAGES, MOST_PAGES = 10, 524_290
STATS = b"stats\tpages\t10\tvisits\t10\titems\t6\torigins\t1\tsum\t1000\tslots\t37\n"

# What is opened: a name, the pages that its header names, its length in bytes, and how a run ends.
FILES = [
    ("ten pages", PAGES, PAGES * PAGE_SIZE, 0),
    ("the same before 3 GiB", PAGES, 3 << 30, 0),
    ("a byte less", PAGES, PAGES * PAGE_SIZE - 1, 7),
    ("a page less is named", PAGES - 1, PAGES * PAGE_SIZE, 7),
    ("no page is named", 0, PAGES * PAGE_SIZE, 7),
    ("a page more is named", PAGES + 1, PAGES * PAGE_SIZE, 7),
    ("a page more is named, and is blank", PAGES + 1, (PAGES + 1) * PAGE_SIZE, 7),
    ("the most pages are named", MOST_PAGES, PAGES * PAGE_SIZE, 7),
    ("as many as a number can tell", (1 << 32) - 1, PAGES * PAGE_SIZE, 7),
    ("a page more than the most, and are there", MOST_PAGES + 1, (MOST_PAGES + 1) * PAGE_SIZE, 7),
    ("as many as a number can tell, and are there", (1 << 32) - 1, ((1 << 32) - 1) * PAGE_SIZE, 7),
    ("the most pages, and are there, but blank", MOST_PAGES, MOST_PAGES * PAGE_SIZE, 7),
]


def ten_pages():
    """As many rows of a page, of which each has a text and a visit, and free slots in the rest."""
    ids = range(1, 11)
    store = Store.of(0, [Page(id, b"https://a.example/%d" % id, b"", False) for id in ids],
                     [Visit(id, id, 0, LINK, 0) for id in ids], roots({}))
    layout = linked_file.layout_of(store)
    layout.free = list(range(len(list(layout.live())) + 1, 8 * (PAGES - 2) + 1))
    return linked_file.file_bytes(store, layout)


def make(path, data, named, length):
    """The file under another header, cut or with a hole behind it."""
    other = bytearray(data)
    HEADER.struct.pack_into(other, PAGE_SIZE, *HEADER.read(data, PAGE_SIZE)._replace(pages=named))
    path.write_bytes(other)
    os.truncate(path, length)


def run(words, path):
    """A run's status and reply, and its time."""
    start = time.perf_counter()
    done = subprocess.run([*words, "run", path], input=b"stats\n", capture_output=True)
    return done.returncode, done.stdout, time.perf_counter() - start


def peak(places, path, room):
    """The most memory that a run holds, in bytes."""
    told = room / "peak"
    run(["/usr/bin/time", "-q", "-f", "%M", "-o", told, places], path)
    return 1024 * int(told.read_text().split()[-1])


def measure(places, name, named, length, status, data, room):
    """The time and memory of a file's opening, which ends so, and leaves its first pages and its length."""
    path = room / "store"
    path.unlink(missing_ok=True)
    make(path, data, named, length)
    start = path.open("rb").read(len(data))
    runs = [run([places], path) for _ in range(RUNS)]
    took, most = min(took for _, _, took in runs), peak(places, path, room)
    if {(ends, said) for ends, said, _ in runs} != {(status, b"" if status else STATS)}:
        sys.exit(f"lengths.py: {name}: {runs[0]}")
    if path.stat().st_size != length or path.open("rb").read(len(data)) != start:
        sys.exit(f"lengths.py: {name}: another file is left")
    print(f"| {name} | {named:,} | {length:,} | {status} | {took * 1e3:.1f} | {most / 2**20:.1f} |", flush=True)
    return took, most


def main():
    places, data = program(), ten_pages()
    print("| File | pages named | bytes | status | ms | peak, MiB |\n|---|---|---|---|---|---|")
    with tempfile.TemporaryDirectory() as room:
        measured = [measure(places, *file, data, pathlib.Path(room)) for file in FILES]
    took, most = measured[0]
    if any(other > 2 * took or memory > 2 * most for other, memory in measured[:-1]):
        sys.exit("lengths.py: a file took more than twice the time or memory of its ten pages")


if __name__ == "__main__":
    main()
