#!/usr/bin/env python3
"""Opens and writes stores of many items with `places run`, and tells how time and memory grow with their number.

    bench/trees.py [PROGRAM]

The files are made here, by the form of `docs/FORMAT.md`: so many folders in one folder, so many each in the one before
it, and so many bookmarks of one page in one folder. A script of one `page` line reads and checks a file; one of one
`visit` line commits it too. Of three runs the least wall time and the greatest peak memory are shown, and each as a
multiple of that for half as many items: 2 says that the cost grows with the number, 4 that it grows with its square. It is
no timed test: it fails only where a reply, or the file that a visit leaves, is another than it must be.
"""
import os
import pathlib
import subprocess
import sys
import tempfile
import time

import linked_file
from linked_file import BOOKMARK, FOLDER, LINK, Item, Page, Store, Visit
from program import program

SIZES = (10_000, 20_000, 40_000)
RUNS = 3

URL = b"https://a.example/"

# What each line is answered. The page has a bookmark and no visit, and after the link counts 100 and 75.
PAGE = (b"page\t" + URL + b"\n", b"page\t1\t140\t0\t-\t0\t0\t1\t" + URL + b"\t\t\n")
VISIT = (b"visit\t" + URL + b"\t1\t0\n", b"visit\t1\tpage\t1\tfrecency\t175\n")


# ---- the items: an id with its kind, its page or 0, and the ids of its children

def roots(menu, toolbar):
    yield 1, FOLDER, 0, range(2, 7)
    yield 2, FOLDER, 0, menu
    yield 3, FOLDER, 0, toolbar
    for item in range(4, 7):
        yield item, FOLDER, 0, ()


def wide(count):
    """Item 7 is the one bookmark, and folder 8 holds the folders from 9 on."""
    yield from roots([8], [7])
    yield 7, BOOKMARK, 1, ()
    yield 8, FOLDER, 0, range(9, 9 + count)
    for item in range(9, 9 + count):
        yield item, FOLDER, 0, ()


def deep(count):
    """Item 7 is the one bookmark, and each folder from 8 on holds the next one."""
    yield from roots([8], [7])
    yield 7, BOOKMARK, 1, ()
    for item in range(8, 8 + count):
        yield item, FOLDER, 0, range(item + 1, min(item + 2, 8 + count))


def one_page(count):
    """Folder 7 holds the bookmarks from 8 on."""
    yield from roots([7], ())
    yield 7, FOLDER, 0, range(8, 8 + count)
    for item in range(8, 8 + count):
        yield item, BOOKMARK, 1, ()


SHAPES = {"folders in one folder": wide, "each in the one before": deep, "bookmarks of one page": one_page}


# ---- the file

def store_of(items, visited):
    """One page, with a visit of the first day or with none, and the items, without titles and of the first moment of 1970."""
    visits = [Visit(1, 1, 0, LINK, 0)] if visited else []
    rows = [Item(item, kind, b"", page, 0, 0, tuple(children)) for item, kind, page, children in items]
    return Store.of(0, [Page(1, URL, b"", False)], visits, rows)


# ---- the runs

def run(places, store, line):
    """The wall time in seconds and the peak memory in MiB of a run of this line, whose reply is looked at."""
    asked, wanted = line
    with tempfile.TemporaryFile() as lines, tempfile.TemporaryFile() as said:
        lines.write(asked)
        lines.seek(0)
        start = time.monotonic()
        running = subprocess.Popen([places, "run", store], stdin=lines, stdout=said)
        _, status, usage = os.wait4(running.pid, 0)
        wall = time.monotonic() - start
        running.returncode = os.waitstatus_to_exitcode(status)
        said.seek(0)
        reply = said.read()
    if (running.returncode, reply) != (0, wanted):
        sys.exit(f"status {running.returncode}, and {reply!r} in the place of {wanted!r}")
    return wall, usage.ru_maxrss / 1024


def measured(places, store, items, line, visited):
    """The least time and the greatest memory of runs over the items, and what each must leave in the file."""
    before, after = linked_file.file_bytes(store_of(items, False)), store_of(items, visited)
    runs = []
    for _ in range(RUNS):
        store.write_bytes(before)
        runs.append(run(places, store, line))
        if linked_file.LinkedFile(store.read_bytes()).store() != after:
            sys.exit("the file holds another store than it must")
    return min(wall for wall, _ in runs), max(peak for _, peak in runs)


def growth(cost, half):
    return "".join(f" {now / old:6.1f}" for now, old in zip(cost, half)) if half else ""


def measure(places, store, name, shape):
    half = None
    for count in SIZES:
        items = list(shape(count))
        cost = (*measured(places, store, items, PAGE, False), *measured(places, store, items, VISIT, True))
        print(f"{name:24} {count:7,} {cost[0]:8.3f} {cost[1]:8.1f} {cost[2]:8.3f} {cost[3]:8.1f}{growth(cost, half)}")
        half = cost


def main():
    places = program()
    print(f"{'':24} {'items':>7} {'page, s':>8} {'MiB':>8} {'visit, s':>8} {'MiB':>8}  as multiples of half as many")
    with tempfile.TemporaryDirectory(dir=".") as folder:
        for name, shape in SHAPES.items():
            measure(places, pathlib.Path(folder) / "store", name, shape)


if __name__ == "__main__":
    main()
