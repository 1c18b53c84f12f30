#!/usr/bin/env python3
"""Times the opening of files of linked slots, and its check alone, beside SQLite's checks of databases with the same rows.

    bench/open.py [CHECKER [PROGRAM]]

CHECKER is by default crates/files_main/out/files_main, which `rt ci files_main` builds, and PROGRAM out/places, which the
launcher builds. CHECKER checks a file; PROGRAM runs an empty script on it (`places run FILE`): it checks the file, and makes
what it keeps of each page in memory.

The files are made by `linked_file.py`: histories of about 1, 10 and 80 MB, 148,000 items, and as many slots as a store may
take, which the longest URLs fill. The databases have the tables and indexes of `schema.sql` with the other fields of the
rows, and bookmarks with their indexes. By turns each file is checked, and opened, and each database opened for `PRAGMA
integrity_check` and `PRAGMA quick_check`: of three times the least is told. The peak of memory is that of one more run, by
`/usr/bin/time`. It is no timed test: it fails only where a file is not accepted, or said to have another number of slots,
or where SQLite finds a fault.
"""
import os
import pathlib
import random
import sqlite3
import subprocess
import sys
import tempfile
import time

import linked_file
from imports import IN_FOLDER, url
from linked_file import BOOKMARK, DAY, FOLDER, LINK, PERMANENT, RELOAD, TYPED, Item, Page, Store, Visit, roots
from program import program

SCHEMA = pathlib.Path(__file__).with_name("schema.sql")
RUNS = 3
FIRST_DAY, DAYS = 19_000, 120
VISITS_EACH, PAGES_PER_BOOKMARK = 3, 20
LONGEST_URL = 65_536
WORDS = ("alpha bravo charlie delta echo foxtrot golf hotel india juliett kilo lima mike november oscar papa quebec "
         "romeo sierra tango uniform victor whiskey xray yankee").split()

# What is made: a name, how it is made, and how many pages or rows of a bookmark file.
STORES = [
    ("history of 1 MB", "history", 1_250),
    ("history of 10 MB", "history", 12_500),
    ("history of 80 MB", "history", 100_000),
    ("148,000 items", "items", 50_000),
    ("the most slots", "longest", 4_194_304),
]

# What the rows have beside the columns that `schema.sql` makes, which a script of visits fills.
MORE = """
DROP TABLE replies;
CREATE TABLE moz_origins (id INTEGER PRIMARY KEY, prefix TEXT NOT NULL, host TEXT NOT NULL, frecency INTEGER NOT NULL,
    UNIQUE (prefix, host));
ALTER TABLE moz_places ADD COLUMN title TEXT;
ALTER TABLE moz_places ADD COLUMN origin_id INTEGER;
ALTER TABLE moz_places ADD COLUMN frecency INTEGER;
ALTER TABLE moz_places ADD COLUMN visit_count INTEGER;
ALTER TABLE moz_places ADD COLUMN hidden INTEGER;
ALTER TABLE moz_historyvisits ADD COLUMN from_visit INTEGER;
CREATE TABLE moz_bookmarks (id INTEGER PRIMARY KEY, type INTEGER, fk INTEGER, parent INTEGER, position INTEGER, title TEXT,
    dateAdded INTEGER, lastModified INTEGER);
CREATE INDEX moz_bookmarks_itemindex ON moz_bookmarks (fk, type);
CREATE INDEX moz_bookmarks_parentindex ON moz_bookmarks (parent, position);
CREATE INDEX moz_bookmarks_itemlastmodifiedindex ON moz_bookmarks (fk, lastModified);
CREATE INDEX moz_bookmarks_dateaddedindex ON moz_bookmarks (dateAdded);
"""


# ---- stores

def text(chance, least, most):
    """Words of so many bytes in all, with a hyphen between two."""
    length = chance.randint(least, most)
    return "-".join(chance.choices(WORDS, k=1 + length // 5))[:length].rstrip("-").encode()


def history(count):
    """Pages with three visits each, which come in a mixed order, and a bookmark for one page in twenty."""
    chance = random.Random(count)
    order = [page for page in range(1, count + 1) for _ in range(VISITS_EACH)]
    chance.shuffle(order)
    step = DAYS * DAY // len(order)
    visits = []
    for id, page in enumerate(order, 1):
        transition = chance.choices((LINK, TYPED, RELOAD, PERMANENT), (80, 10, 7, 3))[0]
        source = id - 1 if id > 1 and (transition == PERMANENT or chance.random() < 0.5) else 0
        visits.append(Visit(id, page, FIRST_DAY * DAY + id * step, transition, source))
    typed = {visit.page for visit in visits if visit.transition == TYPED}
    pages = []
    for id in range(1, count + 1):
        address = b"https://h%d.example/%d/%b" % (id % 997, id, text(chance, 15, 120))
        pages.append(Page(id, address, text(chance, 10, 120), id in typed))
    items = Items()
    for number, page in enumerate(range(PAGES_PER_BOOKMARK, count + 1, PAGES_PER_BOOKMARK)):
        if number % IN_FOLDER == 0:
            folder = items.add(2, FOLDER, text(chance, 5, 30), 0)
        items.add(folder, BOOKMARK, text(chance, 10, 100), page)
    return Store.of(FIRST_DAY + DAYS, pages, visits, items.rows())


def bookmarks(count):
    """What an import of so many rows leaves: a folder to each 49 bookmarks, of which each has a page and two tags."""
    pages, items, folders = [], Items(), {}
    for number in range(count):
        if number % IN_FOLDER == 0:
            folder = items.add(2, FOLDER, b"Folder %d" % (number // IN_FOLDER), 0)
            continue
        page = len(pages) + 1
        pages.append(Page(page, url(number).encode(), b"", False))
        items.add(folder, BOOKMARK, b"Page & %d" % number, page)
        for tag in (b"tag%d" % (number % 7), b"news"):
            if tag not in folders:
                folders[tag] = items.add(4, FOLDER, tag, 0)
            items.add(folders[tag], BOOKMARK, b"", page)
    return Store.of(0, pages, [], items.rows())


def longest(slots):
    """So many slots: pages of one host with a visit each and the longest URLs, and one whose URL fills the rest."""
    left = slots - len(roots({})) - 1
    urls = []
    while left:
        parts = min(linked_file.parts(bytes(LONGEST_URL)), left - 2)
        start = b"https://h.example/%d/" % len(urls)
        urls.append(start.ljust(min(LONGEST_URL, parts * linked_file.PART_SIZE), b"x"))
        left -= 2 + parts
    pages = [Page(id, address, b"", False) for id, address in enumerate(urls, 1)]
    visits = [Visit(page.id, page.id, FIRST_DAY * DAY + page.id, LINK, 0) for page in pages]
    return Store.of(FIRST_DAY, pages, visits, roots({}))


class Items:
    """Items behind the roots, each at the end of its folder."""

    def __init__(self):
        self.added, self.children = [], {}

    def add(self, parent, kind, title, page):
        id = 7 + len(self.added)
        self.added.append((id, kind, title, page, 1_600_000_000_000_000 + id, 1_700_000_000_000_000 + id))
        self.children.setdefault(parent, []).append(id)
        return id

    def rows(self):
        return roots(self.children) + [Item(*row, tuple(self.children.get(row[0], ()))) for row in self.added]


# ---- the peer

def database(store, path):
    """A database file with the rows of a store."""
    base, kept = sqlite3.connect(path), linked_file.marks(store)
    base.executescript(SCHEMA.read_text() + MORE)
    origins = {}
    for page in store.pages:
        id, total = origins.get(linked_file.origin_of(page.url), (len(origins) + 1, 0))
        origins[linked_file.origin_of(page.url)] = id, total + max(kept[page.id].frecency, 0)
    places = {child: (item.id, position) for item in store.items for position, child in enumerate(item.children)}
    with base:
        base.executemany("INSERT INTO moz_origins VALUES (?, ?, ?, ?)",
                         ((id, prefix.decode(), host.decode(), total) for (prefix, host), (id, total) in origins.items()))
        base.executemany("INSERT INTO moz_places VALUES (?, ?, ?, ?, ?, ?, ?, ?)", (
            (page.id, page.url.decode(), page.typed, page.title.decode(), origins[linked_file.origin_of(page.url)][0],
             *kept[page.id]) for page in store.pages))
        base.executemany("INSERT INTO moz_historyvisits VALUES (?, ?, ?, ?, ?)", (
            (visit.id, visit.page, visit.date, visit.transition, visit.source) for visit in store.visits))
        base.executemany("INSERT INTO moz_bookmarks VALUES (?, ?, ?, ?, ?, ?, ?, ?)", (
            (item.id, item.kind, item.page or None, *places.get(item.id, (0, 0)), item.title.decode(), item.added,
             item.modified) for item in store.items))
    base.close()


def make(kind, count, file, base):
    """Writes the file and the database, and says how many slots are live."""
    store = {"history": history, "items": bookmarks, "longest": longest}[kind](int(count))
    layout = linked_file.layout_of(store)
    pathlib.Path(file).write_bytes(linked_file.file_bytes(store, layout))
    database(store, base)
    print(sum(1 for _ in layout.live()))


# ---- runs

def check(words, file, live):
    """The time in seconds of a check of the file, which comes on standard input."""
    with open(file, "rb") as stdin:
        start = time.perf_counter()
        done = subprocess.run(words, stdin=stdin, capture_output=True)
        took = time.perf_counter() - start
    if done.returncode or done.stdout != live:
        sys.exit(f"open.py: {' '.join(words)}: status {done.returncode}, {done.stdout!r} for {live!r}, {done.stderr!r}")
    return took


def opened(words, file):
    """The time of a run without a line on the file."""
    start = time.perf_counter()
    done = subprocess.run([*words, "run", str(file)], stdin=subprocess.DEVNULL, capture_output=True)
    took = time.perf_counter() - start
    if done.returncode or done.stdout:
        sys.exit(f"open.py: {' '.join(words)} run: status {done.returncode}, {done.stdout!r}, {done.stderr!r}")
    return took


def pragma(word, path):
    """The time in which SQLite opens the database and makes one of its checks."""
    start = time.perf_counter()
    base = sqlite3.connect(path)
    said = base.execute(f"PRAGMA {word}").fetchall()
    took = time.perf_counter() - start
    base.close()
    if said != [("ok",)]:
        sys.exit(f"open.py: {word}: {said[:3]}")
    return took


def peak(run, words, room):
    """The most memory that a run holds, in bytes. `/usr/bin/time` starts it: of a child of Python it would be Python's."""
    told = room / "peak"
    run(["/usr/bin/time", "-f", "%M", "-o", str(told), *words])
    return 1024 * int(told.read_text())


def measure(checker, places, name, kind, count, room):
    file, base = room / "file", room / "base"
    base.unlink(missing_ok=True)
    # In a process of its own, which gives back the memory that the rows take.
    made = subprocess.run([sys.executable, __file__, "--make", kind, str(count), str(file), str(base)],
                          stdout=subprocess.PIPE, check=True)
    live = made.stdout
    turns = [(check([checker, "check"], file, live), opened([places], file), pragma("integrity_check", base),
              pragma("quick_check", base)) for _ in range(RUNS)]
    checked, open_all, whole, quick = (min(times) for times in zip(*turns))
    size = file.stat().st_size
    check_peak = peak(lambda words: check(words, file, live), [checker, "check"], room)
    open_peak = peak(lambda words: opened(words, file), [places], room)
    print(f"| {name} | {size / 1e6:.1f} | {int(live):,} | {checked:.3f} | {check_peak / size:.2f} | {open_all:.3f} "
          f"| {open_peak / size:.2f} | {base.stat().st_size / 1e6:.1f} | {whole:.3f} | {quick:.3f} |", flush=True)


def machine():
    lines = pathlib.Path("/proc/cpuinfo").read_text().splitlines()
    model = next((line.split(":")[1].strip() for line in lines if line.startswith("model name")), "unknown")
    load = ", ".join(f"{load:.1f}" for load in os.getloadavg())
    return f"{os.cpu_count()} processors ({model}); load {load}; sqlite3 {sqlite3.sqlite_version}"


def main():
    checker = linked_file.program("open.py")
    del sys.argv[1:2]
    places = program()
    print(f"{machine()}\n")
    print("| Store | file, MB | slots | `check`, s | peak / file | opened, s | peak / file | database, MB "
          "| `integrity_check`, s | `quick_check`, s |\n|---|---|---|---|---|---|---|---|---|---|")
    with tempfile.TemporaryDirectory() as room:
        for name, kind, count in STORES:
            measure(checker, places, name, kind, count, pathlib.Path(room))
    print(f"\n{machine()}")


if __name__ == "__main__":
    if sys.argv[1:2] == ["--make"]:
        make(*sys.argv[2:])
    else:
        main()
