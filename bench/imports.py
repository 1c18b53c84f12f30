#!/usr/bin/env python3
"""Imports bookmark files by `places import`, and tells the time and peak memory, beside a program of Python on the same files.

    bench/imports.py [PROGRAM]

The peer reads the file by `html.parser`, and puts pages, bookmarks, tags and frecencies into an SQLite database in one
transaction that is synced. Both start with an empty store, and what they hold is compared afterwards: a sample of pages and
of lists. Of three runs the least time is told. Then `places import` by its parts, each a difference of two runs: opening and
committing (a `folder` line on the store that was left), reading (the reader alone, if `crates/nbread_main` was built),
placing (as many folders with the same titles), and the rest, which is pages, tags and frecencies.
"""
import html.parser
import os
import pathlib
import sqlite3
import subprocess
import sys
import tempfile
import time

from program import program

HOME = pathlib.Path(__file__).resolve().parent.parent
SIZES = (5_000, 50_000)
IN_FOLDER = 50
DOCTYPE = "<!DOCTYPE NETSCAPE-Bookmark-file-1>\n<TITLE>Bookmarks</TITLE>\n<H1>Bookmarks</H1>\n<DL><p>\n"


def url(number):
    return f"https://h{number % 997}.example/p{number}"


def bookmark(number):
    return (f'<DT><A HREF="{url(number)}" ADD_DATE="{1600000000 + number}" LAST_MODIFIED="{1700000000 + number}" '
            f'TAGS="tag{number % 7},news">Page &amp; {number}</A>\n')


def folder(number):
    return f"<DT><H3>Page &amp; {number}</H3>\n"


def file_of(rows, line):
    """A file with so many rows: a folder begins each group of fifty."""
    parts = [DOCTYPE]
    for number in range(rows):
        if number % IN_FOLDER == 0:
            parts.append(("</DL><p>\n" if number else "") + f"<DT><H3>Folder {number // IN_FOLDER}</H3>\n<DL><p>\n")
        else:
            parts.append(line(number))
    return "".join(parts + ["</DL><p>\n", "</DL><p>\n"])


# ---- the peer

class Reader(html.parser.HTMLParser):
    """The rows of a file: (parent, title, url, added, tags)."""

    def __init__(self):
        super().__init__(convert_charrefs=True)
        self.rows, self.open, self.pending, self.row = [], [0], None, None

    def handle_starttag(self, tag, attributes):
        said = dict(attributes)
        if tag in ("a", "h3"):
            self.row = [self.open[-1], "", said.get("href"), int(said.get("add_date", 0)),
                        [t for t in said.get("tags", "").split(",") if t]]
            self.rows.append(self.row)
            self.pending = len(self.rows) if tag == "h3" else None
        elif tag == "dl":
            self.open.append(self.pending or self.open[-1])
            self.pending = None

    def handle_endtag(self, tag):
        if tag in ("a", "h3"):
            self.row = None
        elif tag == "dl" and len(self.open) > 1:
            self.open.pop()

    def handle_data(self, data):
        if self.row:
            self.row[1] += data


SCHEMA = """
CREATE TABLE moz_places (id INTEGER PRIMARY KEY, url TEXT UNIQUE, frecency INTEGER NOT NULL DEFAULT -1);
CREATE TABLE moz_bookmarks (id INTEGER PRIMARY KEY, type INTEGER, fk INTEGER, parent INTEGER, position INTEGER, title TEXT,
    dateAdded INTEGER);
CREATE INDEX moz_bookmarks_itemindex ON moz_bookmarks (fk, parent);
CREATE INDEX moz_bookmarks_parentindex ON moz_bookmarks (parent, position);
"""


def peer(path, database):
    """Imports the file into the database in one transaction."""
    reader = Reader()
    reader.feed(pathlib.Path(path).read_text())
    reader.close()
    base = sqlite3.connect(database)
    base.executescript("PRAGMA journal_mode = DELETE; PRAGMA synchronous = FULL;" + SCHEMA)
    tags, position, ids = {}, {}, [0]
    with base:
        for parent, title, address, added, names in reader.rows:
            page = None
            if address:
                base.execute("INSERT OR IGNORE INTO moz_places (url) VALUES (?)", (address,))
                page = base.execute("SELECT id FROM moz_places WHERE url = ?", (address,)).fetchone()[0]
            position[parent] = position.get(parent, -1) + 1
            made = base.execute("INSERT INTO moz_bookmarks VALUES (NULL, ?, ?, ?, ?, ?, ?)",
                                (1 if address else 2, page, ids[parent], position[parent], title, added * 1_000_000))
            ids.append(made.lastrowid)
            for name in names:
                tag = tags.setdefault(name.casefold(), -len(tags) - 1)
                if not base.execute("SELECT 1 FROM moz_bookmarks WHERE fk = ? AND parent = ?", (page, tag)).fetchone():
                    base.execute("INSERT INTO moz_bookmarks (type, fk, parent, dateAdded) VALUES (1, ?, ?, ?)",
                                 (page, tag, added * 1_000_000))
        base.execute("UPDATE moz_places SET frecency = 140 WHERE EXISTS (SELECT 1 FROM moz_bookmarks b WHERE b.fk = moz_places.id)")
    base.close()


# ---- runs

def run(words, data=b""):
    """What a run says, its time in seconds and its peak of memory in MiB."""
    with tempfile.TemporaryFile() as file, tempfile.TemporaryFile() as said:
        file.write(data)
        file.seek(0)
        start = time.perf_counter()
        child = subprocess.Popen(words, stdin=file, stdout=said)
        _, status, usage = os.wait4(child.pid, 0)
        took = time.perf_counter() - start
        said.seek(0)
        if status != 0:
            sys.exit(f"{words} ended with {status}")
        return said.read(), took, usage.ru_maxrss / 1024


def imported(places, room, data):
    """The store after an import into a new one; of three runs the least time, and the greatest peak."""
    best, peak, store = None, 0, room / "store"
    for _ in range(3):
        store.unlink(missing_ok=True)
        run([places, "new", str(store)])
        said, took, memory = run([places, "import", str(store)], data)
        best, peak = min(took, best or took), max(peak, memory)
    return store, said, best, peak


def beside(room, path):
    best, peak, base = None, 0, room / "base"
    for _ in range(3):
        base.unlink(missing_ok=True)
        _, took, memory = run([sys.executable, __file__, "--peer", str(path), str(base)])
        best, peak = min(took, best or took), max(peak, memory)
    return base, best, peak


def compare(places, store, base, rows):
    """Pages as both hold them: many of a small store, and the first of a large one, where `page` goes through the tags."""
    base = sqlite3.connect(base)
    numbers = [n for n in range(1, rows, rows // 97) if n % IN_FOLDER] if rows <= SIZES[0] else [1]
    said, _, _ = run([places, "run", str(store)], "".join(f"page\t{url(n)}\n" for n in numbers).encode())
    for number, line in zip(numbers, said.decode().splitlines()):
        page, frecency, *_, tags = line.split("\t")[1:]
        theirs = base.execute("SELECT frecency FROM moz_places WHERE url = ?", (url(number),)).fetchone()
        if (int(frecency),) != theirs or tags != f"news,tag{number % 7}":
            sys.exit(f"the replies differ: {line}")
    # Item 7 is the first folder.
    said, _, _ = run([places, "run", str(store)], b"list\t7\n")
    theirs = base.execute("SELECT title FROM moz_bookmarks WHERE parent = 1 ORDER BY position").fetchall()
    if [line.split("\t")[2] for line in said.decode().splitlines()[1:]] != [title for title, in theirs]:
        sys.exit("the lists differ")
    count = base.execute("SELECT count(*) FROM moz_places").fetchone()[0]
    # The id of a new page is one more than the number of pages.
    said, _, _ = run([places, "run", str(store)], b"visit\thttps://new.example/\t1\t0\n")
    if said.split(b"\t")[3] != str(count + 1).encode():
        sys.exit(f"the numbers of pages differ: {said} and {count}")
    base.close()


def main():
    places = program()
    with tempfile.TemporaryDirectory() as room:
        room = pathlib.Path(room)
        for rows in SIZES:
            text = file_of(rows, bookmark)
            path = room / "bookmarks.html"
            path.write_text(text)
            data = text.encode()
            store, said, ours, our_peak = imported(places, room, data)
            base, theirs, their_peak = beside(room, path)
            compare(places, store, base, rows)
            print(f"{rows} rows, {len(data)} bytes: {said.decode().strip()}")
            print(f"  places import     {ours:7.2f} s {our_peak:6.0f} MiB, a store of {store.stat().st_size} bytes")
            print(f"  Python and SQLite {theirs:7.2f} s {their_peak:6.0f} MiB")
            _, committing, _ = run([places, "run", str(store)], b"folder\t5\tend\tF\t0\n")
            reader = HOME / "crates/nbread_main/out/nbread_main"
            reading = run([str(reader)], data)[1] if reader.exists() else 0
            _, _, folders, _ = imported(places, room, file_of(rows, folder).encode())
            print(f"  opening and committing {committing:.2f}, reading {reading:.2f}, an import of as many folders {folders:.2f} s")


if __name__ == "__main__":
    if sys.argv[1:2] == ["--peer"]:
        peer(*sys.argv[2:])
    else:
        main()
