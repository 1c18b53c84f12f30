#!/usr/bin/env python3
"""Times a drill of `places drill`, and visits of `places run` through a pipe, beside SQLite with the same work in one run.

    bench/drill.py [PROGRAM]

The lines of the drill are made here again, and done by Python's sqlite3 on databases in the same folder, each in a
transaction of its own that is synced: with a write-ahead log, and with a rollback journal that is deleted. Of three runs
the least wall time is shown. The bytes that are written come from one more run of each under strace. The same lines are
run by `places try` too, which has to refuse as many of them and to say the same of its store.

Then visits go one by one through a pipe to `places run`, and to this script with a database, each when the one before it
was answered: on a new store, and on one of 100,000 pages with 300,000 visits. One more run of each under strace tells the
bytes that are written and how long the device calls of a visit take, from its first write to the end of its last sync.

It is no timed test: it fails only where a program fails, or where the two hold different numbers of pages, visits and
items, or refused different numbers of lines. It needs python3, and installs strace by `apt-get` where it is missing.
"""
import importlib
import pathlib
import random
import re
import shutil
import sqlite3
import statistics
import subprocess
import sys
import tempfile
import time

import linked_file
from program import new_store, program

SIZES = 200, 2000
SEED = 1
RUNS = 3

# The visits through a pipe: to so many pages of a new store, and to some of a large one.
VISITS, FEW_PAGES = 1_000, 100
LARGE, LARGE_VISITS = 100_000, 200
TRACED_VISITS = 50

# How the database keeps what is not yet in its place.
MODES = {"SQLite, WAL": "WAL", "SQLite, DELETE": "DELETE"}
OURS = "places"

# What a commit writes of each page, and beside its pages.
A_PAGE, A_COMMIT = 2_056, 18

DAY = 86_400 * 1_000_000
UNFILED = 5
WRITE = re.compile(r"(?:pwrite64|write)\(\d+<([^>]*)>, .*\) += (\d+)(?: <[\d.]+>)?$")
REPLY = re.compile(r'write\(1<[^>]*>, "([a-z]+)')
CALL = re.compile(r"^\d+ +([\d.]+) (pwrite64|write|fsync|fdatasync)\(\d+<([^>]*)>.* <([\d.]+)>$")

SCHEMA = """
CREATE TABLE moz_places (
    id INTEGER PRIMARY KEY, url TEXT NOT NULL UNIQUE, title TEXT NOT NULL DEFAULT '', typed INTEGER NOT NULL DEFAULT 0,
    frecency INTEGER NOT NULL DEFAULT 0
);
CREATE TABLE moz_historyvisits (
    id INTEGER PRIMARY KEY AUTOINCREMENT, place_id INTEGER NOT NULL, visit_date INTEGER NOT NULL,
    visit_type INTEGER NOT NULL, from_visit INTEGER
);
CREATE INDEX moz_historyvisits_placedateindex ON moz_historyvisits (place_id, visit_date);
CREATE INDEX moz_historyvisits_dateindex ON moz_historyvisits (visit_date);
CREATE TABLE moz_bookmarks (
    id INTEGER PRIMARY KEY AUTOINCREMENT, parent INTEGER, fk INTEGER, title TEXT NOT NULL, dateAdded INTEGER NOT NULL
);
CREATE INDEX moz_bookmarks_itemindex ON moz_bookmarks (fk);
CREATE INDEX moz_bookmarks_parentindex ON moz_bookmarks (parent);
CREATE TABLE meta (day INTEGER NOT NULL);
INSERT INTO meta VALUES (0);
INSERT INTO moz_bookmarks VALUES (1, 0, NULL, '', 0), (2, 1, NULL, '', 0), (3, 1, NULL, '', 0), (4, 1, NULL, '', 0),
    (5, 1, NULL, '', 0), (6, 1, NULL, '', 0);
"""

# Ten of the latest visits of a page, each with its weight by its age in days.
FRECENCY = """
UPDATE moz_places SET frecency = coalesce((
    SELECT sum(weight * CASE visit_type WHEN 2 THEN 2000 WHEN 1 THEN 100 WHEN 3 THEN 75 ELSE 0 END) / 100 FROM (
        SELECT visit_type, CASE
            WHEN :day - visit_date / 86400000000 <= 4 THEN 100 WHEN :day - visit_date / 86400000000 <= 14 THEN 70
            WHEN :day - visit_date / 86400000000 <= 31 THEN 50 WHEN :day - visit_date / 86400000000 <= 90 THEN 30
            ELSE 10 END AS weight
        FROM moz_historyvisits WHERE place_id = moz_places.id ORDER BY visit_date DESC LIMIT 10)), 0)
"""

UNKEPT = """
DELETE FROM moz_places WHERE id NOT IN (SELECT place_id FROM moz_historyvisits)
    AND id NOT IN (SELECT fk FROM moz_bookmarks WHERE fk IS NOT NULL)
"""


class Refused(Exception):
    pass


class Chance:
    def __init__(self, seed):
        self.number = seed

    def below(self, bound):
        self.number = (self.number * 6364136223846793005 + 1442695040888963407) % 2**64
        return (self.number >> 33) % bound


class Peer:
    """The work of a drill on a database of Places' own columns."""

    def __init__(self, path, mode):
        is_new = not pathlib.Path(path).exists()
        self.base = sqlite3.connect(path, isolation_level=None)
        self.base.execute(f"PRAGMA journal_mode = {mode}")
        self.base.execute("PRAGMA synchronous = FULL")
        if is_new:
            self.base.executescript(SCHEMA)

    def fill(self, store):
        """The pages and visits of a store in place of none."""
        kept = linked_file.marks(store)
        self.base.execute("BEGIN")
        self.base.execute("UPDATE meta SET day = ?", (store.day,))
        self.base.executemany("INSERT INTO moz_places VALUES (?, ?, ?, ?, ?)", (
            (page.id, page.url.decode(), page.title.decode(), page.typed, kept[page.id].frecency) for page in store.pages))
        self.base.executemany("INSERT INTO moz_historyvisits VALUES (?, ?, ?, ?, ?)", (
            (visit.id, visit.page, visit.date, visit.transition, visit.source or None) for visit in store.visits))
        self.base.execute("COMMIT")

    def one(self, statement, *values):
        row = self.base.execute(statement, values).fetchone()
        return row and row[0]

    def page(self, url):
        self.base.execute("INSERT OR IGNORE INTO moz_places (url) VALUES (?)", (url,))
        return self.one("SELECT id FROM moz_places WHERE url = ?", url)

    def score(self, page):
        day = self.one("SELECT day FROM meta")
        self.base.execute(FRECENCY + " WHERE id = :page", {"day": day, "page": page})

    def day(self, day):
        if day < self.one("SELECT day FROM meta"):
            raise Refused
        self.base.execute("UPDATE meta SET day = ?", (day,))
        self.base.execute(FRECENCY, {"day": day})

    def visit(self, url, transition, date, source=None):
        if source and not self.one("SELECT 1 FROM moz_historyvisits WHERE id = ?", source):
            raise Refused
        page = self.page(url)
        self.base.execute("UPDATE moz_places SET typed = typed OR ? WHERE id = ?", (transition == 2, page))
        visit = self.base.execute(
            "INSERT INTO moz_historyvisits (place_id, visit_date, visit_type, from_visit) VALUES (?, ?, ?, ?)",
            (page, date, transition, source),
        ).lastrowid
        self.score(page)
        return visit

    def insert(self, parent, page, title, date):
        return self.base.execute(
            "INSERT INTO moz_bookmarks (parent, fk, title, dateAdded) VALUES (?, ?, ?, ?)", (parent, page, title, date)
        ).lastrowid

    def bookmark(self, parent, _place, url, title, date):
        page = self.page(url)
        self.insert(parent, page, title, date)
        self.score(page)

    def tag(self, url, name, date):
        page = self.page(url)
        folder = self.one("SELECT id FROM moz_bookmarks WHERE parent = 4 AND title = ?", name)
        if folder and self.one("SELECT 1 FROM moz_bookmarks WHERE parent = ? AND fk = ?", folder, page):
            raise Refused
        self.insert(folder or self.insert(4, None, name, date), page, "", date)
        self.score(page)

    def title(self, url, text):
        if not self.base.execute("UPDATE moz_places SET title = ? WHERE url = ?", (text, url)).rowcount:
            raise Refused

    def expire(self, day):
        self.base.execute("DELETE FROM moz_historyvisits WHERE visit_date < ?", (day * DAY,))
        self.base.execute(UNKEPT)

    def bar(self, most, text):
        self.base.execute(
            "SELECT id FROM moz_places WHERE url LIKE ? OR title LIKE ? ORDER BY frecency DESC, id LIMIT ?",
            (f"%{text}%", f"%{text}%", most),
        ).fetchall()

    def sizes(self):
        return [self.one(f"SELECT count(*) FROM {table}") for table in ("moz_places", "moz_historyvisits", "moz_bookmarks")]


def drawn(chance, number, day, last):
    """The fields of a line."""
    kind, host, path, tag = (chance.below(bound) for bound in (16, 50, 200, 9))
    url, date = f"https://h{host}.example/p{path}", day * DAY + number
    if kind < 10:
        source = [last] if last and tag + 1 in (5, 6) else []
        return ["visit", url, tag + 1, date, *source]
    return [
        ["bookmark", UNFILED, "end", url, f"t{number}", date],
        ["tag", url, f"tag{tag}", date],
        ["day", day + 1],
        ["title", url, f"page {number}"],
        ["expire", day - 60],
        ["bar", 10, f"p{path}"],
    ][kind - 10]


def drill(path, mode, count):
    """Runs the drill on a new database: how many lines were refused and the numbers of rows, and the lines."""
    peer, chance, day, last, refused, lines = Peer(path, mode), Chance(SEED), 19_000, None, 0, []
    for number in range(count + 1):
        name, *fields = ["day", day] if number == 0 else drawn(chance, number, day, last)
        lines.append("\t".join(map(str, [name, *fields])))
        peer.base.execute("BEGIN")
        try:
            visit = getattr(peer, name)(*fields)
            peer.base.execute("COMMIT")
            last = visit or last
        except Refused:
            peer.base.execute("ROLLBACK")
            refused += 1
        day = fields[0] if name == "day" else day
    return [refused, *peer.sizes()], lines


def in_memory(places, lines):
    """How many of the lines `places try` refuses, and what it says of the store behind them."""
    script = "\n".join([*lines, "stats", ""])
    done = subprocess.run([places, "try"], input=script, capture_output=True, check=True, text=True)
    said = done.stdout.splitlines()
    return f"refused\t{sum(line.startswith('refused') for line in said)}", said[-1]


def ours(places, store, count):
    done = subprocess.run([places, "drill", store, str(count), str(SEED)], capture_output=True, check=True, text=True)
    return done.stdout.splitlines()


def numbers(said):
    """How many lines were refused and the numbers of rows, as a summary says."""
    told = said[1].split("\t")
    return [int(said[0].split("\t")[3]), int(told[2]), int(told[4]), int(told[6])]


def written(log, name):
    """How many bytes a traced run wrote into files with this name."""
    found = (WRITE.search(line) for line in log.read_text().splitlines())
    return sum(int(write[2]) for write in found if write and pathlib.Path(write[1]).name.startswith(name))


def pages_of_visits(log, name):
    """How many pages each visit that was answered wrote: an image in the journal, one in its place, and a number."""
    pages, wrote = [], 0
    for line in log.read_text().splitlines():
        if reply := REPLY.search(line):
            if reply[1] == "visit":
                pages.append((wrote - A_COMMIT) / A_PAGE)
            wrote = 0
        elif (write := WRITE.search(line)) and pathlib.Path(write[1]).name.startswith(name):
            wrote += int(write[2])
    return pages


def trace_of(work, command, lines=None):
    """What strace tells of the writes and syncs of a command."""
    log = work / "trace"
    trace = ["strace", "-f", "-y", "-ttt", "-T", "-s", "8", "-e", "trace=pwrite64,write,fsync,fdatasync", "-o", log]
    subprocess.run([*trace, *command], input=lines, check=True, stdout=subprocess.DEVNULL)
    return log


def peer_command(work, mode, *words):
    """This script with some work on a database of a mode."""
    return [sys.executable, __file__, work, mode, *words]


# ---- the drill

def measure_drill(places, work, count):
    took, said, done = {name: [] for name in (OURS, *MODES)}, [], []
    for run in range(RUNS):
        store = work / f"store{count}.{run}"
        new_store(places, store)
        start = time.monotonic()
        said.append(ours(places, store, count))
        took[OURS].append(time.monotonic() - start)
        for name, mode in MODES.items():
            start = time.monotonic()
            done.append(drill(work / f"{mode}{count}.{run}", mode, count))
            took[name].append(time.monotonic() - start)
    rows, lines = done[0]
    if any(summary != said[0] for summary in said) or any(numbers(said[0]) != other for other, _ in done):
        sys.exit(f"the numbers of refused lines, pages, visits and items differ: {said}, and {[other for other, _ in done]}")
    refused, stats = in_memory(places, lines)
    if not said[0][0].endswith(refused) or stats != said[0][1]:
        sys.exit(f"in memory the lines come to {refused} and {stats}, and in a file to {said[0]}")
    store = work / f"traced{count}"
    new_store(places, store)
    bytes_written = {OURS: written(trace_of(work, [places, "drill", store, str(count), str(SEED)]), store.name)}
    for name, mode in MODES.items():
        path = work / f"peer{mode}{count}"
        bytes_written[name] = written(trace_of(work, peer_command("--drill", mode, path, str(count))), path.name)
    store = work / f"visits{count}"
    new_store(places, store)
    pages = pages_of_visits(trace_of(work, [places, "run", store], "\n".join([*lines, ""]).encode()), store.name)
    print(f"\n{count} lines: {rows[0]} refused, {rows[1]} pages, {rows[2]} visits, {rows[3]} items; in memory the same")
    print(f"{'':16}{'wall, s':>10}{'lines a second':>16}{'bytes a line':>16}")
    for name, times in took.items():
        print(f"{name:16}{min(times):10.2f}{(count + 1) / min(times):16.0f}{bytes_written[name] / (count + 1):16.0f}")
    print(f"pages a visit: {statistics.mean(pages):.1f} in the mean of {len(pages)}, at most {max(pages):.0f}")


# ---- visits through a pipe

def answer_visits(mode, path):
    """Does each visit of standard input on a database, and answers it."""
    peer = Peer(path, mode)
    for line in sys.stdin:
        _, url, transition, date = line.rstrip("\n").split("\t")
        peer.base.execute("BEGIN")
        visit = peer.visit(url, int(transition), int(date))
        peer.base.execute("COMMIT")
        print(f"visit\t{visit}", flush=True)


def piped(command, lines):
    """How long each line waits for its answer, in seconds."""
    child, times = subprocess.Popen(command, stdin=subprocess.PIPE, stdout=subprocess.PIPE, bufsize=0), []
    said = child.stdout
    for line in lines:
        start = time.perf_counter()
        child.stdin.write(line)
        answer = said.readline()
        times.append(time.perf_counter() - start)
        if not answer.startswith((b"visit\t", b"page\t")):
            sys.exit(f"{line!r}: {answer!r}")
    child.stdin.close()
    if child.wait():
        sys.exit(f"{command} failed")
    return times


def device_times(log, name, count):
    """How long the device calls of each of the last visits take, from the first write to the end of the last sync."""
    spans, begin, end = [], None, None
    for line in log.read_text().splitlines():
        call = CALL.search(line)
        if not call:
            continue
        start, is_store = float(call[1]), pathlib.Path(call[3]).name.startswith(name)
        if is_store:
            begin = start if begin is None else begin
            end = start + float(call[4])
        elif begin is not None:
            spans.append(end - begin)
            begin = None
    return spans[-count:]


def tell_visits(what, waits, spans, wrote):
    print(f"\n{what}")
    print(f"{'':16}{'visits a second':>17}{'p50, ms':>10}{'p99, ms':>10}{'device calls, p50, ms':>24}{'bytes a visit':>16}")
    for name, times in waits.items():
        low, high = statistics.median(times), statistics.quantiles(times, n=100)[98]
        print(f"{name:16}{len(times) / sum(times):17.0f}{1e3 * low:10.3f}{1e3 * high:10.3f}"
              f"{1e3 * statistics.median(spans[name]):24.3f}{wrote[name]:16.0f}")


def measure_visits(places, work, what, lines, traced_lines, make):
    """`make` gives the paths of a new file and a new database of a mode, which it makes."""
    waits, spans, wrote = {}, {}, {}
    for name in (OURS, *MODES):
        command = [places, "run"] if name == OURS else peer_command("--pipe", MODES[name])
        path = make(MODES.get(name))
        waits[name] = piped([*command, path], lines)
        path = make(MODES.get(name))
        log = trace_of(work, [*command, path], b"".join(traced_lines))
        spans[name] = device_times(log, path.name, len(traced_lines))
        wrote[name] = written(log, path.name) / len(traced_lines)
    tell_visits(what, waits, spans, wrote)


def new_files(places, work):
    """Makes files of no page."""
    def make(mode):
        path = work / f"new{mode}{time.monotonic_ns()}"
        if mode is None:
            new_store(places, path)
        return path
    return make


def large_files(work, store):
    """Makes copies of files of a large store."""
    whole = work / "large"
    whole.write_bytes(linked_file.file_bytes(store, linked_file.layout_of(store)))
    for mode in MODES.values():
        Peer(work / f"large{mode}", mode).fill(store)

    def make(mode):
        path = work / f"copy{mode}{time.monotonic_ns()}"
        shutil.copyfile(whole if mode is None else work / f"large{mode}", path)
        return path
    return make


def visit_line(url, date):
    return b"visit\t%b\t1\t%d\n" % (url, date)


def measure_all_visits(places, work):
    lines = [visit_line(b"https://h%d.example/" % (i % FEW_PAGES), i) for i in range(VISITS)]
    measure_visits(places, work, f"{VISITS} visits to {FEW_PAGES} pages of a new store", lines, lines, new_files(places, work))
    store = importlib.import_module("open").history(LARGE)
    last, chance = store.visits[-1].date, random.Random(SEED)
    urls = [chance.choice(store.pages).url for _ in range(LARGE_VISITS)]
    lines = [visit_line(url, last + number) for number, url in enumerate(urls, 1)]
    what = f"{LARGE_VISITS} visits to a store of {len(store.pages)} pages and {len(store.visits)} visits"
    make = large_files(work, store)
    measure_visits(places, work, what, lines, lines[:TRACED_VISITS], make)
    asked = piped([places, "run", make(None)], [b"page\t%b\n" % url for url in urls])
    print(f"{'a `page` line':16}{len(asked) / sum(asked):17.0f}{1e3 * statistics.median(asked):10.3f}")


def main():
    if sys.argv[1:2] == ["--drill"]:
        drill(sys.argv[3], sys.argv[2], int(sys.argv[4]))
        return
    if sys.argv[1:2] == ["--pipe"]:
        answer_visits(*sys.argv[2:])
        return
    if not shutil.which("strace"):
        subprocess.run("apt-get update && apt-get install -y strace", shell=True, check=True, stdout=sys.stderr)
    places = program()
    with tempfile.TemporaryDirectory(dir=".") as folder:
        work = pathlib.Path(folder)
        for count in SIZES:
            measure_drill(places, work, count)
        measure_all_visits(places, work)


if __name__ == "__main__":
    main()
