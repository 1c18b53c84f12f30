#!/usr/bin/env python3
"""Times a day that comes, on a store of 100,000 pages, beside sqlite3 with an index on dates.

    bench/days.py [PROGRAM]

All visits lie on one day of the week, so that on some days the pages of a week's visits are due, and on others none is.
Then the days of thirteen weeks come one by one: to `places try`, which got all visits as lines, to `places run` on the
store's file, and to sqlite3 in memory, which computes the frecencies of the pages whose visits weigh less than the day
before. How many pages change has to be the same, and so have the sums of all frecencies, and those of some pages. The writes
and syncs of such a day are traced by strace, and timed with nothing between them.

At last the days of two years come one by one to 1,000 pages. On each the store has to say the same as a new one that
was at this day when it got the same visits. It is no timed test: it fails only where replies differ.
"""
import pathlib
import random
import shutil
import sqlite3
import statistics
import subprocess
import sys
import tempfile
import time

import linked_file
from answerer import Answerer
from device_calls import make_calls, traced_calls
from linked_file import DAY, LINK, TYPED, Page, Store, Visit, roots
from open import machine
from program import program

PAGES, VISITS, HOSTS, WEEKS = 100_000, 300_000, 997, 130
# The last day with visits, and how many days come behind it.
LAST, DAYS = 7 * 2_800, 91
# On three of these days so many pages are due.
SEED, DUE = 2, 2_303
# So many pages are asked for in the end.
ASKED = 1_000

OLD_PAGES, OLD_VISITS, YEARS = 1_000, 3_000, 730

SCHEMA = """
CREATE TABLE pages (id INTEGER PRIMARY KEY, url TEXT UNIQUE, count INTEGER NOT NULL, frecency INTEGER NOT NULL);
CREATE TABLE visits (id INTEGER PRIMARY KEY, page INTEGER NOT NULL, date INTEGER NOT NULL, transition INTEGER NOT NULL);
CREATE INDEX pages_frecency ON pages (frecency);
CREATE INDEX visits_page ON visits (page, date);
CREATE INDEX visits_date ON visits (date);
"""

# The frecencies on a day: of the pages with a visit that weighs less from this day on, since it is 5, 15, 32 or 91 days old.
RENEW = f"""
UPDATE pages SET frecency = (
    SELECT CASE WHEN total = 0 THEN -1 ELSE (pages.count * ((total + 99) / 100) + sampled - 1) / sampled END
    FROM (SELECT count(*) AS sampled, sum(weight * bonus) AS total FROM (
        SELECT CASE
            WHEN ?1 - date / {DAY} <= 4 THEN 100
            WHEN ?1 - date / {DAY} <= 14 THEN 70
            WHEN ?1 - date / {DAY} <= 31 THEN 50
            WHEN ?1 - date / {DAY} <= 90 THEN 30
            ELSE 10
        END AS weight, CASE transition WHEN 1 THEN 100 WHEN 2 THEN 2000 END AS bonus
        FROM visits WHERE page = pages.id ORDER BY date DESC, id DESC LIMIT 10
    ))
)
WHERE id IN (
    WITH due(first) AS (VALUES ((?1 - 5) * {DAY}), ((?1 - 15) * {DAY}), ((?1 - 32) * {DAY}), ((?1 - 91) * {DAY}))
    SELECT page FROM due, visits WHERE date >= first AND date < first + {DAY}
)
"""


# ---- the store

def week_store():
    """The store on the last day with visits, each of which lies on a day that 7 divides."""
    chance = random.Random(SEED)
    pages = list(range(1, PAGES + 1)) + [chance.randint(1, PAGES) for _ in range(VISITS - PAGES)]
    chance.shuffle(pages)
    visits = [Visit(id, page, (LAST - 7 * chance.randrange(WEEKS)) * DAY + id, TYPED if chance.random() < 0.1 else LINK, 0)
              for id, page in enumerate(pages, 1)]
    typed = {visit.page for visit in visits if visit.transition == TYPED}
    rows = [Page(id, b"https://h%d.example/%d" % (id % HOSTS, id), b"", id in typed) for id in range(1, PAGES + 1)]
    return Store.of(LAST, rows, visits, roots({}))


def visit_line(url, visit):
    return b"visit\t%b\t%d\t%d\n" % (url, visit.transition, visit.date)


def day_line(day):
    return b"day\t%d\n" % day


def database(store):
    base, kept = sqlite3.connect(":memory:"), linked_file.marks(store)
    base.executescript(SCHEMA)
    base.executemany("INSERT INTO pages VALUES (?, ?, ?, ?)",
                     ((page.id, page.url.decode(), kept[page.id].count, kept[page.id].frecency) for page in store.pages))
    base.executemany("INSERT INTO visits VALUES (?, ?, ?, ?)", (visit[:4] for visit in store.visits))
    base.execute("ANALYZE")
    base.commit()
    return base


# ---- a day that comes

def told_days(answerer, urls):
    """For each day how many pages have changed, the sum of all frecencies, those of some pages at the end, and the waits."""
    passage, changed, sums, waits = answerer.passage(1), [], [], []
    for day in range(LAST + 1, LAST + DAYS + 1):
        (said, wait), = answerer.timed([day_line(day)])
        changed.append(int(said.split(b"\t")[3]))
        sums.append(int(answerer.reply(b"stats\n").split(b"\t")[10]))
        waits.append(wait - passage)
    frecencies = [int(answerer.reply(b"page\t%b\n" % url).split(b"\t")[2]) for url in urls]
    return (changed, sums, frecencies), waits


def base_days(base, urls):
    """The same of sqlite3, each day in a transaction of its own."""
    changed, sums, waits = [], [], []
    for day in range(LAST + 1, LAST + DAYS + 1):
        start = time.perf_counter()
        changed.append(base.execute(RENEW, (day,)).rowcount)
        base.commit()
        waits.append(time.perf_counter() - start)
        sums.append(base.execute("SELECT sum(frecency) FROM pages WHERE frecency > 0").fetchone()[0])
    select = "SELECT frecency FROM pages WHERE url = ?"
    frecencies = [base.execute(select, (url.decode(),)).fetchone()[0] for url in urls]
    return (changed, sums, frecencies), waits


def tell(name, changed, waits):
    due = [wait for count, wait in zip(changed, waits) if count]
    idle = [wait for count, wait in zip(changed, waits) if not count]
    of_day = min(wait for count, wait in zip(changed, waits) if count == DUE)
    print(f"| {name} | {1e3 * of_day:.2f} | {1e3 * statistics.median(due):.2f} | {1e3 * max(due):.2f} "
          f"| {1e6 * statistics.median(idle):.1f} | {1e6 * max(idle):.1f} |", flush=True)


def tell_device_calls(places, room, day):
    """What the writes and syncs of `places run` take on this day, with nothing between them: the least on three copies of the file."""
    store = room / "day"
    store.write_bytes(linked_file.file_bytes(week_store()))
    days_before = b"".join(map(day_line, range(LAST + 1, day)))
    subprocess.run([places, "run", store], input=days_before, stdout=subprocess.DEVNULL, check=True)
    copies = [shutil.copy(store, room / f"copy{number}") for number in range(3)]
    calls = traced_calls([places, "run", store], day_line(day), room / "trace")
    # (an opening syncs and writes nothing)
    while calls[0] is None:
        del calls[0]
    syncs, written = calls.count(None), sum(call[1] for call in calls if call)
    took = min(make_calls(copy, calls) for copy in copies)
    print(f"\nThe device calls of such a day by `places run`: {syncs} syncs, {len(calls) - syncs} writes, {written} bytes; "
          f"alone {1e3 * took:.2f} ms", flush=True)


def measure_days(places, room):
    store = week_store()
    urls = {page.id: page.url for page in store.pages}
    (room / "store").write_bytes(linked_file.file_bytes(store))
    asked = random.Random(SEED).sample(sorted(urls.values()), ASKED)
    in_memory, on_file = Answerer(places, "try"), Answerer(places, "run", room / "store")
    in_memory.feed([day_line(LAST), *(visit_line(urls[visit.page], visit) for visit in store.visits)])
    found = {
        "`places try`": told_days(in_memory, asked),
        "`places run`": told_days(on_file, asked),
        "sqlite3": base_days(database(store), asked),
    }
    (told, _), *others = found.values()
    if any(other != told for other, _ in others):
        sys.exit("the days differ: how many pages change, the sums of frecencies, or those of pages")
    due = [count for count in told[0] if count]
    print(f"{PAGES} pages, {VISITS} visits; {len(due)} days with {min(due)} to {max(due)} due pages, "
          f"{DAYS - len(due)} with none")
    print(f"\n| A day | {DUE} due, ms | due: p50, ms | most | none due: p50, µs | most |\n|---|---|---|---|---|---|")
    for name, (said, waits) in found.items():
        tell(name, said[0], waits)
    in_memory.end()
    on_file.end()
    tell_device_calls(places, room, LAST + 1 + told[0].index(DUE))


# ---- two years, day by day

def asked_lines():
    """All pages by their frecencies, the order of the address bar, totals of hosts, and the sum of all."""
    fills = b"".join(b"fill\th%d\n" % host for host in range(10))
    return b"query\tplace:sort=22&includeHidden=1\nbar\t1000\texample\n" + fills + b"stats\n"


def old_visits(first):
    """Visits of all transitions but redirects, from half a year before the first day until half a year behind the last."""
    chance = random.Random(SEED)
    for number in range(OLD_VISITS):
        page = number % OLD_PAGES
        day = first + chance.randrange(-180, YEARS + 180)
        visit = Visit(number, page, day * DAY + number, chance.choice((LINK, LINK, TYPED, 3, 4, 7, 8, 9)), 0)
        yield visit_line(b"https://h%d.example/%d" % (page % 97, page), visit)


def said_by_new(places, day, visits):
    """What a new store says that was at this day when it got the visits."""
    script = b"".join([day_line(day), *visits, asked_lines()])
    done = subprocess.run([places, "try"], input=script, capture_output=True, check=True)
    return done.stdout.split(b"\n", 1 + len(visits))[-1]


def follow_days(places, first):
    visits = list(old_visits(first))
    aging, changed = Answerer(places, "try"), 0
    aging.feed(visits)
    for day in range(first, first + YEARS):
        changed += int(aging.reply(day_line(day)).split(b"\t")[3])
        said = b"".join(aging.reply(line) for line in asked_lines().splitlines(True))
        if said != said_by_new(places, day, visits):
            sys.exit(f"on day {day} a new store says something else")
    aging.end()
    print(f"\n{OLD_PAGES} pages with {OLD_VISITS} visits over {YEARS} days, in which {changed} frecencies change: "
          "on each day they say what a new store does")


def main():
    print(f"{machine()}\n")
    places = program()
    with tempfile.TemporaryDirectory(dir=".") as folder:
        measure_days(places, pathlib.Path(folder))
    follow_days(places, LAST)
    print(f"\n{machine()}")


if __name__ == "__main__":
    main()
