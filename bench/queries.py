#!/usr/bin/env python3
"""Times each kind of query on a large store, beside sqlite3 on the same rows, with the query written in SQL.

    bench/queries.py [PROGRAM]

The store has 100,000 pages with 300,000 visits over 467 days and 5,000 bookmarks. `places run` on the store's file
answers lines on a pipe; sqlite3 has the rows in memory with indexes, and a statement of it is prepared once. First all
replies are compared. It is no timed test: it fails only where they differ.
"""
import pathlib
import sys
import tempfile
import timeit
from collections import namedtuple
from random import Random
from urllib.parse import quote

from answerer import RUNS, SPAN, Answerer
from bar import PAGES, LargeHistory
from history import TAGS_ROOT
from linked_file import DAY
from open import machine
from program import program

SEED, DAYS = 3, 467
FROM, TO = 230 * DAY, 237 * DAY - 1
LAST_FROM, LAST_TO = (DAYS - 7) * DAY, DAYS * DAY - 1
FOLDER, UNFILED = 7, 5
DOMAIN, DOMAIN_SHARE = "large.example", 0.16
ADDRESS_OF = 77_777
MILLIS = 1_000

TAGS = """coalesce((SELECT group_concat(title, ',') FROM (SELECT f.title AS title FROM items e JOIN items f ON e.parent = f.id
    WHERE f.parent = 4 AND e.page = p.id ORDER BY lower(f.title))), '')"""

# The host backwards, as Places has it, and the folded texts of a page in which words are looked for, an LF between them.
# Rows that are alike stand by ascending id, so that an index that descends has them in the order that is asked for.
MORE = f"""
PRAGMA cache_size = -262144;
ALTER TABLE places ADD COLUMN rev TEXT;
ALTER TABLE places ADD COLUMN searched TEXT;
UPDATE places AS p SET rev = backwards(p.host),
    searched = lower(p.title || char(10) || substr(p.url, instr(p.url, '//') + 2) || char(10) || {TAGS});
CREATE INDEX places_rev ON places (rev);
CREATE INDEX places_best ON places (frecency DESC);
CREATE INDEX visits_latest ON visits (date DESC);
ANALYZE;
"""

# Where a statement names the index that is taken, or says that none is, sqlite3 by itself takes twice as long or more.
PAGE = f"SELECT p.id, p.url, p.title, p.last, p.count, p.frecency, {TAGS} FROM places p"
VISIT = f"SELECT v.id, p.url, p.title, v.date, p.count, p.frecency, {TAGS} FROM visits v JOIN places p ON p.id = v.page"
MARK = f"""SELECT b.id, p.url, b.title, p.last, p.count, p.frecency, {TAGS}
    FROM items b JOIN places p ON p.id = b.page JOIN items f ON f.id = b.parent WHERE f.parent IS NOT 4"""
BEST = "ORDER BY p.frecency DESC, p.id"
LATEST_VISITS = "ORDER BY v.date DESC, v.id LIMIT 100"
IN_DOMAIN = "p.rev >= ?1 AND p.rev < ?2"
HAS_TAG = "p.id IN (SELECT page FROM items WHERE parent = (SELECT id FROM items WHERE parent = 4 AND lower(title) = ?1))"
IN_WEEK = "p.id IN (SELECT page FROM visits WHERE date BETWEEN ?1 AND ?2)"


# ---- the store

def backwards(host):
    return host[::-1] + "."


class DatedHistory(LargeHistory):
    """A large history over many days: one page in six lies in one domain, and one in twenty is bookmarked.

    600 of the bookmarks lie in one folder, and each of the four tags is that of 30 pages.
    """

    def __init__(self, pages):
        super().__init__(pages)
        chance = Random(SEED)
        self.visits = [(visit, page, chance.randrange(DAYS * DAY), transition)
                       for visit, page, _, transition in self.visits]

    def host(self, chance):
        is_in_domain = chance.random() < DOMAIN_SHARE
        return f"{self.names.word(chance)}.{DOMAIN}" if is_in_domain else super().host(chance)

    def add_item(self, parent, page, title, date):
        """One page in seven comes with a tag, and one in five with a bookmark, which has a title where the page is odd."""
        tags = self.children[TAGS_ROOT]
        if parent in tags and page % 833 == 0:
            super().add_item(tags[page // 833 % 4], page, title, date)
        if parent not in tags and page % 20 == 5:
            super().add_item(FOLDER if page // 20 % 25 < 3 else UNFILED, page, title, date)

    def database(self):
        base = super().database()
        base.create_function("backwards", 1, backwards)
        base.executescript(MORE)
        return base


# ---- what is asked

# The text of a query behind `place:`, the same in SQL, and below how many milliseconds it is wanted, or none.
Kind = namedtuple("Kind", "name text select values wanted")


def kinds(history):
    words = history.words.words[9], history.words.words[29]
    domain = backwards(DOMAIN), backwards(DOMAIN)[:-1] + "/"
    url = history.pages[ADDRESS_OF - 1][1]
    week, of_week = (FROM, TO), f"beginTime={FROM}&endTime={TO}"
    last_week, of_last_week = (LAST_FROM, LAST_TO), f"beginTime={LAST_FROM}&endTime={LAST_TO}"
    return [
        Kind("ten pages by frecency", "sort=22&maxResults=10", f"{PAGE} {BEST} LIMIT 10", (), 0.06),
        Kind("two words, by frecency", f"terms={'%20'.join(words)}&sort=22",
             f"{PAGE} NOT INDEXED WHERE instr(p.searched, ?1) > 0 AND instr(p.searched, ?2) > 0 {BEST}", words, 30),
        Kind("a domain, by frecency", f"domain={DOMAIN}&sort=22", f"{PAGE} WHERE {IN_DOMAIN} {BEST}", domain, 40),
        Kind("a hundred pages of it", f"domain={DOMAIN}&sort=22&maxResults=100",
             f"{PAGE} INDEXED BY places_best WHERE {IN_DOMAIN} {BEST} LIMIT 100", domain, None),
        Kind("all pages by frecency", "sort=22", f"{PAGE} {BEST}", (), 150),
        Kind("one address", f"uri={quote(url, safe='')}", f"{PAGE} WHERE p.url = ?1", (url,), None),
        Kind("the hundred latest visits", "type=1&sort=4&maxResults=100", f"{VISIT} {LATEST_VISITS}", (), 0.5),
        Kind("a hundred visits of the last week, by date", f"type=1&{of_last_week}&sort=4&maxResults=100",
             f"{VISIT} WHERE v.date BETWEEN ?1 AND ?2 {LATEST_VISITS}", last_week, 0.5),
        Kind("the same of a week of eight months before", f"type=1&{of_week}&sort=4&maxResults=100",
             f"{VISIT} WHERE v.date BETWEEN ?1 AND ?2 {LATEST_VISITS}", week, None),
        Kind("pages of a week, by date", f"{of_week}&sort=4",
             f"{PAGE} WHERE {IN_WEEK} ORDER BY p.last DESC, p.id", week, 40),
        Kind("pages with a tag, by frecency", "tag=red&sort=22", f"{PAGE} WHERE {HAS_TAG} {BEST}", ("red",), 0.2),
        Kind("bookmarks of a folder, by title", f"queryType=1&parent={FOLDER}&sort=1",
             f"{MARK} AND b.parent = {FOLDER} ORDER BY lower(b.title), b.id", (), 2),
        Kind("no page", "terms=nowhere", f"{PAGE} WHERE instr(p.searched, ?1) > 0 ORDER BY p.id", ("nowhere",), None),
    ]


# ---- the runs

def line_of(kind):
    return f"query\tplace:{kind.text}\n".encode()


def rows_said(reply):
    return [tuple(line.split("\t")[1:]) for line in reply.decode().splitlines()[1:]]


def rows_selected(base, kind):
    rows = base.execute(kind.select, kind.values)
    return [tuple("-" if value is None else str(value) for value in row) for row in rows]


def compare(ours, base, kind):
    """How many rows both have."""
    rows, wanted = rows_said(ours.reply(line_of(kind))), rows_selected(base, kind)
    if rows != wanted:
        sys.exit(f"{kind.name}: {len(rows)} rows and {len(wanted)}; {rows[:3]} and {wanted[:3]}")
    return len(rows)


def select_time(base, kind):
    """What a statement takes, as often at a time as a span has room for."""
    timer = timeit.Timer(lambda: base.execute(kind.select, kind.values).fetchall())
    times = max(1, int(SPAN / timer.timeit(1)))
    return min(timer.repeat(RUNS, times)) / times


def measure(ours, base, asked):
    counts = [compare(ours, base, kind) for kind in asked]
    print("| What is asked | Rows | `places run`, ms | sqlite3, ms | wanted below, ms |\n|---|---|---|---|---|")
    for kind, rows in zip(asked, counts):
        our_time, base_time = ours.line_time(line_of(kind)), select_time(base, kind)
        print(f"| {kind.name} | {rows:,} | {MILLIS * our_time:.3f} | {MILLIS * base_time:.3f} | {kind.wanted or ''} |",
              flush=True)


def main():
    print(machine())
    places, history = program(), DatedHistory(PAGES)
    bookmarks = sum(len(history.children[parent]) for parent in (FOLDER, UNFILED))
    with tempfile.TemporaryDirectory() as folder:
        store = pathlib.Path(folder) / "store"
        store.write_bytes(history.file_bytes())
        ours, base = Answerer(places, "run", store), history.database()
        print(f"{PAGES} pages, {len(history.visits)} visits, {bookmarks} bookmarks")
        measure(ours, base, kinds(history))
        ours.end()
    print(f"\n{machine()}")


if __name__ == "__main__":
    main()
