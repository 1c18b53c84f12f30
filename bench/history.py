"""A store of history, bookmarks and tags, as a file by the form of `docs/FORMAT.md` and as tables of sqlite3, with the same rows."""
import math
import random
import sqlite3
import time

import linked_file

BOOKMARK, FOLDER = 1, 2
LINK, TYPED = 1, 2
TAGS_ROOT = 4
DATES = 86_400_000_000

WORDS = ("alpha bravo charlie delta echo foxtrot golf hotel india juliett kilo lima mike november oscar papa quebec "
         "romeo sierra tango uniform victor whiskey xray yankee zulu").split()

SCHEMA = """
CREATE TABLE places (id INTEGER PRIMARY KEY, url TEXT UNIQUE, title TEXT, host TEXT, count INTEGER, frecency INTEGER, last INTEGER);
CREATE TABLE visits (id INTEGER PRIMARY KEY, page INTEGER, date INTEGER, transition INTEGER);
CREATE TABLE items (id INTEGER PRIMARY KEY, kind INTEGER, page INTEGER, parent INTEGER, title TEXT, added INTEGER, modified INTEGER);
CREATE INDEX places_frecency ON places (frecency);
CREATE INDEX visits_page ON visits (page, date);
CREATE INDEX visits_date ON visits (date);
CREATE INDEX items_page ON items (page);
CREATE INDEX items_parent ON items (parent);
"""


class History:
    """So many pages, each with one to five visits of the first day; one in five is bookmarked, and one in seven tagged."""

    def __init__(self, pages, seed=1):
        chance = random.Random(seed)
        self.pages, self.visits, self.items = [], [], []
        folder, tags = 7, range(8, 12)
        self.children = {1: range(2, 7), 2: [folder], 3: [], TAGS_ROOT: tags, 5: [], 6: [], folder: []}
        self.children.update((tag, []) for tag in tags)
        self.rows = {item: (FOLDER, 0, "", 0, 0) for item in range(1, 7)}
        self.rows[folder] = (FOLDER, 0, "kept", 0, 0)
        self.rows.update((tag, (FOLDER, 0, name, 0, 0)) for tag, name in zip(tags, ("Blue", "Green", "Red", "Work")))
        for page in range(1, pages + 1):
            self.add_page(page, chance, folder, tags)

    def word(self, chance):
        return chance.choice(WORDS)

    def host(self, chance):
        return f"{self.word(chance)}.{self.word(chance)}.example"

    def add_page(self, page, chance, folder, tags):
        host = self.host(chance)
        url = f"https://{host}/{self.word(chance)}/{page}"
        title = " ".join(self.word(chance).capitalize() for _ in range(4)) if page % 9 else ""
        for _ in range(chance.randint(1, 5)):
            transition = TYPED if chance.random() < 0.1 else LINK
            self.visits.append((len(self.visits) + 1, page, chance.randrange(DATES), transition))
        if page % 5 == 0:
            kept = self.word(chance).capitalize() if page % 10 else ""
            self.add_item(folder, page, kept, chance.randrange(DATES))
        if page % 7 == 0:
            self.add_item(chance.choice(tags), page, "", 0)
        self.pages.append((page, url, title, host))

    def add_item(self, parent, page, title, date):
        item = len(self.rows) + 1
        self.rows[item] = (BOOKMARK, page, title, date, date)
        self.children[parent].append(item)
        self.children[item] = []

    def frecencies(self):
        """By page: the frecency and the `visit_count`. All weights are 100, and every visit counts."""
        referenced = {page for kind, page, *_ in self.rows.values() if kind == BOOKMARK}
        bonuses = {}
        for _, page, _, transition in self.visits:
            bonuses.setdefault(page, []).append((2000 if transition == TYPED else 100) + 75 * (page in referenced))
        return {page: (math.ceil(len(some) * sum(some) / len(some)), len(some)) for page, some in bonuses.items()}

    # ---- the file

    def file_bytes(self):
        typed = {page for _, page, _, transition in self.visits if transition == TYPED}
        pages = [linked_file.Page(page, url.encode(), title.encode(), page in typed) for page, url, title, _ in self.pages]
        visits = [linked_file.Visit(visit, page, date, transition, 0) for visit, page, date, transition in self.visits]
        items = [linked_file.Item(item, kind, title.encode(), page, added, modified, tuple(self.children[item]))
                 for item, (kind, page, title, added, modified) in sorted(self.rows.items())]
        return linked_file.file_bytes(linked_file.Store.of(0, pages, visits, items))

    # ---- the tables

    def database(self):
        kept = self.frecencies()
        last = {}
        for _, page, date, _ in self.visits:
            last[page] = max(date, last.get(page, 0))
        parents = {child: parent for parent, children in self.children.items() for child in children}
        base = sqlite3.connect(":memory:", cached_statements=1000)
        base.executescript(SCHEMA)
        base.executemany("INSERT INTO places VALUES (?, ?, ?, ?, ?, ?, ?)",
                         [(page, url, title, host, kept[page][1], kept[page][0], last[page]) for page, url, title, host in self.pages])
        base.executemany("INSERT INTO visits VALUES (?, ?, ?, ?)", self.visits)
        base.executemany("INSERT INTO items VALUES (?, ?, ?, ?, ?, ?, ?)",
                         [(item, kind, page or None, parents.get(item), title, added, modified)
                          for item, (kind, page, title, added, modified) in self.rows.items()])
        base.execute("ANALYZE")
        return base


# ---- times

def wall(task):
    start = time.monotonic()
    task()
    return time.monotonic() - start
