#!/usr/bin/env python3
"""Times each key in the address bar on a large store, beside a plain scan in C and beside sqlite3.

    bench/bar.py [PROGRAM]

The store has 100,000 pages with 300,000 visits, whose words are common and rare as in a language. What is typed are the
first letters of words of its pages, of two words, letters within words and such as stand nowhere, and for `fill` the
first letters of hosts. `places run` on the store's file and `bar.c`, which has the same texts in memory, answer the same
lines on a pipe; sqlite3 has the texts in one table with an index by frecency, and a statement of it is prepared once.
First all replies are compared. It is no timed test: it fails only where replies differ. It needs gcc and python3.
"""
import itertools
import math
import pathlib
import random
import sqlite3
import string
import subprocess
import sys
import tempfile

from answerer import Answerer
from history import BOOKMARK, TAGS_ROOT, History, wall
from open import machine
from program import program

HERE = pathlib.Path(__file__).resolve().parent
PAGES, TEXTS, MAX = 100_000, 48, 10
BASE_RUNS = 3
MICROS = 1_000_000

SCHEMA = """
CREATE TABLE texts (id INTEGER PRIMARY KEY, frecency INTEGER, url TEXT, title TEXT, searched TEXT);
CREATE INDEX by_frecency ON texts (frecency DESC, id DESC);
CREATE TABLE hosts (name TEXT PRIMARY KEY, total INTEGER);
CREATE INDEX by_total ON hosts (total DESC, name);
"""
FILL = "SELECT name, total FROM hosts WHERE name >= ?1 AND name < ?1 || '~' ORDER BY total DESC, name LIMIT 1"


# ---- the store

class Language:
    """Words of syllables, the nth of which is said once where the first is said n times."""

    def __init__(self, chance, count):
        syllables = ["".join(sounds) for sounds in itertools.product(string.ascii_lowercase, "aeiou", ["", "n", "r", "s"])]
        self.words = list(dict.fromkeys("".join(chance.choices(syllables, k=chance.randint(2, 4))) for _ in range(count)))
        self.sums = list(itertools.accumulate(1 / rank for rank in range(1, len(self.words) + 1)))

    def word(self, chance):
        return chance.choices(self.words, cum_weights=self.sums)[0]


class LargeHistory(History):
    """A history whose words and hosts are of languages of their own; one host in three begins with `www.`."""

    def __init__(self, pages, seed=1):
        chance = random.Random(seed)
        self.words, self.names = Language(chance, 4_000), Language(chance, 2_000)
        super().__init__(pages, seed)

    def word(self, chance):
        return self.words.word(chance)

    def host(self, chance):
        return f"{chance.choice(('', '', 'www.'))}{self.names.word(chance)}.example"

    def texts(self):
        """Rows of id, frecency, URL, title and the three texts that are searched, in the order of the address bar."""
        kept = self.frecencies()
        titles, tags = {}, {}
        for folder, children in self.children.items():
            of_tag = folder in self.children[TAGS_ROOT]
            for kind, page, title, *_ in (self.rows[child] for child in children):
                if kind == BOOKMARK:
                    (tags if of_tag else titles)[page] = self.rows[folder][2] if of_tag else title
        rows = [(page, kept[page][0], url, title, (titles.get(page) or title).lower(), tags.get(page, "").lower(),
                 url.partition("//")[2]) for page, url, title, _ in self.pages]
        return sorted(rows, key=lambda row: (row[1], row[0]), reverse=True)

    def groups(self):
        """The groups of hosts that pass with their totals, the best first. All pages have one scheme."""
        kept, origins, groups = self.frecencies(), {}, {}
        for page, _, _, host in self.pages:
            origins[host] = origins.get(host, 0) + kept[page][0]
        for host, total in origins.items():
            group = host.removeprefix("www.")
            groups[group] = groups.get(group, 0) + total
        passing = [(group, total) for group, total in groups.items() if total * len(origins) >= sum(origins.values())]
        return sorted(passing, key=lambda row: (-row[1], row[0]))


# ---- what is typed

class Typing:
    def __init__(self, rows, groups):
        self.chance, self.rows, self.groups = random.Random(1), rows, groups
        self.all = "\n".join("\n".join(row[4:]) for row in rows)

    def words(self):
        """Words of some page."""
        *_, title, tags, address = self.chance.choice(self.rows)
        return [word for word in f"{title} {tags} {address.replace('/', '.')}".replace(".", " ").split() if word.isalpha()]

    def front(self, length):
        """The first letters of a word that has so many."""
        return next((word[:length] for word in self.words() if len(word) >= length and self.chance.random() < 0.5), None)

    def two_words(self):
        words = [word for word in self.words() if len(word) > 5]
        return " ".join(word[:self.chance.randint(3, 5)] for word in self.chance.sample(words, min(2, len(words))))

    def within(self):
        return next((word[1:5] for word in self.words() if len(word) > 5), None)

    def nowhere(self):
        text = "".join(self.chance.choices(string.ascii_lowercase, k=self.chance.randint(3, 8)))
        return None if text in self.all else text

    def host(self):
        return self.chance.choice(("", "", "www.")) + self.chance.choice(self.groups)[0][:self.chance.randint(1, 6)]

    def texts(self, draw):
        """Some texts, each once: so many, but that there may be too few of one letter."""
        texts = {}
        for _ in range(20 * TEXTS):
            if len(texts) < TEXTS and (text := draw()):
                texts[text] = None
        return list(texts)

    def kinds(self):
        """What is typed, with how many times as long as C it may take, and from how many microseconds on that is asked."""
        counts = enumerate(("one letter", "two letters", "three", "four", "five", "six"), 1)
        letters = [(name, self.texts(lambda: self.front(length)), 3, 50) for length, name in counts]
        return letters + [("two words", self.texts(self.two_words), 5, 0), ("within words", self.texts(self.within), 5, 0),
                          ("no hit", self.texts(self.nowhere), 5, 0), ("`fill`", self.texts(self.host), 0, 20)]


# ---- the peers

def write_texts(path, rows, groups):
    """What `bar.c` reads."""
    pages = ("\t".join(("page", *map(str, row))) + "\n" for row in rows)
    path.write_text("".join(pages) + "".join(f"group\t{name}\t{total}\n" for name, total in groups))


def built(room):
    peer = room / "bar"
    subprocess.run(["gcc", "-O2", "-o", peer, HERE / "bar.c"], check=True)
    return peer


class Base:
    """sqlite3 with the folded texts of a page as one, an LF before each."""

    def __init__(self, rows, groups):
        self.base = sqlite3.connect(":memory:", cached_statements=1000)
        self.base.executescript(SCHEMA)
        self.base.executemany("INSERT INTO texts VALUES (?, ?, ?, ?, ?)",
                              ((*row[:4], "".join(f"\n{text}" for text in row[4:])) for row in rows))
        self.base.executemany("INSERT INTO hosts VALUES (?, ?)", groups)
        self.base.execute("ANALYZE")

    def offered(self, words):
        """The pages with all words on boundaries, and behind them, where these are too few, those with them anywhere."""
        there = " AND ".join("instr(searched, ?) > 0" for _ in words)
        begun = " AND ".join("searched GLOB ?" for _ in words)
        patterns = [f"*[^a-z]{word}*" for word in words]
        select = "SELECT id, frecency, url, title FROM texts WHERE {} ORDER BY frecency DESC, id DESC LIMIT ?"
        rows = self.base.execute(select.format(f"{there} AND {begun}"), (*words, *patterns, MAX)).fetchall()
        if len(rows) < MAX:
            more = select.format(f"{there} AND NOT ({begun})")
            rows += self.base.execute(more, (*words, *patterns, MAX - len(rows))).fetchall()
        return rows

    def rows(self, line):
        word, *_, text = line.decode().rstrip("\n").split("\t")
        if word == "fill":
            return self.base.execute(FILL, (text.removeprefix("www."),)).fetchall()
        return self.offered(text.split())

    def reply(self, line):
        """What a program says to the line."""
        rows = self.rows(line)
        word, head = ("fill", []) if line.startswith(b"fill") else ("page", [f"rows\t{len(rows)}"])
        said = ["\t".join(map(str, (word, *row))) for row in rows]
        return ("\n".join(head + said) or "nofill").encode() + b"\n"

    def line_time(self, line):
        return min(wall(lambda: self.rows(line)) for _ in range(BASE_RUNS))


# ---- the runs

def line_of(name, text):
    return (f"fill\t{text}\n" if name == "`fill`" else f"bar\t{MAX}\t{text}\n").encode()


def compare(ours, peers, kinds):
    """Each line has one reply of all, which has fewer than MAX rows where there are no more."""
    for name, texts, *_ in kinds:
        for line in (line_of(name, text) for text in texts):
            said, others = ours.reply(line), [peer.reply(line) for peer in peers]
            if any(other != said for other in others):
                sys.exit(f"{line!r}: {said!r}, and {others}")


def nth(times, share):
    """The least of the times that so great a share of them does not exceed, in microseconds."""
    return MICROS * sorted(times)[math.ceil(share * len(times)) - 1]


def told(times):
    return f"{nth(times, 0.5):.1f} | {nth(times, 0.99):.1f}"


def measure(ours, scan, base, kinds):
    print("| What is typed | Texts | `places run`, µs: p50 | p99 | C: p50 | p99 | sqlite3: p50 | p99 | as wanted |")
    print("|---|---|---|---|---|---|---|---|---|")
    for name, texts, times_c, least in kinds:
        found = [[found.line_time(line_of(name, text)) for text in texts] for found in (ours, scan, base)]
        within = sum(MICROS * time <= max(MICROS * times_c * other, least) for time, other in zip(*found[:2]))
        print(f"| {name} | {len(texts)} | {' | '.join(map(told, found))} | {within} |", flush=True)


def main():
    print(machine())
    history = LargeHistory(PAGES)
    rows, groups = history.texts(), history.groups()
    kinds = Typing(rows, groups).kinds()
    with tempfile.TemporaryDirectory() as folder:
        room = pathlib.Path(folder)
        write_texts(room / "texts", rows, groups)
        (room / "store").write_bytes(history.file_bytes())
        ours, scan = Answerer(program(), "run", room / "store"), Answerer(built(room), room / "texts")
        base = Base(rows, groups)
        print(f"{PAGES} pages, {len(history.visits)} visits, {len(history.rows)} items, {len(groups)} groups that pass")
        compare(ours, (scan, base), kinds)
        measure(ours, scan, base, kinds)
        ours.end()
        scan.end()
    print(f"\n{machine()}")


if __name__ == "__main__":
    main()
