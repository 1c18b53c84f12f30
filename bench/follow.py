#!/usr/bin/env python3
"""Times what follows views as they come and change, and measures its memory, beside SQLite in memory.

    bench/follow.py             builds the proved program of crates/follow_main by `rt run`, and measures it
    bench/follow.py PROGRAM     measures this program

100,000 views are made and 100,000 changes done: of a frecency, of a frecency with its days, of a title, and of a page
that goes with one that comes. The program does so without any follower, with each and with all: the difference to the
run without is that of the follower. An index by URL, of which is asked whether a change suits the views, is in each run.
Of five rounds the least time of a processor and the median of the peaks are told.

The peer is Python's sqlite3: one table with an index by URL, by frecency and id, by day and by host and prefix. Its time
is that of the prepared statements alone. Its memory is the growth of the process while the table is made.

It says for each the time of what was made and of the changes, and the memory behind the views, beside the bytes of the
texts that are kept. It is no timed test: it fails only where a program fails, or where the two have other views in the
end. It needs python3.
"""
import os
import pathlib
import sqlite3
import statistics
import subprocess
import sys
import time

HOME = pathlib.Path(__file__).resolve().parent.parent
CRATE = HOME / "crates/follow_main"
RUNS = 5
VIEWS = CHANGES = 100_000
HOSTS = VIEWS // 20
WORD = (1 << 64) - 1

FOLLOWERS = [
    ("urls", "ids by URL"),
    ("orders", "by frecency and by visit"),
    ("texts", "folded texts"),
    ("days", "due days"),
    ("totals", "totals of origins"),
    ("all", "all of them"),
]

SCHEMA = """
create table views (id integer primary key, url text, title text, prefix text, host text, frecency int, last int, due int);
create unique index by_url on views (url);
create index by_frecency on views (frecency desc, id desc);
create index by_due on views (due);
create index by_origin on views (host, prefix);
"""

INSERT = "insert into views values (?, ?, ?, ?, ?, ?, ?, ?)"


def drawn(turn, part, end):
    """As `drawn` of crates/trials_views."""
    mixed = ((turn << 32 | part) * 0x9E3779B97F4A7C15) & WORD
    mixed = ((mixed ^ mixed >> 30) * 0xBF58476D1CE4E5B9) & WORD
    mixed = ((mixed ^ mixed >> 27) * 0x94D049BB133111EB) & WORD
    return (mixed ^ mixed >> 31) % end


def title(number, part):
    return f"A page about the number {drawn(number, part, 1_000_000)}, seen as page {number}"


def page(number):
    """The row of a page, as in crates/follow_main/src/pages.rt."""
    prefix = "http://" if drawn(number, 1, 10) == 0 else "https://"
    host = f"{'www.' if drawn(number, 3, 2) else ''}site{drawn(number, 2, HOSTS)}.example"
    url = f"{prefix}{host}/a/path/to/page/{number}?from={drawn(number, 4, 1_000_000)}"
    days = drawn(number, 7, 1_000_000_000), drawn(number, 8, 90)
    return number + 1, url, title(number, 5), prefix, host, drawn(number, 6, 10_000), *days


def statements():
    """Each change, as the statements that make it."""
    ids = [number + 1 for number in range(VIEWS)]
    for turn in range(CHANGES):
        if turn % 4 == 3:
            row = page(VIEWS + turn)
            yield [("delete from views where id = ?", (ids.pop(-1 - drawn(turn, 13, 64)),)), (INSERT, row)]
            ids.append(row[0])
            continue
        changed = ids[drawn(turn, 14, len(ids))]
        frecency = drawn(turn, 9, 10_000)
        if turn % 4 == 0:
            yield [("update views set frecency = ? where id = ?", (frecency, changed))]
        elif turn % 4 == 1:
            days = drawn(turn, 10, 1_000_000_000), drawn(turn, 11, 90)
            yield [("update views set frecency = ?, last = ?, due = ? where id = ?", (frecency, *days, changed))]
        else:
            yield [("update views set title = ? where id = ?", (title(turn, 12), changed))]


def resident():
    return int(pathlib.Path("/proc/self/statm").read_text().split()[1]) * os.sysconf("SC_PAGE_SIZE")


def peer(rows, changes):
    """The peer's seconds, its growth, and what it has in the end."""
    before = resident()
    base = sqlite3.connect(":memory:", isolation_level=None, cached_statements=16)
    base.executescript(SCHEMA)
    began = time.process_time()
    base.execute("begin")
    base.executemany(INSERT, rows)
    base.execute("commit")
    made = time.process_time()
    grown = resident() - before
    base.execute("begin")
    for change in changes:
        for statement, values in change:
            base.execute(statement, values)
    base.execute("commit")
    done = time.process_time()
    views, total = base.execute("select count(*), sum(max(frecency, 0)) from views").fetchone()
    base.close()
    return made - began, done - made, grown, f"{VIEWS + CHANGES} {views} {total}"


def program(words):
    if words:
        return words[0]
    subprocess.run(["rt", "run", "--", "none", "1", "0"], cwd=CRATE, check=True, stdout=sys.stderr)
    return str(CRATE / "out/follow_main")


def run(command):
    """What a run prints, its seconds of a processor and its peak of memory in bytes."""
    child = subprocess.Popen(command, stdout=subprocess.PIPE)
    said = child.stdout.read().decode().strip()
    _, status, usage = os.wait4(child.pid, 0)
    child.returncode = os.waitstatus_to_exitcode(status)
    if status != 0:
        sys.exit(f"{' '.join(command)} failed")
    return said, usage.ru_utime + usage.ru_stime, usage.ru_maxrss * 1024


def kept_texts(rows):
    """The bytes of the texts that each follower keeps of the views: all are ASCII, and folds are as long."""
    urls = sum(len(row[1]) for row in rows)
    texts = sum(len(row[1]) - len(row[3]) + len(row[2]) for row in rows)
    prefixes = {row[3] for row in rows}
    origins = {(row[3], row[4]) for row in rows}
    groups = {host.removeprefix("www.") for _, host in origins}
    totals = sum(map(len, prefixes)) + sum(len(host) for _, host in origins) + sum(map(len, groups))
    return {"urls": urls, "orders": 0, "texts": texts, "days": 0, "totals": totals, "all": urls + texts + totals}


def machine():
    lines = pathlib.Path("/proc/cpuinfo").read_text().splitlines()
    model = next((line.split(":")[1].strip() for line in lines if line.startswith("model name")), "unknown")
    memory = pathlib.Path("/proc/meminfo").read_text().split()[1]
    load = ", ".join(f"{load:.1f}" for load in os.getloadavg())
    return f"{os.cpu_count()} processors ({model}), {int(memory) // 1024} MiB; load {load}"


def figures(path):
    """What the runs with changes printed, the figures without a follower, and of each follower what it adds to them."""
    orders = [(word, changes) for word in ["none"] + [word for word, _ in FOLLOWERS] for changes in (0, CHANGES)]
    rounds = [{order: run([path, order[0], str(VIEWS), str(order[1])]) for order in orders} for _ in range(RUNS)]
    said = {found[order][0] for found in rounds for order in orders if order[1]}
    took = {order: min(found[order][1] for found in rounds) for order in orders}
    peak = {word: statistics.median(found[word, 0][2] for found in rounds) for word, _ in orders}
    seen = {word: (took[word, 0], took[word, CHANGES] - took[word, 0], peak[word]) for word, _ in orders}
    none = seen.pop("none")
    return said, none, {word: [with_it - without for with_it, without in zip(seen[word], none)] for word in seen}


def main():
    print(machine())
    path = program(sys.argv[1:])
    # Before the rows are made: the peak of a run is never less than what this process has when it begins.
    said, none, taken = figures(path)
    rows, changes = [page(number) for number in range(VIEWS)], list(statements())
    texts = kept_texts(rows)
    print(f"\n{f'{VIEWS:,} views, {CHANGES:,} changes':28}{'made, s':>9}{'changed, s':>12}{'MB':>8}{'texts, MB':>11}{'ratio':>7}")
    print(f"{'views without a follower':28}{none[0]:9.2f}{none[1]:12.2f}{none[2] / 1e6:8.1f}")
    for word, told in FOLLOWERS:
        made, changed, memory = taken[word]
        ratio = f"{memory / texts[word]:7.2f}" if texts[word] else ""
        print(f"{told:28}{made:9.2f}{changed:12.2f}{memory / 1e6:8.1f}{texts[word] / 1e6:11.1f}{ratio}")
    theirs = [peer(rows, changes) for _ in range(RUNS)]
    made, changed = (min(found[place] for found in theirs) for place in range(2))
    print(f"{f'SQLite {sqlite3.sqlite_version}, in memory':28}{made:9.2f}{changed:12.2f}{theirs[0][2] / 1e6:8.1f}")
    said |= {found[3] for found in theirs}
    if len(said) != 1:
        sys.exit(f"the views differ in the end: {said}")
    print(f"\n{machine()}")


main()
