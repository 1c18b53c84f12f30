#!/usr/bin/env python3
"""Puts the histories of browsers into new stores by tools/from-firefox and tools/from-chromium, and looks what came.

    bench/profiles.py [PROGRAM [PART ..]]

The parts are `cases`, `firefox`, `chromium` and `speed`, and all of them where none is named. `cases` are databases
that sqlite3 makes, odd ones and such as cannot be read (`profile_cases.py`). For `firefox` and `chromium` a headless
browser makes a profile by its own interface (`browsers.py`): it visits pages of a server on this machine, with
redirects and titles, and visits are given to it as extensions give them. No line of the script may be refused, and the
store's visits, last dates, titles, and counts of visits are compared with a query over the visits that are taken;
pages that are one in the store are named, and each hidden mark that differs, with its rule. `speed` has 100,000 visits.
It fails where something differs. It needs python3, and installs firefox-esr, chromium and sqlite3 by `apt-get` where
they are missing.
"""
import collections
import os
import pathlib
import random
import resource
import signal
import sqlite3
import subprocess
import sys
import tempfile
import time

import browsers
import profile_cases
from program import HOME, new_store, program

PARTS = ("cases", "firefox", "chromium", "speed")
LAST_DATE = 253_402_300_799_999_999
NOT_RECORDED = "about blob chrome data imap javascript mailbox moz-anno news page-icon resource view-source".split()
NOT_COUNTED, NOT_SHOWN, REDIRECTS = (4, 7, 8, 9), (4, 8), (5, 6)
CORE_TYPES = {0: 1, 1: 2, 2: 3, 3: 4, 4: 8, 5: 1, 6: 1, 7: 1, 8: 9, 9: 1, 10: 2}
SINCE_1601 = 11_644_473_600_000_000

Page = collections.namedtuple("Page", "url title count hidden")
Visit = collections.namedtuple("Visit", "page source date transition redirected")


def escaped(text):
    return text.replace("\\", "\\\\").replace("\t", "\\t").replace("\n", "\\n").replace("\r", "\\r")


def run(places, words, lines):
    """The fields of each reply to these lines."""
    text = "".join(line + "\n" for line in lines).encode()
    done = subprocess.run([places, *words], input=text, stdout=subprocess.PIPE, check=True)
    return [line.split("\t") for line in done.stdout.decode().split("\n")[:-1]]


def script_of(places, tool, database, *day):
    """What a tool prints of a database, and how long that takes."""
    start = time.monotonic()
    done = subprocess.run([HOME / "tools" / tool, database, *day], env={**os.environ, "PLACES": places},
                          stdout=subprocess.PIPE, check=True)
    return done.stdout, time.monotonic() - start


# ---- what the databases have

def firefox_rows(base):
    pages = {row[0]: Page(*row[1:]) for row in base.execute(
        "SELECT id, url, title, visit_count, hidden FROM moz_places ORDER BY id")}
    visits = {row[0]: Visit(*row[1:], False) for row in base.execute(
        "SELECT id, place_id, from_visit, visit_date, visit_type FROM moz_historyvisits ORDER BY id")}
    return pages, visits


def chromium_rows(base):
    pages = {row[0]: Page(*row[1:]) for row in base.execute(
        "SELECT id, url, title, NULL, hidden FROM urls ORDER BY id")}
    visits = {visit: Visit(page, source, time - SINCE_1601, CORE_TYPES.get(bits & 0xFF), bool(bits & 0xC0000000))
              for visit, page, source, time, bits in base.execute(
                  "SELECT id, url, from_visit, visit_time, transition FROM visits ORDER BY id")}
    return pages, visits


def taken_of(places, pages, visits):
    """The visits that are taken, by their numbers and with the numbers of their sources."""
    urls = {page: row.url for page, row in pages.items()}
    answers = run(places, ["try"], (f"page\t{escaped(url)}" for url in urls.values()))
    refused = {page for page, answer in zip(urls, answers) if answer != ["refused", "4"]}
    kept = [visit for visit, row in visits.items()
            if row.transition in range(1, 10) and row.date is not None and 0 <= row.date <= LAST_DATE
            and row.page not in refused and urls[row.page].split(":")[0] not in NOT_RECORDED]
    numbers = {visit: number for number, visit in enumerate(kept, 1)}
    taken = {}
    for visit, number in numbers.items():
        row = visits[visit]
        source = numbers.get(row.source)
        taken[number] = row._replace(source=source if source and source < number else None,
                                     transition=6 if row.redirected and source else row.transition)
    return taken


def compare_script(lines, pages, taken):
    """The script has just the visits that are taken, in their order, and behind them the titles of their pages."""
    visits = ["\t".join(["visit", escaped(pages[row.page].url), str(row.transition), str(row.date)]
                        + [str(row.source)] * (row.source is not None)) for row in taken.values()]
    visited = {row.page for row in taken.values()}
    titles = ["\t".join(["title", escaped(row.url), escaped(row.title)])
              for page, row in pages.items() if page in visited and row.title]
    if [line for line in lines[1:] if not line.startswith("#")] != visits + titles:
        sys.exit("the script is not that of the visits that are taken")
    print(f"  the script has just their {len(visits)} lines, and {len(titles)} titles behind them")


# ---- what the store has

def compare(places, store, browser, pages, taken):
    """Compares the store with the visits that are taken, and says how many pages and visits agree."""
    visited = sorted({row.page for row in taken.values()})
    told = dict(zip(visited, run(places, ["run", store], (f"page\t{escaped(pages[page].url)}" for page in visited))))
    groups = collections.defaultdict(list)
    for page, fields in told.items():
        groups[fields[1]].append(page)
    visits = collections.defaultdict(list)
    for number, row in taken.items():
        visits[told[row.page][1]].append((number, row))
    for page, group in groups.items():
        if len(group) > 1:
            print(f"  one page in the store: {' '.join(pages[one].url for one in group)}")
        compare_page(browser, told[group[0]], [pages[one] for one in group], visits[page])
    compare_visits(run(places, ["run", store], ["query\tplace:type=1&includeHidden=1&sort=3"]), told, taken)
    compare_hidden(browser, pages, taken, told, groups, visits)
    print(f"  visits, last dates, titles and counts agree: {len(taken)} visits, {len(groups)} pages")


def compare_page(browser, fields, group, visits):
    _, _, _, count, last, _, _, _, url, title, _ = fields
    counted = sum(row.transition not in NOT_COUNTED for _, row in visits)
    titles = [escaped(row.title) for row in group if row.title]
    wanted = (counted, max(row.date for _, row in visits), titles[-1] if titles else "")
    if (int(count), int(last), title) != wanted:
        sys.exit(f"{url}: the store has {count}, {last}, {title}, and wanted are {wanted}")
    if browser == "firefox" and sum(row.count for row in group) != counted:
        sys.exit(f"{url}: Firefox counts {[row.count for row in group]}, and {counted} are counted")


def compare_visits(rows, told, taken):
    """Each visit has its number, its page and its date."""
    found = {int(number): (url, int(date)) for _, number, url, _, date, *_ in rows[1:]}
    wanted = {number: (told[row.page][8], row.date) for number, row in taken.items()}
    if found != wanted:
        differ = [(number, found.get(number), row) for number, row in wanted.items() if found.get(number) != row]
        sys.exit(f"{len(differ)} visits differ, the first: {differ[:3]}")


def compare_hidden(browser, pages, taken, told, groups, visits):
    """The store's hidden marks are those of its rule. Each that the browser has otherwise is told, with both rules."""
    sources = {row.source for row in taken.values() if row.transition in REDIRECTS}
    differ = collections.Counter()
    for page, group in groups.items():
        url, ours = pages[group[0]].url, told[group[0]][6] == "1"
        kinds = [row.transition if row.transition in NOT_SHOWN else number in sources and "source"
                 for number, row in visits[page]]
        if ours != (url.startswith("place:") or all(kinds)):
            sys.exit(f"{told[group[0]]}: the hidden mark is not that of its rule")
        if ours != all(pages[one].hidden for one in group):
            rule = rule_of(browser, ours, kinds) or sys.exit(f"{url}: {browser} has no known rule for its hidden mark")
            print(f"  hidden {int(ours)}, in {browser} {int(not ours)}: {url}: {rule}")
            differ[rule] += 1
    print(f"  hidden marks that differ: {sum(differ.values())}")
    for rule, number in differ.items():
        print(f"    {number}: {rule}")


def rule_of(browser, ours, kinds):
    """Why a hidden mark differs: a kind for each visit, by which the store hides, or none."""
    if browser == "chromium" and ours and "source" in kinds:
        return "each visit is the source of a redirect or in a frame; Chromium hides no page for a redirect"
    if browser == "firefox" and not ours and kinds[0] == kinds[-1] == 8:
        return "a visit is none of these; for Firefox the first and the last of those it got at once are in a frame"
    return None


def compare_profile(places, work, browser, database):
    """Puts a profile into a new store by the tool, and compares the store with the profile."""
    script, took = script_of(places, f"from-{browser}", database)
    lines = script.decode().split("\n")[:-1]
    print(f"  {len(lines)} lines in {took:.2f} s")
    print(f"  {lines[-1]}")
    store = work / f"{browser}.store"
    new_store(places, store)
    replies = run(places, ["run", store], lines)
    refused = [reply for reply in replies if reply[0] == "refused"]
    if refused:
        sys.exit(f"{len(refused)} lines are refused, the first: {refused[0]}")
    print(f"  {len(replies)} replies, none of them a refusal")
    with sqlite3.connect(database) as base:
        pages, visits = firefox_rows(base) if browser == "firefox" else chromium_rows(base)
    taken = taken_of(places, pages, visits)
    sources = sum(row.source is not None for row in taken.values())
    types = sorted(collections.Counter(row.transition for row in taken.values()).items())
    print(f"  of {len(visits)} visits {len(taken)} are taken, and {sources} of them have a source; of each type",
          ", ".join(f"{kind}: {number}" for kind, number in types))
    compare_script(lines, pages, taken)
    compare(places, store, browser, pages, taken)


# ---- what the browsers visit

NAVIGATIONS = 400
ADDED = 3000
WAYS = ("", "", "", "301/", "302/", "307/", "301/302/", "302/301/302/")
FIREFOX_MARKS = (None, None, "markPageAsTyped", "markPageAsFollowedBookmark", "markPageAsFollowedLink")
CHROMIUM_TYPES = ("link", "link", "typed", "auto_bookmark", "generated", "auto_toplevel", "form_submit", "reload",
                  "keyword", "keyword_generated")
YEARS = 2 * 365 * 86_400_000


def address(chance, port, way=""):
    """Redirects have few addresses, so that they are visited again, and there are few of whose hidden marks to tell."""
    hosts, pages = (2, 4) if way else (9, 60)
    return f"http://h{chance.randrange(hosts)}.localhost:{port}/{way}p{chance.randrange(pages)}"


def make_firefox(work):
    """Visits of its own, and 3,000 as extensions give them: of every type that is kept, with odd titles."""
    chance, port, now = random.Random(1), browsers.serve(), int(time.time() * 1000)
    firefox = browsers.Firefox(work / "firefox")
    for number in range(NAVIGATIONS):
        firefox.visit(address(chance, port, chance.choice(WAYS)), chance.choice(FIREFOX_MARKS))
    for number in range(5):
        firefox.visit(address(chance, port, "meta/"))
        firefox.visit(address(chance, port, "frame/"))
        firefox.go_in_frame(f"/framed{number}")
    pages = [[f"https://w{number % 70}.example/{number}?q=a\\b%09", f"{number}\ttab \\t back\\slash\\\nline\r{number}",
              [[now - chance.randrange(YEARS), chance.choice((1, 1, 1, 2, 3, 5, 6, 7, 8, 9))]
               for _ in range(chance.randrange(1, 6))]] for number in range(ADDED // 3)]
    firefox.insert(pages)
    return firefox.quit()


def make_chromium(work):
    """Visits of its own, and 3,000 as extensions give them."""
    chance, port = random.Random(2), browsers.serve()
    chromium = browsers.Chromium(work / "chromium")
    for number in range(NAVIGATIONS):
        chromium.visit(address(chance, port, chance.choice(WAYS)), chance.choice(CHROMIUM_TYPES))
    for number in range(5):
        chromium.visit(address(chance, port, "meta/"), loads=2)
        chromium.visit(address(chance, port, "frame/"))
        chromium.go_in_frame(f"/framed{number}")
    pages = [f"https://w{number % 70}.example/{number}?q=a\\b%09" for number in range(ADDED // 3)]
    chromium.add([chance.choice(pages) for _ in range(ADDED)])
    chromium.visit("data:text/html,<title>not recorded</title>")
    return chromium.quit()


# ---- time

SPEED_SCHEMA = """
CREATE TABLE moz_places (id INTEGER PRIMARY KEY, url LONGVARCHAR, title LONGVARCHAR, rev_host LONGVARCHAR,
    visit_count INTEGER DEFAULT 0, hidden INTEGER DEFAULT 0 NOT NULL, typed INTEGER DEFAULT 0 NOT NULL,
    frecency INTEGER DEFAULT -1 NOT NULL, last_visit_date INTEGER, guid TEXT, foreign_count INTEGER DEFAULT 0 NOT NULL,
    url_hash INTEGER DEFAULT 0 NOT NULL, description TEXT, preview_image_url TEXT, site_name TEXT, origin_id INTEGER,
    recalc_frecency INTEGER NOT NULL DEFAULT 0, alt_frecency INTEGER, recalc_alt_frecency INTEGER NOT NULL DEFAULT 0);
CREATE TABLE moz_historyvisits (id INTEGER PRIMARY KEY, from_visit INTEGER, place_id INTEGER, visit_date INTEGER,
    visit_type INTEGER, session INTEGER, source INTEGER DEFAULT 0 NOT NULL, triggeringPlaceId INTEGER);
CREATE INDEX moz_historyvisits_placedateindex ON moz_historyvisits (place_id, visit_date);
CREATE INDEX moz_historyvisits_fromindex ON moz_historyvisits (from_visit);
CREATE INDEX moz_historyvisits_dateindex ON moz_historyvisits (visit_date);
"""
SPEED_VISITS, SPEED_PAGES, RUNS = 100_000, 20_000, 3
# (one visit in twenty is a redirect from the one before it)
SPEED_ROWS = f"""
WITH RECURSIVE n(i) AS (SELECT 1 UNION ALL SELECT i + 1 FROM n WHERE i < {SPEED_PAGES})
INSERT INTO moz_places (id, url, title)
SELECT i, printf('https://www.site%d.example/articles/%d.html', i % 997, i), printf('Article %d of the site', i) FROM n;
WITH RECURSIVE n(i) AS (SELECT 1 UNION ALL SELECT i + 1 FROM n WHERE i < {SPEED_VISITS})
INSERT INTO moz_historyvisits (id, from_visit, place_id, visit_date, visit_type)
SELECT 2 * i, iif(i % 20 = 0, 2 * i - 2, 0), 1 + i * 7919 % {SPEED_PAGES}, 1700000000000000 + i * 300000000,
    iif(i % 20 = 0, 6, iif(i % 10 = 1, 2, 1)) FROM n;
"""


def processor_time():
    """The seconds of processors that programs took which this one started, and which have ended."""
    used = resource.getrusage(resource.RUSAGE_CHILDREN)
    return used.ru_utime + used.ru_stime


def measure(places, work):
    database = work / "speed.sqlite"
    subprocess.run(["sqlite3", "-batch", "-bail", "-init", "/dev/null", database],
                   input=(SPEED_SCHEMA + "BEGIN;" + SPEED_ROWS + "COMMIT;").encode(), check=True)
    before = processor_time()
    timed = [script_of(places, "from-firefox", database) for _ in range(RUNS)]
    script, took, busy = timed[0][0], min(seconds for _, seconds in timed), (processor_time() - before) / RUNS
    lines = script.count(b"\n")
    print(f"  {lines} lines, {len(script)} bytes; {script[script.rindex(b'#'):].decode().strip()}")
    print(f"  tools/from-firefox: {took:.2f} s, {lines / took:.0f} lines a second, the least of {RUNS} runs;",
          f"{busy:.2f} s of processors a run", flush=True)
    store = work / "speed.store"
    new_store(places, store)
    start, before = time.monotonic(), processor_time()
    done = subprocess.run([places, "run", store], input=script, stdout=subprocess.PIPE, check=True)
    took, busy, replies = time.monotonic() - start, processor_time() - before, done.stdout.count(b"\n")
    print(f"  places run: {took:.1f} s, {replies / took:.0f} lines a second; {busy:.2f} s of processors")
    if replies != 1 + SPEED_VISITS + SPEED_PAGES or b"refused" in done.stdout:
        sys.exit("a line was refused, or not answered")


def main():
    # (so that a browser does not outlive it)
    signal.signal(signal.SIGTERM, lambda *_: sys.exit(1))
    places, parts = program(), sys.argv[2:] or PARTS
    browsers.install()
    with tempfile.TemporaryDirectory(dir=".") as folder:
        work = pathlib.Path(folder).resolve()
        for part in parts:
            print(f"{part}:", flush=True)
            if part == "cases":
                profile_cases.check(places, work)
            elif part == "speed":
                measure(places, work)
            else:
                make = make_firefox if part == "firefox" else make_chromium
                compare_profile(places, work, part, make(work))


if __name__ == "__main__":
    main()
