#!/usr/bin/env python3
"""Fills stores on linked slots and on vectors up to a limit on slots, and up to the last slot.

    bench/limits.py [PROGRAM]

At each limit a script of each kind adds rows behind the opening store until no more are taken,
asks for what is there, lets rows go and adds again; random scripts of every command are performed,
and bookmark files of a few rows are imported. A full store has as many rows as the slots of its
file, eight a page: one row more comes, one goes, and one comes. `pairs_main` performs all of it. It
fails where the two engines reply otherwise, where a script at a limit has no line that is refused
for want of slots, or where no script of a kind fills a store.
"""
import collections
import itertools
import pathlib
import subprocess
import sys

from imports import bookmark, file_of
from pairs import script_of

HOME = pathlib.Path(__file__).resolve().parent.parent
PROGRAM = HOME / "crates/pairs_main/out/pairs_main"
LIMITS = range(40, 61)
SEEDS = range(1, 4)
ROWS = 60
IMPORTED = range(1, 12)
SLOTS_A_PAGE = 8
# Lengths about those at which a text takes one slot more.
LENGTHS = 0, 1, 119, 120, 121, 240, 241, 500
ASKED = ["stats", *(f"list\t{item}" for item in range(1, 9)), "page\thttps://p1.example/",
         "origin\thttps://p1.example/", "query\tplace:includeHidden=1&sort=22",
         "query\tplace:type=1&sort=4", "query\tplace:queryType=1", "bar\t20\tp", "fill\tp"]


def url(number):
    return f"https://p{number}.example/"


def title(number, times=1):
    return "t" * LENGTHS[number % len(LENGTHS)] * times


def long_url(number):
    return url(number) + title(number)


# ---- kinds: the lines in front, the line of a number that adds, and the one that lets go

def visited(count):
    return [f"visit\t{url(number)}\t1\t{number}" for number in range(1, count + 1)]


def bookmarked(count):
    return [f"bookmark\t2\tend\t{url(number)}\t\t{number}" for number in range(1, count + 1)]


def removed(number):
    return f"remove\t{6 + number}"


def unvisited(number):
    return f"unvisit\t{number}"


KINDS = {
    "folders": ([], lambda n: f"folder\t2\t0\t{title(n)}\t{n}", removed),
    "separators": ([], lambda n: f"separator\t3\tend\t{n}", removed),
    "bookmarks": ([], lambda n: f"bookmark\t5\t0\t{url(n)}\t{title(n)}\t{n}", removed),
    "bookmarks of a page": ([], lambda n: f"bookmark\t5\tend\t{url(1)}\t\t{n}", removed),
    "titles of items": (bookmarked(5), lambda n: f"retitle\t{7 + n % 5}\t{title(n, n % 8)}\t{n}",
                        lambda n: f"retitle\t{7 + n % 5}\t\t{n}"),
    "titles of pages": (visited(5), lambda n: f"title\t{url(1 + n % 5)}\t{title(n, n % 8)}",
                        lambda n: f"title\t{url(1 + n % 5)}\t"),
    "pages": ([], lambda n: f"visit\t{long_url(n)}\t{1 + n % 9}\t{n}",
              lambda n: f"forget\t{long_url(n)}"),
    "visits": ([], lambda n: f"visit\t{url(n % 3)}\t1\t{n}", unvisited),
    "visits from one": (visited(1), lambda n: f"visit\t{url(1)}\t{5 + n % 2}\t{n}\t1", unvisited),
    "tags": (visited(3), lambda n: f"tag\t{url(1 + n % 3)}\ttag {n}\t{n}",
             lambda n: f"untag\t{url(1 + n % 3)}\tTAG {n}"),
    "tagged pages": (visited(1), lambda n: f"tag\t{url(n)}\ttag\t{n}",
                     lambda n: f"untag\t{url(n)}\ttag"),
}


def text_of(lines):
    return ("\n".join(lines) + "\n").encode()


def to_the_limit(kind):
    """Rows until none is taken; then some go, and come again, one for one and in threes."""
    before, add, drop = KINDS[kind]
    lines = before + [add(number) for number in range(1, ROWS)] + ASKED
    for number in range(1, 9):
        lines += [drop(number), add(ROWS + number), "stats"]
    lines += [drop(number) for number in range(9, 12)]
    lines += [add(2 * ROWS + number) for number in range(4)]
    return text_of(lines + ASKED)


def about_full(kind, count, more):
    """So many rows and separators; then one row more, one that goes, and one that comes."""
    before, add, drop = KINDS[kind]
    rows = [add(number) for number in range(1, count + 1)] + ["separator\t6\tend\t0"] * more
    changes = [add(count + 1), drop(1), add(count + 2), drop(count + 1), drop(count + 2), add(1)]
    return text_of(before + rows + ["stats"] + changes + ASKED)


# ---- runs

def compare(program, name, script, limit=None, work="script"):
    """Does the work on both, and gives what linked slots alone say."""
    words = [work] + ([] if limit is None else [str(limit)])
    both = subprocess.run([program, "both", *words], input=script, stdout=subprocess.PIPE)
    if both.returncode:
        said = both.stdout.decode(errors="backslashreplace")
        sys.exit(f"limits.py: {name} at {limit}: {said}")
    alone = subprocess.run([program, "linked", *words], input=script, stdout=subprocess.PIPE)
    return alone.stdout.decode()


def replies(said):
    """The first line of each reply: behind `rows` stand as many lines as it tells."""
    lines = iter(said.split("\n")[:-1])
    for line in lines:
        yield line
        if line.startswith("rows\t"):
            collections.deque(itertools.islice(lines, int(line.split("\t")[1])), maxlen=0)


def refused_for_slots(script, said):
    """The words of the lines that were refused so."""
    asked = [line for line in script.split(b"\n") if line and not line.startswith(b"#")]
    pairs = zip(asked, replies(said), strict=True)
    return [line.split(b"\t")[0].decode() for line, reply in pairs
            if reply.startswith("refused\t12\t")]


def scripts_at_limits():
    for limit in LIMITS:
        yield from ((limit, kind, to_the_limit(kind)) for kind in KINDS)
        yield from ((limit, f"seed {seed}", script_of(seed, 400)) for seed in SEEDS)


def reach_limits(program):
    """How many lines there were, and how many of each command were refused for want of slots."""
    count, refused = 0, collections.Counter()
    for limit, name, script in scripts_at_limits():
        found = refused_for_slots(script, compare(program, name, script, limit))
        if not found:
            sys.exit(f"limits.py: {name} at {limit}: nothing was refused for want of slots")
        count += script.count(b"\n")
        refused.update(found)
    return count, refused


def import_to_limits(program):
    """How many imports there were, and how many were refused for want of slots."""
    files = [file_of(rows, bookmark).encode() for rows in IMPORTED]
    said = [compare(program, "an import", file, limit, "import")
            for file, limit in itertools.product(files, LIMITS)]
    refused = sum(reply.startswith("refused\t12\t") for reply in said)
    if refused in (0, len(said)):
        sys.exit(f"limits.py: {refused} of {len(said)} imports were refused for want of slots")
    return len(said), refused


def slots_told(said):
    """The number of slots that the first `stats` tells."""
    told = next(line for line in replies(said) if line.startswith("stats\t"))
    return int(told.split("\t")[-1])


def fill_pages(program):
    """In how many scripts of each kind a store was full."""
    full = collections.Counter()
    for kind, count, more in itertools.product(KINDS, range(1, 6), range(SLOTS_A_PAGE)):
        said = compare(program, kind, about_full(kind, count, more))
        full[kind] += slots_told(said) % SLOTS_A_PAGE == 0
    missing = [kind for kind in KINDS if not full[kind]]
    if missing:
        sys.exit(f"limits.py: no store was full: {missing}")
    return full


def told(counts):
    return ", ".join(f"{name} {times}" for name, times in sorted(counts.items()))


def main():
    program = sys.argv[1] if len(sys.argv) > 1 else str(PROGRAM)
    count, refused = reach_limits(program)
    print(f"{len(LIMITS)} limits, {count} lines, all alike; refused for want of slots:")
    print(told(refused))
    imported, refused = import_to_limits(program)
    print(f"{imported} imports, all alike, {refused} of them refused for want of slots")
    full = fill_pages(program)
    print(f"{sum(full.values())} stores full to the last slot, all alike:")
    print(told(full))


if __name__ == "__main__":
    main()
