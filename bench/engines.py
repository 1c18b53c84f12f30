#!/usr/bin/env python3
"""Times one script over linked slots and over vectors, by `pairs_main`, and how it grows with its length.

    bench/engines.py [PROGRAM]

Each script is made at three lengths, and performed alone on each form of rows. A row has the seconds of both, the lesser
of two runs, and each as a multiple of that for half as many lines: 2 says that a line costs the same however many there
are, 4 that it costs as much as there are lines. It is no timed test: it fails only where the two reply otherwise.
"""
import itertools
import pathlib
import subprocess
import sys
import time

HOME = pathlib.Path(__file__).resolve().parent.parent
PROGRAM = HOME / "crates/pairs_main/out/pairs_main"
URL = "https://a.example/"
RUNS = 2


def visit(date, transition=1, source=None):
    words = ["visit", URL, str(transition), str(date)]
    return "\t".join(words + ([] if source is None else [str(source)]))


def later_first(count):
    """Visits of one page, each earlier than the one before it."""
    return [visit(1_000_000 - number) for number in range(count)]


def like_chance(count):
    return [visit(number * 7_919 % 1_000_003) for number in range(count)]


def as_they_come(count):
    return [visit(number) for number in range(count)]


def each_order(count):
    """Three visits that came from one, the second by a redirect, in each order of their dates; and then the page."""
    lines, visits = [], 0
    while len(lines) < count:
        for dates in itertools.permutations((1, 2, 3)):
            source = visits + 1
            lines.append(visit(2))
            lines.extend(visit(date, transition, source) for date, transition in zip(dates, (1, 5, 2)))
            lines.append(f"page\t{URL}")
            visits += 4
        lines.append(f"unvisit\t{source}")
    return lines


def one_source(count):
    """Visits that came from the first, every second by a redirect, and then the first goes."""
    targets = [visit(number, 5 if number % 2 else 1, 1) for number in range(count)]
    return [visit(0)] + targets + ["unvisit\t1"]


def one_folder(count):
    """Separators in one folder, each in front of all, and then as many moves of one of them to the front."""
    put = ["separator\t3\t0\t0" for _ in range(count)]
    return put + [f"move\t{7 + number * 31 % count}\t3\t0\t0" for number in range(count)]


SCRIPTS = (
    ("visits of a page, as they come", as_they_come, (2_500, 5_000, 10_000)),
    ("visits of a page, the latest first", later_first, (2_500, 5_000, 10_000)),
    ("visits of a page, as by chance", like_chance, (2_500, 5_000, 10_000)),
    ("three visits from one, in each order", each_order, (250, 500, 1_000)),
    ("visits from one, which goes", one_source, (250, 500, 1_000)),
    ("items of a folder, put and moved in front", one_folder, (5_000, 10_000, 20_000)),
)


def perform(program, rows, script):
    least, replies = None, None
    for _ in range(RUNS):
        start = time.monotonic()
        done = subprocess.run([program, rows, "script"], input=script, stdout=subprocess.PIPE, check=True)
        seconds = time.monotonic() - start
        least = seconds if least is None else min(least, seconds)
        replies = done.stdout
    return least, replies


def main():
    program = sys.argv[1] if len(sys.argv) > 1 else str(PROGRAM)
    print(f"{'':44}{'lines':>8}{'linked':>10}{'':>7}{'vectors':>10}{'':>7}")
    for name, make, sizes in SCRIPTS:
        before = None
        for count in sizes:
            script = ("\n".join(make(count)) + "\n").encode()
            (linked, replies), (flat, others) = (perform(program, rows, script) for rows in ("linked", "flat"))
            if replies != others:
                sys.exit(f"engines.py: {name}, {count} lines: the replies differ")
            grown = ["", ""] if before is None else [f"x {now / then:.1f}" for now, then in zip((linked, flat), before)]
            print(f"{name:44}{count:>8}{linked:>8.2f} s{grown[0]:>7}{flat:>8.2f} s{grown[1]:>7}")
            before = linked, flat
            name = ""


if __name__ == "__main__":
    main()
