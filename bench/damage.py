#!/usr/bin/env python3
"""Damages small files of linked slots at random, opens each, and looks at what becomes of it.

    bench/damage.py [CHECKER [PROGRAM]]

CHECKER is by default crates/files_main/out/files_main, which `rt ci files_main` builds, and PROGRAM out/places, which the
launcher builds. A hundred thousand times one of the files has bytes or fields changed, slots exchanged, chains crossed, a
page repeated or left out; is cut, or grows; or gets another page 0 or journal; and one time in four a second damage. A run
on each asks for `stats` (`places run FILE`). It has to be refused, saying nothing, or to say how many rows there are; the
file has to be as it was, or with its journal installed where the gate was set. Which of these, the reader of
`linked_file.py` and the judge of `flips.py` say by the format alone; of a file that opens `files_main rows` has to say just
the rows that the reader finds. The judge knows no URLs but simple ones: where a damage makes another one, only these rows
are compared.

The processor's time of each run is compared with that on the good file, too. One that takes more than twice as much is run
again by turns with that, up to nine times, and the least counts. Since starting the program is most of it, a thousand
damages of a file of a megabyte come behind.
"""
import collections
import concurrent.futures
import itertools
import os
import pathlib
import random
import re
import resource
import statistics
import subprocess
import sys
import tempfile
import traceback

import flips
import linked_file
from flips import OTHER, REFUSED, SAME
from linked_file import FORMS, FREE, HEADER, ITEM, ORIGIN, PAGE, PAGE_SIZE, VISIT, Damaged, LinkedFile
from open import history
from program import new_store, program
from spoil import KINDS, Good, damaged, settled

DAMAGES, OF_THE_LARGE = 100_000, 1_000
AT_ONCE = 2
# How much memory a run may ask for, in bytes, and how often one is run again that took long.
MOST_MEMORY = 1 << 30
AGAIN = 9
# `files_main rows` asks for each id below the next one: greater ones are lowered to this before.
MANY_IDS = 1 << 16
FAST = "/dev/shm"
PAGES_OF_THE_LARGE = 1_250

U = b"https://a.example/"
FEW_LINES = [
    (b"visit", U, 2, 0),
    (b"visit", b"https://b.example/", 5, 1, 1),
    (b"visit", U, 1, 2),
    (b"visit", U + b"x", 1, 3),
    (b"tag", U, b"Red", 0),
    (b"folder", 2, b"end", b"F", 0),
]


# ---- the second reader and the judge

SIMPLE = re.compile(rb"[a-z]+://[a-z0-9.]*[a-z][a-z0-9.]*/[A-Za-z0-9/_-]*")


def is_known(url):
    """Whether the judge of `flips.py` is right about a URL: a simple one, or one that is surely none."""
    return (SIMPLE.fullmatch(url) is not None or not re.match(rb"[A-Za-z][A-Za-z0-9+.-]*:", url)
            or re.match(rb"[a-z]+://", url) and not re.fullmatch(rb"[!-~]*", url))


def judged(data):
    """Whether the bytes stand for a store; None where they have a URL that the judge does not know."""
    try:
        pages = LinkedFile(data).store().pages
    except Damaged:
        return False
    return flips.stands(data) if all(is_known(page.url) for page in pages) else None


def lowered(data):
    """The bytes with lesser next ids, where these are great and no row has such an id."""
    read, store = LinkedFile(data), LinkedFile(data).store()
    if max([0, *(row.id for row in store.pages + store.visits + store.items)]) >= MANY_IDS:
        return data
    header = read.header
    lesser = {word: min(getattr(header, word), MANY_IDS) for word in ("next_page", "next_visit", "next_item")}
    other = bytearray(data)
    HEADER.struct.pack_into(other, PAGE_SIZE, *header._replace(**lesser))
    return bytes(other)


# ---- runs

class Tools:
    """The programs, and a file for the bytes of a run."""

    def __init__(self, checker, places, room):
        self.checker, self.places, self.path = checker, places, pathlib.Path(room) / f"store{os.getpid()}"

    def open(self, data):
        """A run on these bytes that asks for `stats`, the bytes that it leaves, and its time."""
        self.path.write_bytes(data)
        start = spent()
        done = subprocess.run([self.places, "run", self.path], input=b"stats\n", capture_output=True)
        took = spent() - start
        return done, self.path.read_bytes(), took

    def time(self, data):
        return self.open(data)[-1]

    def rows(self, data):
        done = subprocess.run([self.checker, "rows"], input=data, capture_output=True)
        return done.stdout if done.returncode == 0 else None


# How a run ends, what it says where it is refused, and its other words.
ENDINGS = [(0, b"", b""), (7, b"", b"places: status 7\n")]


def spent():
    """The time of the processor that finished children took."""
    used = resource.getrusage(resource.RUSAGE_CHILDREN)
    return used.ru_utime + used.ru_stime


def stats(read):
    """The reply to `stats`, by the reader."""
    header = read.header
    counts = [sum(1 for _ in read.chain(kind, getattr(header, f"first_{FORMS[kind].name}"), "behind"))
              for kind in (PAGE, VISIT, ITEM)]
    totals = [origin.total for _, origin in read.chain(ORIGIN, header.first_origin, "behind") if origin.total]
    return (b"stats\tpages\t%d\tvisits\t%d\titems\t%d\torigins\t%d\tsum\t%d\tslots\t%d\n"
            % (*counts, len(totals), sum(totals), header.live))


def outcome(tools, good, data):
    """What the program makes of the bytes, what is wrong with that, if anything, whether a judge knows, and its time."""
    try:
        left, stands = settled(data), True
    except Damaged:
        left, stands = data, False
    stands = stands and judged(left)
    done, after, took = tools.open(data)
    kind, fault = opened(tools, good, left, done.stdout) if done.returncode == 0 else (REFUSED, None)
    if (done.returncode, done.stdout if kind == REFUSED else b"", done.stderr) not in ENDINGS:
        fault = f"status {done.returncode}, {done.stdout[:100]!r}, {done.stderr[:100]!r}"
    elif after != left:
        fault = "another file is left"
    elif stands is not None and stands != (kind != REFUSED):
        fault = f"{kind}, and the judge says otherwise"
    return kind, fault, stands is not None, took


def opened(tools, good, data, said):
    """Which store the program opened, and whether it has other rows than the reader finds."""
    try:
        read, lesser = LinkedFile(data), lowered(data)
        rows, asked = b"".join(read.lines()), b"".join(LinkedFile(lesser).lines())
        alike = said == stats(read) and tools.rows(lesser) == asked
    except Damaged as damage:
        return OTHER, f"opened, and the reader finds {damage}"
    return SAME if rows == good.rows else OTHER, None if alike else "opened, with other rows than the reader finds"


def ratio(tools, good, data, took, usual):
    """The time as a multiple of that of the good file: the least of both by turns, where it is more than twice that."""
    for _ in range(AGAIN):
        if took <= 2 * usual:
            break
        usual, took = min(usual, tools.time(good.data)), min(took, tools.time(data))
    return took / usual


# ---- many of them

WORKER = {}


def begin(checker, places, room, files):
    """What a process of its own begins with: the good files, and how long each takes."""
    resource.setrlimit(resource.RLIMIT_AS, (MOST_MEMORY, MOST_MEMORY))
    tools, goods = Tools(checker, places, room), [Good(*file) for file in files]
    usual = [statistics.median(tools.time(good.data) for _ in range(20)) for good in goods]
    WORKER.update(tools=tools, goods=goods, usual=usual)


def try_one(index, seed):
    tools, good, usual = WORKER["tools"], WORKER["goods"][index], WORKER["usual"][index]
    kind, data = damaged(good, seed)
    try:
        result, fault, knows, took = outcome(tools, good, data)
    except Exception:
        result, fault, knows, took = REFUSED, traceback.format_exc(), True, 0
    return index, kind, seed, result, fault, knows, ratio(tools, good, data, took, usual)


def try_all(tools, files, count):
    """Each of the files with as many damages, some at once."""
    with tempfile.TemporaryDirectory(dir=FAST if os.path.isdir(FAST) else None) as room:
        with concurrent.futures.ProcessPoolExecutor(AT_ONCE, initializer=begin, initargs=(*tools, room, files)) as pool:
            yield from pool.map(try_one, itertools.cycle(range(len(files))), range(count), chunksize=32)


# ---- the good files

def written(places, lines, room):
    """The file that a run of these lines leaves, with the journal of the last commit behind its pages."""
    path = pathlib.Path(room) / "written"
    path.unlink(missing_ok=True)
    new_store(places, path)
    subprocess.run([places, "run", path], input=flips.script(lines), capture_output=True, check=True)
    return path.read_bytes()


def small_files(places):
    with tempfile.TemporaryDirectory() as room:
        yield "a new store", written(places, [], room)
        yield "two visits, and more", written(places, FEW_LINES, room)
        yield "every command", written(places, flips.SCRIPT, room)
    small = linked_file.small_store()
    for seed in range(3):
        layout = linked_file.layout_of(small, random.Random(seed))
        yield f"every kind of row, mixed by {seed}", linked_file.file_bytes(small, layout)


# ---- what is told

def tell(tools, files, count):
    """The outcomes by kinds of damage, the greatest time of each, and the faults."""
    counts, worst, faults = collections.defaultdict(collections.Counter), collections.defaultdict(float), []
    unknown = 0
    for index, kind, seed, result, fault, knows, times in try_all(tools, files, count):
        counts[kind][result] += 1
        unknown += not knows
        worst[kind] = max(worst[kind], times)
        if fault or times > 2:
            fault = fault or f"{times:.2f} times the time of the good file"
            faults.append(f"{files[index][0]}, {kind}, seed {seed}: {fault}")
    print("| Damage | files | refused | the same store | another store | greatest time, of the good file's |\n"
          "|---|---|---|---|---|---|")
    for kind in KINDS:
        tell_row(kind, counts[kind], worst[kind])
    tell_row("all", sum(counts.values(), collections.Counter()), max(worst.values()))
    print(f"\n{unknown} with a URL that the judge does not know\n", flush=True)
    return faults


def tell_row(name, kinds, worst):
    print(f"| {name} | {kinds.total():,} | {kinds[REFUSED]:,} | {kinds[SAME]:,} | {kinds[OTHER]:,} | {worst:.2f} |")


def main():
    checker = linked_file.program("damage.py")
    del sys.argv[1:2]
    tools = checker, program()
    files = list(small_files(tools[1]))
    for name, data in files:
        good = Good(name, data)
        print(f"{name}: {len(data):,} bytes, {good.read.header.live} live slots and {len(good.by_kind[FREE])} free ones")
    print(flush=True)
    faults = tell(tools, files, DAMAGES)
    large = linked_file.file_bytes(history(PAGES_OF_THE_LARGE))
    print(f"a history of {PAGES_OF_THE_LARGE:,} pages: {len(large):,} bytes\n")
    faults += tell(tools, [("the history", large)], OF_THE_LARGE)
    if faults:
        sys.exit("\n".join([f"damage.py: {len(faults)} faults:"] + faults[:20]))


if __name__ == "__main__":
    main()
