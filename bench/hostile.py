#!/usr/bin/env python3
"""Times the check of files that ask for far more work than they have bytes, and their opening, beside good files of their
size.

    bench/hostile.py [CHECKER [PROGRAM]]

CHECKER is by default crates/files_main/out/files_main, which `rt ci files_main` builds, and PROGRAM out/places, which the
launcher builds. CHECKER checks a file; PROGRAM runs an empty script on it (`places run FILE`).

One has 300,000 folders, of which each names the same chain of all 300,000 as its children. Two have 600,000 pages, of which
each names the same text of 64 KiB as its URL: in one the header counts the slots that are live, in the other those that so
many texts would take. The good files have the folders as they were, and 200,000 pages, each with a text and a visit. All
are made by `linked_file.py`. By turns a hostile file and its good one are checked, and opened: of three times the least is
told. It fails where a hostile file is not refused as no store or is changed, a good one is refused, or a refusal takes
longer than the good file.
"""
import itertools
import pathlib
import subprocess
import sys
import tempfile
import time

import linked_file
from linked_file import FOLDER, FORMS, HEADER, ITEM, LINK, PAGE, PAGE_SIZE, Item, Layout, Page, Store, Visit, roots
from program import program

RUNS = 3
FOLDERS, PAGES, LONGEST_URL = 300_000, 600_000, 65_536
HOST = b"https://a.example/"


def folders():
    """So many empty folders in one."""
    children = range(7, 7 + FOLDERS)
    return Store.of(0, [], [], roots({2: children}) + [Item(id, FOLDER, b"", 0, 0, 0, ()) for id in children])


def pages():
    """A third as many pages as the hostile file has, each with a text and a visit."""
    ids = range(1, PAGES // 3 + 1)
    return Store.of(0, [Page(id, HOST + b"%d" % id, b"", False) for id in ids],
                    [Visit(id, id, 0, LINK, 0) for id in ids], roots({}))


def set_fields(data, kind, slots, **fields):
    """Sets fields of these slots of a file."""
    form = FORMS[kind]
    for place in map(linked_file.slot_place, slots):
        form.struct.pack_into(data, place, *form.read(data, place)._replace(**fields))


def one_chain():
    """The folders, which name their own chain."""
    store = folders()
    layout = linked_file.layout_of(store)
    data = bytearray(linked_file.file_bytes(store, layout))
    slots = [layout.items[id] for id in range(7, 7 + FOLDERS)]
    set_fields(data, ITEM, slots, first_child=slots[0], last_child=slots[-1])
    return data


def one_text(counted):
    """The pages, which name the text of the first one, and a header that counts all these texts or the one."""
    store = Store.of(0, [Page(id, HOST + b"%d" % id, b"", False) for id in range(1, PAGES + 1)], [], roots({}))
    text = HOST + b"x" * (LONGEST_URL - len(HOST))
    parts = linked_file.parts(text)
    layout, slots = Layout(), itertools.count(1)
    layout.origins[linked_file.origin_of(HOST)] = next(slots)
    layout.pages.update((page.id, next(slots)) for page in store.pages)
    layout.items.update((item.id, next(slots)) for item in store.items)
    layout.urls.update((page.id, []) for page in store.pages)
    layout.titles.update((page.id, []) for page in store.pages)
    layout.item_titles.update((item.id, []) for item in store.items)
    layout.urls[1] = list(itertools.islice(slots, parts))
    layout.free = list(range(layout.urls[1][-1] + 1, 8 * linked_file.rounded_up(layout.urls[1][-1], 8) + 1))
    first = store.pages[0]._replace(url=text)
    data = bytearray(linked_file.file_bytes(store._replace(pages=[first] + store.pages[1:]), layout))
    set_fields(data, PAGE, layout.pages.values(), url=layout.urls[1][0], url_length=LONGEST_URL)
    if counted:
        header = HEADER.read(data, PAGE_SIZE)
        HEADER.struct.pack_into(data, PAGE_SIZE, *header._replace(live=header.live + (PAGES - 1) * parts))
    return data


# What is refused: a name, how it is made, and the good store beside it.
FILES = [
    ("folders that name one chain", one_chain, folders),
    ("pages that name one text", lambda: one_text(False), pages),
    ("the same, all counted", lambda: one_text(True), pages),
]


def check(words, file):
    """The status of a check of the file, and its time in seconds."""
    with open(file, "rb") as stdin:
        start = time.perf_counter()
        done = subprocess.run(words, stdin=stdin, capture_output=True)
        return done.returncode, time.perf_counter() - start


def opened(words, file):
    """The same of a run of no lines on it."""
    start = time.perf_counter()
    done = subprocess.run([*words, file], stdin=subprocess.DEVNULL, capture_output=True)
    return done.returncode, time.perf_counter() - start


def measure(checker, places, name, hostile, good, room):
    """Whether the hostile file is refused as soon as the good one is taken, by both programs."""
    bad, fine, told = room / "hostile", room / "good", []
    start = bytes(hostile())
    bad.write_bytes(start)
    fine.write_bytes(linked_file.file_bytes(good()))
    done = []
    for run, words, status in (check, [checker, "check"], 1), (opened, [places, "run"], 7):
        turns = [(run(words, bad), run(words, fine)) for _ in range(RUNS)]
        statuses = {(one, other) for (one, _), (other, _) in turns}
        refused, taken = min(took for (_, took), _ in turns), min(took for _, (_, took) in turns)
        told += [f"{refused:.3f}", f"{taken:.3f}"]
        done.append(statuses == {(status, 0)} and refused <= taken)
    print(f"| {name} | {len(start) / 1e6:.1f} | {fine.stat().st_size / 1e6:.1f} | {' | '.join(told)} |", flush=True)
    return all(done) and bad.read_bytes() == start


def main():
    checker = linked_file.program("hostile.py")
    del sys.argv[1:2]
    places = program()
    print("| Hostile file | MB | good file, MB | `check` refuses after, s | takes the good one after, s "
          "| `run` refuses after, s | opens the good one after, s |\n|---|---|---|---|---|---|---|")
    with tempfile.TemporaryDirectory() as room:
        done = [measure(checker, places, *file, pathlib.Path(room)) for file in FILES]
    if not all(done):
        sys.exit("hostile.py: a file was not refused within the time of the good one, or was not one to refuse")


if __name__ == "__main__":
    main()
