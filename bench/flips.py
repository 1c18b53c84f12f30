#!/usr/bin/env python3
"""Changes each single byte of a small file of linked slots, and looks at what `files_main` makes of it.

    bench/flips.py [PROGRAM]    by default crates/files_main/out/files_main, which `rt ci files_main` builds

The file is that of a script with every kind of row, written by `files_main write`. From page 1 on each byte gets three
other values in turn: the next one, the one with another highest bit, and 0, or 255 where it was 0. So do some bytes of
page 0 and behind the pages of the store, which are free. `files_main rows` either refuses the bytes as no store, or says
just what the reader of `linked_file.py` finds in them. It has to refuse them exactly where they are not those that the
maker there writes of the rows that the reader finds, or where these are those of no good store: `stands` says so without
the program, for URLs such as the script has.

It prints how many are refused, and the fields in which a change is taken, as the same store or as another one. The few
changes that make a next id very great take the program a while, since it asks for each id below.
"""
import collections
import concurrent.futures
import functools
import itertools
import re
import subprocess
import sys

import linked_file
from linked_file import BOOKMARK, DAY, FOLDER, FORMS, HEADER, PAGE_SIZE, SEPARATOR, SLOT_SIZE, TEXT, Damaged, LinkedFile

AT_ONCE = 2
# Every so many bytes of page 0 one is changed, and as many behind the pages.
EVERY = 16
BEHIND = bytes(64)

A, B, C, D = b"https://a.example/", b"http://b.example/", b"https://c.example/", b"https://d.example/"
LONG = C + b"part/" * 50

SCRIPT = [
    (b"day", 20),
    (b"visit", A, 2, 0),
    (b"visit", B + b"to", 5, 1, 1),
    (b"visit", B + b"then", 6, 2, 2),
    (b"visit", A + b"two", 1, 3 * DAY, 3),
    (b"visit", D + b"gone", 1, 4 * DAY),
    (b"visit", A, 9, 10 * DAY, 1),
    (b"visit", LONG, 3, 18 * DAY, 1),
    (b"visit", A + b"two", 4, 18 * DAY),
    (b"visit", C + b"frame", 8, 19 * DAY, 7),
    (b"visit", LONG, 7, 19 * DAY),
    (b"visit", A, 1, 20 * DAY, 7),
    (b"title", A, b"one two three " * 20),
    (b"title", LONG, b"C"),
    (b"title", D + b"gone", b"gone"),
    (b"folder", 2, b"end", b"Folder", 5),
    (b"bookmark", 7, b"end", A, "Größe".encode(), 6),
    (b"separator", 7, b"end", 7),
    (b"bookmark", 5, 0, D + b"kept", b"", 8),
    (b"separator", 3, b"end", 9),
    (b"bookmark", 3, b"end", A + b"two", b"more " * 40, 10),
    (b"bookmark", 3, 0, A, b"again", 11),
    (b"folder", 7, 0, b"", 12),
    (b"tag", A, b"News", 13),
    (b"tag", LONG, b"News", 14),
    (b"tag", LONG, b"blue", 15),
    (b"retitle", 9, b"line", 16),
    (b"move", 9, 7, 0, 17),
    (b"remove", 12),
    (b"forget", D + b"gone"),
]


def script(lines=SCRIPT):
    return b"".join(b"\t".join(b"%d" % word if isinstance(word, int) else word for word in line) + b"\n" for line in lines)


# ---- what stands for a store

LAST_DAY, LAST_DATE = 2_932_896, 253_402_300_799_999_999
END_OF_IDS = 4_294_967_295
LONGEST_TITLE, LONGEST_TAG = 4_096, 100
BLANKS = b"\t\n\f\r "


def is_text(text):
    try:
        text.decode()
    except UnicodeDecodeError:
        return False
    return True


def are_ids(first, behind, rows):
    ids = [0] + [row.id for row in rows]
    return all(one < other for one, other in zip(ids, ids[1:])) and max(first, ids[-1] + 1) <= behind <= END_OF_IDS


def is_url(url):
    """A URL that is its own serialization, of those that one byte makes of the script's."""
    return re.fullmatch(rb"[a-z]+://[a-z0-9.]+/[A-Za-z0-9/_-]*", url) is not None


def is_title(title):
    return is_text(title) and len(title) <= LONGEST_TITLE


def is_tag_name(name):
    return is_text(name) and 0 < len(name) <= LONGEST_TAG and b"," not in name and name == name.strip(BLANKS)


def is_once(some):
    some = list(some)
    return len(some) == len(set(some))


def has_tree(items):
    """Each item is reached from item 1, and by one way."""
    reached, left = [], [1]
    while left and len(reached) <= len(items):
        reached.append(left.pop())
        left.extend(items[reached[-1]].children if reached[-1] in items else ())
    return sorted(reached) == sorted(items)


def has_roots(items):
    for root in range(1, 7):
        children = (2, 3, 4, 5, 6) if root == 1 else items[root].children if root in items else ()
        if items.get(root) != linked_file.Item(root, FOLDER, b"", 0, 0, 0, children):
            return False
    return True


def is_tag_folder(items, tag):
    entries = [items[child] for child in tag.children]
    return (tag.kind == FOLDER and is_tag_name(tag.title) and entries != [] and is_once(entry.page for entry in entries)
            and all(entry.kind == BOOKMARK and entry.title == b"" for entry in entries))


def are_good_items(store, pages):
    items = {item.id: item for item in store.items}
    if not (has_roots(items) and has_tree(items)):
        return False
    tags = [items[child] for child in items[4].children]
    return (all(item.kind in (BOOKMARK, FOLDER, SEPARATOR) and is_title(item.title)
                and max(item.added, item.modified) <= LAST_DATE
                and (item.page in pages if item.kind == BOOKMARK else item.page == 0)
                and (item.children == () or item.kind == FOLDER) for item in store.items)
            and all(is_tag_folder(items, tag) for tag in tags)
            and is_once(tag.title.decode().casefold() for tag in tags))


def is_good(store):
    pages, visits = {page.id for page in store.pages}, {visit.id for visit in store.visits}
    kept = {row.page for row in store.visits + store.items}
    typed = {visit.page for visit in store.visits if visit.transition == linked_file.TYPED}
    return (store.day <= LAST_DAY
            and are_ids(1, store.next_page, store.pages)
            and are_ids(1, store.next_visit, store.visits)
            and are_ids(7, store.next_item, store.items)
            and all(is_url(page.url) and is_title(page.title) and page.id in kept for page in store.pages)
            and all(page.typed or page.id not in typed for page in store.pages)
            and is_once(page.url for page in store.pages)
            and all(visit.date <= LAST_DATE and visit.page in pages and visit.transition in linked_file.BONUS
                    and (visit.source == 0 or visit.source < visit.id and visit.source in visits) for visit in store.visits)
            and are_good_items(store, pages))


def stands(data):
    """Whether the bytes stand for a store: a good one, of which the maker writes them into the same slots."""
    try:
        read = LinkedFile(data)
        store = read.store()
        if not is_good(store):
            return False
        layout = read.layout()
        slots = sorted(itertools.chain(layout.live(), layout.free))
        origins = {linked_file.origin_of(page.url) for page in store.pages}
        if slots != list(range(1, read.slots + 1)) or set(layout.origins) != origins:
            return False
        return linked_file.file_bytes(store, layout)[PAGE_SIZE:] == data[PAGE_SIZE:PAGE_SIZE * read.header.pages]
    except Damaged:
        return False


# ---- changes

def values(byte):
    """Other values of a byte."""
    return sorted({(byte + 1) % 256, byte ^ 0x80, 0 if byte else 255})


def changed(data, place, value):
    return data[:place] + bytes([value]) + data[place + 1:]


def places(data, end):
    """The bytes that are changed: of page 0 some, of the store's pages all, and behind them some."""
    return [*range(0, PAGE_SIZE, EVERY), *range(PAGE_SIZE, end), *range(end, len(data), EVERY)]


def fields(data):
    """What stands at a byte of the file, by its place: which row, and which field of it."""
    read = LinkedFile(data)
    layout, end = read.layout(), PAGE_SIZE * read.header.pages
    texts = {slot: name for name, some in (("URL", layout.urls), ("title of a page", layout.titles),
                                           ("title of an item", layout.item_titles))
             for slots in some.values() for slot in slots}

    def field(place):
        if place < PAGE_SIZE:
            return "page 0", ""
        if place >= end:
            return "behind the pages", ""
        if place < 2 * PAGE_SIZE:
            return "header", HEADER.field_at(place - PAGE_SIZE) or "behind its fields"
        slot, at = (place - 2 * PAGE_SIZE) // SLOT_SIZE + 1, place % SLOT_SIZE
        form = FORMS[data[linked_file.slot_place(slot)]]
        if form is FORMS[TEXT]:
            is_used = at < 8 + read.row(TEXT, slot).used
            return f"part of a {texts[slot]}", (is_used and form.field_at(at)) or "no field"
        return form.name, form.field_at(at) or "no field"

    return field


REFUSED, SAME, OTHER = "refused", "the same store", "another store"


def outcome(path, data, rows):
    """What the program makes of the bytes, and what is wrong with that, if anything."""
    done = subprocess.run([path, "rows"], input=data, capture_output=True)
    good = stands(data)
    if (done.returncode, done.stdout, done.stderr) == (1, b"", b"files_main: not a store\n"):
        return REFUSED, "refused, and stands for a store" if good else None
    if done.returncode != 0:
        return REFUSED, f"status {done.returncode}, {done.stderr[:100]!r}"
    try:
        read = b"".join(LinkedFile(data).lines())
    except Damaged as damage:
        return OTHER, f"opened, and the reader finds {damage}"
    kind = SAME if read == rows else OTHER
    if done.stdout != read:
        return kind, "opened, with other rows than the reader finds"
    return kind, None if good else "opened, and stands for no store"


def run_all(path, data, rows, tries):
    """The outcome of each change, some at once."""
    with concurrent.futures.ProcessPoolExecutor(AT_ONCE) as pool:
        yield from zip(tries, pool.map(functools.partial(try_one, path, data, rows), tries, chunksize=64))


def try_one(path, data, rows, change):
    return outcome(path, changed(data, *change), rows)


# ---- what is told

def tell(counts):
    """The fields in which a change is taken, how many are refused in all others, and which these are."""
    print("| Field | changes | refused | the same store | another store |\n|---|---|---|---|---|")
    others, none = collections.Counter(), {}
    for (row, field), kinds in counts.items():
        if kinds[SAME] or kinds[OTHER]:
            tell_row(f"{row}: {field}" if field else row, kinds)
        else:
            others.update(kinds)
            none.setdefault(row, []).append(field)
    tell_row(f"{sum(map(len, none.values()))} others", others)
    tell_row("all", sum(counts.values(), collections.Counter()))
    print("\nRefused at each change:\n")
    for row, some in none.items():
        print(f"- {row}: {', '.join(some)}")


def tell_row(name, kinds):
    print(f"| {name} | {kinds.total()} | {kinds[REFUSED]} | {kinds[SAME]} | {kinds[OTHER]} |")


def main():
    path = linked_file.program("flips.py")
    status, data = linked_file.say(path, "write", script())
    if status or not stands(data):
        sys.exit(f"flips.py: the file that is written is none: status {status}, {len(data)} bytes")
    status, rows = linked_file.say(path, "rows", data)
    if status or rows != b"".join(LinkedFile(data).lines()):
        sys.exit("flips.py: the rows of the file that is written are not those that the reader finds")
    read, field, end = LinkedFile(data), fields(data), len(data)
    pages, visits, items = (len(some) for some in read.store()[-3:])
    print(f"{end} bytes: {pages} pages, {visits} visits and {items} items in {read.header.live} live slots, "
          f"and {len(read.layout().free)} free ones\n", flush=True)
    data += BEHIND
    tries = [(place, value) for place in places(data, end) for value in values(data[place])]
    counts, faults = collections.defaultdict(collections.Counter), []
    for (place, value), (kind, fault) in run_all(path, data, rows, tries):
        counts[field(place)][kind] += 1
        if fault:
            faults.append(f"byte {place} ({' '.join(field(place))}) as {value}: {fault}")
    tell(counts)
    if faults:
        sys.exit("\n".join([f"flips.py: {len(faults)} faults:"] + faults[:20]))


if __name__ == "__main__":
    main()
