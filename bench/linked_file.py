#!/usr/bin/env python3
"""Files of linked slots by the form of `docs/FORMAT.md`: a reader of their rows, and a maker of them from lists of rows.

    bench/linked_file.py              makes small files, and reads them back
    bench/linked_file.py [PROGRAM]    has them checked and their rows said by `files_main` too

Both go by the page of the form alone: `LinkedFile` follows the chains of a file from its header on, and `file_bytes` lays
the rows of a `Store` into the slots that a `Layout` says, with their links, and with the marks and totals that the
definitions give. The reader takes a file as good; where a chain does not end, or names what is not there, it raises
`Damaged`.
"""
import itertools
import pathlib
import random
import re
import struct
import subprocess
import sys
from array import array
from collections import namedtuple

HOME = pathlib.Path(__file__).resolve().parent.parent
PROGRAM = HOME / "crates/files_main/out/files_main"

PAGE_SIZE, SLOT_SIZE, PART_SIZE = 1024, 128, 120
FREE, ORIGIN, PAGE, VISIT, ITEM, TEXT = range(6)
BOOKMARK, FOLDER, SEPARATOR = 1, 2, 3
IS_TYPED, IS_HIDDEN = 1, 2
NAME = b"PLSTORE1"
DAY = 86_400_000_000


class Damaged(Exception):
    """No good file."""


# ---- the form

class Form:
    """Fields at their places in so many bytes, and 0 elsewhere; a field is `name:place:code`, by the codes of `struct`."""

    def __init__(self, name, size, fields):
        self.name, self.fields, code, end = name, [], "<", 0
        for field in fields.split():
            word, at, kind = field.split(":")
            code += f"{int(at) - end}x{kind}"
            end = int(at) + struct.calcsize(f"<{kind}")
            self.fields.append((word, int(at), end))
        self.struct = struct.Struct(f"{code}{size - end}x")
        self.row = namedtuple(name, [word for word, _, _ in self.fields])

    def read(self, data, at):
        return self.row._make(self.struct.unpack_from(data, at))

    def field_at(self, place):
        """The field that has this byte, or none."""
        return next((word for word, at, end in self.fields if at <= place < end), None)


HEADER = Form("header", PAGE_SIZE, (
    "name:0:8s pages:8:I day:12:I next_page:16:I next_visit:20:I next_item:24:I first_free:28:I first_origin:32:I "
    "last_origin:36:I first_page:40:I last_page:44:I first_visit:48:I last_visit:52:I first_item:56:I last_item:60:I "
    "live:64:I"))
FORMS = {form: Form(name, SLOT_SIZE, "kind:0:B " + fields) for form, name, fields in (
    (FREE, "free", "next:4:I"),
    (ORIGIN, "origin", "before:4:I behind:8:I first_page:12:I last_page:16:I total:24:Q"),
    (PAGE, "page", (
        "marks:1:B before:4:I behind:8:I id:12:I origin:16:I origin_before:20:I origin_behind:24:I first_visit:28:I "
        "last_visit:32:I first_item:36:I last_item:40:I url:44:I url_length:48:I title:52:I title_length:56:I "
        "frecency:64:q count:72:I")),
    (VISIT, "visit", (
        "transition:1:B before:4:I behind:8:I id:12:I page:16:I page_before:20:I page_behind:24:I source:28:I "
        "target_before:32:I target_behind:36:I first_target:40:I last_target:44:I date:48:Q")),
    (ITEM, "item", (
        "item_kind:1:B before:4:I behind:8:I id:12:I parent:16:I sibling_before:20:I sibling_behind:24:I first_child:28:I "
        "last_child:32:I page:36:I item_before:40:I item_behind:44:I title:48:I title_length:52:I added:56:Q "
        "modified:64:Q")),
    (TEXT, "text", "used:1:B next:4:I bytes:8:120s"),
)}


def slot_place(slot):
    """The byte of the file at which a slot begins."""
    return 2 * PAGE_SIZE + SLOT_SIZE * (slot - 1)


# ---- rows

# Texts are bytes. A source or a page of 0 is none.
Page = namedtuple("Page", "id url title typed")
Visit = namedtuple("Visit", "id page date transition source")
Item = namedtuple("Item", "id kind title page added modified children")


class Store(namedtuple("Store", "day next_page next_visit next_item pages visits items")):
    """The rows of a store, each list by ascending id."""
    __slots__ = ()

    @classmethod
    def of(cls, day, pages, visits, items):
        """The store with these rows, and with the ids behind theirs as the next ones."""
        behind = [rows[-1].id + 1 if rows else 1 for rows in (pages, visits, items)]
        return cls(day, *behind, pages, visits, items)


def roots(children):
    """The six roots, of which 2 to 6 have these children."""
    folders = {1: (2, 3, 4, 5, 6), **children}
    return [Item(root, FOLDER, b"", 0, 0, 0, tuple(folders.get(root, ()))) for root in range(1, 7)]


def origin_of(url):
    """The prefix and the host of a URL that has a host and no user name."""
    found = re.match(rb"([^:]*://)([^/?#]*)", url)
    if not found:
        raise Damaged(f"the URL {url!r}")
    return found.groups()


# ---- marks and totals

LINK, TYPED, FROM_BOOKMARK, EMBED, PERMANENT, TEMPORARY, DOWNLOAD, FRAMED, RELOAD = range(1, 10)
BONUS = dict.fromkeys((EMBED, DOWNLOAD, FRAMED, RELOAD), 0)
BONUS.update({LINK: 100, TYPED: 2000, FROM_BOOKMARK: 75, PERMANENT: 50, TEMPORARY: 40})
REDIRECTS, FRAMES = (PERMANENT, TEMPORARY), (EMBED, FRAMED)
COUNTED = (LINK, TYPED, FROM_BOOKMARK, PERMANENT, TEMPORARY)
SAMPLE = 10
REFERENCED_BONUS, SOURCE_BONUS = 75, 25

Mark = namedtuple("Mark", "frecency count hidden")


def weight(days):
    return next((weight for age, weight in ((4, 100), (14, 70), (31, 50), (90, 30)) if days <= age), 10)


def rounded_up(a, b):
    return -(-a // b)


def grouped(rows, key):
    """Lists of the rows by their keys, for keys other than 0."""
    groups = {}
    for row in rows:
        if key(row):
            groups.setdefault(key(row), []).append(row)
    return groups


def visits_by_page(store):
    """The visits of each page, the latest first."""
    latest_first = sorted(store.visits, key=lambda visit: (visit.date, visit.id), reverse=True)
    return grouped(latest_first, lambda visit: visit.page)


def marks(store):
    """The mark of each page on the store's day, by the definitions."""
    transitions = {visit.id: visit.transition for visit in store.visits}
    led_to_redirect = {visit.source for visit in store.visits if visit.transition in REDIRECTS}
    referenced = {item.page for item in store.items}
    visits = visits_by_page(store)

    def bonus(visit):
        if visit.id in led_to_redirect:
            return SOURCE_BONUS
        if visit.transition in REDIRECTS and visit.source:
            return BONUS[transitions[visit.source]]
        return BONUS[visit.transition]

    def frecency(page, count):
        if count == 0:
            is_kept = page.id in referenced and not is_query(page)
            return (340 if page.typed else 140) if is_kept else 0
        sample = visits[page.id][:SAMPLE]
        more = REFERENCED_BONUS if page.id in referenced else 0
        points = sum(weight(store.day - visit.date // DAY) * (bonus(visit) + more) for visit in sample)
        return rounded_up(count * rounded_up(points, 100), len(sample)) if points else -1

    def mark(page):
        some = visits.get(page.id, [])
        count = sum(visit.transition in COUNTED for visit in some)
        within = [visit.transition in FRAMES or visit.id in led_to_redirect for visit in some]
        return Mark(frecency(page, count), count, is_query(page) or (within != [] and all(within)))

    return {page.id: mark(page) for page in store.pages}


def is_query(page):
    return page.url.startswith(b"place:")


# ---- layouts

class Layout:
    """Which slots hold what: origins by prefix and host, in the order of their chain, other rows by their ids, texts by
    those of their rows, and free slots in the order of theirs. A visit may have a rank among those from the same one."""

    def __init__(self):
        self.origins, self.pages, self.visits, self.items = {}, {}, {}, {}
        self.urls, self.titles, self.item_titles = {}, {}, {}
        self.free, self.ranks = [], {}

    def live(self):
        """All slots that are not free."""
        yield from itertools.chain(*(rows.values() for rows in (self.origins, self.pages, self.visits, self.items)))
        for texts in (self.urls, self.titles, self.item_titles):
            yield from itertools.chain.from_iterable(texts.values())


def parts(text):
    """How many slots a text takes."""
    return rounded_up(len(text), PART_SIZE)


def layout_of(store, chance=None):
    """One kind of slots behind another, by ascending ids, and the free ones of the last page; or mixed by chance."""
    layout = Layout()
    origins = list(dict.fromkeys(origin_of(page.url) for page in store.pages))
    texts = [(layout.urls, {page.id: page.url for page in store.pages}),
             (layout.titles, {page.id: page.title for page in store.pages}),
             (layout.item_titles, {item.id: item.title for item in store.items})]
    live = sum(map(len, (origins, store.pages, store.visits, store.items)))
    live += sum(parts(text) for _, some in texts for text in some.values())
    slots = list(range(1, 8 * rounded_up(live, 8) + 1))
    if chance:
        chance.shuffle(slots)
        chance.shuffle(origins)
        layout.ranks.update((visit.id, chance.random()) for visit in store.visits)
    given = iter(slots)
    layout.origins.update(zip(origins, given))
    for rows, places in (store.pages, layout.pages), (store.visits, layout.visits), (store.items, layout.items):
        places.update((row.id, next(given)) for row in rows)
    for places, some in texts:
        places.update((id, list(itertools.islice(given, parts(text)))) for id, text in some.items())
    layout.free = list(given)
    return layout


# ---- the maker

class Chains:
    """The links of one kind of chain: the ends by the owner, and the slots before and behind by the member."""

    def __init__(self, slots):
        self.first, self.last, self.before, self.behind = (array("I", bytes(4 * (slots + 1))) for _ in range(4))

    def link(self, owner, members):
        members = list(members)
        if members:
            self.first[owner], self.last[owner] = members[0], members[-1]
        for one, other in zip(members, members[1:]):
            self.behind[one], self.before[other] = other, one

    def ends(self, owner):
        return self.first[owner], self.last[owner]

    def sides(self, member):
        return self.before[member], self.behind[member]


class Maker:
    def __init__(self, store, layout):
        self.store, self.layout = store, layout
        self.live = sum(1 for _ in layout.live())
        self.slots = self.live + len(layout.free)
        self.bytes = bytearray(slot_place(self.slots + 1))
        self.rows, self.of_origin, self.of_page, self.targets, self.children, self.references = (
            Chains(self.slots) for _ in range(6))
        self.parents = {child: item.id for item in store.items for child in item.children}

    def put(self, kind, slot, *fields):
        FORMS[kind].struct.pack_into(self.bytes, slot_place(slot), kind, *fields)

    def make(self):
        self.link()
        self.put_pages()
        for visit in self.store.visits:
            self.put_visit(visit)
        for item in self.store.items:
            self.put_item(item)
        for slot, behind in zip(self.layout.free, self.layout.free[1:] + [0]):
            self.put(FREE, slot, behind)
        self.put_header()
        return bytes(self.bytes)

    def link(self):
        store, layout = self.store, self.layout
        kinds = (ORIGIN, layout.origins), (PAGE, layout.pages), (VISIT, layout.visits), (ITEM, layout.items)
        for kind, places in kinds:
            self.rows.link(kind, places.values() if kind == ORIGIN else (places[id] for id in sorted(places)))
        for origin, pages in grouped(store.pages, lambda page: origin_of(page.url)).items():
            self.of_origin.link(layout.origins[origin], (layout.pages[page.id] for page in pages))
        for page, visits in visits_by_page(store).items():
            self.of_page.link(layout.pages[page], (layout.visits[visit.id] for visit in visits))
        for source, visits in grouped(store.visits, lambda visit: visit.source).items():
            visits.sort(key=lambda visit: (visit.transition not in REDIRECTS, layout.ranks.get(visit.id, 0)))
            self.targets.link(layout.visits[source], (layout.visits[visit.id] for visit in visits))
        for item in store.items:
            self.children.link(layout.items[item.id], (layout.items[child] for child in item.children))
        for page, items in grouped(store.items, lambda item: item.page).items():
            self.references.link(layout.pages[page], (layout.items[item.id] for item in items))

    def put_pages(self):
        """Pages and their origins."""
        layout, kept = self.layout, marks(self.store)
        totals = dict.fromkeys(layout.origins, 0)
        for page in self.store.pages:
            slot, origin, mark = layout.pages[page.id], origin_of(page.url), kept[page.id]
            totals[origin] += max(mark.frecency, 0)
            self.put(PAGE, slot, IS_TYPED * page.typed + IS_HIDDEN * mark.hidden, *self.rows.sides(slot), page.id,
                     layout.origins[origin], *self.of_origin.sides(slot), *self.of_page.ends(slot),
                     *self.references.ends(slot), *self.put_text(page.url, layout.urls[page.id]),
                     *self.put_text(page.title, layout.titles[page.id]), mark.frecency, mark.count)
        for origin, slot in layout.origins.items():
            self.put(ORIGIN, slot, *self.rows.sides(slot), *self.of_origin.ends(slot), totals[origin])

    def put_visit(self, visit):
        slot = self.layout.visits[visit.id]
        source = self.layout.visits[visit.source] if visit.source else 0
        self.put(VISIT, slot, visit.transition, *self.rows.sides(slot), visit.id, self.layout.pages[visit.page],
                 *self.of_page.sides(slot), source, *self.targets.sides(slot), *self.targets.ends(slot), visit.date)

    def put_item(self, item):
        slot = self.layout.items[item.id]
        parent = self.layout.items[self.parents[item.id]] if item.id in self.parents else 0
        page = self.layout.pages[item.page] if item.page else 0
        self.put(ITEM, slot, item.kind, *self.rows.sides(slot), item.id, parent, *self.children.sides(slot),
                 *self.children.ends(slot), page, *self.references.sides(slot),
                 *self.put_text(item.title, self.layout.item_titles[item.id]), item.added, item.modified)

    def put_text(self, text, slots):
        """The first slot of a text and its length."""
        for number, slot in enumerate(slots):
            part = text[PART_SIZE * number:PART_SIZE * (number + 1)]
            behind = slots[number + 1] if number + 1 < len(slots) else 0
            self.put(TEXT, slot, len(part), behind, part)
        return slots[0] if slots else 0, len(text)

    def put_header(self):
        store = self.store
        ends = itertools.chain.from_iterable(self.rows.ends(kind) for kind in (ORIGIN, PAGE, VISIT, ITEM))
        free = self.layout.free[0] if self.layout.free else 0
        HEADER.struct.pack_into(self.bytes, PAGE_SIZE, NAME, len(self.bytes) // PAGE_SIZE, store.day, store.next_page,
                                store.next_visit, store.next_item, free, *ends, self.live)


def file_bytes(store, layout=None):
    """The file of a store, in a layout in which each slot stands once."""
    return Maker(store, layout or layout_of(store)).make()


# ---- the reader

class LinkedFile:
    def __init__(self, data):
        if len(data) < 2 * PAGE_SIZE:
            raise Damaged("no header")
        self.data, self.header = data, HEADER.read(data, PAGE_SIZE)
        if not 2 * PAGE_SIZE <= PAGE_SIZE * self.header.pages <= len(data):
            raise Damaged("the length")
        self.slots = 8 * (self.header.pages - 2)

    def row(self, kind, slot):
        """The row of this kind in a slot."""
        if not 0 < slot <= self.slots:
            raise Damaged(f"slot {slot}")
        row = FORMS[kind].read(self.data, slot_place(slot))
        if row.kind != kind:
            raise Damaged(f"slot {slot} holds no {FORMS[kind].name}")
        return row

    def chain(self, kind, first, behind):
        """The slots of a chain with their rows, each of which names the next one by this field."""
        slot, met = first, 0
        while slot:
            row = self.row(kind, slot)
            yield slot, row
            slot, met = getattr(row, behind), met + 1
            if met > self.slots:
                raise Damaged("a chain without an end")

    def text(self, first, length):
        """The bytes of a text."""
        rows = [row for _, row in self.chain(TEXT, first, "next")]
        text = b"".join(row.bytes[:row.used] for row in rows)
        if len(text) != length or any(row.used == 0 for row in rows):
            raise Damaged(f"the text in slot {first}")
        return text

    def id(self, kind, slot):
        """The id of the row in a slot, 0 for none."""
        return self.row(kind, slot).id if slot else 0

    # ---- the lines of `files_main rows`

    def lines(self):
        """Each line as bytes, with its LF; a title may have more of them."""
        header = self.header
        yield b"store %d %d %d %d\n" % (header.day, header.next_page, header.next_visit, header.next_item)
        for _, page in self.chain(PAGE, header.first_page, "behind"):
            yield self.page_line(page)
        for _, visit in self.chain(VISIT, header.first_visit, "behind"):
            yield self.visit_line(visit)
        for _, item in self.chain(ITEM, header.first_item, "behind"):
            yield self.item_line(item)

    def page_line(self, page):
        total = self.row(ORIGIN, page.origin).total
        latest, item = self.id(VISIT, page.first_visit), self.id(ITEM, page.first_item)
        url, title = self.text(page.url, page.url_length), self.text(page.title, page.title_length)
        typed, hidden = (b"true" if page.marks & mark else b"false" for mark in (IS_TYPED, IS_HIDDEN))
        return b"page %d %b %b %d %d %d %d %d %d %b %d %b\n" % (
            page.id, typed, hidden, page.frecency, page.count, total, latest, item, len(url), url, len(title), title)

    def visit_line(self, visit):
        source, older = self.id(VISIT, visit.source), self.id(VISIT, visit.page_behind)
        first, behind = self.id(VISIT, visit.first_target), self.id(VISIT, visit.target_behind)
        return b"visit %d %d %d %d %d %d %d %d\n" % (
            visit.id, self.id(PAGE, visit.page), visit.date, visit.transition, source, older, first, behind)

    def item_line(self, item):
        parent, page = self.id(ITEM, item.parent), self.id(PAGE, item.page)
        child, sibling, behind = (self.id(ITEM, slot) for slot in (item.first_child, item.sibling_behind, item.item_behind))
        title = self.text(item.title, item.title_length)
        return b"item %d %d %d %d %d %d %d %d %d %d %b\n" % (
            item.id, item.item_kind, parent, page, item.added, item.modified, child, sibling, behind, len(title), title)

    # ---- the rows and their slots

    def store(self):
        """The rows of the file."""
        header = self.header
        pages = [Page(page.id, self.text(page.url, page.url_length), self.text(page.title, page.title_length),
                      page.marks & IS_TYPED != 0) for _, page in self.chain(PAGE, header.first_page, "behind")]
        visits = [Visit(visit.id, self.id(PAGE, visit.page), visit.date, visit.transition, self.id(VISIT, visit.source))
                  for _, visit in self.chain(VISIT, header.first_visit, "behind")]
        items = [Item(item.id, item.item_kind, self.text(item.title, item.title_length), self.id(PAGE, item.page),
                      item.added, item.modified, self.children(item))
                 for _, item in self.chain(ITEM, header.first_item, "behind")]
        return Store(header.day, header.next_page, header.next_visit, header.next_item, pages, visits, items)

    def children(self, item):
        return tuple(child.id for _, child in self.chain(ITEM, item.first_child, "sibling_behind"))

    def layout(self):
        """The slots in which they stand."""
        layout, header = Layout(), self.header
        for slot, origin in self.chain(ORIGIN, header.first_origin, "behind"):
            page = self.row(PAGE, origin.first_page)
            layout.origins[origin_of(self.text(page.url, page.url_length))] = slot
        for slot, page in self.chain(PAGE, header.first_page, "behind"):
            layout.pages[page.id] = slot
            layout.urls[page.id], layout.titles[page.id] = self.text_slots(page.url), self.text_slots(page.title)
        for slot, visit in self.chain(VISIT, header.first_visit, "behind"):
            layout.visits[visit.id] = slot
            targets = self.chain(VISIT, visit.first_target, "target_behind")
            layout.ranks.update((target.id, rank) for rank, (_, target) in enumerate(targets))
        for slot, item in self.chain(ITEM, header.first_item, "behind"):
            layout.items[item.id], layout.item_titles[item.id] = slot, self.text_slots(item.title)
        layout.free = [slot for slot, _ in self.chain(FREE, header.first_free, "next")]
        return layout

    def text_slots(self, first):
        return [slot for slot, _ in self.chain(TEXT, first, "next")]


# ---- a small store of every kind of row

def small_store():
    pages = [
        Page(1, b"https://h1.example/", b"One", True),
        Page(3, b"https://h1.example/two", b"", False),
        Page(4, b"http://h1.example/", "Größe ".encode() * 60, False),
        Page(7, b"https://h2.example/" + b"long/" * 60, b"L" * 120, False),
        Page(8, b"https://h2.example/kept", b"", True),
    ]
    visits = [
        Visit(1, 1, 0, TYPED, 0),
        Visit(2, 3, 3 * DAY, LINK, 1),
        Visit(4, 4, 3 * DAY + 1, PERMANENT, 2),
        Visit(5, 7, 5 * DAY, TEMPORARY, 2),
        Visit(6, 7, 20 * DAY, EMBED, 0),
    ]
    for id in range(10, 30):
        visits.append(Visit(id, 4, 19 * DAY + id % 5, LINK if id % 3 else RELOAD, 2 if id % 4 else 0))
    visits.append(Visit(40, 1, 2 * DAY, FRAMED, 29))
    items = roots({2: (7, 9), 3: (10,), 4: (11,), 5: (13,)}) + [
        Item(7, FOLDER, b"Folder " * 20, 0, 5, 6, (8, 14)),
        Item(8, BOOKMARK, b"Mark", 1, 7, 8, ()),
        Item(9, SEPARATOR, b"", 0, 9, 9, ()),
        Item(10, BOOKMARK, b"", 8, 10, 11, ()),
        Item(11, FOLDER, b"news", 0, 0, 0, (12,)),
        Item(12, BOOKMARK, b"", 1, 12, 12, ()),
        Item(13, BOOKMARK, b"again", 1, 13, 14, ()),
        Item(14, FOLDER, b"", 0, 15, 16, ()),
    ]
    return Store(20, 11, 50, 15, pages, visits, items)


def stores():
    yield "the opening store", Store.of(0, [], [], roots({}))
    yield "one of every kind of row", small_store()


# ---- the program

def program(script):
    """The program that is named, or this checkout's own, for a script that needs one."""
    path = sys.argv[1] if len(sys.argv) > 1 else str(PROGRAM)
    if not pathlib.Path(path).is_file():
        sys.exit(f"{script}: there is no {path}: `rt ci files_main` builds the program")
    return path


def say(path, word, data):
    """The status of a run, and what it says."""
    done = subprocess.run([path, word], input=data, capture_output=True)
    return done.returncode, done.stdout


def check(name, store, layout, path):
    data, live = file_bytes(store, layout), sum(1 for _ in layout.live())
    read = LinkedFile(data)
    if read.store() != store or file_bytes(store, read.layout()) != data:
        sys.exit(f"linked_file.py: {name} is not read back")
    if path and say(path, "check", data) != (0, b"%d\n" % live):
        sys.exit(f"linked_file.py: {name} is not accepted")
    if path and say(path, "rows", data) != (0, b"".join(read.lines())):
        sys.exit(f"linked_file.py: the rows of {name} are not said as they are read")


def main():
    path = program("linked_file.py") if len(sys.argv) > 1 else None
    for name, store in stores():
        layouts = [layout_of(store)] + [layout_of(store, random.Random(seed)) for seed in range(20)]
        for layout in layouts:
            check(name, store, layout, path)
        told = "and accepted, and its rows said alike" if path else "by the reader alone"
        print(f"{name}: {len(file_bytes(store))} bytes, in {len(layouts)} layouts read back {told}")


if __name__ == "__main__":
    main()
