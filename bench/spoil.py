"""What is done to a good file of linked slots, for `damage.py`; and what its journal makes of a file, by the form alone."""
import random
import struct

from linked_file import (FORMS, FREE, HEADER, ITEM, ORIGIN, PAGE, PAGE_SIZE, SLOT_SIZE, TEXT, VISIT, Damaged, LinkedFile,
                         slot_place)


# ---- the gate

GATE = struct.Struct("<B7xQII")
NUMBER = struct.Struct("<Q")
ENTRY_SIZE = NUMBER.size + PAGE_SIZE


def entries(data):
    """The journal of page 0: where each entry begins, and its page; none where it lies behind the end of the file."""
    _, at, count, _ = GATE.unpack_from(data)
    if at + ENTRY_SIZE * count > len(data):
        raise Damaged("a journal behind the end")
    return [(place, *NUMBER.unpack_from(data, place)) for place in range(at, at + ENTRY_SIZE * count, ENTRY_SIZE)]


def settled(data):
    """The bytes with their journal installed, where the gate is set."""
    if len(data) < PAGE_SIZE:
        raise Damaged("no page 0")
    gate, at, _, length = GATE.unpack_from(data)
    if gate != 1:
        return data
    journal = entries(data)
    pages = [0, *(page for _, page in journal), length]
    if at < PAGE_SIZE * length or journal and any(one >= other for one, other in zip(pages, pages[1:])):
        raise Damaged("the journal")
    laid = bytearray(data)
    for place, page in journal:
        laid[PAGE_SIZE * page:PAGE_SIZE * (page + 1)] = data[place + NUMBER.size:place + ENTRY_SIZE]
    laid[0] = 0
    return bytes(laid)


# ---- damages

class Good:
    """A good file, with what the damages go by."""

    def __init__(self, name, data):
        self.name, self.data, self.read = name, data, LinkedFile(data)
        self.pages, self.slots = self.read.header.pages, self.read.slots
        self.by_kind = {kind: [] for kind in FORMS}
        for slot in range(1, self.slots + 1):
            self.by_kind[data[slot_place(slot)]].append(slot)
        self.rows = b"".join(self.read.lines())


# The fields that name slots, by the kind of the row.
LINKS = {
    ORIGIN: "before behind first_page last_page",
    PAGE: "before behind origin origin_before origin_behind first_visit last_visit first_item last_item url title",
    VISIT: "before behind page page_before page_behind source target_before target_behind first_target last_target",
    ITEM: "before behind parent sibling_before sibling_behind first_child last_child page item_before item_behind title",
    TEXT: "next",
    FREE: "next",
}
HEADER_LINKS = [word for word, _, _ in HEADER.fields if word.startswith(("first_", "last_"))]
# Chains: the kind of their members, and the fields of the links before and behind.
CHAINS = [
    (ORIGIN, "before", "behind"), (PAGE, "before", "behind"), (VISIT, "before", "behind"), (ITEM, "before", "behind"),
    (PAGE, "origin_before", "origin_behind"), (VISIT, "page_before", "page_behind"),
    (VISIT, "target_before", "target_behind"), (ITEM, "sibling_before", "sibling_behind"),
    (ITEM, "item_before", "item_behind"),
]
# The fields of the ends of a chain, by its link behind and the kind of the owner.
ENDS = {
    "origin_behind": (ORIGIN, "first_page", "last_page"), "page_behind": (PAGE, "first_visit", "last_visit"),
    "target_behind": (VISIT, "first_target", "last_target"), "sibling_behind": (ITEM, "first_child", "last_child"),
    "item_behind": (PAGE, "first_item", "last_item"),
}


def row_at(data, slot):
    """The form and the row of a slot, as of the kind that it says; a free one where there is no such kind."""
    form = FORMS.get(data[slot_place(slot)], FORMS[FREE])
    return form, form.read(data, slot_place(slot))


def put(data, slot, **links):
    """Writes these links of a slot, and no byte beside them."""
    form, _ = row_at(data, slot)
    for word, at, end in form.fields:
        if word in links:
            start = slot_place(slot)
            data[start + at:start + end] = links[word].to_bytes(end - at, "little")


def change_bytes(chance, good, data):
    for _ in range(chance.choice((1, 1, 1, 2, 3, 8))):
        place = chance.randrange(PAGE_SIZE, PAGE_SIZE * good.pages)
        data[place] = chance.choice((chance.randrange(256), data[place] ^ 1 << chance.randrange(8), 0, 255))


def other_number(chance, good, number, size):
    """Another number for a field of so many bytes."""
    top = 1 << 8 * size
    some = (chance.randrange(good.slots + 2), number + 1, number - 1, 0, top - 1, chance.randrange(top), number + (top >> 1))
    return chance.choice(some) % top


def change_field(chance, good, data):
    """Another number in a field of the header or of a slot."""
    slot = chance.randrange(-good.slots // 16, good.slots + 1)
    form, start = (HEADER, PAGE_SIZE) if slot < 1 else (row_at(data, slot)[0], slot_place(slot))
    _, at, end = chance.choice(form.fields)
    end = min(end, at + 8)
    number = int.from_bytes(data[start + at:start + end], "little")
    data[start + at:start + end] = other_number(chance, good, number, end - at).to_bytes(end - at, "little")


def exchange_fields(chance, good, data):
    """One field of two rows of a kind exchanged."""
    kind = chance.choice([kind for kind in FORMS if len(good.by_kind[kind]) > 1])
    one, other = chance.sample(good.by_kind[kind], 2)
    _, at, end = chance.choice(FORMS[kind].fields)
    first, second = slice(slot_place(one) + at, slot_place(one) + end), slice(slot_place(other) + at, slot_place(other) + end)
    data[first], data[second] = data[second], data[first]


def cross_chains(chance, good, data):
    """What stands behind two members of chains of one kind exchanged, with the links back and the ends of the owners."""
    kind, before, behind = chance.choice([chain for chain in CHAINS if len(good.by_kind[chain[0]]) > 1])
    one, other = chance.sample(good.by_kind[kind], 2)
    tails = [getattr(FORMS[kind].read(data, slot_place(slot)), behind) for slot in (one, other)]
    for slot, tail in zip((other, one), tails):
        put(data, slot, **{behind: tail})
        if 0 < tail <= good.slots:
            put(data, tail, **{before: slot})
    if behind in ENDS:
        owner, _, last = ENDS[behind]
        for slot in good.by_kind[owner]:
            end = getattr(FORMS[owner].read(data, slot_place(slot)), last)
            if end in (one, other) and chance.random() < 0.8:
                put(data, slot, **{last: other if end == one else one})


def exchange_neighbours(chance, good, data):
    """A member of a chain put behind the next one, with all links and ends."""
    kind, before, behind = chance.choice([chain for chain in CHAINS if len(good.by_kind[chain[0]]) > 1])
    rows = {slot: FORMS[kind].read(data, slot_place(slot)) for slot in good.by_kind[kind]}
    pairs = [(slot, getattr(row, behind)) for slot, row in rows.items() if getattr(row, behind) in rows]
    if not pairs:
        return
    one, other = chance.choice(pairs)
    outer, inner = getattr(rows[one], before), getattr(rows[other], behind)
    put(data, one, **{before: other, behind: inner})
    put(data, other, **{before: outer, behind: one})
    if outer in rows:
        put(data, outer, **{behind: other})
    if inner in rows:
        put(data, inner, **{before: one})
    rename_ends(good, data, kind, behind, {one: other, other: one}, not outer, not inner)


def rename_ends(good, data, kind, behind, names, is_first, is_last):
    """Other names at the first or the last end of the chains with this link."""
    if behind in ENDS:
        owner, first, last = ENDS[behind]
        forms = [(FORMS[owner], slot_place(slot)) for slot in good.by_kind[owner]]
    else:
        forms, first, last = [(HEADER, PAGE_SIZE)], f"first_{FORMS[kind].name}", f"last_{FORMS[kind].name}"
    for form, start in forms:
        row = form.read(data, start)
        for word in [first] * is_first + [last] * is_last:
            if getattr(row, word) in names:
                _, at, end = next(field for field in form.fields if field[0] == word)
                data[start + at:start + end] = names[getattr(row, word)].to_bytes(end - at, "little")


def exchange_slots(chance, good, data):
    """The bytes of two slots exchanged."""
    one, other = (slice(slot_place(slot), slot_place(slot) + SLOT_SIZE) for slot in chance.sample(range(1, good.slots + 1), 2))
    data[one], data[other] = data[other], data[one]


def move_slots(chance, good, data):
    """Two slots exchanged, and all fields that name them: the same store, lying elsewhere."""
    one, other = chance.sample(range(1, good.slots + 1), 2)
    names = {one: other, other: one}
    exchange = {slot: slot_place(names[slot]) for slot in names}
    moved = {slot: bytes(data[place:place + SLOT_SIZE]) for slot, place in exchange.items()}
    for slot, row in moved.items():
        data[slot_place(slot):slot_place(slot) + SLOT_SIZE] = row
    for slot in range(1, good.slots + 1):
        form, row = row_at(data, slot)
        links = LINKS[row.kind].split() if row.kind in LINKS else ()
        put(data, slot, **{word: names[getattr(row, word)] for word in links if getattr(row, word) in names})
    header = HEADER.read(data, PAGE_SIZE)
    HEADER.struct.pack_into(data, PAGE_SIZE, *header._replace(**{
        word: names[getattr(header, word)] for word in HEADER_LINKS if getattr(header, word) in names}))


def repeat_page(chance, good, data):
    """A page over another one, put in once more, or left out; with another length in the header at times."""
    page, to = (chance.randrange(1, good.pages) for _ in range(2))
    image, kind = bytes(data[PAGE_SIZE * page:PAGE_SIZE * (page + 1)]), chance.randrange(3)
    data[PAGE_SIZE * to:PAGE_SIZE * (to + (kind != 1))] = image if kind < 2 else b""
    if kind and chance.random() < 0.5:
        set_length(data, good.pages + (1 if kind == 1 else -1))


def set_length(data, pages):
    if len(data) >= 2 * PAGE_SIZE:
        struct.pack_into("<I", data, PAGE_SIZE + 8, pages % (1 << 32))


def cut(chance, good, data):
    """Cut anywhere, or behind a whole page, which the header may say or not."""
    pages = chance.randrange(good.pages + 2)
    del data[chance.choice((PAGE_SIZE * pages, chance.randrange(len(data) + 1))):]
    if chance.random() < 0.25:
        set_length(data, pages)


def grow(chance, good, data):
    """More bytes behind the store's pages; or more pages in the header, at times of free slots in their chain."""
    more, kind = chance.randrange(1, 4), chance.randrange(4)
    if kind == 0:
        data += chance.randbytes(chance.randrange(1, 4 * PAGE_SIZE))
        return
    del data[PAGE_SIZE * good.pages:]
    data += bytes(PAGE_SIZE * more) if kind < 3 else chance.randbytes(PAGE_SIZE * more)
    set_length(data, good.pages + more)
    if kind == 1:
        slots = list(range(good.slots + 1, good.slots + 8 * more + 1))
        chance.shuffle(slots)
        for slot, behind in zip(slots, slots[1:] + [good.read.header.first_free]):
            put(data, slot, next=behind)
        struct.pack_into("<I", data, PAGE_SIZE + 28, slots[0])


def change_gate(chance, good, data):
    """Other bytes in page 0, which may set the gate."""
    if chance.random() < 0.3:
        data[:PAGE_SIZE] = chance.randbytes(PAGE_SIZE)
    for _ in range(chance.randrange(3)):
        data[chance.choice((chance.randrange(PAGE_SIZE), chance.randrange(8, 24)))] = chance.randrange(256)
    data[0] = chance.choice((1, 1, chance.randrange(256)))


def change_journal(chance, good, data):
    """A set gate over a journal of some pages, with other images, numbers or places at times."""
    old = bytes(data)
    count = chance.randrange(good.pages)
    pages = sorted(chance.sample(range(1, good.pages), count))
    at = max(PAGE_SIZE * good.pages, len(data)) + chance.choice((0, 0, 1, 128))
    data += bytes(at - len(data))
    for page in pages:
        data += NUMBER.pack(page) + old[PAGE_SIZE * page:PAGE_SIZE * (page + 1)].ljust(PAGE_SIZE, b"\0")
    GATE.pack_into(data, 0, 1, at, count, good.pages)
    kind = chance.randrange(8)
    if kind == 0 and pages:
        data[at + ENTRY_SIZE * chance.randrange(count) + chance.randrange(NUMBER.size)] ^= 1 << chance.randrange(8)
    elif kind == 1 and count > 1:
        one, other = (slice(at + ENTRY_SIZE * index, at + ENTRY_SIZE * index + NUMBER.size)
                      for index in chance.sample(range(count), 2))
        data[one], data[other] = data[other], data[one] if chance.random() < 0.5 else data[other]
    elif kind == 2:
        data[chance.randrange(8, 24)] ^= 1 << chance.randrange(8)
    elif kind == 3 and pages:
        data[at + ENTRY_SIZE * chance.randrange(count) + chance.randrange(NUMBER.size, ENTRY_SIZE)] = chance.randrange(256)
    elif kind == 4:
        del data[len(data) - chance.randrange(1, ENTRY_SIZE):]
    elif kind == 5:
        spoil_pages(chance, pages, data)


def spoil_pages(chance, pages, data):
    """Other bytes in pages that the journal brings."""
    for page in pages:
        data[PAGE_SIZE * page + chance.randrange(PAGE_SIZE)] ^= 1 << chance.randrange(8)


IN_PLACE = {
    "bytes": change_bytes,
    "fields": change_field,
    "fields exchanged": exchange_fields,
    "chains crossed": cross_chains,
    "neighbours in a chain exchanged": exchange_neighbours,
    "slots exchanged": exchange_slots,
    "slots moved with their links": move_slots,
}
KINDS = {
    **IN_PLACE,
    "pages repeated or left out": repeat_page,
    "cut": cut,
    "grown": grow,
    "page 0": change_gate,
    "a journal under a set gate": change_journal,
}


def damaged(good, seed):
    """What is done to the file, and its bytes then, which are others."""
    chance, data = random.Random(seed), bytearray(good.data)
    kind = chance.choice(list(KINDS))
    while data == good.data:
        if chance.random() < 0.25:
            IN_PLACE[chance.choice(list(IN_PLACE))](chance, good, data)
        KINDS[kind](chance, good, data)
    return kind, bytes(data)
