/* The work of crates/slots_main on a plain array of structs, beside which bench/slots.py times it:
 *     slots read|write|field|link|touched|texts N M
 * A row is copied as a whole where it is read and written, and a text into memory of its own, by functions that are not
 * inlined. Numbers are drawn and sums are made as there. */
#include <inttypes.h>
#include <stdint.h>
#include <stdio.h>
#include <stdlib.h>
#include <string.h>

enum { SLOT_SIZE = 128, PAGE_SIZE = 1024, SLOTS_A_PAGE = 8, PAYLOAD_SIZE = 120, URL_SIZE = 60, DIGITS = 8 };

struct place {
    uint8_t kind, typed, hidden;
    uint32_t live_previous, live_next, id, origin, origin_previous, origin_next, first_visit, last_visit;
    uint32_t first_reference, last_reference, url_text, url_length, title_text, title_length;
    int64_t frecency;
    uint32_t count;
} __attribute__((aligned(SLOT_SIZE)));

struct text {
    uint8_t kind, used;
    uint32_t next;
    char payload[PAYLOAD_SIZE];
};

_Static_assert(sizeof(struct place) == SLOT_SIZE && sizeof(struct text) == SLOT_SIZE, "a slot has 128 bytes");

static uint64_t state = 1;

static uint32_t below(uint32_t bound) {
    state = state * UINT64_C(6364136223846793005) + UINT64_C(1442695040888963407);
    return (uint32_t)(state >> 32) % bound;
}

static void *memory(size_t size) {
    void *found = aligned_alloc(SLOT_SIZE, (size + SLOT_SIZE - 1) / SLOT_SIZE * SLOT_SIZE);
    if (!found) {
        fputs("slots: out of memory\n", stderr);
        exit(1);
    }
    return found;
}

/* ---- rows */

static struct place place(uint32_t number, uint8_t typed) {
    struct place row = {
        .kind = 2, .typed = typed, .hidden = 0, .live_previous = number, .live_next = number, .id = number,
        .origin = number, .origin_previous = number, .origin_next = number, .first_visit = number / 2,
        .last_visit = number, .first_reference = number, .last_reference = number, .url_text = number,
        .url_length = 60, .title_text = number, .title_length = number % 100, .frecency = number,
        .count = number % 1000,
    };
    return row;
}

__attribute__((noinline)) static struct place read_row(const struct place *rows, uint32_t slot) { return rows[slot]; }

__attribute__((noinline)) static void write_row(struct place *rows, uint32_t slot, const struct place *row) {
    rows[slot] = *row;
}

static uint64_t sum_of(const struct place *row) { return row->first_visit + (uint64_t)row->frecency + row->count; }

static struct place *rows_of(uint32_t count) {
    struct place *rows = memory(sizeof(struct place) * count);
    for (uint32_t n = 0; n < count; n++) rows[n] = place(n, 0);
    return rows;
}

static uint64_t whole_sum(const struct place *rows, uint32_t count) {
    uint64_t sum = 0;
    for (uint32_t n = 0; n < count; n++) sum += sum_of(&rows[n]);
    return sum;
}

static uint64_t reads(uint32_t count, uint32_t times) {
    struct place *rows = rows_of(count);
    uint64_t sum = 0;
    for (uint32_t turn = 0; turn < times; turn++) {
        struct place row = read_row(rows, below(count));
        sum += sum_of(&row);
    }
    return sum;
}

static uint64_t writes(uint32_t count, uint32_t times) {
    struct place *rows = rows_of(count);
    for (uint32_t turn = 0; turn < times; turn++) {
        struct place row = place(turn, 1);
        write_row(rows, below(count), &row);
    }
    return whole_sum(rows, count);
}

static uint64_t fields(uint32_t count, uint32_t times) {
    struct place *rows = rows_of(count);
    for (uint32_t turn = 0; turn < times; turn++) {
        uint32_t slot = below(count);
        struct place row = read_row(rows, slot);
        row.first_visit += turn;
        write_row(rows, slot, &row);
    }
    return whole_sum(rows, count);
}

static uint64_t links(uint32_t count, uint32_t times) {
    struct place *rows = rows_of(count);
    for (uint32_t turn = 0; turn < times; turn++) rows[below(count)].first_visit += turn;
    return whole_sum(rows, count);
}

/* ---- changed pages: the array has no marks, so the pages of the ten slots are counted */

static uint64_t touched(uint32_t count, uint32_t times) {
    struct place *rows = rows_of(count);
    uint64_t sum = 0;
    for (uint32_t turn = 0; turn < times; turn++) {
        uint32_t last = 0;
        for (uint32_t part = 0; part < 10; part++) {
            uint32_t slot = count / 10 * part, page = 2 + slot / SLOTS_A_PAGE;
            struct place row = place(turn, 1);
            write_row(rows, slot, &row);
            if (page != last) sum += page;
            last = page;
        }
    }
    return sum;
}

/* ---- texts */

static struct text url(uint32_t number) {
    struct text text = {.kind = 5, .used = URL_SIZE};
    memcpy(text.payload, "https://www.example.org/a/path/to/a/page/of/number/000000000", URL_SIZE);
    for (int place = URL_SIZE - 1; place >= URL_SIZE - DIGITS; place--, number /= 10)
        text.payload[place] = (char)('0' + number % 10);
    return text;
}

__attribute__((noinline)) static char *read_text(const struct text *texts, uint32_t slot) {
    char *copy = malloc(texts[slot].used);
    if (!copy) exit(1);
    return memcpy(copy, texts[slot].payload, texts[slot].used);
}

static uint64_t texts(uint32_t count, uint32_t times) {
    struct text *all = memory(sizeof(struct text) * count);
    for (uint32_t n = 0; n < count; n++) all[n] = url(n);
    uint64_t sum = 0;
    for (uint32_t turn = 0; turn < times; turn++) {
        char *copy = read_text(all, below(count));
        sum += (uint8_t)copy[URL_SIZE - 1 - turn % DIGITS];
        free(copy);
    }
    return sum;
}

int main(int argc, char **argv) {
    static const struct {
        const char *word;
        uint64_t (*work)(uint32_t, uint32_t);
    } all[] = {{"read", reads}, {"write", writes}, {"field", fields}, {"link", links}, {"touched", touched}, {"texts", texts}};
    for (size_t at = 0; argc == 4 && at < sizeof all / sizeof *all; at++) {
        if (strcmp(argv[1], all[at].word) != 0) continue;
        uint32_t count = (uint32_t)strtoul(argv[2], NULL, 10), times = (uint32_t)strtoul(argv[3], NULL, 10);
        if (count == 0) break;
        printf("%" PRIu64 "\n", all[at].work(count, times));
        return 0;
    }
    fputs("usage: slots read|write|field|link|touched|texts N M, with N from 1 on\n", stderr);
    return 2;
}
