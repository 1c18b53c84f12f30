/* The address bar as a plain scan in memory, beside which bench/bar.py times that of `places run`:
 *     bar FILE
 * A line of FILE is `page ID FRECENCY URL TITLE SEARCHED TAGS ADDRESS`, whose last three texts are folded, or
 * `group NAME TOTAL`, with a TAB between two fields; pages and groups stand in the order in which they are offered. It
 * answers lines `bar MAX TEXT` and `fill TEXT` as `places run` does, and takes any other for no command. Of ASCII alone:
 * it knows no marks, folds no other letters and writes no escapes. */
#define _GNU_SOURCE
#include <ctype.h>
#include <stdbool.h>
#include <stdio.h>
#include <stdlib.h>
#include <string.h>

enum { MOST_OFFERED = 1000, MOST_WORDS = 64 };

/* A row as it is said, and where the texts of a page end. */
struct row {
    const char *told, *told_end, *texts_end;
};

struct rows {
    struct row *at;
    size_t count, room;
};

struct word {
    const char *text;
    size_t length;
};

/* Which rows match, of each tier so many at most. */
struct tier {
    const struct row *rows[MOST_OFFERED];
    size_t count;
};

static struct rows pages, groups;

/* The texts of all pages in their order: title, tags and address of each, with an LF behind every text. */
static char *texts, *texts_end;

static void fail(const char *what) {
    fprintf(stderr, "bar: %s\n", what);
    exit(1);
}

static void *memory(void *old, size_t size) {
    void *found = realloc(old, size);
    if (!found)
        fail("out of memory");
    return found;
}

/* ---- what is known of the pages */

static char *contents(const char *path, size_t *size) {
    FILE *file = fopen(path, "rb");
    char *data = NULL;
    size_t room = 0;
    *size = 0;
    if (!file)
        fail("no file");
    do {
        room = room ? 2 * room : 1 << 20;
        data = memory(data, room);
        *size += fread(data + *size, 1, room - *size, file);
    } while (*size == room);
    fclose(file);
    return data;
}

static struct row *new_row(struct rows *rows, const char *told, const char *end) {
    if (rows->count == rows->room) {
        rows->room = rows->room ? 2 * rows->room : 1024;
        rows->at = memory(rows->at, rows->room * sizeof *rows->at);
    }
    rows->at[rows->count] = (struct row){told, end, NULL};
    return &rows->at[rows->count++];
}

/* The place behind so many fields, where the TAB or the LF stands. */
static char *behind(char *line, int fields) {
    while (fields-- > 0)
        line += strcspn(line, "\t\n") + (fields > 0);
    return line;
}

static void add_page(char *line, char *end) {
    char *told_end = behind(line, 5);
    char *text = told_end + 1;
    new_row(&pages, line, told_end);
    for (int field = 0; field < 3; field++) {
        char *stop = behind(text, 1);
        memcpy(texts_end, text, (size_t)(stop - text));
        texts_end += stop - text;
        *texts_end++ = '\n';
        text = stop + 1;
    }
    if (text != end + 1)
        fail("a page of other fields");
    pages.at[pages.count - 1].texts_end = texts_end;
}

static void load(const char *path) {
    size_t size;
    char *data = contents(path, &size);
    texts = texts_end = memory(NULL, size + 1);
    for (char *line = data, *end; line < data + size; line = end + 1) {
        end = memchr(line, '\n', (size_t)(data + size - line));
        if (!end)
            fail("a line without an end");
        if (!strncmp(line, "page\t", 5))
            add_page(line, end);
        else
            new_row(&groups, line + strlen("group\t"), end);
    }
}

/* ---- the pages that are offered */

static bool stands_in(const char *text, const char *end, struct word word) {
    return memmem(text, (size_t)(end - text), word.text, word.length) != NULL;
}

/* Behind a byte that is no letter: each text stands behind an LF, but for the first. */
static bool begins_in(const char *text, const char *end, struct word word) {
    for (const char *from = text, *hit; (hit = memmem(from, (size_t)(end - from), word.text, word.length)); from = hit + 1)
        if (hit == texts || !isalpha((unsigned char)hit[-1]))
            return true;
    return false;
}

static bool match(bool (*test)(const char *, const char *, struct word), const char *text, const char *end,
                  const struct word *words, size_t count) {
    for (size_t i = 0; i < count; i++)
        if (!test(text, end, words[i]))
            return false;
    return true;
}

static void put(struct tier *tier, size_t most, const struct row *row) {
    if (tier->count < most)
        tier->rows[tier->count++] = row;
}

/* Each page from the front on in which the first word stands, until the first tier is full. */
static void scan(const struct word *words, size_t count, size_t most, struct tier *first, struct tier *second) {
    const char *from = texts, *hit;
    size_t page = 0;
    while (first->count < most && (hit = memmem(from, (size_t)(texts_end - from), words[0].text, words[0].length))) {
        while (pages.at[page].texts_end <= hit)
            page++;
        const char *text = page ? pages.at[page - 1].texts_end : texts;
        from = pages.at[page].texts_end;
        if (match(begins_in, text, from, words, count))
            put(first, most, &pages.at[page]);
        else if (match(stands_in, text, from, words + 1, count - 1))
            put(second, most, &pages.at[page]);
    }
}

static size_t words_of(char *text, struct word *words) {
    size_t count = 0;
    for (char *at = text; *at; at++)
        *at = (char)tolower((unsigned char)*at);
    for (char *word = strtok(text, " "); word; word = strtok(NULL, " ")) {
        if (count == MOST_WORDS)
            fail("too many words");
        words[count++] = (struct word){word, strlen(word)};
    }
    return count;
}

/* The longest word is looked for first. */
static void put_longest_first(struct word *words, size_t count) {
    for (size_t i = 1; i < count; i++)
        if (words[i].length > words[0].length) {
            struct word longest = words[i];
            words[i] = words[0];
            words[0] = longest;
        }
}

static void say_row(const struct row *row) {
    fwrite(row->told, 1, (size_t)(row->told_end - row->told), stdout);
    putchar('\n');
}

static void bar(char *text, size_t most) {
    static struct tier first, second;
    struct word words[MOST_WORDS];
    size_t count = words_of(text, words);
    first.count = second.count = 0;
    if (count == 0 || most > MOST_OFFERED)
        fail("nothing is asked for");
    put_longest_first(words, count);
    scan(words, count, most, &first, &second);
    for (size_t i = 0; i < second.count; i++)
        put(&first, most, second.rows[i]);
    printf("rows\t%zu\n", first.count);
    for (size_t i = 0; i < first.count; i++)
        say_row(first.rows[i]);
}

/* ---- the group that is filled in */

static void fill(char *text) {
    size_t length;
    for (char *at = text; *at; at++)
        *at = (char)tolower((unsigned char)*at);
    if (!strncmp(text, "www.", 4))
        text += 4;
    length = strlen(text);
    for (size_t i = 0; length > 0 && i < groups.count; i++)
        if (!strncmp(groups.at[i].told, text, length)) {
            fputs("fill\t", stdout);
            say_row(&groups.at[i]);
            return;
        }
    puts("nofill");
}

static void answer(char *line) {
    char *max = line + strlen("bar\t"), *text;
    line[strcspn(line, "\n")] = '\0';
    if (!strncmp(line, "bar\t", 4) && (text = strchr(max, '\t')))
        bar(text + 1, strtoul(max, NULL, 10));
    else if (!strncmp(line, "fill\t", 5))
        fill(line + strlen("fill\t"));
    else
        puts("refused\t14\t1");
    fflush(stdout);
}

int main(int count, char **words) {
    char *line = NULL;
    size_t room = 0;
    if (count != 2)
        fail("usage: bar FILE");
    load(words[1]);
    while (getline(&line, &room, stdin) > 0)
        answer(line);
    return 0;
}
