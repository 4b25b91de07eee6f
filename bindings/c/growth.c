/* Makes each call on texts of 1 MiB with many matches, parts, ranges and links, and on an eighth of each, in the function `counted`, and
   prints a line for each: its length, the call and the text. Exits with 1 if a call fails, or if it makes more than MOST times as many
   requests for memory on a text that is eight times as long. `growth COUNTS`, run by callgrind with --toggle-collect=counted and
   --dump-after=counted into the files COUNTS.1, COUNTS.2 and so on, also exits with 1 if a call takes more than MOST times the
   instructions. */
#include "ansi_str.h"

#include <stdio.h>
#include <stdlib.h>
#include <string.h>

enum { LONG = 1 << 20, SHORT = LONG / 8, ROOM = 64 << 20, ENTRIES = LONG + 1, MOST = 10 };

/* A text, its plain text's length, the ranges of its matches of `ab`, and where the middle one of these begins. */
struct text {
    const char *name;
    char *bytes;
    size_t len, plain_len, half;
    ansi_str_range *ranges;
    ansi_str_replacement *replacements;
    size_t count;
};

static size_t requests;
void *__real_malloc(size_t);
void *__real_realloc(void *, size_t);

void *__wrap_malloc(size_t size) {
    requests++;
    return __real_malloc(size);
}

void *__wrap_realloc(void *old, size_t size) {
    requests++;
    return __real_realloc(old, size);
}

static char *buffer;
static union {
    size_t ends[ENTRIES];
    ansi_str_range ranges[ENTRIES];
    ansi_str_line_entry lines[ENTRIES];
    ansi_str_link_entry links[ENTRIES];
    ansi_str_block_entry blocks[ENTRIES];
} entries;

#define OF t->bytes, t->len
#define AB "ab", 2
#define INTO buffer, ROOM
#define CALL(name, ...) \
    static int name(const struct text *t) { return ansi_str_##__VA_ARGS__.status == ANSI_STR_OK; }

CALL(strip, strip(OF, INTO))
CALL(cut, cut(OF, 1, t->plain_len - 1, INTO))
CALL(left, left(OF, t->half, INTO))
CALL(right, right(OF, t->half, INTO))
CALL(trim, trim(OF, INTO))
CALL(part, part(OF, AB, t->count, INTO))
CALL(matches, matches(OF, AB, entries.ranges, ENTRIES))
CALL(find_from, find_from(OF, t->half, AB))
CALL(restyle, restyle(OF, t->ranges, t->count, "1;31", 4, INTO))
CALL(mark, mark(OF, AB, "1;31", 4, INTO))
CALL(remove_half, remove(OF, 0, t->half, INTO))
CALL(replace, replace(OF, 0, 2, "\x1b[3mcd", 6, INTO))
CALL(insert, insert(OF, 2, "\x1b[3mcd", 6, INTO))
CALL(replace_all, replace_all(OF, AB, "\x1b[3mcd", 6, INTO))
CALL(replace_each, replace_each(OF, t->replacements, t->count, INTO))
CALL(link_all, link(OF, 0, t->plain_len, "http://x", 8, INTO))
CALL(unlink_all, unlink(OF, INTO))
CALL(links, links(OF, INTO, entries.links, ENTRIES))
CALL(split, split(OF, AB, INTO, entries.ends, ENTRIES))
CALL(blocks, blocks(OF, INTO, entries.blocks, ENTRIES))
CALL(width, width(OF))
CALL(truncate_text, truncate(OF, t->half, "..", 2, INTO))
CALL(slice, slice(OF, 1, t->half, INTO))
CALL(wrap, wrap(OF, 40, INTO, entries.ends, ENTRIES))
CALL(lines, lines(OF, 40, entries.lines, ENTRIES))
CALL(sanitize, sanitize(OF, ANSI_STR_SHOW, ANSI_STR_KEEP_LINKS, INTO))
CALL(is_safe, is_safe(OF, ANSI_STR_KEEP_LINKS))

static int refused_range(const struct text *t) {
    return ansi_str_refused_range(OF, t->ranges, t->count).status == ANSI_STR_NO;
}

/* Each step removes a character at an end. */
static int edit(const struct text *t) {
    ansi_str_edit_step steps[8];
    for (size_t i = 0; i < 8; i++) {
        steps[i] = i % 2 ? ansi_str_edit_right(1) : ansi_str_edit_cut(0, t->plain_len - 1 - i);
    }
    return ansi_str_edit(OF, steps, 8, INTO).status == ANSI_STR_OK;
}

static int edit_columns(const struct text *t) {
    ansi_str_column_step steps[] = {ansi_str_column_edit_slice(1, t->half), ansi_str_column_edit_pad(t->plain_len, ANSI_STR_RIGHT),
                                    ansi_str_column_edit_truncate(t->half, "..", 2, ANSI_STR_MIDDLE)};
    return ansi_str_edit_columns(OF, steps, 3, INTO).status == ANSI_STR_OK;
}

static int parts_one_by_one(const struct text *t) {
    ansi_str_part_walk walk;
    ansi_str_next_part part;
    ansi_str_answer answer = ansi_str_parts_begin(OF, AB, &walk);
    while (answer.status == ANSI_STR_OK) {
        answer = ansi_str_parts_next(&walk, &part, INTO);
    }
    return answer.status == ANSI_STR_NO;
}

static int blocks_one_by_one(const struct text *t) {
    ansi_str_block_walk walk;
    ansi_str_next_block block;
    ansi_str_answer answer = ansi_str_blocks_begin(OF, &walk);
    while (answer.status == ANSI_STR_OK) {
        answer = ansi_str_blocks_next(&walk, &block, INTO);
    }
    return answer.status == ANSI_STR_NO;
}

static int lines_one_by_one(const struct text *t) {
    ansi_str_line_walk walk;
    ansi_str_line_entry line;
    ansi_str_answer answer = ansi_str_lines_begin(OF, 40, &walk);
    while (answer.status == ANSI_STR_OK) {
        answer = ansi_str_lines_next(&walk, &line);
    }
    return answer.status == ANSI_STR_NO;
}

static const struct call {
    const char *name;
    int (*run)(const struct text *);
} CALLS[] = {
    {"strip", strip}, {"cut", cut}, {"left", left}, {"right", right}, {"trim", trim}, {"part", part}, {"matches", matches},
    {"find_from", find_from}, {"restyle", restyle}, {"refused_range", refused_range}, {"mark", mark}, {"remove", remove_half},
    {"replace", replace}, {"insert", insert}, {"replace_all", replace_all}, {"replace_each", replace_each}, {"link", link_all},
    {"unlink", unlink_all}, {"links", links}, {"split", split}, {"parts, one by one", parts_one_by_one}, {"blocks", blocks},
    {"blocks, one by one", blocks_one_by_one}, {"edit", edit}, {"width", width}, {"truncate", truncate_text}, {"slice", slice},
    {"edit_columns", edit_columns}, {"wrap", wrap}, {"lines", lines}, {"lines, one by one", lines_one_by_one}, {"sanitize", sanitize},
    {"is_safe", is_safe}};

/* The pieces of the texts: a match around a sequence, so that the pattern's bytes occur nowhere, and one in a link of its own. */
static const struct {
    const char *name, *piece;
} PIECES[] = {{"a match around an SGR", "a\x1b[1mb"}, {"a match in a link", "\x1b]8;;u\x1b\\ab\x1b]8;;\x1b\\ "}};

static void fail(const char *call, const struct text *t, const char *why) {
    fprintf(stderr, "growth: %s of %zu bytes, %s: %s\n", call, t->len, t->name, why);
    exit(1);
}

/* (so that it is a function of its own under the optimizer) */
__attribute__((noinline)) static int counted(const struct call *call, const struct text *t) {
    return call->run(t);
}

static struct text text_of(const char *name, const char *piece, size_t most) {
    struct text t = {name, NULL, 0, 0, 0, NULL, NULL, 0};
    t.bytes = malloc(most);
    size_t piece_len = strlen(piece);
    for (; t.len + piece_len <= most; t.len += piece_len) {
        memcpy(t.bytes + t.len, piece, piece_len);
    }
    t.plain_len = ansi_str_strip(t.bytes, t.len, NULL, 0).len;
    t.count = ansi_str_matches(t.bytes, t.len, AB, entries.ranges, ENTRIES).count;
    t.ranges = malloc(t.count * sizeof *t.ranges);
    t.replacements = malloc(t.count * sizeof *t.replacements);
    for (size_t i = 0; i < t.count; i++) {
        t.ranges[i] = entries.ranges[i];
        t.replacements[i] = ansi_str_replacement_of(t.ranges[i].start, t.ranges[i].end, "\x1b[3mcd", 6);
    }
    if (t.count < most / 32) {
        fail("matches", &t, "too few");
    }
    t.half = t.ranges[t.count / 2].start;
    return t;
}

/* The instructions of the Nth counted call. */
static size_t instructions(const char *counts, size_t number) {
    char name[4096], line[4096];
    size_t total = 0;
    snprintf(name, sizeof name, "%s.%zu", counts, number);
    FILE *file = fopen(name, "r");
    while (file != NULL && fgets(line, sizeof line, file) != NULL) {
        sscanf(line, "totals: %zu", &total);
    }
    if (file == NULL || fclose(file) != 0 || total == 0) {
        fprintf(stderr, "growth: no count in %s\n", name);
        exit(1);
    }
    return total;
}

int main(int count, char **words) {
    const char *counts = count > 1 ? words[1] : NULL;
    size_t calls = 0;
    buffer = malloc(ROOM);
    for (size_t p = 0; p < sizeof PIECES / sizeof *PIECES; p++) {
        struct text texts[2] = {text_of(PIECES[p].name, PIECES[p].piece, SHORT), text_of(PIECES[p].name, PIECES[p].piece, LONG)};
        for (size_t c = 0; c < sizeof CALLS / sizeof *CALLS; c++) {
            size_t made[2], took[2] = {0, 0};
            for (size_t i = 0; i < 2; i++) {
                requests = 0;
                if (!counted(&CALLS[c], &texts[i])) {
                    fail(CALLS[c].name, &texts[i], "failed");
                }
                made[i] = requests;
                calls++;
                took[i] = counts == NULL ? 0 : instructions(counts, calls);
            }
            printf("%-20s %-22s %10zu %10zu instructions, %7zu %7zu requests\n", CALLS[c].name, texts[0].name, took[0], took[1], made[0],
                   made[1]);
            if (made[1] > MOST * (made[0] + 1)) {
                fail(CALLS[c].name, &texts[1], "too many requests for memory");
            }
            if (took[1] > MOST * took[0]) {
                fail(CALLS[c].name, &texts[1], "too many instructions");
            }
        }
    }
    return 0;
}
