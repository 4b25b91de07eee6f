/* calls: prints, for each call and input, the time of 1 MiB, the nanoseconds per byte, and the allocations, and for comparison
   the same for a plain copy of the bytes. A time is the shortest of some runs.

   calls ROW LENGTH: makes the call of one row, counted from 0, on LENGTH bytes of its input, in the function `judged`, so that
   its instructions can be counted, and prints the names of the row. Exits with 2 if there is no such row.

   Both exit with 1 if a call fails. */
#include "lengths.h"

#include <stddef.h>
#include <stdint.h>
#include <stdio.h>
#include <stdlib.h>
#include <string.h>
#include <time.h>

enum { LONG = 1 << 20, RUNS = 15 };

/* a text, its plain text, and a pattern to be searched */
struct text {
    char *bytes, *plain;
    size_t len, plain_len;
    const char *pattern;
    size_t pattern_len;
};

/* An input of a given length: a piece of plain text with sequences in it, as often as it fits, and then a sequence as often
   as it fits into a share of the text, or once if the share is negative. Everything from ESC to `m` is a sequence. */
struct input {
    const char *name, *piece, *tail;
    int tail_percent;
};

static const struct input PLAIN = {"plain text", "one line of a log, not in color\n", "", 0};
static const struct input LOG = {
    "colored log lines", "\x1b[2m12:00:00\x1b[0m \x1b[32mINFO\x1b[0m one line of a log, in color\n", "", 0};
static const struct input SHORT_SEQUENCES = {"ESC [1m, a letter", "\x1b[1ma", "", 0};
static const struct input LETTERS = {"lines of one letter", "a\n", "", 0};
static const struct input TAIL = {"a log, then 100,000 ESC [m",
                                  "\x1b[32mINFO\x1b[0m one line of a log, in color\n", "\x1b[m", 29};
static const struct input BLANKS = {"ESC [1m, a blank", "\x1b[1m ", "", 0};
static const struct input MARKED = {"colored log lines, END", "\x1b[2m12:00:00\x1b[0m \x1b[32mINFO\x1b[0m one line of a log\n",
                                    "\x1b[1mEND\x1b[0m", -1};
static const struct input WORDS = {"100,000 words, some bold", "\x1b[1mbold\x1b[0m and plain ", "", 0};
static const struct input UNFINISHED = {"ESC ] unfinished", "\x1b]", "", 0};
static const struct input FIELDS = {"ESC [ 1;1;.. unfinished", "1;", "", 0};

#define A16 "aaaaaaaaaaaaaaaa"
#define A64 A16 A16 A16 A16
#define X16 "xxxxxxxxxxxxxxxx"
#define X64 X16 X16 X16 X16

/* what a call is given as its pattern: a half of the plain text, or a text of its own */
enum pattern { NONE, FIRST_HALF, LAST_HALF, WORD };

struct call {
    const char *name;
    size_t (*run)(const struct text *);
    enum pattern pattern;
    const char *word;
};

static size_t allocations;
void *__real_malloc(size_t);
void *__real_realloc(void *, size_t);

void *__wrap_malloc(size_t size) {
    allocations++;
    return __real_malloc(size);
}

void *__wrap_realloc(void *old, size_t size) {
    allocations++;
    return __real_realloc(old, size);
}

/* so that the copy isn't left out */
static volatile char last;

static size_t copy(const struct text *t) {
    char *other = malloc(t->len);
    if (other == NULL) {
        return SIZE_MAX;
    }
    memcpy(other, t->bytes, t->len);
    last = other[t->len - 1];
    free(other);
    return t->len;
}

static size_t strip(const struct text *t) { return len_of(ansi_str_strip(t->bytes, t->len, NULL, 0)); }
static size_t cut(const struct text *t) { return len_of(ansi_str_cut(t->bytes, t->len, 1, t->len, NULL, 0)); }
static size_t starts_with(const struct text *t) {
    return ansi_str_starts_with(t->bytes, t->len, t->pattern, t->pattern_len).status == ANSI_STR_OK ? 0 : SIZE_MAX;
}
static size_t ends_with(const struct text *t) {
    return ansi_str_ends_with(t->bytes, t->len, t->pattern, t->pattern_len).status == ANSI_STR_OK ? 0 : SIZE_MAX;
}
static size_t strip_prefix(const struct text *t) {
    return len_of(ansi_str_strip_prefix(t->bytes, t->len, t->pattern, t->pattern_len, NULL, 0));
}
static size_t strip_suffix(const struct text *t) {
    return len_of(ansi_str_strip_suffix(t->bytes, t->len, t->pattern, t->pattern_len, NULL, 0));
}
static size_t trim(const struct text *t) { return len_of(ansi_str_trim(t->bytes, t->len, NULL, 0)); }
static size_t find(const struct text *t) {
    return len_of(ansi_str_find(t->bytes, t->len, t->pattern, t->pattern_len));
}
static size_t find_absent(const struct text *t) {
    return ansi_str_find(t->bytes, t->len, t->pattern, t->pattern_len).status == ANSI_STR_NO ? 0 : SIZE_MAX;
}
static size_t split(const struct text *t) {
    return count_of(ansi_str_split(t->bytes, t->len, t->pattern, t->pattern_len, NULL, 0, NULL, 0));
}
static size_t blocks(const struct text *t) { return count_of(ansi_str_blocks(t->bytes, t->len, NULL, 0, NULL, 0)); }
static size_t walk(const struct text *t) {
    char sequences[256];
    ansi_str_block_walk walk;
    ansi_str_next_block block;
    ansi_str_answer answer = ansi_str_blocks_begin(t->bytes, t->len, &walk);
    size_t count = 0;
    while (answer.status == ANSI_STR_OK) {
        answer = ansi_str_blocks_next(&walk, &block, sequences, sizeof sequences);
        count += answer.status == ANSI_STR_OK;
    }
    return answer.status == ANSI_STR_NO ? count : SIZE_MAX;
}

static size_t parts(const struct text *t) {
    static char buffer[1 << 21];
    ansi_str_part_walk walk;
    ansi_str_next_part part;
    ansi_str_answer answer = ansi_str_parts_begin(t->bytes, t->len, t->pattern, t->pattern_len, &walk);
    size_t count = 0;
    while (answer.status == ANSI_STR_OK) {
        answer = ansi_str_parts_next(&walk, &part, buffer, sizeof buffer);
        count += answer.status == ANSI_STR_OK;
    }
    return answer.status == ANSI_STR_NO ? count : SIZE_MAX;
}
static size_t width(const struct text *t) { return len_of(ansi_str_width(t->bytes, t->len)); }
static size_t fitting(const struct text *t) { return len_of(ansi_str_fitting(t->bytes, t->len, t->len)); }
static size_t truncate_to(const struct text *t) {
    return len_of(ansi_str_truncate(t->bytes, t->len, t->plain_len / 2, t->pattern, t->pattern_len, NULL, 0));
}
static size_t pad(const struct text *t) {
    return len_of(ansi_str_pad(t->bytes, t->len, t->plain_len + 8, ANSI_STR_RIGHT, NULL, 0));
}
static size_t wrap(const struct text *t) { return count_of(ansi_str_wrap(t->bytes, t->len, 80, NULL, 0, NULL, 0)); }
static size_t sanitize(const struct text *t) {
    return len_of(ansi_str_sanitize(t->bytes, t->len, ANSI_STR_DROP, ANSI_STR_KEEP_LINKS, NULL, 0));
}
static size_t is_safe(const struct text *t) {
    return ansi_str_is_safe(t->bytes, t->len, ANSI_STR_KEEP_LINKS).status == ANSI_STR_OK ? 0 : SIZE_MAX;
}

/* appends a piece, and its plain bytes, while it fits into this many bytes */
static void append(struct text *t, const char *piece, size_t limit) {
    size_t len = strlen(piece);
    while (len > 0 && t->len + len <= limit) {
        int in_sequence = 0;
        for (size_t i = 0; i < len; i++) {
            t->bytes[t->len++] = piece[i];
            if (piece[i] == '\x1b') {
                in_sequence = 1;
            } else if (!in_sequence) {
                t->plain[t->plain_len++] = piece[i];
            } else if (piece[i] == 'm') {
                in_sequence = 0;
            }
        }
    }
}

static struct text made(const struct input *input, size_t limit) {
    static char bytes[LONG], plain[LONG];
    struct text t = {bytes, plain, 0, 0, plain, 0};
    if (input == &FIELDS) {
        bytes[0] = '\x1b';
        bytes[1] = '[';
        t.len = 2;
    }
    if (input->tail_percent < 0) {
        append(&t, input->piece, limit - strlen(input->tail));
        append(&t, input->tail, t.len + strlen(input->tail));
        return t;
    }
    append(&t, input->piece, limit - limit / 100 * (size_t)input->tail_percent);
    append(&t, input->tail, limit);
    return t;
}

/* the time that the processor spent on this program */
static double now(void) {
    struct timespec at;
    clock_gettime(CLOCK_PROCESS_CPUTIME_ID, &at);
    return (double)at.tv_sec * 1e9 + (double)at.tv_nsec;
}

static void set_pattern(const struct call *call, struct text *t) {
    size_t half = t->plain_len / 2;
    switch (call->pattern) {
    case NONE:
    case FIRST_HALF:
        t->pattern = t->plain;
        t->pattern_len = call->pattern == NONE ? 0 : half;
        break;
    case LAST_HALF:
        t->pattern = t->plain + t->plain_len - half;
        t->pattern_len = half;
        break;
    case WORD:
        t->pattern = call->word;
        t->pattern_len = strlen(call->word);
        break;
    }
}

static void expect_done(const struct call *call, size_t answer) {
    if (answer == SIZE_MAX) {
        fprintf(stderr, "%s failed\n", call->name);
        exit(1);
    }
}

/* the shortest time of some runs */
static double measured(const struct call *call, struct text *t) {
    set_pattern(call, t);
    double shortest = 1e300;
    for (int run = 0; run < RUNS; run++) {
        allocations = 0;
        double begin = now();
        expect_done(call, call->run(t));
        double took = now() - begin;
        shortest = took < shortest ? took : shortest;
    }
    return shortest;
}

static const struct call COPY = {"copy", copy, NONE, NULL};
static const struct call STRIP = {"strip", strip, NONE, NULL};
static const struct call CUT = {"cut", cut, NONE, NULL};
static const struct call STARTS_WITH = {"starts_with", starts_with, FIRST_HALF, NULL};
static const struct call ENDS_WITH = {"ends_with", ends_with, LAST_HALF, NULL};
static const struct call STRIP_PREFIX = {"strip_prefix", strip_prefix, FIRST_HALF, NULL};
static const struct call STRIP_SUFFIX = {"strip_suffix", strip_suffix, LAST_HALF, NULL};
static const struct call TRIM = {"trim", trim, NONE, NULL};
static const struct call FIND_END = {"find, at the end", find, WORD, "END"};
static const struct call FIND_ABSENT = {"find, absent", find_absent, WORD, "absent"};
static const struct call FIND_SHORT = {"find, xyz", find_absent, WORD, "xyz"};
static const struct call FIND_X = {"find, 256 x", find_absent, WORD, X64 X64 X64 X64};
static const struct call FIND_A = {"find, 255 a, b", find_absent, WORD, A64 A64 A64 A16 A16 A16 "aaaaaaaaaaaaaaa" "b"};
static const struct call SPLIT = {"split", split, WORD, " "};
static const struct call PARTS = {"parts one by one", parts, WORD, " "};
static const struct call BLOCKS = {"blocks", blocks, NONE, NULL};
static const struct call WALK = {"blocks one by one", walk, NONE, NULL};
static const struct call WIDTH = {"width", width, NONE, NULL};
static const struct call FITTING = {"fitting", fitting, NONE, NULL};
static const struct call TRUNCATE = {"truncate", truncate_to, WORD, "..."};
static const struct call PAD = {"pad", pad, NONE, NULL};
static const struct call WRAP = {"wrap", wrap, NONE, NULL};
static const struct call SANITIZE = {"sanitize", sanitize, NONE, NULL};
static const struct call IS_SAFE = {"is_safe", is_safe, NONE, NULL};

static const struct row {
    const struct call *call;
    const struct input *input;
} ROWS[] = {
    {&COPY, &LOG},
    {&STRIP, &PLAIN}, {&STRIP, &LOG}, {&STRIP, &SHORT_SEQUENCES}, {&STRIP, &UNFINISHED}, {&STRIP, &FIELDS},
    {&CUT, &PLAIN}, {&CUT, &LOG}, {&CUT, &SHORT_SEQUENCES}, {&CUT, &UNFINISHED}, {&CUT, &FIELDS},
    {&STARTS_WITH, &LOG}, {&STARTS_WITH, &SHORT_SEQUENCES}, {&STARTS_WITH, &TAIL},
    {&ENDS_WITH, &LOG}, {&ENDS_WITH, &SHORT_SEQUENCES}, {&ENDS_WITH, &TAIL},
    {&STRIP_PREFIX, &LOG}, {&STRIP_PREFIX, &SHORT_SEQUENCES}, {&STRIP_PREFIX, &TAIL},
    {&STRIP_SUFFIX, &LOG}, {&STRIP_SUFFIX, &SHORT_SEQUENCES}, {&STRIP_SUFFIX, &TAIL},
    {&TRIM, &LOG}, {&TRIM, &SHORT_SEQUENCES}, {&TRIM, &TAIL}, {&TRIM, &BLANKS},
    {&FIND_END, &MARKED},
    {&FIND_ABSENT, &LOG}, {&FIND_ABSENT, &SHORT_SEQUENCES},
    {&FIND_SHORT, &SHORT_SEQUENCES}, {&FIND_X, &SHORT_SEQUENCES}, {&FIND_A, &SHORT_SEQUENCES},
    {&FIND_SHORT, &LETTERS}, {&FIND_X, &LETTERS}, {&FIND_A, &LETTERS},
    {&SPLIT, &PLAIN}, {&SPLIT, &LOG}, {&SPLIT, &WORDS},
    {&PARTS, &PLAIN}, {&PARTS, &LOG}, {&PARTS, &WORDS},
    {&BLOCKS, &LOG}, {&BLOCKS, &SHORT_SEQUENCES}, {&BLOCKS, &TAIL},
    {&WALK, &LOG}, {&WALK, &SHORT_SEQUENCES}, {&WALK, &TAIL},
    {&WIDTH, &PLAIN}, {&WIDTH, &LOG}, {&FITTING, &LOG}, {&TRUNCATE, &LOG}, {&PAD, &LOG},
    {&WRAP, &PLAIN}, {&WRAP, &LOG},
    {&IS_SAFE, &PLAIN}, {&IS_SAFE, &LOG}, {&SANITIZE, &LOG}, {&SANITIZE, &UNFINISHED},
};

enum { ROW_COUNT = sizeof ROWS / sizeof ROWS[0] };

static void print_time(const struct row *row) {
    struct text t = made(row->input, LONG);
    double took = measured(row->call, &t);
    printf("%-17s %-28s %9.3f ms %8.3f %12zu\n", row->call->name, row->input->name, took / 1e6, took / (double)t.len, allocations);
}

/* a function of its own, to which the call returns */
size_t judged(const struct row *row, const struct text *t);
__attribute__((noinline)) size_t judged(const struct row *row, const struct text *t) {
    volatile size_t answer = row->call->run(t);
    return answer;
}

int main(int count, char **words) {
    if (count == 3) {
        unsigned long index = strtoul(words[1], NULL, 10);
        if (index >= ROW_COUNT) {
            return 2;
        }
        const struct row *row = &ROWS[index];
        struct text t = made(row->input, strtoul(words[2], NULL, 10));
        set_pattern(row->call, &t);
        expect_done(row->call, judged(row, &t));
        printf("%-17s %-28s\n", row->call->name, row->input->name);
        return 0;
    }
    printf("%-17s %-28s %12s %8s %12s\n", "call", "input", "1 MiB", "ns/byte", "allocations");
    for (size_t i = 0; i < ROW_COUNT; i++) {
        print_time(&ROWS[i]);
    }
    return 0;
}
