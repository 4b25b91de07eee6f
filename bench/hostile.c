/* Makes every call on hostile texts and prints how long the worst takes: on all texts of up to six of eight pieces, and on
   1 MiB of each hostile kind. Exits with 1 if a call takes more than a second on 1 MiB (two seconds, if it lists all parts,
   blocks or lines), or if a cut, a part, a safe text or both sides are longer than their bound. An alarm ends a call that
   doesn't return. */
#include "lengths.h"

#include <signal.h>
#include <stddef.h>
#include <stdint.h>
#include <stdio.h>
#include <stdlib.h>
#include <string.h>
#include <time.h>
#include <unistd.h>

enum { LONG = 1 << 20, PIECES = 6, MOST_SECONDS = 1, MOST_OF_LIST = 2, ALARM = 60 };

struct bytes {
    const char *at;
    size_t len;
};

/* a call on a text, with a position and a pattern */
struct call {
    const char *name;
    size_t (*run)(struct bytes text, size_t position, struct bytes pattern);
    int has_position, has_pattern, is_list;
};

/* a call that returns a text, or one that returns a truth value or a position */
#define TEXT(name, ...) \
    static size_t name(struct bytes t, size_t n, struct bytes p) { \
        (void)n; \
        (void)p; \
        return len_of(ansi_str_##name(t.at, t.len, ##__VA_ARGS__, NULL, 0)); \
    }
#define QUESTION(name, ...) \
    static size_t name(struct bytes t, size_t n, struct bytes p) { \
        (void)n; \
        (void)p; \
        return len_of(ansi_str_##name(t.at, t.len, ##__VA_ARGS__)); \
    }

TEXT(strip) TEXT(trim) TEXT(strip_prefix, p.at, p.len) TEXT(strip_suffix, p.at, p.len) TEXT(part, p.at, p.len, n)
QUESTION(has_any) QUESTION(is_whole) QUESTION(is_char_boundary, n) QUESTION(floor_char_boundary, n)
QUESTION(width) QUESTION(fitting, n) QUESTION(column_of, n) TEXT(link_at, n) TEXT(slice, n, SIZE_MAX)
TEXT(sanitize, ANSI_STR_SHOW, ANSI_STR_KEEP_LINKS) TEXT(sanitize_bytes, ANSI_STR_SHOW, ANSI_STR_KEEP_LINKS)
QUESTION(is_safe, ANSI_STR_KEEP_LINKS)
QUESTION(starts_with, p.at, p.len) QUESTION(ends_with, p.at, p.len) QUESTION(find, p.at, p.len)
QUESTION(find_from, n, p.at, p.len) TEXT(mark, p.at, p.len, "1", 1) TEXT(insert, n, p.at, p.len)
TEXT(replace_all, p.at, p.len, p.at, p.len)

/* up to a position (C has the name `remove`) */
static size_t remove_to(struct bytes t, size_t n, struct bytes p) {
    (void)p;
    return len_of(ansi_str_remove(t.at, t.len, 0, n, NULL, 0));
}
static size_t restyle_to(struct bytes t, size_t n, struct bytes p) {
    (void)p;
    const ansi_str_range range = {0, n};
    return len_of(ansi_str_restyle(t.at, t.len, &range, 1, "1", 1, NULL, 0));
}
static size_t replace_to(struct bytes t, size_t n, struct bytes p) {
    return len_of(ansi_str_replace(t.at, t.len, 0, n, p.at, p.len, NULL, 0));
}
/* all up to the position by nothing, and then the pattern by ten ranges there */
static size_t replace_each_to(struct bytes t, size_t n, struct bytes p) {
    ansi_str_replacement edits[11];
    edits[0] = ansi_str_replacement_of(0, n, "", 0);
    for (size_t i = 1; i < 11; i++) {
        edits[i] = ansi_str_replacement_of(n, n, p.at, p.len);
    }
    return len_of(ansi_str_replace_each(t.at, t.len, edits, 11, NULL, 0));
}
static size_t link_to(struct bytes t, size_t n, struct bytes p) {
    (void)p;
    return len_of(ansi_str_link(t.at, t.len, 0, n, "u", 1, NULL, 0));
}
/* (POSIX has the name `unlink`) */
static size_t without_links(struct bytes t, size_t n, struct bytes p) {
    (void)n;
    (void)p;
    return len_of(ansi_str_unlink(t.at, t.len, NULL, 0));
}
static size_t links(struct bytes t, size_t n, struct bytes p) {
    (void)n;
    (void)p;
    return count_of(ansi_str_links(t.at, t.len, NULL, 0, NULL, 0));
}
static size_t pen(struct bytes t, size_t n, struct bytes p) {
    ansi_str_pen open;
    (void)n;
    (void)p;
    ansi_str_pen_after(t.at, t.len, &open);
    size_t start = len_of(ansi_str_pen_start(t.at, t.len, NULL, 0)), end = len_of(ansi_str_pen_end(t.at, t.len, NULL, 0));
    return start == SIZE_MAX || end == SIZE_MAX ? SIZE_MAX : start + end;
}
static size_t matches(struct bytes t, size_t n, struct bytes p) {
    (void)n;
    return count_of(ansi_str_matches(t.at, t.len, p.at, p.len, NULL, 0));
}
/* truncated to `position` columns (POSIX has the name `truncate`) */
static size_t truncate_to(struct bytes t, size_t n, struct bytes p) {
    return len_of(ansi_str_truncate(t.at, t.len, n, p.at, p.len, NULL, 0));
}
/* the same in the middle */
static size_t truncate_with(struct bytes t, size_t n, struct bytes p) {
    return len_of(ansi_str_truncate_with(t.at, t.len, n, p.at, p.len, ANSI_STR_MIDDLE, NULL, 0));
}
/* padded to `position` columns, but at most twice LONG */
static size_t pad(struct bytes t, size_t n, struct bytes p) {
    (void)p;
    return len_of(ansi_str_pad(t.at, t.len, n > 2 * LONG ? 2 * LONG : n, ANSI_STR_CENTER, NULL, 0));
}
static size_t fit(struct bytes t, size_t n, struct bytes p) {
    return len_of(ansi_str_fit(t.at, t.len, n > 2 * LONG ? 2 * LONG : n, ANSI_STR_CENTER, p.at, p.len, NULL, 0));
}
/* a TAB has at most 16 columns */
static size_t expand_tabs(struct bytes t, size_t n, struct bytes p) {
    (void)p;
    return len_of(ansi_str_expand_tabs(t.at, t.len, n > 16 ? 16 : n, NULL, 0));
}
/* wrapped to `position` columns, also 0: so there may be as many lines as bytes */
static size_t wrap(struct bytes t, size_t n, struct bytes p) {
    (void)p;
    return count_of(ansi_str_wrap(t.at, t.len, n, NULL, 0, NULL, 0));
}
static size_t lines(struct bytes t, size_t n, struct bytes p) {
    (void)p;
    return count_of(ansi_str_lines(t.at, t.len, n, NULL, 0));
}
/* from a position to the end, and from the start to a position */
static size_t cut_from(struct bytes t, size_t n, struct bytes p) {
    (void)p;
    return len_of(ansi_str_cut(t.at, t.len, n, SIZE_MAX, NULL, 0));
}
static size_t cut_to(struct bytes t, size_t n, struct bytes p) {
    (void)p;
    return len_of(ansi_str_cut(t.at, t.len, 0, n, NULL, 0));
}
/* both sides, together */
static size_t sides(struct bytes t, size_t n, struct bytes p) {
    (void)p;
    size_t left = len_of(ansi_str_left(t.at, t.len, n, NULL, 0));
    size_t right = len_of(ansi_str_right(t.at, t.len, n, NULL, 0));
    return left == SIZE_MAX || right == SIZE_MAX ? SIZE_MAX : left + right;
}
static size_t edit(struct bytes t, size_t n, struct bytes p) {
    (void)p;
    const ansi_str_edit_step edits[] = {ansi_str_edit_right(n), ansi_str_edit_trim()};
    return len_of(ansi_str_edit(t.at, t.len, edits, 2, NULL, 0));
}
static size_t split(struct bytes t, size_t n, struct bytes p) {
    (void)n;
    return count_of(ansi_str_split(t.at, t.len, p.at, p.len, NULL, 0, NULL, 0));
}
static size_t blocks(struct bytes t, size_t n, struct bytes p) {
    (void)n;
    (void)p;
    return count_of(ansi_str_blocks(t.at, t.len, NULL, 0, NULL, 0));
}

static const struct call CALLS[] = {
    {"strip", strip, 0, 0, 0}, {"trim", trim, 0, 0, 0}, {"has_any", has_any, 0, 0, 0}, {"is_whole", is_whole, 0, 0, 0},
    {"blocks", blocks, 0, 0, 1}, {"cut from", cut_from, 1, 0, 0}, {"cut to", cut_to, 1, 0, 0}, {"both sides", sides, 1, 0, 0},
    {"edit", edit, 1, 0, 0}, {"is_char_boundary", is_char_boundary, 1, 0, 0},
    {"floor_char_boundary", floor_char_boundary, 1, 0, 0}, {"starts_with", starts_with, 0, 1, 0},
    {"ends_with", ends_with, 0, 1, 0}, {"strip_prefix", strip_prefix, 0, 1, 0}, {"strip_suffix", strip_suffix, 0, 1, 0},
    {"width", width, 0, 0, 0}, {"fitting", fitting, 1, 0, 0}, {"column_of", column_of, 1, 0, 0}, {"truncate", truncate_to, 1, 1, 0}, {"pad", pad, 1, 0, 0},
    {"fit", fit, 1, 1, 0}, {"truncate_with", truncate_with, 1, 1, 0}, {"slice", slice, 1, 0, 0}, {"expand_tabs", expand_tabs, 1, 0, 0},
    {"wrap", wrap, 1, 0, 1}, {"lines", lines, 1, 0, 1}, {"link_at", link_at, 1, 0, 0},
    {"sanitize", sanitize, 0, 0, 0}, {"sanitize_bytes", sanitize_bytes, 0, 0, 0}, {"is_safe", is_safe, 0, 0, 0},
    {"remove to", remove_to, 1, 0, 0}, {"restyle to", restyle_to, 1, 0, 0}, {"matches", matches, 0, 1, 1}, {"mark", mark, 0, 1, 0},
    {"replace to", replace_to, 1, 1, 0}, {"insert", insert, 1, 1, 0}, {"link to", link_to, 1, 0, 0}, {"unlink", without_links, 0, 0, 0},
    {"replace_each to", replace_each_to, 1, 1, 0},
    {"links", links, 0, 0, 1}, {"pen_after", pen, 0, 0, 0}, {"replace_all", replace_all, 0, 1, 0},
    {"find_from", find_from, 1, 1, 0}, {"find", find, 0, 1, 0}, {"split", split, 0, 1, 1}, {"part", part, 1, 1, 0},
};
enum { CALL_COUNT = sizeof CALLS / sizeof CALLS[0] };

static double now(void) {
    struct timespec at;
    clock_gettime(CLOCK_MONOTONIC, &at);
    return (double)at.tv_sec + (double)at.tv_nsec / 1e9;
}

/* the longest time so far, and what took it */
struct worst {
    double seconds;
    const char *call, *pattern;
    size_t position;
};

/* what is running, which the alarm prints */
static struct worst running;

static void on_alarm(int signal) {
    (void)signal;
    printf("    %s, pattern %s, position %zu: not within %d s\n", running.call, running.pattern, running.position, ALARM);
    fflush(stdout);
    _exit(1);
}

static struct worst measured(const struct call *call, struct bytes t, size_t position, struct bytes p, const char *pattern) {
    struct worst w = {0, call->name, call->has_pattern ? pattern : "-", call->has_position ? position : 0};
    running = w;
    alarm(ALARM);
    double begin = now();
    call->run(t, position, p);
    w.seconds = now() - begin;
    alarm(0);
    return w;
}

/* whether a call's result is within its bound; SIZE_MAX means no bound */
static int is_short(struct bytes t, size_t len, size_t more) { return len == SIZE_MAX || len <= t.len + more; }

static int is_bounded(struct bytes t, size_t position, struct bytes p) {
    size_t runs = blocks(t, position, p);
    return is_short(t, cut_from(t, position, p), ANSI_STR_LONGEST_CLOSE) &&
           is_short(t, cut_to(t, position, p), ANSI_STR_LONGEST_CLOSE) &&
           is_short(t, part(t, position, p), ANSI_STR_LONGEST_START_AND_CLOSE) &&
           is_short(t, slice(t, position, p), ANSI_STR_LONGEST_START_AND_CLOSE + ANSI_STR_LONGEST_LINK_END) &&
           is_short(t, sanitize(t, position, p), 3 * t.len + ANSI_STR_LONGEST_LINK_END + ANSI_STR_LONGEST_CLOSE) &&
           is_short(t, sanitize_bytes(t, position, p), 3 * t.len + ANSI_STR_LONGEST_LINK_END + ANSI_STR_LONGEST_CLOSE) &&
           is_short(t, pen(t, position, p), ANSI_STR_LONGEST_START_AND_CLOSE + ANSI_STR_LONGEST_LINK_END) &&
           is_short(t, sides(t, position, p), ANSI_STR_LONGEST_START_AND_CLOSE * (runs + 1));
}

static const size_t POSITIONS[] = {0, 1, 2, SIZE_MAX};
enum { POSITION_COUNT = sizeof POSITIONS / sizeof POSITIONS[0] };

/* every call on a text, at each position and with each pattern that it takes */
static int all_calls(struct bytes t, const struct bytes *patterns, const char *const *names, size_t count, struct worst *worst) {
    int fails = 0;
    for (size_t c = 0; c < CALL_COUNT; c++) {
        for (size_t i = 0; i < (CALLS[c].has_position ? POSITION_COUNT : 1); i++) {
            for (size_t k = 0; k < (CALLS[c].has_pattern ? count : 1); k++) {
                struct worst w = measured(&CALLS[c], t, POSITIONS[i], patterns[k], names[k]);
                if (w.seconds > (CALLS[c].is_list ? MOST_OF_LIST : MOST_SECONDS)) {
                    printf("    %s, pattern %s, position %zu: %.3f s\n", w.call, w.pattern, w.position, w.seconds);
                    fails = 1;
                }
                *worst = w.seconds > worst->seconds ? w : *worst;
            }
        }
    }
    for (size_t i = 0; i < POSITION_COUNT; i++) {
        for (size_t k = 0; k < count; k++) {
            if (!is_bounded(t, POSITIONS[i], patterns[k])) {
                printf("    an answer at %zu, pattern %s, is longer than its bound\n", POSITIONS[i], names[k]);
                fails = 1;
            }
        }
    }
    return fails;
}

/* all texts of up to a number of these pieces */
static int short_texts(void) {
    static const char *const ALPHABET[] = {"\x1b", "[", "]", "1", "m", "\\", "a", "\xc3\xa9"};
    enum { LETTERS = sizeof ALPHABET / sizeof ALPHABET[0] };
    static const char *const NAMES[] = {"empty", "a", "1m"};
    static const struct bytes PATTERNS[] = {{"", 0}, {"a", 1}, {"1m", 2}};
    struct worst worst = {0, "-", "-", 0};
    size_t count = 0, of_length = 1;
    int fails = 0;
    for (int length = 0; length <= PIECES; length++, of_length *= LETTERS) {
        for (size_t n = 0; n < of_length; n++) {
            char text[2 * PIECES];
            struct bytes t = {text, 0};
            size_t left = n;
            for (int i = 0; i < length; i++, left /= LETTERS) {
                const char *letter = ALPHABET[left % LETTERS];
                memcpy(text + t.len, letter, strlen(letter));
                t.len += strlen(letter);
            }
            fails |= all_calls(t, PATTERNS, NAMES, sizeof PATTERNS / sizeof PATTERNS[0], &worst);
            count++;
        }
    }
    printf("%zu short texts: the worst call took %.3f ms\n", count, worst.seconds * 1e3);
    return fails;
}

/* a hostile kind: a front, and a piece as often as it fits */
struct kind {
    const char *name, *front, *piece;
};

#define LONGEST \
    "\x1b[0;99;1;2;3;4;5;6;7;8;9;19;20;21;26;38;2;255;255;255;48;2;255;255;255;58;2;255;255;255;51;52;53;60;61;62;63;64;73;74m"

static const struct kind KINDS[] = {
    {"letters", "", "a"},
    {"ESC", "", "\x1b"},
    {"ESC [ 1;1;.. unfinished", "\x1b[", "1;"},
    {"ESC [ 1;1;.. many times", "", "\x1b[1;1;1;1;1;1;1;1"},
    {"ESC ] unfinished", "", "\x1b]"},
    {"ESC P unfinished", "", "\x1bP"},
    {"ESC P a.. unfinished", "\x1bP", "a"},
    {"ESC ( unfinished", "", "\x1b("},
    {"ESC \\", "", "\x1b\\"},
    {"titles", "", "\x1b]0;t\x07"},
    {"titles and letters", "", "\x1b]0;t\x07" "a"},
    {"ESC [1m", "", "\x1b[1m"},
    {"ESC [1m, a letter", "", "\x1b[1ma"},
    {"ESC [1m, a blank", "", "\x1b[1m "},
    {"ESC [m, two letters", "", "\x1b[m" "aa"},
    {"the longest style, letters", LONGEST, "a"},
    {"the longest style, short runs", LONGEST, "\x1b\\" "a"},
    {"the longest style, many times", "", LONGEST "a"},
    {"two bytes a character", "", "\x1b[1m\xc3\xa9"},
    {"no UTF-8", "", "\xf0\x9f\x98\xff"},
};

static struct bytes made(const struct kind *kind) {
    static char text[LONG];
    struct bytes t = {text, strlen(kind->front)};
    size_t len = strlen(kind->piece);
    memcpy(text, kind->front, t.len);
    for (; t.len + len <= LONG; t.len += len) {
        memcpy(text + t.len, kind->piece, len);
    }
    return t;
}

/* with long patterns too, if requested */
static int long_texts(int has_long_patterns) {
    enum { MANY = 255, HALF = LONG / 8 };
    static const char *const NAMES[] = {"empty", "a", "ESC", "255 a, b", "131,072 a", "131,072 a, b"};
    static char letters[HALF + 1], many[MANY + 1];
    memset(letters, 'a', HALF);
    letters[HALF] = 'b';
    memset(many, 'a', MANY);
    many[MANY] = 'b';
    const struct bytes patterns[] = {{letters, 0},        {letters, 1},    {"\x1b", 1},
                                     {many, sizeof many}, {letters, HALF}, {letters, sizeof letters}};
    int fails = 0;
    printf("%-32s %-16s %-14s %12s %12s\n", "1 MiB of", "worst call", "pattern", "position", "time");
    for (size_t i = 0; i < sizeof KINDS / sizeof KINDS[0]; i++) {
        struct worst worst = {0, "-", "-", 0};
        fails |= all_calls(made(&KINDS[i]), patterns, NAMES, sizeof patterns / sizeof patterns[0] - (has_long_patterns ? 0 : 2), &worst);
        printf("%-32s %-16s %-14s %12zx %9.3f ms\n", KINDS[i].name, worst.call, worst.pattern, worst.position,
               worst.seconds * 1e3);
        fflush(stdout);
    }
    return fails;
}

int main(int count, char **words) {
    signal(SIGALRM, on_alarm);
    int fails = short_texts();
    fails |= long_texts(count > 1 && strcmp(words[1], "long") == 0);
    return fails;
}
