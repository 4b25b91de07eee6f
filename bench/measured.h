/* The calls that are measured, and their text. */
#ifndef MEASURED_H
#define MEASURED_H

#include "hand.h"
#include "lengths.h"

#include <stddef.h>
#include <stdint.h>
#include <stdio.h>
#include <stdlib.h>
#include <string.h>

struct text {
    char *bytes;
    size_t len, plain_len;
    /* positions of the plain text: one and two thirds of it, and its half, each at the beginning of a character */
    size_t third, two_thirds, half;
    /* the first and the last byte of the plain text */
    char first, last;
};

/* The buffer for results: none, except while they are compared. */
static char *buffer;
static size_t room;

static size_t strip(const struct text *t) { return len_of(ansi_str_strip(t->bytes, t->len, buffer, room)); }
static size_t cut_front(const struct text *t) {
    return len_of(ansi_str_cut(t->bytes, t->len, 0, t->half, buffer, room));
}
static size_t cut_middle(const struct text *t) {
    return len_of(ansi_str_cut(t->bytes, t->len, t->third, t->two_thirds, buffer, room));
}
static size_t hand_cut_middle(const struct text *t) { return hand_cut(t->bytes, t->len, t->third, t->two_thirds); }
static size_t left(const struct text *t) { return len_of(ansi_str_left(t->bytes, t->len, t->half, buffer, room)); }
static size_t right(const struct text *t) { return len_of(ansi_str_right(t->bytes, t->len, t->half, buffer, room)); }
static size_t find_absent(const struct text *t) {
    return ansi_str_find(t->bytes, t->len, "absent", 6).status == ANSI_STR_NO ? 0 : SIZE_MAX;
}
/* a pattern whose first byte occurs in each word */
static size_t find_frequent(const struct text *t) {
    return ansi_str_find(t->bytes, t->len, " zq", 3).status == ANSI_STR_NO ? 0 : SIZE_MAX;
}
static size_t starts_with(const struct text *t) {
    return ansi_str_starts_with(t->bytes, t->len, "zqzq", 4).status == ANSI_STR_NO ? 0 : SIZE_MAX;
}
/* the test of UTF-8 alone, since every text begins with no bytes */
static size_t is_utf8(const struct text *t) {
    return ansi_str_starts_with(t->bytes, t->len, "", 0).status == ANSI_STR_OK ? 0 : SIZE_MAX;
}
static size_t trim(const struct text *t) { return len_of(ansi_str_trim(t->bytes, t->len, buffer, room)); }
static size_t hand_trim_all(const struct text *t) { return hand_trim(t->bytes, t->len); }
static size_t strip_prefix(const struct text *t) {
    return len_of(ansi_str_strip_prefix(t->bytes, t->len, &t->first, 1, buffer, room));
}
static size_t hand_prefix(const struct text *t) { return hand_strip_prefix(t->bytes, t->len, &t->first, 1); }
static size_t strip_suffix(const struct text *t) {
    return len_of(ansi_str_strip_suffix(t->bytes, t->len, &t->last, 1, buffer, room));
}
static size_t hand_suffix(const struct text *t) { return hand_strip_suffix(t->bytes, t->len, &t->last, 1); }
static size_t split(const struct text *t) {
    return count_of(ansi_str_split(t->bytes, t->len, " ", 1, NULL, 0, NULL, 0));
}
/* a walk over all blocks, which looks for one past the last */
static size_t blocks(const struct text *t) {
    return ansi_str_block(t->bytes, t->len, SIZE_MAX, NULL, 0).status == ANSI_STR_NO ? 0 : SIZE_MAX;
}
static size_t hand_walk(const struct text *t) { return hand_blocks(t->bytes, t->len) == SIZE_MAX ? SIZE_MAX : 0; }
/* all blocks with their styles, in a list */
static size_t block_list(const struct text *t) {
    return count_of(ansi_str_blocks(t->bytes, t->len, NULL, 0, NULL, 0));
}
static size_t columns(const struct text *t) { return len_of(ansi_str_width(t->bytes, t->len)); }
static size_t truncated(const struct text *t) { return len_of(ansi_str_truncate(t->bytes, t->len, 40, "...", 3, buffer, room)); }
static size_t padded(const struct text *t) { return len_of(ansi_str_pad(t->bytes, t->len, t->len, ANSI_STR_LEFT, buffer, room)); }
static size_t wrapped(const struct text *t) { return count_of(ansi_str_wrap(t->bytes, t->len, 80, NULL, 0, NULL, 0)); }
static size_t is_safe(const struct text *t) {
    return ansi_str_is_safe(t->bytes, t->len, ANSI_STR_KEEP_LINKS).status == ANSI_STR_REFUSED ? SIZE_MAX : 0;
}
static size_t sanitized(const struct text *t) {
    return len_of(ansi_str_sanitize(t->bytes, t->len, ANSI_STR_DROP, ANSI_STR_KEEP_LINKS, buffer, room));
}
/* three edits: without the first byte, the first half, and without white space at its ends */
static size_t edits(const struct text *t) {
    const ansi_str_edit_step steps[] = {ansi_str_edit_prefix(&t->first, 1), ansi_str_edit_cut(0, t->half - 1),
                                        ansi_str_edit_trim()};
    return len_of(ansi_str_edit(t->bytes, t->len, steps, 3, buffer, room));
}

struct call {
    const char *name;
    size_t (*run)(const struct text *);
    /* the same by hand, if there is such a call */
    size_t (*by_hand)(const struct text *);
};

static const struct call CALLS[] = {
    {"strip", strip, NULL},
    {"cut_front", cut_front, NULL},
    {"cut_middle", cut_middle, hand_cut_middle},
    {"left", left, NULL},
    {"right", right, NULL},
    {"trim", trim, hand_trim_all},
    {"strip_prefix", strip_prefix, hand_prefix},
    {"strip_suffix", strip_suffix, hand_suffix},
    {"find", find_absent, NULL},
    {"find_frequent", find_frequent, NULL},
    {"starts_with", starts_with, NULL},
    {"is_utf8", is_utf8, NULL},
    {"split", split, NULL},
    {"blocks", blocks, hand_walk},
    {"block_list", block_list, NULL},
    {"edits", edits, NULL},
    {"width", columns, NULL},
    {"truncate", truncated, NULL},
    {"pad", padded, NULL},
    {"wrap", wrapped, NULL},
    {"is_safe", is_safe, NULL},
    {"sanitize", sanitized, NULL},
};

enum { CALL_COUNT = sizeof CALLS / sizeof CALLS[0] };

/* The last position up to this one at which a character begins. */
static size_t boundary(const struct text *t, size_t position) {
    while (ansi_str_is_char_boundary(t->bytes, t->len, position).status == ANSI_STR_NO) {
        position--;
    }
    return position;
}

/* Reads a file, and finds its thirds and its half. */
static int is_read(struct text *t, const char *name) {
    memset(t, 0, sizeof *t);
    FILE *file = fopen(name, "rb");
    if (file == NULL) {
        return 0;
    }
    size_t most = 1 << 21;
    t->bytes = malloc(most);
    t->len = t->bytes == NULL ? 0 : fread(t->bytes, 1, most, file);
    fclose(file);
    if (t->bytes == NULL || t->len == most) {
        return 0;
    }
    t->plain_len = strip(t);
    t->third = boundary(t, t->plain_len / 3);
    t->two_thirds = boundary(t, t->plain_len / 3 * 2);
    t->half = boundary(t, t->plain_len / 2);
    for (char byte = 1; byte < 0x7f; byte++) {
        t->first = ansi_str_starts_with(t->bytes, t->len, &byte, 1).status == ANSI_STR_OK ? byte : t->first;
        t->last = ansi_str_ends_with(t->bytes, t->len, &byte, 1).status == ANSI_STR_OK ? byte : t->last;
    }
    return 1;
}

#endif
