/* Makes random calls, always the same, and prints a digest of all that they return and write: random COUNT. Two builds of the library,
   as for two processors, have to print the same. */
#include "ansi_str.h"

#include <stdio.h>
#include <stdlib.h>
#include <string.h>

enum { MOST_PIECES = 24, ROOM = 16384, MOST_ENTRIES = 512 };

static uint64_t state = 0x616e73695f737472, digest = 0xcbf29ce484222325;

/* A random number below a bound (Marsaglia's xorshift64*). (No expression has two of these calls: their order would be any.) */
static size_t below(size_t bound) {
    state ^= state >> 12;
    state ^= state << 25;
    state ^= state >> 27;
    return (size_t)((state * 0x2545f4914f6cdd1d) >> 33) % bound;
}

/* Adds bytes to the digest (FNV-1a, of 64 bits). */
static void add(const void *bytes, size_t len) {
    for (size_t i = 0; i < len; i++) {
        digest = (digest ^ ((const unsigned char *)bytes)[i]) * 0x100000001b3;
    }
}

static void add_number(size_t number) {
    uint64_t same = number;
    add(&same, sizeof same);
}

struct text {
    char bytes[MOST_PIECES * 40];
    size_t len;
};

/* A text of random pieces: words, wide and combining characters, emoji, controls, sequences, some of them cut off, and bytes that aren't
   UTF-8. */
static void make(struct text *t, size_t most) {
    static const char *const PIECES[] = {
        "a", "red apple", " ", "  \t", "\n", "\r\n", ",", "\xc3\xa9", "e\xcc\x81", "\xe6\xbc\xa2\xe5\xad\x97", "\xef\xbd\xb6\xef\xbe\x9e",
        "\xf0\x9f\x91\xa9\xe2\x80\x8d\xf0\x9f\x9a\x80", "\xf0\x9f\x87\xa9\xf0\x9f\x87\xaa", "\xe2\x80\x8b", "\xe0\xb8\x81\xe0\xb8\xb3",
        "\x1b[0m", "\x1b[m", "\x1b[1;4m", "\x1b[39m", "\x1b[38;5;200m", "\x1b[48;2;1;2;3m", "\x1b[4:3m", "\x1b[58;5;9m", "\x1b[99m",
        "\x1b[13m", "\x1b[K", "\x1b[2J", "\x1b]8;;https://a.b/c\x1b\\", "\x1b]8;;\a", "\x1b]0;title\a", "\x1b" "c", "\x1b", "\x1b[", "\x1b[31",
        "\x1bPq#0\x1b\\", "\xc2\x9b" "31m", "\a", "\b", "\x7f", "\xc2\x85", "\xe2\x80\xae"};
    t->len = 0;
    for (size_t left = below(most + 1); left > 0; left--) {
        size_t of = below(sizeof PIECES / sizeof PIECES[0] + 4);
        if (of < 2) {
            size_t first = below(110), second = below(110);
            t->len += (size_t)sprintf(t->bytes + t->len, "\x1b[%zu;%zum", first, second);
        } else if (of < 4) {
            t->bytes[t->len++] = (char)('a' + below(26));
        } else {
            size_t len = strlen(PIECES[of - 4]);
            memcpy(t->bytes + t->len, PIECES[of - 4], len);
            t->len += len;
        }
    }
    if (below(50) == 0) {
        t->bytes[t->len++] = (char)(0x80 + below(0x80));
    }
}

static char buffer[ROOM];
static size_t ends[MOST_ENTRIES];

/* of a call that writes nothing */
static void add_told(ansi_str_answer answer) {
    add_number(answer.status);
    add_number(answer.len);
}

static void add_answer(ansi_str_answer answer) {
    add_told(answer);
    if (answer.status == ANSI_STR_OK && answer.len <= ROOM) {
        add(buffer, answer.len);
    }
}

static void add_answers(ansi_str_answers answers, bool has_ends) {
    add_answer((ansi_str_answer){answers.status, answers.len});
    add_number(answers.count);
    for (size_t i = 0; has_ends && answers.status == ANSI_STR_OK && i < answers.count; i++) {
        add_number(ends[i]);
    }
}

static void add_style(const ansi_str_style *style) {
    const ansi_str_color *colors[3] = {&style->foreground, &style->background, &style->underline_color};
    add_number(style->attributes);
    for (size_t i = 0; i < 3; i++) {
        add(colors[i], sizeof *colors[i]);
    }
    add_number(style->font.is_set);
    add_number(style->font.number);
}

/* A walk over the parts of a text, of which some are pointers into it. */
static void add_parts(const struct text *t, const struct text *pattern) {
    ansi_str_part_walk walk;
    ansi_str_next_part part;
    ansi_str_answer answer = ansi_str_parts_begin(t->bytes, t->len, pattern->bytes, pattern->len, &walk);
    add_number(answer.status);
    while (answer.status == ANSI_STR_OK) {
        answer = ansi_str_parts_next(&walk, &part, buffer, ROOM);
        add_answer(answer);
        add(part.text, part.text_len);
    }
}

static void add_blocks(const struct text *t) {
    ansi_str_block_walk walk;
    ansi_str_next_block block;
    ansi_str_answer answer = ansi_str_blocks_begin(t->bytes, t->len, &walk);
    add_number(answer.status);
    while (answer.status == ANSI_STR_OK) {
        answer = ansi_str_blocks_next(&walk, &block, buffer, ROOM);
        add_answer(answer);
        add(block.text, block.text_len);
        add_style(&block.style);
    }
}

static void add_lines(const struct text *t, size_t width) {
    static ansi_str_line_entry lines[MOST_ENTRIES];
    ansi_str_answers answers = ansi_str_lines(t->bytes, t->len, width, lines, MOST_ENTRIES);
    add_answers(answers, false);
    for (size_t i = 0; answers.status == ANSI_STR_OK && i < answers.count; i++) {
        add_number(lines[i].start);
        add_number(lines[i].end);
    }
}

#define TEXT(t) (t)->bytes, (t)->len

static void add_edit(const struct text *t, const struct text *pattern) {
    ansi_str_edit_step steps[4];
    size_t count = below(5);
    for (size_t i = 0; i < count; i++) {
        uint32_t kind = (uint32_t)below(8);
        size_t first = below(20), second = below(40);
        steps[i] = ansi_str_edit_of(kind, first, second, TEXT(pattern));
    }
    add_answer(ansi_str_edit(TEXT(t), steps, count, buffer, ROOM));
}

static void add_call(const struct text *t, const struct text *p, const struct text *q) {
    size_t a = below(t->len + 3), b = below(t->len + 3), start = below(40), width = below(40), room = below(8) ? ROOM : below(20);
    uint32_t word = (uint32_t)below(4), other = (uint32_t)below(3);
    ansi_str_style_answer style;
    switch (below(38)) {
    case 0: add_answer(ansi_str_strip(TEXT(t), buffer, room)); break;
    case 1: add_answer(ansi_str_cut(TEXT(t), a, b, buffer, room)); break;
    case 2: add_answer(ansi_str_cut(TEXT(t), a < b ? a : b, a < b ? b : a, buffer, room)); break;
    case 3: add_answer(ansi_str_left(TEXT(t), a, buffer, room)); break;
    case 4: add_answer(ansi_str_right(TEXT(t), a, buffer, room)); break;
    case 5: add_answer(ansi_str_trim(TEXT(t), buffer, room)); break;
    case 6: add_answer(ansi_str_strip_prefix(TEXT(t), TEXT(p), buffer, room)); break;
    case 7: add_answer(ansi_str_strip_suffix(TEXT(t), TEXT(p), buffer, room)); break;
    case 8: add_answer(ansi_str_part(TEXT(t), TEXT(p), below(4), buffer, room)); break;
    case 9: add_told(ansi_str_find(TEXT(t), TEXT(p))); break;
    case 10: add_told(ansi_str_starts_with(TEXT(t), TEXT(p))); break;
    case 11: add_told(ansi_str_ends_with(TEXT(t), TEXT(p))); break;
    case 12: add_told(ansi_str_is_char_boundary(TEXT(t), a)); break;
    case 13: add_told(ansi_str_floor_char_boundary(TEXT(t), a)); break;
    case 14: add_told(ansi_str_is_whole(TEXT(t))); break;
    case 15: add_told(ansi_str_has_any(TEXT(t))); break;
    case 16: add_answer(ansi_str_block(TEXT(t), below(4), buffer, room)); break;
    case 17: add_answer(ansi_str_block_start(TEXT(t), below(4), buffer, room)); break;
    case 18: add_answer(ansi_str_block_end(TEXT(t), below(4), buffer, room)); break;
    case 19:
        style = ansi_str_block_style(TEXT(t), below(4));
        add_number(style.status);
        add_style(&style.style);
        add_number(ansi_str_style_has_any(&style.style));
        add_answer(ansi_str_style_start(&style.style, buffer, room));
        add_answer(ansi_str_style_end(&style.style, buffer, room));
        break;
    case 20: add_answers(ansi_str_split(TEXT(t), TEXT(p), buffer, room, ends, MOST_ENTRIES), true); break;
    case 21: add_parts(t, p); break;
    case 22: add_blocks(t); break;
    case 23: add_edit(t, p); break;
    case 24: add_told(ansi_str_width(TEXT(t))); break;
    case 25: add_told(ansi_str_fitting(TEXT(t), width)); break;
    case 26: add_told(ansi_str_column_of(TEXT(t), a)); break;
    case 27: add_answer(ansi_str_truncate(TEXT(t), width, TEXT(p), buffer, room)); break;
    case 28: add_answer(ansi_str_pad(TEXT(t), width, word, buffer, room)); break;
    case 29: add_answer(ansi_str_fit(TEXT(t), width, word, TEXT(p), buffer, room)); break;
    case 30: add_answer(ansi_str_truncate_with(TEXT(t), width, TEXT(p), word, buffer, room)); break;
    case 31: add_answer(ansi_str_slice(TEXT(t), start, width, buffer, room)); break;
    case 32: add_answer(ansi_str_expand_tabs(TEXT(t), below(12), buffer, room)); break;
    case 33: add_answers(ansi_str_wrap(TEXT(t), width, buffer, room, ends, MOST_ENTRIES), true); break;
    case 34: add_answers(ansi_str_wrap_with(TEXT(t), width, TEXT(p), TEXT(q), buffer, room, ends, MOST_ENTRIES), true); break;
    case 35: add_lines(t, width); break;
    case 36: add_answer(ansi_str_link_at(TEXT(t), a, buffer, room)); break;
    default:
        add_told(ansi_str_is_safe(TEXT(t), other));
        add_answer(ansi_str_sanitize(TEXT(t), word, other, buffer, room));
        break;
    }
}

int main(int count, char **words) {
    static struct text t, p, q;
    long calls = count > 1 ? atol(words[1]) : 0;
    for (long i = 0; i < calls; i++) {
        make(&t, MOST_PIECES);
        make(&p, 2);
        make(&q, 1);
        add_call(&t, &p, &q);
    }
    printf("random calls: %ld, digest %016llx\n", calls, (unsigned long long)digest);
    return 0;
}
