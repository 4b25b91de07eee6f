#include "hand.h"

#include <stdint.h>
#include <stdlib.h>
#include <string.h>

enum { ESC = 0x1b, BEL = 0x07, LONGEST_CLOSE = 88 };

typedef const unsigned char *bytes;

char *hand_written;

/* What is written, in memory that is allocated once. */
struct out {
    unsigned char *bytes;
    size_t len;
};

static void put(struct out *out, bytes from, bytes to) {
    memcpy(out->bytes + out->len, from, (size_t)(to - from));
    out->len += (size_t)(to - from);
}

static size_t finish(struct out *out) {
    if (hand_written != NULL) {
        memcpy(hand_written, out->bytes, out->len);
    }
    free(out->bytes);
    return out->len;
}

/* A result that occurs unchanged in the text. */
static size_t lend(bytes from, bytes to) {
    size_t len = (size_t)(to - from);
    if (hand_written != NULL && len > 0) {
        memcpy(hand_written, from, len);
    }
    return len;
}

/* UTF-8 (RFC 3629, section 4). */

static int continues(unsigned char byte) { return (byte & 0xc0) == 0x80; }

/* The length of the character that begins here, or 0 if none does. */
static size_t character(bytes at, bytes end) {
    unsigned char first = at[0];
    size_t len = first < 0x80 ? 1 : first < 0xc2 ? 0 : first < 0xe0 ? 2 : first < 0xf0 ? 3 : first < 0xf5 ? 4 : 0;
    if (len == 0 || (size_t)(end - at) < len) {
        return 0;
    }
    for (size_t i = 1; i < len; i++) {
        if (!continues(at[i])) {
            return 0;
        }
    }
    if ((first == 0xe0 && at[1] < 0xa0) || (first == 0xed && at[1] > 0x9f) || (first == 0xf0 && at[1] < 0x90) ||
        (first == 0xf4 && at[1] > 0x8f)) {
        return 0;
    }
    return len;
}

static int is_utf8(bytes at, bytes end) {
    while (at < end) {
        uint64_t eight;
        while (end - at >= 8 && (memcpy(&eight, at, 8), (eight & 0x8080808080808080) == 0)) {
            at += 8;
        }
        if (at < end) {
            size_t len = character(at, end);
            if (len == 0) {
                return 0;
            }
            at += len;
        }
    }
    return 1;
}

/* Whether these bytes are a character of White_Space (Unicode, PropList.txt). */
static int is_white(bytes at, size_t len) {
    if (len == 1) {
        return at[0] == ' ' || (at[0] >= 0x09 && at[0] <= 0x0d);
    }
    if (len == 2) {
        return at[0] == 0xc2 && (at[1] == 0x85 || at[1] == 0xa0);
    }
    return len == 3 && ((at[0] == 0xe1 && at[1] == 0x9a && at[2] == 0x80) ||
                        (at[0] == 0xe2 && at[1] == 0x80 && (at[2] <= 0x8a || at[2] == 0xa8 || at[2] == 0xa9 || at[2] == 0xaf)) ||
                        (at[0] == 0xe2 && at[1] == 0x81 && at[2] == 0x9f) || (at[0] == 0xe3 && at[1] == 0x80 && at[2] == 0x80));
}

/* Sequences (ECMA-48, sections 5.4 and 5.6, and ECMA-35, section 13). */

/* The next ESC, or the end. */
static bytes text_end(bytes at, bytes end) {
    bytes found = memchr(at, ESC, (size_t)(end - at));
    return found == NULL ? end : found;
}

static bytes past(bytes at, bytes end, unsigned char low, unsigned char high) {
    while (at < end && *at >= low && *at <= high) {
        at++;
    }
    return at;
}

/* The end of the sequence that begins with this ESC, and whether it is an SGR. An ESC alone is one byte. */
static bytes sequence_end(bytes at, bytes end, int *is_sgr) {
    bytes lone = at + 1;
    *is_sgr = 0;
    if (lone == end) {
        return lone;
    }
    at = lone + 1;
    if (*lone == '[') {
        bytes parameters_end = past(at, end, 0x30, 0x3f), final = past(parameters_end, end, 0x20, 0x2f);
        if (final == end || *final < 0x40 || *final > 0x7e) {
            return lone;
        }
        *is_sgr = *final == 'm' && final == parameters_end && (at == final || *at < 0x3c);
        return final + 1;
    }
    if (*lone == 'P' || *lone == 'X' || *lone == ']' || *lone == '^' || *lone == '_') {
        while (at < end && *at != ESC && !(*lone == ']' && *at == BEL)) {
            at++;
        }
        if (at == end) {
            return lone;
        }
        return *at == BEL ? at + 1 : at + 1 < end && at[1] == '\\' ? at + 2 : lone;
    }
    at = past(lone, end, 0x20, 0x2f);
    return at < end && *at >= 0x30 && *at <= 0x7e ? at + 1 : lone;
}

/* Styles (ECMA-48, section 8.3.117). */

enum {
    BOLD = 1 << 0, FAINT = 1 << 1, ITALIC = 1 << 2, UNDERLINE = 1 << 3, SLOW = 1 << 4, RAPID = 1 << 5, INVERSE = 1 << 6,
    HIDE = 1 << 7, CROSSED = 1 << 8, FRAKTUR = 1 << 9, DOUBLE = 1 << 10, PROPORTIONAL = 1 << 11, FRAMED = 1 << 12,
    ENCIRCLED = 1 << 13, OVERLINED = 1 << 14, IDEOGRAM = 31 << 15, SUPER = 1 << 20, SUB = 1 << 21, FONT = 1 << 22,
    FOREGROUND = 1 << 23, BACKGROUND = 1 << 24, UNDERLINE_COLOR = 1 << 25, RESET = 1 << 26, UNKNOWN = 1 << 27
};

/* What is set. A cut needn't know which color or font is set, since all close alike. */
typedef uint32_t style;

static const struct {
    unsigned char code;
    style set, cleared;
} ROWS[] = {
    {1, BOLD, 0}, {2, FAINT, 0}, {3, ITALIC, 0}, {4, UNDERLINE, 0}, {5, SLOW, 0}, {6, RAPID, 0}, {7, INVERSE, 0}, {8, HIDE, 0},
    {9, CROSSED, 0}, {10, 0, FONT}, {20, FRAKTUR, 0}, {21, DOUBLE, 0}, {22, 0, BOLD | FAINT}, {23, 0, ITALIC | FRAKTUR},
    {24, 0, UNDERLINE | DOUBLE}, {25, 0, SLOW | RAPID}, {26, PROPORTIONAL, 0}, {27, 0, INVERSE}, {28, 0, HIDE}, {29, 0, CROSSED},
    {39, 0, FOREGROUND}, {49, 0, BACKGROUND}, {50, 0, PROPORTIONAL}, {51, FRAMED, 0}, {52, ENCIRCLED, 0}, {53, OVERLINED, 0},
    {54, 0, FRAMED | ENCIRCLED}, {55, 0, OVERLINED}, {59, 0, UNDERLINE_COLOR}, {60, 1 << 15, 0}, {61, 1 << 16, 0},
    {62, 1 << 17, 0}, {63, 1 << 18, 0}, {64, 1 << 19, 0}, {65, 0, IDEOGRAM}, {73, SUPER, 0}, {74, SUB, 0}, {75, 0, SUPER | SUB},
};

/* The bits that each code sets and clears, computed once from the rows. */
static struct {
    style set, cleared;
} table[256];

static void make_table(void) {
    for (unsigned code = 0; code < 256; code++) {
        int is_foreground = (code >= 30 && code <= 37) || (code >= 90 && code <= 97);
        int is_background = (code >= 40 && code <= 47) || (code >= 100 && code <= 107);
        table[code].set = is_foreground ? FOREGROUND : is_background ? BACKGROUND : code >= 11 && code <= 19 ? FONT : UNKNOWN;
        table[code].cleared = 0;
    }
    table[0].set = RESET;
    table[0].cleared = UINT32_MAX;
    for (size_t i = 0; i < sizeof ROWS / sizeof ROWS[0]; i++) {
        table[ROWS[i].code].set = ROWS[i].set;
        table[ROWS[i].code].cleared = ROWS[i].cleared;
    }
}

/* The next field as a number, or 256 if it isn't one; after the last, `*at` is past `end`. */
static unsigned field(bytes *at, bytes end) {
    unsigned number = 0;
    for (; *at < end && **at != ';'; ++*at) {
        unsigned digit = **at - (unsigned)'0';
        number = digit < 10 && number < 256 ? 10 * number + digit : 256;
    }
    ++*at;
    return number < 256 ? number : 256;
}

/* Passes over the fields of a color, and returns whether they make one. */
static int is_color(bytes *at, bytes end) {
    if (*at > end) {
        return 0;
    }
    unsigned selector = field(at, end);
    int numbers = selector == 5 ? 1 : selector == 2 ? 3 : 0;
    for (int i = 0; i < numbers; i++) {
        if (*at > end) {
            return 0;
        }
        field(at, end);
    }
    return numbers > 0;
}

static style after_sgr(style s, bytes parameters, bytes end) {
    while (parameters <= end) {
        unsigned code = field(&parameters, end);
        if (code == 38 || code == 48 || code == 58) {
            style color = code == 38 ? FOREGROUND : code == 48 ? BACKGROUND : UNDERLINE_COLOR;
            s |= is_color(&parameters, end) ? color : 0;
        } else if (code == 256) {
            s |= UNKNOWN;
        } else {
            s = (s & ~table[code].cleared) | table[code].set;
        }
    }
    return s;
}

/* What closes a style, in the order in which it is written. */
static const struct {
    style any;
    unsigned char len;
    char sequence[6];
} CLOSES[] = {
    {FONT, 5, "\x1b[10m"}, {BOLD | FAINT, 5, "\x1b[22m"}, {ITALIC | FRAKTUR, 5, "\x1b[23m"}, {UNDERLINE | DOUBLE, 5, "\x1b[24m"},
    {SLOW | RAPID, 5, "\x1b[25m"}, {INVERSE, 5, "\x1b[27m"}, {HIDE, 5, "\x1b[28m"}, {CROSSED, 5, "\x1b[29m"},
    {FOREGROUND, 5, "\x1b[39m"}, {BACKGROUND, 5, "\x1b[49m"}, {PROPORTIONAL, 5, "\x1b[50m"}, {FRAMED | ENCIRCLED, 5, "\x1b[54m"},
    {OVERLINED, 5, "\x1b[55m"}, {IDEOGRAM, 5, "\x1b[65m"}, {UNDERLINE_COLOR, 5, "\x1b[59m"}, {SUPER | SUB, 5, "\x1b[75m"},
    {UNKNOWN, 4, "\x1b[0m"},
};

static void put_close(struct out *out, style s) {
    if ((s & ~(style)RESET) == 0) {
        return;
    }
    if ((s & RESET) != 0 && (s & UNKNOWN) != 0) {
        put(out, (bytes)"\x1b[0m", (bytes)"\x1b[0m" + 4);
    }
    for (size_t i = 0; i < sizeof CLOSES / sizeof CLOSES[0]; i++) {
        if ((s & CLOSES[i].any) != 0) {
            put(out, (bytes)CLOSES[i].sequence, (bytes)CLOSES[i].sequence + CLOSES[i].len);
        }
    }
}

/* The calls. */

static int is_begun(bytes text, bytes end) {
    if (table[0].set == 0) {
        make_table();
    }
    return is_utf8(text, end);
}

/* Writes the sequences of what is left. */
static void put_sequences(struct out *out, bytes at, bytes end) {
    int is_sgr;
    while ((at = text_end(at, end)) < end) {
        bytes next = sequence_end(at, end, &is_sgr);
        put(out, at, next);
        at = next;
    }
}

size_t hand_trim(const char *text, size_t len) {
    bytes at = (bytes)text, end = at + len, first = NULL, last = NULL;
    if (!is_begun(at, end)) {
        return SIZE_MAX;
    }
    int is_plain = text_end(at, end) == end, is_sgr;
    struct out out = {is_plain ? NULL : malloc(len), 0};
    while (at < end) {
        if (*at == ESC) {
            bytes next = sequence_end(at, end, &is_sgr);
            if (first == NULL) {
                put(&out, at, next);
            }
            at = next;
            continue;
        }
        bytes begin = at, run_end = text_end(at, end);
        for (size_t n = 0; first == NULL && at < run_end; at += n) {
            n = character(at, run_end);
            if (!is_white(at, n)) {
                first = at;
                break;
            }
        }
        for (bytes to = run_end; first != NULL && to > begin;) {
            bytes from = to - 1;
            while (continues(*from)) {
                from--;
            }
            if (!is_white(from, (size_t)(to - from))) {
                last = to;
                break;
            }
            to = from;
        }
        at = run_end;
    }
    if (is_plain) {
        return first == NULL ? 0 : lend(first, last);
    }
    if (first != NULL) {
        put(&out, first, last);
        put_sequences(&out, last, end);
    }
    return finish(&out);
}

size_t hand_strip_prefix(const char *text, size_t len, const char *pattern, size_t pattern_len) {
    bytes at = (bytes)text, end = at + len, p = (bytes)pattern, p_end = p + pattern_len;
    if (!is_begun(p, p_end) || !is_utf8(at, end)) {
        return SIZE_MAX;
    }
    if (pattern_len == 0) {
        return lend(at, end);
    }
    if (text_end(at, end) == end) {
        return len >= pattern_len && memcmp(at, p, pattern_len) == 0 ? lend(at + pattern_len, end) : SIZE_MAX;
    }
    struct out out = {NULL, 0};
    int is_sgr;
    /* the sequences before the last byte of the prefix are few, so they are written once all of it is found */
    bytes begin = at;
    while (p < p_end) {
        if (at == end || (*at != ESC && *at != *p)) {
            return SIZE_MAX;
        }
        if (*at == ESC) {
            at = sequence_end(at, end, &is_sgr);
        } else {
            at++;
            p++;
        }
    }
    out.bytes = malloc(len);
    put_sequences(&out, begin, at);
    put(&out, at, end);
    return finish(&out);
}

size_t hand_strip_suffix(const char *text, size_t len, const char *pattern, size_t pattern_len) {
    enum { FEW = 64 };
    bytes at = (bytes)text, end = at + len, p = (bytes)pattern;
    if (!is_begun(p, p + pattern_len) || !is_utf8(at, end)) {
        return SIZE_MAX;
    }
    if (pattern_len == 0) {
        return lend(at, end);
    }
    if (text_end(at, end) == end) {
        int is_there = len >= pattern_len && memcmp(end - pattern_len, p, pattern_len) == 0;
        return is_there ? lend(at, end - pattern_len) : SIZE_MAX;
    }
    /* the runs of text; the last ones are compared backward */
    struct run {
        bytes begin, end;
    } few[FEW], *runs = few;
    size_t count = 0, room = FEW;
    int is_sgr;
    while (at < end) {
        if (*at == ESC) {
            at = sequence_end(at, end, &is_sgr);
            continue;
        }
        if (count == room) {
            struct run *more = malloc(2 * room * sizeof *more);
            memcpy(more, runs, room * sizeof *more);
            if (runs != few) {
                free(runs);
            }
            runs = more;
            room *= 2;
        }
        runs[count].begin = at;
        at = runs[count++].end = text_end(at, end);
    }
    size_t left = pattern_len;
    bytes cut = NULL;
    while (left > 0 && count > 0) {
        struct run run = runs[--count];
        size_t same = (size_t)(run.end - run.begin) < left ? (size_t)(run.end - run.begin) : left;
        cut = run.end - same;
        if (memcmp(cut, p + left - same, same) != 0) {
            break;
        }
        left -= same;
    }
    if (runs != few) {
        free(runs);
    }
    if (left > 0) {
        return SIZE_MAX;
    }
    struct out out = {malloc(len), 0};
    put(&out, (bytes)text, cut);
    put_sequences(&out, cut, end);
    return finish(&out);
}

size_t hand_cut(const char *text, size_t len, size_t start, size_t stop) {
    bytes at = (bytes)text, end = at + len, kept = NULL;
    if (!is_begun(at, end) || stop < start) {
        return SIZE_MAX;
    }
    if (text_end(at, end) == end) {
        start = start < len ? start : len;
        stop = stop < len ? stop : len;
        int is_good = (start == len || !continues(at[start])) && (stop == len || !continues(at[stop]));
        return is_good ? lend(at + start, at + stop) : SIZE_MAX;
    }
    struct out out = {malloc(len + LONGEST_CLOSE), 0};
    style s = 0;
    int is_sgr;
    size_t place = 0;
    while (at < end) {
        if (*at == ESC) {
            bytes next = sequence_end(at, end, &is_sgr);
            if (is_sgr) {
                s = after_sgr(s, at + 2, next - 1);
            }
            if (kept == NULL) {
                put(&out, at, next);
            }
            at = next;
            continue;
        }
        bytes run_end = text_end(at, end);
        size_t run = (size_t)(run_end - at);
        if (kept == NULL && start - place < run) {
            kept = at + (start - place);
            if (continues(*kept)) {
                free(out.bytes);
                return SIZE_MAX;
            }
        }
        if (stop - place < run) {
            end = at + (stop - place);
            if (continues(*end)) {
                free(out.bytes);
                return SIZE_MAX;
            }
            break;
        }
        place += run;
        at = run_end;
    }
    if (kept != NULL) {
        put(&out, kept, end);
    }
    put_close(&out, s);
    return finish(&out);
}

size_t hand_blocks(const char *text, size_t len) {
    bytes at = (bytes)text, end = at + len, begin = at;
    if (!is_begun(at, end)) {
        return SIZE_MAX;
    }
    style s = 0;
    int is_sgr, is_awaited = 0;
    size_t all = 0;
    while (at < end) {
        if (*at == ESC) {
            bytes next = sequence_end(at, end, &is_sgr);
            if (is_sgr) {
                s = after_sgr(s, at + 2, next - 1);
            }
            is_awaited |= !is_sgr;
            at = next;
            continue;
        }
        bytes run_end = text_end(at, end);
        if (is_awaited) {
            struct out out = {malloc((size_t)(run_end - begin)), 0};
            while (begin < at) {
                bytes next = sequence_end(begin, at, &is_sgr);
                if (!is_sgr) {
                    put(&out, begin, next);
                }
                begin = next;
            }
            put(&out, at, run_end);
            all += finish(&out);
        } else {
            all += (size_t)(run_end - at);
        }
        is_awaited = 0;
        at = begin = run_end;
    }
    /* so that the compiler keeps the styles */
    volatile style last = s;
    (void)last;
    return all;
}
