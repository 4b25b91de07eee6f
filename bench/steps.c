/* For measurement only, by `steps`: one reader of texts with ANSI sequences, and calls on columns as folds over its steps. */
#include "steps.h"
#include "singles.h"
#include <emmintrin.h>

#define INLINE static inline __attribute__((always_inline))
#define APART static __attribute__((noinline))

enum { ESC = 0x1b, BEL = 0x07, MOST_CLOSE = 96, LEFT_OUT = 3, WRONG = 4 };

typedef const unsigned char *bytes;

/* Blocks of 16 bytes. */

INLINE __m128i load16(bytes p) { return _mm_loadu_si128((const __m128i *)(const void *)p); }
INLINE uint64_t load8(bytes p) { uint64_t x; memcpy(&x, p, 8); return x; }
INLINE uint32_t load4(bytes p) { uint32_t x; memcpy(&x, p, 4); return x; }

/* A bit for each byte that isn't printable ASCII. */
INLINE unsigned others(__m128i x) {
    __m128i y = _mm_sub_epi8(x, _mm_set1_epi8(0x20));
    return (unsigned)_mm_movemask_epi8(_mm_cmpeq_epi8(_mm_max_epu8(y, _mm_set1_epi8(0x5f)), y));
}

/* Fewer than 16 bytes, and zeros after them. */
INLINE __m128i load_few(bytes p, size_t n) {
    if (n >= 8) {
        return _mm_set_epi64x((int64_t)(n == 8 ? 0 : load8(p + n - 8) >> 8 * (16 - n)), (int64_t)load8(p));
    }
    uint64_t x = n >= 4 ? load4(p) | (uint64_t)load4(p + n - 4) << 8 * (n - 4)
                        : n ? p[0] | (uint64_t)p[n / 2] << 8 * (n / 2) | (uint64_t)p[n - 1] << 8 * (n - 1) : 0;
    return _mm_cvtsi64_si128((int64_t)x);
}

/* UTF-8 (RFC 3629, section 4). */
APART int is_utf8(bytes p, bytes end) {
    while (p < end) {
        while (end - p >= 16) {
            unsigned high = (unsigned)_mm_movemask_epi8(load16(p));
            if (high) {
                p += __builtin_ctz(high);
                goto character;
            }
            p += 16;
        }
        while (p < end && *p < 0x80) p++;
        if (p == end) return 1;
    character:;
        size_t left = (size_t)(end - p);
        do {
            unsigned a = p[0];
            if (a < 0xe0) {
                if (a < 0xc2 || left < 2 || (p[1] & 0xc0) != 0x80) return 0;
                p += 2, left -= 2;
            } else if (a < 0xf0) {
                if (left < 3 || (p[1] & 0xc0) != 0x80 || (p[2] & 0xc0) != 0x80 || (a == 0xe0 && p[1] < 0xa0) || (a == 0xed && p[1] > 0x9f)) return 0;
                p += 3, left -= 3;
            } else {
                if (a > 0xf4 || left < 4 || (p[1] & 0xc0) != 0x80 || (p[2] & 0xc0) != 0x80 || (p[3] & 0xc0) != 0x80 ||
                    (a == 0xf0 && p[1] < 0x90) || (a == 0xf4 && p[1] > 0x8f)) return 0;
                p += 4, left -= 4;
            }
        } while (left && *p >= 0x80);
    }
    return 1;
}

/* Styles: bits 0 to 21 and the colors as in ansi_str.h; RESET and UNKNOWN; the font less 10 in four bits. */

enum {
    BOLD = 1 << 0, FAINT = 1 << 1, ITALIC = 1 << 2, UNDERLINE = 1 << 3, DOUBLE = 1 << 4, SLOW = 1 << 5, RAPID = 1 << 6, INVERSE = 1 << 7,
    HIDE = 1 << 8, CROSSED = 1 << 9, FRAMED = 1 << 10, ENCIRCLED = 1 << 11, FRAKTUR = 1 << 12, PROPORTIONAL = 1 << 13, OVERLINED = 1 << 14,
    IDEOGRAM = 31 << 15, SUPER = 1 << 20, SUB = 1 << 21, RESET = 1 << 22, UNKNOWN = 1 << 23, FONT = 15 << 24,
    NAMED = 1 << 24, FIXED = 2 << 24, RGB = 3 << 24
};

struct style { uint32_t set, fore, back, under; };
struct pen { struct style style; bytes link; size_t link_len; };

INLINE int is_plain(const struct style *s) { return !((s->set & ~(uint32_t)RESET) | s->fore | s->back | s->under); }

INLINE void apply(struct style *s, unsigned code) {
    switch (code) {
    case 0: *s = (struct style){RESET, 0, 0, 0}; break;
    case 1: s->set |= BOLD; break;
    case 2: s->set |= FAINT; break;
    case 3: s->set |= ITALIC; break;
    case 4: s->set |= UNDERLINE; break;
    case 5: s->set |= SLOW; break;
    case 6: s->set |= RAPID; break;
    case 7: s->set |= INVERSE; break;
    case 8: s->set |= HIDE; break;
    case 9: s->set |= CROSSED; break;
    case 10: s->set &= ~(uint32_t)FONT; break;
    case 11 ... 19: s->set = (s->set & ~(uint32_t)FONT) | (code - 10) << 24; break;
    case 20: s->set |= FRAKTUR; break;
    case 21: s->set |= DOUBLE; break;
    case 22: s->set &= ~(uint32_t)(BOLD | FAINT); break;
    case 23: s->set &= ~(uint32_t)(ITALIC | FRAKTUR); break;
    case 24: s->set &= ~(uint32_t)(UNDERLINE | DOUBLE); break;
    case 25: s->set &= ~(uint32_t)(SLOW | RAPID); break;
    case 26: s->set |= PROPORTIONAL; break;
    case 27: s->set &= ~(uint32_t)INVERSE; break;
    case 28: s->set &= ~(uint32_t)HIDE; break;
    case 29: s->set &= ~(uint32_t)CROSSED; break;
    case 30 ... 37: case 90 ... 97: s->fore = NAMED | code; break;
    case 39: s->fore = 0; break;
    case 40 ... 47: case 100 ... 107: s->back = NAMED | code; break;
    case 49: s->back = 0; break;
    case 50: s->set &= ~(uint32_t)PROPORTIONAL; break;
    case 51: s->set |= FRAMED; break;
    case 52: s->set |= ENCIRCLED; break;
    case 53: s->set |= OVERLINED; break;
    case 54: s->set &= ~(uint32_t)(FRAMED | ENCIRCLED); break;
    case 55: s->set &= ~(uint32_t)OVERLINED; break;
    case 59: s->under = 0; break;
    case 60 ... 64: s->set |= 1u << (15 + code - 60); break;
    case 65: s->set &= ~(uint32_t)IDEOGRAM; break;
    case 73: s->set |= SUPER; break;
    case 74: s->set |= SUB; break;
    case 75: s->set &= ~(uint32_t)(SUPER | SUB); break;
    default: s->set |= UNKNOWN;
    }
}

/* The next field as a number, or 1000 if it isn't one up to 999; `after` is the byte after it, which is passed too. If that is past the end, or
   isn't ';' or 'm', `at` is NULL. */
struct field { bytes at; unsigned number, after; };

APART struct field any_field(bytes p, bytes end) {
    unsigned n = 0, d;
    for (;;) {
        if (p == end) return (struct field){NULL, 0, 0};
        d = *p++;
        if (d - '0' >= 10) break;
        n = 10 * n + d - '0';
        if (n > 999) n = 1000;
    }
    if (d != ';' && d != 'm') {
        while (p < end && d >= 0x30 && d < 0x40 && d != ';') d = *p++;
        if (d != ';' && d != 'm') return (struct field){NULL, 0, 0};
        n = 1000;
    }
    return (struct field){p, n, d};
}

INLINE struct field field(bytes p, bytes end) {
    unsigned n = 0, d, i = 0;
    if (end - p >= 4) {
        if ((d = p[0] - (unsigned)'0') < 10) {
            n = d, i = 1;
            if ((d = p[1] - (unsigned)'0') < 10) {
                n = 10 * n + d, i = 2;
                if ((d = p[2] - (unsigned)'0') < 10) n = 10 * n + d, i = 3;
            }
        }
        d = p[i];
        if (d == 'm' || d == ';') return (struct field){p + i + 1, n, d};
    }
    return any_field(p, end);
}

/* The style after the SGR whose parameters begin here, and its end; NULL if it is none. */
APART bytes apply_all(struct style *style, bytes p, bytes end) {
    struct style s = *style;
    struct field f = {p, 0, 0};
    do {
        f = field(f.at, end);
        if (!f.at) return NULL;
        unsigned code = f.number;
        if (code != 38 && code != 48 && code != 58) {
            apply(&s, code);
            continue;
        }
        if (f.after == 'm') break;
        f = field(f.at, end);
        if (!f.at) return NULL;
        unsigned selector = f.number, left = selector == 5 ? 1 : selector == 2 ? 3 : 0, color = 0;
        if (!left) continue;
        for (; left && f.after != 'm'; left--) {
            f = field(f.at, end);
            if (!f.at) return NULL;
            color = color << 8 | (f.number < 256 ? f.number : 0);
        }
        if (left) break;
        color = selector == 5 ? (unsigned)FIXED | color << 16 : (unsigned)RGB | color;
        *(code == 38 ? &s.fore : code == 48 ? &s.back : &s.under) = color;
    } while (f.after != 'm');
    *style = s;
    return f.at;
}

INLINE unsigned char *put_code(unsigned char *to, unsigned code) {
    memcpy(to, "\x1b[", 2), to += 2;
    if (code >= 100) *to++ = '1', code -= 100, *to++ = (unsigned char)('0' + code / 10);
    else if (code >= 10) *to++ = (unsigned char)('0' + code / 10);
    *to++ = (unsigned char)('0' + code % 10), *to++ = 'm';
    return to;
}

static const struct { uint32_t bit; unsigned char code; } STARTS[] = {
    {BOLD, 1}, {FAINT, 2}, {ITALIC, 3}, {UNDERLINE, 4}, {SLOW, 5}, {RAPID, 6}, {INVERSE, 7}, {HIDE, 8}, {CROSSED, 9}, {FONT, 0}, {FRAKTUR, 20},
    {DOUBLE, 21}, {PROPORTIONAL, 26}, {0, 0}, {FRAMED, 51}, {ENCIRCLED, 52}, {OVERLINED, 53}, {1 << 15, 60}, {1 << 16, 61}, {1 << 17, 62},
    {1 << 18, 63}, {1 << 19, 64}, {SUPER, 73}, {SUB, 74},
}, CLOSES[] = {
    {FONT, 10}, {BOLD | FAINT, 22}, {ITALIC | FRAKTUR, 23}, {UNDERLINE | DOUBLE, 24}, {SLOW | RAPID, 25}, {INVERSE, 27}, {HIDE, 28}, {CROSSED, 29},
    {0, 0}, {PROPORTIONAL, 50}, {FRAMED | ENCIRCLED, 54}, {OVERLINED, 55}, {IDEOGRAM, 65}, {0, 1}, {SUPER | SUB, 75}, {UNKNOWN, 0},
};

static unsigned char *put_color(unsigned char *to, uint32_t color, unsigned code) {
    unsigned n[3] = {color >> 16 & 255, color >> 8 & 255, color & 255};
    if (!color) return to;
    if (color >> 24 == 1) return put_code(to, color & 255);
    to = put_code(to, code) - 1;
    *to++ = ';', *to++ = color >> 24 == 2 ? '5' : '2';
    for (int i = 0; i < (color >> 24 == 2 ? 1 : 3); i++) {
        *to++ = ';';
        if (n[i] >= 100) *to++ = (unsigned char)('0' + n[i] / 100);
        if (n[i] >= 10) *to++ = (unsigned char)('0' + n[i] / 10 % 10);
        *to++ = (unsigned char)('0' + n[i] % 10);
    }
    *to++ = 'm';
    return to;
}

/* What opens a style: at most 163 bytes. */
APART unsigned char *put_start(unsigned char *to, const struct style *s) {
    uint32_t set = s->set & ~(uint32_t)(RESET | UNKNOWN);
    for (size_t i = 0; set && i < 13; i++) {
        if (set & STARTS[i].bit) {
            to = put_code(to, i == 9 ? 10 + (set >> 24 & 15) : STARTS[i].code);
            set &= ~STARTS[i].bit;
        }
    }
    to = put_color(to, s->fore, 38);
    to = put_color(to, s->back, 48);
    to = put_color(to, s->under, 58);
    for (size_t i = 14; set && i < 24; i++) {
        if (set & STARTS[i].bit) {
            to = put_code(to, STARTS[i].code);
            set &= ~STARTS[i].bit;
        }
    }
    return to;
}

/* What closes a pen that isn't plain: at most 95 bytes. */
APART unsigned char *put_close(unsigned char *to, const struct pen *pen) {
    const struct style *s = &pen->style;
    uint32_t set = s->set & ~(uint32_t)RESET;
    if (pen->link_len) memcpy(to, "\x1b]8;;\x1b\\", 7), to += 7;
    if (!(set & ~(uint32_t)(BOLD | FAINT))) {
        if (set) memcpy(to, "\x1b[22m", 5), to += 5;
        if (s->fore) memcpy(to, "\x1b[39m", 5), to += 5;
        if (s->back) memcpy(to, "\x1b[49m", 5), to += 5;
        if (s->under) memcpy(to, "\x1b[59m", 5), to += 5;
        return to;
    }
    if ((s->set & RESET) && (set & UNKNOWN)) to = put_code(to, 0);
    for (size_t i = 0; i < sizeof CLOSES / sizeof *CLOSES; i++) {
        if (set & CLOSES[i].bit) to = put_code(to, CLOSES[i].code);
        else if (i == 8 && s->fore) to = put_code(to, 39);
        if (i == 8 && s->back) to = put_code(to, 49);
        if (i == 13 && s->under) to = put_code(to, 59);
    }
    return to;
}

INLINE size_t close_of(const struct pen *pen, unsigned char *to) {
    return is_plain(&pen->style) && !pen->link_len ? 0 : (size_t)(put_close(to, pen) - to);
}

/* The reader. */

struct reader { bytes at, end, begin; };

/* What a text shows, step by step. */
enum kind {
    END,    /* nothing follows */
    RUN,    /* `count` characters, each a cluster of `size` bytes and `columns` columns */
    KEPT,   /* an SGR or a clean link, which has changed the pen */
    BLANK,  /* a byte that is replaced by a blank */
    FEED,   /* a line end */
    OUT,    /* something that is left out */
    NO_UTF8, STRANGE
};

struct step { bytes from; size_t count, size, columns; };

/* How many bytes of printable ASCII come next. */
INLINE size_t printable(const struct reader *r) {
    bytes p = r->at;
    for (; r->end - p >= 16; p += 16) {
        unsigned m = others(load16(p));
        if (m) return (size_t)(p - r->at) + (size_t)__builtin_ctz(m);
    }
    size_t left = (size_t)(r->end - p);
    unsigned m = r->end - r->begin >= 16 ? others(load16(r->end - 16)) >> (16 - left) | 1u << left : others(load_few(p, left));
    return (size_t)(p - r->at) + (size_t)__builtin_ctz(m);
}

/* A stretch of characters that aren't ASCII, of as many bytes and columns each; or one that isn't shown. */
INLINE enum kind characters(struct reader *r, struct step *s) {
    bytes p = r->at, end = r->end;
    unsigned v;
    if (*p < 0xe0) {
        if (*p < 0xc2 || end - p < 2 || (p[1] & 0xc0) != 0x80) return NO_UTF8;
        v = SINGLE[BLOCK_OF_2[p[0] - 0xc0] + p[1] - 0x80];
        p += 2;
        s->size = 2;
        if (v - 1 < 2) {
            while (end - p >= 2 && (p[0] & 0xe0) == 0xc0 && (p[1] & 0xc0) == 0x80 && SINGLE[BLOCK_OF_2[p[0] - 0xc0] + p[1] - 0x80] == v) p += 2;
            s->count = (size_t)(p - r->at) / 2;
        }
    } else {
        v = 0;
        for (;;) {
            uint32_t x;
            if (end - p >= 4) x = load4(p);
            else if (end - p == 3) x = p[0] | (uint32_t)p[1] << 8 | (uint32_t)p[2] << 16;
            else break;
            if ((x & 0xc0c0f0) != 0x8080e0) break;
            unsigned w = SINGLE[BLOCK[(p[0] << 6) + p[1] - (0xe0 << 6) - 0x80] + p[2] - 0x80];
            if (w != v) {
                if (p > r->at) break;
                v = w;
                if (w - 1 >= 2) {
                    p += 3;
                    break;
                }
            }
            p += 3;
        }
        if (p == r->at) return *p < 0xf0 ? NO_UTF8 : STRANGE;
        s->size = 3;
        s->count = (size_t)(p - r->at) / 3;
    }
    s->columns = v;
    r->at = p;
    return v - 1 < 2 ? RUN : v == LEFT_OUT ? OUT : v == WRONG ? NO_UTF8 : STRANGE;
}

/* The end of the sequence that begins with this ESC; ESC alone is one byte. */
APART bytes sequence_end(bytes at, bytes end) {
    bytes p = at + 1;
    if (p == end) return p;
    unsigned opener = *p;
    if (opener == '[') {
        for (p++; p < end && *p - 0x30u < 0x10; p++) {}
        for (; p < end && *p - 0x20u < 0x10; p++) {}
        return p < end && *p - 0x40u < 0x3f ? p + 1 : at + 1;
    }
    if (opener == ']' || opener == 'P' || opener == 'X' || opener == '^' || opener == '_') {
        for (p++; p < end && *p != ESC && !(opener == ']' && *p == BEL); p++) {}
        return p == end ? at + 1 : *p == BEL ? p + 1 : p + 1 < end && p[1] == '\\' ? p + 2 : at + 1;
    }
    for (; p < end && *p - 0x20u < 0x10; p++) {}
    return p < end && *p - 0x30u < 0x4f ? p + 1 : at + 1;
}

/* What any sequence but an SGR is. */
APART enum kind other_sequence(struct reader *r, struct pen *pen) {
    bytes at = r->at, end = sequence_end(at, r->end);
    r->at = end;
    if (end - at < 3 || at[1] == '[') return OUT;
    bytes body_end = end[-1] == BEL ? end - 1 : end - 2, address = NULL;
    if (end - at >= 6 && memcmp(at, "\x1b]8;", 4) == 0) {
        for (bytes p = at + 4; p < body_end && !address; p++) address = *p == ';' ? p + 1 : NULL;
    }
    if (address) {
        struct reader inside = {at + 4, body_end, r->begin};
        bool is_short = address - inside.at - 1 <= 253 && body_end - address <= 2083;
        if (is_short && (inside.at == body_end || printable(&inside) == (size_t)(body_end - inside.at))) {
            if (pen) pen->link = at, pen->link_len = address < body_end ? (size_t)(end - at) : 0;
            return KEPT;
        }
    }
    return is_utf8(at, end) ? OUT : NO_UTF8;
}

INLINE enum kind sequence(struct reader *r, struct pen *pen) {
    bytes at = r->at, end = r->end, p = at + 2;
    if (end - at >= 4 && load4(at) == 0x6d305b1b) {
        if (pen) pen->style = (struct style){RESET, 0, 0, 0};
        r->at = at + 4;
        return KEPT;
    }
    if (end - at >= 3 && at[1] == '[' && *p - 0x3cu >= 4) {
        if (pen) {
            p = apply_all(&pen->style, p, end);
        } else {
            while (p < end && *p - 0x30u < 0x10) p++;
            p = p < end && *p == 'm' ? p + 1 : NULL;
        }
        if (p) {
            r->at = p;
            return KEPT;
        }
    }
    return other_sequence(r, pen);
}

/* The next step. With `lines`, a line end is one; otherwise it is a blank. */
INLINE enum kind next(struct reader *r, struct step *s, struct pen *pen, int lines) {
    bytes at = s->from = r->at;
    if (at == r->end) return END;
    unsigned b = *at;
    if (b - 0x20u < 0x5f) {
        s->count = printable(r), s->size = s->columns = 1;
        r->at = at + s->count;
        return RUN;
    }
    if (b == ESC) return sequence(r, pen);
    if (b >= 0x80) return characters(r, s);
    r->at = at + 1, s->count = s->size = s->columns = 1;
    if (b == '\t') return BLANK;
    if (b == '\n') return lines ? FEED : BLANK;
    if (lines && b == '\r' && at + 1 < r->end && at[1] == '\n') {
        r->at = at + 2;
        return FEED;
    }
    return OUT;
}

INLINE struct reader reader_of(const char *text, size_t len) {
    bytes begin = (bytes)text;
    return (struct reader){begin, begin + len, begin};
}

/* Copies what is kept from `at` up to `end`, where something is replaced or left out; without `texts`, SGRs and links alone. */
APART unsigned char *copy_steps(unsigned char *to, bytes at, bytes end, bytes begin, int texts, int lines) {
    struct reader r = {at, end, begin};
    struct step s;
    for (;;) {
        enum kind kind = next(&r, &s, NULL, lines);
        if (kind == END) return to;
        if (kind == KEPT || (texts && kind == RUN)) {
            memcpy(to, s.from, (size_t)(r.at - s.from));
            to += r.at - s.from;
        } else if (texts && kind == BLANK) {
            *to++ = ' ';
        }
    }
}

static ansi_str_answer failed(enum kind kind) { return (ansi_str_answer){kind == NO_UTF8 ? ANSI_STR_NOT_UTF8 : STEPS_GAVE_UP, 0}; }

ansi_str_answer steps_width(const char *text, size_t len) {
    struct reader r = reader_of(text, len);
    struct step s;
    size_t columns = 0;
    for (;;) {
        enum kind kind = next(&r, &s, NULL, 0);
        switch (kind) {
        case END: return (ansi_str_answer){ANSI_STR_OK, columns};
        case RUN: case BLANK: columns += s.count * s.columns; break;
        case KEPT: case OUT: case FEED: break;
        default: return failed(kind);
        }
    }
}

/* The columns of a tail without sequences and controls. */
APART enum kind tail_columns(const char *tail, size_t len, size_t *columns) {
    struct reader r = reader_of(tail, len);
    struct step s;
    for (*columns = 0;;) {
        enum kind kind = next(&r, &s, NULL, 0);
        if (kind == END || kind == NO_UTF8) return kind;
        if (kind != RUN) return STRANGE;
        *columns += s.count * s.columns;
    }
}

/* Whether a text is printable ASCII alone, so that its first step is the last. */
INLINE int is_bare(const char *text, size_t len) {
    struct reader r = reader_of(text, len);
    return len && *text != ESC && printable(&r) == len;
}

APART ansi_str_answer take_steps(const char *text, size_t len, size_t width, const char *tail, size_t tail_len, int is_filled, char *buffer, size_t room) {
    struct reader r = reader_of(text, len);
    struct pen pen = {{0}, NULL, 0}, cut_pen;
    struct step s;
    size_t tail_width = 1;
    enum kind kind;
    if ((tail_len != 3 || memcmp(tail, "\xe2\x80\xa6", 3) != 0) && (kind = tail_columns(tail, tail_len, &tail_width)) != END) return failed(kind);
    if (tail_width > width) tail_len = tail_width = 0;
    /* how many columns fit beside the tail; what was read so far; and where it is cut, if more doesn't fit */
    const size_t beside = width - tail_width;
    size_t columns = 0, dropped = 0, cut_columns = 0, cut_dropped = 0;
    int changed = 0, cut_changed = 0;
    bytes cut = NULL;
    for (;;) {
        kind = next(&r, &s, &pen, 0);
        switch (kind) {
        case BLANK:
        case RUN: {
            size_t more = columns + s.count * s.columns;
            if (more > beside) {
                if (!cut) {
                    size_t fit = (beside - columns) >> (s.columns - 1);
                    cut = s.from + fit * s.size;
                    cut_columns = columns + (fit << (s.columns - 1)), cut_dropped = dropped, cut_changed = changed, cut_pen = pen;
                }
                if (more > width) goto read;
            }
            columns = more;
            changed |= kind == BLANK;
            break;
        }
        case OUT: dropped += (size_t)(r.at - s.from); break;
        case KEPT: case FEED: break;
        case END: cut = r.end, cut_columns = columns, cut_dropped = dropped, cut_changed = changed, cut_pen = pen, tail_len = tail_width = 0; goto read;
        default: return failed(kind);
        }
    }
read:
    if (r.at < r.end && !is_utf8(r.at, r.end)) return failed(NO_UTF8);
    unsigned char close[MOST_CLOSE], *to = (unsigned char *)buffer;
    size_t close_len = close_of(&cut_pen, close), kept = (size_t)(cut - r.begin) - cut_dropped;
    size_t blanks = is_filled ? width - cut_columns - tail_width : 0, all = kept + close_len + tail_len + blanks;
    if (all > room) return (ansi_str_answer){ANSI_STR_TOO_SMALL, all};
    if (cut_changed | (cut_dropped > 0)) copy_steps(to, r.begin, cut, r.begin, 1, 0);
    else memcpy(to, r.begin, kept);
    to += kept;
    if (close_len) memcpy(to, close, close_len), to += close_len;
    if (tail_len == 3) memcpy(to, tail, 3), to += 3;
    else if (tail_len) memcpy(to, tail, tail_len), to += tail_len;
    if (blanks) memset(to, ' ', blanks);
    return (ansi_str_answer){ANSI_STR_OK, all};
}

INLINE ansi_str_answer take(const char *text, size_t len, size_t width, const char *tail, size_t tail_len, int is_filled, char *buffer, size_t room) {
    if (tail_len != 3 || memcmp(tail, "\xe2\x80\xa6", 3) != 0 || !width || !is_bare(text, len)) return take_steps(text, len, width, tail, tail_len, is_filled, buffer, room);
    int is_cut = len > width;
    size_t kept = is_cut ? width - 1 : len, all = is_cut ? width + 2 : is_filled ? width : len;
    if (all > room) return (ansi_str_answer){ANSI_STR_TOO_SMALL, all};
    memcpy(buffer, text, kept);
    if (is_cut) memcpy(buffer + kept, tail, 3);
    else if (all > kept) memset(buffer + kept, ' ', all - kept);
    return (ansi_str_answer){ANSI_STR_OK, all};
}

ansi_str_answer steps_truncate(const char *text, size_t len, size_t width, const char *tail, size_t tail_len, char *buffer, size_t room) {
    return take(text, len, width, tail, tail_len, 0, buffer, room);
}

ansi_str_answer steps_fit(const char *text, size_t len, size_t width, const char *tail, size_t tail_len, char *buffer, size_t room) {
    return take(text, len, width, tail, tail_len, 1, buffer, room);
}

APART ansi_str_answer slice_steps(const char *text, size_t len, size_t start, size_t end, char *buffer, size_t room) {
    struct reader r = reader_of(text, len);
    struct pen pen = {{0}, NULL, 0}, opened = {{0}, NULL, 0};
    struct step s;
    enum kind kind;
    size_t columns = 0, dropped = 0, before = 0, after = 0;
    int changed = 0;
    bytes from = start ? NULL : r.begin, to;
    if (end < start) end = start;
    for (;;) {
        kind = next(&r, &s, &pen, 0);
        switch (kind) {
        case BLANK:
        case RUN: {
            size_t more = columns + s.count * s.columns;
            if (!from && more > start) {
                size_t skipped = (start - columns) >> (s.columns - 1);
                from = s.from + skipped * s.size;
                if (columns + skipped * s.columns < start) before = 1, from += s.size;
                opened = pen, changed = 0, dropped = 0;
            }
            if (more > end) {
                size_t taken = end > columns ? (end - columns) >> (s.columns - 1) : 0;
                to = s.from + taken * s.size;
                after = end - columns - taken * s.columns;
                goto read;
            }
            changed |= kind == BLANK;
            columns = more;
            break;
        }
        case OUT: dropped += (size_t)(r.at - s.from); break;
        case KEPT: case FEED: break;
        case END: to = r.end; goto read;
        default: return failed(kind);
        }
    }
read:
    if (r.at < r.end && !is_utf8(r.at, r.end)) return failed(NO_UTF8);
    if (start == end || !from || (to == r.end && !columns)) return (ansi_str_answer){ANSI_STR_OK, 0};
    if (to < from) to = from, after = 0;
    unsigned char open[164], close[MOST_CLOSE], *out = (unsigned char *)buffer;
    size_t close_len = close_of(&pen, close), open_len = is_plain(&opened.style) ? 0 : (size_t)(put_start(open, &opened.style) - open);
    size_t kept = (size_t)(to - from) - dropped, all = open_len + opened.link_len + before + kept + after + close_len;
    if (all > room) return (ansi_str_answer){ANSI_STR_TOO_SMALL, all};
    if (open_len) memcpy(out, open, open_len), out += open_len;
    if (opened.link_len) memcpy(out, opened.link, opened.link_len), out += opened.link_len;
    if (before) *out++ = ' ';
    if (changed | (dropped > 0)) copy_steps(out, from, to, r.begin, 1, 0);
    else memcpy(out, from, kept);
    out += kept;
    if (after) *out++ = ' ';
    if (close_len) memcpy(out, close, close_len);
    return (ansi_str_answer){ANSI_STR_OK, all};
}

ansi_str_answer steps_slice(const char *text, size_t len, size_t start, size_t end, char *buffer, size_t room) {
    if (!is_bare(text, len)) return slice_steps(text, len, start, end, buffer, room);
    if (end > len) end = len;
    size_t n = start < end ? end - start : 0;
    if (n > room) return (ansi_str_answer){ANSI_STR_TOO_SMALL, n};
    if (n) memcpy(buffer, text + start, n);
    return (ansi_str_answer){ANSI_STR_OK, n};
}

/* Wraps. */

/* The lines that are written; how many bytes and lines there are is known if there is no room for them too. */
struct lines { unsigned char *buffer; size_t len, room, *ends, count, ends_room; };

/* A line: what it opens; where what it has begins, first sequences and then, from `start` on, its text; and where something was last changed. */
struct line { struct pen opened; bytes mark, start, changed, begin; };

APART void put(struct lines *out, bytes from, size_t n) {
    if (n <= out->room && out->len <= out->room - n) memcpy(out->buffer + out->len, from, n);
    out->len += n;
}

/* Writes what is kept between two places: sequences alone, or text too. */
APART void put_steps(struct lines *out, bytes from, bytes to, bytes begin, int texts) {
    struct reader r = {from, to, begin};
    struct step s;
    for (;;) {
        enum kind kind = next(&r, &s, NULL, 1);
        if (kind == END) return;
        if (kind == KEPT || (texts && kind == RUN)) put(out, s.from, (size_t)(r.at - s.from));
        else if (texts && kind == BLANK) put(out, (bytes)" ", 1);
    }
}

INLINE void put_marks(struct lines *out, bytes from, bytes to, bytes begin) {
    if (to - from > 1) put_steps(out, from, to, begin, 0);
}

/* Writes a line whose text ends at `end`, and the sequences from there up to `last`; it closes this pen. */
APART void put_line(struct lines *out, const struct line *line, bytes end, bytes last, const struct pen *pen) {
    unsigned char few[164];
    size_t front = out->len;
    if (!is_plain(&line->opened.style)) put(out, few, (size_t)(put_start(few, &line->opened.style) - few));
    if (line->opened.link_len) put(out, line->opened.link, line->opened.link_len);
    size_t body = out->len;
    put_marks(out, line->mark, line->start, line->begin);
    if (line->changed >= line->mark) put_steps(out, line->start, end, line->begin, 1);
    else if (end > line->start) put(out, line->start, (size_t)(end - line->start));
    put_marks(out, end, last, line->begin);
    if (out->len == body) {
        out->len = front;
    } else {
        size_t close_len = close_of(pen, few);
        if (close_len) put(out, few, close_len);
    }
    if (out->count < out->ends_room) out->ends[out->count] = out->len;
    out->count++;
}

/* One more than the index of the last blank of n bytes, or 0. */
INLINE size_t after_last_blank(bytes p, size_t n, const struct reader *r) {
    const __m128i blank = _mm_set1_epi8(' ');
    for (; n > 16; n -= 16) {
        unsigned m = (unsigned)_mm_movemask_epi8(_mm_cmpeq_epi8(load16(p + n - 16), blank));
        if (m) return n - 16 + 32 - (size_t)__builtin_clz(m);
    }
    if (r->end - p >= 16) {
        unsigned m = (unsigned)_mm_movemask_epi8(_mm_cmpeq_epi8(load16(p), blank)) & ((1u << n) - 1);
        return m ? 32 - (size_t)__builtin_clz(m) : 0;
    }
    while (n && p[n - 1] != ' ') n--;
    return n;
}

APART ansi_str_answers wrap_steps(const char *text, size_t len, size_t width, char *buffer, size_t room, size_t *ends, size_t ends_room) {
    struct reader r = reader_of(text, len);
    struct lines out = {(unsigned char *)buffer, 0, room, ends, 0, ends_room};
    struct line line = {{{0}, NULL, 0}, r.begin, r.begin, NULL, r.begin};
    struct pen pen = {{0}, NULL, 0}, gap_pen = {{0}, NULL, 0};
    struct step s;
    enum kind kind;
    /* the line's columns so far; where the words before its last blanks end, and the next word begins, if it has blanks */
    size_t columns = 0, word_columns = 0;
    bytes gap = NULL, word = NULL;
    int has_gap = 0, in_gap = 0, is_indent = 0, is_known = 0;
    if (!width) width = 1;
    for (;;) {
        kind = next(&r, &s, &pen, 1);
        switch (kind) {
        case BLANK:
            line.changed = s.from;
            if (!in_gap) gap = s.from, gap_pen = pen, is_indent = columns == 0;
            has_gap = in_gap = 1, columns++, word = r.at, word_columns = columns;
            break;
        case RUN: {
            bytes p = s.from;
            size_t left = s.count;
            const size_t wide = s.columns - 1;
            if (columns + (size_t)(r.end - p) <= width && r.at[-1] != ' ') {
                /* no line can end before the next line end */
                columns += left << wide, in_gap = 0;
                break;
            }
            do {
                /* how much is taken: what fits, and blanks after it */
                size_t fit = columns < width ? (width - columns) >> wide : 0;
                if (fit > left) fit = left;
                if (s.size == 1) {
                    while (fit < left && p[fit] == ' ') fit++;
                    size_t after = after_last_blank(p, fit, &r);
                    if (after) {
                        size_t first = after - 1;
                        while (first && p[first - 1] == ' ') first--;
                        if (first || !in_gap) gap = p + first, gap_pen = pen, is_indent = columns + first == 0;
                        has_gap = 1, in_gap = after == fit, word = p + after, word_columns = columns + after;
                    } else if (fit) {
                        in_gap = 0;
                    }
                } else if (fit) {
                    in_gap = 0;
                }
                columns += fit << wide, p += fit * s.size, left -= fit;
                if (!left) break;
                if (!columns) {
                    columns = s.columns, p += s.size, left--;
                } else {
                    if (!has_gap) gap = p, gap_pen = pen, word = p, word_columns = columns, is_indent = 0;
                    if (is_indent) {
                        line.start = word;
                    } else {
                        if (!is_known && !is_utf8(r.at, r.end)) return (ansi_str_answers){ANSI_STR_NOT_UTF8, 0, 0};
                        is_known = 1;
                        put_line(&out, &line, gap, gap, &gap_pen);
                        line.opened = gap_pen, line.mark = gap, line.start = word;
                    }
                    columns -= word_columns, has_gap = in_gap = 0;
                }
            } while (left);
            break;
        }
        case FEED:
            if (!is_known && !is_utf8(r.at, r.end)) return (ansi_str_answers){ANSI_STR_NOT_UTF8, 0, 0};
            is_known = 1;
            if (!in_gap) gap = s.from, gap_pen = pen;
            put_line(&out, &line, gap, gap, &gap_pen);
            line.opened = gap_pen, line.mark = gap, line.start = r.at;
            columns = 0, has_gap = in_gap = 0;
            break;
        case OUT: line.changed = s.from; break;
        case KEPT: break;
        case END:
            if (!out.count && !line.changed && !in_gap && line.start == r.begin && len + MOST_CLOSE <= room && ends_room) {
                memcpy(buffer, text, len);
                out.len = len + close_of(&pen, (unsigned char *)buffer + len);
                ends[0] = out.len;
                return (ansi_str_answers){ANSI_STR_OK, 1, out.len};
            }
            put_line(&out, &line, in_gap ? gap : r.end, r.end, &pen);
            return (ansi_str_answers){out.len <= room && out.count <= ends_room ? ANSI_STR_OK : ANSI_STR_TOO_SMALL, out.count, out.len};
        default: return (ansi_str_answers){kind == NO_UTF8 ? ANSI_STR_NOT_UTF8 : STEPS_GAVE_UP, 0, 0};
        }
    }
}

ansi_str_answers steps_wrap(const char *text, size_t len, size_t width, char *buffer, size_t room, size_t *ends, size_t ends_room) {
    if (len > width || len > room || !ends_room || !is_bare(text, len) || text[len - 1] == ' ') return wrap_steps(text, len, width, buffer, room, ends, ends_room);
    memcpy(buffer, text, len);
    ends[0] = len;
    return (ansi_str_answers){ANSI_STR_OK, 1, len};
}
