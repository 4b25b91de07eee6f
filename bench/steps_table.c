/* Prints singles.h: of each character of the BMP its columns, if the library says that it is a cluster by itself beside others. */
#include "ansi_str.h"
#include <stdio.h>
#include <string.h>

enum { LEFT_OUT = 3, WRONG = 4 };

static size_t put(unsigned c, char *to) {
    if (c < 0x80) { to[0] = (char)c; return 1; }
    if (c < 0x800) { to[0] = (char)(0xc0 | c >> 6); to[1] = (char)(0x80 | (c & 63)); return 2; }
    to[0] = (char)(0xe0 | c >> 12); to[1] = (char)(0x80 | (c >> 6 & 63)); to[2] = (char)(0x80 | (c & 63));
    return 3;
}
static size_t width(const char *t, size_t n) { return ansi_str_width(t, n).len; }
static size_t fitting(const char *t, size_t n, size_t w) { return ansi_str_fitting(t, n, w).len; }

/* Whether a cluster ends on both sides of c between two others, which have w1 and w2 columns. */
static int breaks(unsigned before, unsigned c, unsigned after) {
    char t[16], one[4], two[4];
    size_t a = put(before, t), b = a + put(c, t + a), n = b + put(after, t + b);
    size_t na = put(before, one), nb = put(c, two), wa = width(one, na), wc = width(two, nb);
    char three[4];
    size_t wz = width(three, put(after, three));
    return width(t, n) == wa + wc + wz && fitting(t, n, wa) == a && fitting(t, n, wa + wc) == b;
}

/* Scripts where no rule joins two characters; each character is asked for besides. */
static int is_asked(unsigned c) {
    static const unsigned ranges[][2] = {{0xa0, 0x52f}, {0x1e00, 0x1fff}, {0x2010, 0x2027}, {0x2030, 0x205e}, {0x20a0, 0x20cf}, {0x2100, 0x2bff},
                                         {0x2e80, 0xa4cf}, {0xac00, 0xd7a3}, {0xe000, 0xfaff}, {0xfe30, 0xfe6f}, {0xff00, 0xffee}};
    for (size_t i = 0; i < sizeof ranges / sizeof *ranges; i++)
        if (c >= ranges[i][0] && c <= ranges[i][1]) return 1;
    return 0;
}

static unsigned char value(unsigned c) {
    if (c < 0x80 || (c >= 0xd800 && c < 0xe000)) return WRONG;
    if (c < 0xa0 || (c >= 0x202a && c <= 0x202e) || (c >= 0x2066 && c <= 0x2069)) return LEFT_OUT;
    if (!is_asked(c)) return 0;
    char t[4];
    size_t w = width(t, put(c, t));
    if (w != 1 && w != 2) return 0;
    static const unsigned others[] = {'a', ' ', 0xe9, 0x416, 0x3042, 0x65e5, 0x2502, 0xd55c};
    for (size_t i = 0; i < sizeof others / sizeof *others; i++)
        if (!breaks(others[i], c, others[i]) || !breaks(c, c, others[i]) || !breaks(others[i], c, c)) return 0;
    return (unsigned char)w;
}

int main(void) {
    static unsigned char blocks[1024][64];
    unsigned char number[1024];
    size_t count = 0;
    unsigned singles[3] = {0};
    for (unsigned b = 0; b < 1024; b++) {
        unsigned char block[64];
        for (unsigned i = 0; i < 64; i++) {
            block[i] = value(b << 6 | i);
            if (block[i] < 3) singles[block[i]]++;
        }
        size_t at = 0;
        while (at < count && memcmp(blocks[at], block, 64)) at++;
        if (at == count) memcpy(blocks[count++], block, 64);
        number[b] = (unsigned char)at;
    }
    unsigned char two[32];
    memcpy(two, number, 32);
    memset(number, number[0], 32);
    printf("/* made by steps_table.c: %u of one column, %u of two; %zu blocks */\nstatic const unsigned short BLOCK_OF_2[32] = {", singles[1], singles[2], count);
    for (size_t i = 0; i < 32; i++) printf("%d,", two[i] * 64);
    printf("};\nstatic const unsigned short BLOCK[1024] = {");
    for (size_t i = 0; i < 1024; i++) printf("%s%d,", i % 32 ? "" : "\n", number[i] * 64);
    printf("\n};\nstatic const unsigned char SINGLE[%zu] = {", count * 64);
    for (size_t i = 0; i < count * 64; i++) printf("%s%d,", i % 64 ? "" : "\n", blocks[i / 64][i % 64]);
    printf("\n};\n");
    return count > 255;
}
