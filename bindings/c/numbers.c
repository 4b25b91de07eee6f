/* Checks each number of the header: it equals the one written here, and the library means the same by it. Exits with 1 if one
   doesn't. */
#include "ansi_str.h"

#include <stdio.h>
#include <stdlib.h>
#include <string.h>

/* Whether each allocation is refused. */
static int is_refusing = 0;

void *__real_malloc(size_t size);
void *__real_realloc(void *block, size_t size);
void *__wrap_malloc(size_t size);
void *__wrap_realloc(void *block, size_t size);

void *__wrap_malloc(size_t size) { return is_refusing ? NULL : __real_malloc(size); }

void *__wrap_realloc(void *block, size_t size) { return is_refusing ? NULL : __real_realloc(block, size); }

static long tried = 0;

static void expect(const char *what, uint32_t is, uint32_t wanted) {
    tried++;
    if (is != wanted) {
        fprintf(stderr, "numbers: %s: %u, not %u\n", what, (unsigned)is, (unsigned)wanted);
        exit(1);
    }
}

/* A number of the header, by its name. */
#define EXPECT_NUMBER(name, number) expect(#name, name, number)

#define TEXT(text) text, strlen(text)

static void expect_statuses(void) {
    char buffer[16];
    EXPECT_NUMBER(ANSI_STR_OK, 0);
    EXPECT_NUMBER(ANSI_STR_NO, 1);
    EXPECT_NUMBER(ANSI_STR_REFUSED, 2);
    EXPECT_NUMBER(ANSI_STR_NOT_UTF8, 3);
    EXPECT_NUMBER(ANSI_STR_TOO_SMALL, 4);
    EXPECT_NUMBER(ANSI_STR_OUT_OF_MEMORY, 5);
    expect("a text is there", ansi_str_strip(TEXT("a"), buffer, 16).status, ANSI_STR_OK);
    expect("a pattern isn't there", ansi_str_find(TEXT("a"), TEXT("b")).status, ANSI_STR_NO);
    expect("a cut backward", ansi_str_cut(TEXT("a"), 1, 0, buffer, 16).status, ANSI_STR_REFUSED);
    expect("a byte alone", ansi_str_strip(TEXT("\xff"), buffer, 16).status, ANSI_STR_NOT_UTF8);
    expect("no room", ansi_str_strip(TEXT("\x1b[1ma"), buffer, 0).status, ANSI_STR_TOO_SMALL);
    is_refusing = 1;
    expect("no memory", ansi_str_strip(TEXT("\x1b[1ma"), buffer, 4).status, ANSI_STR_OUT_OF_MEMORY);
    is_refusing = 0;
}

/* The style of the first block of a text. */
static ansi_str_style style_of(const char *text) {
    ansi_str_style_answer answer = ansi_str_block_style(text, strlen(text), 0);
    expect(text, answer.status, ANSI_STR_OK);
    return answer.style;
}

/* Each attribute, by the code that sets it alone (ECMA-48, section 8.3.117; 73 and 74 are those of mintty). */
static void expect_attributes(void) {
    static const struct {
        int code;
        uint32_t attribute, number;
    } ATTRIBUTES[] = {
        {1, ANSI_STR_BOLD, 0x1},
        {2, ANSI_STR_FAINT, 0x2},
        {3, ANSI_STR_ITALIC, 0x4},
        {4, ANSI_STR_UNDERLINE, 0x8},
        {21, ANSI_STR_DOUBLE_UNDERLINE, 0x10},
        {5, ANSI_STR_SLOW_BLINK, 0x20},
        {6, ANSI_STR_RAPID_BLINK, 0x40},
        {7, ANSI_STR_INVERSE, 0x80},
        {8, ANSI_STR_HIDE, 0x100},
        {9, ANSI_STR_CROSSED_OUT, 0x200},
        {51, ANSI_STR_FRAMED, 0x400},
        {52, ANSI_STR_ENCIRCLED, 0x800},
        {20, ANSI_STR_FRAKTUR, 0x1000},
        {26, ANSI_STR_PROPORTIONAL_SPACING, 0x2000},
        {53, ANSI_STR_OVERLINED, 0x4000},
        {60, ANSI_STR_IDEOGRAM_UNDERLINE, 0x8000},
        {61, ANSI_STR_IDEOGRAM_DOUBLE_UNDERLINE, 0x10000},
        {62, ANSI_STR_IDEOGRAM_OVERLINE, 0x20000},
        {63, ANSI_STR_IDEOGRAM_DOUBLE_OVERLINE, 0x40000},
        {64, ANSI_STR_IDEOGRAM_STRESS_MARKING, 0x80000},
        {73, ANSI_STR_SUPERSCRIPT, 0x100000},
        {74, ANSI_STR_SUBSCRIPT, 0x200000},
        {0, ANSI_STR_RESET, 0x400000},
        {99, ANSI_STR_UNKNOWN, 0x800000},
    };
    for (size_t i = 0; i < sizeof ATTRIBUTES / sizeof ATTRIBUTES[0]; i++) {
        char text[16];
        snprintf(text, sizeof text, "\x1b[%dmt", ATTRIBUTES[i].code);
        ansi_str_style style = style_of(text);
        expect(text, ATTRIBUTES[i].attribute, ATTRIBUTES[i].number);
        expect(text, style.attributes, ATTRIBUTES[i].number);
        expect(text, ansi_str_style_has_any(&style), ATTRIBUTES[i].number < 0x400000);
    }
    ansi_str_style plain = style_of("plain"), both = style_of("\x1b[0;99mt");
    expect("no attribute", plain.attributes, 0);
    expect("nothing to close", ansi_str_style_has_any(&plain), false);
    expect("an unknown code after a reset", ansi_str_style_has_any(&both), true);
}

/* A reset and an unknown code are those of the first of two styles. */
static void expect_marks_of_the_first(void) {
    const ansi_str_style marked = style_of("\x1b[0;99;1mt"), other = style_of("\x1b[0;99;3mt"), bold = style_of("\x1b[1mt");
    uint32_t marks = ANSI_STR_RESET | ANSI_STR_UNKNOWN;
    expect("the first of a union", ansi_str_style_union(&marked, &bold).attributes, marks | ANSI_STR_BOLD);
    expect("the second of a union", ansi_str_style_union(&bold, &other).attributes, ANSI_STR_BOLD | ANSI_STR_ITALIC);
    expect("the first of a difference", ansi_str_style_difference(&marked, &other).attributes, marks | ANSI_STR_BOLD);
    expect("the second of a difference", ansi_str_style_difference(&bold, &marked).attributes, 0);
}

/* A color is of this kind, with these numbers. */
static void expect_color(const char *text, const ansi_str_color *color, uint32_t kind, const uint8_t numbers[3]) {
    expect(text, color->kind, kind);
    expect(text, color->first, numbers[0]);
    expect(text, color->second, numbers[1]);
    expect(text, color->third, numbers[2]);
}

/* Only the color of this place is set by the codes. */
static void expect_place(const char *text, size_t place, uint32_t kind, const uint8_t numbers[3]) {
    static const uint8_t ZERO[3] = {0};
    ansi_str_style style = style_of(text);
    const ansi_str_color *colors[3] = {&style.foreground, &style.background, &style.underline_color};
    for (size_t i = 0; i < 3; i++) {
        expect_color(text, colors[i], i == place ? kind : ANSI_STR_NO_COLOR, i == place ? numbers : ZERO);
    }
    expect(text, ansi_str_style_has_any(&style), kind != ANSI_STR_NO_COLOR);
}

/* Each kind of color, by the codes that set it for the text, for what is behind it and for a line under it. */
static void expect_colors(void) {
    static const uint8_t BASES[2][2] = {{30, 90}, {40, 100}}, FIXED[3] = {200, 0, 0}, RGB[3] = {1, 2, 3}, ZERO[3] = {0};
    char text[32];
    EXPECT_NUMBER(ANSI_STR_NO_COLOR, 0);
    EXPECT_NUMBER(ANSI_STR_NAMED, 1);
    EXPECT_NUMBER(ANSI_STR_FIXED, 2);
    EXPECT_NUMBER(ANSI_STR_RGB, 3);
    expect_place("plain", 0, ANSI_STR_NO_COLOR, ZERO);
    for (size_t place = 0; place < 2; place++) {
        for (int i = 0; i < 16; i++) {
            const uint8_t code[3] = {(uint8_t)(BASES[place][i / 8] + i % 8), 0, 0};
            snprintf(text, sizeof text, "\x1b[%dmt", code[0]);
            expect_place(text, place, ANSI_STR_NAMED, code);
        }
    }
    for (size_t place = 0; place < 3; place++) {
        int code = 38 + 10 * (int)place;
        snprintf(text, sizeof text, "\x1b[%d;5;200mt", code);
        expect_place(text, place, ANSI_STR_FIXED, FIXED);
        snprintf(text, sizeof text, "\x1b[%d;2;1;2;3mt", code);
        expect_place(text, place, ANSI_STR_RGB, RGB);
    }
}

/* Each font, by the code that selects it, and the usual one. */
static void expect_fonts(void) {
    char text[16];
    for (uint8_t code = 10; code < 20; code++) {
        snprintf(text, sizeof text, "\x1b[%dmt", code);
        ansi_str_style style = style_of(text);
        expect(text, style.font.is_set, code > 10);
        expect(text, style.font.number, code > 10 ? code : 0);
        expect(text, ansi_str_style_has_any(&style), code > 10);
    }
}

/* Each kind of edit, by its result on " ab,cd ". */
static void expect_edits(void) {
    const struct {
        ansi_str_edit_step step;
        uint32_t kind, number;
        const char *wanted;
    } EDITS[] = {
        {ansi_str_edit_cut(1, 3), ANSI_STR_EDIT_CUT, 0, "ab"},
        {ansi_str_edit_left(3), ANSI_STR_EDIT_LEFT, 1, " ab"},
        {ansi_str_edit_right(3), ANSI_STR_EDIT_RIGHT, 2, ",cd "},
        {ansi_str_edit_part(TEXT(","), 1), ANSI_STR_EDIT_PART, 3, "cd "},
        {ansi_str_edit_prefix(TEXT(" ")), ANSI_STR_EDIT_PREFIX, 4, "ab,cd "},
        {ansi_str_edit_suffix(TEXT(" ")), ANSI_STR_EDIT_SUFFIX, 5, " ab,cd"},
        {ansi_str_edit_trim(), ANSI_STR_EDIT_TRIM, 6, "ab,cd"},
    };
    char buffer[16];
    for (size_t i = 0; i < sizeof EDITS / sizeof EDITS[0]; i++) {
        expect(EDITS[i].wanted, EDITS[i].kind, EDITS[i].number);
        expect(EDITS[i].wanted, EDITS[i].step.kind, EDITS[i].number);
        ansi_str_answer answer = ansi_str_edit(TEXT(" ab,cd "), &EDITS[i].step, 1, buffer, sizeof buffer);
        expect(EDITS[i].wanted, answer.status, ANSI_STR_OK);
        expect(EDITS[i].wanted, answer.len == strlen(EDITS[i].wanted) && memcmp(buffer, EDITS[i].wanted, answer.len) == 0, 1);
    }
    ansi_str_edit_step unknown = ansi_str_edit_of(7, 0, 0, TEXT(""));
    expect("an edit of no kind", ansi_str_edit(TEXT("a"), &unknown, 1, buffer, sizeof buffer).status, ANSI_STR_REFUSED);
}

/* Each kind of edit by columns, by its result on "a\tbcd". */
static void expect_column_edits(void) {
    const struct {
        ansi_str_column_step step;
        uint32_t kind, number;
        const char *wanted;
    } EDITS[] = {
        {ansi_str_column_edit_expand(3), ANSI_STR_COLUMNS_EXPAND, 0, "a  bcd"},
        {ansi_str_column_edit_slice(2, 4), ANSI_STR_COLUMNS_SLICE, 1, "bc"},
        {ansi_str_column_edit_truncate(4, TEXT("~"), ANSI_STR_START), ANSI_STR_COLUMNS_TRUNCATE, 2, "~bcd"},
        {ansi_str_column_edit_pad(7, ANSI_STR_RIGHT), ANSI_STR_COLUMNS_PAD, 3, "  a bcd"},
        {ansi_str_column_edit_fit(6, ANSI_STR_CENTER, TEXT("~")), ANSI_STR_COLUMNS_FIT, 4, "a bcd "},
    };
    char buffer[16];
    for (size_t i = 0; i < sizeof EDITS / sizeof EDITS[0]; i++) {
        expect(EDITS[i].wanted, EDITS[i].kind, EDITS[i].number);
        expect(EDITS[i].wanted, EDITS[i].step.kind, EDITS[i].number);
        ansi_str_answer answer = ansi_str_edit_columns(TEXT("a\tbcd"), &EDITS[i].step, 1, buffer, sizeof buffer);
        expect(EDITS[i].wanted, answer.status, ANSI_STR_OK);
        expect(EDITS[i].wanted, answer.len == strlen(EDITS[i].wanted) && memcmp(buffer, EDITS[i].wanted, answer.len) == 0, 1);
    }
    ansi_str_column_step unknown = ansi_str_column_edit_of(5, 0, 0, 0, TEXT(""));
    expect("an edit of no kind", ansi_str_edit_columns(TEXT("a"), &unknown, 1, buffer, sizeof buffer).status, ANSI_STR_REFUSED);
}

/* Each number of a policy, by what becomes of BEL and of a link. */
static void expect_policies(void) {
    static const struct {
        uint32_t rest, links;
        const char *wanted;
    } POLICIES[] = {
        {ANSI_STR_DROP, ANSI_STR_REMOVE_LINKS, "l"},
        {ANSI_STR_SHOW, ANSI_STR_REMOVE_LINKS, "^[]8;;u^Gl^[]8;;^G^G"},
        {ANSI_STR_DROP, ANSI_STR_KEEP_LINKS, "\x1b]8;;u\al\x1b]8;;\a"},
        {ANSI_STR_SHOW, ANSI_STR_KEEP_LINKS, "\x1b]8;;u\al\x1b]8;;\a^G"},
    };
    static const char LINK[] = "\x1b]8;;u\al\x1b]8;;\a";
    char buffer[32];
    EXPECT_NUMBER(ANSI_STR_DROP, 0);
    EXPECT_NUMBER(ANSI_STR_SHOW, 1);
    EXPECT_NUMBER(ANSI_STR_REMOVE_LINKS, 0);
    EXPECT_NUMBER(ANSI_STR_KEEP_LINKS, 1);
    for (size_t i = 0; i < sizeof POLICIES / sizeof POLICIES[0]; i++) {
        const char *wanted = POLICIES[i].wanted;
        ansi_str_answer answer =
            ansi_str_sanitize(TEXT("\x1b]8;;u\al\x1b]8;;\a\a"), POLICIES[i].rest, POLICIES[i].links, buffer, sizeof buffer);
        expect(wanted, answer.status, ANSI_STR_OK);
        expect(wanted, answer.len == strlen(wanted) && memcmp(buffer, wanted, answer.len) == 0, 1);
        answer = ansi_str_sanitize_bytes(TEXT("\x1b]8;;u\al\x1b]8;;\a\a\xff"), POLICIES[i].rest, POLICIES[i].links, buffer, sizeof buffer);
        expect(wanted, answer.status, ANSI_STR_OK);
        expect(wanted, answer.len == strlen(wanted) + 3 && memcmp(buffer, wanted, strlen(wanted)) == 0, 1);
        expect(wanted, memcmp(buffer + strlen(wanted), "\xef\xbf\xbd", 3), 0);
    }
    expect("a link is kept", ansi_str_is_safe(TEXT(LINK), ANSI_STR_KEEP_LINKS).status, ANSI_STR_OK);
    expect("a link is removed", ansi_str_is_safe(TEXT(LINK), ANSI_STR_REMOVE_LINKS).status, ANSI_STR_NO);
}

/* Expects this status of `is_safe` of a link whose parameters and address have these lengths. */
static void expect_link(size_t parameters_len, size_t address_len, uint32_t status) {
    char text[ANSI_STR_LONGEST_PARAMETERS + ANSI_STR_LONGEST_ADDRESS + 16];
    size_t len = (size_t)snprintf(text, sizeof text, "\x1b]8;%0*d;%0*d\x1b\\", (int)parameters_len, 0, (int)address_len, 0);
    expect("a link", ansi_str_is_safe(text, len, ANSI_STR_KEEP_LINKS).status, status);
}

/* The lengths, by a style with everything set: its start, its close, a cut text, and a part into which the style is carried. */
static void expect_lengths(void) {
    static const char SGR[] = "\x1b[0;99;1;2;3;4;5;6;7;8;9;19;20;21;26;38;2;255;255;255;48;2;255;255;255;58;2;255;255;255;51;52;53;"
                              "60;61;62;63;64;73;74m";
    char text[256], buffer[512];
    uint32_t len = (uint32_t)snprintf(text, sizeof text, "%sa,b", SGR);
    EXPECT_NUMBER(ANSI_STR_LONGEST_START, 163);
    EXPECT_NUMBER(ANSI_STR_LONGEST_CLOSE, 88);
    EXPECT_NUMBER(ANSI_STR_LONGEST_START_AND_CLOSE, 251);
    expect("a start", (uint32_t)ansi_str_block_start(text, len, 0, buffer, sizeof buffer).len, ANSI_STR_LONGEST_START);
    expect("a close", (uint32_t)ansi_str_block_end(text, len, 0, buffer, sizeof buffer).len, ANSI_STR_LONGEST_CLOSE);
    expect("a cut", (uint32_t)ansi_str_cut(text, len, 0, 3, buffer, sizeof buffer).len, len + ANSI_STR_LONGEST_CLOSE);
    expect("a part", (uint32_t)ansi_str_part(text, len, TEXT(","), 1, buffer, sizeof buffer).len,
           1 + ANSI_STR_LONGEST_START_AND_CLOSE);
    EXPECT_NUMBER(ANSI_STR_LONGEST_LINK_END, 7);
    len = (uint32_t)snprintf(text, sizeof text, "%s\x1b]8;;u\a", SGR);
    expect("what opens a pen", (uint32_t)ansi_str_pen_start(text, len, buffer, sizeof buffer).len, ANSI_STR_LONGEST_START + 7);
    expect("what closes a pen", (uint32_t)ansi_str_pen_end(text, len, buffer, sizeof buffer).len,
           ANSI_STR_LONGEST_LINK_END + ANSI_STR_LONGEST_CLOSE);
    EXPECT_NUMBER(ANSI_STR_LONGEST_ADDRESS, 2083);
    EXPECT_NUMBER(ANSI_STR_LONGEST_PARAMETERS, 253);
    EXPECT_NUMBER(ANSI_STR_LONGEST_LINK, ANSI_STR_LONGEST_PARAMETERS + ANSI_STR_LONGEST_ADDRESS + 7);
    expect_link(ANSI_STR_LONGEST_PARAMETERS, ANSI_STR_LONGEST_ADDRESS, ANSI_STR_OK);
    expect_link(ANSI_STR_LONGEST_PARAMETERS + 1, ANSI_STR_LONGEST_ADDRESS, ANSI_STR_NO);
    expect_link(ANSI_STR_LONGEST_PARAMETERS, ANSI_STR_LONGEST_ADDRESS + 1, ANSI_STR_NO);
}

int main(void) {
    expect_statuses();
    expect_lengths();
    expect_attributes();
    expect_marks_of_the_first();
    expect_colors();
    expect_fonts();
    expect_edits();
    expect_column_edits();
    expect_policies();
    printf("numbers: %ld are as they should be\n", tried);
    return 0;
}
