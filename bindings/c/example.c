/* What a program does with the library: a cell of a table, a safe text, the parts of a line, the blocks of a text and their styles,
   edits in turn, and the statuses of calls that fail. Exits with 1 if a call returns anything else. */
#include "ansi_str.h"

#include <stdio.h>
#include <stdlib.h>
#include <string.h>

static const char LOG[] = "\x1b[31merror\x1b[39m: disk \x1b[1mfull\x1b[22m";

/* Ends the program if a call returns anything else. */
static void expect(const char *what, int is_so) {
    if (!is_so) {
        fprintf(stderr, "example: %s\n", what);
        exit(1);
    }
}

/* Whether a call wrote this text. */
static int wrote(ansi_str_answer answer, const char *buffer, const char *text) {
    return answer.status == ANSI_STR_OK && answer.len == strlen(text) && memcmp(buffer, text, answer.len) == 0;
}

static void give_one_text(void) {
    char buffer[128];
    size_t len = strlen(LOG);

    ansi_str_answer plain = ansi_str_strip(LOG, len, buffer, sizeof buffer);
    expect("strip", wrote(plain, buffer, "error: disk full"));

    ansi_str_answer cell = ansi_str_cut(LOG, len, 0, 3, buffer, sizeof buffer);
    expect("cut", wrote(cell, buffer, "\x1b[31merr\x1b[39m"));

    ansi_str_answer place = ansi_str_find(LOG, len, "disk", 4);
    expect("find", place.status == ANSI_STR_OK && place.len == 7);

    ansi_str_answer rest = ansi_str_right(LOG, len, place.len, buffer, sizeof buffer);
    expect("right", wrote(rest, buffer, "disk \x1b[1mfull\x1b[22m"));

    ansi_str_answer part = ansi_str_part(LOG, len, ": ", 2, 0, buffer, sizeof buffer);
    expect("part", wrote(part, buffer, "\x1b[31merror\x1b[39m"));
}

/* A stranger's text, printed without what could drive the terminal. */
static void give_safe_text(void) {
    static const char NAME[] = "\x1b]0;title\a\x1b[31mred\a";
    char buffer[128];
    size_t len = strlen(NAME);

    expect("is it safe", ansi_str_is_safe(NAME, len, ANSI_STR_REMOVE_LINKS).status == ANSI_STR_NO);
    ansi_str_answer safe = ansi_str_sanitize(NAME, len, ANSI_STR_DROP, ANSI_STR_REMOVE_LINKS, buffer, sizeof buffer);
    expect("sanitize", wrote(safe, buffer, "\x1b[31mred\x1b[39m"));
    expect("it is safe", ansi_str_is_safe(buffer, safe.len, ANSI_STR_REMOVE_LINKS).status == ANSI_STR_OK);
}

/* A buffer of the right size: the first call says how much is needed. */
static void give_room(void) {
    size_t len = strlen(LOG);
    ansi_str_answer needed = ansi_str_strip(LOG, len, NULL, 0);
    expect("too small", needed.status == ANSI_STR_TOO_SMALL && needed.len == 16);
    char *buffer = (char *)malloc(needed.len);
    expect("malloc", buffer != NULL);
    ansi_str_answer plain = ansi_str_strip(LOG, len, buffer, needed.len);
    expect("strip", wrote(plain, buffer, "error: disk full"));
    free(buffer);
}

static void give_all_parts(void) {
    char buffer[128];
    size_t ends[8];
    ansi_str_answers parts = ansi_str_split(LOG, strlen(LOG), " ", 1, buffer, sizeof buffer, ends, 8);
    expect("split", parts.status == ANSI_STR_OK && parts.count == 3);
    static const char *const WORDS[] = {"\x1b[31merror\x1b[39m:", "disk", "\x1b[1mfull\x1b[22m"};
    size_t start = 0;
    for (size_t i = 0; i < parts.count; i++) {
        size_t len = ends[i] - start;
        expect("part", len == strlen(WORDS[i]) && memcmp(buffer + start, WORDS[i], len) == 0);
        start = ends[i];
    }
    expect("parts", start == parts.len);
}

/* (31 is the SGR code for red) */
static bool is_red(const ansi_str_style *style) {
    return style->foreground.kind == ANSI_STR_NAMED && style->foreground.first == 31;
}

static void give_all_blocks(void) {
    char buffer[128];
    ansi_str_block_entry blocks[8];
    ansi_str_answers given = ansi_str_blocks(LOG, strlen(LOG), buffer, sizeof buffer, blocks, 8);
    expect("blocks", given.status == ANSI_STR_OK && given.count == 3 && given.len == 16);
    expect("the first block", blocks[0].end == 5 && memcmp(buffer, "error", 5) == 0);
    expect("red", is_red(&blocks[0].style) && ansi_str_style_has_any(&blocks[0].style));
    expect("plain", !ansi_str_style_has_any(&blocks[1].style));
    expect("bold", blocks[2].style.attributes == ANSI_STR_BOLD);

    ansi_str_styled_block_entry styled[8];
    given = ansi_str_styled_blocks(LOG, strlen(LOG), buffer, sizeof buffer, styled, 8);
    expect("styled blocks", given.status == ANSI_STR_OK && given.count == 3);
    expect("the first one", styled[0].end == 15 && memcmp(buffer, "\x1b[31merror\x1b[39m", 15) == 0);
    expect("its text", styled[0].text_start == 5 && styled[0].text_end == 10);

    ansi_str_style_answer first = ansi_str_block_style(LOG, strlen(LOG), 0);
    expect("its style", first.status == ANSI_STR_OK && is_red(&first.style));
}

static void walk_over_blocks(void) {
    char sequences[64];
    ansi_str_block_walk walk;
    ansi_str_next_block block;
    expect("a walk", ansi_str_blocks_begin(LOG, strlen(LOG), &walk).status == ANSI_STR_OK);
    ansi_str_answer answer = ansi_str_blocks_next(&walk, &block, sequences, sizeof sequences);
    expect("the first", answer.status == ANSI_STR_OK && answer.len == 0);
    expect("its run", block.text_len == 5 && memcmp(block.text, "error", 5) == 0);
    expect("its color", is_red(&block.style));
    answer = ansi_str_style_start(&block.style, sequences, sizeof sequences);
    expect("its start", answer.len == 5 && memcmp(sequences, "\x1b[31m", 5) == 0);
    size_t left = 0;
    while (ansi_str_blocks_next(&walk, &block, sequences, sizeof sequences).status == ANSI_STR_OK) {
        left++;
    }
    expect("the others", left == 2);
}

/* What a line leaves open is closed after it, and opened again before the next. */
static void carry_a_style(void) {
    static const char LINE[] = "\x1b[31mred \x1b]8;;http://x\x1b\\link";
    char buffer[128];
    ansi_str_pen pen;
    expect("what is open", ansi_str_pen_after(LINE, strlen(LINE), &pen).status == ANSI_STR_OK);
    expect("the color", pen.style.foreground.kind == ANSI_STR_NAMED && pen.style.foreground.first == 31);
    expect("the link", pen.link_len == 8 && memcmp(pen.link, "http://x", 8) == 0);
    ansi_str_answer closed = ansi_str_pen_end(LINE, strlen(LINE), buffer, sizeof buffer);
    expect("what closes both", wrote(closed, buffer, "\x1b]8;;\x1b\\\x1b[39m"));
    ansi_str_answer opened = ansi_str_pen_start(LINE, strlen(LINE), buffer, sizeof buffer);
    expect("what opens both", wrote(opened, buffer, "\x1b[31m\x1b]8;;http://x\x1b\\"));
}

static void combine_styles(void) {
    ansi_str_pen bold_red, blue;
    char buffer[ANSI_STR_LONGEST_START];
    expect("a style by its codes", ansi_str_pen_after("\x1b[1;31m", 7, &bold_red).status == ANSI_STR_OK);
    expect("another", ansi_str_pen_after("\x1b[34m", 5, &blue).status == ANSI_STR_OK);
    ansi_str_style both = ansi_str_style_union(&bold_red.style, &blue.style);
    expect("what is set in either", wrote(ansi_str_style_start(&both, buffer, sizeof buffer), buffer, "\x1b[1m\x1b[34m"));
    ansi_str_style left = ansi_str_style_difference(&both, &blue.style);
    expect("what is set in one alone", wrote(ansi_str_style_start(&left, buffer, sizeof buffer), buffer, "\x1b[1m"));
}

static void do_edits(void) {
    char buffer[128];
    ansi_str_edit_step edits[3];
    edits[0] = ansi_str_edit_prefix("error:", 6);
    edits[1] = ansi_str_edit_trim();
    edits[2] = ansi_str_edit_cut(0, 4);
    ansi_str_answer edited = ansi_str_edit(LOG, strlen(LOG), edits, 3, buffer, sizeof buffer);
    expect("edit", wrote(edited, buffer, "\x1b[31m\x1b[39mdisk"));
    edits[0] = ansi_str_edit_suffix("empty", 5);
    edited = ansi_str_edit(LOG, strlen(LOG), edits, 3, buffer, sizeof buffer);
    expect("an edit that is refused", edited.status == ANSI_STR_REFUSED);
}

/* Each of the statuses but two: one occurs above, and rows.c has out of memory. */
static void fail(void) {
    char buffer[] = "as it is";
    expect("no such part", ansi_str_part("a:b", 3, ":", 1, 2, buffer, 8).status == ANSI_STR_NO);
    expect("inside a character", ansi_str_cut("\xc3\xa9", 2, 1, 2, buffer, 8).status == ANSI_STR_REFUSED);
    expect("end below start", ansi_str_cut("abc", 3, 2, 1, buffer, 8).status == ANSI_STR_REFUSED);
    expect("no UTF-8", ansi_str_strip("\xff", 1, buffer, 8).status == ANSI_STR_NOT_UTF8);
    expect("no UTF-8", ansi_str_find("a", 1, "\xff", 1).status == ANSI_STR_NOT_UTF8);
    expect("the buffer", memcmp(buffer, "as it is", 8) == 0);
}

/* No text, no pattern, no buffer. */
static void take_nothing(void) {
    expect("strip", ansi_str_strip(NULL, 0, NULL, 0).status == ANSI_STR_OK);
    expect("find", ansi_str_find(NULL, 0, NULL, 0).status == ANSI_STR_OK);
    expect("split", ansi_str_split(NULL, 0, ":", 1, NULL, 0, NULL, 0).status == ANSI_STR_TOO_SMALL);
    expect("blocks", ansi_str_blocks(NULL, 0, NULL, 0, NULL, 0).status == ANSI_STR_OK);
    expect("styled blocks", ansi_str_styled_blocks(NULL, 0, NULL, 0, NULL, 0).status == ANSI_STR_OK);
    expect("edit", ansi_str_edit("ab", 2, NULL, 0, NULL, 0).status == ANSI_STR_TOO_SMALL);
}

int main(void) {
    give_one_text();
    give_safe_text();
    give_room();
    give_all_parts();
    give_all_blocks();
    walk_over_blocks();
    carry_a_style();
    combine_styles();
    do_edits();
    fail();
    take_nothing();
    printf("example: all is as it should be\n");
    return 0;
}
