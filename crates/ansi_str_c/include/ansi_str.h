/* Text with ANSI control sequences, taken as if the sequences weren't there.

   Units. The plain text is the text without its sequences. Positions and lengths count bytes: positions those of the plain
   text, lengths those of what is written. A position past the end of the plain text counts as its end, so a cut with the
   end SIZE_MAX goes up to the end; only the calls from ansi_str_restyle to ansi_str_link refuse it.

   Texts and buffers. A call takes each text and each pattern as a pointer and a length. They are UTF-8, need no 0 at their
   end and may contain one, and are read only during the call. The call writes its result into the caller's buffer. So
   there is nothing to free, and only walks, what they return, and an `ansi_str_pen` point into a text. A buffer must not
   overlap a text or a pattern. A pointer may be NULL if its length is 0.

   Memory and threads. A call has no state: any number may run at once, in any threads. It allocates with `malloc` only if
   it has to, and frees that with `free` before it returns. On a text without ESC it doesn't allocate, unless its comment
   says so. It must not run in a signal handler, nor in the forked child of a process with threads.

   Time. A call that takes the index of a part or a block walks to it from the front of the text, each time. So a loop over
   all indices takes time in proportion to their number times the text's length: for n blocks of a few bytes about n/4 times
   that of ansi_str_blocks, and for n such parts about n/6 times that of ansi_str_split. These two return all in one walk,
   and ansi_str_styled_blocks also the sequences that set and close the style of each block. ansi_str_find_from reads the text
   from its front too: a loop of it over n matches takes about n/2 times the time of ansi_str_matches, which returns all in one
   walk. On a text with ESC a buffer that is too small saves no work: asking for the length first takes twice the time.

   Room. Most calls say how much room is always enough. A buffer of length 0 asks how much a result needs: the call returns
   ANSI_STR_TOO_SMALL and the length. It makes the result in memory for that. Only the results of ansi_str_replace_all and
   ansi_str_replace_each can grow with the square of the text, if its links are long: see there how to ask for a bound first.

   A program is C99 or C++11, or later. `pkg-config --cflags --libs ansi_str` prints the flags to link the installed
   library. */
#ifndef ANSI_STR_H
#define ANSI_STR_H

#include <stdbool.h>
#include <stddef.h>
#include <stdint.h>
#include <string.h>

#ifdef __cplusplus
extern "C" {
#endif

/* The status of a call. */
enum {
    /* it is done, or it is true */
    ANSI_STR_OK = 0,
    /* it is false, or there is no such thing: no match of the pattern, no part or block of that index, or no link there */
    ANSI_STR_NO = 1,
    /* a position is inside a character, or the end of a range is below its start; an edit is refused; or codes, ranges or an
       address are */
    ANSI_STR_REFUSED = 2,
    /* the text or a pattern isn't UTF-8 */
    ANSI_STR_NOT_UTF8 = 3,
    /* the buffer is too small: nothing was written, and the call returns the length that is needed */
    ANSI_STR_TOO_SMALL = 4,
    /* out of memory: nothing was written */
    ANSI_STR_OUT_OF_MEMORY = 5
};

/* What a call returns. With ANSI_STR_OK the length is that of what was written or found, with ANSI_STR_TOO_SMALL that which
   is needed, and with any other status 0. What was written is at the front of the buffer, and all bytes after it are
   unchanged; with any status but ANSI_STR_OK the whole buffer is unchanged. */
typedef struct {
    uint32_t status;
    size_t len;
} ansi_str_answer;

/* What a call for several texts returns: how many they are, and their length together. Both are set with ANSI_STR_OK and
   with ANSI_STR_TOO_SMALL, and 0 with any other status. */
typedef struct {
    uint32_t status;
    size_t count;
    size_t len;
} ansi_str_answers;

/* The attributes of a style, one bit each, and the SGR codes that set them (ECMA-48, section 8.3.117). No other bit is set. */
enum {
    /* 1 to 4 */
    ANSI_STR_BOLD = 1 << 0,
    ANSI_STR_FAINT = 1 << 1,
    ANSI_STR_ITALIC = 1 << 2,
    ANSI_STR_UNDERLINE = 1 << 3,
    /* 21 */
    ANSI_STR_DOUBLE_UNDERLINE = 1 << 4,
    /* 5 to 9 */
    ANSI_STR_SLOW_BLINK = 1 << 5,
    ANSI_STR_RAPID_BLINK = 1 << 6,
    ANSI_STR_INVERSE = 1 << 7,
    ANSI_STR_HIDE = 1 << 8,
    ANSI_STR_CROSSED_OUT = 1 << 9,
    /* 51, 52, 20, 26 and 53 */
    ANSI_STR_FRAMED = 1 << 10,
    ANSI_STR_ENCIRCLED = 1 << 11,
    ANSI_STR_FRAKTUR = 1 << 12,
    ANSI_STR_PROPORTIONAL_SPACING = 1 << 13,
    ANSI_STR_OVERLINED = 1 << 14,
    /* 60 to 64 */
    ANSI_STR_IDEOGRAM_UNDERLINE = 1 << 15,
    ANSI_STR_IDEOGRAM_DOUBLE_UNDERLINE = 1 << 16,
    ANSI_STR_IDEOGRAM_OVERLINE = 1 << 17,
    ANSI_STR_IDEOGRAM_DOUBLE_OVERLINE = 1 << 18,
    ANSI_STR_IDEOGRAM_STRESS_MARKING = 1 << 19,
    /* 73 and 74 */
    ANSI_STR_SUPERSCRIPT = 1 << 20,
    ANSI_STR_SUBSCRIPT = 1 << 21,
    /* 0, and a code that the library doesn't know: no character looks different by them */
    ANSI_STR_RESET = 1 << 22,
    ANSI_STR_UNKNOWN = 1 << 23
};

/* The most bytes of the sequences that set a style, of those that close it, and of both. */
enum {
    ANSI_STR_LONGEST_START = 163,
    ANSI_STR_LONGEST_CLOSE = 88,
    ANSI_STR_LONGEST_START_AND_CLOSE = 251
};

/* The most bytes that close a link (OSC 8). */
enum { ANSI_STR_LONGEST_LINK_END = 7 };

/* The alignment of a padded text: before the blanks, between them, or after them. */
enum {
    ANSI_STR_LEFT = 0,
    ANSI_STR_CENTER = 1,
    ANSI_STR_RIGHT = 2
};

/* Where a text is cut if it is too wide: at its end, so that its first columns stay; at its start; or in its middle. */
enum {
    ANSI_STR_END = 0,
    ANSI_STR_START = 1,
    ANSI_STR_MIDDLE = 2
};

/* What is made of what is unsafe in a text: it is dropped, or shown in printing characters, such as "^[" for ESC. */
enum {
    ANSI_STR_DROP = 0,
    ANSI_STR_SHOW = 1
};

/* The most bytes that the address of a link (OSC 8) has in a safe text, its parameters, such as "id=1", and the sequence of both. */
enum {
    ANSI_STR_LONGEST_ADDRESS = 2083,
    ANSI_STR_LONGEST_PARAMETERS = 253,
    ANSI_STR_LONGEST_LINK = 2343
};

/* What is made of the links of a text: all are unsafe, or a link is kept if its address and its parameters are no longer than
   that, and each byte between its ESC "]" and its terminator is printable ASCII. */
enum {
    ANSI_STR_REMOVE_LINKS = 0,
    ANSI_STR_KEEP_LINKS = 1
};

/* The kinds of colors: none; one that an SGR code names; one of 256 by its number; or one by its red, green and blue. */
enum {
    ANSI_STR_NO_COLOR = 0,
    ANSI_STR_NAMED = 1,
    ANSI_STR_FIXED = 2,
    ANSI_STR_RGB = 3
};

/* A color. `first` is the SGR code of ANSI_STR_NAMED, the number of ANSI_STR_FIXED, or the red of ANSI_STR_RGB. `second` and
   `third` are the green and the blue of ANSI_STR_RGB. Any other byte is 0. The codes are 30 to 37 and 90 to 97 for the text, and
   40 to 47 and 100 to 107 behind it: black, red, green, yellow, blue, magenta, cyan and white, and the same bright. */
typedef struct {
    uint8_t kind;
    uint8_t first;
    uint8_t second;
    uint8_t third;
} ansi_str_color;

/* A font, and the SGR code that selects it, from 11 to 19; 0 if none is set. */
typedef struct {
    bool is_set;
    uint8_t number;
} ansi_str_font;

/* A style: its attributes, its colors and its font. A style that nothing has set is all 0. */
typedef struct {
    uint32_t attributes;
    ansi_str_color foreground;
    ansi_str_color background;
    ansi_str_color underline_color;
    ansi_str_font font;
} ansi_str_style;

/* What a call for a style returns. With any status but ANSI_STR_OK the style is empty: all 0. */
typedef struct {
    uint32_t status;
    ansi_str_style style;
} ansi_str_style_answer;

/* A block among the blocks of a text: the end of its text in the buffer, and its style. It begins at the end of the one
   before, and the first at 0. */
typedef struct {
    size_t end;
    ansi_str_style style;
} ansi_str_block_entry;

/* A block with the start and the close of its style around it in the buffer: the beginning and the end of its text, the end
   of the whole, and its style. The whole begins at the end of the one before, and the first at 0. */
typedef struct {
    size_t text_start;
    size_t text_end;
    size_t end;
    ansi_str_style style;
} ansi_str_styled_block_entry;

/* A line of a wrapped text: where it begins and where it ends, in bytes of the plain text. */
typedef struct {
    size_t start;
    size_t end;
} ansi_str_line_entry;

/* A range of a plain text: where it begins and where it ends, in bytes. */
typedef struct {
    size_t start;
    size_t end;
} ansi_str_range;

/* A range of a plain text, by where it begins and ends in bytes, and the text in its place. Made with ansi_str_replacement_of. */
typedef struct {
    size_t start;
    size_t end;
    const uint8_t *with;
    size_t with_len;
} ansi_str_replacement;

/* A link of a text: where its range begins and ends, in bytes of the plain text, and where its address ends in the buffer. */
typedef struct {
    size_t start;
    size_t end;
    size_t address_end;
} ansi_str_link_entry;

/* A walk over the blocks of a text. Its state is the library's own: a caller must not read or set it. The text must live and
   stay unchanged while the walk is used. A copy of a walk is independent of it. */
typedef union {
    /* (for its alignment) */
    const void *aligned;
    unsigned char state[40];
} ansi_str_block_walk;

/* A block of a walk: its run of text, which points into the text of the walk, and its style. */
typedef struct {
    const uint8_t *text;
    size_t text_len;
    ansi_str_style style;
} ansi_str_next_block;

/* What is open at the end of a text: the address of the link (OSC 8), which points into the text and has the length 0 if no link is
   open; and the style. The text must live and stay unchanged while the address is used. */
typedef struct {
    const uint8_t *link;
    size_t link_len;
    ansi_str_style style;
} ansi_str_pen;

/* A walk over the parts of a text between the matches of a pattern, likewise. Text and pattern must live and stay unchanged
   while it is used. */
typedef union {
    /* (for its alignment) */
    const void *aligned;
    unsigned char state[80];
} ansi_str_part_walk;

/* Where the state of a walk has these bytes; only functions of this header may use it. */
enum {
    ANSI_STR_STATE_TEXT = 0,
    ANSI_STR_STATE_PATTERN = 16,
    ANSI_STR_STATE_FINISHED = 76
};

/* A part of a walk that points into the text of the walk. */
typedef struct {
    const uint8_t *text;
    size_t text_len;
} ansi_str_next_part;

/* A walk over the lines of a wrapped text, likewise. */
typedef union {
    /* (for its alignment) */
    const void *aligned;
    unsigned char state[64];
} ansi_str_line_walk;

/* The kinds of edits. */
enum {
    /* ansi_str_cut from `first` up to `second` */
    ANSI_STR_EDIT_CUT = 0,
    /* ansi_str_left and ansi_str_right at `first` */
    ANSI_STR_EDIT_LEFT = 1,
    ANSI_STR_EDIT_RIGHT = 2,
    /* ansi_str_part of the index `first` */
    ANSI_STR_EDIT_PART = 3,
    ANSI_STR_EDIT_PREFIX = 4,
    ANSI_STR_EDIT_SUFFIX = 5,
    ANSI_STR_EDIT_TRIM = 6
};

/* One edit of a text. The pointer is never NULL; the functions below, from ansi_str_edit_cut on, make an edit with a
   good one. Edits are read only during a call, so their patterns must live until it returns. */
typedef struct {
    uint32_t kind;
    size_t first;
    size_t second;
    const uint8_t *pattern;
    size_t pattern_len;
} ansi_str_edit_step;

/* The kinds of edits by columns. */
enum {
    /* ansi_str_expand_tabs with stops of `first` columns */
    ANSI_STR_COLUMNS_EXPAND = 0,
    /* ansi_str_slice from `first` up to `second` */
    ANSI_STR_COLUMNS_SLICE = 1,
    /* ansi_str_truncate_with to `first` columns at the side `place` */
    ANSI_STR_COLUMNS_TRUNCATE = 2,
    /* ansi_str_pad and ansi_str_fit to `first` columns with the alignment `place` */
    ANSI_STR_COLUMNS_PAD = 3,
    ANSI_STR_COLUMNS_FIT = 4
};

/* One edit of a text by columns. The pointer is never NULL; the functions below, from ansi_str_column_edit_expand on, make an
   edit with a good one. Edits are read only during a call, so their tails must live until it returns. */
typedef struct {
    uint32_t kind;
    uint32_t place;
    size_t first;
    size_t second;
    const uint8_t *tail;
    size_t tail_len;
} ansi_str_column_step;

/* The calls themselves, for other languages. Here no pointer may be NULL, whatever its length. The functions below
   have the same names without `raw`; their comments say what each call does. */
ansi_str_answer ansi_str_raw_strip(const uint8_t *text, size_t text_len, uint8_t *buffer, size_t buffer_len);
ansi_str_answer ansi_str_raw_cut(const uint8_t *text, size_t text_len, size_t start, size_t end, uint8_t *buffer,
                                 size_t buffer_len);
ansi_str_answer ansi_str_raw_left(const uint8_t *text, size_t text_len, size_t mid, uint8_t *buffer, size_t buffer_len);
ansi_str_answer ansi_str_raw_right(const uint8_t *text, size_t text_len, size_t mid, uint8_t *buffer,
                                   size_t buffer_len);
ansi_str_answer ansi_str_raw_trim(const uint8_t *text, size_t text_len, uint8_t *buffer, size_t buffer_len);
ansi_str_answer ansi_str_raw_strip_prefix(const uint8_t *text, size_t text_len, const uint8_t *pattern,
                                          size_t pattern_len, uint8_t *buffer, size_t buffer_len);
ansi_str_answer ansi_str_raw_strip_suffix(const uint8_t *text, size_t text_len, const uint8_t *pattern,
                                          size_t pattern_len, uint8_t *buffer, size_t buffer_len);
ansi_str_answer ansi_str_raw_part(const uint8_t *text, size_t text_len, const uint8_t *pattern, size_t pattern_len,
                                  size_t index, uint8_t *buffer, size_t buffer_len);
ansi_str_answer ansi_str_raw_find(const uint8_t *text, size_t text_len, const uint8_t *pattern, size_t pattern_len);
ansi_str_answer ansi_str_raw_find_from(const uint8_t *text, size_t text_len, size_t position, const uint8_t *pattern,
                                       size_t pattern_len);
ansi_str_answers ansi_str_raw_matches(const uint8_t *text, size_t text_len, const uint8_t *pattern, size_t pattern_len,
                                      ansi_str_range *ranges, size_t ranges_len);
ansi_str_answer ansi_str_raw_restyle(const uint8_t *text, size_t text_len, const ansi_str_range *ranges, size_t ranges_len,
                                     const uint8_t *codes, size_t codes_len, uint8_t *buffer, size_t buffer_len);
ansi_str_answer ansi_str_raw_refused_range(const uint8_t *text, size_t text_len, const ansi_str_range *ranges,
                                           size_t ranges_len);
ansi_str_answer ansi_str_raw_mark(const uint8_t *text, size_t text_len, const uint8_t *pattern, size_t pattern_len,
                                  const uint8_t *codes, size_t codes_len, uint8_t *buffer, size_t buffer_len);
ansi_str_answer ansi_str_raw_remove(const uint8_t *text, size_t text_len, size_t start, size_t end, uint8_t *buffer,
                                    size_t buffer_len);
ansi_str_answer ansi_str_raw_replace(const uint8_t *text, size_t text_len, size_t start, size_t end, const uint8_t *with,
                                     size_t with_len, uint8_t *buffer, size_t buffer_len);
ansi_str_answer ansi_str_raw_insert(const uint8_t *text, size_t text_len, size_t position, const uint8_t *with, size_t with_len,
                                    uint8_t *buffer, size_t buffer_len);
ansi_str_answer ansi_str_raw_replace_all(const uint8_t *text, size_t text_len, const uint8_t *pattern, size_t pattern_len,
                                         const uint8_t *with, size_t with_len, uint8_t *buffer, size_t buffer_len);
ansi_str_answer ansi_str_raw_replace_each(const uint8_t *text, size_t text_len, const ansi_str_replacement *replacements,
                                          size_t replacements_len, uint8_t *buffer, size_t buffer_len);
ansi_str_answer ansi_str_raw_link(const uint8_t *text, size_t text_len, size_t start, size_t end, const uint8_t *address,
                                  size_t address_len, uint8_t *buffer, size_t buffer_len);
ansi_str_answer ansi_str_raw_unlink(const uint8_t *text, size_t text_len, uint8_t *buffer, size_t buffer_len);
ansi_str_answers ansi_str_raw_links(const uint8_t *text, size_t text_len, uint8_t *buffer, size_t buffer_len,
                                    ansi_str_link_entry *links, size_t links_len);
ansi_str_answer ansi_str_raw_pen_after(const uint8_t *text, size_t text_len, ansi_str_pen *pen);
ansi_str_answer ansi_str_raw_pen_start(const uint8_t *text, size_t text_len, uint8_t *buffer, size_t buffer_len);
ansi_str_answer ansi_str_raw_pen_end(const uint8_t *text, size_t text_len, uint8_t *buffer, size_t buffer_len);
ansi_str_answer ansi_str_raw_starts_with(const uint8_t *text, size_t text_len, const uint8_t *pattern,
                                         size_t pattern_len);
ansi_str_answer ansi_str_raw_ends_with(const uint8_t *text, size_t text_len, const uint8_t *pattern,
                                       size_t pattern_len);
ansi_str_answer ansi_str_raw_is_char_boundary(const uint8_t *text, size_t text_len, size_t index);
ansi_str_answer ansi_str_raw_floor_char_boundary(const uint8_t *text, size_t text_len, size_t index);
ansi_str_answer ansi_str_raw_is_whole(const uint8_t *text, size_t text_len);
ansi_str_answer ansi_str_raw_has_any(const uint8_t *text, size_t text_len);
ansi_str_answer ansi_str_raw_block(const uint8_t *text, size_t text_len, size_t index, uint8_t *buffer,
                                   size_t buffer_len);
ansi_str_answer ansi_str_raw_block_start(const uint8_t *text, size_t text_len, size_t index, uint8_t *buffer,
                                         size_t buffer_len);
ansi_str_answer ansi_str_raw_block_end(const uint8_t *text, size_t text_len, size_t index, uint8_t *buffer,
                                       size_t buffer_len);
ansi_str_style_answer ansi_str_raw_block_style(const uint8_t *text, size_t text_len, size_t index);
ansi_str_answer ansi_str_raw_edit(const uint8_t *text, size_t text_len, const ansi_str_edit_step *edits,
                                  size_t edits_len, uint8_t *buffer, size_t buffer_len);
ansi_str_answers ansi_str_raw_split(const uint8_t *text, size_t text_len, const uint8_t *pattern, size_t pattern_len,
                                    uint8_t *buffer, size_t buffer_len, size_t *ends, size_t ends_len);
ansi_str_answers ansi_str_raw_blocks(const uint8_t *text, size_t text_len, uint8_t *buffer, size_t buffer_len,
                                     ansi_str_block_entry *blocks, size_t blocks_len);
ansi_str_answers ansi_str_raw_styled_blocks(const uint8_t *text, size_t text_len, uint8_t *buffer, size_t buffer_len,
                                            ansi_str_styled_block_entry *blocks, size_t blocks_len);
/* (walks, blocks, parts and pens need good pointers too; `ansi_str_no_walk` and the like make those that have them) */
ansi_str_answer ansi_str_raw_blocks_begin(const uint8_t *text, size_t text_len, ansi_str_block_walk *walk);
ansi_str_answer ansi_str_raw_blocks_next(ansi_str_block_walk *walk, ansi_str_next_block *block, uint8_t *buffer,
                                         size_t buffer_len);
ansi_str_answer ansi_str_raw_parts_begin(const uint8_t *text, size_t text_len, const uint8_t *pattern, size_t pattern_len,
                                         ansi_str_part_walk *walk);
ansi_str_answer ansi_str_raw_parts_next(ansi_str_part_walk *walk, ansi_str_next_part *part, uint8_t *buffer,
                                        size_t buffer_len);
ansi_str_answer ansi_str_raw_lines_begin(const uint8_t *text, size_t text_len, size_t width, ansi_str_line_walk *walk);
ansi_str_answer ansi_str_raw_lines_next(ansi_str_line_walk *walk, ansi_str_line_entry *line);
ansi_str_answer ansi_str_raw_style_start(const ansi_str_style *style, uint8_t *buffer, size_t buffer_len);
ansi_str_answer ansi_str_raw_style_end(const ansi_str_style *style, uint8_t *buffer, size_t buffer_len);
ansi_str_style ansi_str_raw_style_union(const ansi_str_style *first, const ansi_str_style *second);
ansi_str_style ansi_str_raw_style_difference(const ansi_str_style *first, const ansi_str_style *second);
ansi_str_answer ansi_str_raw_width(const uint8_t *text, size_t text_len);
ansi_str_answer ansi_str_raw_fitting(const uint8_t *text, size_t text_len, size_t width);
ansi_str_answer ansi_str_raw_column_of(const uint8_t *text, size_t text_len, size_t position);
ansi_str_answer ansi_str_raw_truncate(const uint8_t *text, size_t text_len, size_t width, const uint8_t *tail,
                                      size_t tail_len, uint8_t *buffer, size_t buffer_len);
ansi_str_answer ansi_str_raw_pad(const uint8_t *text, size_t text_len, size_t width, uint32_t alignment,
                                 uint8_t *buffer, size_t buffer_len);
ansi_str_answer ansi_str_raw_fit(const uint8_t *text, size_t text_len, size_t width, uint32_t alignment,
                                 const uint8_t *tail, size_t tail_len, uint8_t *buffer, size_t buffer_len);
ansi_str_answer ansi_str_raw_truncate_with(const uint8_t *text, size_t text_len, size_t width, const uint8_t *tail,
                                           size_t tail_len, uint32_t side, uint8_t *buffer, size_t buffer_len);
ansi_str_answer ansi_str_raw_slice(const uint8_t *text, size_t text_len, size_t start, size_t end, uint8_t *buffer,
                                   size_t buffer_len);
ansi_str_answer ansi_str_raw_expand_tabs(const uint8_t *text, size_t text_len, size_t stop, uint8_t *buffer,
                                         size_t buffer_len);
ansi_str_answer ansi_str_raw_edit_columns(const uint8_t *text, size_t text_len, const ansi_str_column_step *edits,
                                          size_t edits_len, uint8_t *buffer, size_t buffer_len);
ansi_str_answers ansi_str_raw_wrap(const uint8_t *text, size_t text_len, size_t width, uint8_t *buffer, size_t buffer_len,
                                   size_t *ends, size_t ends_len);
ansi_str_answers ansi_str_raw_wrap_with(const uint8_t *text, size_t text_len, size_t width, const uint8_t *first_indent,
                                        size_t first_indent_len, const uint8_t *indent, size_t indent_len, uint8_t *buffer,
                                        size_t buffer_len, size_t *ends, size_t ends_len);
ansi_str_answers ansi_str_raw_lines(const uint8_t *text, size_t text_len, size_t width, ansi_str_line_entry *lines,
                                    size_t lines_len);
ansi_str_answer ansi_str_raw_link_at(const uint8_t *text, size_t text_len, size_t index, uint8_t *buffer, size_t buffer_len);
ansi_str_answer ansi_str_raw_sanitize(const uint8_t *text, size_t text_len, uint32_t rest, uint32_t links, uint8_t *buffer,
                                      size_t buffer_len);
ansi_str_answer ansi_str_raw_sanitize_bytes(const uint8_t *bytes, size_t bytes_len, uint32_t rest, uint32_t links,
                                            uint8_t *buffer, size_t buffer_len);
ansi_str_answer ansi_str_raw_is_safe(const uint8_t *text, size_t text_len, uint32_t links);

/* The same for a caller who promises that each text and each pattern is UTF-8, for example by its type: these calls don't
   check it. With any other bytes the behavior is undefined. */
ansi_str_answer ansi_str_raw_strip_unchecked(const uint8_t *text, size_t text_len, uint8_t *buffer, size_t buffer_len);
ansi_str_answer ansi_str_raw_find_unchecked(const uint8_t *text, size_t text_len, const uint8_t *pattern,
                                            size_t pattern_len);
ansi_str_answer ansi_str_raw_starts_with_unchecked(const uint8_t *text, size_t text_len, const uint8_t *pattern,
                                                   size_t pattern_len);
ansi_str_answer ansi_str_raw_ends_with_unchecked(const uint8_t *text, size_t text_len, const uint8_t *pattern,
                                                 size_t pattern_len);
ansi_str_answer ansi_str_raw_is_char_boundary_unchecked(const uint8_t *text, size_t text_len, size_t index);
ansi_str_answer ansi_str_raw_floor_char_boundary_unchecked(const uint8_t *text, size_t text_len, size_t index);
void ansi_str_raw_blocks_begin_unchecked(const uint8_t *text, size_t text_len, ansi_str_block_walk *walk);
void ansi_str_raw_parts_begin_unchecked(const uint8_t *text, size_t text_len, const uint8_t *pattern, size_t pattern_len,
                                        ansi_str_part_walk *walk);

/* The pointer, or a good one for NULL. */
static inline const uint8_t *ansi_str_bytes(const char *bytes) {
    return (const uint8_t *)(bytes == NULL ? "" : bytes);
}

static inline uint8_t *ansi_str_room(char *buffer) {
    return (uint8_t *)(uintptr_t)ansi_str_bytes(buffer);
}

/* The plain text: the text without its sequences. It is never longer than the text. Doesn't allocate for a buffer as long as the text.
   "\x1b[31mred\x1b[39m and plain" gives "red and plain". */
static inline ansi_str_answer ansi_str_strip(const char *text, size_t text_len, char *buffer, size_t buffer_len) {
    return ansi_str_raw_strip(ansi_str_bytes(text), text_len, ansi_str_room(buffer), buffer_len);
}

/* The text from one position up to another, each character in its style. Every sequence up to the end stays, at its place,
   and the close of the style follows, so no style stays open. The result is at most ANSI_STR_LONGEST_CLOSE bytes longer
   than the text. ANSI_STR_REFUSED: a position is inside a character, or `end` is below `start`.
   "\x1b[30mTEXT\x1b[39m" from 1 up to 3 gives "\x1b[30mEX\x1b[39m". */
static inline ansi_str_answer ansi_str_cut(const char *text, size_t text_len, size_t start, size_t end, char *buffer,
                                           size_t buffer_len) {
    return ansi_str_raw_cut(ansi_str_bytes(text), text_len, start, end, ansi_str_room(buffer), buffer_len);
}

/* The text before a position, each run of text with the start of its style before it and the close after it. A sequence
   that isn't SGR stays if it is before the position or at it. ANSI_STR_REFUSED: the position is inside a character.
   "\x1b[30mTEXT\x1b[39m" at 2 gives "\x1b[30mTE\x1b[39m". */
static inline ansi_str_answer ansi_str_left(const char *text, size_t text_len, size_t mid, char *buffer,
                                            size_t buffer_len) {
    return ansi_str_raw_left(ansi_str_bytes(text), text_len, mid, ansi_str_room(buffer), buffer_len);
}

/* The text from a position on, as ansi_str_left. "\x1b[30mTEXT\x1b[39m" at 2 gives "\x1b[30mXT\x1b[39m". */
static inline ansi_str_answer ansi_str_right(const char *text, size_t text_len, size_t mid, char *buffer,
                                             size_t buffer_len) {
    return ansi_str_raw_right(ansi_str_bytes(text), text_len, mid, ansi_str_room(buffer), buffer_len);
}

/* The text without the white space at the ends of its plain text; every sequence stays. It is never longer than the
   text. " \x1b[31m red \x1b[39m " gives "\x1b[31mred\x1b[39m". */
static inline ansi_str_answer ansi_str_trim(const char *text, size_t text_len, char *buffer, size_t buffer_len) {
    return ansi_str_raw_trim(ansi_str_bytes(text), text_len, ansi_str_room(buffer), buffer_len);
}

/* The text without a prefix of its plain text; every sequence stays. It is never longer than the text. ANSI_STR_NO: the
   plain text doesn't begin with it. "\x1b[31mred\x1b[39m" without "re" gives "\x1b[31md\x1b[39m". */
static inline ansi_str_answer ansi_str_strip_prefix(const char *text, size_t text_len, const char *pattern,
                                                    size_t pattern_len, char *buffer, size_t buffer_len) {
    return ansi_str_raw_strip_prefix(ansi_str_bytes(text), text_len, ansi_str_bytes(pattern), pattern_len,
                                     ansi_str_room(buffer), buffer_len);
}

/* The text without a suffix of its plain text, as ansi_str_strip_prefix. */
static inline ansi_str_answer ansi_str_strip_suffix(const char *text, size_t text_len, const char *pattern,
                                                    size_t pattern_len, char *buffer, size_t buffer_len) {
    return ansi_str_raw_strip_suffix(ansi_str_bytes(text), text_len, ansi_str_bytes(pattern), pattern_len,
                                     ansi_str_room(buffer), buffer_len);
}

/* The part of an index, counted from 0, between the matches of a pattern, with its sequences and in its style. It is at
   most ANSI_STR_LONGEST_START_AND_CLOSE bytes longer than the text. ANSI_STR_NO: there is no such part. In a loop over all
   indices each call walks to its part anew; ansi_str_split returns all parts in one walk.
   Of "\x1b[31mlion::tiger\x1b[0m" at "::" 1 gives "\x1b[31mtiger\x1b[0m". */
static inline ansi_str_answer ansi_str_part(const char *text, size_t text_len, const char *pattern, size_t pattern_len,
                                            size_t index, char *buffer, size_t buffer_len) {
    return ansi_str_raw_part(ansi_str_bytes(text), text_len, ansi_str_bytes(pattern), pattern_len, index,
                             ansi_str_room(buffer), buffer_len);
}

/* The position of the pattern's first match in the plain text, as the returned length. ANSI_STR_NO: there is no match.
   Doesn't allocate. */
static inline ansi_str_answer ansi_str_find(const char *text, size_t text_len, const char *pattern,
                                            size_t pattern_len) {
    return ansi_str_raw_find(ansi_str_bytes(text), text_len, ansi_str_bytes(pattern), pattern_len);
}

/* The position of the pattern's first match in the plain text that doesn't begin before a position, which may be inside a
   character, as the returned length. It reads the text from the front each time: for all matches call ansi_str_matches once.
   ANSI_STR_NO: there is no such match. Doesn't allocate.
   In "ab\x1b[1mab" from 1 on "ab" is at 2. */
static inline ansi_str_answer ansi_str_find_from(const char *text, size_t text_len, size_t position, const char *pattern,
                                                 size_t pattern_len) {
    return ansi_str_raw_find_from(ansi_str_bytes(text), text_len, position, ansi_str_bytes(pattern), pattern_len);
}

/* Where each match of the pattern begins and ends in the plain text, in order. They don't overlap, and may run across
   sequences. An empty pattern matches at each beginning of a character and at the end. The returned count is the number of
   matches, at most one more than the plain text has bytes, and the length 0. ansi_str_restyle takes the ranges as they are.
   ANSI_STR_TOO_SMALL: there are more than `ranges_len`. Doesn't allocate.
   "a\x1b[1mba\x1b[0mb" has "ab" from 0 up to 2 and from 2 up to 4. */
static inline ansi_str_answers ansi_str_matches(const char *text, size_t text_len, const char *pattern, size_t pattern_len,
                                                ansi_str_range *ranges, size_t ranges_len) {
    ansi_str_range none;
    return ansi_str_raw_matches(ansi_str_bytes(text), text_len, ansi_str_bytes(pattern), pattern_len,
                                ranges == NULL ? &none : ranges, ranges_len);
}

/* From here to ansi_str_unlink, what is said to stay stays on a whole text (ansi_str_is_whole). In another one, an ESC that begins
   no sequence can join the bytes that come to follow it: "\x1b" with "y" put in at 0 shows nothing, and "\x1b\x1b]8;;\x1b\\m"
   without its links is "\x1bm", a sequence. */

/* The text with SGR codes applied to each character in the ranges. The codes are the parameters of an SGR, such as "1;31":
   each character there has its own style after them. So "1" makes it bold and keeps its color, "22" makes it neither bold nor
   faint, and "0" or no code makes it plain. Every other character keeps its style, except for what an unknown code, such as "4:3"
   or "38:2::1:2:3", has set: that ends after the next run of text in a range. The plain text and every other sequence stay.
   The result is at most codes_len + 3 + ANSI_STR_LONGEST_START_AND_CLOSE bytes longer for each range and for each block of the
   text. ANSI_STR_REFUSED: the codes have a byte other than a digit, ";" and ":"; or a range begins before the one before it ends,
   ends below its start or past the end of the plain text, or begins or ends inside a character. ANSI_STR_NOT_UTF8: the text or
   the codes aren't UTF-8. Allocates if there is a range, on any text.
   "red \x1b[31mred" with "4" from 0 up to 2 and from 5 up to 6 gives
   "\x1b[4mre\x1b[24md \x1b[31mr\x1b[4me\x1b[24m\x1b[39m\x1b[31md". */
static inline ansi_str_answer ansi_str_restyle(const char *text, size_t text_len, const ansi_str_range *ranges, size_t ranges_len,
                                               const char *codes, size_t codes_len, char *buffer, size_t buffer_len) {
    ansi_str_range none = {0, 0};
    return ansi_str_raw_restyle(ansi_str_bytes(text), text_len, ranges == NULL ? &none : ranges, ranges_len,
                                ansi_str_bytes(codes), codes_len, ansi_str_room(buffer), buffer_len);
}

/* Which range ansi_str_restyle and ansi_str_replace_each refuse: the index of the first, counted from 0, as the returned length.
   ANSI_STR_NO: they refuse none. Allocates if there is a range, on any text.
   Of "red" with ranges from 0 up to 2 and from 1 up to 3 it is 1. */
static inline ansi_str_answer ansi_str_refused_range(const char *text, size_t text_len, const ansi_str_range *ranges,
                                                     size_t ranges_len) {
    ansi_str_range none = {0, 0};
    return ansi_str_raw_refused_range(ansi_str_bytes(text), text_len, ranges == NULL ? &none : ranges, ranges_len);
}

/* The text with SGR codes applied to each match of the pattern, as ansi_str_matches finds them and ansi_str_restyle applies them.
   ANSI_STR_REFUSED: the codes have a byte other than a digit, ";" and ":". Allocates if a match isn't empty, on any text.
   "to do: \x1b[1mdo" with "do" and "7" gives "to \x1b[7mdo\x1b[27m: \x1b[1m\x1b[7mdo\x1b[22m\x1b[27m\x1b[1m". */
static inline ansi_str_answer ansi_str_mark(const char *text, size_t text_len, const char *pattern, size_t pattern_len,
                                            const char *codes, size_t codes_len, char *buffer, size_t buffer_len) {
    return ansi_str_raw_mark(ansi_str_bytes(text), text_len, ansi_str_bytes(pattern), pattern_len, ansi_str_bytes(codes),
                             codes_len, ansi_str_room(buffer), buffer_len);
}

/* The text without its plain bytes from one position up to another. Every sequence stays, so each character that is left keeps its
   style. It is never longer than the text. ANSI_STR_REFUSED: `end` is below `start` or past the end of the plain text, or a
   position is inside a character. Allocates if the range isn't empty, on any text.
   "one \x1b[1mtwo\x1b[22m three" from 2 up to 5 gives "on\x1b[1mwo\x1b[22m three". */
static inline ansi_str_answer ansi_str_remove(const char *text, size_t text_len, size_t start, size_t end, char *buffer,
                                              size_t buffer_len) {
    return ansi_str_raw_remove(ansi_str_bytes(text), text_len, start, end, ansi_str_room(buffer), buffer_len);
}

/* The text with another text in place of its plain bytes from one position up to another. The new text is in the style and the
   link of the character before `start`; at the front, of the first one. Its own sequences come on top of that, and what they open
   ends with it. Each character before the range or after it keeps its style and its link, except that what an unknown code, such
   as "4:3", has set ends with a new text that has an ESC. Every sequence of the text stays; those in the range come right after
   the new text. The result is at most ANSI_STR_LONGEST_START_AND_CLOSE + ANSI_STR_LONGEST_LINK_END bytes longer than both texts
   and the sequence of the link there. ANSI_STR_REFUSED: as ansi_str_remove. ANSI_STR_NOT_UTF8: one of the texts isn't UTF-8.
   Allocates if the range or the new text isn't empty, on any text.
   "\x1b[32mgreen\x1b[39m" from 1 up to 3 with "\x1b[1mAB" gives "\x1b[32mg\x1b[1mAB\x1b[22m\x1b[39m\x1b[32men\x1b[39m". */
static inline ansi_str_answer ansi_str_replace(const char *text, size_t text_len, size_t start, size_t end, const char *with,
                                               size_t with_len, char *buffer, size_t buffer_len) {
    return ansi_str_raw_replace(ansi_str_bytes(text), text_len, start, end, ansi_str_bytes(with), with_len, ansi_str_room(buffer),
                                buffer_len);
}

/* The text with another text put in at a position, as ansi_str_replace does it with an empty range there. ANSI_STR_REFUSED: the
   position is past the end of the plain text or inside a character. Allocates if the new text isn't empty, on any text.
   "\x1b[32mgreen\x1b[39m." at 5 with "ish" gives "\x1b[32mgreenish\x1b[39m.". */
static inline ansi_str_answer ansi_str_insert(const char *text, size_t text_len, size_t position, const char *with,
                                              size_t with_len, char *buffer, size_t buffer_len) {
    return ansi_str_raw_insert(ansi_str_bytes(text), text_len, position, ansi_str_bytes(with), with_len, ansi_str_room(buffer),
                               buffer_len);
}

/* The text with another text in place of each match of the pattern, as ansi_str_matches finds them and ansi_str_replace replaces
   each: the new text is in the style and the link that the character before the match has in this text. Every other character
   keeps its style and its link as there, and every sequence of the text stays. What is put in isn't searched. For each match the result is
   at most with_len + ANSI_STR_LONGEST_START_AND_CLOSE + ANSI_STR_LONGEST_LINK_END bytes longer than the text, and the sequence
   that opened the link there: at most ANSI_STR_LONGEST_LINK bytes if the text is safe (ansi_str_is_safe), otherwise up to text_len,
   so that 16 KB can become 64 MB. ansi_str_matches with no ranges counts the matches first. ANSI_STR_NOT_UTF8: one of the texts
   isn't UTF-8. Allocates if the pattern matches.
   "\x1b[32mone\x1b[39m, one" with "one" and "two" gives "\x1b[32mtwo\x1b[39m, two". */
static inline ansi_str_answer ansi_str_replace_all(const char *text, size_t text_len, const char *pattern, size_t pattern_len,
                                                   const char *with, size_t with_len, char *buffer, size_t buffer_len) {
    return ansi_str_raw_replace_all(ansi_str_bytes(text), text_len, ansi_str_bytes(pattern), pattern_len, ansi_str_bytes(with),
                                    with_len, ansi_str_room(buffer), buffer_len);
}

/* A replacement, for ansi_str_replace_each. */
static inline ansi_str_replacement ansi_str_replacement_of(size_t start, size_t end, const char *with, size_t with_len) {
    ansi_str_replacement replacement;
    replacement.start = start;
    replacement.end = end;
    replacement.with = ansi_str_bytes(with);
    replacement.with_len = with_len;
    return replacement;
}

/* The text with a text of its own in place of each of many ranges, in one pass. Positions count bytes of the plain text of this
   text. Each range is replaced as ansi_str_replace does it: its new text is in the style and the link that the character before
   the range has in this text. Every other character keeps its style and its link as there, and every sequence of the text stays. Several
   texts at one position come in order. For each range the result is at most as much longer than the text as ansi_str_replace_all
   says, with the length of the range's own text.
   ANSI_STR_REFUSED: the ranges are refused as by ansi_str_restyle. ANSI_STR_NOT_UTF8: one of the texts isn't UTF-8. Allocates if
   there is a range, on any text.
   "one \x1b[32mtwo\x1b[39m" with "1" from 0 up to 3 and "2" from 4 up to 7 gives "1 2\x1b[32m\x1b[39m". */
static inline ansi_str_answer ansi_str_replace_each(const char *text, size_t text_len, const ansi_str_replacement *replacements,
                                                    size_t replacements_len, char *buffer, size_t buffer_len) {
    ansi_str_replacement none = ansi_str_replacement_of(0, 0, NULL, 0);
    return ansi_str_raw_replace_each(ansi_str_bytes(text), text_len, replacements == NULL ? &none : replacements, replacements_len,
                                     ansi_str_room(buffer), buffer_len);
}

/* The text with its plain bytes from one position up to another linked to an address (OSC 8, without parameters). Each character in
   the range loses another link that it had. Every other character keeps its link: one that goes on into the range ends before it,
   and one that goes on after it is opened again there. The plain text, the styles and all other sequences stay. The result is at
   most 21 bytes longer than the text, the address, and the sequence of the link that is open at `end`. ANSI_STR_REFUSED: as
   ansi_str_remove; or the address is empty, has more than ANSI_STR_LONGEST_ADDRESS bytes, or has a byte that isn't printable
   ASCII (20 to 7E). ANSI_STR_NOT_UTF8: the text or the address isn't UTF-8. Allocates if the range isn't empty, on any text.
   "see \x1b[1mhere" from 4 up to 8 with "http://x" gives "see \x1b[1m\x1b]8;;http://x\x1b\\here\x1b]8;;\x1b\\". */
static inline ansi_str_answer ansi_str_link(const char *text, size_t text_len, size_t start, size_t end, const char *address,
                                            size_t address_len, char *buffer, size_t buffer_len) {
    return ansi_str_raw_link(ansi_str_bytes(text), text_len, start, end, ansi_str_bytes(address), address_len,
                             ansi_str_room(buffer), buffer_len);
}

/* The text without its links: its OSC 8 sequences are left out, and everything else stays. It is never longer than the text.
   Allocates if there is such a sequence.
   "\x1b]8;;http://x\x1b\\a \x1b[1mlink\x1b[0m\x1b]8;;\x1b\\" gives "a \x1b[1mlink\x1b[0m". */
static inline ansi_str_answer ansi_str_unlink(const char *text, size_t text_len, char *buffer, size_t buffer_len) {
    return ansi_str_raw_unlink(ansi_str_bytes(text), text_len, ansi_str_room(buffer), buffer_len);
}

/* The links of the text, in order: their addresses one after the other, and for each where its range begins and ends in the
   plain text and where its address ends in the buffer. An OSC 8 sequence with an address opens a link, which goes on up to the
   next OSC 8 sequence or the end of the text. A link without text is left out. The returned count is the number of links, and the
   length that of all addresses; neither is more than text_len. ANSI_STR_TOO_SMALL: there are more than `links_len` links or
   `buffer_len` bytes. Doesn't allocate.
   "a \x1b]8;;http://x\x1b\\l\x1b[1mink\x1b]8;;\x1b\\" has a link from 2 up to 6 to "http://x". */
static inline ansi_str_answers ansi_str_links(const char *text, size_t text_len, char *buffer, size_t buffer_len,
                                              ansi_str_link_entry *links, size_t links_len) {
    ansi_str_link_entry none;
    return ansi_str_raw_links(ansi_str_bytes(text), text_len, ansi_str_room(buffer), buffer_len, links == NULL ? &none : links,
                              links_len);
}

/* A pen with nothing open. */
static inline ansi_str_pen ansi_str_no_pen(void) {
    ansi_str_pen pen;
    memset(&pen, 0, sizeof pen);
    pen.link = ansi_str_bytes(NULL);
    return pen;
}

/* The style and the link (OSC 8) that are open at the end of the text, into `pen`. They go on into what is printed next. With any
   status but ANSI_STR_OK nothing is open. Doesn't allocate.
   After "\x1b[31mred \x1b]8;;http://x\x1b\\link" the style has the red foreground, and the link is "http://x". */
static inline ansi_str_answer ansi_str_pen_after(const char *text, size_t text_len, ansi_str_pen *pen) {
    *pen = ansi_str_no_pen();
    return ansi_str_raw_pen_after(ansi_str_bytes(text), text_len, pen);
}

/* The sequences that open both again, such as before the next of several lines: those that set the style, and then the one that
   opened the link, if a safe text keeps that. What an unknown SGR code has set isn't set again. At most
   ANSI_STR_LONGEST_START + text_len bytes. Allocates if a style or a link is open.
   After "\x1b[1;31mred" they are "\x1b[1m\x1b[31m". */
static inline ansi_str_answer ansi_str_pen_start(const char *text, size_t text_len, char *buffer, size_t buffer_len) {
    return ansi_str_raw_pen_start(ansi_str_bytes(text), text_len, ansi_str_room(buffer), buffer_len);
}

/* The sequences that close both: the end of the link, and then the close of the style. At most
   ANSI_STR_LONGEST_LINK_END + ANSI_STR_LONGEST_CLOSE bytes. Allocates if there are any.
   After "\x1b[1;31mred" they are "\x1b[22m\x1b[39m". */
static inline ansi_str_answer ansi_str_pen_end(const char *text, size_t text_len, char *buffer, size_t buffer_len) {
    return ansi_str_raw_pen_end(ansi_str_bytes(text), text_len, ansi_str_room(buffer), buffer_len);
}

/* Whether the plain text begins with the pattern: ANSI_STR_OK or ANSI_STR_NO. Doesn't allocate. */
static inline ansi_str_answer ansi_str_starts_with(const char *text, size_t text_len, const char *pattern,
                                                   size_t pattern_len) {
    return ansi_str_raw_starts_with(ansi_str_bytes(text), text_len, ansi_str_bytes(pattern), pattern_len);
}

/* Whether the plain text ends with the pattern, as ansi_str_starts_with. */
static inline ansi_str_answer ansi_str_ends_with(const char *text, size_t text_len, const char *pattern,
                                                 size_t pattern_len) {
    return ansi_str_raw_ends_with(ansi_str_bytes(text), text_len, ansi_str_bytes(pattern), pattern_len);
}

/* Whether a character of the plain text begins at the index, or the plain text ends there: ANSI_STR_OK or ANSI_STR_NO.
   Doesn't allocate. */
static inline ansi_str_answer ansi_str_is_char_boundary(const char *text, size_t text_len, size_t index) {
    return ansi_str_raw_is_char_boundary(ansi_str_bytes(text), text_len, index);
}

/* The last position up to the index at which a character of the plain text begins or the plain text ends, as the returned
   length. So a cut from 0 up to it has as many whole characters as fit in `index` bytes, and is never refused. Doesn't
   allocate. "\x1b[1mL\xc3\xb6we" at 2 gives 1. */
static inline ansi_str_answer ansi_str_floor_char_boundary(const char *text, size_t text_len, size_t index) {
    return ansi_str_raw_floor_char_boundary(ansi_str_bytes(text), text_len, index);
}

/* Whether no ESC in the text begins an unfinished sequence: ANSI_STR_OK or ANSI_STR_NO. Doesn't allocate. */
static inline ansi_str_answer ansi_str_is_whole(const char *text, size_t text_len) {
    return ansi_str_raw_is_whole(ansi_str_bytes(text), text_len);
}

/* Whether the text has an ESC: ANSI_STR_OK or ANSI_STR_NO. Doesn't allocate. */
static inline ansi_str_answer ansi_str_has_any(const char *text, size_t text_len) {
    return ansi_str_raw_has_any(ansi_str_bytes(text), text_len);
}

/* The text of the block of an index, counted from 0: the non-SGR sequences since the last run, and then a run of text in one
   style. ANSI_STR_NO: there is no such block. In a loop over all indices each call of ansi_str_block, _start, _end or _style
   walks to its block anew; ansi_str_blocks returns all texts and styles in one walk, and ansi_str_blocks_next one by one.
   Of "\x1b[31mred\x1b[39m and plain" 0 gives "red", and 1 " and plain". */
static inline ansi_str_answer ansi_str_block(const char *text, size_t text_len, size_t index, char *buffer,
                                             size_t buffer_len) {
    return ansi_str_raw_block(ansi_str_bytes(text), text_len, index, ansi_str_room(buffer), buffer_len);
}

/* The sequences that set the style of the block of an index: ANSI_STR_LONGEST_START bytes at most. ANSI_STR_NO: there is no
   such block. Allocates even on a text without ESC. ansi_str_styled_blocks returns all starts and closes in one walk. */
static inline ansi_str_answer ansi_str_block_start(const char *text, size_t text_len, size_t index, char *buffer,
                                                   size_t buffer_len) {
    return ansi_str_raw_block_start(ansi_str_bytes(text), text_len, index, ansi_str_room(buffer), buffer_len);
}

/* The sequences that close the style of the block of an index: ANSI_STR_LONGEST_CLOSE bytes at most. ANSI_STR_NO: there is
   no such block. Allocates even on a text without ESC. ansi_str_styled_blocks returns all in one walk. */
static inline ansi_str_answer ansi_str_block_end(const char *text, size_t text_len, size_t index, char *buffer,
                                                 size_t buffer_len) {
    return ansi_str_raw_block_end(ansi_str_bytes(text), text_len, index, ansi_str_room(buffer), buffer_len);
}

/* The style of the block of an index. ANSI_STR_NO: there is no such block. ansi_str_blocks returns all styles in
   one walk. */
static inline ansi_str_style_answer ansi_str_block_style(const char *text, size_t text_len, size_t index) {
    return ansi_str_raw_block_style(ansi_str_bytes(text), text_len, index);
}

/* All parts of the text between the matches of a pattern, each as ansi_str_part returns it, one after the other in the
   buffer. Part i ends at ends[i] and begins at the end of the one before, the first at 0. There are at most two parts more
   than the plain text has bytes. ANSI_STR_TOO_SMALL: the buffer or `ends` is too small; the call returns how many bytes and
   how many ends are needed. */
static inline ansi_str_answers ansi_str_split(const char *text, size_t text_len, const char *pattern,
                                              size_t pattern_len, char *buffer, size_t buffer_len, size_t *ends,
                                              size_t ends_len) {
    size_t none;
    return ansi_str_raw_split(ansi_str_bytes(text), text_len, ansi_str_bytes(pattern), pattern_len,
                              ansi_str_room(buffer), buffer_len, ends == NULL ? &none : ends, ends_len);
}

/* All blocks of the text, each as ansi_str_block and ansi_str_block_style return it. Their texts are one after the other in
   the buffer, and together never longer than the text. There is at most one block for each byte. ANSI_STR_TOO_SMALL: the
   buffer or `blocks` is too small; the call returns how many bytes and how many blocks there are. */
static inline ansi_str_answers ansi_str_blocks(const char *text, size_t text_len, char *buffer, size_t buffer_len,
                                               ansi_str_block_entry *blocks, size_t blocks_len) {
    ansi_str_block_entry none;
    return ansi_str_raw_blocks(ansi_str_bytes(text), text_len, ansi_str_room(buffer), buffer_len,
                               blocks == NULL ? &none : blocks, blocks_len);
}

/* All blocks of the text, as ansi_str_blocks, each with the sequences that set its style before it and those that close it
   after it, as ansi_str_block_start and ansi_str_block_end return them: at most ANSI_STR_LONGEST_START_AND_CLOSE bytes more
   for each block. "a\x1b[31mb" gives "a" and "\x1b[31mb\x1b[39m". */
static inline ansi_str_answers ansi_str_styled_blocks(const char *text, size_t text_len, char *buffer,
                                                      size_t buffer_len, ansi_str_styled_block_entry *blocks,
                                                      size_t blocks_len) {
    ansi_str_styled_block_entry none;
    return ansi_str_raw_styled_blocks(ansi_str_bytes(text), text_len, ansi_str_room(buffer), buffer_len,
                                      blocks == NULL ? &none : blocks, blocks_len);
}

/* A walk with no block left, and below a block without text. */
static inline ansi_str_block_walk ansi_str_no_walk(void) {
    const uint8_t *nothing = ansi_str_bytes(NULL);
    ansi_str_block_walk walk;
    memset(&walk, 0, sizeof walk);
    memcpy(walk.state + ANSI_STR_STATE_TEXT, &nothing, sizeof nothing);
    return walk;
}

static inline ansi_str_next_block ansi_str_no_block(void) {
    ansi_str_next_block block;
    memset(&block, 0, sizeof block);
    block.text = ansi_str_bytes(NULL);
    return block;
}

/* Begins a walk over the blocks of the text; ansi_str_blocks_next returns them one by one. With any status but ANSI_STR_OK
   the walk has none left. */
static inline ansi_str_answer ansi_str_blocks_begin(const char *text, size_t text_len, ansi_str_block_walk *walk) {
    *walk = ansi_str_no_walk();
    return ansi_str_raw_blocks_begin(ansi_str_bytes(text), text_len, walk);
}

/* The next block of a walk. Its run and its style go into `block`; the non-SGR sequences before the run, which most blocks
   don't have, go into the buffer. So the text of ansi_str_block is what the buffer holds and then the run. ANSI_STR_NO:
   there is none left. With any status but ANSI_STR_OK `block` is empty and the walk is unchanged, so the call can be made
   again. A call reads up to the end of its block, so all blocks cost one walk. Allocates if an SGR follows such a sequence.
   The link of a run is that of ansi_str_pen_after of the text before the run; without such sequences, it is that of the run
   before. It is also that of ansi_str_links in whose range the run is: a sequence ends a run, so no run is only partly in a
   range. The position of a run is the length of all runs before it. */
static inline ansi_str_answer ansi_str_blocks_next(ansi_str_block_walk *walk, ansi_str_next_block *block, char *buffer,
                                                   size_t buffer_len) {
    *block = ansi_str_no_block();
    return ansi_str_raw_blocks_next(walk, block, ansi_str_room(buffer), buffer_len);
}

/* The sequences that set a style, and those that close it: at most ANSI_STR_LONGEST_START and ANSI_STR_LONGEST_CLOSE bytes. The
   style must be one that a call returned, or all 0. Allocates for more than 32 bytes. */
static inline ansi_str_answer ansi_str_style_start(const ansi_str_style *style, char *buffer, size_t buffer_len) {
    return ansi_str_raw_style_start(style, ansi_str_room(buffer), buffer_len);
}

static inline ansi_str_answer ansi_str_style_end(const ansi_str_style *style, char *buffer, size_t buffer_len) {
    return ansi_str_raw_style_end(style, ansi_str_room(buffer), buffer_len);
}

/* What is set in either of two styles. A color or a font of the second is taken before that of the first; ANSI_STR_RESET and
   ANSI_STR_UNKNOWN are those of the first. Each style must be one that a call returned, or all 0; the style of codes such as "1;31"
   is that of ansi_str_pen_after of "\x1b[1;31m". Doesn't allocate. Of the styles of "1;31" and "34" it is that of "1;34". */
static inline ansi_str_style ansi_str_style_union(const ansi_str_style *first, const ansi_str_style *second) {
    return ansi_str_raw_style_union(first, second);
}

/* What is set in the first of two styles and isn't set so in the second, as ansi_str_style_union: no attribute, color or font that
   both have. Of the styles of "1;31" and "31" it is that of "1". */
static inline ansi_str_style ansi_str_style_difference(const ansi_str_style *first, const ansi_str_style *second) {
    return ansi_str_raw_style_difference(first, second);
}

/* Whether a style has something to close: a color, a font or an attribute, of which ANSI_STR_RESET and ANSI_STR_UNKNOWN count only
   together. */
static inline bool ansi_str_style_has_any(const ansi_str_style *style) {
    uint32_t unseen = ANSI_STR_RESET | ANSI_STR_UNKNOWN;
    return (style->attributes & ~unseen) != 0 || (style->attributes & unseen) == unseen || style->foreground.kind != 0 ||
           style->background.kind != 0 || style->underline_color.kind != 0 || style->font.is_set;
}

/* A walk with no part left, and below a part without text. */
static inline ansi_str_part_walk ansi_str_no_part_walk(void) {
    const uint8_t *nothing = ansi_str_bytes(NULL);
    ansi_str_part_walk walk;
    memset(&walk, 0, sizeof walk);
    memcpy(walk.state + ANSI_STR_STATE_TEXT, &nothing, sizeof nothing);
    memcpy(walk.state + ANSI_STR_STATE_PATTERN, &nothing, sizeof nothing);
    walk.state[ANSI_STR_STATE_FINISHED] = true;
    return walk;
}

static inline ansi_str_next_part ansi_str_no_part(void) {
    ansi_str_next_part part;
    memset(&part, 0, sizeof part);
    part.text = ansi_str_bytes(NULL);
    return part;
}

/* Begins a walk over the parts of the text; ansi_str_parts_next returns them one by one. With any status but ANSI_STR_OK
   the walk has none left. */
static inline ansi_str_answer ansi_str_parts_begin(const char *text, size_t text_len, const char *pattern,
                                                   size_t pattern_len, ansi_str_part_walk *walk) {
    *walk = ansi_str_no_part_walk();
    return ansi_str_raw_parts_begin(ansi_str_bytes(text), text_len, ansi_str_bytes(pattern), pattern_len, walk);
}

/* The next part of a walk, as ansi_str_split returns it. If the part occurs unchanged in the text, it is in `part`, otherwise
   in the buffer; the other is empty. ANSI_STR_NO: there is none left. With any status but ANSI_STR_OK `part` is empty and
   the walk is unchanged, so the call can be made again. A call reads up to the end of its part, so all parts cost one walk.
   A part in the buffer is at most ANSI_STR_LONGEST_START_AND_CLOSE bytes longer than its stretch of the text. Allocates for
   it only if a sequence is inside the match before it, or if the start or the close around it has more than 32 bytes. */
static inline ansi_str_answer ansi_str_parts_next(ansi_str_part_walk *walk, ansi_str_next_part *part, char *buffer,
                                                  size_t buffer_len) {
    *part = ansi_str_no_part();
    return ansi_str_raw_parts_next(walk, part, ansi_str_room(buffer), buffer_len);
}

/* These functions make one edit each, for ansi_str_edit. */
static inline ansi_str_edit_step ansi_str_edit_of(uint32_t kind, size_t first, size_t second, const char *pattern,
                                                  size_t pattern_len) {
    ansi_str_edit_step step;
    step.kind = kind;
    step.first = first;
    step.second = second;
    step.pattern = ansi_str_bytes(pattern);
    step.pattern_len = pattern_len;
    return step;
}

static inline ansi_str_edit_step ansi_str_edit_cut(size_t start, size_t end) {
    return ansi_str_edit_of(ANSI_STR_EDIT_CUT, start, end, NULL, 0);
}

static inline ansi_str_edit_step ansi_str_edit_left(size_t mid) {
    return ansi_str_edit_of(ANSI_STR_EDIT_LEFT, mid, 0, NULL, 0);
}

static inline ansi_str_edit_step ansi_str_edit_right(size_t mid) {
    return ansi_str_edit_of(ANSI_STR_EDIT_RIGHT, mid, 0, NULL, 0);
}

static inline ansi_str_edit_step ansi_str_edit_part(const char *pattern, size_t pattern_len, size_t index) {
    return ansi_str_edit_of(ANSI_STR_EDIT_PART, index, 0, pattern, pattern_len);
}

static inline ansi_str_edit_step ansi_str_edit_prefix(const char *pattern, size_t pattern_len) {
    return ansi_str_edit_of(ANSI_STR_EDIT_PREFIX, 0, 0, pattern, pattern_len);
}

static inline ansi_str_edit_step ansi_str_edit_suffix(const char *pattern, size_t pattern_len) {
    return ansi_str_edit_of(ANSI_STR_EDIT_SUFFIX, 0, 0, pattern, pattern_len);
}

static inline ansi_str_edit_step ansi_str_edit_trim(void) {
    return ansi_str_edit_of(ANSI_STR_EDIT_TRIM, 0, 0, NULL, 0);
}

/* The text after all edits, each made on the result of the one before. ANSI_STR_REFUSED: one of them is refused at its turn,
   since its positions are bad, its pattern isn't there, there is no such part, or its kind is none of those above. Each
   pattern must be UTF-8, also that of an edit which takes none. Doesn't allocate on a text without ESC, for no edits, if the
   first is refused, and if each edit leaves the text unchanged or takes a part that occurs unchanged in it. */
static inline ansi_str_answer ansi_str_edit(const char *text, size_t text_len, const ansi_str_edit_step *edits,
                                            size_t edits_len, char *buffer, size_t buffer_len) {
    ansi_str_edit_step none = ansi_str_edit_trim();
    return ansi_str_raw_edit(ansi_str_bytes(text), text_len, edits == NULL ? &none : edits, edits_len,
                             ansi_str_room(buffer), buffer_len);
}

/* The display width of the text in columns of a terminal, as the returned length. It is the sum over the extended grapheme
   clusters of what a terminal shows: of the plain text, with a blank for each TAB and line feed, and without other controls
   and bidirectional controls. A cluster may run across sequences and controls (UAX #29, UAX #11). Doesn't allocate.
   "\x1b[31m\xe6\x97\xa5\xe6\x9c\xac\x1b[39m" has 4. */
static inline ansi_str_answer ansi_str_width(const char *text, size_t text_len) {
    return ansi_str_raw_width(ansi_str_bytes(text), text_len);
}

/* The position up to which the text fits into `width` columns, as the returned length: the last end of a cluster with at most
   `width` columns before it, as ansi_str_width counts them, after the controls that follow it and have no columns. It counts
   bytes of the plain text, and the text can be cut there. Doesn't allocate.
   "a\x1b[1m\xe6\x97\xa5\xe6\x9c\xac" in 4 columns fits up to 4. */
static inline ansi_str_answer ansi_str_fitting(const char *text, size_t text_len, size_t width) {
    return ansi_str_raw_fitting(ansi_str_bytes(text), text_len, width);
}

/* The column of a position of the plain text, as the returned length: how many columns what is shown before it has, as
   ansi_str_width counts them. Inside a cluster, the part of it before the position counts as a cluster. A position past the end
   counts as the end. ANSI_STR_REFUSED: the position is inside a character. Doesn't allocate.
   In "a\x1b[1m\xe6\x97\xa5\xe6\x9c\xac" the position 4 has the column 3. */
static inline ansi_str_answer ansi_str_column_of(const char *text, size_t text_len, size_t position) {
    return ansi_str_raw_column_of(ansi_str_bytes(text), text_len, position);
}

/* The text truncated to `width` columns, on one line and safe: SGRs, clean links (OSC 8) and printing characters stay, TAB
   and line ends become a blank, and the rest is left out. What fits then isn't cut. Any other text is cut, as by
   ansi_str_cut, to the longest prefix that fits beside the tail, and the tail follows. It is shown as the text is, so that
   "\x1b[2J~" is "~", and what it leaves open is closed. A tail wider than `width` is left out. The link and then the style
   still open at the end of the text are closed before the tail. The result is at most
   tail_len + 2 * (ANSI_STR_LONGEST_LINK_END + ANSI_STR_LONGEST_CLOSE) bytes longer than the text. ANSI_STR_NOT_UTF8: the text
   or the tail isn't UTF-8. May allocate if it changes the text, or writes something after what stays of it.
   "\x1b[31mabcdef\x1b[39m" in 4 columns with "..." gives "\x1b[31ma\x1b[39m...". */
static inline ansi_str_answer ansi_str_truncate(const char *text, size_t text_len, size_t width, const char *tail,
                                                size_t tail_len, char *buffer, size_t buffer_len) {
    return ansi_str_raw_truncate(ansi_str_bytes(text), text_len, width, ansi_str_bytes(tail), tail_len,
                                 ansi_str_room(buffer), buffer_len);
}

/* The text padded with blanks to `width` columns, on one line and safe, as by ansi_str_truncate. If the number of blanks is
   odd, ANSI_STR_CENTER puts one more after the text. The link (OSC 8) and then the style still open at the end of the text
   are closed before the blanks. A text at least as wide gets no blanks. The result is at most width +
   ANSI_STR_LONGEST_LINK_END + ANSI_STR_LONGEST_CLOSE bytes longer than the text. ANSI_STR_REFUSED: there is no such
   alignment. May allocate if it changes the text, writes blanks or closes something.
   "\x1b[41mab" in 5 columns with ANSI_STR_CENTER gives " \x1b[41mab\x1b[49m  ". */
static inline ansi_str_answer ansi_str_pad(const char *text, size_t text_len, size_t width, uint32_t alignment,
                                           char *buffer, size_t buffer_len) {
    return ansi_str_raw_pad(ansi_str_bytes(text), text_len, width, alignment, ansi_str_room(buffer), buffer_len);
}

/* The text of a table's cell: truncated to `width` columns, as by ansi_str_truncate, and then padded to them, as by ansi_str_pad.
   The result is at most tail_len + width + 3 * (ANSI_STR_LONGEST_LINK_END + ANSI_STR_LONGEST_CLOSE) bytes longer than the text.
   ANSI_STR_NOT_UTF8: the text or the tail isn't UTF-8. ANSI_STR_REFUSED: there is no such alignment. May allocate if it changes
   the text, or writes anything before or after what stays of it.
   "\x1b[41mabcdef" in 4 columns with "..." gives "\x1b[41ma\x1b[49m...", and in 8 "\x1b[41mabcdef\x1b[49m  ". */
static inline ansi_str_answer ansi_str_fit(const char *text, size_t text_len, size_t width, uint32_t alignment,
                                           const char *tail, size_t tail_len, char *buffer, size_t buffer_len) {
    return ansi_str_raw_fit(ansi_str_bytes(text), text_len, width, alignment, ansi_str_bytes(tail), tail_len,
                            ansi_str_room(buffer), buffer_len);
}

/* The text truncated to `width` columns at a side. With ANSI_STR_END, and if the text fits, it is truncated as by
   ansi_str_truncate. Otherwise its first and last columns stay, each as by ansi_str_slice, with the tail between them:
   as many as the tail leaves of `width`. With ANSI_STR_START all of these are the last ones; with ANSI_STR_MIDDLE half of them
   are, and if their number is odd, one more of the first ones stays. A tail wider than `width` is left out. The result is at most
   text_len + tail_len + width + 3 * (ANSI_STR_LONGEST_START_AND_CLOSE + ANSI_STR_LONGEST_LINK_END) bytes longer than the text.
   ANSI_STR_NOT_UTF8: the text or the tail isn't UTF-8. ANSI_STR_REFUSED: there is no such side. May allocate if it changes the
   text, cuts it before its end, or writes something after what stays of it.
   "\x1b[31m/usr/bin\x1b[39m" in 7 columns with "..." gives "\x1b[31m/u\x1b[39m...\x1b[31min\x1b[39m" with ANSI_STR_MIDDLE, and
   "...\x1b[31m/bin\x1b[39m" with ANSI_STR_START. */
static inline ansi_str_answer ansi_str_truncate_with(const char *text, size_t text_len, size_t width, const char *tail,
                                                     size_t tail_len, uint32_t side, char *buffer, size_t buffer_len) {
    return ansi_str_raw_truncate_with(ansi_str_bytes(text), text_len, width, ansi_str_bytes(tail), tail_len, side,
                                      ansi_str_room(buffer), buffer_len);
}

/* The columns of the text from `start` up to `end`, on one line and safe, as by ansi_str_truncate. The first column is 0; with
   the end SIZE_MAX the slice goes up to the last one. The style and the link (OSC 8) that are open at the start are opened
   first, and the link and then the style still open at the end are closed. If a cluster is only partly in the slice, each of
   its columns there is a blank. A cluster of no columns belongs to the column after it, or to the last one. A slice without a
   column is empty. The result is at most ANSI_STR_LONGEST_START_AND_CLOSE + ANSI_STR_LONGEST_LINK_END bytes longer than the
   text and these blanks. Allocates if it changes the text, writes blanks, or opens or closes something.
   "\x1b[31m\xe6\x97\xa5\xe6\x9c\xac\x1b[39m" from 1 up to 4 gives "\x1b[31m \xe6\x9c\xac\x1b[39m". */
static inline ansi_str_answer ansi_str_slice(const char *text, size_t text_len, size_t start, size_t end, char *buffer,
                                             size_t buffer_len) {
    return ansi_str_raw_slice(ansi_str_bytes(text), text_len, start, end, ansi_str_room(buffer), buffer_len);
}

/* The text with each TAB expanded: it becomes blanks, at most `stop`, up to the next multiple of `stop` columns from the
   beginning of its line, which is after a line feed. Sequences and controls have no columns. Everything else is unchanged. If
   `stop` is 0, a TAB becomes nothing. Allocates only if the plain text has a TAB.
   "a\x1b[4m\tb" with stops of 4 columns gives "a\x1b[4m   b". */
static inline ansi_str_answer ansi_str_expand_tabs(const char *text, size_t text_len, size_t stop, char *buffer,
                                                   size_t buffer_len) {
    return ansi_str_raw_expand_tabs(ansi_str_bytes(text), text_len, stop, ansi_str_room(buffer), buffer_len);
}

/* These functions make one edit each, for ansi_str_edit_columns. */
static inline ansi_str_column_step ansi_str_column_edit_of(uint32_t kind, uint32_t place, size_t first, size_t second,
                                                           const char *tail, size_t tail_len) {
    ansi_str_column_step step;
    step.kind = kind;
    step.place = place;
    step.first = first;
    step.second = second;
    step.tail = ansi_str_bytes(tail);
    step.tail_len = tail_len;
    return step;
}

static inline ansi_str_column_step ansi_str_column_edit_expand(size_t stop) {
    return ansi_str_column_edit_of(ANSI_STR_COLUMNS_EXPAND, 0, stop, 0, NULL, 0);
}

static inline ansi_str_column_step ansi_str_column_edit_slice(size_t start, size_t end) {
    return ansi_str_column_edit_of(ANSI_STR_COLUMNS_SLICE, 0, start, end, NULL, 0);
}

static inline ansi_str_column_step ansi_str_column_edit_truncate(size_t width, const char *tail, size_t tail_len,
                                                                 uint32_t side) {
    return ansi_str_column_edit_of(ANSI_STR_COLUMNS_TRUNCATE, side, width, 0, tail, tail_len);
}

static inline ansi_str_column_step ansi_str_column_edit_pad(size_t width, uint32_t alignment) {
    return ansi_str_column_edit_of(ANSI_STR_COLUMNS_PAD, alignment, width, 0, NULL, 0);
}

static inline ansi_str_column_step ansi_str_column_edit_fit(size_t width, uint32_t alignment, const char *tail,
                                                            size_t tail_len) {
    return ansi_str_column_edit_of(ANSI_STR_COLUMNS_FIT, alignment, width, 0, tail, tail_len);
}

/* The text after all edits by columns, each made on the result of the one before, as the call of its name makes it. The result
   is on one line and safe, and nothing is open at its end: if there is no edit but expansions of TABs, the text is then padded to
   0 columns, as by ansi_str_pad. ANSI_STR_NOT_UTF8: the text or a tail isn't UTF-8, also the tail of an edit which takes none.
   ANSI_STR_REFUSED: an edit has no such kind, alignment or side. May allocate for any text.
   "a\tbc" with stops of 4 columns and then the columns from 2 on gives "  bc". */
static inline ansi_str_answer ansi_str_edit_columns(const char *text, size_t text_len, const ansi_str_column_step *edits,
                                                    size_t edits_len, char *buffer, size_t buffer_len) {
    ansi_str_column_step none = ansi_str_column_edit_pad(0, ANSI_STR_LEFT);
    return ansi_str_raw_edit_columns(ansi_str_bytes(text), text_len, edits == NULL ? &none : edits, edits_len,
                                     ansi_str_room(buffer), buffer_len);
}

/* The text wrapped to `width` columns, each line safe: SGRs, clean links (OSC 8) and printing characters stay, a TAB becomes a
   blank, and the rest is left out. The lines are in the buffer like the parts of ansi_str_split: line i ends at ends[i].
   A line ends at "\n", at "\r\n", or before a word that doesn't fit, and loses the blanks at its end; a word that is too wide
   is broken at the end of a cluster. An indent stays if its word fits after it. A width of 0 counts as 1. Each line closes the
   link (OSC 8) and then the style that it leaves open, and the next line reopens them. There is at most one line more than the
   plain text has bytes. All lines together are at most text_len bytes, and for each line ANSI_STR_LONGEST_START_AND_CLOSE +
   ANSI_STR_LONGEST_LINK + ANSI_STR_LONGEST_LINK_END more.
   ANSI_STR_TOO_SMALL: the buffer or `ends` is too small; the call returns how many bytes and how many lines there are.
   "\x1b[31mlion tiger" in 5 columns gives "\x1b[31mlion\x1b[39m" and "\x1b[31mtiger\x1b[39m". */
static inline ansi_str_answers ansi_str_wrap(const char *text, size_t text_len, size_t width, char *buffer, size_t buffer_len,
                                             size_t *ends, size_t ends_len) {
    size_t none;
    return ansi_str_raw_wrap(ansi_str_bytes(text), text_len, width, ansi_str_room(buffer), buffer_len,
                             ends == NULL ? &none : ends, ends_len);
}

/* The same with one indent before the first line, and the other before each later line. An indent is shown as a text of its own,
   on one line and safe, and what it leaves open is closed after it. The text is wrapped at the columns that the wider of both
   leaves, at least one. There are as many lines. May allocate for any text.
   "lion tiger" in 7 columns with "* " and "  " gives "* lion" and "  tiger". */
static inline ansi_str_answers ansi_str_wrap_with(const char *text, size_t text_len, size_t width, const char *first_indent,
                                                  size_t first_indent_len, const char *indent, size_t indent_len, char *buffer,
                                                  size_t buffer_len, size_t *ends, size_t ends_len) {
    size_t none;
    return ansi_str_raw_wrap_with(ansi_str_bytes(text), text_len, width, ansi_str_bytes(first_indent), first_indent_len,
                                  ansi_str_bytes(indent), indent_len, ansi_str_room(buffer), buffer_len,
                                  ends == NULL ? &none : ends, ends_len);
}

/* Where each line of the text begins and ends in the plain text, if it is wrapped to `width` columns of what is shown. A TAB is a
   blank, and other controls have no column; those at the end of a line are left out. The text can be cut there. The returned count
   is the number of lines, and the length 0.
   ANSI_STR_TOO_SMALL: there are more than `lines_len`. Doesn't allocate.
   "ab \x1b[1mcd  efg" in 5 columns has lines from 0 up to 5 and from 7 up to 10. */
static inline ansi_str_answers ansi_str_lines(const char *text, size_t text_len, size_t width, ansi_str_line_entry *lines,
                                              size_t lines_len) {
    ansi_str_line_entry none;
    return ansi_str_raw_lines(ansi_str_bytes(text), text_len, width, lines == NULL ? &none : lines, lines_len);
}

/* A walk with no line left. */
static inline ansi_str_line_walk ansi_str_no_line_walk(void) {
    const uint8_t *nothing = ansi_str_bytes(NULL);
    ansi_str_line_walk walk;
    memset(&walk, 0, sizeof walk);
    memcpy(walk.state + ANSI_STR_STATE_TEXT, &nothing, sizeof nothing);
    return walk;
}

/* Begins a walk over what ansi_str_lines returns; ansi_str_lines_next returns it line by line. With any status but ANSI_STR_OK
   the walk has no line left. Doesn't allocate. */
static inline ansi_str_answer ansi_str_lines_begin(const char *text, size_t text_len, size_t width, ansi_str_line_walk *walk) {
    *walk = ansi_str_no_line_walk();
    return ansi_str_raw_lines_begin(ansi_str_bytes(text), text_len, width, walk);
}

/* The next line of a walk, into `line`. ANSI_STR_NO: there is none left, and `line` is 0 up to 0. A call reads up to the end of
   its line, and the first word that doesn't fit, so all lines cost one walk. Doesn't allocate. */
static inline ansi_str_answer ansi_str_lines_next(ansi_str_line_walk *walk, ansi_str_line_entry *line) {
    line->start = line->end = 0;
    return ansi_str_raw_lines_next(walk, line);
}

/* The address of the link (OSC 8) around the plain byte at a position, which may be inside a character. An address is never
   empty, and shorter than the text. ANSI_STR_NO: no link is open there, or the plain text ends at or before the position.
   Doesn't allocate.
   "a \x1b]8;;http://x\x1b\\link\x1b]8;;\x1b\\." at 2 gives "http://x". */
static inline ansi_str_answer ansi_str_link_at(const char *text, size_t text_len, size_t index, char *buffer,
                                               size_t buffer_len) {
    return ansi_str_raw_link_at(ansi_str_bytes(text), text_len, index, ansi_str_room(buffer), buffer_len);
}

/* The text made safe, so that it can't drive the terminal. Printing characters, TAB, line feeds, a carriage return directly
   before a line feed and SGRs stay; links stay with ANSI_STR_KEEP_LINKS. Any other sequence, lone escape, control character or
   bidirectional control is dropped, or shown with ANSI_STR_SHOW. The link and then the style still open at the end are closed.
   The result is at most ANSI_STR_LONGEST_LINK_END + ANSI_STR_LONGEST_CLOSE bytes longer than the text; with ANSI_STR_SHOW, than
   four times the text. ANSI_STR_REFUSED: `rest` or `links` is none of the numbers above. Allocates, also on a text without ESC,
   unless the result is the text itself.
   "\x1b[2J\x1b[31mred\a" gives "\x1b[31mred\x1b[39m" with ANSI_STR_DROP, and "^[[2J\x1b[31mred^G\x1b[39m" with
   ANSI_STR_SHOW. */
static inline ansi_str_answer ansi_str_sanitize(const char *text, size_t text_len, uint32_t rest, uint32_t links,
                                                char *buffer, size_t buffer_len) {
    return ansi_str_raw_sanitize(ansi_str_bytes(text), text_len, rest, links, ansi_str_room(buffer), buffer_len);
}

/* The text of any bytes, made safe as by ansi_str_sanitize: first each sequence of bytes that isn't UTF-8 becomes U+FFFD. It
   ends where no character can have its bytes (the Unicode Standard, "Substitution of Maximal Subparts"), so "\xe2\x82" at the end is
   one U+FFFD, and "\xff\xff" are two. The result is at most ANSI_STR_LONGEST_LINK_END + ANSI_STR_LONGEST_CLOSE bytes longer than
   three times the bytes; with ANSI_STR_SHOW, than four times the bytes. ANSI_STR_REFUSED: `rest` or `links` is none of the
   numbers above. Never returns ANSI_STR_NOT_UTF8. Allocates, also without ESC, unless the result is the bytes themselves.
   "caf\xe9\a" gives "caf\xef\xbf\xbd" with ANSI_STR_DROP. */
static inline ansi_str_answer ansi_str_sanitize_bytes(const char *bytes, size_t bytes_len, uint32_t rest, uint32_t links,
                                                      char *buffer, size_t buffer_len) {
    return ansi_str_raw_sanitize_bytes(ansi_str_bytes(bytes), bytes_len, rest, links, ansi_str_room(buffer), buffer_len);
}

/* Whether the text is safe, that is, whether ansi_str_sanitize would drop nothing: ANSI_STR_OK or ANSI_STR_NO. A style or a
   link may be open at its end. ANSI_STR_REFUSED: `links` is none of the numbers above. Doesn't allocate. */
static inline ansi_str_answer ansi_str_is_safe(const char *text, size_t text_len, uint32_t links) {
    return ansi_str_raw_is_safe(ansi_str_bytes(text), text_len, links);
}

#ifdef __cplusplus
}
#endif

#endif
