/* Makes the calls of rows of texts and results, and exits with 1 if a result differs.

   Each line of standard input is a row as ../../rows/README.md says. The rows of LACKING and those with too many fields are counted
   and passed over.

   A call whose row says that it doesn't allocate is granted no allocation, with any buffer, but for those of ALLOCATING. Each call
   for a text is repeated with a buffer that is one byte too small, with none, with a larger one, and with each allocation refused in
   turn. With the larger buffer nothing may be written past the result, with the others nothing at all. Of the
   calls for the blocks of a row, each allocation is refused once. */
#include "ansi_str.h"

#include <stdio.h>
#include <stdlib.h>
#include <string.h>

enum { MOST_FIELDS = 8192, GUARD = 0x5a };

/* The calls that C doesn't have, and how many rows were passed over for each; at last, those of rows with too many fields. */
static struct {
    const char *call;
    long rows;
} LACKING[] = {{"count_parts", 0}, {"part_interval", 0}, {"split_at", 0}, {"count_blocks", 0}, {"block_order", 0},
               {"items", 0},       {"too many fields", 0}};

enum { LACKING_COUNT = sizeof LACKING / sizeof LACKING[0] };

/* Allocations that are still granted; a negative number grants all. */
static long granted = -1;

/* How many calls have reported out of memory. */
static long wanting = 0;

void *__real_malloc(size_t size);
void *__real_realloc(void *block, size_t size);
void *__wrap_malloc(size_t size);
void *__wrap_realloc(void *block, size_t size);

/* Whether an allocation was refused since the last call that reported out of memory. */
static int was_refused = 0;

static int is_refused(void) {
    if (granted == 0) {
        was_refused = 1;
        return 1;
    }
    if (granted > 0) {
        granted--;
    }
    return 0;
}

void *__wrap_malloc(size_t size) { return is_refused() ? NULL : __real_malloc(size); }

void *__wrap_realloc(void *block, size_t size) { return is_refused() ? NULL : __real_realloc(block, size); }

struct text {
    char *bytes;
    size_t len;
};

struct row {
    struct text fields[MOST_FIELDS];
    size_t count;
    /* whether the call allocates: `+`, `-`, or `?` if the row doesn't say */
    char memory;
};

/* The calls that may allocate in C where that of a row doesn't: they make a list of the caller's ranges or edits, or join what the row
   has in pieces. */
static const char *const ALLOCATING[] = {"restyle", "refused_range", "replace_each", "edit_columns", "blocks", "styled_blocks",
                                         "block_start", "block_end", "pen_start", "pen_end", "wrap_with"};

/* The most bytes of what sets or closes a style for which a call doesn't allocate, as the header says. */
enum { SHORT = 32 };

static long line_number = 0;

static void expect(const char *what, int is_so) {
    if (!is_so) {
        fprintf(stderr, "rows in C: line %ld: %s\n", line_number, what);
        exit(1);
    }
}

static size_t number(const struct row *r, size_t i) {
    expect("a number", i < r->count);
    return (size_t)strtoull(r->fields[i].bytes, NULL, 10);
}

static uint32_t status_of(const struct row *r) { return (uint32_t)number(r, 1); }

static const struct text *text_of(const struct row *r) { return &r->fields[3]; }

/* An argument of a row's call besides its text. */
static const struct text *argument(const struct row *r, size_t i) {
    expect("an argument", 4 + i < r->count);
    return &r->fields[4 + i];
}

static size_t position(const struct row *r, size_t i) { return number(r, 4 + i); }

#define TEXT(t) (t)->bytes, (t)->len

/* One edit of a row, which has its kind, two numbers and a pattern from there on. */
static ansi_str_edit_step edit_of(const struct row *r, size_t i) {
    uint32_t kind = (uint32_t)position(r, i);
    size_t first = position(r, i + 1), second = position(r, i + 2);
    const struct text *pattern = argument(r, i + 3);
    switch (kind) {
    case ANSI_STR_EDIT_CUT:
        return ansi_str_edit_cut(first, second);
    case ANSI_STR_EDIT_LEFT:
        return ansi_str_edit_left(first);
    case ANSI_STR_EDIT_RIGHT:
        return ansi_str_edit_right(first);
    case ANSI_STR_EDIT_PART:
        return ansi_str_edit_part(TEXT(pattern), first);
    case ANSI_STR_EDIT_PREFIX:
        return ansi_str_edit_prefix(TEXT(pattern));
    case ANSI_STR_EDIT_SUFFIX:
        return ansi_str_edit_suffix(TEXT(pattern));
    default:
        return ansi_str_edit_of(kind, first, second, TEXT(pattern));
    }
}

/* One edit by columns of a row, which has its kind, an alignment or a side, two numbers and a tail from there on. */
static ansi_str_column_step column_edit_of(const struct row *r, size_t i) {
    uint32_t kind = (uint32_t)position(r, i), place = (uint32_t)position(r, i + 1);
    size_t first = position(r, i + 2), second = position(r, i + 3);
    const struct text *tail = argument(r, i + 4);
    switch (kind) {
    case ANSI_STR_COLUMNS_TRUNCATE:
        return ansi_str_column_edit_truncate(first, TEXT(tail), place);
    case ANSI_STR_COLUMNS_FIT:
        return ansi_str_column_edit_fit(first, place, TEXT(tail));
    default:
        return ansi_str_column_edit_of(kind, place, first, second, TEXT(tail));
    }
}

/* The number of the header for a word of a row. */
static uint32_t number_of(const struct text *word) {
    static const struct {
        const char *word;
        uint32_t number;
    } WORDS[] = {{"Left", ANSI_STR_LEFT},           {"Center", ANSI_STR_CENTER}, {"Right", ANSI_STR_RIGHT},
                 {"Drop", ANSI_STR_DROP},           {"Show", ANSI_STR_SHOW},     {"Keep", ANSI_STR_KEEP_LINKS},
                 {"Remove", ANSI_STR_REMOVE_LINKS}, {"End", ANSI_STR_END},       {"Start", ANSI_STR_START},
                 {"Middle", ANSI_STR_MIDDLE}};
    for (size_t i = 0; i < sizeof WORDS / sizeof WORDS[0]; i++) {
        if (strcmp(word->bytes, WORDS[i].word) == 0) {
            return WORDS[i].number;
        }
    }
    return UINT32_MAX;
}

/* The edits of a row. */
static ansi_str_edit_step *edits_of(const struct row *r, size_t *count) {
    *count = (r->count - 4) / 4;
    ansi_str_edit_step *edits = __real_malloc((*count + 1) * sizeof *edits);
    for (size_t i = 0; i < *count; i++) {
        edits[i] = edit_of(r, 4 * i);
    }
    return edits;
}

/* The edits by columns of a row. */
static ansi_str_column_step *column_edits_of(const struct row *r, size_t *count) {
    *count = (r->count - 4) / 5;
    ansi_str_column_step *edits = __real_malloc((*count + 1) * sizeof *edits);
    for (size_t i = 0; i < *count; i++) {
        edits[i] = column_edit_of(r, 5 * i);
    }
    return edits;
}

/* The replacements of a row, each of three fields: where its range begins and ends, and a text. */
static ansi_str_replacement *replacements_of(const struct row *r, size_t *count) {
    *count = (r->count - 4) / 3;
    ansi_str_replacement *replacements = __real_malloc((*count + 1) * sizeof *replacements);
    for (size_t i = 0; i < *count; i++) {
        replacements[i] = ansi_str_replacement_of(position(r, 3 * i), position(r, 3 * i + 1), TEXT(argument(r, 3 * i + 2)));
    }
    return replacements;
}

/* The ranges of a row, from an argument on: two numbers each, with a comma between. */
static ansi_str_range *ranges_of(const struct row *r, size_t from, size_t *count) {
    *count = r->count - 4 - from;
    ansi_str_range *ranges = __real_malloc((*count + 1) * sizeof *ranges);
    for (size_t i = 0; i < *count; i++) {
        char *end;
        ranges[i].start = (size_t)strtoull(argument(r, from + i)->bytes, &end, 10);
        expect("a range", *end == ',');
        ranges[i].end = (size_t)strtoull(end + 1, NULL, 10);
    }
    return ranges;
}

/* One call of a row that writes a text. */
static ansi_str_answer call(const struct row *r, char *buffer, size_t len) {
    const char *name = r->fields[0].bytes;
    const struct text *t = text_of(r);
    if (strcmp(name, "strip") == 0) {
        return ansi_str_strip(TEXT(t), buffer, len);
    } else if (strcmp(name, "cut") == 0) {
        return ansi_str_cut(TEXT(t), position(r, 0), position(r, 1), buffer, len);
    } else if (strcmp(name, "left") == 0) {
        return ansi_str_left(TEXT(t), position(r, 0), buffer, len);
    } else if (strcmp(name, "right") == 0) {
        return ansi_str_right(TEXT(t), position(r, 0), buffer, len);
    } else if (strcmp(name, "trim") == 0) {
        return ansi_str_trim(TEXT(t), buffer, len);
    } else if (strcmp(name, "strip_prefix") == 0) {
        return ansi_str_strip_prefix(TEXT(t), TEXT(argument(r, 0)), buffer, len);
    } else if (strcmp(name, "strip_suffix") == 0) {
        return ansi_str_strip_suffix(TEXT(t), TEXT(argument(r, 0)), buffer, len);
    } else if (strcmp(name, "part") == 0) {
        return ansi_str_part(TEXT(t), TEXT(argument(r, 0)), position(r, 1), buffer, len);
    } else if (strcmp(name, "block") == 0) {
        return ansi_str_block(TEXT(t), position(r, 0), buffer, len);
    } else if (strcmp(name, "block_start") == 0) {
        return ansi_str_block_start(TEXT(t), position(r, 0), buffer, len);
    } else if (strcmp(name, "block_end") == 0) {
        return ansi_str_block_end(TEXT(t), position(r, 0), buffer, len);
    } else if (strcmp(name, "front") == 0) {
        return ansi_str_cut(TEXT(t), 0, ansi_str_fitting(TEXT(t), position(r, 0)).len, buffer, len);
    } else if (strcmp(name, "truncate") == 0) {
        return ansi_str_truncate(TEXT(t), position(r, 0), TEXT(argument(r, 1)), buffer, len);
    } else if (strcmp(name, "pad") == 0) {
        return ansi_str_pad(TEXT(t), position(r, 0), number_of(argument(r, 1)), buffer, len);
    } else if (strcmp(name, "fit") == 0) {
        return ansi_str_fit(TEXT(t), position(r, 0), number_of(argument(r, 1)), TEXT(argument(r, 2)), buffer, len);
    } else if (strcmp(name, "truncate_with") == 0) {
        return ansi_str_truncate_with(TEXT(t), position(r, 0), TEXT(argument(r, 1)), number_of(argument(r, 2)), buffer, len);
    } else if (strcmp(name, "slice") == 0) {
        return ansi_str_slice(TEXT(t), position(r, 0), position(r, 1), buffer, len);
    } else if (strcmp(name, "expand_tabs") == 0) {
        return ansi_str_expand_tabs(TEXT(t), position(r, 0), buffer, len);
    } else if (strcmp(name, "link_at") == 0) {
        return ansi_str_link_at(TEXT(t), position(r, 0), buffer, len);
    } else if (strcmp(name, "sanitize") == 0) {
        return ansi_str_sanitize(TEXT(t), number_of(argument(r, 0)), number_of(argument(r, 1)), buffer, len);
    } else if (strcmp(name, "sanitize_bytes") == 0) {
        return ansi_str_sanitize_bytes(TEXT(t), number_of(argument(r, 0)), number_of(argument(r, 1)), buffer, len);
    }
    size_t count;
    if (strcmp(name, "mark") == 0) {
        return ansi_str_mark(TEXT(t), TEXT(argument(r, 0)), TEXT(argument(r, 1)), buffer, len);
    } else if (strcmp(name, "remove") == 0) {
        return ansi_str_remove(TEXT(t), position(r, 0), position(r, 1), buffer, len);
    } else if (strcmp(name, "replace") == 0) {
        return ansi_str_replace(TEXT(t), position(r, 0), position(r, 1), TEXT(argument(r, 2)), buffer, len);
    } else if (strcmp(name, "insert") == 0) {
        return ansi_str_insert(TEXT(t), position(r, 0), TEXT(argument(r, 1)), buffer, len);
    } else if (strcmp(name, "replace_all") == 0) {
        return ansi_str_replace_all(TEXT(t), TEXT(argument(r, 0)), TEXT(argument(r, 1)), buffer, len);
    } else if (strcmp(name, "link") == 0) {
        return ansi_str_link(TEXT(t), position(r, 0), position(r, 1), TEXT(argument(r, 2)), buffer, len);
    } else if (strcmp(name, "unlink") == 0) {
        return ansi_str_unlink(TEXT(t), buffer, len);
    } else if (strcmp(name, "pen_start") == 0) {
        return ansi_str_pen_start(TEXT(t), buffer, len);
    } else if (strcmp(name, "pen_end") == 0) {
        return ansi_str_pen_end(TEXT(t), buffer, len);
    } else if (strcmp(name, "restyle") == 0) {
        ansi_str_range *ranges = ranges_of(r, 1, &count);
        ansi_str_answer restyled = ansi_str_restyle(TEXT(t), ranges, count, TEXT(argument(r, 0)), buffer, len);
        free(ranges);
        return restyled;
    } else if (strcmp(name, "replace_each") == 0) {
        ansi_str_replacement *replacements = replacements_of(r, &count);
        ansi_str_answer replaced = ansi_str_replace_each(TEXT(t), replacements, count, buffer, len);
        free(replacements);
        return replaced;
    } else if (strcmp(name, "edit_columns") == 0) {
        ansi_str_column_step *column_edits = column_edits_of(r, &count);
        ansi_str_answer edited = ansi_str_edit_columns(TEXT(t), column_edits, count, buffer, len);
        free(column_edits);
        return edited;
    }
    expect("the call is known", strcmp(name, "edit") == 0);
    ansi_str_edit_step *edits = edits_of(r, &count);
    ansi_str_answer answer = ansi_str_edit(TEXT(t), edits, count, buffer, len);
    free(edits);
    return answer;
}

/* Whether a call that shows a text returns it as it is, and so without an allocation. */
static int is_kept(const struct row *r) {
    static const char *const SHOWING[] = {"truncate", "pad", "fit", "truncate_with", "slice"};
    for (size_t i = 0; i < sizeof SHOWING / sizeof SHOWING[0]; i++) {
        if (strcmp(r->fields[0].bytes, SHOWING[i]) == 0) {
            const struct text *result = &r->fields[2], *t = text_of(r);
            return status_of(r) == ANSI_STR_OK && result->len == t->len && memcmp(result->bytes, t->bytes, t->len) == 0;
        }
    }
    return 0;
}

/* Whether the call of a row may allocate. */
static int may_allocate(const struct row *r) {
    for (size_t i = 0; i < sizeof ALLOCATING / sizeof ALLOCATING[0]; i++) {
        if (strcmp(r->fields[0].bytes, ALLOCATING[i]) == 0) {
            return 1;
        }
    }
    return r->memory != '-' && !is_kept(r);
}

/* From here on every allocation is granted, or none if the call of a row may not allocate. */
static void grant(const struct row *r) { granted = may_allocate(r) ? -1 : 0; }

/* After that: the call reports out of memory only if it may allocate. */
static void expect_granted(const struct row *r, uint32_t status) {
    granted = -1;
    expect("no allocation", status != ANSI_STR_OUT_OF_MEMORY || may_allocate(r));
}

/* A buffer with all bytes GUARD. */
static char *guarded(size_t len) {
    char *buffer = __real_malloc(len + 1);
    memset(buffer, GUARD, len + 1);
    return buffer;
}

static int is_guard(const char *buffer, size_t start, size_t end) {
    for (size_t i = start; i < end; i++) {
        if (buffer[i] != GUARD) {
            return 0;
        }
    }
    return 1;
}

/* After a call with few allocations granted: whether it reports out of memory; if so, it must have written nothing. */
static int is_wanting(uint32_t status, const char *buffer, size_t len) {
    granted = -1;
    if (status != ANSI_STR_OUT_OF_MEMORY) {
        return 0;
    }
    wanting++;
    expect("an allocation was refused", was_refused);
    was_refused = 0;
    expect("the buffer with little memory", is_guard(buffer, 0, len + 1));
    return 1;
}

/* A call with a buffer of this many bytes returns and writes this text, or fails. */
static void expect_text(const struct row *r, uint32_t status, const struct text *wanted, size_t room) {
    char *buffer = guarded(room);
    grant(r);
    ansi_str_answer answer = call(r, buffer, room);
    expect_granted(r, answer.status);
    if (status == ANSI_STR_OK && room < wanted->len) {
        status = ANSI_STR_TOO_SMALL;
    }
    int is_told = status == ANSI_STR_OK || status == ANSI_STR_TOO_SMALL;
    expect("status", answer.status == status);
    expect("length", answer.len == (is_told ? wanted->len : 0));
    size_t written = status == ANSI_STR_OK ? answer.len : 0;
    expect("text", memcmp(buffer, wanted->bytes, written) == 0);
    expect("nothing more is written", is_guard(buffer, written, room + 1));
    free(buffer);
}

/* The call with a buffer of the right size, with others, and with each allocation refused in turn but the first
   `granted_before`. Returns how many allocations the call makes. */
static long expect_writes(const struct row *r, uint32_t status, const struct text *wanted, long granted_before) {
    expect_text(r, status, wanted, wanted->len);
    expect_text(r, status, wanted, wanted->len + 7);
    if (wanted->len > 0) {
        expect_text(r, status, wanted, wanted->len - 1);
        expect_text(r, status, wanted, 0);
    }
    char *buffer = guarded(wanted->len);
    ansi_str_answer answer;
    long requests = granted_before - 1;
    do {
        granted = ++requests;
        answer = call(r, buffer, wanted->len);
        expect("length with little memory", answer.status != ANSI_STR_OUT_OF_MEMORY || answer.len == 0);
    } while (is_wanting(answer.status, buffer, wanted->len));
    expect("status with little memory", answer.status == status);
    free(buffer);
    return requests;
}

/* A call that writes nothing, and doesn't allocate. */
static int expect_told(const struct row *r) {
    const char *name = r->fields[0].bytes;
    const struct text *t = text_of(r);
    ansi_str_answer answer;
    granted = 0;
    if (strcmp(name, "find") == 0) {
        answer = ansi_str_find(TEXT(t), TEXT(argument(r, 0)));
    } else if (strcmp(name, "find_from") == 0) {
        answer = ansi_str_find_from(TEXT(t), position(r, 0), TEXT(argument(r, 1)));
    } else if (strcmp(name, "starts_with") == 0) {
        answer = ansi_str_starts_with(TEXT(t), TEXT(argument(r, 0)));
    } else if (strcmp(name, "ends_with") == 0) {
        answer = ansi_str_ends_with(TEXT(t), TEXT(argument(r, 0)));
    } else if (strcmp(name, "is_char_boundary") == 0) {
        answer = ansi_str_is_char_boundary(TEXT(t), position(r, 0));
    } else if (strcmp(name, "floor_char_boundary") == 0) {
        answer = ansi_str_floor_char_boundary(TEXT(t), position(r, 0));
    } else if (strcmp(name, "is_whole") == 0) {
        answer = ansi_str_is_whole(TEXT(t));
    } else if (strcmp(name, "has_any") == 0) {
        answer = ansi_str_has_any(TEXT(t));
    } else if (strcmp(name, "width") == 0) {
        answer = ansi_str_width(TEXT(t));
    } else if (strcmp(name, "fitting") == 0) {
        answer = ansi_str_fitting(TEXT(t), position(r, 0));
    } else if (strcmp(name, "column_of") == 0) {
        answer = ansi_str_column_of(TEXT(t), position(r, 0));
    } else if (strcmp(name, "is_safe") == 0) {
        answer = ansi_str_is_safe(TEXT(t), number_of(argument(r, 0)));
    } else {
        granted = -1;
        return 0;
    }
    granted = -1;
    expect("status", answer.status == status_of(r));
    expect("position", answer.len == number(r, 2));
    return 1;
}

/* The range of a row that is refused, with each allocation refused in turn. */
static void expect_refused(const struct row *r) {
    const struct text *t = text_of(r);
    size_t count;
    ansi_str_range *ranges = ranges_of(r, 0, &count);
    ansi_str_answer answer;
    long requests = 0;
    for (granted = 0; (answer = ansi_str_refused_range(TEXT(t), ranges, count)).status == ANSI_STR_OUT_OF_MEMORY; granted = ++requests) {
        expect("length with little memory", answer.len == 0);
        wanting++;
    }
    granted = -1;
    expect("allocations", (requests > 0) == (count > 0 && answer.status != ANSI_STR_NOT_UTF8));
    expect("status", answer.status == status_of(r));
    expect("index", answer.len == number(r, 2));
    free(ranges);
}

/* Makes a row for one part or block of a row, for `expect_writes`. */
static long expect_one(const struct row *r, const char *name, uint32_t status, size_t index, const struct text *wanted,
                       long granted_before) {
    static struct row one;
    static char digits[32];
    one = *r;
    /* (a row of styled blocks has what is written of each, which joins a block in pieces) */
    if (strcmp(r->fields[0].bytes, "styled_blocks") == 0) {
        one.memory = '?';
    }
    snprintf(digits, sizeof digits, "%zu", index);
    size_t at = strcmp(name, "part") == 0 ? 5 : 4;
    one.fields[0].bytes = (char *)(uintptr_t)name;
    one.fields[at].bytes = digits;
    one.fields[at].len = strlen(digits);
    one.count = at + 1;
    return expect_writes(&one, status, wanted, granted_before);
}

static const struct text EMPTY = {(char *)(uintptr_t)"", 0};

/* The next part of a walk is this text. It allocates only if a sequence is inside the match before the part, so not after one of a
   single byte, or if what is written around the part is long, so not for a short part. If memory or room is too little, the walk is
   unchanged. */
static void expect_next_part(ansi_str_part_walk *walk, const struct text *pattern, const struct text *wanted) {
    char *buffer = guarded(wanted->len);
    ansi_str_next_part part;
    ansi_str_answer answer;
    ansi_str_part_walk copy = *walk;
    long requests = 0;
    do {
        granted = requests++;
        answer = ansi_str_parts_next(walk, &part, buffer, wanted->len);
    } while (is_wanting(answer.status, buffer, wanted->len));
    int is_simple = pattern->len <= 1 && wanted->len <= SHORT;
    expect("no allocation for a part", requests == 1 || !is_simple);
    size_t len = answer.len;
    expect("the next part", answer.status == ANSI_STR_OK && len + part.text_len == wanted->len && (len == 0 || part.text_len == 0));
    expect("its text", memcmp(buffer, wanted->bytes, len) == 0 && memcmp(part.text, wanted->bytes, part.text_len) == 0);
    expect("nothing more is written", is_guard(buffer, len, wanted->len + 1));
    if (len > 0) {
        memset(buffer, GUARD, wanted->len);
        granted = is_simple ? 0 : -1;
        answer = ansi_str_parts_next(&copy, &part, buffer, len - 1);
        expect("too small for a part", answer.status == ANSI_STR_TOO_SMALL && answer.len == len && part.text_len == 0);
        answer = ansi_str_parts_next(&copy, &part, NULL, 0);
        granted = -1;
        expect("no room for a part", answer.status == ANSI_STR_TOO_SMALL && answer.len == len && part.text_len == 0);
        expect("nothing is written", is_guard(buffer, 0, wanted->len + 1));
        answer = ansi_str_parts_next(&copy, &part, buffer, len);
        expect("the part again", answer.status == ANSI_STR_OK && answer.len == len && part.text_len == 0);
    }
    free(buffer);
}

/* A call for the parts or the lines of a row's text. */
static ansi_str_answers list(const struct row *r, char *buffer, size_t len, size_t *ends, size_t most) {
    const struct text *t = text_of(r);
    if (strcmp(r->fields[0].bytes, "split") == 0) {
        return ansi_str_split(TEXT(t), TEXT(argument(r, 0)), buffer, len, ends, most);
    }
    if (strcmp(r->fields[0].bytes, "wrap_with") == 0) {
        return ansi_str_wrap_with(TEXT(t), position(r, 0), TEXT(argument(r, 1)), TEXT(argument(r, 2)), buffer, len, ends, most);
    }
    return ansi_str_wrap(TEXT(t), position(r, 0), buffer, len, ends, most);
}

/* The text is printable ASCII and line feeds, which a wrap shows as they are. */
static bool is_printable(const struct text *t) {
    for (size_t i = 0; i < t->len; i++) {
        if (t->bytes[i] != '\n' && (t->bytes[i] < ' ' || t->bytes[i] > '~')) {
            return false;
        }
    }
    return true;
}

/* A walk has these lines, and then no line, now and at every later call. No call allocates. */
static void expect_next_lines(const struct text *t, size_t width, const ansi_str_line_entry *lines, size_t count) {
    ansi_str_line_walk walk, copy;
    ansi_str_line_entry line;
    granted = 0;
    expect("a walk", ansi_str_lines_begin(TEXT(t), width, &walk).status == ANSI_STR_OK);
    for (size_t i = 0; i < count; i++) {
        copy = walk;
        expect("the next line", ansi_str_lines_next(&walk, &line).status == ANSI_STR_OK && line.start == lines[i].start && line.end == lines[i].end);
        expect("the line again", ansi_str_lines_next(&copy, &line).status == ANSI_STR_OK && line.end == lines[i].end);
    }
    for (int i = 0; i < 2; i++) {
        expect("no line is left", ansi_str_lines_next(&walk, &line).status == ANSI_STR_NO && line.start == 0 && line.end == 0);
    }
    granted = -1;
}

/* Where each line of a row's text begins and ends: with room for one more, and with too little. The call doesn't allocate. */
static void expect_lines(const struct row *r) {
    const struct text *t = text_of(r);
    size_t count = number(r, 2);
    ansi_str_line_entry *lines = __real_malloc((count + 1) * sizeof *lines);
    memset(lines, GUARD, (count + 1) * sizeof *lines);
    granted = 0;
    ansi_str_answers answer = ansi_str_lines(TEXT(t), position(r, 0), lines, count - 1);
    expect("too few lines", answer.status == ANSI_STR_TOO_SMALL && answer.count == count && answer.len == 0);
    expect("nothing is written", is_guard((const char *)lines, 0, (count + 1) * sizeof *lines));
    answer = ansi_str_lines(TEXT(t), position(r, 0), lines, count + 1);
    granted = -1;
    expect("lines", answer.status == status_of(r) && answer.count == count && answer.len == 0);
    for (size_t i = 0; i < count; i++) {
        char interval[64];
        snprintf(interval, sizeof interval, "%zu,%zu", lines[i].start, lines[i].end);
        expect("a line", strcmp(interval, argument(r, 1 + i)->bytes) == 0);
    }
    expect("nothing more is written", is_guard((const char *)&lines[count], 0, sizeof *lines));
    expect_next_lines(t, position(r, 0), lines, count);
    free(lines);
}

/* Where each match of a row's pattern begins and ends: with room for one more, and with too little. The call doesn't allocate. */
static void expect_matches(const struct row *r) {
    const struct text *t = text_of(r), *pattern = argument(r, 0);
    size_t count = number(r, 2);
    uint32_t status = status_of(r);
    ansi_str_range *ranges = __real_malloc((count + 1) * sizeof *ranges);
    memset(ranges, GUARD, (count + 1) * sizeof *ranges);
    ansi_str_answers answer;
    granted = 0;
    if (count > 0) {
        answer = ansi_str_matches(TEXT(t), TEXT(pattern), ranges, count - 1);
        expect("too few ranges", answer.status == ANSI_STR_TOO_SMALL && answer.count == count && answer.len == 0);
        expect("nothing is written", is_guard((const char *)ranges, 0, (count + 1) * sizeof *ranges));
    }
    answer = ansi_str_matches(TEXT(t), TEXT(pattern), ranges, count + 1);
    granted = -1;
    expect("matches", answer.status == status && answer.count == count && answer.len == 0);
    for (size_t i = 0; i < count; i++) {
        char interval[64];
        snprintf(interval, sizeof interval, "%zu,%zu", ranges[i].start, ranges[i].end);
        expect("a match", strcmp(interval, argument(r, 1 + i)->bytes) == 0);
    }
    expect("nothing more is written", is_guard((const char *)&ranges[count], 0, sizeof *ranges));
    free(ranges);
}

/* The range and the address of each link of a row's text: with more room than that, and with too little. The call doesn't allocate. */
static void expect_links(const struct row *r) {
    const struct text *t = text_of(r);
    size_t count = number(r, 2), len = 0, start = 0;
    uint32_t status = status_of(r);
    expect("links", r->count == 4 + 2 * count);
    for (size_t i = 0; i < count; i++) {
        len += argument(r, 2 * i + 1)->len;
    }
    ansi_str_link_entry *links = __real_malloc((count + 1) * sizeof *links);
    memset(links, GUARD, (count + 1) * sizeof *links);
    char *buffer = guarded(len);
    ansi_str_answers answer;
    granted = 0;
    if (count > 0) {
        answer = ansi_str_links(TEXT(t), buffer, len, links, count - 1);
        expect("too few entries", answer.status == ANSI_STR_TOO_SMALL && answer.count == count && answer.len == len);
        answer = ansi_str_links(TEXT(t), buffer, len - 1, links, count);
        expect("too small a buffer", answer.status == ANSI_STR_TOO_SMALL && answer.count == count && answer.len == len);
        expect("nothing is written", is_guard(buffer, 0, len + 1) && is_guard((const char *)links, 0, (count + 1) * sizeof *links));
    }
    answer = ansi_str_links(TEXT(t), buffer, len + 1, links, count + 1);
    granted = -1;
    expect("links", answer.status == status && answer.count == count && answer.len == len);
    for (size_t i = 0; i < count; i++) {
        const struct text *address = argument(r, 2 * i + 1);
        char interval[64];
        snprintf(interval, sizeof interval, "%zu,%zu", links[i].start, links[i].end);
        expect("a range", strcmp(interval, argument(r, 2 * i)->bytes) == 0);
        expect("an address", links[i].address_end == start + address->len && memcmp(buffer + start, address->bytes, address->len) == 0);
        start = links[i].address_end;
    }
    expect("nothing more is written", buffer[len] == GUARD && is_guard((const char *)&links[count], 0, sizeof *links));
    free(buffer);
    free(links);
}

/* What is open at the end of a row's text: what opens it again, the address of its link, and what closes it. */
static void expect_pen(const struct row *r) {
    static const struct text nothing = {"", 0};
    static struct row half;
    const struct text *t = text_of(r);
    uint32_t status = status_of(r);
    int is_told = status == ANSI_STR_OK;
    expect("what is open", r->count == (is_told ? 7 : 4));
    const struct text *start = is_told ? argument(r, 0) : &nothing, *end = is_told ? argument(r, 2) : &nothing;
    const struct text *address = is_told ? argument(r, 1) : &nothing;
    half = *r;
    half.fields[0].bytes = "pen_start";
    expect_writes(&half, status, start, 0);
    half.fields[0].bytes = "pen_end";
    expect_writes(&half, status, end, 0);
    ansi_str_pen pen;
    granted = 0;
    ansi_str_answer answer = ansi_str_pen_after(TEXT(t), &pen);
    granted = -1;
    expect("a pen", answer.status == status && answer.len == 0 && pen.link_len == address->len);
    const char *link = (const char *)pen.link;
    expect("its link", memcmp(link, address->bytes, address->len) == 0);
    expect("it is in the text", pen.link_len == 0 || (link > t->bytes && link + pen.link_len < t->bytes + t->len));
    char codes[ANSI_STR_LONGEST_START];
    size_t len = ansi_str_style_start(&pen.style, codes, sizeof codes).len;
    expect("its style", len <= start->len && memcmp(codes, start->bytes, len) == 0);
    expect("the sequence of its link", len == start->len || memcmp(start->bytes + len, "\x1b]8;", 4) == 0);
}

/* With this room, which is too small, a call for all parts or lines writes nothing, and returns how much they need. */
static void expect_too_small(const struct row *r, size_t room, size_t most, size_t len, size_t count) {
    size_t *ends = __real_malloc((count + 1) * sizeof *ends);
    char *buffer = guarded(len);
    memset(ends, 0, (count + 1) * sizeof *ends);
    grant(r);
    ansi_str_answers answer = list(r, buffer, room, ends, most);
    expect_granted(r, answer.status);
    expect("too small", answer.status == ANSI_STR_TOO_SMALL && answer.count == count && answer.len == len);
    expect("nothing is written", is_guard(buffer, 0, len + 1));
    for (size_t i = 0; i <= count; i++) {
        expect("no end is written", ends[i] == 0);
    }
    free(buffer);
    free(ends);
}

/* All parts or lines in one call: with room for them, with each allocation refused in turn, and with too little room. */
static void expect_list(const struct row *r) {
    bool has_indents = strcmp(r->fields[0].bytes, "wrap_with") == 0;
    size_t count = number(r, 2), len = 0, before = has_indents ? 7 : 5;
    const struct text *wanted = &r->fields[before];
    expect("as many as the row says", r->count == before + count);
    for (size_t i = 0; i < count; i++) {
        len += wanted[i].len;
    }
    size_t *ends = __real_malloc((count + 1) * sizeof *ends);
    char *buffer = guarded(len);
    ends[count] = 0;
    ansi_str_answers answer;
    long requests = 0;
    do {
        granted = requests++;
        answer = list(r, buffer, len, ends, count);
    } while (is_wanting(answer.status, buffer, len));
    expect("no allocation", requests == 1 || may_allocate(r));
    expect("memory for a text with ESC, or that a wrap changes", requests == 1 || memchr(text_of(r)->bytes, '\x1b', text_of(r)->len) != NULL ||
        has_indents || (strcmp(r->fields[0].bytes, "wrap") == 0 && !is_printable(text_of(r))));
    expect("status", answer.status == status_of(r));
    expect("how many and how long", answer.count == count && answer.len == len && buffer[len] == GUARD && ends[count] == 0);
    for (size_t i = 0, start = 0; i < count; start = ends[i++]) {
        expect("each", ends[i] == start + wanted[i].len && memcmp(buffer + start, wanted[i].bytes, wanted[i].len) == 0);
    }
    if (count > 0) {
        expect_too_small(r, len, count - 1, len, count);
    }
    if (len > 0) {
        expect_too_small(r, len - 1, count, len, count);
    }
    free(buffer);
    free(ends);
}

/* All parts, in one call, one after the other and by their index. */
static void expect_parts(const struct row *r) {
    const struct text *t = text_of(r), *pattern = argument(r, 0), *parts = &r->fields[5];
    size_t count = number(r, 2);
    uint32_t status = status_of(r);
    expect_list(r);
    ansi_str_part_walk walk;
    expect("a walk", ansi_str_parts_begin(TEXT(t), TEXT(pattern), &walk).status == status);
    if (status == ANSI_STR_OK) {
        ansi_str_raw_parts_begin_unchecked((const uint8_t *)t->bytes, t->len, (const uint8_t *)pattern->bytes, pattern->len, &walk);
        expect_one(r, "part", ANSI_STR_NO, count, &EMPTY, 0);
    }
    for (size_t i = 0; i < count; i++) {
        expect_next_part(&walk, pattern, &parts[i]);
        expect_one(r, "part", status, i, &parts[i], 0);
    }
    for (int i = 0; i < 2; i++) {
        ansi_str_next_part part;
        ansi_str_answer past = ansi_str_parts_next(&walk, &part, NULL, 0);
        expect("no part is left", past.status == ANSI_STR_NO && past.len == 0 && part.text_len == 0);
    }
}

/* The bits of the attributes that rows have, in their order. */
static uint32_t attributes_of(const ansi_str_style *style) {
    static const uint32_t ATTRIBUTES[] = {ANSI_STR_BOLD, ANSI_STR_FAINT, ANSI_STR_ITALIC, ANSI_STR_UNDERLINE, ANSI_STR_SLOW_BLINK,
                                          ANSI_STR_RAPID_BLINK, ANSI_STR_INVERSE, ANSI_STR_HIDE, ANSI_STR_CROSSED_OUT, ANSI_STR_FRAKTUR};
    uint32_t set = 0;
    for (size_t i = 0; i < sizeof ATTRIBUTES / sizeof ATTRIBUTES[0]; i++) {
        set |= (style->attributes & ATTRIBUTES[i]) != 0 ? 1u << i : 0;
    }
    return set;
}

/* A color in a row: its kind there, which numbers the names too, and its numbers. */
static int is_color(const ansi_str_color *color, const struct text *wanted) {
    static const unsigned NAMES[] = {1, 3, 5, 7, 9, 13, 15, 17};
    static const unsigned KINDS[] = {0, 0, 19, 20};
    unsigned kind = color->kind == ANSI_STR_NAMED ? NAMES[color->first % 10] + (color->first >= 90) : KINDS[color->kind];
    unsigned number = color->kind == ANSI_STR_FIXED ? color->first : 0, red = color->kind == ANSI_STR_RGB ? color->first : 0;
    char text[64];
    snprintf(text, sizeof text, "%u,%u,%u,%u,%u", kind, number, red, color->second, color->third);
    return strcmp(text, wanted->bytes) == 0;
}

/* A style in a row: its attributes, two colors, and whether it has something to close. */
static int is_style(const struct row *r, size_t i, const ansi_str_style *style) {
    return attributes_of(style) == number(r, i) && is_color(&style->foreground, &r->fields[i + 1]) &&
           is_color(&style->background, &r->fields[i + 2]) && ansi_str_style_has_any(style) == number(r, i + 3);
}

static int is_same_style(const ansi_str_style *a, const ansi_str_style *b) {
    return memcmp(a, b, offsetof(ansi_str_style, font)) == 0 && a->font.is_set == b->font.is_set && a->font.number == b->font.number;
}

/* A call of a style writes these sequences, and allocates only if they are long. */
static void expect_sequences(ansi_str_answer (*call_of)(const ansi_str_style *, char *, size_t),
                             const ansi_str_style *style, const struct text *wanted) {
    char *buffer = guarded(wanted->len);
    long requests = wanted->len > SHORT ? -1 : 0;
    granted = requests;
    ansi_str_answer answer = call_of(style, NULL, 0);
    expect("their length", answer.status == (wanted->len > 0 ? ANSI_STR_TOO_SMALL : ANSI_STR_OK) && answer.len == wanted->len);
    requests = 0;
    do {
        granted = requests++;
        answer = call_of(style, buffer, wanted->len);
    } while (is_wanting(answer.status, buffer, wanted->len));
    expect("no allocation for short sequences", requests == 1 || wanted->len > SHORT);
    expect("sequences of a style", answer.status == ANSI_STR_OK && answer.len == wanted->len &&
                                       memcmp(buffer, wanted->bytes, wanted->len) == 0 && is_guard(buffer, wanted->len, wanted->len + 1));
    free(buffer);
}

/* The next block of a walk is this text in this style. If memory or room is too little, the walk is unchanged. */
static void expect_next(ansi_str_block_walk *walk, const struct text *wanted, const ansi_str_style *style) {
    char *buffer = guarded(wanted->len);
    ansi_str_next_block block;
    ansi_str_answer answer;
    ansi_str_block_walk copy = *walk;
    long requests = 0;
    do {
        granted = requests++;
        answer = ansi_str_blocks_next(walk, &block, buffer, wanted->len);
    } while (is_wanting(answer.status, buffer, wanted->len));
    size_t len = answer.len;
    expect("the next block", answer.status == ANSI_STR_OK && len + block.text_len == wanted->len);
    expect("its text", memcmp(buffer, wanted->bytes, len) == 0 && memcmp(block.text, wanted->bytes + len, block.text_len) == 0);
    expect("its style", is_same_style(&block.style, style));
    expect("nothing more is written", is_guard(buffer, len, wanted->len + 1));
    if (len > 0) {
        memset(buffer, GUARD, wanted->len);
        answer = ansi_str_blocks_next(&copy, &block, buffer, len - 1);
        expect("too small for sequences", answer.status == ANSI_STR_TOO_SMALL && answer.len == len && block.text_len == 0);
        expect("nothing is written", is_guard(buffer, 0, wanted->len + 1));
        answer = ansi_str_blocks_next(&copy, &block, buffer, len);
        expect("the block again", answer.status == ANSI_STR_OK && answer.len == len && len + block.text_len == wanted->len);
    }
    free(buffer);
}

/* A walk over the blocks of a text begins with this status. */
static ansi_str_block_walk walk_over(const struct text *t, uint32_t status) {
    ansi_str_block_walk walk;
    expect("a walk", ansi_str_blocks_begin(TEXT(t), &walk).status == status);
    if (status == ANSI_STR_OK) {
        ansi_str_raw_blocks_begin_unchecked((const uint8_t *)t->bytes, t->len, &walk);
    }
    return walk;
}

/* A walk has no block left, now and at every later call. */
static void expect_end(ansi_str_block_walk *walk) {
    ansi_str_next_block block;
    for (int i = 0; i < 2; i++) {
        ansi_str_answer answer = ansi_str_blocks_next(walk, &block, NULL, 0);
        expect("no block is left", answer.status == ANSI_STR_NO && answer.len == 0 && block.text_len == 0);
    }
}

/* All blocks, in one call, one after the other and by their index. */
static void expect_blocks(const struct row *r) {
    const struct text *t = text_of(r);
    size_t count = number(r, 2), len = 0;
    expect("blocks", r->count == 4 + 5 * count);
    for (size_t i = 0; i < count; i++) {
        len += r->fields[4 + 5 * i].len;
    }
    ansi_str_block_entry *blocks = __real_malloc((count + 1) * sizeof *blocks);
    char *buffer = guarded(len);
    uint32_t status = status_of(r);
    ansi_str_answers answer;
    long requests = 0;
    do {
        granted = requests++;
        answer = ansi_str_blocks(TEXT(t), buffer, len, blocks, count);
    } while (is_wanting(answer.status, buffer, len));
    expect("no allocation", requests == 1 || memchr(t->bytes, '\x1b', t->len) != NULL);
    expect("status", answer.status == status);
    expect("how many and how long", answer.count == count && answer.len == len && buffer[len] == GUARD);
    size_t start = 0;
    /* (the call for a block begins with the allocations of the call for the block before, so each is refused once) */
    requests = 0;
    ansi_str_block_walk walk = walk_over(t, status);
    for (size_t i = 0; i < count; i++) {
        const struct text *block = &r->fields[4 + 5 * i];
        expect("block", blocks[i].end == start + block->len && memcmp(buffer + start, block->bytes, block->len) == 0);
        start = blocks[i].end;
        expect("style", is_style(r, 5 + 5 * i, &blocks[i].style));
        expect_next(&walk, block, &blocks[i].style);
        requests = expect_one(r, "block", status, i, block, requests);
        ansi_str_style_answer style = ansi_str_block_style(TEXT(t), i);
        expect("its style", style.status == ANSI_STR_OK && is_style(r, 5 + 5 * i, &style.style));
    }
    expect_end(&walk);
    uint32_t past = status == ANSI_STR_OK ? ANSI_STR_NO : status;
    expect("no style", ansi_str_block_style(TEXT(t), count).status == past);
    expect_one(r, "block", past, count, &EMPTY, requests);
    if (count > 0) {
        memset(buffer, GUARD, len);
        answer = ansi_str_blocks(TEXT(t), buffer, len, blocks, count - 1);
        expect("too few entries", answer.status == ANSI_STR_TOO_SMALL && answer.count == count && answer.len == len);
        answer = ansi_str_blocks(TEXT(t), buffer, len - 1, blocks, count);
        expect("too small a buffer", answer.status == ANSI_STR_TOO_SMALL && answer.count == count && answer.len == len);
        expect("nothing is written", is_guard(buffer, 0, len + 1));
    }
    free(buffer);
    free(blocks);
}

/* All blocks in one call with the starts and closes of their styles, which a row has before and after each text. */
static void expect_styled_blocks(const struct row *r) {
    const struct text *t = text_of(r);
    size_t count = number(r, 2), len = 0;
    expect("blocks", r->count == 4 + 3 * count);
    for (size_t i = 0; i < 3 * count; i++) {
        len += r->fields[4 + i].len;
    }
    ansi_str_styled_block_entry *blocks = __real_malloc((count + 1) * sizeof *blocks);
    char *buffer = guarded(len);
    uint32_t status = status_of(r);
    ansi_str_answers answer;
    if (count > 0) {
        answer = ansi_str_styled_blocks(TEXT(t), buffer, len, blocks, count - 1);
        expect("too few entries", answer.status == ANSI_STR_TOO_SMALL && answer.count == count && answer.len == len);
        answer = ansi_str_styled_blocks(TEXT(t), buffer, len - 1, blocks, count);
        expect("too small a buffer", answer.status == ANSI_STR_TOO_SMALL && answer.count == count && answer.len == len);
        expect("nothing is written", is_guard(buffer, 0, len + 1));
    }
    long requests = 0;
    do {
        granted = requests++;
        answer = ansi_str_styled_blocks(TEXT(t), buffer, len, blocks, count);
    } while (is_wanting(answer.status, buffer, len));
    expect("no allocation", requests == 1 || memchr(t->bytes, '\x1b', t->len) != NULL);
    expect("status", answer.status == status);
    expect("how many and how long", answer.count == count && answer.len == len && buffer[len] == GUARD);
    size_t start = 0;
    ansi_str_block_walk walk = walk_over(t, status);
    for (size_t i = 0; i < count; i++) {
        const struct text *wanted = &r->fields[4 + 3 * i];
        const size_t ends[3] = {blocks[i].text_start, blocks[i].text_end, blocks[i].end};
        for (size_t k = 0; k < 3; k++) {
            expect("start, text and end", ends[k] == start + wanted[k].len && memcmp(buffer + start, wanted[k].bytes, wanted[k].len) == 0);
            start = ends[k];
        }
        expect_next(&walk, &wanted[1], &blocks[i].style);
        expect_sequences(ansi_str_style_start, &blocks[i].style, &wanted[0]);
        expect_sequences(ansi_str_style_end, &blocks[i].style, &wanted[2]);
        expect_one(r, "block_start", status, i, &wanted[0], 0);
        expect_one(r, "block", status, i, &wanted[1], 0);
        expect_one(r, "block_end", status, i, &wanted[2], 0);
        ansi_str_style_answer style = ansi_str_block_style(TEXT(t), i);
        expect("its style", is_same_style(&style.style, &blocks[i].style));
    }
    expect_end(&walk);
    free(buffer);
    free(blocks);
}

/* The style that codes select: that of the pen after them. */
static ansi_str_style selected(const struct text *codes) {
    size_t len = codes->len + 3;
    char *sequence = __real_malloc(len + 1);
    ansi_str_pen pen;
    snprintf(sequence, len + 1, "\x1b[%sm", codes->bytes);
    expect("codes", ansi_str_pen_after(sequence, len, &pen).status == ANSI_STR_OK);
    free(sequence);
    return pen.style;
}

/* What sets a style and what closes it, which a row has from an argument on. */
static void expect_style(const struct row *r, size_t i, const ansi_str_style *style) {
    expect_sequences(ansi_str_style_start, style, argument(r, i));
    expect_sequences(ansi_str_style_end, style, argument(r, i + 1));
}

/* The style that codes select, if they are codes. */
static void expect_style_of(const struct row *r) {
    uint32_t status = status_of(r);
    expect("whether they are codes", ansi_str_mark(NULL, 0, NULL, 0, TEXT(text_of(r)), NULL, 0).status == status);
    if (status == ANSI_STR_OK) {
        ansi_str_style style = selected(text_of(r));
        expect_style(r, 0, &style);
    }
}

/* What a call returns for two styles, which a row has by their codes. */
static void expect_combined(const struct row *r, ansi_str_style (*combine)(const ansi_str_style *, const ansi_str_style *)) {
    const ansi_str_style first = selected(text_of(r)), second = selected(argument(r, 0));
    granted = 0;
    const ansi_str_style style = combine(&first, &second);
    granted = -1;
    expect_style(r, 1, &style);
}

/* What no row has: bytes that aren't UTF-8 for a call on columns, a number without a meaning, and no text, tail or buffer. */
static void expect_failures(void) {
    char buffer[] = "as it is";
    const ansi_str_replacement not_utf8 = ansi_str_replacement_of(1, 0, "\xff", 1);
    const ansi_str_answer answers[] = {ansi_str_width("\xff", 1), ansi_str_fitting("\xff", 1, 1),
                                       ansi_str_truncate("\xff", 1, 1, ".", 1, buffer, 8),
                                       ansi_str_truncate("ab", 2, 1, "\xff", 1, buffer, 8),
                                       ansi_str_pad("\xff", 1, 4, ANSI_STR_RIGHT + 1, buffer, 8),
                                       ansi_str_fit("\xff", 1, 4, ANSI_STR_LEFT, ".", 1, buffer, 8),
                                       ansi_str_fit("ab", 2, 4, ANSI_STR_RIGHT + 1, "\xff", 1, buffer, 8),
                                       ansi_str_truncate_with("\xff", 1, 1, ".", 1, ANSI_STR_START, buffer, 8),
                                       ansi_str_truncate_with("ab", 2, 1, "\xff", 1, ANSI_STR_MIDDLE + 1, buffer, 8),
                                       ansi_str_slice("\xff", 1, 0, 1, buffer, 8),
                                       ansi_str_expand_tabs("\xff", 1, 8, buffer, 8),
                                       ansi_str_link_at("\xff", 1, 0, buffer, 8),
                                       ansi_str_find_from("\xff", 1, 0, "a", 1),
                                       ansi_str_restyle("\xff", 1, NULL, 0, "m", 1, buffer, 8),
                                       ansi_str_refused_range("\xff", 1, NULL, 0),
                                       ansi_str_mark("a", 1, "a", 1, "\xff", 1, buffer, 8),
                                       ansi_str_remove("\xff", 1, 1, 0, buffer, 8),
                                       ansi_str_replace("\xff", 1, 1, 0, "a", 1, buffer, 8),
                                       ansi_str_replace("a", 1, 1, 0, "\xff", 1, buffer, 8),
                                       ansi_str_insert("a", 1, 2, "\xff", 1, buffer, 8),
                                       ansi_str_replace_all("a", 1, "b", 1, "\xff", 1, buffer, 8),
                                       ansi_str_replace_each("a", 1, &not_utf8, 1, buffer, 8),
                                       ansi_str_link("\xff", 1, 0, 0, "", 0, buffer, 8),
                                       ansi_str_link("a", 1, 1, 0, "\xff", 1, buffer, 8),
                                       ansi_str_unlink("\xff", 1, buffer, 8)};
    for (size_t i = 0; i < sizeof answers / sizeof answers[0]; i++) {
        expect("no UTF-8", answers[i].status == ANSI_STR_NOT_UTF8 && answers[i].len == 0);
    }
    size_t end = 0;
    ansi_str_answers lines = ansi_str_wrap("\xff", 1, 4, buffer, 8, &end, 1);
    expect("no UTF-8", lines.status == ANSI_STR_NOT_UTF8 && lines.count == 0 && lines.len == 0 && end == 0);
    ansi_str_line_entry line = {1, 1};
    lines = ansi_str_lines("\xff", 1, 4, &line, 1);
    expect("no UTF-8", lines.status == ANSI_STR_NOT_UTF8 && lines.count == 0 && lines.len == 0 && line.end == 1);
    ansi_str_line_walk walk;
    ansi_str_answer next = ansi_str_lines_begin("\xff", 1, 4, &walk);
    expect("no UTF-8", next.status == ANSI_STR_NOT_UTF8 && next.len == 0);
    next = ansi_str_lines_next(&walk, &line);
    expect("no line", next.status == ANSI_STR_NO && line.end == 0);
    ansi_str_link_entry link = {1, 1, 1};
    lines = ansi_str_links("\xff", 1, buffer, 8, &link, 1);
    expect("no UTF-8", lines.status == ANSI_STR_NOT_UTF8 && lines.count == 0 && lines.len == 0 && link.end == 1);
    lines = ansi_str_lines(NULL, 0, 0, NULL, 0);
    expect("one line", lines.status == ANSI_STR_TOO_SMALL && lines.count == 1 && lines.len == 0);
    lines = ansi_str_wrap(NULL, 0, 0, NULL, 0, NULL, 0);
    expect("one line", lines.status == ANSI_STR_TOO_SMALL && lines.count == 1 && lines.len == 0);
    ansi_str_answer answer = ansi_str_pad("ab", 2, 4, ANSI_STR_RIGHT + 1, buffer, 8);
    expect("an unknown alignment", answer.status == ANSI_STR_REFUSED && answer.len == 0);
    answer = ansi_str_fit("ab", 2, 4, ANSI_STR_RIGHT + 1, ".", 1, buffer, 8);
    expect("an unknown alignment", answer.status == ANSI_STR_REFUSED && answer.len == 0);
    answer = ansi_str_truncate_with("ab", 2, 1, ".", 1, ANSI_STR_MIDDLE + 1, buffer, 8);
    expect("an unknown side", answer.status == ANSI_STR_REFUSED && answer.len == 0);
    const ansi_str_answer refused[] = {ansi_str_sanitize("a\a", 2, ANSI_STR_SHOW + 1, ANSI_STR_KEEP_LINKS, buffer, 8),
                                       ansi_str_sanitize("a\a", 2, ANSI_STR_DROP, ANSI_STR_KEEP_LINKS + 1, buffer, 8),
                                       ansi_str_sanitize_bytes("\xff", 1, ANSI_STR_SHOW + 1, ANSI_STR_KEEP_LINKS, buffer, 8),
                                       ansi_str_sanitize_bytes("\xff", 1, ANSI_STR_DROP, ANSI_STR_KEEP_LINKS + 1, buffer, 8),
                                       ansi_str_is_safe("a", 1, ANSI_STR_KEEP_LINKS + 1)};
    for (size_t i = 0; i < sizeof refused / sizeof refused[0]; i++) {
        expect("an unknown policy", refused[i].status == ANSI_STR_REFUSED && refused[i].len == 0);
    }
    answer = ansi_str_pad("ab", 2, SIZE_MAX, ANSI_STR_LEFT, buffer, 8);
    expect("more than there is memory", answer.status == ANSI_STR_OUT_OF_MEMORY && answer.len == 0);
    answer = ansi_str_fit("ab", 2, SIZE_MAX, ANSI_STR_LEFT, NULL, 0, buffer, 8);
    expect("more than there is memory", answer.status == ANSI_STR_OUT_OF_MEMORY && answer.len == 0);
    answer = ansi_str_expand_tabs("a\t", 2, SIZE_MAX, buffer, 8);
    expect("more than there is memory", answer.status == ANSI_STR_OUT_OF_MEMORY && answer.len == 0);
    expect("the buffer", memcmp(buffer, "as it is", 8) == 0);
    expect("nothing", ansi_str_width(NULL, 0).status == ANSI_STR_OK);
    expect("nothing", ansi_str_fitting(NULL, 0, 0).status == ANSI_STR_OK);
    expect("nothing", ansi_str_truncate(NULL, 0, 0, NULL, 0, NULL, 0).status == ANSI_STR_OK);
    expect("nothing", ansi_str_pad(NULL, 0, 0, ANSI_STR_LEFT, NULL, 0).status == ANSI_STR_OK);
    expect("nothing", ansi_str_fit(NULL, 0, 0, ANSI_STR_LEFT, NULL, 0, NULL, 0).status == ANSI_STR_OK);
    expect("nothing", ansi_str_truncate_with(NULL, 0, 0, NULL, 0, ANSI_STR_START, NULL, 0).status == ANSI_STR_OK);
    expect("nothing", ansi_str_slice(NULL, 0, 0, SIZE_MAX, NULL, 0).status == ANSI_STR_OK);
    expect("nothing", ansi_str_expand_tabs(NULL, 0, 0, NULL, 0).status == ANSI_STR_OK);
    expect("nothing", ansi_str_link_at(NULL, 0, 0, NULL, 0).status == ANSI_STR_NO);
    expect("nothing", ansi_str_find_from(NULL, 0, 0, NULL, 0).status == ANSI_STR_OK);
    expect("nothing", ansi_str_restyle(NULL, 0, NULL, 0, NULL, 0, NULL, 0).status == ANSI_STR_OK);
    expect("nothing", ansi_str_refused_range(NULL, 0, NULL, 0).status == ANSI_STR_NO);
    expect("nothing", ansi_str_mark(NULL, 0, NULL, 0, NULL, 0, NULL, 0).status == ANSI_STR_OK);
    expect("nothing", ansi_str_remove(NULL, 0, 0, 0, NULL, 0).status == ANSI_STR_OK);
    expect("nothing", ansi_str_replace(NULL, 0, 0, 0, NULL, 0, NULL, 0).status == ANSI_STR_OK);
    expect("nothing", ansi_str_insert(NULL, 0, 0, NULL, 0, NULL, 0).status == ANSI_STR_OK);
    expect("nothing", ansi_str_replace_all(NULL, 0, NULL, 0, NULL, 0, NULL, 0).status == ANSI_STR_OK);
    expect("nothing", ansi_str_replace_each(NULL, 0, NULL, 0, NULL, 0).status == ANSI_STR_OK);
    expect("no address", ansi_str_link(NULL, 0, 0, 0, NULL, 0, NULL, 0).status == ANSI_STR_REFUSED);
    expect("nothing", ansi_str_unlink(NULL, 0, NULL, 0).status == ANSI_STR_OK);
    ansi_str_pen pen;
    expect("nothing", ansi_str_pen_after(NULL, 0, &pen).status == ANSI_STR_OK && pen.link_len == 0);
    expect("nothing", ansi_str_pen_start(NULL, 0, NULL, 0).status == ANSI_STR_OK);
    expect("nothing", ansi_str_pen_end(NULL, 0, NULL, 0).status == ANSI_STR_OK);
    lines = ansi_str_links(NULL, 0, NULL, 0, NULL, 0);
    expect("no link", lines.status == ANSI_STR_OK && lines.count == 0 && lines.len == 0);
    lines = ansi_str_matches(NULL, 0, NULL, 0, NULL, 0);
    expect("one match", lines.status == ANSI_STR_TOO_SMALL && lines.count == 1 && lines.len == 0);
    expect("nothing", ansi_str_sanitize(NULL, 0, ANSI_STR_DROP, ANSI_STR_REMOVE_LINKS, NULL, 0).status == ANSI_STR_OK);
    expect("nothing", ansi_str_sanitize_bytes(NULL, 0, ANSI_STR_DROP, ANSI_STR_REMOVE_LINKS, NULL, 0).status == ANSI_STR_OK);
    expect("nothing", ansi_str_is_safe(NULL, 0, ANSI_STR_REMOVE_LINKS).status == ANSI_STR_OK);
}

/* The value of two hexadecimal digits. */
static char byte_of(const char *digits) {
    char two[3] = {digits[0], digits[1], 0};
    return (char)strtol(two, NULL, 16);
}

/* A field: a text, which begins with `x`, nothing for `-`, or a word or number as it is. A 0 follows its bytes. */
static struct text field_of(const char *field) {
    struct text text = {__real_malloc(strlen(field) + 1), 0};
    if (*field != 'x' && *field != '-') {
        text.len = strlen(field);
    }
    memcpy(text.bytes, field, text.len);
    text.bytes[text.len] = 0;
    if (*field != 'x') {
        return text;
    }
    for (const char *at = field; *at != 0;) {
        at++;
        size_t count = 1, digits = strcspn(at, "*+");
        if (at[digits] == '*') {
            count = strtoull(at, NULL, 10);
            at += digits + 1;
            digits = strcspn(at, "+");
        }
        text.bytes = __real_realloc(text.bytes, text.len + count * digits / 2 + 1);
        for (const char *end = at + digits; at < end; at += 2) {
            text.bytes[text.len++] = byte_of(at);
        }
        for (size_t i = digits / 2; i < count * digits / 2; i++, text.len++) {
            text.bytes[text.len] = text.bytes[text.len - digits / 2];
        }
        text.bytes[text.len] = 0;
    }
    return text;
}

/* The row of a line, or none if it is passed over. Changes the line. */
static int read_row(char *line, struct row *r) {
    const char *memory = strtok(line, " \n"), *borrows = strtok(NULL, " \n"), *field = strtok(NULL, " \n");
    expect("a call", memory != NULL && borrows != NULL && field != NULL);
    size_t lacking = 0;
    while (lacking + 1 < LACKING_COUNT && strcmp(field, LACKING[lacking].call) != 0) {
        lacking++;
    }
    r->count = 0;
    r->memory = *memory;
    for (; lacking + 1 == LACKING_COUNT && field != NULL && r->count < MOST_FIELDS; field = strtok(NULL, " \n")) {
        r->fields[r->count++] = field_of(field);
    }
    if (field != NULL) {
        LACKING[lacking].rows++;
    }
    return field == NULL;
}

static void expect_row(const struct row *r) {
    const char *name = r->fields[0].bytes;
    expect("a row", r->count >= 4);
    if (strcmp(name, "split") == 0) {
        expect_parts(r);
    } else if (strcmp(name, "wrap") == 0 || strcmp(name, "wrap_with") == 0) {
        expect_list(r);
    } else if (strcmp(name, "lines") == 0) {
        expect_lines(r);
    } else if (strcmp(name, "matches") == 0) {
        expect_matches(r);
    } else if (strcmp(name, "refused_range") == 0) {
        expect_refused(r);
    } else if (strcmp(name, "links") == 0) {
        expect_links(r);
    } else if (strcmp(name, "pen_after") == 0) {
        expect_pen(r);
    } else if (strcmp(name, "style_of") == 0) {
        expect_style_of(r);
    } else if (strcmp(name, "union") == 0) {
        expect_combined(r, ansi_str_style_union);
    } else if (strcmp(name, "difference") == 0) {
        expect_combined(r, ansi_str_style_difference);
    } else if (strcmp(name, "blocks") == 0) {
        expect_blocks(r);
    } else if (strcmp(name, "styled_blocks") == 0) {
        expect_styled_blocks(r);
    } else if (!expect_told(r)) {
        expect_writes(r, status_of(r), &r->fields[2], 0);
    }
}

int main(void) {
    static struct row r;
    char *line = NULL;
    size_t size = 0;
    long passed = 0;
    while (getline(&line, &size, stdin) > 0) {
        line_number++;
        if (*line == '\n') {
            continue;
        }
        if (read_row(line, &r)) {
            expect_row(&r);
            passed++;
        }
        while (r.count > 0) {
            free(r.fields[--r.count].bytes);
        }
    }
    free(line);
    expect_failures();
    expect("memory was missing", wanting > 0);
    printf("rows in C: %ld passed, and %ld calls reported lack of memory; passed over:", passed, wanting);
    for (size_t i = 0; i < LACKING_COUNT; i++) {
        printf("%s %s: %ld", i > 0 ? "," : "", LACKING[i].call, LACKING[i].rows);
    }
    printf("\n");
    return 0;
}
