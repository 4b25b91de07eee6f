/* per_line check TEXT CALL...: makes each call on each line of the text, and prints of each call the length of all results together, how
   many calls were refused or found nothing, and a hash of all that they returned.
   per_line count TEXT CALL...: counts each by callgrind, in a process of its own, so that no call finds the heap as another left it. Each
   process has two dumps, named "CALL LENGTH": one of the calls, one (with the name "CALL -") of as many calls of a function that does
   nothing. */
#include "ansi_str.h"
#include <stdio.h>
#include <stdlib.h>
#include <string.h>
#include <sys/wait.h>
#include <unistd.h>
#include <valgrind/callgrind.h>

#define TAIL "\xe2\x80\xa6"
#define ABSENT "zq"

/* A line: its bytes without the line end, and the positions 4 and 20 of its plain text, or the nearest ones before them at which
   a character begins. */
struct line {
    const char *text;
    size_t len, from, to;
};

/* What calls returned. */
struct sum {
    uint64_t hash;
    size_t refused, no;
};

static char text[1 << 20] __attribute__((aligned(4096)));
static char buffer[1 << 20] __attribute__((aligned(4096)));
static size_t ends[1 << 14] __attribute__((aligned(4096)));
static ansi_str_line_entry entries[1 << 14] __attribute__((aligned(4096)));
static struct line lines[1 << 16];
static size_t line_count;

static void add(struct sum *sum, const void *bytes, size_t len) {
    const unsigned char *at = bytes;
    for (size_t i = 0; i < len; i++) {
        sum->hash = (sum->hash ^ at[i]) * 0x100000001b3;
    }
    sum->hash = (sum->hash ^ len) * 0x100000001b3;
}

static void add_status(struct sum *sum, uint32_t status) {
    if (status > ANSI_STR_REFUSED) {
        fprintf(stderr, "driver: a call answers %u\n", status);
        exit(1);
    }
    add(sum, &status, sizeof status);
    sum->refused += status == ANSI_STR_REFUSED;
    sum->no += status == ANSI_STR_NO;
}

/* Each call is made in two functions: as it is counted, and as what it returns is added to a sum. */
#define CALL(name, ...)                                                                                              \
    static inline __attribute__((always_inline)) size_t name##_made(const struct line *l, struct sum *sum) __VA_ARGS__ \
    __attribute__((noinline)) static size_t name##_counted(const struct line *l) { return name##_made(l, NULL); }    \
    static size_t name##_checked(const struct line *l, struct sum *sum) { return name##_made(l, sum); }

/* A call whose result is a number, and one whose result is in the buffer. */
#define NUMBER(name, call)                  \
    CALL(name, {                            \
        ansi_str_answer answer = call;      \
        if (sum) {                          \
            add_status(sum, answer.status); \
            add(sum, &answer.len, 8);       \
        }                                   \
        return answer.len;                  \
    })
#define WRITTEN(name, call)                 \
    CALL(name, {                            \
        ansi_str_answer answer = call;      \
        if (sum) {                          \
            add_status(sum, answer.status); \
            add(sum, buffer, answer.len);   \
        }                                   \
        return answer.len;                  \
    })

NUMBER(utf8, ansi_str_starts_with(l->text, l->len, "", 0))
NUMBER(has_any, ansi_str_has_any(l->text, l->len))
NUMBER(width, ansi_str_width(l->text, l->len))
NUMBER(fitting, ansi_str_fitting(l->text, l->len, 40))
WRITTEN(fit, ansi_str_fit(l->text, l->len, 24, ANSI_STR_LEFT, TAIL, 3, buffer, sizeof buffer))
WRITTEN(truncate, ansi_str_truncate(l->text, l->len, 40, TAIL, 3, buffer, sizeof buffer))
WRITTEN(pad, ansi_str_pad(l->text, l->len, 24, ANSI_STR_LEFT, buffer, sizeof buffer))
WRITTEN(slice, ansi_str_slice(l->text, l->len, 4, 20, buffer, sizeof buffer))
WRITTEN(strip, ansi_str_strip(l->text, l->len, buffer, sizeof buffer))
WRITTEN(cut, ansi_str_cut(l->text, l->len, l->from, l->to, buffer, sizeof buffer))
NUMBER(find, ansi_str_find(l->text, l->len, ABSENT, 2))
WRITTEN(sanitize, ansi_str_sanitize(l->text, l->len, ANSI_STR_DROP, ANSI_STR_KEEP_LINKS, buffer, sizeof buffer))

CALL(wrap, {
    ansi_str_answers answer = ansi_str_wrap(l->text, l->len, 80, buffer, sizeof buffer, ends, sizeof ends / sizeof *ends);
    if (sum) {
        add_status(sum, answer.status);
        add(sum, buffer, answer.len);
        add(sum, ends, answer.count * sizeof *ends);
    }
    return answer.len + answer.count;
})

CALL(lines, {
    ansi_str_answers answer = ansi_str_lines(l->text, l->len, 80, entries, sizeof entries / sizeof *entries);
    if (sum) {
        add_status(sum, answer.status);
        add(sum, entries, answer.count * sizeof *entries);
    }
    return answer.len + answer.count;
})

CALL(split, {
    ansi_str_answers answer = ansi_str_split(l->text, l->len, " ", 1, buffer, sizeof buffer, ends, sizeof ends / sizeof *ends);
    if (sum) {
        add_status(sum, answer.status);
        add(sum, buffer, answer.len);
        add(sum, ends, answer.count * sizeof *ends);
    }
    return answer.len + answer.count;
})

CALL(parts, {
    ansi_str_part_walk walk;
    ansi_str_next_part part;
    size_t len = 0;
    ansi_str_answer answer = ansi_str_parts_begin(l->text, l->len, " ", 1, &walk);
    while (answer.status == ANSI_STR_OK) {
        answer = ansi_str_parts_next(&walk, &part, buffer, sizeof buffer);
        len += part.text_len + answer.len;
        if (sum && answer.status == ANSI_STR_OK) {
            add(sum, part.text, part.text_len);
            add(sum, buffer, answer.len);
        }
    }
    if (sum && answer.status != ANSI_STR_NO) {
        add_status(sum, answer.status);
    }
    return len;
})

static inline __attribute__((always_inline)) size_t blocks_of(const struct line *l, struct sum *sum, int is_styled) {
    static char start[ANSI_STR_LONGEST_START];
    static char end[ANSI_STR_LONGEST_CLOSE];
    ansi_str_block_walk walk;
    ansi_str_next_block block;
    size_t len = 0;
    ansi_str_answer answer = ansi_str_blocks_begin(l->text, l->len, &walk);
    while (answer.status == ANSI_STR_OK) {
        answer = ansi_str_blocks_next(&walk, &block, buffer, sizeof buffer);
        if (answer.status != ANSI_STR_OK) {
            break;
        }
        len += block.text_len + answer.len;
        if (sum) {
            add(sum, block.text, block.text_len);
            add(sum, buffer, answer.len);
            add(sum, &block.style, 18); /* up to its font; the rest is padding */
        }
        if (is_styled) {
            ansi_str_answer started = ansi_str_style_start(&block.style, start, sizeof start);
            ansi_str_answer ended = ansi_str_style_end(&block.style, end, sizeof end);
            len += started.len + ended.len;
            if (sum) {
                add_status(sum, started.status);
                add_status(sum, ended.status);
                add(sum, start, started.len);
                add(sum, end, ended.len);
            }
        }
    }
    if (sum && answer.status != ANSI_STR_NO) {
        add_status(sum, answer.status);
    }
    return len;
}

CALL(blocks, { return blocks_of(l, sum, 0); })
CALL(styled, { return blocks_of(l, sum, 1); })

/* What is taken off each count. */
__attribute__((noinline)) static size_t nothing(const struct line *l) {
    __asm__ volatile("" : : "r"(l));
    return 0;
}

#define NAMED(name) {#name, name##_counted, name##_checked}
static const struct {
    const char *name;
    size_t (*counted)(const struct line *);
    size_t (*checked)(const struct line *, struct sum *);
} CALLS[] = {NAMED(utf8), NAMED(has_any), NAMED(width), NAMED(fitting), NAMED(fit), NAMED(truncate), NAMED(pad), NAMED(slice), NAMED(wrap), NAMED(lines), NAMED(strip),
             NAMED(cut), NAMED(find), NAMED(split), NAMED(parts), NAMED(blocks), NAMED(styled), NAMED(sanitize)};

static size_t place(const char *name) {
    for (size_t i = 0; i < sizeof CALLS / sizeof *CALLS; i++) {
        if (!strcmp(CALLS[i].name, name)) {
            return i;
        }
    }
    fprintf(stderr, "driver: no call %s\n", name);
    exit(1);
}

__attribute__((noinline)) static size_t all(size_t (*call)(const struct line *)) {
    size_t len = 0;
    for (const struct line *l = lines; l != lines + line_count; l++) {
        len += call(l);
    }
    return len;
}

static void dump(const char *name, const char *rest) {
    char words[64];
    snprintf(words, sizeof words, "%s %s", name, rest);
    CALLGRIND_DUMP_STATS_AT(words);
}

__attribute__((noinline)) static void count_here(size_t call) {
    CALLGRIND_TOGGLE_COLLECT;
    size_t len = all(CALLS[call].counted);
    CALLGRIND_TOGGLE_COLLECT;
    char digits[32];
    snprintf(digits, sizeof digits, "%zu", len);
    dump(CALLS[call].name, digits);
    CALLGRIND_TOGGLE_COLLECT;
    all(nothing);
    CALLGRIND_TOGGLE_COLLECT;
    dump(CALLS[call].name, "-");
}

/* The same from a stack that begins at a page: otherwise the words and the environment, which lie before it, change the counts. */
static void count(size_t call) {
    volatile char *room = __builtin_alloca(((size_t)__builtin_frame_address(0) & 4095) + 4096 * 4);
    *room = 0;
    size_t top = (size_t)room & 4095;
    volatile char *rest = __builtin_alloca(top ? top : 16);
    *rest = 0;
    count_here(call);
}

static size_t boundary(const struct line *l, size_t position) {
    ansi_str_answer answer = ansi_str_floor_char_boundary(l->text, l->len, position);
    return answer.status == ANSI_STR_OK ? answer.len : position;
}

static void read_lines(const char *name) {
    FILE *file = fopen(name, "rb");
    size_t len = file ? fread(text, 1, sizeof text, file) : sizeof text;
    if (len == sizeof text) {
        perror(name);
        exit(1);
    }
    fclose(file);
    for (char *at = text, *end; (end = memchr(at, '\n', len - (size_t)(at - text))) != NULL; at = end + 1) {
        struct line *l = &lines[line_count++];
        l->text = at;
        l->len = (size_t)(end - at);
        l->from = boundary(l, 4);
        l->to = boundary(l, 20);
    }
}

int main(int words_count, char **words) {
    if (words_count < 3) {
        return 1;
    }
    int is_check = !strcmp(words[1], "check");
    read_lines(words[2]);
    for (int i = 3; i < words_count; i++) {
        size_t call = place(words[i]);
        if (is_check) {
            struct sum sum = {0xcbf29ce484222325, 0, 0};
            size_t len = 0;
            for (size_t at = 0; at < line_count; at++) {
                len += CALLS[call].checked(&lines[at], &sum);
            }
            printf("%s %zu %zu %zu %zu %016llx\n", CALLS[call].name, len, line_count, sum.refused, sum.no, (unsigned long long)sum.hash);
            continue;
        }
        pid_t child = fork();
        if (child == 0) {
            count(call);
            _exit(0);
        }
        int status;
        if (child < 0 || waitpid(child, &status, 0) != child || status != 0) {
            return 1;
        }
    }
    return 0;
}
