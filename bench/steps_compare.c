/* compare check FILE...: whether steps.c returns what the library does, line by line; compare count FILE...: for callgrind. */
#include "steps.h"
#include <stdio.h>
#include <stdlib.h>
#include <valgrind/callgrind.h>

#define TAIL "\xe2\x80\xa6"
enum { ROOM = 1 << 16, MOST = 4096 };

struct result { uint32_t status; size_t len, count; };
static char buffer[2][ROOM];
static size_t ends[2][MOST];
static size_t first = 24, second = 40, from = 4, to = 20, third = 80;

#define ONE(name, call) \
    static struct result name(const char *t, size_t n, int who) { \
        ansi_str_answer a = call; \
        return (struct result){a.status, a.len, 0}; \
    }
ONE(lib_width, ansi_str_width(t, n))
ONE(our_width, steps_width(t, n))
ONE(lib_fit, ansi_str_fit(t, n, first, ANSI_STR_LEFT, TAIL, 3, buffer[who], ROOM))
ONE(our_fit, steps_fit(t, n, first, TAIL, 3, buffer[who], ROOM))
ONE(lib_truncate, ansi_str_truncate(t, n, second, TAIL, 3, buffer[who], ROOM))
ONE(our_truncate, steps_truncate(t, n, second, TAIL, 3, buffer[who], ROOM))
ONE(lib_slice, ansi_str_slice(t, n, from, to, buffer[who], ROOM))
ONE(our_slice, steps_slice(t, n, from, to, buffer[who], ROOM))
static struct result lib_wrap(const char *t, size_t n, int who) {
    ansi_str_answers a = ansi_str_wrap(t, n, third, buffer[who], ROOM, ends[who], MOST);
    return (struct result){a.status, a.len, a.count};
}
static struct result our_wrap(const char *t, size_t n, int who) {
    ansi_str_answers a = steps_wrap(t, n, third, buffer[who], ROOM, ends[who], MOST);
    return (struct result){a.status, a.len, a.count};
}
static struct result nothing(const char *t, size_t n, int who) { (void)t; return (struct result){(uint32_t)who, n, 0}; }

static const struct { const char *name; struct result (*who[2])(const char *, size_t, int); } CALLS[] = {
    {"width", {lib_width, our_width}}, {"fit", {lib_fit, our_fit}}, {"truncate", {lib_truncate, our_truncate}},
    {"slice", {lib_slice, our_slice}}, {"wrap", {lib_wrap, our_wrap}},
};
enum { CALL_COUNT = sizeof CALLS / sizeof *CALLS };

static char *text;
static struct { char *at; size_t n; } lines[1 << 20];
static size_t count, bytes;

static void show(const char *t, size_t n) {
    for (size_t i = 0; i < n; i++) {
        unsigned char b = (unsigned char)t[i];
        if (b == 0x1b) printf("\\e"); else if (b < 0x20 || b == 0x7f) printf("\\x%02x", b); else putchar(b);
    }
}

static int same(size_t call, const char *t, size_t n, size_t *gave_up) {
    memset(buffer[0], 0, 1024), memset(buffer[1], 0, 1024);
    struct result a = CALLS[call].who[0](t, n, 0), b = CALLS[call].who[1](t, n, 1);
    if (b.status == STEPS_GAVE_UP) { ++*gave_up; return 1; }
    int is_same = a.status == b.status && a.len == b.len && a.count == b.count && (a.status || call == 0 || !memcmp(buffer[0], buffer[1], a.len)) &&
                  (a.status || !memcmp(ends[0], ends[1], a.count * sizeof **ends));
    if (!is_same) {
        printf("%s of ", CALLS[call].name), show(t, n);
        printf("\n  library %u %zu %zu ", a.status, a.len, a.count), show(buffer[0], call ? a.len : 0);
        printf("\n  sketch  %u %zu %zu ", b.status, b.len, b.count), show(buffer[1], call ? b.len : 0);
        puts("");
    }
    return is_same;
}

static void read_lines(const char *name, char end) {
    FILE *file = fopen(name, "rb");
    if (!file) exit(1);
    text = malloc(1 << 24);
    size_t len = fread(text, 1, 1 << 24, file);
    fclose(file);
    count = bytes = 0;
    for (char *at = text; at < text + len;) {
        char *stop = memchr(at, end, (size_t)(text + len - at));
        if (!stop) stop = text + len;
        lines[count].at = malloc((size_t)(stop - at) + 1), lines[count].n = (size_t)(stop - at);   /* apart, so that a read past the end is seen */
        lines[count].at = realloc(lines[count].at, lines[count].n ? lines[count].n : 1);
        memcpy(lines[count].at, at, lines[count].n), bytes += lines[count++].n;
        at = stop + 1;
    }
    free(text);
}

__attribute__((noinline)) static size_t all(struct result (*call)(const char *, size_t, int), int who) {
    size_t sum = 0;
    for (size_t i = 0; i < count; i++) sum += call(lines[i].at, lines[i].n, who).len;
    return sum;
}

static void counted(const char *name, const char *file, int who, struct result (*call)(const char *, size_t, int)) {
    char title[256];
    all(call, who);
    CALLGRIND_ZERO_STATS;
    CALLGRIND_TOGGLE_COLLECT;
    size_t sum = all(call, who);
    CALLGRIND_TOGGLE_COLLECT;
    snprintf(title, sizeof title, "%s %s %s %zu %zu %zu", strrchr(file, '/') ? strrchr(file, '/') + 1 : file, name, who == 2 ? "none" : who ? "sketch" : "library", bytes, count, sum);
    CALLGRIND_DUMP_STATS_AT(title);
}

int main(int argc, char **argv) {
    if (argc < 3) return 2;
    const char *widths = getenv("WIDTHS");
    if (widths) sscanf(widths, "%zu,%zu,%zu,%zu,%zu", &first, &second, &from, &to, &third);
    int is_check = !strncmp(argv[1], "check", 5), different = 0;
    for (int f = 2; f < argc; f++) {
        read_lines(argv[f], !strcmp(argv[1], "check0") ? 0 : '\n');
        if (is_check) {
            for (size_t call = 0; call < CALL_COUNT; call++) {
                size_t gave_up = 0, wrong = 0;
                for (size_t i = 0; i < count; i++) wrong += !same(call, lines[i].at, lines[i].n, &gave_up);
                printf("%-40s %-9s %7zu lines, %zu given up, %zu differ\n", argv[f], CALLS[call].name, count, gave_up, wrong);
                different |= wrong > 0;
            }
            continue;
        }
        /* lines that a call gives up are left out for both */
        size_t kept = 0;
        for (size_t i = 0; i < count; i++) {
            int is_kept = 1;
            for (size_t call = 0; call < CALL_COUNT; call++) is_kept &= CALLS[call].who[1](lines[i].at, lines[i].n, 1).status == ANSI_STR_OK;
            if (is_kept) lines[kept++] = lines[i]; else bytes -= lines[i].n;
        }
        count = kept;
        if (!strncmp(argv[1], "runs:", 5)) {
            for (size_t call = 0; call < CALL_COUNT; call++)
                if (!strcmp(argv[1] + 5, CALLS[call].name)) all(CALLS[call].who[getenv("SKETCH") != NULL], 0);
            continue;
        }
        counted("-", argv[f], 2, nothing);
        for (size_t call = 0; call < CALL_COUNT; call++) {
            if (argv[1][5] == ':' && strcmp(argv[1] + 6, CALLS[call].name)) continue;
            for (int who = 0; who < 2; who++) counted(CALLS[call].name, argv[f], who, CALLS[call].who[who]);
        }
    }
    return different;
}
