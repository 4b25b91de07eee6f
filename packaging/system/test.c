/* Checks what the files beside it promise, or the kit's objects or the C library in their place; its arguments are any. Exits with 1 if something differs.
 * malloc and realloc are wrapped, to refuse requests and to see their lengths. */
#include <errno.h>
#include <stddef.h>
#include <stdint.h>
#include <stdio.h>
#include <stdlib.h>
#include <string.h>
#include <sys/resource.h>
#include <unistd.h>

struct tried {
    size_t ok;
    unsigned char *block;
};

struct tried rattle_alloc(size_t, size_t);
struct tried rattle_realloc(void *, size_t, size_t, size_t);
void rattle_dealloc(void *);
size_t rattle_arg_count(void);
ptrdiff_t rattle_arg(size_t, unsigned char *, size_t);
int rattle_errno(void);
void rattle_set_errno(int);

static int refuses = 0;
static size_t requested = 0;
static long passed = 0;

void *__real_malloc(size_t);
void *__real_realloc(void *, size_t);

void *__wrap_malloc(size_t len) {
    requested = len;
    return refuses ? NULL : __real_malloc(len);
}

void *__wrap_realloc(void *block, size_t len) {
    requested = len;
    return refuses ? NULL : __real_realloc(block, len);
}

static void expect(const char *what, int is_so) {
    if (!is_so) {
        fprintf(stderr, "system: %s\n", what);
        exit(1);
    }
    passed++;
}

static int is_filled(const unsigned char *bytes, size_t len, unsigned char byte) {
    while (len > 0 && bytes[len - 1] == byte) len--;
    return len == 0;
}

/* The block that was granted for this request, or NULL: one is refused only if malloc or realloc was called for it, and refused. */
static unsigned char *granted(struct tried tried, size_t len, size_t alignment) {
    size_t called_for = requested;
    requested = 0;
    expect("a request is granted, or refused", tried.ok == !(refuses && called_for) && tried.block != NULL);
    if (!tried.ok) return NULL;
    expect("a block is aligned", (uintptr_t)tried.block % alignment == 0);
    expect("malloc is called for as much", called_for == 0 || called_for >= (len ? len : alignment));
    return tried.block;
}

static void expect_heap(size_t len, size_t next, size_t alignment) {
    size_t kept = len < next ? len : next;
    unsigned char *block = granted(rattle_alloc(len, alignment), len, alignment);
    unsigned char *other = granted(rattle_alloc(len, alignment), len, alignment);
    expect("each block has an address of its own", block != other);
    memset(block, 0xa5, len);
    memset(other, 0x5a, len);
    refuses = 1;
    unsigned char *third = granted(rattle_alloc(len, alignment), len, alignment);
    if (third) rattle_dealloc(memset(third, 0, len));
    unsigned char *moved = granted(rattle_realloc(block, kept, next, alignment), next, alignment);
    refuses = 0;
    if (!moved) {
        expect("a block stays if it is refused another length", is_filled(block, len, 0xa5));
        moved = granted(rattle_realloc(block, kept, next, alignment), next, alignment);
    }
    expect("the bytes to keep are kept", is_filled(moved, kept, 0xa5));
    memset(moved, 0xa5, next);
    expect("blocks are apart", is_filled(other, len, 0x5a));
    expect("no memory has so many bytes", !rattle_alloc(SIZE_MAX, alignment).ok && !rattle_realloc(moved, next, SIZE_MAX, alignment).ok);
    expect("a block stays then", is_filled(moved, next, 0xa5));
    rattle_dealloc(moved);
    rattle_dealloc(other);
    requested = 0;
}

/* Many blocks of random lengths, requested, moved and freed in little memory: each keeps its bytes. */
static void expect_blocks(void) {
    static unsigned char *blocks[256];
    static size_t lens[256];
    struct rlimit little = {16 << 20, 16 << 20};
    uint64_t random = 1;
    expect("a limit", setrlimit(RLIMIT_AS, &little) == 0);
    for (long turn = 0; turn < 100000; turn++) {
        random = random * 6364136223846793005u + 1442695040888963407u;
        size_t i = random >> 56, len = (random >> 40 & 0xffff) >> (random >> 36) % 16, kept = len < lens[i] ? len : lens[i];
        expect("a block's bytes stay", is_filled(blocks[i], lens[i], (unsigned char)i));
        if (blocks[i] && random >> 32 & 1) {
            rattle_dealloc(blocks[i]);
            blocks[i] = NULL, lens[i] = 0;
            continue;
        }
        blocks[i] = granted(blocks[i] ? rattle_realloc(blocks[i], kept, len, 1) : rattle_alloc(len, 1), len, 1);
        expect("the bytes to keep are kept", is_filled(blocks[i], kept, (unsigned char)i));
        memset(blocks[i], (int)i, lens[i] = len);
    }
}

static void expect_argument(size_t index, const char *word) {
    size_t len = strlen(word);
    for (size_t room = 0; room <= len + 2; room++) {
        unsigned char *buffer = malloc(room + 1);
        size_t written = len < room ? len : room;
        memset(buffer, 0xa5, room + 1);
        expect("an argument's length", rattle_arg(index, buffer, room) == (len <= room ? (ptrdiff_t)len : -2));
        expect("an argument's bytes", memcmp(buffer, word, written) == 0);
        expect("nothing more is written", is_filled(buffer + written, room + 1 - written, 0xa5));
        free(buffer);
    }
}

static void expect_arguments(size_t count, char **words) {
    unsigned char byte = 0xa5;
    expect("how many arguments there are", rattle_arg_count() == count);
    for (size_t i = 0; i < count; i++) expect_argument(i, words[i]);
    expect("there is no such argument", rattle_arg(count, &byte, 1) == -1 && rattle_arg(SIZE_MAX, &byte, 1) == -1 && byte == 0xa5);
}

static void expect_errno(void) {
    errno = ERANGE;
    expect("the number of the last error", rattle_errno() == ERANGE);
    rattle_set_errno(EILSEQ);
    expect("a new number", errno == EILSEQ && rattle_errno() == EILSEQ);
    expect("that of a call", close(-1) == -1 && rattle_errno() == EBADF);
}

/* (through these, so that the compiler knows nothing of them) */
static void *(*volatile copy)(void *, const void *, size_t) = memcpy;
static void *(*volatile move)(void *, const void *, size_t) = memmove;

/* Copies of each length, from one place to another of the same bytes: each byte arrives, and none is written beside them. */
static void expect_copies(size_t len, size_t from, size_t to) {
    unsigned char bytes[400], before[400];
    int is_apart = from + len <= to || to + len <= from;
    for (int moves = is_apart ? 0 : 1; moves < 2; moves++) {
        for (size_t i = 0; i < sizeof bytes; i++) before[i] = bytes[i] = (unsigned char)(i * 7 + len);
        expect("a copy returns where", (moves ? move : copy)(bytes + to, bytes + from, len) == bytes + to);
        for (size_t i = 0; i < sizeof bytes; i++)
            if (bytes[i] != (i >= to && i < to + len ? before[i - to + from] : before[i])) expect("a copy", 0);
    }
}

#ifdef __x86_64__
struct cpuid_feature {
    unsigned cpuid[4], active[4];
};

const struct cpuid_feature *__x86_get_cpuid_feature_leaf(unsigned);
ssize_t __write(int, const void *, size_t);

static void expect_processor(void) {
    static const char CPUID[] = "a feature of the processor";
    unsigned active = __x86_get_cpuid_feature_leaf(0)->active[2];
    expect(CPUID, !(active & 1u << 0) == !__builtin_cpu_supports("sse3"));
    expect(CPUID, !(active & 1u << 9) == !__builtin_cpu_supports("ssse3"));
    expect(CPUID, !(active & 1u << 19) == !__builtin_cpu_supports("sse4.1"));
    expect(CPUID, !(active & 1u << 20) == !__builtin_cpu_supports("sse4.2"));
    expect(CPUID, !(active & 1u << 23) == !__builtin_cpu_supports("popcnt"));
    int pipes[2];
    char bytes[4] = "";
    expect("a pipe", pipe(pipes) == 0);
    expect("it is written", __write(pipes[1], "abc", 3) == 3 && read(pipes[0], bytes, 4) == 3 && strcmp(bytes, "abc") == 0);
    expect("an error", __write(-1, "abc", 3) == -1 && errno == EBADF);
}
#else
static void expect_processor(void) {}
#endif

int main(int count, char **words) {
    static const size_t LENS[] = {0, 1, 2, 15, 16, 17, 255, 4096, 100000, 1 << 20, 5 << 20};
    enum { COUNT = sizeof LENS / sizeof LENS[0] };
    for (size_t i = 0; i < COUNT * COUNT; i++)
        for (size_t alignment = 1; alignment <= 16; alignment *= 4) expect_heap(LENS[i / COUNT], LENS[i % COUNT], alignment);
    expect_blocks();
    expect_arguments((size_t)count, words);
    expect_errno();
    for (size_t len = 0; len <= 130; len++)
        for (size_t to = 0; to <= 270; to++) expect_copies(len, 135, to);
    expect_processor();
    printf("system: %ld are as they should be\n", passed);
    return 0;
}
