/* The heap of a program, in place of heap.c: what is freed is kept for later requests, since musl's functions take long. With this, `plain`
 * of a log takes three quarters of the time. (It isn't for threads, and no program here has any.) */
#include <stdint.h>
#include <stdlib.h>
#include <string.h>

/* Larger blocks, of more than 2^22 bytes, aren't kept. */
enum { LARGEST = 22 };

/* What is before each block: how many bytes both have, as a power of two, and while it is kept the next one of that size. */
struct head {
    size_t size;
    struct head *next;
};

static struct head *kept_blocks[64];

/* as in heap.c */
struct tried {
    size_t ok;
    void *block;
};

static struct tried tried(struct head *head, size_t size) {
    static char nothing;
    if (!head) return (struct tried){0, &nothing};
    head->size = size;
    return (struct tried){1, head + 1};
}

/* The size for a block of `len` bytes, of which one is left over. No memory has 2^63. */
static size_t size_for(size_t len) { return len > SIZE_MAX / 4 ? 63 : 64 - (size_t)__builtin_clzl(len + sizeof(struct head)); }

static struct head *taken(size_t size) {
    struct head *head = kept_blocks[size];
    if (head) kept_blocks[size] = head->next;
    return head;
}

struct tried rattle_alloc(size_t len, size_t alignment) {
    (void)alignment;
    size_t size = size_for(len);
    struct head *head = taken(size);
    return tried(head ? head : malloc((size_t)1 << size), size);
}

void rattle_dealloc(void *block) {
    struct head *head = (struct head *)block - 1;
    if (head->size > LARGEST) {
        free(head);
    } else {
        head->next = kept_blocks[head->size];
        kept_blocks[head->size] = head;
    }
}

struct tried rattle_realloc(void *block, size_t kept, size_t len, size_t alignment) {
    (void)alignment;
    struct head *head = (struct head *)block - 1;
    size_t size = size_for(len);
    if (size <= head->size) return tried(head, head->size);
    struct head *other = taken(size);
    if (!other) return tried(realloc(head, (size_t)1 << size), size);
    memcpy(other + 1, block, kept);
    rattle_dealloc(block);
    return tried(other, size);
}
