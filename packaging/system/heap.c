/* The heap of a program or library in Rattle, over malloc. The kit has it for x86-64 alone. */
#include <stdlib.h>

/* What a request for memory returns, in two registers: whether there is some, 0 or 1, and where it is. Rattle has no null pointer, so
 * without memory `block` is the address of a byte that nobody uses. */
struct tried {
    size_t ok;
    void *block;
};

static struct tried tried(void *block) {
    static char nothing;
    return block ? (struct tried){1, block} : (struct tried){0, &nothing};
}

/* Requests a block of `len` bytes, aligned to `alignment`, which divides 16, as malloc aligns each. With `len` 0 the block still has an
 * address of its own. */
struct tried rattle_alloc(size_t len, size_t alignment) { return tried(malloc(len ? len : alignment)); }

/* Requests that a block has `len` bytes, of which the first `kept` are as they were; it may move. If it is refused, the block stays. */
struct tried rattle_realloc(void *block, size_t kept, size_t len, size_t alignment) {
    (void)kept;
    return tried(realloc(block, len ? len : alignment));
}

/* Frees a block that one of those two returned. */
void rattle_dealloc(void *block) { free(block); }
