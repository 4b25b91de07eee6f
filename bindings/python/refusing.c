/* A `malloc` that refuses one request, to be loaded before the others: `refuse(N)` grants N more requests and refuses the one
   after them, and `refused()` says whether it came to that, and grants all from then on. `held()` is how many blocks are held. */
#include <stdbool.h>
#include <stddef.h>

static long left = -1, blocks;
static bool was_refused;

void refuse(long granted) {
    was_refused = false;
    left = granted;
}

bool refused(void) {
    left = -1;
    return was_refused;
}

long held(void) {
    return blocks;
}

static bool is_refused(void) {
    if (left < 0) {
        return false;
    }
    was_refused = was_refused || left == 0;
    return left-- == 0;
}

/* Those of the address sanitizer, where it is there, and of the C library. */
#define REAL(result, name, words, given)                                        \
    extern result __interceptor_##name words __attribute__((weak));             \
    extern result __libc_##name words;                                          \
    static result real_##name words {                                           \
        return __interceptor_##name != NULL ? __interceptor_##name given : __libc_##name given; \
    }

REAL(void *, malloc, (size_t size), (size))
REAL(void *, calloc, (size_t count, size_t size), (count, size))
REAL(void *, realloc, (void *old, size_t size), (old, size))
REAL(void, free, (void *old), (old))

void *malloc(size_t size) {
    void *made = is_refused() ? NULL : real_malloc(size);
    blocks += made != NULL;
    return made;
}

void *calloc(size_t count, size_t size) {
    void *made = is_refused() ? NULL : real_calloc(count, size);
    blocks += made != NULL;
    return made;
}

void *realloc(void *old, size_t size) {
    void *made = is_refused() ? NULL : real_realloc(old, size);
    blocks += old == NULL && made != NULL;
    return made;
}

void free(void *old) {
    blocks -= old != NULL;
    real_free(old);
}
