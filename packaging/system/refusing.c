/* For tests: grants as many requests for memory as GRANTED of the environment says. (By the linker's `--wrap`.) */
#include <stdlib.h>

void *__real_malloc(size_t);
void *__real_realloc(void *, size_t);

static int is_granted(void) {
    static long made;
    return made++ < atol(getenv("GRANTED"));
}

void *__wrap_malloc(size_t len) { return is_granted() ? __real_malloc(len) : NULL; }

void *__wrap_realloc(void *block, size_t len) { return is_granted() ? __real_realloc(block, len) : NULL; }
