/* requests FILE..: prints for each call how often it allocates on each file, and how many bytes in all. */
#include "measured.h"

static size_t requests, asked;

void *__real_malloc(size_t size);
void *__real_realloc(void *block, size_t size);
void *__wrap_malloc(size_t size);
void *__wrap_realloc(void *block, size_t size);

static void count(size_t size) {
    requests++;
    asked += size;
}

void *__wrap_malloc(size_t size) {
    count(size);
    return __real_malloc(size);
}

void *__wrap_realloc(void *block, size_t size) {
    count(size);
    return __real_realloc(block, size);
}

int main(int count, char **words) {
    static struct text texts[8];
    if (count > 9) {
        return 1;
    }
    for (int i = 1; i < count; i++) {
        if (!is_read(&texts[i - 1], words[i])) {
            return 1;
        }
    }
    for (size_t i = 0; i < CALL_COUNT; i++) {
        printf("%-14s", CALLS[i].name);
        for (int k = 1; k < count; k++) {
            requests = asked = 0;
            if (CALLS[i].run(&texts[k - 1]) == SIZE_MAX) {
                return 1;
            }
            printf("%9zu%12zu", requests, asked);
        }
        printf("\n");
    }
    return 0;
}
