/* What a program in Rattle needs of its system besides the heap. The kit has it for x86-64 and glibc alone. */
#include <errno.h>
#include <stddef.h>
#include <string.h>
#include <unistd.h>

/* what `main` was called with */
static size_t count;
static char **words;

/* the program's own `main` (by the linker's `--wrap`, the start files call the other) */
int __real_main(int, char **);

int __wrap_main(int given, char **each) {
    count = (size_t)given;
    words = each;
    return __real_main(given, each);
}

/* How many arguments there are; the first is the program's name. */
size_t rattle_arg_count(void) { return count; }

/* Writes an argument to the front of a buffer, and returns its length; or -1 if there is none; or -2 if it is longer than the buffer,
 * which its beginning then fills. */
ptrdiff_t rattle_arg(size_t index, char *buffer, size_t room) {
    if (index >= count || !words[index]) return -1;
    size_t len = strlen(words[index]);
    memcpy(buffer, words[index], len < room ? len : room);
    return len <= room ? (ptrdiff_t)len : -2;
}

/* The number of the last error of this thread, and a new number for it. */
int rattle_errno(void) { return errno; }

void rattle_set_errno(int number) { errno = number; }

#ifdef __x86_64__
#include <cpuid.h>

/* glibc's other name for `write`: a program that can't use its processor says so by it */
ssize_t __write(int file, const void *bytes, size_t len) { return write(file, bytes, len); }

/* as glibc's <sys/platform/x86.h>: the registers eax, ebx, ecx and edx of a leaf of `cpuid`, and those whose features can be used */
struct cpuid_feature {
    unsigned cpuid[4], active[4];
};

/* The leaves that a program asks for, 1 and 0x80000001. (What it looks for there needs nothing of the system to be usable.) */
const struct cpuid_feature *__x86_get_cpuid_feature_leaf(unsigned index) {
    static struct cpuid_feature leaf;
    unsigned *to = leaf.cpuid;
    leaf = (struct cpuid_feature){0};
    if ((index == 0 && __get_cpuid(1, to, to + 1, to + 2, to + 3)) || (index == 2 && __get_cpuid(0x80000001, to, to + 1, to + 2, to + 3)))
        memcpy(leaf.active, leaf.cpuid, sizeof leaf.cpuid);
    return &leaf;
}
#endif
