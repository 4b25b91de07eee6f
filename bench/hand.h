/* The calls on a cell of a table in C by hand, under the rules of the library, for comparison: what the library's calls take more
   than these is what a caller might save by writing a call anew. Each checks that its text is UTF-8, allocates once for what it
   writes, and returns the length of that, or SIZE_MAX if there is no result. These calls aren't proved; `bench/instructions`
   compares each result with the library's. */
#ifndef HAND_H
#define HAND_H

#include <stddef.h>

/* What was written is put there, unless it is NULL. */
extern char *hand_written;

size_t hand_trim(const char *text, size_t len);
size_t hand_strip_prefix(const char *text, size_t len, const char *pattern, size_t pattern_len);
size_t hand_strip_suffix(const char *text, size_t len, const char *pattern, size_t pattern_len);
size_t hand_cut(const char *text, size_t len, size_t start, size_t end);
/* The length of all blocks together. Blocks that occur unchanged in the text aren't written. */
size_t hand_blocks(const char *text, size_t len);

#endif
