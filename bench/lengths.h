/* The drivers ask the library for C only for the length of a result, with a buffer of no bytes. So no copy into a buffer is
   measured. */
#ifndef LENGTHS_H
#define LENGTHS_H

#include "ansi_str.h"

#include <stdint.h>

/* The length that a call returns, or SIZE_MAX if it returns none. */
static inline size_t len_of(ansi_str_answer answer) {
    return answer.status == ANSI_STR_OK || answer.status == ANSI_STR_TOO_SMALL ? answer.len : SIZE_MAX;
}

/* How many texts a call returns, or SIZE_MAX if it returns none. */
static inline size_t count_of(ansi_str_answers answer) {
    return answer.status == ANSI_STR_OK || answer.status == ANSI_STR_TOO_SMALL ? answer.count : SIZE_MAX;
}

#endif
