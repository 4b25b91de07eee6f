/* The calls of steps.c. They return what those of ansi_str.h do; status 6: a character isn't in the table, or a tail has a sequence. */
#ifndef STEPS_H
#define STEPS_H
#include "ansi_str.h"
enum { STEPS_GAVE_UP = 6 };
ansi_str_answer steps_width(const char *text, size_t len);
ansi_str_answer steps_truncate(const char *text, size_t len, size_t width, const char *tail, size_t tail_len, char *buffer, size_t room);
ansi_str_answer steps_fit(const char *text, size_t len, size_t width, const char *tail, size_t tail_len, char *buffer, size_t room);
ansi_str_answer steps_slice(const char *text, size_t len, size_t start, size_t end, char *buffer, size_t room);
ansi_str_answers steps_wrap(const char *text, size_t len, size_t width, char *buffer, size_t room, size_t *ends, size_t ends_room);
#endif
