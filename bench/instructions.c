/* once CALL FILE RUNS: reads the file and makes the call on its bytes RUNS times. With `hand_` before its name, a call is that of
   `hand.c`. Exits with 1 if there is no such call, if the file can't be read, or if the call returns no length; and with 2 if a
   call by hand returns anything else than the library's. */
#include "measured.h"

/* Whether both return the same. */
static int are_same(const struct call *call, const struct text *t) {
    room = t->len + ANSI_STR_LONGEST_CLOSE;
    buffer = calloc(room, 1);
    hand_written = calloc(room, 1);
    int is_same = buffer != NULL && hand_written != NULL && call->run(t) == call->by_hand(t) &&
                  (call->by_hand == hand_walk || memcmp(buffer, hand_written, room) == 0);
    free(buffer);
    free(hand_written);
    buffer = hand_written = NULL;
    room = 0;
    return is_same;
}

int main(int count, char **words) {
    struct text t;
    if (count != 4 || !is_read(&t, words[2])) {
        return 1;
    }
    int is_by_hand = strncmp(words[1], "hand_", 5) == 0;
    const char *name = words[1] + (is_by_hand ? 5 : 0);
    for (size_t i = 0; i < CALL_COUNT; i++) {
        const struct call *call = &CALLS[i];
        if (strcmp(call->name, name) == 0 && (!is_by_hand || call->by_hand != NULL)) {
            if (is_by_hand && !are_same(call, &t)) {
                return 2;
            }
            for (int runs = atoi(words[3]); runs > 0; runs--) {
                if ((is_by_hand ? call->by_hand : call->run)(&t) == SIZE_MAX) {
                    return 1;
                }
            }
            return 0;
        }
    }
    return 1;
}
