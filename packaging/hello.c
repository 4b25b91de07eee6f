/* Prints the first three bytes of a colored text, in its color. */
#include <ansi_str.h>
#include <stdio.h>
#include <string.h>

int main(void) {
    const char *text = "\x1b[31mred apple\x1b[39m";
    char buffer[64];
    ansi_str_answer cut = ansi_str_cut(text, strlen(text), 0, 3, buffer, sizeof buffer);
    if (cut.status != ANSI_STR_OK) return 1;
    printf("%.*s\n", (int)cut.len, buffer);
}
