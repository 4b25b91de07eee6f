/* libvterm's cells of texts, for bench/terminals: vterm WIDTH. Reads texts, each after its length in four bytes, the lowest first.
   Writes a line for each text: for each cell up to the last that isn't empty its characters, US, its attributes and RS; then GS and
   the attributes of the last column. */
#include <stdint.h>
#include <stdio.h>
#include <stdlib.h>
#include <vterm.h>

#define LONGEST (1 << 20)

static void put(uint32_t c) {
    if (c < 0x80) {
        putchar(c);
        return;
    }
    int more = c < 0x800 ? 1 : c < 0x10000 ? 2 : 3;
    putchar((0xFF << (7 - more) & 0xFF) | c >> 6 * more);
    while (more-- > 0) putchar(0x80 | (c >> 6 * more & 0x3F));
}

static void put_color(char name, VTermColor color) {
    if (VTERM_COLOR_IS_DEFAULT_FG(&color) || VTERM_COLOR_IS_DEFAULT_BG(&color)) return;
    if (VTERM_COLOR_IS_INDEXED(&color)) printf("%c%d ", name, color.indexed.idx);
    else printf("%c%d,%d,%d ", name, color.rgb.red, color.rgb.green, color.rgb.blue);
}

static void put_attributes(const VTermScreenCell *cell) {
    VTermScreenCellAttrs has = cell->attrs;
    if (has.bold) printf("bold ");
    if (has.underline) printf("underline%d ", has.underline);
    if (has.italic) printf("italic ");
    if (has.blink) printf("blink ");
    if (has.reverse) printf("reverse ");
    if (has.strike) printf("strike ");
    if (has.font) printf("font%d ", has.font);
    put_color('f', cell->fg);
    put_color('b', cell->bg);
}

int main(int count, char **words) {
    static char text[LONGEST];
    int width = count > 1 ? atoi(words[1]) : 200;
    VTerm *terminal = vterm_new(2, width);
    vterm_set_utf8(terminal, 1);
    VTermScreen *screen = vterm_obtain_screen(terminal);
    uint32_t len;
    while (fread(&len, 4, 1, stdin) == 1 && len <= LONGEST && fread(text, 1, len, stdin) == len) {
        VTermScreenCell cell;
        int last = -1;
        vterm_screen_reset(screen, 1);
        vterm_input_write(terminal, text, len);
        for (int x = 0; x < width; x++) {
            vterm_screen_get_cell(screen, (VTermPos){0, x}, &cell);
            if (cell.chars[0]) last = x;
        }
        for (int x = 0; x <= last; x += cell.width) {
            vterm_screen_get_cell(screen, (VTermPos){0, x}, &cell);
            if (!cell.chars[0]) putchar(' ');
            for (int i = 0; i < VTERM_MAX_CHARS_PER_CELL && cell.chars[i]; i++) put(cell.chars[i]);
            putchar(0x1F);
            put_attributes(&cell);
            putchar(0x1E);
        }
        vterm_screen_get_cell(screen, (VTermPos){0, width - 1}, &cell);
        putchar(0x1D);
        put_attributes(&cell);
        putchar('\n');
        fflush(stdout);
    }
}
