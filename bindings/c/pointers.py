#!/usr/bin/env python3
"""Prints a C program that makes each call of the header that has its arguments from its caller: pointers.py <ansi_str.h >pointers.c.

The program has an export of its own for each of the library's, which only checks its arguments. It checks that the header never
passes NULL on, and that every other pointer, length and number is passed on unchanged and in its place. It exits with 1 if one
isn't.
"""
import re
import sys

HEAD = '''#include "ansi_str.h"

#include <stdio.h>
#include <stdlib.h>

static long tried = 0;

static void expect(const char *call, const char *name, int is_so) {
    tried++;
    if (!is_so) {
        fprintf(stderr, "pointers: %s: %s\\n", call, name);
        exit(1);
    }
}

/* what a caller gives: pointers, with numbers above 32 bits; or only NULL and 0 */
static int is_given = 1;

/* the pointer that a state has at a place */
static const void *pointer_at(const unsigned char *place) {
    const void *pointer;
    memcpy(&pointer, place, sizeof pointer);
    return pointer;
}

/* crates/ansi_str_c/src/walks.rt has these numbers too */
_Static_assert(sizeof(ansi_str_block_walk) == 40 && _Alignof(ansi_str_block_walk) == 8, "a walk over blocks");
_Static_assert(sizeof(ansi_str_part_walk) == 80 && _Alignof(ansi_str_part_walk) == 8, "a walk over parts");
_Static_assert(sizeof(ansi_str_line_walk) == 64 && _Alignof(ansi_str_line_walk) == 8, "a walk over lines");
'''

MAIN = '''
int main(void) {
    const ansi_str_edit_step edits[] = {ansi_str_edit_cut(1, 2), ansi_str_edit_left(1), ansi_str_edit_right(1), ansi_str_edit_trim(),
                                        ansi_str_edit_part(NULL, 0, 1), ansi_str_edit_prefix(NULL, 0), ansi_str_edit_suffix(NULL, 0)};
    for (size_t i = 0; i < sizeof edits / sizeof edits[0]; i++) {
        expect("an edit", "the pattern", edits[i].pattern != NULL);
    }
    const ansi_str_column_step column_edits[] = {ansi_str_column_edit_expand(1), ansi_str_column_edit_slice(1, 2),
                                                 ansi_str_column_edit_truncate(1, NULL, 0, ANSI_STR_END), ansi_str_column_edit_pad(1, ANSI_STR_LEFT),
                                                 ansi_str_column_edit_fit(1, ANSI_STR_LEFT, NULL, 0)};
    for (size_t i = 0; i < sizeof column_edits / sizeof column_edits[0]; i++) {
        expect("an edit by columns", "the tail", column_edits[i].tail != NULL);
    }
    expect("a replacement", "the new text", ansi_str_replacement_of(1, 2, NULL, 0).with != NULL);
    call_each();
    is_given = 0;
    call_each();
    printf("pointers: %ld are as they should be\\n", tried);
    return 0;
}'''

# where the pointers in a walk are, and in what its step fills in
INNER = {'ansi_str_block_walk': ['walk->state + ANSI_STR_STATE_TEXT'],
         'ansi_str_line_walk': ['walk->state + ANSI_STR_STATE_TEXT'],
         'ansi_str_part_walk': ['walk->state + ANSI_STR_STATE_TEXT', 'walk->state + ANSI_STR_STATE_PATTERN'],
         'ansi_str_next_block': ['(const unsigned char *)&block->text'], 'ansi_str_next_part': ['(const unsigned char *)&part->text'],
         'ansi_str_pen': ['(const unsigned char *)&pen->link']}


def parameters_of(words):
    """The types and the names of parameters."""
    return [re.fullmatch(r'(.*[ *])(\w+)', word.strip()).groups() for word in words.split(',')]


def main():
    header = re.sub(r'/\*.*?\*/', '', sys.stdin.read(), flags=re.S)
    exports = re.findall(r'^(\w+) (ansi_str_raw_(\w+))\(([^)]*)\);', header, flags=re.M)
    calls = dict(re.findall(r'^static inline \w+ ansi_str_(\w+)\(([^)]*)\) \{', header, flags=re.M))
    given, made = {}, []
    print(HEAD)
    for result, export, name, words in exports:
        if name.endswith('_unchecked'):
            continue
        gives, checks = [], []
        taken = parameters_of(words)
        followed = [after.endswith('_len') for _, after in taken[1:]] + [False]
        for place, ((kind, _), (_, at), has_len) in enumerate(zip(parameters_of(calls[name]), taken, followed)):
            kind = kind.replace('const', '').strip()
            if '*' not in kind:
                gives.append(f'is_given ? ({kind})(((size_t)1 << 32) + {place + 7}) : 0')
                checks.append((at, f'{at} == ({gives[-1]})'))
                continue
            kind = kind.replace('*', '').strip()
            # (a pointer with a length may be NULL; any other is to what the caller owns, which calls share)
            what = f'{name}_{at}' if has_len else f'own_{kind}'
            given[what] = f'static {kind} {what}[1];'
            gives.append(f'is_given ? {what} : NULL' if has_len else what)
            is_same = f'(const void *){at} == {what}'
            checks.append((at, f'{at} != NULL && (!is_given || {is_same})' if has_len else is_same))
            checks += [(at, f'pointer_at({inner}) != NULL') for inner in INNER.get(kind, [])]
        body = '\n'.join(f'    expect("{name}", "{at}", {check});' for at, check in checks)
        made.append(f'{result} {export}({words}) {{\n    static const {result} result;\n{body}\n    return result;\n}}\n')
        made.append(f'static void call_{name}(void) {{\n    ansi_str_{name}({", ".join(gives)});\n}}\n')
    print('\n'.join(given.values()))
    print('\n' + '\n'.join(made))
    each = '\n'.join(f'    {call}();' for call in re.findall(r'call_\w+', '\n'.join(made)))
    print(f'static void call_each(void) {{\n{each}\n}}')
    print(MAIN)


main()
