#!/usr/bin/env python3
"""Measures how the time of `ansi_lines` grows with its input, in one run over the built program, and that of calls from Python on
matches, ranges, links and parts, over the built library for C.

For each word or call and input it prints the time of 1 MiB, that of 128 KiB, and their ratio. An input eight times as long may
take at most 12 times as long: the growth is linear, with room for noise. A part by a long pattern may take at most 4
times as long as one by `xyz`."""
import importlib
import os
import resource
import subprocess
import sys
import tempfile
import time

TOP = os.path.dirname(os.path.dirname(os.path.abspath(__file__)))
PROGRAM = os.path.join(TOP, 'crates', 'ansi_lines', 'out', 'ansi_lines')
LONG = 1 << 20
SHORT = 1 << 17
MOST = 12
MOST_OF_SHORT = 4
RUNS = 9

WORDS = ['strip', 'cut:1:']

SHORT_PART = 'part:0:xyz'
LONG_PARTS = ['part:0:' + 'x' * 256, 'part:0:' + 'a' * 255 + 'b']

INPUTS = [
    ('colored log lines', b'', b'\x1b[2m12:00:00\x1b[0m \x1b[32mINFO\x1b[0m one line of a log, in color\n'),
    ('ESC ] unfinished', b'', b'\x1b]'),
    ('ESC P unfinished', b'', b'\x1bP'),
    ('ESC [ 1;1;.. unfinished', b'\x1b[', b'1;'),
    ('ESC alone', b'', b'\x1b'),
    ('ESC [1m and a letter', b'', b'\x1b[1ma'),
    ('lines of one letter', b'', b'a\n'),
]

SEARCHED = INPUTS[-2:]

# many matches of `ab`: each around a sequence, so that its bytes occur nowhere, and each in a link of its own
MATCHED = [('a match around an SGR', 'a\x1b[1mb'), ('a match in a link', '\x1b]8;;u\x1b\\ab\x1b]8;;\x1b\\ ')]

# of the module `ansi_str`, on a text and the ranges of its matches
CALLS = [
    ('matches', lambda library, text, ranges: library.matches(text, 'ab')),
    ('mark', lambda library, text, ranges: library.mark(text, 'ab', '1;31')),
    ('restyle', lambda library, text, ranges: library.restyle(text, ranges, '1;31')),
    ('replace_all', lambda library, text, ranges: library.replace_all(text, 'ab', '\x1b[3mcd')),
    ('replace_each', lambda library, text, ranges: library.replace_each(text, [(*it, '\x1b[3mcd') for it in ranges])),
    ('links', lambda library, text, ranges: library.links(text)),
    ('unlink', lambda library, text, ranges: library.unlink(text)),
    ('split', lambda library, text, ranges: library.split(text, 'ab')),
    ('iter_split', lambda library, text, ranges: sum(1 for _ in library.iter_split(text, 'ab'))),
    ('iter_blocks', lambda library, text, ranges: sum(1 for _ in library.iter_blocks(text))),
]


def text(front, piece, length):
    """An input of a given length: the front, and the piece as often as it fits."""
    return (front + piece * (length // len(piece) + 1))[:length]


def spent():
    """The processor time of the programs that were run."""
    usage = resource.getrusage(resource.RUSAGE_CHILDREN)
    return usage.ru_utime + usage.ru_stime


def seconds(word, data):
    """The shortest processor time of some runs with the word on the data."""
    shortest = float('inf')
    for _ in range(RUNS):
        begin = spent()
        subprocess.run([PROGRAM, word], input=data, stdout=subprocess.DEVNULL, check=True)
        shortest = min(shortest, spent() - begin)
    return shortest


def seconds_of_call(library, call, text):
    """The shortest processor time of some calls on a text."""
    ranges = library.matches(text, 'ab')
    shortest = float('inf')
    for _ in range(RUNS):
        begin = time.process_time()
        call(library, text, ranges)
        shortest = min(shortest, time.process_time() - begin)
    return shortest


def measured(word, name, front, piece):
    """Prints the row of a word, and returns the time of 1 MiB and whether the growth is linear."""
    return printed(word, name, seconds(word, text(front, piece, LONG)), seconds(word, text(front, piece, SHORT)))


def printed(word, name, long, short):
    """Prints a row, and returns the time of 1 MiB and whether the growth is linear."""
    growth = long / short
    shown = word if len(word) <= 16 else '%s.. (%d)' % (word[:8], len(word))
    print('%-16s %-26s %7.2f ms %7.2f ms %8.2f' % (shown, name, long * 1e3, short * 1e3, growth))
    return long, growth <= MOST


def calls_are_linear():
    """Prints the rows of the calls, and returns whether the growth of all is linear."""
    is_linear = True
    with tempfile.TemporaryDirectory() as folder:
        os.environ['ANSI_STR_SO'] = os.path.join(folder, '_ansi_str.abi3.so')
        subprocess.run([os.path.join(TOP, 'bindings', 'python', 'build'), os.environ['ANSI_STR_SO']], check=True)
        sys.path.insert(0, os.path.join(TOP, 'bindings', 'python', 'src'))
        library = importlib.import_module('ansi_str')
        for call_name, call in CALLS:
            for name, piece in MATCHED:
                long, short = (seconds_of_call(library, call, piece * (length // len(piece))) for length in (LONG, SHORT))
                is_linear = printed(call_name, name, long, short)[1] and is_linear
    return is_linear


def main():
    # builds the program if its sources have changed
    subprocess.run([os.path.join(TOP, 'ansi_lines'), 'strip'], input=b'', check=True)
    print('%-16s %-26s %10s %10s %8s' % ('word', 'input', '1 MiB', '128 KiB', 'growth'))
    is_linear = True
    for word in WORDS:
        for given in INPUTS:
            is_linear = measured(word, *given)[1] and is_linear
    is_short = True
    for given in SEARCHED:
        of_short, linear = measured(SHORT_PART, *given)
        is_linear = linear and is_linear
        for word in LONG_PARTS:
            took, linear = measured(word, *given)
            is_linear = linear and is_linear
            is_short = took <= MOST_OF_SHORT * of_short and is_short
    is_linear = calls_are_linear() and is_linear
    if not is_linear:
        sys.exit('a growth is above %d' % MOST)
    if not is_short:
        sys.exit('a part by a long pattern takes more than %d times as long as one by a short one' % MOST_OF_SHORT)


if __name__ == '__main__':
    main()
