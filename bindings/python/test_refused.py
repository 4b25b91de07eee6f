"""Makes each call with each of its requests for memory refused in turn: it raises a MemoryError, and then returns as before, and holds
no memory. `bindings/test` runs it over refusing.c, with PYTHONMALLOC=malloc. (Python's own code isn't tried: some interpreters don't
handle that. So the styles of blocks are made here by a class in C.)"""

import ctypes
import gc
from collections import abc

import ansi_str

ALLOCATOR = ctypes.CDLL(None)
ALLOCATOR.held.restype = ctypes.c_long
TEXTS = ["", "red, fox", "\x1b[1;31mred\x1b]0;t\x07, \x1b[4m\tfox\x1b[0m", "\x1b[1mr\u00e9d\x1b[0m, \u65e5\x1b[31m", "\x1b[1m,\x1b[3ma" * 40,
         "\x1b]8;;u\x07r\u00e9d" * 20]
# the calls, and what follows the text
CALLS = [("strip",), ("cut", 1, 4), ("left", 3), ("right", 3), ("part", ",", 1), ("strip_prefix", "r"), ("strip_suffix", "x"), ("trim",), ("width",), ("fitting", 3),
         ("column_of", 3), ("truncate", 3, "..."), ("pad", 300, "center"), ("fit", 3, "..."), ("slice_columns", 1, 5), ("expand_tabs", 4), ("wrap", 4),
         ("wrap", 4, "* ", "  "), ("lines", 1), ("link_at", 1), ("find", "o"), ("find_from", 1, "o"), ("matches", ""), ("matches", ","), ("matches", "z"),
         ("starts_with", "o"), ("ends_with", "o"), ("has_any",), ("is_whole",), ("mark", "e", "1"), ("remove", 1, 3), ("replace", 1, 3, "\x1b[1mn"),
         ("insert", 1, "n\u00e9"), ("replace_all", "e", "\x1b[1mnew"), ("link", 1, 3, "u"), ("unlink",), ("links",), ("is_safe",), ("split", ""), ("split", ","),
         ("split", "fox"), ("pen_after",), ("blocks",), ("edit", []), ("edit", ansi_str.Cut(1, 4)), ("edit", [ansi_str.Cut(1), ansi_str.Part("", 1), ansi_str.Trim()]),
         ("edit_columns", []), ("edit_columns", ansi_str.Expand()), ("edit_columns", [ansi_str.Truncate(3, "..."), ansi_str.Pad(300)])]
RANGES = ((), ((0, 0),), ((0, 1), (1, 3)), [[0, 1], [1, 3]], ((2, 900),))
# so often each request is refused, and what the interpreter may keep for later calls
TIMES, KEPT = 40, 20


def use(make_style):
    """Lets styles be made by something else, each again."""
    ansi_str._library.use(make_style, ansi_str.Style, ansi_str.Block, ansi_str.Pen, ansi_str.Link, abc.Iterator, *ansi_str.Edit.__args__,
                          *ansi_str.ColumnEdit.__args__)


def styled_anew(text):
    """The blocks of a text, each with a `slice` for its style."""
    use(slice)
    return ansi_str.blocks(text)


def or_message(call, *given):
    """What a call returns, or what its ValueError says."""
    try:
        return call(*given)
    except ValueError as error:
        return str(error)


def calls():
    for data in (b"\xff", b"\x1b[1mcaf\xe9" * 40, "caf\udce9"):
        yield lambda: ansi_str.sanitize(data, show=True)
    for text in TEXTS:
        for name, *more in CALLS:
            yield lambda: or_message(getattr(ansi_str, name), text, *more)
        for ranges in RANGES:
            yield lambda: or_message(ansi_str.restyle, text, ranges, "1")
            replacements = [(start, end, "\x1b[1mnew") for start, end in ranges]
            yield lambda: or_message(ansi_str.replace_each, text, replacements)
    yield lambda: ansi_str.Style.of("1;" * 600)
    for text in TEXTS:
        yield lambda: styled_anew(text)


def answer(call, granted):
    """The result, or MemoryError if the request after that many is refused, and whether it was."""
    ALLOCATOR.refuse(granted)
    try:
        got = call()
    except MemoryError:
        got = MemoryError
    try:
        return got, ALLOCATOR.refused()
    except MemoryError:
        # (the call needed less, and this one was refused)
        return got, ALLOCATOR.refused()


def held():
    gc.collect()
    return ALLOCATOR.held()


def refusals_of(call):
    """How many requests a call makes, each of which was refused."""
    want = call()
    granted = 0
    while True:
        answer(call, granted)
        before = held()
        for _ in range(TIMES):
            got, was_refused = answer(call, granted)
            assert got == want or was_refused and got is MemoryError, (granted, got, want)
        got = None
        kept = held() - before
        assert kept <= KEPT, (granted, kept)
        if not was_refused:
            return granted
        granted += 1


if __name__ == "__main__":
    print("the module in C: %d requests were refused, each in turn" % sum(map(refusals_of, calls())))
