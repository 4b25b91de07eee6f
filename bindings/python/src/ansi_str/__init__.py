"""Text with ANSI control sequences, taken as if the sequences weren't there, while every character keeps its style.

A proved library does the work, in the C module beside this file; the environment variable ANSI_STR_SO can name another file.

The plain text is the text without its sequences. A position counts characters (code points) of the plain text. A position past
the end, however large, counts as the end; only `restyle`, `remove`, `replace`, `insert` and `link` refuse it, and `find_from` finds
nothing there.

Each call raises
- a TypeError that names the argument, if a text or a pattern isn't a `str`;
- a UnicodeEncodeError, which is a ValueError, for a lone surrogate;
- a ValueError for a position below 0.
`sanitize` also takes `bytes`, and the surrogates of a file's name that isn't UTF-8.

The calls, each of which has an example in its own help, such as `help(ansi_str.cut)`. What follows a `*` is given by its name only:

    strip(text)                        has_any(text)
    cut(text, start=0, end=None)       is_whole(text)
    left(text, mid)                    find(text, pattern)
    right(text, mid)                   starts_with(text, pattern)
    trim(text)                         ends_with(text, pattern)
    strip_prefix(text, pattern)        width(text)
    strip_suffix(text, pattern)        fitting(text, width)
    part(text, pattern, index)         truncate(text, width, tail='', side='end')
    split(text, pattern)               pad(text, width, alignment='left')
    iter_split(text, pattern)          fit(text, width, tail='', *, alignment='left')
    blocks(text)                       wrap(text, width, first_indent='', indent='')
    iter_blocks(text)                  edit(text, edits)
    link_at(text, position)            is_safe(text, *, links=False)
    lines(text, width)                 sanitize(text, *, show=False, links=False)
    iter_lines(text, width)            slice_columns(text, start=0, end=None)
    expand_tabs(text, stop=8)          column_of(text, position)
    matches(text, pattern)             find_from(text, position, pattern)
    mark(text, pattern, style)         restyle(text, ranges, style)
    remove(text, start, end)           codes(*, foreground=None, background=None, bold=True, ...)
    replace(text, start, end, new)     insert(text, position, new)
    replace_all(text, pattern, new)    replace_each(text, replacements)
    link(text, start, end, address)    unlink(text)
    links(text)                        pen_after(text)
    edit_columns(text, edits)          styled(text, style)
    rgb_of(color)                      widest_line(text)

The classes, each with a help of its own: `Block` and `Style`, which `blocks` returns, `Link`, which `links` returns, `Pen`, which
`pen_after` returns; the edits `Cut`, `Left`, `Right`, `Part`, `Prefix`, `Suffix` and `Trim`; and the edits by columns `Expand`,
`Slice`, `Truncate`, `Pad` and `Fit`. `import *` leaves them out. `Style.of` returns the style that codes select.

>>> log = "\\x1b[31mred\\x1b[39m and plain"
>>> strip(log)
'red and plain'
>>> cut(log, 0, 2)
'\\x1b[31mre\\x1b[39m'
>>> find(log, "d and")
2
"""
# (the bodies of the calls are in C)
# mypy: disable-error-code="empty-body"

import operator
import os
import struct
import sys
import warnings
from collections import abc
from importlib.machinery import ExtensionFileLoader
from importlib.util import module_from_spec, spec_from_file_location
from typing import Any, Callable, FrozenSet, Iterable, Iterator, List, NamedTuple, Optional, Tuple, TypeVar, Union

__version__ = "0.2.0"
# (without the types: `help` would show a hundred lines for each class, all before the first function)
__all__ = [
    "strip", "cut", "left", "right", "part", "strip_prefix", "strip_suffix", "trim",
    "width", "fitting", "column_of", "truncate", "pad", "fit", "slice_columns", "expand_tabs", "wrap", "lines", "iter_lines",
    "widest_line", "link_at",
    "ALIGNMENTS", "SIDES",
    "find", "find_from", "matches", "starts_with", "ends_with", "has_any", "is_whole",
    "mark", "restyle", "styled", "remove", "codes", "rgb_of",
    "replace", "insert", "replace_all", "replace_each", "link", "unlink", "links",
    "sanitize", "is_safe",
    "split", "iter_split", "blocks", "iter_blocks", "pen_after", "ATTRIBUTES", "COLORS",
    "edit", "edit_columns",
]

# the attributes by their bits, and the colors that codes name by their last digits, and the same bright
ATTRIBUTES = ("bold", "faint", "italic", "underline", "double_underline", "slow_blink", "rapid_blink", "inverse", "hide", "crossed_out",
              "framed", "encircled", "fraktur", "proportional_spacing", "overlined", "ideogram_underline",
              "ideogram_double_underline", "ideogram_overline", "ideogram_double_overline", "ideogram_stress_marking",
              "superscript", "subscript")
COLORS = ("black", "red", "green", "yellow", "blue", "magenta", "cyan", "white", "bright_black", "bright_red", "bright_green",
          "bright_yellow", "bright_blue", "bright_magenta", "bright_cyan", "bright_white")
ALIGNMENTS = ("left", "center", "right")
SIDES = ("end", "start", "middle")
_NO_COLOR, _NAMED, _FIXED = 0, 1, 2
# the SGR codes that set the attributes
_CODES = (1, 2, 3, 4, 21, 5, 6, 7, 8, 9, 51, 52, 20, 26, 53, 60, 61, 62, 63, 64, 73, 74)

if sys.version_info >= (3, 8):
    from typing import Literal
    Alignment = Literal["left", "center", "right"]
    Side = Literal["end", "start", "middle"]
else:
    Alignment = Side = str

# the attributes; the colors of the text, behind it and of its underline, each a kind and three numbers; whether a font is set, and it
_STYLE = struct.Struct("=I4B4B4B?B")

_Call = TypeVar("_Call", bound=Callable[..., Any])


def _loaded() -> Any:
    file = os.environ.get("ANSI_STR_SO") or os.path.join(os.path.dirname(os.path.abspath(__file__)), "_ansi_str.abi3.so")
    loader: Any = ExtensionFileLoader("ansi_str._ansi_str", file)
    spec: Any = spec_from_file_location(loader.name, file, loader=loader)
    try:
        module: Any = module_from_spec(spec)
    except ImportError as fault:
        raise ImportError("ansi_str can't load its library, {}: run bindings/python/build of its repository, install its wheel, "
                          "or name the file in ANSI_STR_SO ({})".format(file, fault)) from fault
    loader.exec_module(module)
    return module


_library = _loaded()


def _in_c(call: _Call) -> _Call:
    """The function of the module in C that has this name. It takes its signature and its docstring from this one."""
    described: Any = call
    code, defaults, named = described.__code__, described.__defaults__ or (), described.__kwdefaults__ or {}
    words = list(code.co_varnames[:code.co_argcount])
    for place, value in enumerate(defaults, len(words) - len(defaults)):
        words[place] += "={!r}".format(value)
    if named:
        words += ["*"] + ["{}={!r}".format(*word) for word in named.items()]
    head = "{}({})\n--\n\n".format(described.__name__, ", ".join(words))
    made: _Call = _library.described(described.__name__, head + (described.__doc__ or ""), described.__module__)
    return made


def _position(name: str, position: int) -> int:
    if type(position) is int and position >= 0:
        return position
    try:
        position = operator.index(position)
    except TypeError:
        raise TypeError("{} must be an int, not {}".format(name, type(position).__name__)) from None
    if position < 0:
        raise ValueError("{} is below 0: {}".format(name, position))
    return position


@_in_c
def strip(text: str) -> str:
    """The plain text: the text without its sequences.

    >>> strip("a\\x1b]0;title\\x07b")
    'ab'
    """


@_in_c
def cut(text: str, start: int = 0, end: Optional[int] = None) -> str:
    """The text from one position up to another, each character in its style. All sequences up to the end of the cut stay, those
    before its start too. Then the style still open is closed. ValueError: the end is below the start.

    >>> cut("\\x1b[30mTEXT\\x1b[39m", 1, 3)
    '\\x1b[30mEX\\x1b[39m'
    >>> cut("\\x1b[1ma\\x1b[0m\\x1b[31mred", 1, 2)
    '\\x1b[1m\\x1b[0m\\x1b[31mr\\x1b[39m'
    """


@_in_c
def left(text: str, mid: int) -> str:
    """The text before a position, each run of it with the start of its style before it and the close after it.

    >>> left("\\x1b[30mTEXT\\x1b[39m", 2)
    '\\x1b[30mTE\\x1b[39m'
    """


@_in_c
def right(text: str, mid: int) -> str:
    """The text from a position on, in the same form as `left`.

    >>> right("\\x1b[30mTEXT\\x1b[39m", 2)
    '\\x1b[30mXT\\x1b[39m'
    """


@_in_c
def trim(text: str) -> str:
    """The text without the white space at the ends of its plain text. Every sequence stays.

    >>> trim(" \\x1b[31m red \\x1b[39m ")
    '\\x1b[31mred\\x1b[39m'
    """


@_in_c
def strip_prefix(text: str, pattern: str) -> Optional[str]:
    """The text without a prefix of its plain text, or None if the plain text doesn't begin with it. Every sequence stays.

    >>> strip_prefix("\\x1b[31mred\\x1b[39m", "re")
    '\\x1b[31md\\x1b[39m'
    """


@_in_c
def strip_suffix(text: str, pattern: str) -> Optional[str]:
    """The text without a suffix of its plain text, or None if the plain text doesn't end with it. Every sequence stays.

    >>> strip_suffix("\\x1b[31mred\\x1b[39m", "ed")
    '\\x1b[31mr\\x1b[39m'
    """


@_in_c
def part(text: str, pattern: str, index: int) -> Optional[str]:
    """The part of an index, counted from 0, as `split` returns it, or None if there is no such part.

    >>> part("\\x1b[31mlion::tiger\\x1b[0m", "::", 1)
    '\\x1b[31mtiger\\x1b[0m'
    """


@_in_c
def find(text: str, pattern: str) -> Optional[int]:
    """The position of the pattern's first match in the plain text, or None.

    >>> find("\\x1b[1mé\\x1b[0mb", "b")
    1
    """


@_in_c
def find_from(text: str, position: int, pattern: str) -> Optional[int]:
    """The position of the pattern's first match in the plain text that doesn't begin before a position, or None.

    >>> find_from("ab\\x1b[1mab", 1, "ab"), find_from("ab\\x1b[1mab", 3, "ab")
    (2, None)
    """


@_in_c
def matches(text: str, pattern: str) -> List[Tuple[int, int]]:
    """Where each match of a pattern begins and ends in the plain text, in order. Matches don't overlap, and may run across
    sequences. An empty pattern matches between any two characters and at both ends. `restyle` takes the ranges as they are.

    >>> matches("a\\x1b[1mba\\x1b[0mb", "ab")
    [(0, 2), (2, 4)]
    """


@_in_c
def starts_with(text: str, pattern: str) -> bool:
    """Whether the plain text begins with the pattern.

    >>> starts_with("\\x1b[31mred", "re")
    True
    """


@_in_c
def ends_with(text: str, pattern: str) -> bool:
    """Whether the plain text ends with the pattern.

    >>> ends_with("\\x1b[31mred\\x1b[39m", "ed")
    True
    """


@_in_c
def has_any(text: str) -> bool:
    """Whether the text has an ESC.

    >>> has_any("red"), has_any("\\x1b[31mred")
    (False, True)
    """


@_in_c
def is_whole(text: str) -> bool:
    """Whether no ESC in the text begins an unfinished sequence.

    >>> is_whole("\\x1b[31mred"), is_whole("red\\x1b[3")
    (True, False)
    """


@_in_c
def sanitize(text: Union[str, bytes], *, show: bool = False, links: bool = False) -> str:
    """The text made safe, so that it can't drive the terminal. Printing characters, TAB, line feeds, carriage returns directly
    before a line feed and SGRs stay, and with `links` links (OSC 8) of printable ASCII, with an address of at most 2083 characters
    and parameters of at most 253. Any other sequence, lone ESC, control character or bidirectional control is dropped, or with
    `show` shown in printing characters. The link and then the style still open at the end are closed.

    The text may be `bytes`: then what isn't UTF-8 becomes U+FFFD, as by `bytes.decode(errors="replace")`. A `str` with
    surrogates for such bytes (PEP 383, `surrogateescape`), as in a file's name, is made safe as these bytes are.

    >>> sanitize("\\x1b[2J\\x1b[31mred\\x07")
    '\\x1b[31mred\\x1b[39m'
    >>> sanitize("\\x1b[2Ja\\x9b", show=True)
    '^[[2Ja<U+009B>'
    >>> sanitize(b"caf\\xe9"), sanitize("caf\\udce9")
    ('caf\ufffd', 'caf\ufffd')
    """


@_in_c
def is_safe(text: str, *, links: bool = False) -> bool:
    """Whether the text is safe: whether `sanitize` would drop nothing. A style or a link may be open at its end.

    >>> is_safe("\\x1b[31mred"), is_safe("\\x1b[2J")
    (True, False)
    """


@_in_c
def width(text: str) -> int:
    """The display width of the text in columns: the sum over the extended grapheme clusters of what a terminal
    shows, which has a blank for each TAB and line feed, and no other controls.

    >>> width("\\x1b[31m日本\\x1b[39m")
    4
    """


@_in_c
def fitting(text: str, width: int) -> int:
    """The position up to which the plain text fits into `width` columns. The text can be cut there.

    >>> fitting("a\\x1b[1m日本", 4)
    2
    """


@_in_c
def column_of(text: str, position: int) -> int:
    """The column of a position: how many columns what is shown before it has. Inside a cluster, the part of it before the
    position counts as a cluster.

    >>> column_of("a\\x1b[1m日本", 2)
    3
    """


@_in_c
def truncate(text: str, width: int, tail: str = "", side: Side = "end") -> str:
    """The text truncated to `width` columns, on one line and safe: SGRs, clean links (OSC 8) and printing characters stay, TAB
    and line ends become a blank, and the rest is left out. If it is truncated and the tail fits, the tail follows, shown
    as the text is, and closed. Before the tail, the link and then the style still open at the end of the text are closed. At
    the start or in the middle the columns that stay are those of `slice_columns`, after the tail or on both sides of it.
    ValueError: the side is none of SIDES.

    >>> truncate("\\x1b[31mabcdef\\x1b[39m", 4, "...")
    '\\x1b[31ma\\x1b[39m...'
    >>> truncate("/usr/local/bin", 8, "…", side="middle")
    '/usr…bin'
    """


@_in_c
def pad(text: str, width: int, alignment: Alignment = "left") -> str:
    """The text padded with blanks to `width` columns, at the left, the center or the right, on one line and safe, as by
    `truncate`. The link and style still open at its end are closed before the blanks. ValueError: the alignment is none of
    ALIGNMENTS.

    >>> pad("\\x1b[41mab", 5, "center")
    ' \\x1b[41mab\\x1b[49m  '
    """


@_in_c
def fit(text: str, width: int, tail: str = "", *, alignment: Alignment = "left") -> str:
    """The text of a table's cell: truncated to `width` columns, as by `truncate`, and then padded to them, as by `pad`. (An alignment
    in the place of the tail is still one, and the tail may follow it, with a DeprecationWarning.)

    >>> fit("\\x1b[41mab", 4), fit("\\x1b[41mabcdef", 4, "…"), fit("12", 4, alignment="right")
    ('\\x1b[41mab\\x1b[49m  ', '\\x1b[41mabc\\x1b[49m…', '  12')
    """


@_in_c
def slice_columns(text: str, start: int = 0, end: Optional[int] = None) -> str:
    """The columns of the text from `start`, of which the first is 0, up to `end` or the last one, on one line and safe, as by
    `truncate`. What is open at the start is opened first, and the link and style still open at the end are closed. If a cluster
    is only partly in the slice, each of its columns there is a blank. A slice without a column is empty.

    >>> slice_columns("\\x1b[31m日本語\\x1b[39m", 1, 4)
    '\\x1b[31m 本\\x1b[39m'
    """


@_in_c
def expand_tabs(text: str, stop: int = 8) -> str:
    """The text with each TAB expanded: it becomes blanks up to the next multiple of `stop` columns from the beginning of its
    line. Sequences and controls have no columns. Everything else is unchanged. If `stop` is 0, a TAB becomes nothing.

    >>> expand_tabs("a\\x1b[4m\\tb\\n日\\tc", 4)
    'a\\x1b[4m   b\\n日  c'
    """


@_in_c
def wrap(text: str, width: int, first_indent: str = "", indent: str = "") -> List[str]:
    """The text wrapped to lines of `width` columns, each safe: SGRs, clean links (OSC 8) and printing characters stay, a TAB
    becomes a blank, and the rest is left out. Each line closes the link and style that it leaves open; the next line reopens
    them. A line ends before a word that doesn't fit; a word that is too wide is broken. A width of 0 counts as 1. One indent
    comes before the first line, the other before each later line, each a text of its own, safe and closed. The text is wrapped
    at the columns that the wider of both leaves, at least one.

    >>> wrap("\\x1b[31mlion tiger", 5)
    ['\\x1b[31mlion\\x1b[39m', '\\x1b[31mtiger\\x1b[39m']
    >>> wrap("lion tiger", 7, "* ", "  ")
    ['* lion', '  tiger']
    """


@_in_c
def lines(text: str, width: int) -> List[Tuple[int, int]]:
    """Where each line of the text begins and ends in the plain text, as positions, if it is wrapped to a width in columns of what
    is shown. A TAB is a blank, and other controls have no column; those at the end of a line are left out. The text can be cut there.

    >>> lines("ab \\x1b[1mcd  efg", 5)
    [(0, 5), (7, 10)]
    """


@_in_c
def iter_lines(text: str, width: int) -> Iterator[Tuple[int, int]]:
    """An iterator over what `lines` returns, each line searched on demand.

    >>> next(iter_lines("ab \\x1b[1mcd  efg", 5))
    (0, 5)
    """


def widest_line(text: str) -> int:
    """The display width of the widest line of the text, whose lines end at line feeds.

    >>> widest_line("a\\n\\x1b[31m日本\\nbcd")
    4
    """
    return max(map(width, split(text, "\n")))


@_in_c
def link_at(text: str, position: int) -> Optional[str]:
    """The address of the link (OSC 8) around the character at a position, or None if no link is open there.

    >>> link_at("a \\x1b]8;;http://x\\x1b\\\\link\\x1b]8;;\\x1b\\\\.", 2)
    'http://x'
    """


@_in_c
def remove(text: str, start: int, end: int) -> str:
    """The text without what its plain text has from one position up to another. Every sequence stays, so in a whole text each
    character that is left keeps its style. ValueError: the end is below the start, or past the end of the plain text.

    >>> remove("one \\x1b[1mtwo\\x1b[22m three", 2, 5)
    'on\\x1b[1mwo\\x1b[22m three'
    """


@_in_c
def replace(text: str, start: int, end: int, new: str) -> str:
    """The text with another text in place of what its plain text has from one position up to another. The new text is in the style
    and the link of the character before `start`; at the front, of the first one. Its own sequences come on top of that, and what
    they open ends with it. If both texts are whole (`is_whole`), each character before the range or after it keeps its style and
    its link, except that what an unknown code, such as `4:3`, has set ends with a new text that has an ESC. Every sequence of the
    text stays; those in the range come right after the new text. ValueError: as by `remove`.

    >>> replace("\\x1b[32mgreen\\x1b[39m", 1, 3, "\\x1b[1mAB")
    '\\x1b[32mg\\x1b[1mAB\\x1b[22m\\x1b[39m\\x1b[32men\\x1b[39m'
    """


@_in_c
def insert(text: str, position: int, new: str) -> str:
    """The text with another text put in at a position, as `replace` does it with an empty range there. ValueError: the position is
    past the end of the plain text.

    >>> insert("\\x1b[32mgreen\\x1b[39m.", 5, "ish")
    '\\x1b[32mgreenish\\x1b[39m.'
    """


@_in_c
def replace_all(text: str, pattern: str, new: str) -> str:
    """The text with another text in place of each match of a pattern, as `matches` finds them and `replace` replaces each: the new
    text is in the style and the link that the character before the match has in this text. Every other character keeps its style
    and its link as there.

    >>> replace_all("\\x1b[32mone\\x1b[39m, one", "one", "two")
    '\\x1b[32mtwo\\x1b[39m, two'
    """


@_in_c
def replace_each(text: str, replacements: Iterable[Tuple[int, int, str]]) -> str:
    """The text with a text of its own in place of each of many ranges, in one pass. A replacement is a start, an end and a new text;
    the positions are those of this text, in order, and the ranges don't overlap. Each range is replaced as `replace` does it: its
    new text is in the style and the link that the character before the range has in this text. Every other character keeps its
    style and its link as there. Texts at the same position come in order. ValueError: as by `restyle`, for the ranges.

    >>> replace_each("\\x1b[32mone\\x1b[39m two", [(0, 3, "1"), (4, 7, "2")])
    '\\x1b[32m1\\x1b[39m 2'
    """


@_in_c
def link(text: str, start: int, end: int, address: str) -> str:
    """The text with what its plain text has from one position up to another linked to an address (OSC 8). Each character there loses
    another link that it had. Every other character keeps its link: one that goes on into the range ends before it, and one that goes
    on after it is opened again there. The plain text, the styles and all other sequences stay. ValueError: as by `remove`; or the
    address is empty, is longer than 2083 characters, or has one that isn't printable ASCII.

    >>> link("see \\x1b[1mhere", 4, 8, "http://x")
    'see \\x1b[1m\\x1b]8;;http://x\\x1b\\\\here\\x1b]8;;\\x1b\\\\'
    """


@_in_c
def unlink(text: str) -> str:
    """The text without its links: its OSC 8 sequences are left out, and everything else stays.

    >>> unlink("\\x1b]8;;http://x\\x1b\\\\a \\x1b[1mlink\\x1b[0m\\x1b]8;;\\x1b\\\\")
    'a \\x1b[1mlink\\x1b[0m'
    """


class Link(NamedTuple):
    """A link of a text: where its range begins and ends in the plain text, and its address."""

    start: int
    end: int
    address: str


@_in_c
def links(text: str) -> List[Link]:
    """The links of a text, in order. An OSC 8 sequence with an address opens a link, which goes on up to the next OSC 8 sequence or
    the end of the text. A link without text is left out.

    >>> links("a \\x1b]8;;http://x\\x1b\\\\l\\x1b[1mink\\x1b]8;;\\x1b\\\\")
    [Link(start=2, end=6, address='http://x')]
    """


# A color: a name, a number among 256, or red, green and blue
Color = Union[str, int, Tuple[int, int, int]]


def _byte(name: str, number: int) -> int:
    number = _position(name, number)
    if number > 255:
        raise ValueError("{} is above 255: {}".format(name, number))
    return number


def _color_index(name: str, color: str) -> int:
    """Which of COLORS a name is, in any case and with or without `_`."""
    for index, each in enumerate(COLORS):
        if each.replace("_", "") == color.replace("_", "").lower():
            return index
    raise ValueError("{} must be one of {}, not {!r}".format(name, ", ".join(COLORS), color))


def _color_codes(name: str, color: Optional[Color], first: Optional[int], extended: int) -> List[str]:
    """The code of a color. Those of eight names are from `first` on, and of their bright ones 60 above; if there is none, or for
    another color, it comes after the code `extended`."""
    if color is None:
        return []
    if isinstance(color, str):
        index = _color_index(name, color)
        if first is not None:
            return [str(first + index % 8 + (60 if index >= 8 else 0))]
        return ["{};5;{}".format(extended, index)]
    if isinstance(color, tuple):
        if len(color) != 3:
            raise ValueError("{} must have three numbers, not {}".format(name, len(color)))
        return ["{};2;{};{};{}".format(extended, *(_byte(name, number) for number in color))]
    return ["{};5;{}".format(extended, _byte(name, color))]


def codes(*, foreground: Optional[Color] = None, background: Optional[Color] = None, underline_color: Optional[Color] = None,
          font: Optional[int] = None, bold: bool = False, faint: bool = False, italic: bool = False, underline: bool = False,
          double_underline: bool = False, slow_blink: bool = False, rapid_blink: bool = False, inverse: bool = False, hide: bool = False,
          crossed_out: bool = False, framed: bool = False, encircled: bool = False, fraktur: bool = False,
          proportional_spacing: bool = False, overlined: bool = False, ideogram_underline: bool = False,
          ideogram_double_underline: bool = False, ideogram_overline: bool = False, ideogram_double_overline: bool = False,
          ideogram_stress_marking: bool = False, superscript: bool = False, subscript: bool = False, crossedout: bool = False) -> str:
    """The SGR codes of a style by names, for `mark` and `restyle`: of attributes, which are those of ATTRIBUTES, colors and a font.
    A color is a name of COLORS, in any case and with or without `_`, a number among 256, or red, green and blue. The font is its
    code, from 10 to 19. An attribute that is false has no code. (`crossedout` is the old name of `crossed_out`, with a
    DeprecationWarning.)

    >>> codes(bold=True, foreground="red"), codes(background=208), codes(underline=True, underline_color=(97, 175, 239))
    ('1;31', '48;5;208', '4;58;2;97;175;239')
    """
    set_ones = locals()
    if crossedout:
        warnings.warn("the attribute crossedout is called crossed_out", DeprecationWarning, stacklevel=2)
        set_ones["crossed_out"] = True
    given = [str(code) for name, code in zip(ATTRIBUTES, _CODES) if set_ones[name]]
    if font is not None:
        if not 10 <= _position("font", font) <= 19:
            raise ValueError("font must be from 10 to 19, not {}".format(font))
        given.append(str(_position("font", font)))
    given += _color_codes("foreground", foreground, 30, 38)
    given += _color_codes("background", background, 40, 48)
    given += _color_codes("underline_color", underline_color, None, 58)
    return ";".join(given)


# the levels of red, green and blue of the 216 colors after the first sixteen; and these, as xterm shows them by default
_LEVELS = (0, 95, 135, 175, 215, 255)
_SIXTEEN = ((0, 0, 0), (205, 0, 0), (0, 205, 0), (205, 205, 0), (0, 0, 238), (205, 0, 205), (0, 205, 205), (229, 229, 229),
            (127, 127, 127), (255, 0, 0), (0, 255, 0), (255, 255, 0), (92, 92, 255), (255, 0, 255), (0, 255, 255), (255, 255, 255))


def rgb_of(color: Color) -> Tuple[int, int, int]:
    """The red, green and blue of a color of `codes` or of a style. A terminal may show the first sixteen in its own way; here they are
    those of xterm.

    >>> rgb_of("red"), rgb_of(208), rgb_of((1, 2, 3))
    ((205, 0, 0), (255, 135, 0), (1, 2, 3))
    """
    if isinstance(color, tuple):
        red, green, blue = (_byte("color", number) for number in color)
        return red, green, blue
    number = _color_index("color", color) if isinstance(color, str) else _byte("color", color)
    if number < 16:
        return _SIXTEEN[number]
    if number < 232:
        return _LEVELS[(number - 16) // 36], _LEVELS[(number - 16) // 6 % 6], _LEVELS[(number - 16) % 6]
    return (8 + 10 * (number - 232),) * 3


@_in_c
def mark(text: str, pattern: str, style: Union[str, "Style"]) -> str:
    """The text with each match of a pattern, as `matches` finds them, in a style, as `restyle` makes it.

    >>> mark("to do: \\x1b[1mdo", "do", "7")
    'to \\x1b[7mdo\\x1b[27m: \\x1b[1m\\x1b[7mdo\\x1b[22m\\x1b[27m\\x1b[1m'
    """


@_in_c
def restyle(text: str, ranges: Iterable[Tuple[int, int]], style: Union[str, "Style"]) -> str:
    """The text with SGR codes applied to each character in ranges: pairs of positions in order, which don't overlap. The style is
    the codes as an SGR has them, such as `1;31`, or as `codes` makes them, or a `Style`. Each character there has its own style
    after them: so `1` makes it bold and keeps its color, `22` makes it neither bold nor faint, and `0` or no code makes it
    plain. In a whole text (`is_whole`) every other character keeps its style, except for what an unknown code, such as `4:3` or
    `38:2::1:2:3`, has set: that ends after the next run of text in a range. The plain text and every other sequence stay.
    ValueError: the style has anything but digits, `;` and `:`, or a range begins before the one before it ends, ends below its
    start, or ends past the end of the plain text.

    >>> restyle("red \\x1b[31mred", [(0, 2), (5, 6)], "4")
    '\\x1b[4mre\\x1b[24md \\x1b[31mr\\x1b[4me\\x1b[24m\\x1b[39m\\x1b[31md'
    >>> import re
    >>> log = "\\x1b[31m404\\x1b[39m in 12 ms"
    >>> restyle(log, [match.span() for match in re.finditer("[0-9]+", strip(log))], codes(bold=True))
    '\\x1b[31m\\x1b[1m404\\x1b[22m\\x1b[39m\\x1b[31m\\x1b[39m in \\x1b[1m12\\x1b[22m ms'
    """


def styled(text: str, style: Union[str, "Style"]) -> str:
    """The whole text in a style, as `restyle` makes it.

    >>> styled("red \\x1b[1mand bold", codes(foreground="red"))
    '\\x1b[31mred \\x1b[39m\\x1b[1m\\x1b[31mand bold\\x1b[22m\\x1b[39m\\x1b[1m'
    """
    return restyle(text, [(0, str.__len__(strip(text)))], style)


class Cut(NamedTuple):
    """The text from one position up to another, with every sequence up to its end, and the close of the style there."""
    start: int = 0
    end: Optional[int] = None


class Left(NamedTuple):
    """The text before a position, each run of it with the start of its style before it and the close after it."""
    mid: int


class Right(NamedTuple):
    """The text from a position on, in the same form."""
    mid: int


class Part(NamedTuple):
    """The part of an index, counted from 0, between the matches of a pattern."""
    pattern: str
    index: int  # type: ignore[assignment]


class Prefix(NamedTuple):
    """The text without a prefix of its plain text. Every sequence stays."""
    pattern: str


class Suffix(NamedTuple):
    """The text without a suffix of its plain text. Every sequence stays."""
    pattern: str


class Trim(NamedTuple):
    """The text without the white space at the ends of its plain text. Every sequence stays."""


Edit = Union[Cut, Left, Right, Part, Prefix, Suffix, Trim]


@_in_c
def edit(text: str, edits: Union[Edit, Iterable[Edit]]) -> Optional[str]:
    """The text after one edit, or after each edit of a list, tuple or iterator in turn. None if one is refused at its turn: an end
    is below its start, the prefix or suffix isn't there, or there is no such part.

    >>> edit("> \\x1b[31mred", [Prefix("> "), Cut(0, 2)])
    '\\x1b[31mre\\x1b[39m'
    >>> edit("red", Prefix("> ")) is None
    True
    """


class Expand(NamedTuple):
    """The text with each TAB expanded, as by `expand_tabs`. After any other edit by columns a text has no TAB."""
    stop: int = 8


class Slice(NamedTuple):
    """The columns of the text from one up to another or the last one, as by `slice_columns`."""
    start: int = 0
    end: Optional[int] = None


class Truncate(NamedTuple):
    """The text truncated, as by `truncate`."""
    width: int
    tail: str = ""
    side: Side = "end"


class Pad(NamedTuple):
    """The text padded with blanks, as by `pad`."""
    width: int
    alignment: Alignment = "left"


class _Fit(NamedTuple):
    width: int
    tail: str = ""
    alignment: Alignment = "left"


class Fit(_Fit):
    """The text truncated and then padded, as by `fit`. (An alignment before the tail is still one, with a DeprecationWarning.)"""
    __slots__ = ()

    def __new__(cls, width: int, tail: str = "", alignment: Alignment = "left") -> "Fit":
        given: Any = alignment
        if tail in ALIGNMENTS and (given == "left" or given not in ALIGNMENTS):
            warnings.warn("Fit takes the tail before the alignment", DeprecationWarning, stacklevel=2)
            tail, given = "" if given == "left" else given, tail
        return super().__new__(cls, width, tail, given)


ColumnEdit = Union[Expand, Slice, Truncate, Pad, Fit]


@_in_c
def edit_columns(text: str, edits: Union[ColumnEdit, Iterable[ColumnEdit]]) -> str:
    """The text after one edit by columns, or after each of a list, tuple or iterator in turn. It is on one line and safe, and
    nothing is open at its end, also if there is no edit but expansions of TABs.

    >>> edit_columns("\\x1b[31m日本語\\x1b[39m", [Truncate(4, "…"), Pad(6, "right")])
    '   \\x1b[31m日\\x1b[39m…'
    >>> edit_columns("a\\tbc", [Expand(4), Slice(2)])
    '  bc'
    """


@_in_c
def iter_split(text: str, pattern: str) -> Iterator[str]:
    """An iterator over the parts that `split` returns, each made on demand.

    >>> next(iter_split("lion::tiger", "::"))
    'lion'
    """


@_in_c
def split(text: str, pattern: str) -> List[str]:
    """All parts between the matches of a pattern in the plain text, each with its sequences and in its style. An empty
    pattern matches between any two characters and at both ends.

    >>> split("\\x1b[31mlion::tiger\\x1b[0m", "::")
    ['\\x1b[31mlion\\x1b[39m', '\\x1b[31mtiger\\x1b[0m']
    """


class Style(NamedTuple):
    """The style of a block: the names of its attributes, its colors, whether it has something to close, the sequences that set it
    and close it, its underline's color, and its font. A color is a name, a number among 256, its red, green and blue, or None.
    The font is its code, from 11 to 19, or None. `mark` and `restyle` accept a style in place of codes.

    >>> warning = blocks("\\x1b[1;31mwarning")[0].style
    >>> mark("a warning", "warning", warning)
    'a \\x1b[1;31mwarning\\x1b[22m\\x1b[39m'
    >>> mark("a warning", "warning", warning._replace(foreground=208))
    'a \\x1b[1;38;5;208mwarning\\x1b[22m\\x1b[39m'
    """
    attributes: FrozenSet[str]
    foreground: Optional[Color]
    background: Optional[Color]
    has_any: bool
    start: str
    end: str
    underline_color: Optional[Color] = None
    font: Optional[int] = None

    @property
    def codes(self) -> str:
        """The SGR codes that set the style, as the function `codes` makes them of its names. A plain style has no code.

        >>> blocks("\\x1b[1;4m\\x1b[58;5;9mtext")[0].style.codes
        '1;4;58;5;9'
        """
        set_ones: Any = {name: True for name in self.attributes}
        return codes(foreground=self.foreground, background=self.background, underline_color=self.underline_color,
                     font=self.font, **set_ones)

    @staticmethod
    @_in_c
    def of(style: Union[str, "Style"]) -> "Style":
        """The style that SGR codes select: as an SGR has them, or as the function `codes` makes them. ValueError: they have anything
        but digits, `;` and `:`.

        >>> Style.of("1;31").foreground
        'red'
        """

    def union(self, other: "Style") -> "Style":
        """What is set in either style. A color or a font of the other is taken before that of this one.

        >>> Style.of("1;31").union(Style.of("34")).codes
        '1;34'
        """
        # (the codes of a style only set)
        return Style.of(";".join(filter(None, (self.codes, other.codes))))

    def difference(self, other: "Style") -> "Style":
        """What is set in this style and isn't set so in the other: no attribute, color or font that both have.

        >>> Style.of("1;31").difference(Style.of("31")).codes
        '1'
        """
        mine, others = Style.of(self), Style.of(other)
        parts = ("foreground", "background", "underline_color", "font")
        cleared: Any = {part: None for part in parts if getattr(mine, part) == getattr(others, part)}
        return Style.of(mine._replace(attributes=mine.attributes - others.attributes, **cleared).codes)


class Block(NamedTuple):
    """A run of plain text in one style, the address of its link (OSC 8) or None, and the sequences other than SGRs since the run before.
    The text has no ESC, so it can become HTML once its `&` and `<` are escaped."""
    text: str
    style: Style
    link: Optional[str]
    sequences: str


def _color_of(kind: int, first: int, second: int, third: int) -> Optional[Color]:
    if kind == _NO_COLOR:
        return None
    if kind == _NAMED:
        return COLORS[first % 10 + (8 if first >= 90 else 0)]
    return first if kind == _FIXED else (first, second, third)


def _style_of(data: bytes, start: str, end: str) -> Style:
    fields = _STYLE.unpack_from(data)
    names = frozenset(name for bit, name in enumerate(ATTRIBUTES) if fields[0] >> bit & 1)
    colors = [_color_of(*fields[first:first + 4]) for first in (1, 5, 9)]
    return Style(names, colors[0], colors[1], end != "", start, end, colors[2], fields[14] if fields[13] else None)


@_in_c
def iter_blocks(text: str) -> Iterator[Block]:
    """An iterator over the blocks that `blocks` returns, each made on demand.

    >>> next(iter_blocks("\\x1b[31mred\\x1b[39m and plain")).text
    'red'
    """


@_in_c
def blocks(text: str) -> List[Block]:
    """The blocks of the text: its runs, each up to the next sequence of any kind, with their styles.

    >>> [(block.text, block.style.foreground) for block in blocks("\\x1b[31mred\\x1b[39m and plain")]
    [('red', 'red'), (' and plain', None)]
    """


class Pen(NamedTuple):
    """What is open at the end of a text: the style, the address of the link or None, the sequences that open both again, and those that
    close both, the link first. All of them are empty after a text that leaves nothing open."""
    style: Style
    link: Optional[str]
    start: str
    end: str


@_in_c
def pen_after(text: str) -> Pen:
    """The style and the link that are open at the end of a text. Print `end` there, and `start` before what goes on in them:

    >>> first, second = "\\x1b[31mone", "two\\x1b[39m"
    >>> pen = pen_after(first)
    >>> first + pen.end, pen.start + second
    ('\\x1b[31mone\\x1b[39m', '\\x1b[31mtwo\\x1b[39m')

    The pen after the second line is `pen_after(pen.start + second)`. `start` doesn't open a link that `sanitize` wouldn't keep, and doesn't
    set again what an unknown SGR code has set.
    """


_library.use(_style_of, Style, Block, Pen, Link, abc.Iterator, Cut, Left, Right, Part, Prefix, Suffix, Trim, Expand, Slice, Truncate, Pad,
             Fit)
