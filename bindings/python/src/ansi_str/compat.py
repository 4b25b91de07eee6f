"""What takes the place of functions of `tabulate`, `prettytable` and `textwrap`, so that sequences have no width, wide letters have
two columns, and lines keep their styles and links. README.md lists what differs.

>>> wrap("\\x1b[31mred apple\\x1b[39m", 5)
['\\x1b[31mred\\x1b[39m', '\\x1b[31mapple\\x1b[39m']
"""

import itertools
import re
import textwrap
from typing import Any, List, Optional, Tuple

import ansi_str

__all__ = ["visible_width", "wcswidth", "TextWrapper", "wrap", "fill", "shorten"]

# wider than any text
_ENDLESS = 2 ** 62
# what keeps the blanks at the end of a line, until the library has closed its styles: a printing character, of private use
_GUARD = "\ue000"
# a replacement of `ansi_str.replace_each`
_Edit = Tuple[int, int, str]


def visible_width(text: Any) -> int:
    """The columns of `str(text)`, as `tabulate._visible_width` and `prettytable.prettytable._str_block_width`.

    >>> visible_width("\\x1b[31m古\\x1b[39m"), visible_width(12.5)
    (2, 4)
    """
    return ansi_str.width(text if isinstance(text, str) else str(text))


def wcswidth(text: str) -> int:
    """The columns of the text, by the name that it has in `wcwidth`, so that this module can be `tabulate.wcwidth`.

    >>> wcswidth("\\x1b[31m古\\x1b[39m")
    2
    """
    return ansi_str.width(text)


def _replaced(start: int, end: int, new: str) -> List[_Edit]:
    """The edits that put a text in place of an interval of the plain text, in the style of its first character: right after that."""
    return [(start, start + 1, ""), (start + 1, end, new)]


def _after_blanks(plain: str, end: int, shown: str) -> Optional[int]:
    """Where a line begins that is shown after an end, or None if more than blanks would be left out."""
    start = plain.find(shown, end)
    return None if start < 0 or plain[end:start].strip(" ") else start


class _Text(str):
    """A text whose length is its columns, as `TextWrapper` counts."""

    def __len__(self) -> int:
        return ansi_str.width(self)

    def __add__(self, other: str) -> "_Text":
        return _Text(str.__add__(self, other))

    def lstrip(self, *characters: Any) -> "_Text":
        return _Text(str.lstrip(self, *characters))

    def rstrip(self, *characters: Any) -> "_Text":
        return _Text(str.rstrip(self, *characters))


class TextWrapper(textwrap.TextWrapper):
    """A `textwrap.TextWrapper` that divides the plain text by columns. Each line closes the styles and the link that it leaves open,
    and the next reopens them; an indent and the placeholder are outside of them. Raises a ValueError for `fix_sentence_endings=True`
    and `replace_whitespace=False`.

    >>> TextWrapper(width=7, initial_indent="* ").wrap("\\x1b[31mred apple\\x1b[39m")
    ['* \\x1b[31mred\\x1b[39m', '\\x1b[31mapple\\x1b[39m']
    """

    def wrap(self, text: str) -> List[str]:
        if self.fix_sentence_endings or not self.replace_whitespace:
            raise ValueError("fix_sentence_endings must be false, and replace_whitespace true")
        text = self._blanked(text)
        plain = ansi_str.strip(text)
        lines = super().wrap(plain)
        return self._styled(text, plain, lines) if lines else []

    def _blanked(self, text: str) -> str:
        """The text with blanks for its other white space."""
        plain = ansi_str.strip(text)
        edits, end, column = [], 0, 0  # type: List[_Edit], int, int
        for match in re.finditer("[\t\n\v\f\r]", plain):
            column += ansi_str.width(plain[end:match.start()])
            blanks = 1
            if match.group() == "\t" and self.expand_tabs:
                blanks = self.tabsize - column % self.tabsize if self.tabsize > 0 else 0
            column = 0 if match.group() in "\n\r" else column + blanks
            end = match.end()
            edits += _replaced(*match.span(), " " * blanks)
        return ansi_str.replace_each(text, edits)

    def _split(self, text: str) -> List[str]:
        return [_Text(chunk) for chunk in super()._split(text)]

    def _wrap_chunks(self, chunks: List[str]) -> List[str]:
        self.initial_indent, self.subsequent_indent, self.placeholder = map(
            _Text, (self.initial_indent, self.subsequent_indent, self.placeholder))
        return super()._wrap_chunks(chunks)

    def _handle_long_word(self, reversed_chunks: List[str], cur_line: List[str], cur_len: int, width: int) -> None:
        chunk = reversed_chunks[-1]
        if not self.break_long_words:
            if not cur_line:
                cur_line.append(reversed_chunks.pop())
            return
        room = width - cur_len if width > 0 else 1
        end = ansi_str.fitting(chunk, room)
        hyphen = chunk.rfind("-", 0, end) if self.break_on_hyphens else -1
        if hyphen > 0 and chunk[:hyphen].strip("-"):
            end = hyphen + 1
        if end == 0 and not cur_line:
            # a letter that is wider than the line has one of its own
            end = next(filter(None, (ansi_str.fitting(chunk, columns) for columns in itertools.count(room))))
        cur_line.append(_Text(chunk[:end]))
        reversed_chunks[-1:] = [_Text(chunk[end:])] if chunk[end:] else []

    def _styled(self, text: str, plain: str, lines: List[str]) -> List[str]:
        """The lines of the plain text as those of the text."""
        edits, last, ends = [], "", ""  # type: List[_Edit], str, str
        end = 0
        for number, line in enumerate(lines):
            shown = str(line)[str.__len__(self.subsequent_indent if number else self.initial_indent):]
            start = _after_blanks(plain, end, shown)
            if start is None:
                # only the last line can end with the placeholder
                ends = self.placeholder if shown.endswith(self.placeholder) else self.placeholder.lstrip()
                shown = shown[:str.__len__(shown) - str.__len__(ends)]
                start = _after_blanks(plain, end, shown) or end
            edge = _GUARD + "\n" if number else ""
            first = plain[start:start + 1] if shown else ""
            if start > end:
                edits += _replaced(end, start, edge)
            elif first:
                edits += _replaced(start, start + 1, edge + first)
            else:
                last = edge
            end = start + len(shown)
        closed = ansi_str.wrap(ansi_str.replace_each(ansi_str.cut(text, 0, end), edits) + last + _GUARD, _ENDLESS)
        indents = itertools.chain([self.initial_indent], itertools.repeat(self.subsequent_indent))
        made = [str(indent) + "".join(line.rpartition(_GUARD)[::2]) for indent, line in zip(indents, closed)]
        made[-1] += ends
        return made


def wrap(text: str, width: int = 70, **options: Any) -> List[str]:
    """What `TextWrapper` makes of the text, with the options of `textwrap.wrap`.

    >>> wrap("\\x1b[31mlion-tiger\\x1b[39m", 8)
    ['\\x1b[31mlion-\\x1b[39m', '\\x1b[31mtiger\\x1b[39m']
    """
    return TextWrapper(width, **options).wrap(text)


def fill(text: str, width: int = 70, **options: Any) -> str:
    """The lines of `wrap`, joined by line feeds.

    >>> fill("red apple", 5)
    'red\\napple'
    """
    return TextWrapper(width, **options).fill(text)


def shorten(text: str, width: int, **options: Any) -> str:
    """The text with single blanks for its white space, in `width` columns, as `textwrap.shorten`.

    >>> shorten("\\x1b[31mHello  world!\\x1b[39m", width=11)
    '\\x1b[31mHello\\x1b[39m [...]'
    """
    plain = ansi_str.strip(text)
    edits = []  # type: List[_Edit]
    for match in re.finditer(r"\s+", plain):
        inside = 0 < match.start() and match.end() < len(plain)
        edits += _replaced(*match.span(), " " if inside else "")
    return TextWrapper(width, max_lines=1, **options).fill(ansi_str.replace_each(text, edits))
