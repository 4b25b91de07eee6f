"""Passes the rows of texts and results, which rows/README.md describes, and the examples of the docstrings."""

import collections
import copy
import doctest
import importlib.util
import inspect
import os
import pickle
import pydoc
import random
import re
import subprocess
import sys
import textwrap
import threading
import typing
import unittest
import warnings
from typing import Iterator

import ansi_str
from ansi_str import compat

ROWS = os.path.join(os.path.dirname(os.path.abspath(__file__)), "../../crates/ansi_rows/stdin")
# the calls that aren't here. The positions of an edit count the bytes of what the edit before it made
LACKING = [
    "is_char_boundary", "floor_char_boundary", "part_interval", "edit", "block_order", "items", "refused_range",
]
# how many arguments of a call are positions
POSITIONS = {"cut": 2, "left": 1, "right": 1, "split_at": 1, "link_at": 1, "column_of": 1, "find_from": 1, "remove": 2,
             "replace": 2, "insert": 1, "link": 2}


def block_at(text, index, of):
    """What `of` gives for the block at an index, or None if there is no such block."""
    return next(map(of, ansi_str.blocks(text)[int(index):]), None)


def style_after(code):
    return ansi_str.blocks("\x1b[%sma" % code)[0].style


def or_none(call, *arguments):
    """What a call returns, or None if it raises a ValueError."""
    try:
        return call(*arguments)
    except ValueError:
        return None


def column_edit_of(kind, place, first, second, tail):
    """An edit by columns of a row. IndexError: there is no such kind, side or alignment."""
    place, first, second = int(place), int(first), int(second)
    made = [lambda: ansi_str.Expand(first), lambda: ansi_str.Slice(first, second),
            lambda: ansi_str.Truncate(first, tail, ansi_str.SIDES[place]), lambda: ansi_str.Pad(first, ansi_str.ALIGNMENTS[place]),
            lambda: ansi_str.Fit(first, tail, ansi_str.ALIGNMENTS[place])]
    return made[int(kind)]()


def edited_by_columns(text, *fields):
    """What the edits by columns of a row make of its text. None if there is no such edit."""
    try:
        edits = [column_edit_of(*fields[at:at + 5]) for at in range(0, len(fields), 5)]
    except IndexError:
        return None
    return ansi_str.edit_columns(text, edits)


# what each other call of a row returns
MADE = {
    "strip": lambda text: [ansi_str.strip(text)],
    "trim": lambda text: [ansi_str.trim(text), ansi_str.edit(text, ansi_str.Trim())],
    "cut": lambda text, start, end: [ansi_str.edit(text, [ansi_str.Cut(start, end)])],
    "edit_columns": lambda text, *fields: [edited_by_columns(text, *fields)],
    "left": lambda text, mid: [ansi_str.left(text, mid), ansi_str.edit(text, [ansi_str.Left(mid)])],
    "right": lambda text, mid: [ansi_str.right(text, mid), ansi_str.edit(text, [ansi_str.Right(mid)])],
    "strip_prefix": lambda text, pattern: [ansi_str.strip_prefix(text, pattern), ansi_str.edit(text, [ansi_str.Prefix(pattern)])],
    "strip_suffix": lambda text, pattern: [ansi_str.strip_suffix(text, pattern), ansi_str.edit(text, [ansi_str.Suffix(pattern)])],
    "part": lambda text, pattern, index: [ansi_str.part(text, pattern, int(index)),
                                          ansi_str.edit(text, [ansi_str.Part(pattern, int(index))])],
    "split": lambda text, pattern, *_: [ansi_str.split(text, pattern)],
    "split_at": lambda text, mid, *_: [[ansi_str.left(text, mid), ansi_str.right(text, mid)]],
    "count_parts": lambda text, pattern: [len(ansi_str.split(text, pattern)), sum(1 for _ in ansi_str.iter_split(text, pattern))],
    "find": lambda text, pattern: [ansi_str.find(text, pattern)],
    "starts_with": lambda text, pattern: [ansi_str.starts_with(text, pattern)],
    "ends_with": lambda text, pattern: [ansi_str.ends_with(text, pattern)],
    "has_any": lambda text: [ansi_str.has_any(text)],
    "is_whole": lambda text: [ansi_str.is_whole(text)],
    "blocks": lambda text, *_: [[(block.sequences + block.text, block.style.has_any) for block in ansi_str.blocks(text)]],
    "styled_blocks": lambda text, *_: [[(block.style.start, block.sequences + block.text, block.style.end) for block in ansi_str.blocks(text)]],
    "count_blocks": lambda text: [len(ansi_str.blocks(text)), sum(1 for _ in ansi_str.iter_blocks(text))],
    "block": lambda text, index: [block_at(text, index, lambda block: block.sequences + block.text)],
    "block_start": lambda text, index: [block_at(text, index, lambda block: block.style.start)],
    "block_end": lambda text, index: [block_at(text, index, lambda block: block.style.end)],
    "width": lambda text: [ansi_str.width(text)],
    "fitting": lambda text, width: [ansi_str.fitting(text, int(width))],
    "column_of": lambda text, position: [ansi_str.column_of(text, position)],
    "front": lambda text, width: [ansi_str.cut(text, 0, ansi_str.fitting(text, int(width)))],
    "truncate": lambda text, width, tail: [ansi_str.truncate(text, int(width), tail)],
    "pad": lambda text, width, word: [ansi_str.pad(text, int(width), word.lower())],
    "fit": lambda text, width, word, tail: [ansi_str.fit(text, int(width), tail, alignment=word.lower())],
    "truncate_with": lambda text, width, tail, word: [ansi_str.truncate(text, int(width), tail, side=word.lower())],
    "slice": lambda text, start, end: [ansi_str.slice_columns(text, int(start), int(end))],
    "expand_tabs": lambda text, stop: [ansi_str.expand_tabs(text, int(stop))],
    "wrap": lambda text, width, *_: [ansi_str.wrap(text, int(width))],
    "wrap_with": lambda text, width, first, later, *_: [ansi_str.wrap(text, int(width), first, later)],
    "lines": lambda text, width, *_: [ansi_str.lines(text, int(width)), list(ansi_str.iter_lines(text, int(width)))],
    "link_at": lambda text, position: [ansi_str.link_at(text, position)],
    "sanitize": lambda text, rest, links: [ansi_str.sanitize(text, show=rest == "Show", links=links == "Keep")],
    "sanitize_bytes": lambda data, rest, links: [ansi_str.sanitize(text, show=rest == "Show", links=links == "Keep")
                                                 for text in (data, data.decode("utf-8", "surrogateescape"))],
    "matches": lambda text, pattern, *_: [ansi_str.matches(text, pattern)],
    "find_from": lambda text, position, pattern: [ansi_str.find_from(text, position, pattern)],
    "restyle": lambda text, style, *ranges: [or_none(ansi_str.restyle, text, ranges, style), or_none(ansi_str.restyle, text, iter(ranges), style)],
    "mark": lambda text, pattern, style: [or_none(ansi_str.mark, text, pattern, style)],
    "remove": lambda text, start, end: [or_none(ansi_str.remove, text, start, end)],
    "replace": lambda text, start, end, new: [or_none(ansi_str.replace, text, start, end, new)],
    "insert": lambda text, position, new: [or_none(ansi_str.insert, text, position, new)],
    "replace_all": lambda text, pattern, new: [ansi_str.replace_all(text, pattern, new)],
    "replace_each": lambda text, *given: [or_none(ansi_str.replace_each, text, given), or_none(ansi_str.replace_each, text, iter(given))],
    "link": lambda text, start, end, address: [or_none(ansi_str.link, text, start, end, address)],
    "unlink": lambda text: [ansi_str.unlink(text)],
    "links": lambda text, *_: [[(link.start, link.end, link.address) for link in ansi_str.links(text)]],
    "is_safe": lambda text, links: [ansi_str.is_safe(text, links=links == "Keep")],
    "pen_after": lambda text, *_: [[pen.start, pen.link or "", pen.end] for pen in [ansi_str.pen_after(text)]],
    "style_of": lambda codes, *_: [or_none(lambda: list(ansi_str.Style.of(codes)[4:6]))],
    "union": lambda first, second, *_: [list(ansi_str.Style.of(first).union(ansi_str.Style.of(second))[4:6])],
    "difference": lambda first, second, *_: [list(ansi_str.Style.of(first).difference(ansi_str.Style.of(second))[4:6])],
}


def bytes_of(field):
    """The bytes of a text, which begins with `x`."""
    pieces = re.findall(r"(?:(\d+)\*)?([0-9a-f]+)", field)
    return b"".join(bytes.fromhex(digits) * int(count or 1) for count, digits in pieces)


def field_of(field):
    """A text, None for `-`, or another field as it is."""
    if field[0] != "x":
        return None if field == "-" else field
    return bytes_of(field).decode()


def fields_of(line):
    """The fields of a row. `sanitize_bytes` takes bytes in place of a text."""
    fields = line.split()
    return [bytes_of(field) if place == 5 and fields[2] == "sanitize_bytes" else field_of(field) for place, field in enumerate(fields)]


def in_characters(plain, position):
    """A position among bytes as one among characters, or None where it lies inside one."""
    data = plain.encode()
    try:
        return len(data[:position].decode()) + max(position - len(data), 0)
    except UnicodeDecodeError:
        return None


def said(call, status, want, text, more):
    """The result that a row has, as the call returns it."""
    if call in ("find", "find_from", "fitting"):
        return want and in_characters(ansi_str.strip(text), int(want))
    if call in ("starts_with", "ends_with", "has_any", "is_whole", "is_safe"):
        return status == "0"
    if call in ("width", "column_of", "count_parts", "count_blocks"):
        return int(want)
    if call in ("split", "split_at", "wrap"):
        return more[1:]
    if call == "pen_after":
        return more
    if call == "style_of":
        return want and more
    if call in ("union", "difference"):
        return more[1:]
    if call == "wrap_with":
        return more[3:]
    if call in ("lines", "matches"):
        plain = ansi_str.strip(text)
        return [tuple(in_characters(plain, int(position)) for position in line.split(",")) for line in more[1:]]
    if call == "links":
        plain = ansi_str.strip(text)
        ranges = [map(int, each.split(",")) for each in more[::2]]
        return [(*(in_characters(plain, position) for position in each), address) for each, address in zip(ranges, more[1::2])]
    if call == "blocks":
        return [(text, has == "1") for text, has in zip(more[::5], more[4::5])]
    if call == "styled_blocks":
        return list(zip(more[::3], more[1::3], more[2::3]))
    return want


class Rows(unittest.TestCase):
    def passes(self, number, call, status, want, text, more):
        """Makes the call of a row, and gives None, or else why it is passed over."""
        if call in LACKING:
            return call
        placed = POSITIONS.get(call, 0)
        positions = [in_characters(ansi_str.strip(text), int(position)) for position in more[:placed]]
        if call == "restyle":
            ranges = [tuple(in_characters(ansi_str.strip(text), int(position)) for position in each.split(",")) for each in more[1:]]
            positions += [None for each in ranges if None in each]
            more = [more[0], *ranges]
        if call == "replace_each":
            places = [in_characters(ansi_str.strip(text), int(position)) for at, position in enumerate(more) if at % 3 < 2]
            positions += [None for place in places if place is None]
            more = list(zip(places[::2], places[1::2], more[2::3]))
        if None in positions:
            return "a position inside a character"
        wanted = said(call, status, want, text, more)
        for got in MADE[call](text, *positions, *more[placed:]):
            self.assertEqual((type(got), got), (type(wanted), wanted), "line %d: %s %r %r" % (number, call, text, more))
        return None

    def test_rows(self):
        over = collections.Counter()
        with open(ROWS) as file:
            lines = file.read().split("\n")
        for number, line in enumerate(lines, start=1):
            try:
                fields = fields_of(line)
            except UnicodeDecodeError:
                over["not UTF-8"] += 1
                continue
            if fields:
                _, _, call, status, want, text, *more = fields
                over[self.passes(number, call, status, want, text, more)] += 1
        print("\nrows in Python: %d passed; passed over: %s" % (over.pop(None), dict(over)))

    def test_positions_count_characters(self):
        self.assertEqual(ansi_str.cut("\x1b[1méa\x1b[0m", 1), "\x1b[1ma\x1b[0m")
        self.assertEqual(ansi_str.cut("abc", 10), "")
        self.assertEqual([ansi_str.link_at("\x1b]8;;é\x07é老\x1b]8;;\x07a", position) for position in range(4)], ["é", "é", None, None])
        with self.assertRaises(ValueError):
            ansi_str.cut("abc", 2, 1)


# each call that takes a text, and what is passed for its other arguments
CALLS = {"strip": [], "cut": [0], "left": [0], "right": [0], "part": [",", 0], "strip_prefix": [""], "strip_suffix": [""],
         "trim": [], "width": [], "fitting": [1], "column_of": [0], "truncate": [1], "pad": [1], "fit": [1], "slice_columns": [0],
         "expand_tabs": [8], "wrap": [1], "lines": [1], "iter_lines": [1], "find": [""], "starts_with": [""], "ends_with": [""], "has_any": [], "is_whole": [], "split": [","],
         "iter_split": [","], "blocks": [], "iter_blocks": [], "pen_after": [], "edit": [[]], "edit_columns": [[]], "sanitize": [], "is_safe": [], "link_at": [0],
         "matches": ["a"], "find_from": [0, "a"], "restyle": [[(0, 0)], "1"], "mark": ["a", "1"], "remove": [0, 0],
         "replace": [0, 0, "b"], "insert": [0, "b"], "replace_all": ["a", "b"], "replace_each": [[]], "link": [0, 0, "b"], "unlink": [], "links": [], "styled": ["1"], "widest_line": []}
# those that Python makes of others
COMPOSED = ["styled", "widest_line"]
PATTERNED = ["matches", "mark", "replace_all", "part", "strip_prefix", "strip_suffix", "find", "starts_with", "ends_with", "split", "iter_split"]
HUGE = [2**31, 2**63 - 1, 2**63, 2**64 - 1, 2**64, 2**64 + 1, 2**200]


class Arguments(unittest.TestCase):
    def refused(self, kind, words, call, *arguments):
        with self.assertRaises(kind) as caught:
            call(*arguments)
        self.assertIn(words, str(caught.exception))

    def test_all(self):
        functions = {name for name in ansi_str.__all__ if name[0].islower()} - {"codes", "rgb_of"}
        self.assertEqual(functions, set(CALLS))
        for name in ansi_str.__all__ + ["__version__"]:
            getattr(ansi_str, name)

    def test_help_begins_with_the_calls(self):
        shown = pydoc.render_doc(ansi_str, renderer=pydoc.plaintext).split("\n")
        first = "\n".join(shown[:60])
        for call in ("strip(text)", "cut(text, start=0, end=None)"):
            self.assertIn(call, first)
        self.assertIn("FUNCTIONS", shown[:75])
        self.assertNotIn("CLASSES", shown)

    def test_version(self):
        with open(os.path.join(os.path.dirname(os.path.abspath(__file__)), "pyproject.toml")) as file:
            self.assertIn('\nversion = "%s"\n' % ansi_str.__version__, file.read())

    def test_a_text_that_is_none(self):
        for wrong in (b"abc", None, 1.5, ["a"], bytearray(b"a"), "a\ud800", "\x1b[1m\udfff"):
            surrogate = isinstance(wrong, str)
            kind, words = (UnicodeEncodeError, "has a lone surrogate") if surrogate else (TypeError, "must be a str, not " + type(wrong).__name__)
            for name, more in CALLS.items():
                if name != "sanitize" or not isinstance(wrong, bytes):
                    self.refused(kind, "text " + words, getattr(ansi_str, name), wrong, *more)
            for name in PATTERNED:
                self.refused(kind, "pattern " + words, getattr(ansi_str, name), "a", wrong, *CALLS[name][1:])
            for step in (ansi_str.Prefix(wrong), ansi_str.Suffix(wrong), ansi_str.Part(wrong, 0)):
                self.refused(kind, "pattern " + words, ansi_str.edit, "a", step)

    def test_a_position_that_is_none(self):
        for wrong, kind, words in ((-1, ValueError, "is below 0: -1"), (-2**64, ValueError, "is below 0"), (1.0, TypeError, "must be an int, not float"),
                                   ("1", TypeError, "must be an int, not str")):
            for text in ("abc", "\x1b[1mé"):
                self.refused(kind, "start " + words, ansi_str.cut, text, wrong)
                self.refused(kind, "end " + words, ansi_str.cut, text, 0, wrong)
                self.refused(kind, "start " + words, ansi_str.edit, text, ansi_str.Cut(wrong))
                self.refused(kind, "end " + words, ansi_str.edit, text, ansi_str.Cut(0, wrong))
                # (also after an edit that is refused)
                self.refused(kind, "end " + words, ansi_str.edit, text, [ansi_str.Prefix("z"), ansi_str.Cut(0, wrong)])
                self.refused(kind, "index " + words, ansi_str.part, text, ",", wrong)
                for call in (ansi_str.link_at, ansi_str.column_of, lambda text, position: ansi_str.find_from(text, position, "a")):
                    self.refused(kind, "position " + words, call, text, wrong)
                for call in (ansi_str.remove, lambda *ends: ansi_str.restyle(text, [ends[1:]], "1"),
                             lambda *ends: ansi_str.replace(*ends, "b"), lambda *ends: ansi_str.link(*ends, "b")):
                    self.refused(kind, "start " + words, call, text, wrong, 1)
                    self.refused(kind, "end " + words, call, text, 0, wrong)
                for call in (ansi_str.fitting, ansi_str.truncate, ansi_str.pad, ansi_str.fit, ansi_str.wrap, ansi_str.lines):
                    self.refused(kind, "width " + words, call, text, wrong)
                self.refused(kind, "start " + words, ansi_str.slice_columns, text, wrong)
                self.refused(kind, "end " + words, ansi_str.slice_columns, text, 0, wrong)
                self.refused(kind, "stop " + words, ansi_str.expand_tabs, text, wrong)
                self.refused(kind, "index " + words, ansi_str.edit, text, [ansi_str.Part(",", wrong)])
                for name, step in (("left", ansi_str.Left), ("right", ansi_str.Right)):
                    self.refused(kind, "mid " + words, getattr(ansi_str, name), text, wrong)
                    self.refused(kind, "mid " + words, ansi_str.edit, text, step(wrong))
        self.refused(TypeError, "start must be an int, not NoneType", ansi_str.cut, "abc", None)
        self.refused(TypeError, "tail must be a str, not bytes", ansi_str.truncate, "abc", 1, b"")
        self.refused(TypeError, "tail must be a str, not bytes", ansi_str.fit, "abc", 1, b"")
        self.refused(TypeError, "first_indent must be a str, not bytes", ansi_str.wrap, "abc", 1, b"")
        self.refused(TypeError, "indent must be a str, not bytes", ansi_str.wrap, "abc", 1, "", b"")
        for wrong in ("Left", "", None, 0):
            for call in (ansi_str.pad, ansi_str.fit):
                with self.assertRaisesRegex(ValueError, "alignment must be one of left, center, right"):
                    call("abc", 1, alignment=wrong)
            self.refused(ValueError, "side must be one of end, start, middle", ansi_str.truncate, "abc", 1, "", wrong)

    def test_a_range_or_a_style_that_is_none(self):
        for text in ("abc", "\x1b[1m\xe9b\xe7"):
            self.refused(ValueError, "a range begins before the one before it ends: 1 is below 2", ansi_str.restyle, text, [(0, 2), (1, 3)], "1")
            self.refused(ValueError, "the end lies before the start: 0 is below 1", ansi_str.restyle, text, [(1, 0)], "1")
            for huge in [4, *HUGE]:
                self.refused(ValueError, "a range ends past the end of the plain text: %d" % huge, ansi_str.restyle, text, [(0, huge)], "1")
                self.refused(ValueError, "a range ends past the end of the plain text: %d" % huge, ansi_str.replace_each, text, [(0, huge, "b")])
                self.refused(ValueError, "no range of the plain text: 0 up to %d" % huge, ansi_str.remove, text, 0, huge)
                self.refused(ValueError, "no range of the plain text: %d up to 0" % huge, ansi_str.remove, text, huge, 0)
                self.assertIsNone(ansi_str.find_from(text, huge, ""))
            self.refused(ValueError, "a range begins before the one before it ends: 1 is below 2", ansi_str.replace_each, text, [(0, 2, ""), (1, 3, "")])
            self.refused(ValueError, "the end lies before the start: 0 is below 1", ansi_str.replace_each, text, [(1, 0, "")])
            for wrong in ([1], [(1,)], [(0, 1, 2)], [None], None, 1):
                for call in (lambda given: ansi_str.restyle(text, given, "1"), lambda given: ansi_str.replace_each(text, given)):
                    with self.assertRaises((TypeError, ValueError)):
                        call(wrong)
            for call in (lambda style: ansi_str.mark(text, "z", style), lambda style: ansi_str.restyle(text, [], style)):
                for wrong in ("1m", "m", " 1", "1,2", "\x1b[1m", "\uff11"):
                    self.refused(ValueError, "style must have only digits, ';' and ':', not " + repr(wrong), call, wrong)
                self.refused(TypeError, "style must be a str, not int", call, 1)
                self.refused(UnicodeEncodeError, "style has a lone surrogate", call, "\ud800")
                self.assertEqual(call(""), text)
        self.assertEqual(ansi_str.restyle("\x1b[1m\xe9b\xe7", ((0, 1), (2, 3)), "4"), "\x1b[1m\x1b[4m\xe9\x1b[22m\x1b[24m\x1b[1mb\x1b[4m\xe7\x1b[22m\x1b[24m\x1b[1m")
        self.assertEqual(ansi_str.matches("\xe9b\x1b[1m\xe9", "\xe9"), [(0, 1), (2, 3)])
        self.assertEqual(ansi_str.find_from("\xe9b\x1b[1m\xe9", 1, "\xe9"), 2)
        self.assertEqual(ansi_str.remove("\xe9b\x1b[1m\xe9", 1, 2), "\xe9\x1b[1m\xe9")
        self.assertEqual(len(ansi_str.matches("\xe9" * 1000, "")), 1001)

    def test_a_new_text_or_an_address_that_is_none(self):
        for text in ("abc", "\x1b[1m\xe9b\xe7"):
            for call in (ansi_str.replace, ansi_str.link):
                for huge in [4, *HUGE]:
                    self.refused(ValueError, "no range of the plain text: 0 up to %d" % huge, call, text, 0, huge, "b")
                    self.refused(ValueError, "no range of the plain text: %d up to 0" % huge, call, text, huge, 0, "b")
            for huge in [4, *HUGE]:
                self.refused(ValueError, "the position lies past the end of the plain text: %d" % huge, ansi_str.insert, text, huge, "b")
            for wrong in ("", "a\nb", "\x1b\\", "\x7f", "\xe9"):
                self.refused(ValueError, "address must be printable ASCII, and not empty, not " + repr(wrong), ansi_str.link, text, 0, 1, wrong)
            self.refused(ValueError, "address must have at most 2083 characters, not 2084", ansi_str.link, text, 0, 1, "a" * 2084)
            for call, name in ((lambda new: ansi_str.replace(text, 0, 0, new), "new"), (lambda new: ansi_str.insert(text, 0, new), "new"),
                               (lambda new: ansi_str.replace_all(text, "z", new), "new"), (lambda new: ansi_str.replace_each(text, [(0, 0, new)]), "new"),
                               (lambda address: ansi_str.link(text, 0, 1, address), "address")):
                self.refused(TypeError, name + " must be a str, not int", call, 1)
                self.refused(UnicodeEncodeError, name + " has a lone surrogate", call, "\ud800")
        self.assertEqual(ansi_str.replace("\xe9b\x1b[1m\xe9", 1, 2, "\xe7"), "\xe9\xe7\x1b[1m\xe9")
        self.assertEqual(ansi_str.insert("\xe9\x1b[1m\xe9", 1, "\xe7"), "\xe9\xe7\x1b[1m\xe9")
        self.assertEqual(ansi_str.replace_all("\xe9b\x1b[1m\xe9", "\xe9", "\xe7"), "\xe7b\xe7\x1b[1m")
        self.assertEqual(ansi_str.replace_all("\xe9" * 1000, "", "12"), "12\xe9" * 1000 + "12")
        self.assertEqual(ansi_str.replace_each("\xe9b\x1b[1m\xe9", ((0, 1, "\xe7"), (1, 1, "\xe8"), (2, 3, ""))), "\xe7\xe8b\x1b[1m")
        self.assertEqual(ansi_str.replace_each("\xe9" * 1000, [(place, place, "12") for place in range(1001)]), "12\xe9" * 1000 + "12")
        self.assertEqual(ansi_str.link("\xe9b\xe7", 1, 2, "u"), "\xe9\x1b]8;;u\x1b\\b\x1b]8;;\x1b\\\xe7")
        self.assertEqual(ansi_str.links("\xe9\x1b]8;;u\x1b\\\xe9\x1b]8;;v\x1b\\b"), [(1, 2, "u"), (2, 3, "v")])
        self.assertEqual(len(ansi_str.links("\x1b]8;;%s\x07\xe9" % ("u" * 100) * 1000)), 1000)

    def test_codes(self):
        for code, name in zip((1, 2, 3, 4, 21, 5, 6, 7, 8, 9, 51, 52, 20, 26, 53, 60, 61, 62, 63, 64, 73, 74), ansi_str.ATTRIBUTES):
            self.assertEqual(ansi_str.codes(**{name: True}), str(code))
            self.assertEqual(style_after(ansi_str.codes(**{name: True})).attributes, {name})
        for index, name in enumerate(ansi_str.COLORS):
            for word in (name, name.replace("_", ""), name.title().replace("_", ""), name.upper()):
                self.assertEqual(style_after(ansi_str.codes(foreground=word))[1:3], (name, None))
                self.assertEqual(style_after(ansi_str.codes(background=word))[1:3], (None, name))
                self.assertEqual(ansi_str.codes(underline_color=word), "58;5;%d" % index)
        for color in (0, 255, (0, 1, 255)):
            self.assertEqual(style_after(ansi_str.codes(foreground=color, background=color))[1:3], (color, color))
        self.assertEqual(ansi_str.codes(underline_color=255, font=11, bold=True, faint=False), "1;11;58;5;255")
        self.assertEqual([ansi_str.codes(), ansi_str.codes(bold=False), ansi_str.codes(font=10)], ["", "", "10"])
        self.refused(TypeError, "unexpected keyword argument 'bald'", lambda: ansi_str.codes(bald=True))
        self.assertEqual([name for name in inspect.signature(ansi_str.codes).parameters if name in ansi_str.ATTRIBUTES], [*ansi_str.ATTRIBUTES])
        self.refused(ValueError, "font must be from 10 to 19, not 20", lambda: ansi_str.codes(font=20))
        self.refused(ValueError, "foreground must be one of black, red", lambda: ansi_str.codes(foreground="purple"))
        self.refused(ValueError, "foreground is above 255: 256", lambda: ansi_str.codes(foreground=256))
        self.refused(ValueError, "background is below 0: -1", lambda: ansi_str.codes(background=(0, -1, 0)))
        self.refused(ValueError, "background must have three numbers, not 2", lambda: ansi_str.codes(background=(0, 0)))
        self.refused(TypeError, "underline_color must be an int, not float", lambda: ansi_str.codes(underline_color=1.0))

    def test_old_names_and_orders(self):
        def warned(call, *given, **named):
            with self.assertWarns(DeprecationWarning) as caught:
                got = call(*given, **named)
            self.assertEqual(caught.filename, __file__)
            return got

        self.assertEqual(warned(ansi_str.codes, crossedout=True), ansi_str.codes(crossed_out=True))
        with self.assertWarns(DeprecationWarning):
            self.assertEqual(style_after("1")._replace(attributes={"crossedout"}).codes, "9")
        wanted = ansi_str.fit("abcdef", 4, "..", alignment="right")
        self.assertEqual(warned(ansi_str.fit, "abcdef", 4, "right", ".."), wanted)
        self.assertEqual(warned(ansi_str.fit, "abcdef", 4, "right", tail=".."), wanted)
        self.assertEqual(warned(ansi_str.fit, "a", 4, "right"), "   a")
        self.assertEqual(ansi_str.fit("abcdef", 4, alignment="right", tail=".."), wanted)
        # (a tail that is the name of an alignment has to be given by its own, or with an alignment)
        self.assertEqual([ansi_str.fit("abcdef", 5, tail="left"), ansi_str.fit("abcdef", 5, "left", alignment="left")], ["aleft", "aleft"])
        self.refused(TypeError, "takes from 2 to 3 positional arguments but 4 were given", ansi_str.fit, "a", 4, "..", "right")
        with warnings.catch_warnings():
            warnings.simplefilter("error")
            self.assertRaises(DeprecationWarning, ansi_str.fit, "a", 4, "right")
            self.assertEqual(ansi_str.Fit(4, "..", "right"), (4, "..", "right"))
            self.assertEqual(pickle.loads(pickle.dumps(ansi_str.Fit(4, "left", "right"))), (4, "left", "right"))
        self.assertEqual(warned(ansi_str.Fit, 4, "right", ".."), ansi_str.Fit(4, "..", "right"))
        self.assertEqual(warned(ansi_str.Fit, 4, "right"), ansi_str.Fit(4, alignment="right"))

    def test_colors_as_rgb(self):
        for number in (*range(16, 256, 7), 16, 231, 232, 255):
            red, green, blue = ansi_str.rgb_of(number)
            if number < 232:
                levels = [0 if level == 0 else (level - 55) // 40 for level in (red, green, blue)]
                self.assertEqual(16 + 36 * levels[0] + 6 * levels[1] + levels[2], number)
            else:
                self.assertEqual((red, green, blue), (8 + 10 * (number - 232),) * 3)
        self.assertEqual([ansi_str.rgb_of(name) for name in ansi_str.COLORS], [ansi_str.rgb_of(number) for number in range(16)])
        self.assertEqual(ansi_str.rgb_of("BrightBlue"), (92, 92, 255))
        self.refused(ValueError, "color is above 255: 256", ansi_str.rgb_of, 256)
        self.refused(ValueError, "color must be one of black, red", ansi_str.rgb_of, "purple")

    def test_the_whole_text(self):
        for text, columns in (("", 0), ("\x1b[1mr\xe9d\x1b[0m, \u65e5", 7), ("a\n\n\x1b]8;;u\x07\u65e5\x1b]8;;\x07b\r\nc", 3), ("\x1b]0;a\nb\x07c", 1)):
            self.assertEqual(ansi_str.widest_line(text), columns)
            shown = ansi_str.styled(text, "4")
            self.assertEqual(ansi_str.strip(shown), ansi_str.strip(text))
            self.assertTrue(all("underline" in block.style.attributes for block in ansi_str.blocks(shown)))

    def test_styles_by_codes_and_of_two(self):
        of = ansi_str.Style.of
        self.assertEqual(of("3;1;34;58;2;1;2;3;12"), style_after("3;1;34;58;2;1;2;3;12"))
        self.assertEqual(of(style_after(1)._replace(foreground="bright_red")), style_after("1;91"))
        self.assertEqual(of(ansi_str.codes(bold=True)).union(of("4:3;3")), of("1;3"))
        # (a color may be named in several ways)
        self.assertEqual(of("1;91").difference(of("")._replace(foreground="bright_red")), of("1"))
        self.assertEqual(of("").union(of("")), style_after(""))
        styles = [of(codes) for codes in ("", "1", "2;31", "1;32;12", "38;5;1;13", "38;2;0;0;1;48;5;2", "58;5;3;2;48;5;2")]
        for style in styles:
            self.assertEqual([style.union(style), style.difference(style)], [style, of("")])
            for other in styles:
                both = style.union(other)
                self.assertEqual([other.difference(both), both.difference(other).union(other)], [of(""), both])
        self.refused(ValueError, "style must have only digits", lambda: of("1m"))
        self.refused(TypeError, "style must be a str, not int", lambda: of(1))

    def test_a_style_is_codes(self):
        style = style_after("3;1m\x1b[34;58;2;1;2;3m\x1b[12;45")
        self.assertEqual(style, ({"bold", "italic"}, "blue", "magenta", True, "\x1b[1m\x1b[3m\x1b[12m\x1b[34m\x1b[45m\x1b[58;2;1;2;3m",
                                 "\x1b[10m\x1b[22m\x1b[23m\x1b[39m\x1b[49m\x1b[59m", (1, 2, 3), 12))
        self.assertEqual(style.codes, "1;3;12;34;45;58;2;1;2;3")
        self.assertEqual(style_after(style.codes), style)
        self.assertEqual(ansi_str.mark("ab", "b", style_after("4")), "a\x1b[4mb\x1b[24m")
        red_line = style_after("4")._replace(underline_color="red")
        self.assertEqual(ansi_str.restyle("ab", [(0, 1)], red_line), "\x1b[4;58;5;1ma\x1b[24m\x1b[59mb")
        # (a plain style has no code, so the character becomes plain)
        self.assertEqual(style_after("0").codes, "")
        self.assertEqual(ansi_str.mark("\x1b[1ma", "a", style_after("0")), "\x1b[1m\x1b[ma\x1b[1m")
        for code, color in (("58;5;255", 255), ("58;2;0;1;255", (0, 1, 255))):
            self.assertEqual([style_after(code).underline_color, style_after(code).font, style_after(code).codes], [color, None, code])
        for font in range(11, 20):
            self.assertEqual([style_after(font).font, style_after(font).codes], [font, str(font)])
        for code in (1, 2, 3, 4, 5, 6, 7, 8, 9, 20, 21, 26, 30, 37, 40, 47, 51, 52, 53, 60, 61, 62, 63, 64, 73, 74, 90, 97, 100, 107):
            self.assertEqual(style_after(code).codes, str(code))
        self.assertNotEqual(style_after("58;5;1"), style_after("58;5;2"))
        self.assertNotEqual(style_after(11), style_after(12))
        self.assertEqual(style_after("1m\x1b[31"), style_after("31m\x1b[1"))

    def test_bytes_are_made_safe(self):
        for data in (b"caf\xe9\x1b[2J", "caf\u00e9\x1b[2J".encode(), b"", b"\xff" * 100000, bytes(range(256))):
            decoded = data.decode("utf-8", "replace")
            for options in ({}, {"show": True}, {"links": True}):
                wanted = ansi_str.sanitize(decoded, **options)
                self.assertEqual(ansi_str.sanitize(data, **options), wanted)
                self.assertEqual(ansi_str.sanitize(data.decode("utf-8", "surrogateescape"), **options), wanted)
        # (surrogates that are the bytes of a character)
        self.assertEqual(ansi_str.sanitize("\udcc3\udca9"), "\u00e9")
        self.assertEqual(ansi_str.sanitize(os.fsdecode(b"no\xff")), "no\ufffd")
        for wrong in (bytearray(b"a"), memoryview(b"a"), [97]):
            self.refused(TypeError, "text must be a str, not " + type(wrong).__name__, ansi_str.sanitize, wrong)
        self.refused(UnicodeEncodeError, "text has a lone surrogate", ansi_str.sanitize, "\udce9\ud800")
        for name, more in CALLS.items():
            if name != "sanitize":
                self.refused(UnicodeEncodeError, "text has a lone surrogate", getattr(ansi_str, name), "caf\udce9", *more)

    def test_positions_past_the_end(self):
        for plain in ("abc", "é", ""):
            for text in (plain, "\x1b[1m" + plain):
                for huge in HUGE:
                    self.assertEqual(ansi_str.cut(text, 0, huge), ansi_str.cut(text))
                    self.assertEqual(ansi_str.strip(ansi_str.cut(text, huge)), "")
                    self.assertEqual(ansi_str.strip(ansi_str.cut(text, huge, huge)), "")
                    self.assertEqual(ansi_str.strip(ansi_str.left(text, huge)), plain)
                    self.assertEqual(ansi_str.strip(ansi_str.right(text, huge)), "")
                    self.assertEqual(ansi_str.fitting(text, huge), len(plain))
                    self.assertEqual(ansi_str.column_of(text, huge), len(plain))
                    self.assertEqual(ansi_str.strip(ansi_str.truncate(text, huge)), plain)
                    self.assertEqual("".join(ansi_str.wrap(text, huge)), "".join(ansi_str.wrap(text, 9)))
                    with self.assertRaises(MemoryError):
                        ansi_str.pad(text, max(huge, 2**62))
                    with self.assertRaises(MemoryError):
                        ansi_str.fit(text, max(huge, 2**62))
                    for side in ansi_str.SIDES:
                        self.assertEqual(ansi_str.strip(ansi_str.truncate(text, huge, side=side)), plain)
                    with self.assertRaises(MemoryError):
                        ansi_str.expand_tabs(text + "\t", max(huge, 2**62))
                    self.assertEqual(ansi_str.expand_tabs(text, huge), text)
                    self.assertEqual(ansi_str.slice_columns(text, 0, huge), ansi_str.slice_columns(text))
                    self.assertEqual(ansi_str.slice_columns(text, huge), "")
                    self.assertEqual(ansi_str.slice_columns(text, huge, 0), "")
                    self.assertIsNone(ansi_str.part(text, ",", huge))
                    self.assertIsNone(ansi_str.part(text, "", huge))
                    self.assertIsNone(ansi_str.link_at("\x1b]8;;u\x07" + text, huge))
                    self.assertIsNone(ansi_str.edit(text, ansi_str.Cut(huge + 1, huge)))
                    self.refused(ValueError, "the end lies before the start", ansi_str.cut, text, huge + 1, huge)

    def test_indices_of_parts(self):
        for text in ("", "a", "a,b,", "\x1b[1mé,b"):
            for pattern in ("", ",", ",b"):
                parts = ansi_str.split(text, pattern)
                got = [ansi_str.part(text, pattern, index) for index in range(len(parts) + 2)]
                self.assertEqual(got, [*parts, None, None])
                self.assertEqual(list(ansi_str.iter_split(text, pattern)), parts)

    def test_edits_alone_and_in_a_list(self):
        for edits in (ansi_str.Trim(), [ansi_str.Trim()], (ansi_str.Trim(),), iter([ansi_str.Trim()])):
            self.assertEqual(ansi_str.edit(" x ", edits), "x")
        self.assertEqual(ansi_str.edit("abc", ansi_str.Cut(0, 1)), "a")
        self.assertEqual(ansi_str.edit("abc", []), "abc")
        for wrong in ("", "abc", None, 1, {}, b""):
            self.refused(TypeError, "edits must be", ansi_str.edit, "abc", wrong)
        for wrong in (["a"], [None], [(0, 1)], [[ansi_str.Trim()]]):
            self.refused(TypeError, "edits must hold edits", ansi_str.edit, "abc", wrong)

    def test_styles(self):
        # (the codes of ECMA-48, 73 and 74 of mintty)
        codes = dict(zip((1, 2, 3, 4, 21, 5, 6, 7, 8, 9, 51, 52, 20, 26, 53, 60, 61, 62, 63, 64, 73, 74), ansi_str.ATTRIBUTES))
        self.assertEqual([codes[code] for code in (1, 21, 9, 20, 53, 64, 74)],
                         ["bold", "double_underline", "crossed_out", "fraktur", "overlined", "ideogram_stress_marking", "subscript"])
        for code, name in codes.items():
            self.assertEqual(style_after(code)[:4], ({name}, None, None, True))
        self.assertEqual(style_after(0)[:4], (set(), None, None, False))
        self.assertEqual(style_after("0;99")[:4], (set(), None, None, True))
        for digit, name in enumerate(("black", "red", "green", "yellow", "blue", "magenta", "cyan", "white")):
            for code, color in ((30, name), (90, "bright_" + name)):
                self.assertEqual(style_after(code + digit)[:4], (set(), color, None, True))
                self.assertEqual(style_after(code + digit + 10)[:4], (set(), None, color, True))
        self.assertEqual(style_after("38;5;200;48;2;1;2;3")[1:3], (200, (1, 2, 3)))
        for code in ("58;5;1", 11):
            self.assertEqual(style_after(code)[:4], (set(), None, None, True))

    def test_links_and_sequences_of_blocks(self):
        def told(text):
            return [(block.text, block.link, block.sequences) for block in ansi_str.blocks(text)]

        opened, closed = "\x1b]8;id=1;http://x\x1b\\", "\x1b]8;;\x07"
        self.assertEqual(told("a" + opened + "b\x1b[1mc" + closed + "d"),
                         [("a", None, ""), ("b", "http://x", opened), ("c", "http://x", ""), ("d", None, closed)])
        # another sequence leaves a link open, and one link may follow another
        self.assertEqual(told(opened + "a\x1b[2Jb\x1b]8;;-\x07c"),
                         [("a", "http://x", opened), ("b", "http://x", "\x1b[2J"), ("c", "-", "\x1b]8;;-\x07")])
        # the last of several counts, and a link without text is in no block
        self.assertEqual(told(opened + closed + "a" + opened), [("a", None, opened + closed)])
        # a sequence that only begins as a link does is none
        self.assertEqual(told(opened + "a\x1b]8;b\x1b\\c"), [("a", "http://x", opened), ("c", "http://x", "\x1b]8;b\x1b\\")])
        # what follows a lone ESC is text
        self.assertEqual(told("\x1b\x1b[1m[2Ja"), [("[2Ja", None, "\x1b")])
        self.assertEqual([block[:2] for block in told("\x1b[1m<b>\x1b[2J&\x1b]0;t\x07c")], [("<b>", None), ("&", None), ("c", None)])

    def test_blocks_and_pens_agree_with_other_calls(self):
        pieces = ["a", "\xe9", "\u0600", "\u0301", "\x1b", "[m", "]8;;z\x07", "\x1b[1m", "\x1b[31m", "\x1b[0m", "\x1b[99m", "\x1b]8;;u\x07",
                  "\x1b]8;id=2;-\x1b\\", "\x1b]8;;\x07", "\x1b]8;x\x07", "\x1b]0;\x1b]8;;q\x07", "\x1b]8;;\xe9\x07", "\x1b[2J"]
        choice = random.Random(5).choices
        for count in range(1000):
            text = "".join(choice(pieces, k=count % 10))
            blocks, position = ansi_str.blocks(text), 0
            for block in blocks:
                self.assertEqual(block.link, ansi_str.link_at(text, position), text)
                position += len(block.text)
            self.assertEqual("".join(block.text for block in blocks), ansi_str.strip(text))
            if ansi_str.is_whole(text):
                pen, last = ansi_str.pen_after(text), ansi_str.blocks(text + "x")[-1]
                self.assertEqual((pen.style, pen.link), (last.style, last.link), text)
                self.assertEqual(ansi_str.blocks(pen.start + "x")[-1].style.start, pen.style.start, text)
                closed = ansi_str.blocks(text + pen.end + "x")[-1]
                self.assertEqual((closed.style.start, closed.style.end, closed.link), ("", "", None), text)

    def test_the_pen_after_a_text(self):
        link, link_end = "\x1b]8;id=1;http://x\x1b\\", "\x1b]8;;\x1b\\"
        pen = ansi_str.pen_after("\x1b[1;31mred " + link + "li")
        self.assertEqual(pen[1:], ("http://x", "\x1b[1m\x1b[31m" + link, link_end + "\x1b[22m\x1b[39m"))
        self.assertEqual((pen.style.attributes, pen.style.foreground), ({"bold"}, "red"))
        for text in ("", "plain", "\x1b[31mred\x1b[0m", link + "a" + link_end, "\x1b[2J\x1b", "a\x1b[3", "a\x1b]8;;http://x"):
            self.assertEqual(ansi_str.pen_after(text)[1:], (None, "", ""))
        # each line sets what is open before it, and closes what it leaves open
        lines, pen, carried = ("\x1b[31mone " + link + "two\n\nthree" + link_end + " four\nfive\x1b[m\nsix").split("\n"), ansi_str.pen_after(""), []
        for line in lines:
            start, pen = pen.start, ansi_str.pen_after(pen.start + line)
            carried.append(start + line + pen.end)
        self.assertEqual(carried, [
            "\x1b[31mone " + link + "two" + link_end + "\x1b[39m", "\x1b[31m" + link + link_end + "\x1b[39m",
            "\x1b[31m" + link + "three" + link_end + " four\x1b[39m", "\x1b[31mfive\x1b[m", "six"])
        # a link that isn't printable ASCII is closed, and not opened again; nor is what an unknown code sets
        self.assertEqual(ansi_str.pen_after("\x1b]8;;\xe9\x07a")[1:], ("\xe9", "", link_end))
        self.assertEqual(ansi_str.pen_after("\x1b[4:3ma")[1:], (None, "", "\x1b[0m"))

    def test_styles_that_print_differently_differ(self):
        red, unknown = style_after(31), style_after("31m\x1b[99")
        self.assertEqual([red.end, unknown.end], ["\x1b[39m", "\x1b[39m\x1b[0m"])
        self.assertNotEqual(red, unknown)
        codes = (0, 1, 3, 31, 32, 91, "38;5;1", "38;2;1;1;1", 41, "58;5;1", 11, 12, 20, 53, 73, 99)
        styles = [style_after("%sm\x1b[%s" % (first, second)) for first in codes for second in codes]
        for style in styles:
            for other in styles:
                if (style.start, style.end) != (other.start, other.end):
                    self.assertNotEqual(style, other)

    def test_long_texts(self):
        for text in ("x" * 100000, "\x1b[1mé" * 50000, "\x1b]" * 50000, "\x1b[31;42;1;3;4m" + "a\x1b[5m" * 30000):
            blocks = ansi_str.blocks(text)
            self.assertEqual("".join(block.text for block in blocks), ansi_str.strip(text))
            self.assertEqual(list(ansi_str.iter_blocks(text)), blocks)
            self.assertEqual("".join(map(ansi_str.strip, ansi_str.split(text, ""))), ansi_str.strip(text))
            self.assertEqual(ansi_str.strip(ansi_str.cut(text, 1000, 2000)), ansi_str.strip(text)[1000:2000])

    def test_threads(self):
        texts = ["\x1b[%dm%s\x1b[m" % (31 + number, str(number) * 500) for number in range(8)]
        wrong = []
        def run(number):
            for _ in range(300):
                if ansi_str.strip(texts[number]) != str(number) * 500:
                    wrong.append(number)
        threads = [threading.Thread(target=run, args=[number]) for number in range(8)]
        for thread in threads:
            thread.start()
        for thread in threads:
            thread.join()
        self.assertEqual(wrong, [])


    def test_a_str_with_methods_of_its_own(self):
        class Lying(str):
            def encode(self, *words):
                return b"\xff"

            def __len__(self):
                return 1

        for text in ("a", "a,\xe9", "\x1b[1m\xe9, b\x1b[0m"):
            for name, more in CALLS.items():
                call = getattr(ansi_str, name)
                self.assertEqual(made(call, Lying(text), *more), made(call, text, *more), (name, text))
                if name in PATTERNED:
                    self.assertEqual(made(call, text, Lying("a"), *more[1:]), made(call, text, "a", *more[1:]), (name, text))
            self.assertEqual(ansi_str.edit(Lying(text), ansi_str.Left(2)), ansi_str.edit(text, ansi_str.Left(2)))

    def test_help(self):
        for name in CALLS:
            signature = inspect.signature(getattr(ansi_str, name))
            words = [word.replace(annotation=word.empty) for word in signature.parameters.values()]
            shown = signature.replace(parameters=words, return_annotation=signature.empty)
            self.assertIn("%s%s" % (name, shown), ansi_str.__doc__)

    @unittest.skipIf(sys.version_info < (3, 8), "this Python has no Literal")
    def test_the_types_of_words(self):
        self.assertEqual(ansi_str.Alignment.__args__, ansi_str.ALIGNMENTS)
        self.assertEqual(ansi_str.Side.__args__, ansi_str.SIDES)


def made(call, *arguments, **options):
    """What a call returns, as a list if it is an iterator."""
    got = call(*arguments, **options)
    return list(got) if isinstance(got, Iterator) else got


class Module(unittest.TestCase):
    """The calls as functions of the module in C."""

    def python_of(self, name):
        """A function of Python with the same signature, which does nothing."""
        made = {}
        exec("def %s%s: pass" % (name, inspect.signature(getattr(ansi_str, name))), made)
        return made[name]

    def test_wrong_counts_and_names(self):
        for name in set(CALLS) - set(COMPOSED):
            call, more, python = getattr(ansi_str, name), CALLS[name], self.python_of(name)
            words = list(inspect.signature(call).parameters.values())
            named = {word.name: True for word in words if word.kind == word.KEYWORD_ONLY}
            for given, names in (((), {}), (("",), {"zzz": 1}), (("",), {"text": ""}), ([""] * 5, {}), ([""] * 5, named), ((), named), ((), {"text": ""}),
                                 (("",), {"zzz": 1, "text": ""}), ([""] * 5, {"zzz": 1}), (["", *more], {"zzz": 1}), ([], {words[-1].name: ""})):
                try:
                    python(*given, **names)
                except TypeError as error:
                    self.refused_as(error, call, *given, **names)

    def refused_as(self, error, call, *given, **names):
        with self.assertRaises(TypeError) as caught:
            call(*given, **names)
        self.assertEqual(str(caught.exception), str(error))

    def test_arguments_by_name(self):
        for name, more in CALLS.items():
            call = getattr(ansi_str, name)
            words = list(inspect.signature(call).parameters)
            given = ["\x1b[1ma\xe9,b", *more]
            wanted = made(call, *given)
            for by_name in range(len(given) + 1):
                front = len(given) - by_name
                self.assertEqual(made(call, *given[:front], **dict(zip(words[front:], given[front:]))), wanted, name)

    def test_defaults(self):
        text = "\x1b[1ma\t\xe9,b"
        for name in CALLS:
            call = getattr(ansi_str, name)
            words = inspect.signature(call).parameters.values()
            defaults = {word.name: word.default for word in words if word.default is not word.empty}
            self.assertEqual(made(call, text, *CALLS[name]), made(call, text, *CALLS[name], **{
                word: default for at, (word, default) in enumerate(defaults.items()) if word not in list(inspect.signature(call).parameters)[:1 + len(CALLS[name])]}))

    def test_they_are_functions_of_the_package(self):
        for name in CALLS:
            call = getattr(ansi_str, name)
            self.assertEqual(inspect.isbuiltin(call), name not in COMPOSED, name)
            self.assertEqual((call.__name__, call.__qualname__, call.__module__), (name, name, "ansi_str"))
            self.assertIs(pickle.loads(pickle.dumps(call)), call)
            self.assertIn(">>> ", call.__doc__)

    def test_indices(self):
        class Index:
            def __init__(self, number):
                self.number = number

            def __index__(self):
                if self.number is None:
                    raise KeyError("none")
                return self.number

        self.assertEqual(ansi_str.cut("abc", Index(1), Index(2)), "b")
        self.assertEqual(ansi_str.cut("abc", True), "bc")
        for wrong, kind in ((Index("1"), TypeError), (Index(-1), ValueError), (Index(None), KeyError)):
            with self.assertRaises(kind):
                ansi_str.cut("abc", wrong)
            with self.assertRaises(kind):
                ansi_str.restyle("abc", [(wrong, 2)], "1")

    def test_a_text_that_is_as_it_was(self):
        # (it may be the same object, but never a `str` of another class, or one with surrogates)
        class Named(str):
            pass

        for text in ("abc", "\xe9", "\x1b[1ma\x1b[0m", "x" * 100000):
            for call in (ansi_str.trim, ansi_str.strip_prefix, ansi_str.unlink, ansi_str.cut):
                more = [""] if call is ansi_str.strip_prefix else []
                self.assertEqual(call(text, *more), text)
                self.assertIs(type(call(Named(text), *more)), str)
        self.assertEqual(ansi_str.sanitize("\udcc3\udca9"), "\xe9")

    def test_an_edit_with_other_members(self):
        for edit in (tuple.__new__(ansi_str.Cut, ()), tuple.__new__(ansi_str.Cut, (1, 2, 3)), tuple.__new__(ansi_str.Trim, (1,))):
            self.assertRaises(TypeError, ansi_str.edit, "abc", edit)
        self.assertRaises(TypeError, ansi_str.edit_columns, "abc", tuple.__new__(ansi_str.Fit, (1,)))

    def test_walks(self):
        for walk, count in ((ansi_str.iter_blocks("\x1b[1ma"), 1), (ansi_str.iter_split("a,b", ","), 2), (ansi_str.iter_lines("\xe9 b", 1), 2)):
            for make in (type(walk), lambda: object.__new__(type(walk)), lambda: copy.copy(walk)):
                with self.assertRaises(TypeError):
                    make()
            self.assertEqual([len(list(walk)), len(list(walk))], [count, 0])

    def test_styles_are_kept_and_made_again(self):
        texts = ["\x1b[38;2;%d;%d;%dma" % (number % 251, number % 83, number % 7) for number in range(1000)]
        for _ in range(2):
            for number, text in enumerate(texts):
                self.assertEqual(ansi_str.blocks(text)[0].style.foreground, (number % 251, number % 83, number % 7))

    def test_a_module_that_has_not_started(self):
        module = importlib.util.module_from_spec(ansi_str._library.__spec__)
        self.assertRaises(ValueError, module.described, "width", "", "ansi_str")
        self.assertRaises(TypeError, module.use)
        module.__spec__.loader.exec_module(module)
        self.assertRaises(ValueError, module.described, "none", "", "ansi_str")
        self.assertRaises(TypeError, module.described, "width")
        self.assertEqual(module.described("width", "", "ansi_str")("ab"), 2)
        self.assertRaises(ValueError, module.described, "width", "", "ansi_str")
        for name, given in (("blocks", ["a"]), ("pen_after", ["a"]), ("links", ["\x1b]8;;u\x07a"]), ("mark", ["a", "a", "1"]), ("edit", ["a", []]), ("of", ["1"])):
            self.assertRaises(RuntimeError, module.described(name, "", "ansi_str"), *given)
        self.assertRaises(TypeError, module.use, 1)
        for wrong in (0, int, str, None):
            self.assertRaises(TypeError, module.use, *[wrong] * 18)
        self.assertRaises(TypeError, module.use, *[tuple] * 17)
        module.use(*[tuple] * 18)


# runs a program in interpreters beside the first, one after the other, and then in two at the same time
INTERPRETERS = r"""
import sys, threading
try:
    import _interpreters as interpreters
except ImportError:
    try:
        import _xxsubinterpreters as interpreters
    except ImportError:
        sys.exit("none")
program = r'''
import ansi_str
for _ in range(1000):
    assert ansi_str.cut("\x1b[31m\xe9ab", 1, 2) == "\x1b[31ma\x1b[39m"
    assert [block.text for block in ansi_str.blocks("a\x1b[1mb")] == ["a", "b"]
    assert ansi_str.split("a,\x1b[1mb", ",") == ["a", "\x1b[1mb\x1b[22m"]
'''
passed = []
def run():
    interpreter = interpreters.create()
    # (since Python 3.13 it returns an error)
    error = interpreters.run_string(interpreter, program)
    if error is None:
        passed.append(interpreter)
    interpreters.destroy(interpreter)
run()
exec(program)
run()
threads = [threading.Thread(target=run) for _ in range(2 if sys.version_info >= (3, 12) else 0)]
for thread in threads:
    thread.start()
for thread in threads:
    thread.join()
sys.exit("passed in %d" % len(passed))
"""


class Interpreters(unittest.TestCase):
    def test_import_in_other_interpreters(self):
        environment = dict(os.environ, PYTHONPATH=os.path.dirname(os.path.dirname(ansi_str.__file__)))
        ran = subprocess.run([sys.executable, "-c", INTERPRETERS], env=environment, stderr=subprocess.PIPE)
        if ran.stderr == b"none\n":
            self.skipTest("this Python makes no other interpreters")
        self.assertEqual(ran.stderr, b"passed in 4\n" if sys.version_info >= (3, 12) else b"passed in 2\n")


def told(call, *arguments, **options):
    """What a call returns, or the message of its ValueError."""
    try:
        return call(*arguments, **options)
    except ValueError as error:
        return str(error)


class DropIns(unittest.TestCase):
    def test_a_plain_text_is_wrapped_as_textwrap_does(self):
        texts = ["", "   ", "hello", "The quick brown fox jumped over the lazy dog", "  an indent", "at the end   ", "two  blanks  here",
                 "a\tb\tlonger words", "line one\nline two\r\nthree\vfour\ffive", "supercalifragilistic word", "x abcdefghijkl y",
                 "Look, goof-ball -- use the -b option!", "one two [...] three four [...]", "caf\u00e9 au lait"]
        options = [{}, dict(initial_indent="* ", subsequent_indent="  "), dict(break_long_words=False), dict(break_on_hyphens=False),
                   dict(drop_whitespace=False), dict(expand_tabs=False), dict(tabsize=4), dict(max_lines=2),
                   dict(max_lines=3, placeholder="\u2026"), dict(max_lines=1, initial_indent="> ")]
        for text in texts:
            for width in (5, 7, 8, 10, 14, 70):
                for option in options:
                    with self.subTest(text=text, width=width, option=option):
                        self.assertEqual(told(compat.wrap, text, width, **option), told(textwrap.wrap, text, width, **option))
                        self.assertEqual(told(compat.fill, text, width, **option), told(textwrap.fill, text, width, **option))
                self.assertEqual(told(compat.shorten, text, width), told(textwrap.shorten, text, width))

    def test_lines_count_columns_and_keep_styles_and_links(self):
        link = "\x1b]8;;http://u\x1b\\"
        no_link = "\x1b]8;;\x1b\\"
        for text, width, options, lines in [
            ("\x1b[31mred apple\x1b[39m", 6, {}, ["\x1b[31mred\x1b[39m", "\x1b[31mapple\x1b[39m"]),
            ("\x1b[41m a b  \x1b[49m", 3, {"drop_whitespace": False}, ["\x1b[41m a \x1b[49m", "\x1b[41mb  \x1b[49m"]),
            ("ab \x1b[31m cd\x1b[39m", 2, {}, ["ab", "\x1b[31mcd\x1b[39m"]),
            ("\x1b[4ma b", 3, {"initial_indent": "* ", "subsequent_indent": "\x1b[2m>\x1b[22m "},
             ["* \x1b[4ma\x1b[24m", "\x1b[2m>\x1b[22m \x1b[4mb\x1b[24m"]),
            (link + "a link" + no_link, 4, {}, [link + "a" + no_link, link + "link" + no_link]),
            ("\x1b]0;a\tb\nc\x07x\ty", 20, {}, ["x       y"]),
            ("\u53e4\ty", 20, {}, ["\u53e4      y"]),
            ("\u65e5\u672c\u8a9e", 5, {}, ["\u65e5\u672c", "\u8a9e"]),
            ("\u65e5\u672c", 1, {}, ["\u65e5", "\u672c"]),
            ("\u65e5\u672c", 1, {"drop_whitespace": False}, ["\u65e5", "\u672c"]),
            ("\x1b[31mred apple pie\x1b[39m", 11, {"max_lines": 1, "placeholder": "\x1b[2m..\x1b[22m"},
             ["\x1b[31mred apple\x1b[39m\x1b[2m..\x1b[22m"]),
        ]:
            self.assertEqual(compat.wrap(text, width, **options), lines)
        self.assertEqual(compat.shorten(" \x1b[31mHello \t world\x1b[39m ", 11), "\x1b[31mHello world\x1b[39m")

    def test_what_is_refused(self):
        for options in ({"fix_sentence_endings": True}, {"replace_whitespace": False}):
            self.assertIn("must be", told(compat.wrap, "a", 5, **options))
        self.assertEqual(told(compat.wrap, "a", 0), told(textwrap.wrap, "a", 0))

    def test_widths(self):
        # as tabulate and prettytable count, and what they leave in
        for text, width in [("", 0), ("\x1b[31mhello\x1b[0m", 5), ("world", 5), (12.5, 4), (None, 4), ("\u53e4\u3044", 4),
                            ("\x1b]8;;http://u\x07link\x1b]8;;\x07", 4), ("\x1b[2Kx", 1), ("\x1b[4:3mcurly\x1b[m", 5)]:
            self.assertEqual(compat.visible_width(text), width)
            self.assertEqual(compat.wcswidth(str(text)), width)

    def test_long_texts(self):
        self.assertEqual(len(compat.wrap("\x1b[31mred\x1b[39m word " * 5000, 8)), 5000)


class Missing(unittest.TestCase):
    def test_a_library_that_is_not_there(self):
        # (where it is found is where this process found it)
        environment = dict(os.environ, ANSI_STR_SO="/no/such.so", PYTHONPATH=os.path.dirname(os.path.dirname(ansi_str.__file__)))
        ran = subprocess.run([sys.executable, "-c", "import ansi_str"], env=environment, stderr=subprocess.PIPE)
        self.assertEqual(ran.returncode, 1)
        self.assertIn(b"ImportError: ansi_str can't load its library, /no/such.so: run bindings/python/build", ran.stderr)


def load_tests(loader, tests, pattern):
    tests.addTests(doctest.DocTestSuite(ansi_str))
    tests.addTests(doctest.DocTestSuite(compat))
    return tests


if __name__ == "__main__":
    unittest.main()
