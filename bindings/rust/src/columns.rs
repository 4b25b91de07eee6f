//! Columns of a terminal: display width, the longest prefix that fits, truncation, padding, slices, TABs and wrapping; and links.
//!
//! The display width of a text is the sum over the extended grapheme clusters of its plain text (UAX #29, UAX #11). The library
//! computes it also for a text without ESC, since std can't. Positions count bytes of the plain text.

use crate::{calls, ends_of, AnsiStr};
use std::borrow::Cow;
use std::iter::FusedIterator;
use std::ops::{Range, RangeBounds};
use std::vec;

/// The place of a padded text among its blanks.
///
/// ```
/// use ansi_str::columns::{Alignment, AnsiColumns};
/// assert_eq!("ab".ansi_pad(5, Alignment::Center), " ab  ");
/// ```
#[derive(Debug, Clone, Copy, PartialEq, Eq)]
pub enum Alignment {
    /// Before them.
    Left,
    /// Between them. If their number is odd, one more is after the text.
    Center,
    /// After them.
    Right,
}

/// Where a text is cut if it is too wide.
#[derive(Debug, Clone, Copy, PartialEq, Eq)]
pub enum Side {
    /// At its end: its first columns stay.
    End,
    /// At its start: its last columns stay.
    Start,
    /// In its middle: its first and its last columns stay. If their number is odd, one more of the first ones stays.
    Middle,
}

/// How a text is truncated: to how many columns, with what tail, and at which side.
///
/// ```
/// use ansi_str::columns::{AnsiColumns, Side, Truncation};
/// let to = Truncation::to(6).tail("…").side(Side::Start);
/// assert_eq!("/usr/local/bin".ansi_truncate_with(&to), "…l/bin");
/// ```
#[derive(Debug, Clone, Copy, PartialEq, Eq)]
pub struct Truncation<'a> {
    /// The greatest number of columns.
    pub width: usize,
    /// What is written where the text is cut, such as `…`.
    pub tail: &'a str,
    /// Where the text is cut.
    pub side: Side,
}

impl<'a> Truncation<'a> {
    /// Truncation to `width` columns, at the end of a text and without a tail.
    #[must_use]
    pub fn to(width: usize) -> Self {
        Truncation {
            width,
            tail: "",
            side: Side::End,
        }
    }

    /// The same with this tail.
    #[must_use]
    pub fn tail(self, tail: &'a str) -> Self {
        Truncation { tail, ..self }
    }

    /// The same at this side.
    #[must_use]
    pub fn side(self, side: Side) -> Self {
        Truncation { side, ..self }
    }
}

/// How a text is wrapped: at how many columns, and with what before its lines.
///
/// ```
/// use ansi_str::columns::{AnsiColumns, Wrap};
/// let to = Wrap::at(7).first_indent("* ").indent("  ");
/// let lines: Vec<String> = "lion tiger".ansi_wrap_with(&to).collect();
/// assert_eq!(lines, ["* lion", "  tiger"]);
/// ```
#[derive(Debug, Clone, Copy, PartialEq, Eq)]
pub struct Wrap<'a> {
    /// The greatest width of a line with its indent, in columns.
    pub width: usize,
    /// What is written before the first line.
    pub first_indent: &'a str,
    /// What is written before each later line.
    pub indent: &'a str,
}

impl<'a> Wrap<'a> {
    /// Wrapping at `width` columns, without an indent.
    #[must_use]
    pub fn at(width: usize) -> Self {
        Wrap {
            width,
            first_indent: "",
            indent: "",
        }
    }

    /// The same with this indent before the first line.
    #[must_use]
    pub fn first_indent(self, indent: &'a str) -> Self {
        Wrap {
            first_indent: indent,
            ..self
        }
    }

    /// The same with this indent before each later line.
    #[must_use]
    pub fn indent(self, indent: &'a str) -> Self {
        Wrap { indent, ..self }
    }
}

/// One edit of a text by columns; [`edit_columns`] makes a list of them in turn.
///
/// ```
/// use ansi_str::columns::{edit_columns, ColumnEdit};
/// let slice = ColumnEdit::Slice { start: 2, end: None };
/// assert_eq!(edit_columns("a\tbc", &[ColumnEdit::Expand(4), slice]), "  bc");
/// ```
#[derive(Debug, Clone, Copy, PartialEq, Eq)]
pub enum ColumnEdit<'a> {
    /// Each TAB becomes blanks up to the next multiple of this many columns:
    /// [`ansi_expand_tabs`](AnsiColumns::ansi_expand_tabs). After any other edit a text has no TAB.
    Expand(usize),
    /// The columns of a range: [`ansi_slice`](AnsiColumns::ansi_slice). The first column is 0.
    Slice {
        /// The first column that stays.
        start: usize,
        /// The one after the last that stays; `None` is the end of the text.
        end: Option<usize>,
    },
    /// The text truncated: [`ansi_truncate_with`](AnsiColumns::ansi_truncate_with).
    Truncate {
        /// The greatest number of columns.
        width: usize,
        /// What is written where the text is cut.
        tail: &'a str,
        /// Where the text is cut.
        side: Side,
    },
    /// The text padded with blanks: [`ansi_pad`](AnsiColumns::ansi_pad).
    Pad {
        /// The smallest number of columns.
        width: usize,
        /// The place of the text among the blanks.
        alignment: Alignment,
    },
    /// The text truncated and then padded: [`ansi_fit`](AnsiColumns::ansi_fit).
    Fit {
        /// The number of columns.
        width: usize,
        /// The place of the text among the blanks.
        alignment: Alignment,
        /// What is written where the text is cut.
        tail: &'a str,
    },
}

/// The text after all edits by columns, each made on the result of the one before. It is on one line and safe, and nothing is
/// open at its end, also if there is no edit but expansions of TABs. The result is borrowed if it is a prefix of the text.
///
/// ```
/// use ansi_str::columns::{edit_columns, Alignment, ColumnEdit, Side};
/// let cut = ColumnEdit::Truncate { width: 4, tail: "…", side: Side::End };
/// let alignment = Alignment::Right;
/// let pad = ColumnEdit::Pad { width: 6, alignment };
/// assert_eq!(edit_columns("\x1b[31m日本語\x1b[39m", &[cut, pad]), "   \x1b[31m日\x1b[39m…");
/// ```
#[must_use]
pub fn edit_columns<'t>(text: &'t str, edits: &[ColumnEdit<'_>]) -> Cow<'t, str> {
    front_or_owned(text, calls::edit_columns(text, edits))
}

/// Calls by the columns of a text, taken as if its sequences weren't there.
pub trait AnsiColumns: AnsiStr {
    /// The display width of what a terminal shows: of the plain text, with a blank for each TAB and line feed, and without
    /// other controls and bidirectional controls. A cluster may run across sequences and controls.
    ///
    /// ```
    /// use ansi_str::columns::AnsiColumns;
    /// assert_eq!("\x1b[31m日本\x1b[39m".ansi_width(), 4);
    /// assert_eq!("e\x1b[1m\u{301}x".ansi_width(), 2);
    /// ```
    #[must_use]
    fn ansi_width(&self) -> usize;

    /// The position up to which the text fits into `width` columns: the last end of a cluster with at most `width` columns
    /// before it, after the controls that follow it and have no columns. The text can be cut and split there.
    ///
    /// ```
    /// use ansi_str::columns::AnsiColumns;
    /// assert_eq!("a\x1b[1m日本".ansi_fitting(4), 4);
    /// ```
    #[must_use]
    fn ansi_fitting(&self, width: usize) -> usize;

    /// The column of a position: how many columns what is shown before it has. `None` if the position is inside a character. A
    /// position past the end counts as the end. Inside a cluster, the part of it before the position counts as a cluster.
    ///
    /// ```
    /// use ansi_str::columns::AnsiColumns;
    /// assert_eq!("a\x1b[1m日本".ansi_column_of(4), Some(3));
    /// assert_eq!("a\x1b[1m日本".ansi_column_of(2), None);
    /// ```
    #[must_use]
    fn ansi_column_of(&self, position: usize) -> Option<usize>;

    /// The text truncated to `width` columns, on one line and safe: SGRs, clean links (OSC 8) and printing characters stay,
    /// TAB and line ends become a blank, and the rest is left out. What fits then isn't cut. Any other text is cut, as by
    /// [`ansi_cut`](AnsiStr::ansi_cut), to the longest prefix that fits beside the tail, and the tail follows. It is
    /// shown as the text is, and what it leaves open is closed. A tail wider than `width` is left out. The link and then the
    /// style still open at the end of the text are closed before the tail. The result is borrowed if it is a prefix of the
    /// text.
    ///
    /// ```
    /// use ansi_str::columns::AnsiColumns;
    /// assert_eq!("\x1b[31m日本語\x1b[39m".ansi_truncate(5, "…"), "\x1b[31m日本\x1b[39m…");
    /// ```
    #[must_use]
    fn ansi_truncate(&self, width: usize, tail: &str) -> Cow<'_, str>;

    /// The text padded with blanks to `width` columns, on one line and safe, as by
    /// [`ansi_truncate`](AnsiColumns::ansi_truncate). The link and then the style still open at its end are closed before the
    /// blanks. A text at least as wide gets no blanks, and is borrowed if it is safe, on one line, and nothing is open.
    ///
    /// ```
    /// use ansi_str::columns::{Alignment, AnsiColumns};
    /// assert_eq!("\x1b[41mab".ansi_pad(5, Alignment::Center), " \x1b[41mab\x1b[49m  ");
    /// ```
    #[must_use]
    fn ansi_pad(&self, width: usize, alignment: Alignment) -> Cow<'_, str>;

    /// The text of a table's cell: truncated to `width` columns, as by [`ansi_truncate`](AnsiColumns::ansi_truncate), and then
    /// padded to them, as by [`ansi_pad`](AnsiColumns::ansi_pad). The result is borrowed if it is a prefix of the text.
    ///
    /// ```
    /// use ansi_str::columns::{Alignment, AnsiColumns};
    /// assert_eq!("\x1b[41mab".ansi_fit(4, Alignment::Left, "…"), "\x1b[41mab\x1b[49m  ");
    /// assert_eq!("\x1b[41mabcdef".ansi_fit(4, Alignment::Left, "…"), "\x1b[41mabc\x1b[49m…");
    /// ```
    #[must_use]
    fn ansi_fit(&self, width: usize, alignment: Alignment, tail: &str) -> Cow<'_, str>;

    /// The text truncated at its end, at its start or in its middle. At its end it is truncated as by
    /// [`ansi_truncate`](AnsiColumns::ansi_truncate), and so is a text that fits. Otherwise its first and last columns stay, as
    /// by [`ansi_slice`](AnsiColumns::ansi_slice), with the tail between them: as many as the tail leaves of the width.
    /// A tail wider than the width is left out. The result is borrowed if it is a prefix of the text.
    ///
    /// ```
    /// use ansi_str::columns::{AnsiColumns, Side, Truncation};
    /// let to = Truncation::to(8).tail("…").side(Side::Middle);
    /// let cut = "\x1b[31m/usr/local/bin\x1b[39m".ansi_truncate_with(&to);
    /// assert_eq!(cut, "\x1b[31m/usr\x1b[39m…\x1b[31mbin\x1b[39m");
    /// ```
    #[must_use]
    fn ansi_truncate_with(&self, to: &Truncation<'_>) -> Cow<'_, str>;

    /// The columns of the text in a range, on one line and safe, as by [`ansi_truncate`](AnsiColumns::ansi_truncate). The first
    /// column is 0. The style and the link that are open at the start are opened first, and the link and then the style still
    /// open at the end are closed. If a cluster is only partly in the range, each of its columns there is a blank. A cluster of
    /// no columns belongs to the column after it, or to the last one. A slice without a column is empty: an end at or before the
    /// start, or a start past the last column. The result is borrowed if it is a prefix of the text.
    ///
    /// ```
    /// use ansi_str::columns::AnsiColumns;
    /// assert_eq!("\x1b[31m日本語\x1b[39m".ansi_slice(1..4), "\x1b[31m 本\x1b[39m");
    /// ```
    #[must_use]
    fn ansi_slice<R: RangeBounds<usize>>(&self, columns: R) -> Cow<'_, str>;

    /// The text with each TAB expanded: it becomes blanks up to the next multiple of `stop` columns from the beginning of its
    /// line, which is after a line feed. Sequences and controls have no columns. Everything else is unchanged. If `stop` is 0, a
    /// TAB becomes nothing. The result is borrowed if it is a prefix of the text, as it is without a TAB.
    ///
    /// ```
    /// use ansi_str::columns::AnsiColumns;
    /// assert_eq!("a\x1b[4m\tb\n日\tc".ansi_expand_tabs(4), "a\x1b[4m   b\n日  c");
    /// ```
    #[must_use]
    fn ansi_expand_tabs(&self, stop: usize) -> Cow<'_, str>;

    /// The text wrapped to lines of `width` columns, each safe: SGRs, clean links (OSC 8) and printing characters stay, a TAB
    /// becomes a blank, and the rest is left out. A line ends at a line end or before a word that doesn't fit, and loses the
    /// blanks at its end; a word that is too wide is broken at the end of a cluster. An indent stays if its word fits after it. A
    /// width of 0 counts as 1. Each line closes the link (OSC 8) and then the style that it leaves open; the next line reopens
    /// them.
    ///
    /// ```
    /// use ansi_str::columns::AnsiColumns;
    /// let lines: Vec<String> = "\x1b[31mlion tiger".ansi_wrap(5).collect();
    /// assert_eq!(lines, ["\x1b[31mlion\x1b[39m", "\x1b[31mtiger\x1b[39m"]);
    /// ```
    #[must_use]
    fn ansi_wrap(&self, width: usize) -> AnsiWrap;

    /// The same with an indent before each line. It is shown as a text of its own, on one line and safe, and what it leaves open
    /// is closed after it. The text is wrapped at the columns that the wider of both indents leaves, at least one.
    ///
    /// ```
    /// use ansi_str::columns::{AnsiColumns, Wrap};
    /// let to = Wrap::at(7).indent("\x1b[2m| ");
    /// let lines: Vec<String> = "lion tiger".ansi_wrap_with(&to).collect();
    /// assert_eq!(lines, ["lion", "\x1b[2m| \x1b[22mtiger"]);
    /// ```
    #[must_use]
    fn ansi_wrap_with(&self, to: &Wrap<'_>) -> AnsiWrap;

    /// Where each line of [`ansi_wrap`](AnsiColumns::ansi_wrap) begins and ends in the plain text. A TAB is a blank, and other
    /// controls have no column; those at the end of a line are left out. The text can be cut there.
    ///
    /// ```
    /// use ansi_str::columns::AnsiColumns;
    /// let lines: Vec<_> = "ab \x1b[1mcd  efg".ansi_lines(5).collect();
    /// assert_eq!(lines, [0..5, 7..10]);
    /// ```
    #[must_use]
    fn ansi_lines(&self, width: usize) -> AnsiLines<'_>;

    /// The address of the link (OSC 8) around the plain byte at a position, or `None` if no link is open there. The position may
    /// be inside a character. At and after the end of the plain text there is no link.
    ///
    /// ```
    /// use ansi_str::columns::AnsiColumns;
    /// let text = "a \x1b]8;;http://x\x1b\\link\x1b]8;;\x1b\\.";
    /// assert_eq!(text.ansi_link_at(2).as_deref(), Some("http://x"));
    /// assert_eq!(text.ansi_link_at(6), None);
    /// ```
    #[must_use]
    fn ansi_link_at(&self, index: usize) -> Option<String>;
}

/// An iterator over the lines of a wrapped text; [`AnsiColumns::ansi_wrap`] returns it, and so does
/// [`AnsiColumns::ansi_wrap_with`]. These calls make all of them, so the iterator doesn't borrow the text.
#[derive(Debug, Clone)]
pub struct AnsiWrap {
    lines: String,
    /// The beginning of the next line, and the ends of it and of those after it.
    start: usize,
    ends: vec::IntoIter<usize>,
}

impl Iterator for AnsiWrap {
    type Item = String;

    fn next(&mut self) -> Option<String> {
        let end = self.ends.next()?;
        let line = self.lines[self.start..end].to_owned();
        self.start = end;
        Some(line)
    }

    fn size_hint(&self) -> (usize, Option<usize>) {
        self.ends.size_hint()
    }
}

impl ExactSizeIterator for AnsiWrap {}
impl FusedIterator for AnsiWrap {}

/// An iterator over where the lines of a wrapped text begin and end; [`AnsiColumns::ansi_lines`] returns it. Each line is
/// searched on demand.
#[derive(Debug, Clone)]
pub struct AnsiLines<'a>(calls::Lines<'a>);

impl Iterator for AnsiLines<'_> {
    type Item = Range<usize>;

    fn next(&mut self) -> Option<Range<usize>> {
        self.0.next()
    }
}

impl FusedIterator for AnsiLines<'_> {}

impl<T: AsRef<str> + ?Sized> AnsiColumns for T {
    fn ansi_width(&self) -> usize {
        calls::width(self.as_ref())
    }

    fn ansi_fitting(&self, width: usize) -> usize {
        calls::fitting(self.as_ref(), width)
    }

    fn ansi_column_of(&self, position: usize) -> Option<usize> {
        calls::column_of(self.as_ref(), position)
    }

    fn ansi_truncate(&self, width: usize, tail: &str) -> Cow<'_, str> {
        let text = self.as_ref();
        front_or_owned(text, calls::truncate(text, width, tail))
    }

    fn ansi_pad(&self, width: usize, alignment: Alignment) -> Cow<'_, str> {
        let text = self.as_ref();
        front_or_owned(text, calls::pad(text, width, alignment as u32))
    }

    fn ansi_fit(&self, width: usize, alignment: Alignment, tail: &str) -> Cow<'_, str> {
        let text = self.as_ref();
        front_or_owned(text, calls::fit(text, width, alignment as u32, tail))
    }

    fn ansi_truncate_with(&self, to: &Truncation<'_>) -> Cow<'_, str> {
        let text = self.as_ref();
        let cut = calls::truncate_with(text, to.width, to.tail, to.side as u32);
        front_or_owned(text, cut)
    }

    fn ansi_slice<R: RangeBounds<usize>>(&self, columns: R) -> Cow<'_, str> {
        let text = self.as_ref();
        let (start, end) = ends_of(&columns);
        front_or_owned(text, calls::slice(text, start, end))
    }

    fn ansi_expand_tabs(&self, stop: usize) -> Cow<'_, str> {
        let text = self.as_ref();
        front_or_owned(text, calls::expand_tabs(text, stop))
    }

    fn ansi_wrap(&self, width: usize) -> AnsiWrap {
        self.ansi_wrap_with(&Wrap::at(width))
    }

    fn ansi_wrap_with(&self, to: &Wrap<'_>) -> AnsiWrap {
        let text = self.as_ref();
        let (lines, ends) = calls::wrap(text, to.width, to.first_indent, to.indent);
        AnsiWrap {
            lines,
            start: 0,
            ends: ends.into_iter(),
        }
    }

    fn ansi_lines(&self, width: usize) -> AnsiLines<'_> {
        AnsiLines(calls::lines(self.as_ref(), width))
    }

    fn ansi_link_at(&self, index: usize) -> Option<String> {
        calls::link_at(self.as_ref(), index)
    }
}

fn front_or_owned(text: &str, answer: String) -> Cow<'_, str> {
    if text.starts_with(&answer) {
        Cow::Borrowed(&text[..answer.len()])
    } else {
        Cow::Owned(answer)
    }
}
