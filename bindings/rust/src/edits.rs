//! Edits of a text in turn, one part of it, and whether its sequences are complete. The Rust crate lacks these calls.

use crate::{calls, slice_of, AnsiStr};
use std::borrow::Cow;

/// One edit of a text, taken as if its sequences weren't there. Positions count bytes of the plain text.
///
/// ```
/// use ansi_str::{edit, Edit};
/// let part = Edit::Part { pat: " ", index: 1 };
/// let edits = [part, Edit::Right(1), Edit::Suffix("!"), Edit::Trim];
/// assert_eq!(edit("\x1b[1mlion tiger!", &edits).unwrap(), "\x1b[1miger\x1b[22m");
/// ```
#[derive(Debug, Clone, Copy, PartialEq, Eq)]
pub enum Edit<'p> {
    /// The text between two positions, or from a start on: [`ansi_cut`](AnsiStr::ansi_cut). It is refused if a position is
    /// inside a character, or the end is below the start.
    Cut {
        /// Where the text begins.
        start: usize,
        /// Where it ends; `None` is the end of the text.
        end: Option<usize>,
    },
    /// The text before a position: the left side of [`ansi_split_at`](AnsiStr::ansi_split_at). It is refused if the position
    /// is inside a character.
    Left(usize),
    /// The text from a position on: the right side of [`ansi_split_at`](AnsiStr::ansi_split_at). It is refused if the
    /// position is inside a character.
    Right(usize),
    /// The part of an index, counted from 0, between the matches of a pattern: [`part`]. It is refused if there is no such
    /// part.
    Part {
        /// The pattern between the parts.
        pat: &'p str,
        /// The index of the part.
        index: usize,
    },
    /// The text without this prefix: [`ansi_strip_prefix`](AnsiStr::ansi_strip_prefix). It is refused if the plain text
    /// doesn't begin with it.
    Prefix(&'p str),
    /// The text without this suffix: [`ansi_strip_suffix`](AnsiStr::ansi_strip_suffix). It is refused if the plain text
    /// doesn't end with it.
    Suffix(&'p str),
    /// The text without the white space at its ends: [`ansi_trim`](AnsiStr::ansi_trim). It is never refused.
    Trim,
}

impl Edit<'_> {
    /// What the edit makes of a text without ESC, as std does.
    fn of_bare<'t>(&self, text: &'t str) -> Option<&'t str> {
        match *self {
            Edit::Cut { start, end } => slice_of(text, start, end.unwrap_or(usize::MAX)),
            Edit::Left(mid) => slice_of(text, 0, mid),
            Edit::Right(mid) => slice_of(text, mid, usize::MAX),
            Edit::Part { pat, index } => text.split(pat).nth(index),
            Edit::Prefix(prefix) => text.strip_prefix(prefix),
            Edit::Suffix(suffix) => text.strip_suffix(suffix),
            Edit::Trim => Some(text.trim()),
        }
    }
}

/// The text after all edits, each made on the result of the one before, or `None` if one is refused at its turn.
///
/// If each ESC of the text begins a complete sequence, as [`is_whole`] says, the result is the text that the edits name, each
/// character in its style, and after a cut, a side or a part no style is open at its end.
///
/// ```
/// use ansi_str::{edit, Edit};
/// let edits = [Edit::Prefix("> "), Edit::Left(2)];
/// assert_eq!(edit("> \x1b[31mred", &edits).unwrap(), "\x1b[31mre\x1b[39m");
/// assert_eq!(edit("red", &edits), None);
/// ```
#[must_use]
pub fn edit<'t>(text: &'t str, edits: &[Edit<'_>]) -> Option<Cow<'t, str>> {
    if text.ansi_has_any() {
        return calls::edit(text, edits).map(Cow::Owned);
    }
    let edited = edits
        .iter()
        .try_fold(text, |edited, edit| edit.of_bare(edited));
    edited.map(Cow::Borrowed)
}

/// The part of an index, counted from 0, among those of [`ansi_split`](AnsiStr::ansi_split), or `None` if there is no such
/// part. The parts before it aren't made.
///
/// ```
/// use ansi_str::part;
/// let text = "\x1b[31mlion::tiger\x1b[0m";
/// assert_eq!(part(text, "::", 1).unwrap(), "\x1b[31mtiger\x1b[0m");
/// assert_eq!(part(text, "::", 2), None);
/// ```
#[must_use]
pub fn part<'t>(text: &'t str, pat: &str, index: usize) -> Option<Cow<'t, str>> {
    if text.ansi_has_any() {
        return calls::part(text, pat, index).map(Cow::Owned);
    }
    text.split(pat).nth(index).map(Cow::Borrowed)
}

/// Whether each ESC of the text begins a complete sequence.
///
/// ```
/// use ansi_str::is_whole;
/// assert!(is_whole("\x1b[31mred\x1b[m"));
/// assert!(!is_whole("\x1b[31"));
/// ```
#[must_use]
pub fn is_whole(text: &str) -> bool {
    !text.ansi_has_any() || calls::is_whole(text)
}
