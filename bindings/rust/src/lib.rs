//! Text with ANSI control sequences, sliced, split, searched and trimmed as if the sequences weren't there, while every
//! character keeps its style.
//!
//! The names are those of the crate `ansi-str` 0.9.0; a patch in a program's `Cargo.toml` replaces that crate with this
//! one. A proved library does the work, which `crates/ansi_str_c` builds for C. `docs/DIFFERENCES.md` lists what differs
//! from that crate. Positions and lengths count bytes of the plain text, which is the text without its sequences. A
//! position past its end counts as the end.
//!
//! Results from a text without ESC are borrowed, and std computes them, except in [`columns`], [`restyle`] and [`safe`]. Results from any
//! other text are owned, except for an empty prefix or suffix, and for parts and blocks that occur unchanged in the text. Out
//! of memory panics, as in std.
//!
//! ```
//! use ansi_str::AnsiStr;
//!
//! let log = "\x1b[31mred\x1b[39m and plain";
//! assert_eq!(log.ansi_strip(), "red and plain");
//! assert_eq!(log.ansi_cut(..2), "\x1b[31mre\x1b[39m");
//! assert_eq!(log.ansi_find("d and"), Some(2));
//! ```

#![warn(missing_docs)]

mod blocks;
mod calls;
pub mod columns;
mod edits;
mod pen;
pub mod restyle;
pub mod safe;
mod style;

pub use blocks::{get_blocks, AnsiBlock, AnsiBlockIter};
pub use edits::{edit, is_whole, part, Edit};
pub use pen::{pen_after, Pen};
pub use style::{AnsiSequenceEnd, AnsiSequenceStart, Color, Style};

use calls::Refusal;
use std::borrow::Cow;
use std::iter::FusedIterator;
use std::ops::{Bound, RangeBounds};
use std::str;

const ESC: u8 = 0x1b;

/// A text, taken as if its sequences weren't there.
pub trait AnsiStr {
    /// The text of a range, as [`ansi_cut`](AnsiStr::ansi_cut) returns it, or `None` if a position is inside a
    /// character or the end is below the start.
    ///
    /// ```
    /// use ansi_str::AnsiStr;
    /// assert_eq!("\x1b[31mred\x1b[39m".ansi_get(1..).unwrap(), "\x1b[31med\x1b[39m");
    /// assert_eq!("\u{e9}".ansi_get(1..), None);
    /// ```
    #[must_use]
    fn ansi_get<R: RangeBounds<usize>>(&self, range: R) -> Option<Cow<'_, str>>;

    /// The text of a range: its plain bytes, every sequence up to its end, each at its place, and the close of the style
    /// there.
    ///
    /// # Panics
    ///
    /// If a position is inside a character, or the end is below the start.
    ///
    /// ```
    /// use ansi_str::AnsiStr;
    /// assert_eq!("\x1b[30mTEXT\x1b[39m".ansi_cut(1..3), "\x1b[30mEX\x1b[39m");
    /// ```
    #[must_use]
    #[track_caller]
    fn ansi_cut<R: RangeBounds<usize>>(&self, range: R) -> Cow<'_, str>;

    /// Whether a character of the plain text begins at the index, or the plain text ends there.
    ///
    /// ```
    /// use ansi_str::AnsiStr;
    /// let text = "\x1b[31m\u{e9}a\x1b[39m";
    /// assert!(text.ansi_is_char_boundary(2));
    /// assert!(!text.ansi_is_char_boundary(1));
    /// ```
    #[must_use]
    fn ansi_is_char_boundary(&self, index: usize) -> bool;

    /// The last character boundary of the plain text that isn't past the index. The Rust crate lacks it.
    ///
    /// ```
    /// use ansi_str::AnsiStr;
    /// assert_eq!("\x1b[1mL\u{f6}we".ansi_floor_char_boundary(2), 1);
    /// ```
    #[must_use]
    fn ansi_floor_char_boundary(&self, index: usize) -> usize;

    /// The position of the pattern's first match in the plain text, or `None`.
    ///
    /// ```
    /// use ansi_str::AnsiStr;
    /// assert_eq!("\x1b[31mred\x1b[39m fox".ansi_find("d f"), Some(2));
    /// ```
    #[must_use]
    fn ansi_find(&self, pat: &str) -> Option<usize>;

    /// The text without a prefix of its plain text, every sequence at its place, or `None` if the prefix isn't there.
    ///
    /// ```
    /// use ansi_str::AnsiStr;
    /// let text = "\x1b[31mred\x1b[39m";
    /// assert_eq!(text.ansi_strip_prefix("re").unwrap(), "\x1b[31md\x1b[39m");
    /// assert_eq!(text.ansi_strip_prefix("d"), None);
    /// ```
    #[must_use]
    fn ansi_strip_prefix(&self, prefix: &str) -> Option<Cow<'_, str>>;

    /// The text without a suffix of its plain text, every sequence at its place, or `None` if the suffix isn't there.
    ///
    /// ```
    /// use ansi_str::AnsiStr;
    /// let text = "\x1b[31mred\x1b[39m";
    /// assert_eq!(text.ansi_strip_suffix("ed").unwrap(), "\x1b[31mr\x1b[39m");
    /// assert_eq!(text.ansi_strip_suffix("r"), None);
    /// ```
    #[must_use]
    fn ansi_strip_suffix(&self, suffix: &str) -> Option<Cow<'_, str>>;

    /// The parts of the text between the matches of a pattern in the plain text, each with its sequences and in its
    /// style.
    ///
    /// ```
    /// use ansi_str::AnsiStr;
    /// let parts: Vec<_> = "\x1b[31mlion::tiger\x1b[0m".ansi_split("::").collect();
    /// assert_eq!(parts, ["\x1b[31mlion\x1b[39m", "\x1b[31mtiger\x1b[0m"]);
    /// ```
    fn ansi_split<'a>(&'a self, pat: &'a str) -> AnsiSplit<'a>;

    /// The text before a position and the text from there on. Each run of text has the start of its style before it and
    /// the close after it.
    ///
    /// # Panics
    ///
    /// If the position is inside a character.
    ///
    /// ```
    /// use ansi_str::AnsiStr;
    /// let (left, right) = "\x1b[30mTEXT\x1b[39m".ansi_split_at(2);
    /// assert_eq!(left, "\x1b[30mTE\x1b[39m");
    /// assert_eq!(right, "\x1b[30mXT\x1b[39m");
    /// ```
    #[must_use]
    #[track_caller]
    fn ansi_split_at(&self, mid: usize) -> (Cow<'_, str>, Cow<'_, str>);

    /// Whether the plain text begins with the pattern.
    ///
    /// ```
    /// use ansi_str::AnsiStr;
    /// assert!("\x1b[31mred\x1b[39m fox".ansi_starts_with("red f"));
    /// ```
    #[must_use]
    fn ansi_starts_with(&self, pat: &str) -> bool;

    /// Whether the plain text ends with the pattern.
    ///
    /// ```
    /// use ansi_str::AnsiStr;
    /// assert!("a \x1b[31mred\x1b[39m".ansi_ends_with("a red"));
    /// ```
    #[must_use]
    fn ansi_ends_with(&self, pat: &str) -> bool;

    /// The text without the white space at the ends of its plain text, every sequence at its place.
    ///
    /// ```
    /// use ansi_str::AnsiStr;
    /// assert_eq!(" \x1b[31m red \x1b[39m ".ansi_trim(), "\x1b[31mred\x1b[39m");
    /// ```
    #[must_use]
    fn ansi_trim(&self) -> Cow<'_, str>;

    /// The plain text.
    ///
    /// ```
    /// use ansi_str::AnsiStr;
    /// assert_eq!("\x1b[31mred\x1b[39m fox".ansi_strip(), "red fox");
    /// ```
    #[must_use]
    fn ansi_strip(&self) -> Cow<'_, str>;

    /// Whether the text has an ESC.
    ///
    /// ```
    /// use ansi_str::AnsiStr;
    /// assert!("\x1b[31mred\x1b[39m".ansi_has_any());
    /// assert!(!"red".ansi_has_any());
    /// ```
    #[must_use]
    fn ansi_has_any(&self) -> bool;
}

impl<T: AsRef<str> + ?Sized> AnsiStr for T {
    fn ansi_get<R: RangeBounds<usize>>(&self, range: R) -> Option<Cow<'_, str>> {
        let text = self.as_ref();
        let (start, end) = ends_of(&range);
        if text.ansi_has_any() {
            return calls::cut(text, start, end).map(Cow::Owned);
        }
        slice_of(text, start, end).map(Cow::Borrowed)
    }

    fn ansi_cut<R: RangeBounds<usize>>(&self, range: R) -> Cow<'_, str> {
        let range = (range.start_bound().cloned(), range.end_bound().cloned());
        match self.ansi_get(range) {
            Some(cut) => cut,
            None => refuse_range(self.as_ref(), range),
        }
    }

    fn ansi_is_char_boundary(&self, index: usize) -> bool {
        let text = self.as_ref();
        if is_bare(text, index.saturating_add(1)) {
            return text.is_char_boundary(index);
        }
        calls::is_char_boundary(text, index)
    }

    fn ansi_floor_char_boundary(&self, index: usize) -> usize {
        let text = self.as_ref();
        if is_bare(text, index.saturating_add(1)) {
            let mut place = index.min(text.len());
            while !text.is_char_boundary(place) {
                place -= 1;
            }
            return place;
        }
        calls::floor_char_boundary(text, index)
    }

    fn ansi_find(&self, pat: &str) -> Option<usize> {
        let text = self.as_ref();
        if !text.ansi_has_any() {
            return text.find(pat);
        }
        calls::find(text, pat)
    }

    fn ansi_strip_prefix(&self, prefix: &str) -> Option<Cow<'_, str>> {
        let text = self.as_ref();
        if prefix.is_empty() || !text.ansi_has_any() {
            return text.strip_prefix(prefix).map(Cow::Borrowed);
        }
        calls::strip_prefix(text, prefix).map(Cow::Owned)
    }

    fn ansi_strip_suffix(&self, suffix: &str) -> Option<Cow<'_, str>> {
        let text = self.as_ref();
        if suffix.is_empty() || !text.ansi_has_any() {
            return text.strip_suffix(suffix).map(Cow::Borrowed);
        }
        calls::strip_suffix(text, suffix).map(Cow::Owned)
    }

    fn ansi_split<'a>(&'a self, pat: &'a str) -> AnsiSplit<'a> {
        let text = self.as_ref();
        AnsiSplit(if text.ansi_has_any() {
            Parts::Styled(calls::split(text, pat))
        } else {
            Parts::Bare(text.split(pat))
        })
    }

    fn ansi_split_at(&self, mid: usize) -> (Cow<'_, str>, Cow<'_, str>) {
        let text = self.as_ref();
        if !text.ansi_has_any() {
            let mid = mid.min(text.len());
            if !text.is_char_boundary(mid) {
                refuse_position(mid);
            }
            let (left, right) = text.split_at(mid);
            return (Cow::Borrowed(left), Cow::Borrowed(right));
        }
        match (calls::left(text, mid), calls::right(text, mid)) {
            (Ok(left), Ok(right)) => (Cow::Owned(left), Cow::Owned(right)),
            (Err(Refusal), _) | (_, Err(Refusal)) => refuse_position(mid),
        }
    }

    fn ansi_starts_with(&self, pat: &str) -> bool {
        let text = self.as_ref();
        if is_bare(text, pat.len()) {
            return text.starts_with(pat);
        }
        calls::starts_with(text, pat)
    }

    fn ansi_ends_with(&self, pat: &str) -> bool {
        let text = self.as_ref();
        if !text.ansi_has_any() {
            return text.ends_with(pat);
        }
        calls::ends_with(text, pat)
    }

    fn ansi_trim(&self) -> Cow<'_, str> {
        let text = self.as_ref();
        if text.ansi_has_any() {
            Cow::Owned(calls::trim(text))
        } else {
            Cow::Borrowed(text.trim())
        }
    }

    fn ansi_strip(&self) -> Cow<'_, str> {
        let text = self.as_ref();
        if text.ansi_has_any() {
            Cow::Owned(calls::strip(text))
        } else {
            Cow::Borrowed(text)
        }
    }

    fn ansi_has_any(&self) -> bool {
        let text = self.as_ref();
        !is_bare(text, text.len())
    }
}

/// Whether the first `len` bytes of a text, or all of it, have no ESC: so far it is its own plain text.
fn is_bare(text: &str, len: usize) -> bool {
    let front = &text.as_bytes()[..len.min(text.len())];
    // a text with sequences often begins with one
    front.first() != Some(&ESC) && !front.contains(&ESC)
}

/// The text between two positions of a text without ESC.
fn slice_of(text: &str, start: usize, end: usize) -> Option<&str> {
    if end < start {
        return None;
    }
    text.get(start.min(text.len())..end.min(text.len()))
}

/// The start and the end of a range. `usize::MAX`, which is past every text, means no end.
fn ends_of(range: &impl RangeBounds<usize>) -> (usize, usize) {
    let start = match range.start_bound() {
        Bound::Included(start) => *start,
        Bound::Excluded(before) => before.saturating_add(1),
        Bound::Unbounded => 0,
    };
    let end = match range.end_bound() {
        Bound::Included(last) => last.saturating_add(1),
        Bound::Excluded(end) => *end,
        Bound::Unbounded => usize::MAX,
    };
    (start, end)
}

/// A range, printed as in a program's source.
fn as_written(range: (Bound<usize>, Bound<usize>)) -> String {
    let end = match range.1 {
        Bound::Included(last) => format!("..={last}"),
        Bound::Excluded(end) => format!("..{end}"),
        Bound::Unbounded => "..".to_owned(),
    };
    match range.0 {
        Bound::Included(start) => format!("{start}{end}"),
        Bound::Excluded(_) => format!("{range:?}"),
        Bound::Unbounded => end,
    }
}

#[cold]
#[track_caller]
fn refuse_range(text: &str, range: (Bound<usize>, Bound<usize>)) -> ! {
    let (start, end) = ends_of(&range);
    let plain = text.ansi_strip();
    let fault = if end < start {
        "ends before it begins"
    } else if plain.is_char_boundary(start.min(plain.len())) {
        "ends inside a character"
    } else {
        "begins inside a character"
    };
    panic!("the range {} of the plain text {fault}", as_written(range))
}

#[cold]
#[track_caller]
fn refuse_position(mid: usize) -> ! {
    panic!("the position {mid} lies inside a character of the plain text")
}

/// An iterator over the parts of a text, in order; [`AnsiStr::ansi_split`] returns it.
///
/// ```
/// use ansi_str::AnsiStr;
/// let mut parts = "\x1b[1ma,b\x1b[0m".ansi_split(",");
/// assert_eq!(parts.nth(1).unwrap(), "\x1b[1mb\x1b[0m");
/// assert_eq!(parts.next(), None);
/// ```
#[derive(Debug, Clone)]
#[must_use = "iterators are lazy and do nothing unless consumed"]
pub struct AnsiSplit<'a>(Parts<'a>);

#[derive(Debug, Clone)]
enum Parts<'a> {
    /// parts of a text without ESC
    Bare(str::Split<'a, &'a str>),
    Styled(calls::Parts<'a>),
}

impl<'a> Iterator for AnsiSplit<'a> {
    type Item = Cow<'a, str>;

    fn next(&mut self) -> Option<Self::Item> {
        match &mut self.0 {
            Parts::Bare(parts) => parts.next().map(Cow::Borrowed),
            Parts::Styled(parts) => parts.next(),
        }
    }

    fn size_hint(&self) -> (usize, Option<usize>) {
        match &self.0 {
            Parts::Bare(parts) => parts.size_hint(),
            Parts::Styled(parts) => parts.size_hint(),
        }
    }
}

impl FusedIterator for AnsiSplit<'_> {}

#[cfg(doctest)]
#[doc = include_str!("../../../docs/COOKBOOK.md")]
struct Cookbook;
