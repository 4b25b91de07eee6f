//! The parts of a text, between matches that std finds in the plain text.

use crate::style::Style;
use crate::text::{Item, Kind, Text};
use crate::{compare, Tally};
use ansi_str::AnsiStr;
use std::borrow::Cow;
use std::ops::Range;

/// The parts of a plain text.
pub fn intervals(plain: &str, pat: &str) -> Vec<Range<usize>> {
    let mut start = 0;
    let interval = |part: &str| {
        let interval = start..start + part.len();
        start = interval.end + pat.len();
        interval
    };
    plain.split(pat).map(interval).collect()
}

/// The part of an interval after one that ends at `before`, and whether it is a borrow.
fn part(text: &Text, before: Option<usize>, interval: &Range<usize>) -> (String, bool) {
    let is_own = |mark: &Item| {
        let is_left = matches!(before, Some(before) if mark.place <= before);
        mark.place <= interval.end && !is_left
    };
    let content = text.written(interval, is_own);
    let carried = before.map_or_else(Style::default, |before| text.style_at(before));
    let mut marks = text.items.iter().filter(|item| item.kind != Kind::Run);
    let is_borrow = !marks.any(is_own) && (content.is_empty() || !carried.has_any());
    if content.is_empty() {
        return (content, is_borrow);
    }
    let end = text.style_at(interval.end).end();
    (carried.start() + &content + &end, is_borrow)
}

#[rustfmt::skip]
const PIECES: [&str; 13] = [
    "\x1b[1m", "\x1b[22m", "\x1b[31m", "\x1b[12m", "\x1b[0m", "\x1b[99m", "\x1b]0;a\x07", "\x1b",
    "a", "b", "ab", "\u{e9}", "[",
];

const PATTERNS: [&str; 9] = ["", "a", "b", "ab", "aa", "aba", "\u{e9}", "m", "\x1b"];

/// Compares the parts of a text by each pattern.
fn expect_parts(tally: &mut Tally, spelled: &str) {
    let text = Text::new(spelled);
    for pat in PATTERNS {
        let mut parts = spelled.ansi_split(pat);
        let mut before = None;
        for interval in intervals(&text.plain, pat) {
            let got = parts.next().expect("one more part");
            let is_borrow = matches!(got, Cow::Borrowed(_));
            let want = part(&text, before, &interval);
            tally.expect((&*got, is_borrow), (&want.0, want.1), (pat, spelled));
            before = Some(interval.end);
        }
        tally.expect(parts.next(), None, (pat, spelled));
    }
}

#[test]
fn texts_are_split_as_defined() {
    assert_eq!(compare(&PIECES, 4, expect_parts), 729_492);
}
