//! Prefixes, suffixes and white space, by std on the plain text.

use crate::text::Text;
use crate::{compare, Tally};
use ansi_str::AnsiStr;
use std::borrow::Cow;
use std::ops::Range;

/// The plain text without a prefix, or `None` where it isn't there.
pub fn without_prefix(plain: &str, prefix: &str) -> Option<Range<usize>> {
    let left = plain.strip_prefix(prefix)?;
    Some(plain.len() - left.len()..plain.len())
}

/// The plain text without a suffix, or `None` where it isn't there.
pub fn without_suffix(plain: &str, suffix: &str) -> Option<Range<usize>> {
    let left = plain.strip_suffix(suffix)?;
    Some(0..left.len())
}

/// The plain text without the white space at its ends.
pub fn trimmed(plain: &str) -> Range<usize> {
    let start = plain.len() - plain.trim_start().len();
    start..start + plain.trim().len()
}

/// Compares a text that has all its sequences and so much of its plain text. It is a borrow where nothing has to go.
fn expect_kept(
    tally: &mut Tally,
    spelled: &str,
    got: Option<Cow<'_, str>>,
    want: Option<Range<usize>>,
    takes: &str,
) {
    let want = want.map(|range| Text::new(spelled).written(&range, |_| true));
    tally.expect(got.as_deref(), want.as_deref(), (takes, spelled));
    if let Some(got) = got {
        let is_borrow = matches!(got, Cow::Borrowed(_));
        let wants_borrow = takes.is_empty() || !spelled.contains('\x1b');
        tally.expect(is_borrow, wants_borrow, (takes, spelled));
    }
}

#[rustfmt::skip]
const PIECES: [&str; 12] = [
    "\x1b[1m", "\x1b]0;t\x07", "\x1b", "[", "a", "b", "ab", " ", "\t", "\u{3000}", "\u{e9}", "m",
];

#[rustfmt::skip]
const PATTERNS: [&str; 12] = [
    "", "a", "ab", "aab", "bab", "[m", " ", " a", "\u{e9}", "\u{3000}", "\x1b", "\x1b[1m",
];

/// Compares what a text is without each pattern and without its white space.
fn expect_text(tally: &mut Tally, spelled: &str) {
    let plain = Text::new(spelled).plain;
    for pat in PATTERNS {
        let name = (pat, spelled);
        let prefix = without_prefix(&plain, pat);
        tally.expect(spelled.ansi_starts_with(pat), prefix.is_some(), name);
        expect_kept(tally, spelled, spelled.ansi_strip_prefix(pat), prefix, pat);
        let suffix = without_suffix(&plain, pat);
        tally.expect(spelled.ansi_ends_with(pat), suffix.is_some(), name);
        expect_kept(tally, spelled, spelled.ansi_strip_suffix(pat), suffix, pat);
    }
    let (got, want) = (spelled.ansi_trim(), trimmed(&plain));
    expect_kept(tally, spelled, Some(got), Some(want), " ");
}

#[test]
fn texts_are_kept_as_defined() {
    assert_eq!(compare(&PIECES, 4, expect_text), 1_259_650);
}
