//! Cuts, at all pairs of positions.

use crate::text::Text;
use crate::{compare, Tally, STYLED_PIECES};
use ansi_str::AnsiStr;
use std::ops::Range;

/// Whether a plain text may be cut there.
pub fn is_good_position(plain: &str, position: usize) -> bool {
    position >= plain.len() || plain.is_char_boundary(position)
}

/// The bytes of a plain text that a range names, or `None` where it is bad.
pub fn named(plain: &str, start: usize, end: usize) -> Option<Range<usize>> {
    let is_good = start <= end && is_good_position(plain, start) && is_good_position(plain, end);
    is_good.then(|| start.min(plain.len())..end.min(plain.len()))
}

/// Compares the cuts of a text, at and past all its positions.
fn expect_cuts(tally: &mut Tally, spelled: &str) {
    let text = Text::new(spelled);
    let positions = || (0..=text.plain.len() + 1).chain([usize::MAX]);
    for end in positions().map(Some).chain([None]) {
        let last = end.unwrap_or(usize::MAX);
        let close = text.style_at(last).close();
        for start in positions() {
            let got = match end {
                Some(end) => spelled.ansi_get(start..end),
                None => spelled.ansi_get(start..),
            };
            let want = named(&text.plain, start, last)
                .map(|range| text.written(&range, |mark| mark.place <= last) + &close);
            tally.expect(got.as_deref(), want.as_deref(), (start, end, spelled));
        }
    }
}

#[test]
fn texts_are_cut_as_defined() {
    assert_eq!(compare(&STYLED_PIECES, 4, expect_cuts), 4_666_074);
}
