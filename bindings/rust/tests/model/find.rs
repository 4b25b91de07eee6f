//! Searches in the plain text, place by place, and its character boundaries.

use crate::text::Text;
use crate::{compare, short_texts};
use ansi_str::AnsiStr;

/// The first character boundary at which the pattern occurs.
fn first_place(plain: &str, pat: &str) -> Option<usize> {
    let occurs = |place: &usize| matches!(plain.get(*place..), Some(rest) if rest.starts_with(pat));
    (0..=plain.len()).find(occurs)
}

/// The last character boundary that isn't past the index.
fn floor(plain: &str, index: usize) -> Option<usize> {
    (0..=index.min(plain.len())).rfind(|place| plain.is_char_boundary(*place))
}

#[rustfmt::skip]
const PIECES: [&str; 7] = ["a", "b", "\u{e9}", "aab", "\x1b[1m", "\x1b]0;ab\x07", "\x1b"];

/// What patterns are made of.
const CHARACTERS: [&str; 5] = ["a", "b", "\u{e9}", "[", "\x1b"];

#[test]
fn texts_are_searched_as_defined() {
    let patterns: Vec<String> = short_texts(&CHARACTERS, 3).collect();
    let compared = compare(&PIECES, 4, |tally, spelled| {
        let plain = Text::new(spelled).plain;
        for pat in &patterns {
            let want = first_place(&plain, pat);
            tally.expect(spelled.ansi_find(pat), want, (pat, spelled));
        }
        for index in (0..=plain.len() + 2).chain([usize::MAX]) {
            let is_boundary = spelled.ansi_is_char_boundary(index);
            tally.expect(is_boundary, plain.is_char_boundary(index), (index, spelled));
            let got = spelled.ansi_floor_char_boundary(index);
            tally.expect(Some(got), floor(&plain, index), (index, spelled));
        }
    });
    assert_eq!(compared, 666_526);
}
