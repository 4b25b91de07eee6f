//! Matches, other styles for ranges, and texts without a range, at all pairs of positions.

use crate::style::Style;
use crate::text::{Kind, Text};
use crate::{compare, short_texts, Tally, STYLED_PIECES};
use ansi_str::restyle::{refused_range, AnsiRestyle};
use std::borrow::Cow;
use std::ops::Range;

/// Whether ranges of a plain text are in order, and each is between two character boundaries.
pub(crate) fn are_in_turn(plain: &str, ranges: &[Range<usize>]) -> bool {
    let mut before = 0;
    ranges.iter().all(|range| {
        let follows = before <= range.start;
        before = range.end;
        follows && plain.get(range.clone()).is_some()
    })
}

/// The text in which each piece of a run that is in a range has the codes before it, and after it the close of its style then
/// and the start of the style without them.
fn restyled(text: &Text, ranges: &[Range<usize>], codes: &str) -> String {
    let (mut style, mut made) = (Style::default(), String::new());
    for item in &text.items {
        if item.kind == Kind::Sgr {
            style.apply(item.parameters());
        }
        if item.kind != Kind::Run {
            made += item.spelled;
            continue;
        }
        let mut changed = style.clone();
        changed.apply(codes);
        let mut after = 0;
        for range in ranges {
            let piece = item.between(range);
            if !piece.is_empty() {
                made += item.between(&(after..range.start));
                made += &format!("\x1b[{codes}m{piece}{}{}", changed.close(), style.start());
                after = range.end;
            }
        }
        made += item.between(&(after..usize::MAX));
    }
    made
}

/// The text without a range of its plain text.
fn removed(text: &Text, range: &Range<usize>) -> String {
    let left = |item: &crate::text::Item| match item.kind {
        Kind::Run => {
            let (front, back) = (0..range.start, range.end..usize::MAX);
            item.between(&front).to_owned() + item.between(&back)
        }
        _ => item.spelled.to_owned(),
    };
    text.items.iter().map(left).collect()
}

/// Whether a result is the text that is wanted, and a borrow where nothing changes; or whether none is wanted.
pub(crate) fn expect_made(
    tally: &mut Tally,
    got: Option<Cow<'_, str>>,
    want: Option<String>,
    is_same: bool,
    name: (&[Range<usize>], &str),
) {
    tally.expect(got.as_deref(), want.as_deref(), name);
    if let Some(got) = got {
        tally.expect(matches!(got, Cow::Borrowed(_)), is_same, name);
    }
}

/// Compares a text that is restyled in ranges, or refused.
fn expect_restyled(tally: &mut Tally, spelled: &str, text: &Text, ranges: &[Range<usize>]) {
    let is_good = are_in_turn(&text.plain, ranges);
    let are_empty = ranges.iter().all(|range| range.start == range.end);
    let refused = (0..ranges.len()).find(|&last| !are_in_turn(&text.plain, &ranges[..=last]));
    tally.expect(refused_range(spelled, ranges), refused, (ranges, spelled));
    for codes in ["1;31", "0", "22;99"] {
        let want = is_good.then(|| restyled(text, ranges, codes));
        let got = spelled.ansi_restyle(ranges, codes);
        expect_made(tally, got, want, are_empty, (ranges, spelled));
    }
}

/// Compares a text with each pair of positions, one of them past its end.
fn expect_ranges(tally: &mut Tally, spelled: &str) {
    let text = Text::new(spelled);
    let len = text.plain.len();
    for start in 0..=len + 1 {
        for end in 0..=len + 1 {
            let range = start..end;
            expect_restyled(tally, spelled, &text, &[range.clone()]);
            expect_restyled(tally, spelled, &text, &[0..start, end..len]);
            let want = are_in_turn(&text.plain, &[range.clone()]).then(|| removed(&text, &range));
            let got = spelled.ansi_remove(range.clone());
            expect_made(tally, got, want, start == end, (&[range], spelled));
        }
    }
}

#[test]
fn ranges_are_restyled_as_defined() {
    assert_eq!(compare(&STYLED_PIECES, 3, expect_ranges), 1_372_953);
}

/// What patterns are made of.
pub(crate) const CHARACTERS: [&str; 4] = ["a", "bc", "\u{e9}", "\x1b"];

#[test]
fn matches_are_as_defined() {
    let patterns: Vec<String> = short_texts(&CHARACTERS, 2).collect();
    let compared = compare(&STYLED_PIECES, 3, |tally, spelled| {
        let text = Text::new(spelled);
        for pat in &patterns {
            let found = text.plain.match_indices(&**pat);
            let want: Vec<_> = found.map(|(place, pat)| place..place + pat.len()).collect();
            let got: Vec<_> = spelled.ansi_matches(pat).collect();
            tally.expect(&got, &want, (pat, spelled));
            let is_same = want.iter().all(|range| range.start == range.end);
            let marked = restyled(&text, &want, "7");
            let got = spelled.ansi_mark(pat, "7");
            expect_made(tally, got, Some(marked), is_same, (&want, spelled));
            for position in 0..=text.plain.len() + 1 {
                let rest = |place: &usize| text.plain.get(*place..);
                let occurs =
                    |place: &usize| matches!(rest(place), Some(rest) if rest.starts_with(&**pat));
                let want = (position..=text.plain.len()).find(occurs);
                let got = spelled.ansi_find_from(position, pat);
                tally.expect(got, want, (position, pat, spelled));
            }
        }
    });
    assert_eq!(compared, 1_368_297);
}
