//! Two edits of a whole text in turn: what is left is whole, and each character has its known style.

use crate::cut::named;
use crate::kept::{trimmed, without_prefix, without_suffix};
use crate::split::intervals;
use crate::text::{Kind, Text};
use crate::{compare, Tally};
use ansi_str::Edit::{Cut, Left, Part, Prefix, Right, Suffix, Trim};
use ansi_str::{edit, AnsiStr, Edit};
use std::borrow::Cow;
use std::fmt::Debug;
use std::ops::Range;

#[rustfmt::skip]
const EDITS: [Edit<'static>; 13] = [
    Cut { start: 1, end: Some(3) }, Cut { start: 0, end: None }, Cut { start: 2, end: Some(1) }, Left(1), Right(2),
    Part { pat: "a", index: 1 }, Part { pat: "", index: 2 }, Part { pat: " ", index: 0 },
    Prefix("a"), Prefix(""), Suffix("ba"), Suffix("\u{e9}"), Trim,
];

#[rustfmt::skip]
const PIECES: [&str; 8] = [
    "\x1b[1m", "\x1b[0;31m", "\x1b]0;t\x07", "a", "ba", " ", "\u{e9}", "\x1b[m",
];

/// What an edit leaves of a plain text, or `None` where it is refused.
fn edited(plain: &str, edit: Edit<'_>) -> Option<Range<usize>> {
    match edit {
        Cut { start, end } => named(plain, start, end.unwrap_or(usize::MAX)),
        Left(mid) => named(plain, 0, mid),
        Right(mid) => named(plain, mid, usize::MAX),
        Part { pat, index } => intervals(plain, pat).get(index).cloned(),
        Prefix(prefix) => without_prefix(plain, prefix),
        Suffix(suffix) => without_suffix(plain, suffix),
        Trim => Some(trimmed(plain)),
    }
}

/// What two edits in turn leave of it.
fn twice_edited(plain: &str, first: Edit<'_>, second: Edit<'_>) -> Option<Range<usize>> {
    let outer = edited(plain, first)?;
    let inner = edited(&plain[outer.clone()], second)?;
    Some(outer.start + inner.start..outer.start + inner.end)
}

/// What the call for an edit makes of a text.
fn made<'t>(text: &'t str, edit: Edit<'t>) -> Option<Cow<'t, str>> {
    match edit {
        Cut { start, end } => text.ansi_get(start..end.unwrap_or(usize::MAX)),
        // (the sides of a bad position would panic)
        Left(mid) => text.ansi_get(..mid).map(|_| text.ansi_split_at(mid).0),
        Right(mid) => text.ansi_get(mid..).map(|_| text.ansi_split_at(mid).1),
        Part { pat, index } => text.ansi_split(pat).nth(index),
        Prefix(prefix) => text.ansi_strip_prefix(prefix),
        Suffix(suffix) => text.ansi_strip_suffix(suffix),
        Trim => Some(text.ansi_trim()),
    }
}

/// The characters between two positions, each after the start of its style.
fn styled(text: &Text, range: &Range<usize>) -> String {
    let mut styled = String::new();
    for item in text.items.iter().filter(|item| item.kind == Kind::Run) {
        let start = text.style_at(item.place).start();
        for character in item.between(range).chars() {
            styled += &start;
            styled.push(character);
        }
    }
    styled
}

/// Compares the text that edits have made with the characters that they leave.
fn expect_left(tally: &mut Tally, got: &str, text: &Text, range: &Range<usize>, name: impl Debug) {
    let got = Text::new(got);
    tally.expect(got.is_whole(), true, &name);
    tally.expect(&*got.plain, &text.plain[range.clone()], &name);
    tally.expect(styled(&got, &(0..usize::MAX)), styled(text, range), &name);
}

/// Compares what each two edits make of a text. No known style is open after an edit that closes it.
fn expect_edited(tally: &mut Tally, spelled: &str) {
    let text = Text::new(spelled);
    for first in EDITS {
        let once = made(spelled, first);
        for second in EDITS {
            let name = (first, second, spelled);
            let got = once.as_deref().and_then(|once| made(once, second));
            let want = twice_edited(&text.plain, first, second);
            tally.expect(got.is_some(), want.is_some(), name);
            let in_turn = edit(spelled, &[first, second]);
            tally.expect(in_turn.as_deref(), got.as_deref(), name);
            if let (Some(got), Some(range)) = (got, want) {
                expect_left(tally, &got, &text, &range, name);
                if matches!(second, Cut { .. } | Left(_) | Right(_) | Part { .. }) {
                    let open = Text::new(&got).style_at(usize::MAX).start();
                    tally.expect(&*open, "", name);
                }
            }
        }
    }
}

#[test]
fn whole_texts_are_edited_as_their_plain_texts() {
    assert_eq!(compare(&PIECES, 4, expect_edited), 3_468_272);
}
