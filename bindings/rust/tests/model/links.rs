//! Texts with another text in place of a range, and links, at all pairs of positions.

use crate::restyle::{are_in_turn, expect_made, CHARACTERS};
use crate::style::Style;
use crate::text::{Item, Kind, Text};
use crate::{compare, short_texts, Tally};
use ansi_str::restyle::{AnsiLink, AnsiRestyle, Replacement};
use std::ops::Range;

/// The pieces of the texts.
#[rustfmt::skip]
const PIECES: [&str; 13] = [
    "\x1b[1m", "\x1b[31m", "\x1b[0m", "\x1b[99m", "\x1b]8;;u\x07", "\x1b]8;i=1;v;w\x1b\\", "\x1b]8;;\x07", "\x1b]8;u\x07",
    "\x1b]0;t\x07", "\x1b", "a", "bc", "\u{e9}",
];

/// What ends a link.
const END: &str = "\x1b]8;;\x1b\\";

/// The address of a link sequence: what is after its second semicolon.
fn address_of<'t>(item: &Item<'t>) -> Option<&'t str> {
    let fields = match item.kind {
        Kind::Other => item.spelled.strip_prefix("\x1b]8;")?,
        _ => return None,
    };
    let fields = fields
        .strip_suffix('\x07')
        .or(fields.strip_suffix("\x1b\\"))?;
    fields.split_once(';').map(|(_, address)| address)
}

/// A style, and the sequence that opened the link, or nothing.
#[derive(Clone, Default)]
struct Pen<'t> {
    style: Style,
    link: &'t str,
}

impl<'t> Pen<'t> {
    fn read(&mut self, item: &Item<'t>) {
        if item.kind == Kind::Sgr {
            self.style.apply(item.parameters());
        }
        if let Some(address) = address_of(item) {
            self.link = if address.is_empty() { "" } else { item.spelled };
        }
    }
}

/// A text put where a style and a link are, and what brings both back after it.
fn put(pen: &Pen, with: &str) -> String {
    let mut after = pen.clone();
    let new = Text::new(with);
    new.items.iter().for_each(|item| after.read(item));
    let link = match (pen.link, after.link) {
        (before, after) if before == after => "",
        ("", _) => END,
        (before, _) => before,
    };
    let style = match with.contains('\x1b') {
        true => after.style.close() + &pen.style.start(),
        false => String::new(),
    };
    format!("{with}{link}{style}")
}

/// The text with each text after the plain byte before its range, or before the first one, and without what is in the ranges.
fn each_replaced(text: &Text, edits: &[Replacement]) -> String {
    let (mut made, mut pen, mut from) = (String::new(), Pen::default(), 0);
    let mut left = edits.iter().peekable();
    for item in &text.items {
        if item.kind != Kind::Run {
            pen.read(item);
            made += item.spelled;
            continue;
        }
        let end = item.place + item.spelled.len();
        while let Some(edit) = left.next_if(|edit| edit.range.start <= end) {
            made += item.between(&(from..edit.range.start));
            made += &put(&pen, edit.with);
            from = edit.range.end;
        }
        made += item.between(&(from..usize::MAX));
    }
    left.for_each(|edit| made += &put(&pen, edit.with));
    made
}

/// The text with another one in place of a range.
fn replaced(text: &Text, range: &Range<usize>, with: &str) -> String {
    let range = range.clone();
    each_replaced(text, &[Replacement { range, with }])
}

/// The text in three, each sequence before the plain byte at its place: the link that is open after the first part ends there, and that
/// after the second is opened again.
fn linked(text: &Text, range: &Range<usize>, address: &str) -> String {
    let mut parts = [String::new(), String::new(), String::new()];
    let mut links = ["", ""];
    for item in &text.items {
        if item.kind == Kind::Run {
            parts[0] += item.between(&(0..range.start));
            parts[1] += item.between(range);
            parts[2] += item.between(&(range.end..usize::MAX));
            continue;
        }
        let link =
            address_of(item).map(|address| if address.is_empty() { "" } else { item.spelled });
        for (open, end) in links.iter_mut().zip([range.start, range.end]) {
            if item.place <= end {
                *open = link.unwrap_or(open);
            }
        }
        let index = usize::from(item.place > range.start) + usize::from(item.place > range.end);
        if index != 1 || link.is_none() {
            parts[index] += item.spelled;
        }
    }
    let [front, within, rest] = parts;
    let [before, after] = links;
    let end = if before.is_empty() { "" } else { END };
    format!("{front}{end}\x1b]8;;{address}\x1b\\{within}{END}{after}{rest}")
}

/// The links, each from its sequence up to the next one or the end.
fn links(text: &Text) -> Vec<AnsiLink> {
    let opened = |item| address_of(item).map(|address| (item.place, address.to_owned()));
    let mut marks: Vec<_> = text.items.iter().filter_map(opened).collect();
    marks.push((text.plain.len(), String::new()));
    let linked = |pair: &[(usize, String)]| AnsiLink {
        range: pair[0].0..pair[1].0,
        address: pair[0].1.clone(),
    };
    let all = marks.windows(2).map(linked);
    all.filter(|link| !link.range.is_empty() && !link.address.is_empty())
        .collect()
}

fn expect_replaced(tally: &mut Tally, spelled: &str) {
    let text = Text::new(spelled);
    let len = text.plain.len();
    for with in [
        "",
        "x",
        "\x1b[1mx",
        "\x1b[0;99mx",
        "\x1b]8;;u\x07x",
        "x\x1b]8;;\x07",
        "\x1b",
    ] {
        for start in 0..=len + 1 {
            for end in 0..=len + 1 {
                let range = start..end;
                let is_good = are_in_turn(&text.plain, &[range.clone()]);
                let want = is_good.then(|| replaced(&text, &range, with));
                let is_same = start == end && with.is_empty();
                let got = spelled.ansi_replace(range.clone(), with);
                expect_made(tally, got, want.clone(), is_same, (&[range], spelled));
                if start == end {
                    let got = spelled.ansi_insert(start, with);
                    expect_made(tally, got, want, is_same, (&[start..start], spelled));
                }
            }
        }
    }
}

#[test]
fn ranges_are_replaced_as_defined() {
    assert_eq!(compare(&PIECES, 3, expect_replaced), 847_364);
}

/// Compares a text with a text of its own in place of each of two ranges, or refused.
fn expect_each_replaced(tally: &mut Tally, spelled: &str, ranges: &[Range<usize>; 2]) {
    let text = Text::new(spelled);
    let is_good = are_in_turn(&text.plain, ranges);
    for texts in [
        ["", ""],
        ["x", "\x1b[1my"],
        ["\x1b[0;99mx", "\x1b]8;;u\x07y"],
    ] {
        let edit_of = |(range, with): (&Range<usize>, _)| Replacement {
            range: range.clone(),
            with,
        };
        let edits: Vec<_> = ranges.iter().zip(texts).map(edit_of).collect();
        let want = is_good.then(|| each_replaced(&text, &edits));
        let is_nothing = |edit: &Replacement| edit.range.is_empty() && edit.with.is_empty();
        let is_same = edits.iter().all(is_nothing);
        let got = spelled.ansi_replace_each(&edits);
        expect_made(tally, got, want, is_same, (ranges, spelled));
    }
}

#[test]
fn each_of_two_ranges_is_replaced_as_defined() {
    let compared = compare(&PIECES, 2, |tally, spelled| {
        let len = Text::new(spelled).plain.len();
        for start in 0..=len {
            for end in start..=len {
                for later in start..=len {
                    for last in later..=len + 1 {
                        expect_each_replaced(tally, spelled, &[start..end, later..last]);
                    }
                }
            }
        }
    });
    assert_eq!(compared, 1_963_767);
}

/// The text with each match replaced, the last one first.
fn all_replaced(spelled: &str, matches: &[Range<usize>], with: &str) -> String {
    let replace = |made: String, range| replaced(&Text::new(&made), range, with);
    matches.iter().rev().fold(spelled.to_owned(), replace)
}

#[test]
fn all_matches_are_replaced_as_defined() {
    let patterns: Vec<String> = short_texts(&CHARACTERS, 2).collect();
    let compared = compare(&PIECES, 3, |tally, spelled| {
        let text = Text::new(spelled);
        for pat in &patterns {
            let found = text.plain.match_indices(&**pat);
            let matches: Vec<_> = found.map(|(at, pat)| at..at + pat.len()).collect();
            for with in ["", "x", "\x1b[1mx", "\x1b[0;99mx", "\x1b]8;;u\x07x"] {
                let want = all_replaced(spelled, &matches, with);
                let got = Some(spelled.ansi_replace_all(pat, with));
                let is_same = matches.is_empty();
                expect_made(tally, got, Some(want), is_same, (&matches, spelled));
            }
        }
    });
    assert_eq!(compared, 709_800);
}

fn expect_linked(tally: &mut Tally, spelled: &str) {
    let text = Text::new(spelled);
    let len = text.plain.len();
    for start in 0..=len + 1 {
        for end in 0..=len + 1 {
            let range = start..end;
            let is_good = are_in_turn(&text.plain, &[range.clone()]);
            let is_same = start == end;
            let made = || match is_same {
                true => spelled.to_owned(),
                false => linked(&text, &range, "x y"),
            };
            let got = spelled.ansi_link(range.clone(), "x y");
            expect_made(
                tally,
                got,
                is_good.then(made),
                is_same,
                (&[range.clone()], spelled),
            );
            for address in ["", "\n", "\x1b", "\x7f", "\u{e9}"] {
                tally.expect(spelled.ansi_link(range.clone(), address), None, spelled);
            }
        }
    }
    let bare = text.items.iter().filter(|item| address_of(item).is_none());
    let bare: String = bare.map(|item| item.spelled).collect();
    let is_same = bare.len() == spelled.len();
    expect_made(
        tally,
        Some(spelled.ansi_unlink()),
        Some(bare),
        is_same,
        (&[], spelled),
    );
    tally.expect(
        spelled.ansi_links().collect::<Vec<_>>(),
        links(&text),
        spelled,
    );
}

#[test]
fn links_are_as_defined() {
    assert_eq!(compare(&PIECES, 3, expect_linked), 485_934);
}
