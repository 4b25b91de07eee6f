//! The items of a text, each sequence found by trying every front of what is left, and the plain text.

use crate::sides::sides;
use crate::style::Style;
use crate::{compare, Tally};
use ansi_str::AnsiStr;
use std::ops::Range;

const ESC: u8 = 0x1b;
const BEL: u8 = 0x07;

fn is_parameter(byte: &u8) -> bool {
    matches!(byte, 0x30..=0x3f)
}

fn is_intermediate(byte: &u8) -> bool {
    matches!(byte, 0x20..=0x2f)
}

/// Whether the bytes are parameter bytes, and then intermediate bytes.
fn are_control_bytes(bytes: &[u8]) -> bool {
    let mut after = bytes.iter().skip_while(|byte| is_parameter(byte));
    after.all(is_intermediate)
}

/// Whether the bytes are the body of an operating system command and its terminator.
fn ends_command(bytes: &[u8]) -> bool {
    matches!(bytes, [body @ .., BEL] | [body @ .., ESC, b'\\']
        if !body.contains(&ESC) && !body.contains(&BEL))
}

/// Whether the bytes are the body of another control string and its terminator.
fn ends_string(bytes: &[u8]) -> bool {
    matches!(bytes, [body @ .., ESC, b'\\'] if !body.contains(&ESC))
}

/// Whether the bytes are a whole sequence, no more and no less.
fn is_sequence(bytes: &[u8]) -> bool {
    match bytes {
        [ESC, b'['] => false,
        [ESC, b'[', inner @ .., 0x40..=0x7e] => are_control_bytes(inner),
        [ESC, b']', rest @ ..] => ends_command(rest),
        [ESC, b'P' | b'X' | b'^' | b'_', rest @ ..] => ends_string(rest),
        [ESC, inner @ .., 0x30..=0x7e] => inner.iter().all(is_intermediate),
        _ => false,
    }
}

/// Whether a whole sequence is select graphic rendition.
fn is_sgr(sequence: &[u8]) -> bool {
    match sequence {
        [ESC, b'[', 0x3c..=0x3f, ..] => false,
        [ESC, b'[', inner @ .., b'm'] => inner.iter().all(is_parameter),
        _ => false,
    }
}

#[derive(Clone, Copy, Debug, PartialEq, Eq)]
pub enum Kind {
    Run,
    Sgr,
    /// Any other sequence.
    Other,
    LoneEscape,
}

/// A run of text, a sequence or a lone escape.
pub struct Item<'t> {
    pub kind: Kind,
    pub spelled: &'t str,
    /// How many plain bytes come before it.
    pub place: usize,
}

impl<'t> Item<'t> {
    /// What a run has between two positions of the plain text.
    pub fn between(&self, range: &Range<usize>) -> &'t str {
        let within = |position: usize| position.saturating_sub(self.place).min(self.spelled.len());
        &self.spelled[within(range.start)..within(range.end)]
    }

    /// The parameters of an SGR.
    pub fn parameters(&self) -> &'t str {
        &self.spelled[2..self.spelled.len() - 1]
    }
}

/// The kind and the length of the first item of a text that isn't empty.
fn first_item(text: &str) -> (Kind, usize) {
    let bytes = text.as_bytes();
    if bytes[0] != ESC {
        return (Kind::Run, text.find('\x1b').unwrap_or(text.len()));
    }
    let mut ends = (2..=bytes.len()).filter(|len| is_sequence(&bytes[..*len]));
    let end = ends.next();
    assert_eq!(ends.next(), None, "a sequence begins another: {text:?}");
    match end {
        Some(len) if is_sgr(&bytes[..len]) => (Kind::Sgr, len),
        Some(len) => (Kind::Other, len),
        None => (Kind::LoneEscape, 1),
    }
}

/// A text, as the definitions read it.
pub struct Text<'t> {
    pub items: Vec<Item<'t>>,
    pub plain: String,
}

impl<'t> Text<'t> {
    pub fn new(text: &'t str) -> Self {
        let (mut items, mut plain) = (Vec::new(), String::new());
        let mut rest = text;
        while !rest.is_empty() {
            let (kind, len) = first_item(rest);
            let (spelled, after) = rest.split_at(len);
            let place = plain.len();
            items.push(Item {
                kind,
                spelled,
                place,
            });
            if kind == Kind::Run {
                plain += spelled;
            }
            rest = after;
        }
        Text { items, plain }
    }

    /// Whether no item is a lone escape.
    pub fn is_whole(&self) -> bool {
        self.items.iter().all(|item| item.kind != Kind::LoneEscape)
    }

    /// The plain text between two positions, and of the other items those that are kept.
    pub fn written(&self, range: &Range<usize>, is_kept: impl Fn(&Item) -> bool) -> String {
        let spelled = |item: &Item<'t>| match item.kind {
            Kind::Run => item.between(range),
            _ if is_kept(item) => item.spelled,
            _ => "",
        };
        self.items.iter().map(spelled).collect()
    }

    /// The style after every SGR that is placed at or before a position.
    pub fn style_at(&self, position: usize) -> Style {
        let mut style = Style::default();
        for item in &self.items {
            if item.kind == Kind::Sgr && item.place <= position {
                style.apply(item.parameters());
            }
        }
        style
    }
}

/// At least one of each class of characters.
const CHARACTERS: [&str; 13] = [
    "\x1b", "[", "]", "P", "\\", "\x07", "0", "?", "!", "m", "G", "\x7f", "\u{e9}",
];

/// What control strings are made of, with each opening.
const STRING_CHARACTERS: [&str; 8] = ["\x1b", "P", "X", "]", "^", "_", "\\", "\x07"];

/// Compares what a text is read as. If all of it is on the left side, so are its sequences other than SGRs.
fn expect_read(tally: &mut Tally, spelled: &str) {
    let text = Text::new(spelled);
    tally.expect(&*spelled.ansi_strip(), &text.plain, spelled);
    let has_escape = spelled.as_bytes().contains(&ESC);
    tally.expect(spelled.ansi_has_any(), has_escape, spelled);
    let (left, right) = spelled.ansi_split_at(usize::MAX);
    let want = sides(&text, usize::MAX);
    tally.expect((&*left, &*right), (&want.0, &want.1), spelled);
}

#[test]
fn short_texts_are_read_as_defined() {
    assert_eq!(compare(&CHARACTERS, 5, expect_read), 1_209_702);
}

#[test]
fn control_strings_are_read_as_defined() {
    assert_eq!(compare(&STRING_CHARACTERS, 5, expect_read), 115_347);
}

/// Texts in which each character is in a place where a class of characters may be.
#[rustfmt::skip]
const FRAMES: [(&str, &str); 10] = [
    ("\x1b", "mx"), ("\x1b[", "mx"), ("\x1b[", "1mx"), ("\x1b[1", "mx"), ("\x1b[1!", "mx"), ("\x1b(", "mx"),
    ("\x1b]", "\x07x"), ("\x1b]1", "\x1b\\x"), ("\x1bP1", "\x1b\\x"), ("\x1b", "1\x1b\\x\x07"),
];

#[test]
fn each_character_is_read_as_defined() {
    let mut tally = Tally::default();
    for character in '\0'..='\u{a0}' {
        for (front, back) in FRAMES {
            expect_read(&mut tally, &format!("{front}{character}{back}"));
        }
    }
    assert_eq!(tally.0, 161 * 10 * 3);
}

#[test]
fn lone_escapes_are_told_from_sequences() {
    use Kind::{LoneEscape, Other, Run, Sgr};
    let rows: [(&str, &[Kind]); 7] = [
        ("\x1b[31", &[LoneEscape, Run]),
        ("\x1b]0;title\x1b[31mx", &[LoneEscape, Run, Sgr, Run]),
        ("\x1b\x1b[1mx", &[LoneEscape, Sgr, Run]),
        ("\x1b(", &[LoneEscape, Run]),
        ("\x1b[1\x7fm", &[LoneEscape, Run]),
        ("\x1b\\", &[Other]),
        ("\x1b[>4;2m", &[Other]),
    ];
    for (spelled, want) in rows {
        let text = Text::new(spelled);
        let kinds: Vec<Kind> = text.items.iter().map(|item| item.kind).collect();
        assert_eq!(kinds, want, "{spelled:?}");
        assert_eq!(text.is_whole(), !want.contains(&LoneEscape));
    }
}
