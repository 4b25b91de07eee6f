//! Styles: what the codes of an SGR set and clear, and what sets and ends a style.

use crate::blocks::expect_blocks;
use crate::text::Text;
use crate::Tally;
use ansi_str::{AnsiStr, Color};
use std::collections::BTreeMap;
use std::ops::RangeInclusive;

/// A name, the codes that set it, of which 38, 48 and 58 read the fields after them, and the code that clears it.
type Part = (&'static str, &'static [RangeInclusive<u64>], u64);

/// What a style may have, in the order in which a start sets it.
const PARTS: [Part; 26] = [
    ("bold", &[1..=1], 22),
    ("faint", &[2..=2], 22),
    ("italic", &[3..=3], 23),
    ("underline", &[4..=4], 24),
    ("slow blink", &[5..=5], 25),
    ("rapid blink", &[6..=6], 25),
    ("inverse", &[7..=7], 27),
    ("hide", &[8..=8], 28),
    ("crossed out", &[9..=9], 29),
    ("font", &[11..=19], 10),
    ("fraktur", &[20..=20], 23),
    ("double underline", &[21..=21], 24),
    ("proportional spacing", &[26..=26], 50),
    ("foreground", &[30..=38, 90..=97], 39),
    ("background", &[40..=48, 100..=107], 49),
    ("underline color", &[58..=58], 59),
    ("framed", &[51..=51], 54),
    ("encircled", &[52..=52], 54),
    ("overlined", &[53..=53], 55),
    ("ideogram underline", &[60..=60], 65),
    ("ideogram double underline", &[61..=61], 65),
    ("ideogram overline", &[62..=62], 65),
    ("ideogram double overline", &[63..=63], 65),
    ("ideogram stress marking", &[64..=64], 65),
    ("superscript", &[73..=73], 75),
    ("subscript", &[74..=74], 75),
];

/// The codes that a close may have, in its order, but for the 0 at either end.
const CLOSING_CODES: [u64; 16] = [
    10, 22, 23, 24, 25, 27, 28, 29, 39, 49, 50, 54, 55, 65, 59, 75,
];

/// The number that a field is read as, if it is one: an empty field is a zero.
fn number(field: &str) -> Option<u64> {
    if field.is_empty() {
        return Some(0);
    }
    field.parse().ok()
}

/// The field as a number of a color.
fn shade(field: &Option<u64>) -> u64 {
    field.filter(|number| *number <= 255).unwrap_or(0)
}

#[derive(Clone, Default)]
pub struct Style {
    /// The parameters that set each part that is set, by its index.
    set: BTreeMap<usize, String>,
    is_reset: bool,
    is_unknown: bool,
}

impl Style {
    /// Changes the style by the parameters of an SGR.
    pub fn apply(&mut self, parameters: &str) {
        let fields: Vec<_> = parameters.split(';').map(number).collect();
        let mut left = fields.as_slice();
        while let [first, rest @ ..] = left {
            left = rest;
            match *first {
                Some(0) => {
                    *self = Style::default();
                    self.is_reset = true;
                }
                Some(code @ (38 | 48 | 58)) => left = self.read_color(code, rest),
                Some(code) if self.change(code, &code.to_string()) => {}
                _ => self.is_unknown = true,
            }
        }
    }

    /// Reads a color from the fields after its code, and gives those that are left.
    fn read_color<'f>(&mut self, code: u64, fields: &'f [Option<u64>]) -> &'f [Option<u64>] {
        match fields {
            [Some(2), red, green, blue, rest @ ..] => {
                let (red, green, blue) = (shade(red), shade(green), shade(blue));
                self.change(code, &format!("{code};2;{red};{green};{blue}"));
                rest
            }
            [Some(5), color, rest @ ..] => {
                self.change(code, &format!("{code};5;{}", shade(color)));
                rest
            }
            // a color that lacks a field takes all that there are, and a bad selector takes itself
            [Some(2 | 5), ..] | [] => &[],
            [_, rest @ ..] => rest,
        }
    }

    /// Sets, by these parameters, and clears what a code does, and tells whether that is anything.
    fn change(&mut self, code: u64, parameters: &str) -> bool {
        let mut is_known = false;
        for (index, (_, setting, clearing)) in PARTS.iter().enumerate() {
            if setting.iter().any(|codes| codes.contains(&code)) {
                self.set.insert(index, parameters.to_owned());
                is_known = true;
            } else if *clearing == code {
                self.set.remove(&index);
                is_known = true;
            }
        }
        is_known
    }

    /// Whether there is something to end.
    pub fn has_any(&self) -> bool {
        !self.set.is_empty() || (self.is_reset && self.is_unknown)
    }

    /// The sequences that set the style.
    pub fn start(&self) -> String {
        let parameters = self.set.values();
        parameters.map(|set| format!("\x1b[{set}m")).collect()
    }

    /// The sequences that end it, also what only an unknown code may have set.
    pub fn close(&self) -> String {
        let is_needed = |code: &u64| self.set.keys().any(|index| PARTS[*index].2 == *code);
        let front = (self.is_reset && self.is_unknown).then_some(0);
        let back = self.is_unknown.then_some(0);
        let codes = CLOSING_CODES.into_iter().filter(is_needed);
        let codes = front.into_iter().chain(codes).chain(back);
        codes.map(|code| format!("\x1b[{code}m")).collect()
    }

    /// The close, where there is something to end.
    pub fn end(&self) -> String {
        if self.has_any() {
            self.close()
        } else {
            String::new()
        }
    }

    /// The parameters that set what has this name.
    fn parameters(&self, name: &str) -> Option<&str> {
        let index = PARTS.iter().position(|part| part.0 == name)?;
        self.set.get(&index).map(String::as_str)
    }

    /// The color that has this name, as the library's is printed.
    fn color(&self, name: &str) -> Option<String> {
        const COLORS: [&str; 8] = [
            "Black", "Red", "Green", "Yellow", "Blue", "Magenta", "Cyan", "White",
        ];
        let fields: Vec<&str> = self.parameters(name)?.split(';').collect();
        Some(match fields[..] {
            [code] => {
                let code: usize = code.parse().expect("a code");
                let bright = if code < 90 { "" } else { "Bright" };
                format!("{bright}{}", COLORS[code % 10])
            }
            [_, _, color] => format!("Fixed({color})"),
            [_, _, ref shades @ ..] => format!("Rgb({})", shades.join(", ")),
            [] => unreachable!("a split has a part"),
        })
    }
}

/// Compares a style of the library with one of the model.
pub fn expect_style(tally: &mut Tally, got: &ansi_str::Style, want: &Style, spelled: &str) {
    #[rustfmt::skip]
    let attributes = [
        (got.is_bold(), "bold"), (got.is_faint(), "faint"), (got.is_italic(), "italic"),
        (got.is_underline(), "underline"), (got.is_slow_blink(), "slow blink"),
        (got.is_rapid_blink(), "rapid blink"), (got.is_inverse(), "inverse"), (got.is_hide(), "hide"),
        (got.is_crossedout(), "crossed out"), (got.is_fraktur(), "fraktur"),
    ];
    for (is_set, name) in attributes {
        tally.expect(is_set, want.parameters(name).is_some(), (name, spelled));
    }
    let printed = |color: Option<Color>| color.map(|color| format!("{color:?}"));
    let (front, back) = (printed(got.foreground()), printed(got.background()));
    tally.expect(front, want.color("foreground"), spelled);
    tally.expect(back, want.color("background"), spelled);
    tally.expect(got.start().to_string(), want.start(), spelled);
    tally.expect(got.end().to_string(), want.end(), spelled);
}

/// Compares the style after an SGR, by its close and by the block after it.
fn expect_parameters(tally: &mut Tally, parameters: &str) {
    let spelled = format!("\x1b[{parameters}m");
    let close = Text::new(&spelled).style_at(0).close();
    let want = format!("{spelled}{close}");
    tally.expect(&*spelled.ansi_cut(..), &want, &spelled);
    expect_blocks(tally, &(spelled + "x"));
}

#[test]
fn codes_are_read_as_defined() {
    let mut tally = Tally::default();
    let mut codes: Vec<String> = (0..=110).map(|code| code.to_string()).collect();
    codes.extend(["38;5;1", "48;5;1", "58;5;1", "58;2;1;2;3"].map(str::to_owned));
    for first in &codes {
        expect_parameters(&mut tally, first);
        for second in &codes {
            expect_parameters(&mut tally, &format!("{first};{second}"));
        }
    }
    assert_eq!(tally.0, 115 * 116 * 18);
}

/// Fields that are a code written otherwise, or no code though they resemble one.
#[rustfmt::skip]
const ODD_FIELDS: [&str; 13] = [
    "", "00", "01", "022", "0031", "255", "256", "0256", "257", "65537", "18446744073709551617", "38:5:1", "?1",
];

/// Fields before an odd one.
#[rustfmt::skip]
const FRONTS: [&str; 10] = [
    "", "1;", "0;", "38;", "48;2;", "58;5;", "38;2;1;2;", "038;05;", "48;02;", "1;3;31;",
];

#[test]
fn odd_fields_are_read_as_defined() {
    let mut tally = Tally::default();
    for front in FRONTS {
        for field in ODD_FIELDS {
            expect_parameters(&mut tally, &format!("{front}{field}"));
            expect_parameters(&mut tally, &format!("{front}{field};4;5;3"));
        }
    }
    assert_eq!(tally.0, 10 * 13 * 2 * 18);
}
