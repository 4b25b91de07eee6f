//! Styles compare by all their parts.

use ansi_str::{get_blocks, Color, Style};
use std::collections::hash_map::DefaultHasher;
use std::hash::{Hash, Hasher};

/// Codes of each kind: attributes in the order in which they count, colors, fonts, a reset, and one that isn't known.
#[rustfmt::skip]
const CODES: [&str; 20] = [
    "31", "32", "91", "38;5;1", "38;2;1;1;1", "41", "58;5;1", "1", "9", "0", "51", "12", "13", "20", "53", "60", "73", "74", "99", "22",
];

fn style_after(sequences: &str) -> Style {
    let text = format!("{sequences}x");
    let block = get_blocks(&text).last().expect("a block");
    *block.style()
}

/// The styles after each two of these codes.
fn styles() -> Vec<Style> {
    let pairs = CODES
        .iter()
        .flat_map(|first| CODES.iter().map(move |second| (first, second)));
    pairs
        .map(|(first, second)| style_after(&format!("\x1b[{first}m\x1b[{second}m")))
        .collect()
}

fn printed(style: &Style) -> [String; 2] {
    [style.start().to_string(), style.end().to_string()]
}

fn hash_of(style: &Style) -> u64 {
    let mut hasher = DefaultHasher::new();
    style.hash(&mut hasher);
    hasher.finish()
}

#[test]
fn styles_that_print_differently_differ() {
    let red = style_after("\x1b[31m");
    let unknown = style_after("\x1b[31m\x1b[99m");
    assert_eq!(printed(&red), ["\x1b[31m", "\x1b[39m"]);
    assert_eq!(printed(&unknown), ["\x1b[31m", "\x1b[39m\x1b[0m"]);
    assert!(red < unknown && red != unknown);
    let styles = styles();
    for one in &styles {
        for other in &styles {
            assert!(one != other || printed(one) == printed(other));
            assert!(one != other || hash_of(one) == hash_of(other));
            assert_eq!(one == other, one.cmp(other).is_eq());
            assert_eq!(one.cmp(other), other.cmp(one).reverse());
        }
    }
}

#[test]
fn a_reset_counts() {
    let (bold, reset) = (style_after("\x1b[1m"), style_after("\x1b[0;1m"));
    assert_eq!(printed(&bold), printed(&reset));
    assert!(bold < reset);
}

#[test]
fn marks_are_those_of_the_first() {
    let [marked, other] = ["0;99;1", "0;99;3"].map(|codes| Style::of(codes).unwrap());
    let [bold, plain] = ["\x1b[1m", ""].map(style_after);
    assert_eq!(marked, style_after("\x1b[0;99;1m"));
    assert_eq!(marked.union(&bold), marked);
    assert_eq!(bold.union(&other), style_after("\x1b[1;3m"));
    assert_eq!(marked.difference(&other), marked);
    assert_eq!(bold.difference(&marked), plain);
}

#[test]
fn a_style_tells_its_codes() {
    let style = style_after("\x1b[3;1m\x1b[34;58;2;1;2;3m\x1b[12;45m");
    assert_eq!(style.codes(), "1;3;12;34;45;58;2;1;2;3");
    assert_eq!(style_after(&format!("\x1b[{}m", style.codes())), style);
    assert_eq!(style.underline_color(), Some(Color::Rgb(1, 2, 3)));
    assert_eq!(style.font(), Some(12));
    let plain = style_after("");
    assert_eq!(
        (
            plain.codes().as_str(),
            plain.underline_color(),
            plain.font()
        ),
        ("", None, None)
    );
    for codes in ["1", "19", "21", "74", "107", "38;5;0", "58;5;255"] {
        assert_eq!(style_after(&format!("\x1b[{codes}m")).codes(), codes);
    }
}
