//! The two sides of a position.

use crate::cut::is_good_position;
use crate::style::Style;
use crate::text::{Kind, Text};
use crate::{compare, Tally, STYLED_PIECES};
use ansi_str::AnsiStr;

/// A run between the start of its style and its close.
fn dressed(run: &str, style: &Style) -> String {
    if run.is_empty() {
        return String::new();
    }
    style.start() + run + &style.close()
}

/// The left side of a position and the right side.
pub fn sides(text: &Text, mid: usize) -> (String, String) {
    let (mut left, mut right) = (String::new(), String::new());
    let mut style = Style::default();
    for item in &text.items {
        match item.kind {
            Kind::Sgr => style.apply(item.parameters()),
            Kind::Run => {
                left += &dressed(item.between(&(0..mid)), &style);
                right += &dressed(item.between(&(mid..usize::MAX)), &style);
            }
            _ if item.place <= mid => left += item.spelled,
            _ => right += item.spelled,
        }
    }
    (left, right)
}

/// Compares the sides of each good position of a text.
fn expect_sides(tally: &mut Tally, spelled: &str) {
    let text = Text::new(spelled);
    for mid in (0..=text.plain.len() + 1).filter(|mid| is_good_position(&text.plain, *mid)) {
        let (left, right) = spelled.ansi_split_at(mid);
        let want = sides(&text, mid);
        tally.expect((&*left, &*right), (&want.0, &want.1), (mid, spelled));
    }
}

#[test]
fn texts_are_split_in_two_as_defined() {
    assert_eq!(compare(&STYLED_PIECES, 4, expect_sides), 602_368);
}
