//! Blocks: each run of a text with its style.

use crate::style::{expect_style, Style};
use crate::text::{Kind, Text};
use crate::{compare, Tally, STYLED_PIECES};
use ansi_str::get_blocks;
use std::mem;

/// The text and the style of each block.
fn blocks(text: &Text) -> Vec<(String, Style)> {
    let mut blocks = Vec::new();
    let mut style = Style::default();
    let mut waiting = String::new();
    for item in &text.items {
        match item.kind {
            Kind::Sgr => style.apply(item.parameters()),
            Kind::Run => blocks.push((mem::take(&mut waiting) + item.spelled, style.clone())),
            _ => waiting += item.spelled,
        }
    }
    blocks
}

/// Compares the blocks of a text.
pub fn expect_blocks(tally: &mut Tally, spelled: &str) {
    let mut got = get_blocks(spelled);
    for (text, style) in blocks(&Text::new(spelled)) {
        let block = got.next().expect("one more block");
        tally.expect(block.text(), &text, spelled);
        tally.expect(block.has_ansi(), style.has_any(), spelled);
        expect_style(tally, block.style(), &style, spelled);
    }
    tally.expect(got.next(), None, spelled);
}

#[test]
fn texts_have_the_blocks_that_are_defined() {
    assert_eq!(compare(&STYLED_PIECES, 4, expect_blocks), 2_323_573);
}
