//! Cases in which the results differ from those of the crate `ansi-str`, as docs/DIFFERENCES.md lists them.

use ansi_str::{get_blocks, AnsiStr};

#[test]
fn positions_count_from_the_front() {
    assert_eq!("TEXT".ansi_get(1..3).unwrap(), "EX");
    assert_eq!("TEXT".ansi_get(2..3).unwrap(), "X");
    assert_eq!("TEXT".ansi_get(..=usize::MAX).unwrap(), "TEXT");
    assert_eq!("TEXT".ansi_get(3..1), None);
    assert_eq!("TEXT".ansi_get(9..8), None);
}

#[test]
fn a_cut_keeps_the_sequences_before_the_text() {
    assert_eq!("\x1b[31mTEXT".ansi_get(..).unwrap(), "\x1b[31mTEXT\x1b[39m");
}

#[test]
fn a_prefix_and_a_suffix_are_met_across_sequences_and_no_further() {
    let text = "\x1b[31mab\x1b[39mcd";
    assert_eq!(text.ansi_strip_prefix("abc").unwrap(), "\x1b[31m\x1b[39md");
    assert_eq!(text.ansi_strip_suffix("bcd").unwrap(), "\x1b[31ma\x1b[39m");
    assert_eq!(text.ansi_strip_prefix("abcde"), None);
    assert_eq!(text.ansi_strip_suffix("zabcd"), None);
    assert_eq!(text.ansi_strip_prefix(text), None);
    assert_eq!(text.ansi_strip_suffix(text), None);
}

#[test]
fn blanks_before_a_sequence_are_trimmed() {
    assert_eq!("a \x1b[31m ".ansi_trim(), "a\x1b[31m");
}

#[test]
fn the_plain_text_is_split() {
    let parts: Vec<_> = "\x1b[31mamb\x1b[39m".ansi_split("m").collect();
    assert_eq!(parts, ["\x1b[31ma\x1b[39m", "\x1b[31mb\x1b[39m"]);
}

#[test]
fn an_empty_field_is_the_code_0_and_leading_zeros_change_nothing() {
    assert_eq!("\x1b[1m\x1b[ma".ansi_cut(..), "\x1b[1m\x1b[ma");
    assert!(get_blocks("\x1b[01mx").next().unwrap().style().is_bold());
}

#[test]
fn a_font_counts() {
    let block = get_blocks("\x1b[12mx").next().unwrap();
    assert!(block.has_ansi());
    assert_eq!(block.style().start().to_string(), "\x1b[12m");
}

#[test]
fn a_sequence_for_private_use_sets_no_style() {
    assert!(!get_blocks("\x1b[>4;2mx").next().unwrap().has_ansi());
}
