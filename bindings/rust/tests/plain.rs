//! Questions about a text are those of std about its plain text, on all texts of up to five of a few characters.

use ansi_str::{get_blocks, AnsiStr};

const CHARACTERS: [&str; 6] = ["\x1b", "[", "m", "1", "\u{e9}", "]"];
const PATTERNS: [&str; 6] = ["", "m", "1\u{e9}", "[m", "\u{e9}\u{e9}", "\x1b"];

fn expect_answers_of_std(text: &str) {
    let plain = text.ansi_strip();
    for pat in PATTERNS {
        assert_eq!(text.ansi_find(pat), plain.find(pat), "{text:?}");
        assert_eq!(
            text.ansi_starts_with(pat),
            plain.starts_with(pat),
            "{text:?}"
        );
        assert_eq!(text.ansi_ends_with(pat), plain.ends_with(pat), "{text:?}");
        assert_eq!(
            text.ansi_split(pat).count(),
            plain.split(pat).count(),
            "{text:?}"
        );
    }
    for index in 0..text.len() + 2 {
        let is_boundary = plain.is_char_boundary(index);
        assert_eq!(text.ansi_is_char_boundary(index), is_boundary, "{text:?}");
        let within = index.min(plain.len());
        let floor = (0..=within).rfind(|place| plain.is_char_boundary(*place));
        assert_eq!(
            Some(text.ansi_floor_char_boundary(index)),
            floor,
            "{text:?}"
        );
        let is_cut = text.ansi_get(..index).is_some();
        assert_eq!(is_cut, plain.is_char_boundary(within), "{text:?}");
    }
    let runs = text.matches('\x1b').count() + 1;
    assert!(get_blocks(text).count() <= runs, "{text:?}");
}

#[test]
fn answers_are_those_of_std() {
    let mut texts = vec![String::new()];
    for _ in 0..5 {
        for text in &texts {
            expect_answers_of_std(text);
        }
        texts = texts
            .iter()
            .flat_map(|text| CHARACTERS.map(|last| format!("{text}{last}")))
            .collect();
    }
    texts.iter().for_each(|text| expect_answers_of_std(text));
}
