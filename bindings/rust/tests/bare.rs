//! Texts without ESC, which std alone handles: `bindings/test` runs this over a library each of whose calls stops the program.

use ansi_str::{edit, get_blocks, is_whole, part, pen_after, AnsiStr, Edit};
use std::borrow::Cow;

const TEXTS: [&str; 5] = ["", "a", " b\u{e9}ta, beta\n", "\u{2003}", "m[31m"];
const PATTERNS: [&str; 5] = ["", "a", "\u{e9}ta", "\x1b", "m[31mm"];

#[test]
fn a_position_is_that_of_std() {
    for text in TEXTS {
        for index in (0..text.len() + 3).chain([usize::MAX]) {
            let within = index.min(text.len());
            let is_boundary = text.is_char_boundary(within);
            assert_eq!(
                text.ansi_is_char_boundary(index),
                text.is_char_boundary(index)
            );
            let floor = (0..=within).rfind(|place| text.is_char_boundary(*place));
            assert_eq!(Some(text.ansi_floor_char_boundary(index)), floor);
            assert_eq!(text.ansi_get(index..).as_deref(), text.get(within..));
            assert_eq!(text.ansi_get(..index).as_deref(), text.get(..within));
            for (edits, wanted) in [
                ([Edit::Left(index)], text.get(..within)),
                ([Edit::Right(index)], text.get(within..)),
            ] {
                assert_eq!(edit(text, &edits).as_deref(), wanted);
            }
            for end in (0..text.len() + 3).map(Some).chain([None]) {
                let cut = edit(text, &[Edit::Cut { start: index, end }]);
                assert_eq!(cut, text.ansi_get(index..end.unwrap_or(usize::MAX)));
            }
            if is_boundary {
                let (left, right) = text.ansi_split_at(index);
                assert_eq!((&*left, &*right), text.split_at(within));
            }
        }
    }
}

#[test]
fn a_search_is_that_of_std() {
    for text in TEXTS {
        for pat in PATTERNS {
            assert_eq!(text.ansi_find(pat), text.find(pat));
            assert_eq!(text.ansi_starts_with(pat), text.starts_with(pat));
            assert_eq!(text.ansi_ends_with(pat), text.ends_with(pat));
            assert_eq!(
                text.ansi_strip_prefix(pat).as_deref(),
                text.strip_prefix(pat)
            );
            assert_eq!(
                text.ansi_strip_suffix(pat).as_deref(),
                text.strip_suffix(pat)
            );
            assert!(text.ansi_split(pat).eq(text.split(pat)));
            for index in 0..=text.len() + 2 {
                let wanted = text.split(pat).nth(index);
                assert_eq!(part(text, pat, index).as_deref(), wanted);
                let by_edit = edit(text, &[Edit::Part { pat, index }]);
                assert_eq!(by_edit.as_deref(), wanted);
            }
            assert_eq!(
                edit(text, &[Edit::Prefix(pat), Edit::Suffix(pat), Edit::Trim]).as_deref(),
                text.strip_prefix(pat)
                    .and_then(|text| text.strip_suffix(pat))
                    .map(str::trim)
            );
        }
    }
}

#[test]
fn all_of_a_text_is_one_block_without_a_style() {
    for text in TEXTS {
        assert!(!text.ansi_has_any() && is_whole(text));
        assert!(matches!(edit(text, &[Edit::Trim]), Some(Cow::Borrowed(_))));
        assert_eq!(edit(text, &[]).as_deref(), Some(text));
        assert_eq!(
            (&*text.ansi_strip(), &*text.ansi_trim()),
            (text, text.trim())
        );
        let pen = pen_after(text);
        assert_eq!((pen.link(), pen.start(), pen.end()), (None, "", ""));
        let blocks: Vec<_> = get_blocks(text).collect();
        assert_eq!(blocks.len(), usize::from(!text.is_empty()));
        for block in blocks {
            assert_eq!((block.text(), block.has_ansi()), (text, false));
            assert_eq!((block.run(), block.link()), (text, None));
            let style = block.style();
            assert_eq!((style.foreground(), style.background()), (None, None));
            assert_eq!(style.start().to_string() + &style.end().to_string(), "");
        }
    }
}

#[test]
fn a_start_without_escapes_is_enough_for_a_prefix() {
    let text = "ab\u{e9}\x1b[1md";
    assert!(text.ansi_starts_with("ab\u{e9}"));
    assert!(!text.ansi_starts_with("abc"));
    assert!(text.ansi_is_char_boundary(2));
    assert!(!text.ansi_is_char_boundary(3));
    assert_eq!(text.ansi_floor_char_boundary(3), 2);
}
