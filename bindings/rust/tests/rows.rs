//! Passes the rows of texts and results, which `rows/README.md` describes.

use ansi_str::columns::{edit_columns, Alignment, AnsiColumns, ColumnEdit, Side, Truncation, Wrap};
use ansi_str::restyle::{refused_range, AnsiLink, AnsiRestyle, Replacement};
use ansi_str::safe::{sanitize_bytes, AnsiSafe, Links, Policy, Rest};
use ansi_str::{
    edit, get_blocks, is_whole, part, pen_after, AnsiBlock, AnsiStr, Color, Edit, Style,
};
use std::borrow::Cow;
use std::cmp::Ordering;
use std::collections::BTreeMap;
use std::ops::Range;

const ROWS: &str = include_str!("../../../crates/ansi_rows/stdin");

/// The calls that this crate doesn't have.
const LACKING: [&str; 2] = ["part_interval", "items"];

/// The bytes of a text, which begins with `x`.
fn bytes_of(field: &str) -> Vec<u8> {
    let mut bytes = Vec::new();
    for piece in field[1..].split('+') {
        let (count, digits) = piece.split_once('*').unwrap_or(("1", piece));
        let byte_of = |at| u8::from_str_radix(&digits[at..at + 2], 16).expect("two digits");
        let once: Vec<u8> = (0..digits.len()).step_by(2).map(byte_of).collect();
        bytes.extend(once.repeat(number(count)));
    }
    bytes
}

/// A field: a text, or another one as it is. `None` for a text that isn't UTF-8.
fn field_of(field: &str) -> Option<String> {
    if field.starts_with('x') {
        String::from_utf8(bytes_of(field)).ok()
    } else {
        Some(field.to_string())
    }
}

fn number(field: &str) -> usize {
    field.parse().expect("a number")
}

/// A color as a row has it: a kind and four numbers.
fn color_of(field: &str) -> Option<Color> {
    const NAMES: [Color; 18] = [
        Color::Black,
        Color::BrightBlack,
        Color::Red,
        Color::BrightRed,
        Color::Green,
        Color::BrightGreen,
        Color::Yellow,
        Color::BrightYellow,
        Color::Blue,
        Color::BrightBlue,
        Color::Purple,
        Color::BrightPurple,
        Color::Magenta,
        Color::BrightMagenta,
        Color::Cyan,
        Color::BrightCyan,
        Color::White,
        Color::BrightWhite,
    ];
    let parts: Vec<u8> = field
        .split(',')
        .map(|part| part.parse().expect("a byte"))
        .collect();
    match parts[0] {
        0 => None,
        19 => Some(Color::Fixed(parts[1])),
        20 => Some(Color::Rgb(parts[2], parts[3], parts[4])),
        kind => Some(NAMES[usize::from(kind) - 1]),
    }
}

/// The attributes of a style, one bit each.
fn attributes_of(style: &ansi_str::Style) -> usize {
    let set = [
        style.is_bold(),
        style.is_faint(),
        style.is_italic(),
        style.is_underline(),
        style.is_slow_blink(),
        style.is_rapid_blink(),
        style.is_inverse(),
        style.is_hide(),
        style.is_crossedout(),
        style.is_fraktur(),
    ];
    set.iter()
        .enumerate()
        .map(|(bit, is_set)| usize::from(*is_set) << bit)
        .sum()
}

/// What a row says of a block: its text, the attributes and colors of its style, and whether that has something to close.
fn is_block(block: &AnsiBlock<'_>, want: &[String]) -> bool {
    block.text() == want[0]
        && attributes_of(block.style()) == number(&want[1])
        && block.style().foreground() == color_of(&want[2])
        && block.style().background() == color_of(&want[3])
        && block.has_ansi() == (want[4] == "1")
}

/// The same with the sequences around its text.
fn is_styled_block(block: &AnsiBlock<'_>, want: &[String]) -> bool {
    let style = block.style();
    style.start().to_string() == want[0]
        && block.text() == want[1]
        && style.end().to_string() == want[2]
}

fn alignment_of(word: &str) -> Alignment {
    match word {
        "Left" => Alignment::Left,
        "Center" => Alignment::Center,
        "Right" => Alignment::Right,
        _ => panic!("no alignment: {word}"),
    }
}

fn side_of(word: &str) -> Side {
    match word {
        "End" => Side::End,
        "Start" => Side::Start,
        "Middle" => Side::Middle,
        _ => panic!("no side: {word}"),
    }
}

fn rest_of(word: &str) -> Rest {
    match word {
        "Drop" => Rest::Drop,
        "Show" => Rest::Show,
        _ => panic!("no policy: {word}"),
    }
}

fn links_of(word: &str) -> Links {
    match word {
        "Keep" => Links::Keep,
        "Remove" => Links::Remove,
        _ => panic!("no choice about links: {word}"),
    }
}

/// A range of a row: two numbers with a comma between.
fn range_of(field: &String) -> Range<usize> {
    let (start, end) = field.split_once(',').expect("a range");
    number(start)..number(end)
}

/// An edit of a row: its kind, two numbers and a pattern. `None` if it has none of the kinds that there are.
fn edit_of(fields: &[String]) -> Option<Edit<'_>> {
    let (first, second, pat) = (number(&fields[1]), number(&fields[2]), &*fields[3]);
    Some(match &*fields[0] {
        "0" => Edit::Cut {
            start: first,
            end: (second < usize::MAX).then_some(second),
        },
        "1" => Edit::Left(first),
        "2" => Edit::Right(first),
        "3" => Edit::Part { pat, index: first },
        "4" => Edit::Prefix(pat),
        "5" => Edit::Suffix(pat),
        "6" => Edit::Trim,
        _ => return None,
    })
}

/// A replacement of a row: where its range begins and ends, and the text in its place.
fn replacement_of(fields: &[String]) -> Replacement<'_> {
    Replacement {
        range: number(&fields[0])..number(&fields[1]),
        with: &fields[2],
    }
}

/// An edit by columns of a row: its kind, its alignment or side, two numbers and a tail. `None` if it has none of those that
/// there are.
fn column_edit_of(fields: &[String]) -> Option<ColumnEdit<'_>> {
    let (place, width, end) = (number(&fields[1]), number(&fields[2]), number(&fields[3]));
    let alignment = [Alignment::Left, Alignment::Center, Alignment::Right];
    let side = [Side::End, Side::Start, Side::Middle];
    let tail = &*fields[4];
    Some(match &*fields[0] {
        "0" => ColumnEdit::Expand(width),
        "1" => ColumnEdit::Slice {
            start: width,
            end: (end < usize::MAX).then_some(end),
        },
        "2" => ColumnEdit::Truncate {
            width,
            tail,
            side: *side.get(place)?,
        },
        "3" => ColumnEdit::Pad {
            width,
            alignment: *alignment.get(place)?,
        },
        "4" => ColumnEdit::Fit {
            width,
            alignment: *alignment.get(place)?,
            tail,
        },
        _ => return None,
    })
}

/// What a row says of the order of two styles, if equality agrees with it.
fn order_of(style: &ansi_str::Style, other: &ansi_str::Style) -> Option<&'static str> {
    let order = style.cmp(other);
    let agrees = style.partial_cmp(other) == Some(order) && (style == other) == order.is_eq();
    agrees.then_some(match order {
        Ordering::Less => "less",
        Ordering::Equal => "equal",
        Ordering::Greater => "greater",
    })
}

/// Makes the call of a row with these fields. `None` if this crate doesn't have it, and else whether it returns what the row says.
fn pass(call: &str, status: &str, want: &str, text: &str, more: &[String]) -> Option<bool> {
    let is_ok = status == "0";
    let answer = is_ok.then_some(want);
    let is = |got: Option<Cow<'_, str>>| got.as_deref() == answer;
    let is_number = |got: usize| got == number(want);
    let are = |got: Vec<Cow<'_, str>>| got == more[1..] && is_number(got.len());
    let position = |index: usize| number(&more[index]);
    let block = || get_blocks(text).nth(position(0));
    Some(match call {
        "strip" => is(Some(text.ansi_strip())),
        "trim" => is(Some(text.ansi_trim())),
        "cut" => is(text.ansi_get(position(0)..position(1))),
        "left" | "right" if !is_ok => text.ansi_get(position(0)..).is_none(),
        "left" => is(Some(text.ansi_split_at(position(0)).0)),
        "right" => is(Some(text.ansi_split_at(position(0)).1)),
        "part" => is(part(text, &more[0], position(1))),
        "edit" => match more.chunks(4).map(edit_of).collect::<Option<Vec<_>>>() {
            Some(edits) => is(edit(text, &edits)),
            None => return None,
        },
        "edit_columns" => {
            let edits: Option<Vec<_>> = more.chunks(5).map(column_edit_of).collect();
            is(Some(edit_columns(text, &edits?)))
        }
        "is_whole" => is_whole(text) == is_ok,
        "split_at" => {
            let (left, right) = text.ansi_split_at(position(0));
            are(vec![left, right])
        }
        "strip_prefix" => is(text.ansi_strip_prefix(&more[0])),
        "strip_suffix" => is(text.ansi_strip_suffix(&more[0])),
        "find" => text.ansi_find(&more[0]) == answer.map(number),
        "starts_with" => text.ansi_starts_with(&more[0]) == is_ok,
        "ends_with" => text.ansi_ends_with(&more[0]) == is_ok,
        "is_char_boundary" => text.ansi_is_char_boundary(position(0)) == is_ok,
        "floor_char_boundary" => is_number(text.ansi_floor_char_boundary(position(0))),
        "has_any" => text.ansi_has_any() == is_ok,
        "split" => are(text.ansi_split(&more[0]).collect()),
        "count_parts" => is_number(text.ansi_split(&more[0]).count()),
        "blocks" => {
            let blocks: Vec<_> = get_blocks(text).collect();
            is_number(blocks.len())
                && blocks
                    .iter()
                    .zip(more.chunks(5))
                    .all(|(block, want)| is_block(block, want))
        }
        "styled_blocks" => {
            let blocks: Vec<_> = get_blocks(text).collect();
            let mut pairs = blocks.iter().zip(more.chunks(3));
            is_number(blocks.len()) && pairs.all(|(block, want)| is_styled_block(block, want))
        }
        "count_blocks" => is_number(get_blocks(text).count()),
        "block" => is(block().map(|block| block.text().to_string().into())),
        "block_start" => is(block().map(|block| block.style().start().to_string().into())),
        "block_end" => is(block().map(|block| block.style().end().to_string().into())),
        "block_order" => {
            let other = get_blocks(&more[1]).next().expect("another block");
            block().and_then(|block| order_of(block.style(), other.style())) == answer
        }
        "width" => is_number(text.ansi_width()),
        "fitting" => is_number(text.ansi_fitting(position(0))),
        "column_of" => text.ansi_column_of(position(0)) == answer.map(number),
        "front" => is(Some(text.ansi_cut(..text.ansi_fitting(position(0))))),
        "truncate" => is(Some(text.ansi_truncate(position(0), &more[1]))),
        "pad" => is(Some(text.ansi_pad(position(0), alignment_of(&more[1])))),
        "fit" => {
            let alignment = alignment_of(&more[1]);
            is(Some(text.ansi_fit(position(0), alignment, &more[2])))
        }
        "truncate_with" => {
            let to = Truncation::to(position(0)).tail(&more[1]);
            is(Some(text.ansi_truncate_with(&to.side(side_of(&more[2])))))
        }
        "slice" => is(Some(text.ansi_slice(position(0)..position(1)))),
        "expand_tabs" => is(Some(text.ansi_expand_tabs(position(0)))),
        "wrap" => are(text.ansi_wrap(position(0)).map(Cow::from).collect()),
        "wrap_with" => {
            let to = Wrap::at(position(0)).first_indent(&more[1]);
            let lines = text.ansi_wrap_with(&to.indent(&more[2]));
            is_number(lines.len()) && lines.eq(more[3..].iter().cloned())
        }
        "lines" => {
            let lines = text.ansi_lines(position(0)).collect::<Vec<_>>();
            let interval_of = |line: &Range<usize>| format!("{},{}", line.start, line.end);
            is_number(lines.len()) && lines.iter().map(interval_of).eq(more[1..].iter().cloned())
        }
        "link_at" => text.ansi_link_at(position(0)).as_deref() == answer,
        "matches" => {
            let matches = text.ansi_matches(&more[0]);
            is_number(matches.len()) && matches.eq(more[1..].iter().map(range_of))
        }
        "find_from" => text.ansi_find_from(position(0), &more[1]) == answer.map(number),
        "restyle" => {
            let ranges: Vec<_> = more[1..].iter().map(range_of).collect();
            is(text.ansi_restyle(&ranges, &more[0]))
        }
        "refused_range" => {
            let ranges: Vec<_> = more.iter().map(range_of).collect();
            refused_range(text, &ranges) == answer.map(number)
        }
        "mark" => is(text.ansi_mark(&more[0], &more[1])),
        "remove" => is(text.ansi_remove(position(0)..position(1))),
        "replace" => is(text.ansi_replace(position(0)..position(1), &more[2])),
        "insert" => is(text.ansi_insert(position(0), &more[1])),
        "replace_all" => is(Some(text.ansi_replace_all(&more[0], &more[1]))),
        "replace_each" => {
            let edits: Vec<_> = more.chunks(3).map(replacement_of).collect();
            is(text.ansi_replace_each(&edits))
        }
        "link" => is(text.ansi_link(position(0)..position(1), &more[2])),
        "unlink" => is(Some(text.ansi_unlink())),
        "links" => {
            let links = text.ansi_links();
            let is_row = |(link, row): (AnsiLink, &[String])| {
                link.range == range_of(&row[0]) && link.address == row[1]
            };
            is_number(links.len()) && links.zip(more.chunks(2)).all(is_row)
        }
        "sanitize" => {
            let (rest, links) = (rest_of(&more[0]), links_of(&more[1]));
            is(Some(text.ansi_sanitize(Policy { rest, links })))
        }
        "is_safe" => text.ansi_is_safe(links_of(&more[0])) == is_ok,
        "pen_after" => {
            let pen = pen_after(text);
            more == [pen.start(), pen.link().unwrap_or(""), pen.end()]
        }
        "style_of" => is_style(Style::of(text), more),
        "union" => is_style(combined(Style::union, text, &more[0]), &more[1..]),
        "difference" => is_style(combined(Style::difference, text, &more[0]), &more[1..]),
        _ if LACKING.contains(&call) => return None,
        _ => panic!("no call of a row: {call}"),
    })
}

/// What a call makes of two styles by their codes.
fn combined(combine: fn(&Style, &Style) -> Style, first: &str, second: &str) -> Option<Style> {
    Some(combine(&Style::of(first)?, &Style::of(second)?))
}

/// Whether a row has what sets a style and what closes it. If there is no style, it has nothing.
fn is_style(style: Option<Style>, row: &[String]) -> bool {
    let sequences = style.map(|style| vec![style.start().to_string(), style.end().to_string()]);
    sequences.unwrap_or_default() == row
}

/// Makes the call of a row whose text is any bytes. `None` if the row is of another call, and else whether it returns what
/// the row says.
fn pass_bytes(row: &str) -> Option<bool> {
    let fields: Vec<&str> = row.split(' ').collect();
    match fields[..] {
        [_memory, _borrows, "sanitize_bytes", "0", want, bytes, rest, links] => {
            let word_of = |field| field_of(field).expect("a word");
            let (rest, links) = (rest_of(&word_of(rest)), links_of(&word_of(links)));
            let bytes = bytes_of(bytes);
            let safe = sanitize_bytes(&bytes, Policy { rest, links });
            Some(safe.as_bytes() == bytes_of(want))
        }
        _ => None,
    }
}

#[test]
fn rows_pass() {
    let mut passed = 0;
    let mut passed_over = BTreeMap::new();
    let rows = (1..).zip(ROWS.lines());
    for (number, row) in rows.filter(|(_, row)| !row.is_empty()) {
        if let Some(is_as_said) = pass_bytes(row) {
            assert!(is_as_said, "line {number}: {row}");
            passed += 1;
            continue;
        }
        let fields: Option<Vec<String>> = row.split(' ').map(field_of).collect();
        let (call, made) = match fields.as_deref() {
            Some([_memory, _borrows, call, status, want, text, more @ ..]) => {
                (call.as_str(), pass(call, status, want, text, more))
            }
            Some(_) => panic!("line {number}: no row"),
            // a row with a text that isn't UTF-8 can't be asked for in Rust
            None => ("not UTF-8", None),
        };
        match made {
            Some(is_as_said) => {
                assert!(is_as_said, "line {number}: {fields:?}");
                passed += 1;
            }
            None => *passed_over.entry(call.to_string()).or_insert(0) += 1,
        }
    }
    println!("\nrows in Rust: {passed} passed; passed over: {passed_over:?}");
}

#[test]
fn what_is_a_front_of_the_text_is_a_borrow() {
    for text in ["abc", "\x1b[1mabc\x1b[0m"] {
        assert!(matches!(text.ansi_truncate(3, "…"), Cow::Borrowed(_)));
        assert!(matches!(
            text.ansi_pad(2, Alignment::Right),
            Cow::Borrowed(_)
        ));
        assert!(matches!(text.ansi_pad(4, Alignment::Right), Cow::Owned(_)));
    }
    assert!(matches!("abc".ansi_truncate(2, ""), Cow::Borrowed("ab")));
    assert!(matches!("abc".ansi_slice(..=1), Cow::Borrowed("ab")));
    assert!(matches!("abc".ansi_slice(1..), Cow::Owned(_)));
    assert!(matches!("abc".ansi_expand_tabs(8), Cow::Borrowed("abc")));
}

#[test]
fn what_no_range_changes_is_a_borrow() {
    for text in ["abc", "\x1b[1mabc\x1b[0m"] {
        let restyled = |start, end| text.ansi_restyle(&[0..0, start..end], "1");
        assert!(matches!(restyled(3, 3), Some(Cow::Borrowed(_))));
        assert!(matches!(restyled(1, 3), Some(Cow::Owned(_))));
        assert!(matches!(text.ansi_mark("d", "1"), Some(Cow::Borrowed(_))));
        assert!(matches!(text.ansi_mark("", "1"), Some(Cow::Borrowed(_))));
        assert!(matches!(text.ansi_mark("a", ""), Some(Cow::Owned(_))));
        assert!(matches!(text.ansi_remove(3..3), Some(Cow::Borrowed(_))));
        assert!(matches!(text.ansi_remove(0..1), Some(Cow::Owned(_))));
        assert!(matches!(
            text.ansi_replace(3..3, ""),
            Some(Cow::Borrowed(_))
        ));
        assert!(matches!(text.ansi_replace(0..1, "a"), Some(Cow::Owned(_))));
        assert!(matches!(text.ansi_insert(3, ""), Some(Cow::Borrowed(_))));
        assert!(matches!(text.ansi_insert(3, "d"), Some(Cow::Owned(_))));
        assert!(matches!(text.ansi_replace_all("d", "e"), Cow::Borrowed(_)));
        assert!(matches!(text.ansi_replace_all("a", "a"), Cow::Owned(_)));
        let edit = |range, with| Replacement { range, with };
        let nothing = [edit(0..0, ""), edit(3..3, "")];
        assert!(matches!(
            text.ansi_replace_each(&nothing),
            Some(Cow::Borrowed(_))
        ));
        assert!(matches!(
            text.ansi_replace_each(&[edit(0..1, "a")]),
            Some(Cow::Owned(_))
        ));
        assert!(matches!(text.ansi_link(3..3, "u"), Some(Cow::Borrowed(_))));
        assert!(matches!(text.ansi_link(0..3, "u"), Some(Cow::Owned(_))));
        assert!(matches!(text.ansi_unlink(), Cow::Borrowed(_)));
        assert_eq!(text.ansi_matches("").len(), 4);
    }
    let many = "\x1b[1mab".repeat(1000);
    assert_eq!(many.ansi_matches("ab").nth(999), Some(1998..2000));
    let many = "\x1b]8;;http://x\x1b\\a".repeat(1000);
    let last = many.ansi_links().nth(999).expect("a thousand links");
    assert_eq!((last.range, &*last.address), (999..1000, "http://x"));
}

#[test]
fn a_safe_text_with_nothing_open_is_a_borrow() {
    let policy = Policy {
        rest: Rest::Drop,
        links: Links::Remove,
    };
    let borrowed = |text: &'static str| matches!(text.ansi_sanitize(policy), Cow::Borrowed(_));
    assert!(borrowed("abc\n") && borrowed("\x1b[1mabc\x1b[0m"));
    assert!(!borrowed("abc\r") && !borrowed("\x1b[1mabc"));
    let borrowed = |bytes| matches!(sanitize_bytes(bytes, policy), Cow::Borrowed(_));
    assert!(borrowed(b"abc\n") && borrowed("\u{e9}\x1b[1mabc\x1b[0m".as_bytes()));
    assert!(!borrowed(b"abc\r") && !borrowed(b"\xe9") && !borrowed(b"\x1b[1mabc"));
}
