//! Which results are borrows, and which types have the calls.

use ansi_str::{get_blocks, pen_after, AnsiBlock, AnsiSequenceEnd, AnsiStr};
use std::borrow::Cow;

fn is_borrow(text: &Cow<'_, str>) -> bool {
    matches!(text, Cow::Borrowed(_))
}

#[test]
fn a_text_without_escapes_gives_borrows() {
    let text = String::from(" 21é3 ");
    assert!(is_borrow(&text.ansi_strip()));
    assert!(is_borrow(&text.ansi_cut(1..=4)));
    assert!(is_borrow(&text.ansi_trim()));
    assert!(text.ansi_split("1").all(|part| is_borrow(&part)));
    assert!(is_borrow(&text.ansi_split_at(100).0));
    assert!(is_borrow(&text.ansi_strip_prefix(" 2").unwrap()));
    assert_eq!(text.ansi_cut(20..), "");
    assert_eq!(text.ansi_get(4..1), None);
    assert_eq!(text.ansi_get(4..5), None);
}

#[test]
fn an_empty_prefix_takes_nothing_off() {
    let text = "\x1b[1mé\x1b[0m";
    assert_eq!(text.ansi_strip_prefix(""), Some(Cow::Borrowed(text)));
    assert!(is_borrow(&text.ansi_strip_suffix("").unwrap()));
    assert!(!is_borrow(&text.ansi_strip()));
    assert_eq!(text.ansi_strip_prefix("e"), None);
}

#[test]
fn calls_follow_on_calls() {
    let text = "\x1b[30mTEXT\x1b[39m";
    assert_eq!(text.ansi_cut(1..3).ansi_strip(), "EX");
    assert_eq!(
        text.ansi_cut((std::ops::Bound::Excluded(0), std::ops::Bound::Included(2))),
        "\x1b[30mEX\x1b[39m"
    );
}

#[test]
fn blocks_have_styles() {
    let blocks: Vec<_> = get_blocks("\x1b[31mred\x1b[39m \x1b[31mred\x1b[0;31mred").collect();
    assert_eq!(blocks[0], blocks[2]);
    assert_ne!(blocks[0], blocks[1]);
    assert_ne!(blocks[2], blocks[3]);
    assert_eq!(blocks[0].style().start().to_string(), "\x1b[31m");
    assert_eq!(blocks[0].style().end().to_string(), "\x1b[39m");
    assert!(!blocks[1].has_ansi());
    assert_eq!(AnsiSequenceEnd::RESET_ALL, "\x1b[0m");
}

#[test]
fn blocks_have_links_and_runs() {
    fn told(text: &str) -> Vec<(String, Option<String>)> {
        let owned =
            |block: AnsiBlock<'_>| (block.run().to_owned(), block.link().map(str::to_owned));
        get_blocks(text).map(owned).collect()
    }
    fn want(runs: &[(&str, Option<&str>)]) -> Vec<(String, Option<String>)> {
        let owned = |(run, link): &(&str, Option<&str>)| (run.to_string(), link.map(str::to_owned));
        runs.iter().map(owned).collect()
    }
    let (opened, closed, x) = (
        "\x1b]8;id=1;http://x\x1b\\",
        "\x1b]8;;\x07",
        Some("http://x"),
    );
    assert_eq!(
        told(&format!("a{opened}b\x1b[1mc{closed}d")),
        want(&[("a", None), ("b", x), ("c", x), ("d", None)])
    );
    // another sequence, and one that only begins as a link does, leave a link open; one link may follow another
    assert_eq!(
        told(&format!("{opened}a\x1b[2Jb\x1b]8;c\x1b\\d\x1b]8;;-\x07e")),
        want(&[("a", x), ("b", x), ("d", x), ("e", Some("-"))])
    );
    assert_eq!(
        told(&format!("{opened}{closed}a{opened}")),
        want(&[("a", None)])
    );
    // what follows a lone ESC is text
    assert_eq!(told("\x1b\x1b[1m[2Ja"), want(&[("[2Ja", None)]));
    assert_eq!(told("plain"), want(&[("plain", None)]));
    // blocks compare by text and style
    let linked = format!("a\x1b[1m{opened}b\x1b[22ma");
    let blocks: Vec<_> = get_blocks(&linked).collect();
    assert_eq!((blocks[0].link(), blocks[2].link()), (None, x));
    assert_eq!(blocks[0], blocks[2]);
}

#[test]
fn the_pen_after_a_text() {
    let (link, link_end) = ("\x1b]8;id=1;http://x\x1b\\", "\x1b]8;;\x1b\\");
    let pen = pen_after(&format!("\x1b[1;31mred {link}li"));
    assert!(pen.style().is_bold());
    assert_eq!(pen.link(), Some("http://x"));
    assert_eq!(pen.start(), format!("\x1b[1m\x1b[31m{link}"));
    assert_eq!(pen.end(), format!("{link_end}\x1b[22m\x1b[39m"));
    let ended = format!("{link}a{link_end}");
    for text in [
        "",
        "plain",
        "\x1b[31mred\x1b[0m",
        &ended,
        "\x1b[2J\x1b",
        "a\x1b[3",
        "a\x1b]8;;http://x",
    ] {
        let pen = pen_after(text);
        assert_eq!(
            (pen.link(), pen.start(), pen.end()),
            (None, "", ""),
            "{text:?}"
        );
    }
    // each line sets what is open before it, and closes what it leaves open
    let text = format!("\x1b[31mone {link}two\n\nthree{link_end} four\nfive\x1b[m\nsix");
    let mut start = String::new();
    let mut carried = Vec::new();
    for line in text.split('\n') {
        let line = start + line;
        let pen = pen_after(&line);
        carried.push(line + pen.end());
        start = pen.start().to_owned();
    }
    assert_eq!(
        carried,
        [
            &format!("\x1b[31mone {link}two{link_end}\x1b[39m"),
            &format!("\x1b[31m{link}{link_end}\x1b[39m"),
            &format!("\x1b[31m{link}three{link_end} four\x1b[39m"),
            "\x1b[31mfive\x1b[m",
            "six"
        ]
    );
    // a link that isn't printable ASCII is closed, and not opened again; nor is what an unknown code sets
    let pen = pen_after("\x1b]8;;\u{e9}\x07a");
    assert_eq!(
        (pen.link(), pen.start(), pen.end()),
        (Some("\u{e9}"), "", link_end)
    );
    let pen = pen_after("\x1b[4:3ma");
    assert_eq!((pen.start(), pen.end()), ("", "\x1b[0m"));
}

#[test]
fn an_answer_keeps_little_more_room_than_it_needs() {
    for count in [1, 200, 100_000] {
        let text = "\x1b[1mlong\x1b[0m text ".repeat(count);
        for answer in [
            text.ansi_cut(..3),
            text.ansi_strip(),
            text.ansi_split_at(20).0,
        ] {
            let answer = answer.into_owned();
            assert!(answer.capacity() <= 2 * answer.len() + 1);
        }
    }
}

#[test]
fn iterators_pass_between_threads() {
    fn may_be_shared<T: Send + Sync + Clone>(_: &T) {}
    let text = "\x1b[1ma,b";
    let (mut parts, blocks) = (text.ansi_split(","), get_blocks(text));
    may_be_shared(&parts);
    may_be_shared(&blocks);
    for block in blocks.clone() {
        may_be_shared(&block);
        may_be_shared(block.style());
    }
    // a copy goes on by itself
    assert!(parts.clone().eq(["\x1b[1ma\x1b[22m", "\x1b[1mb\x1b[22m"]));
    std::thread::scope(|scope| {
        scope.spawn(|| {
            assert_eq!(
                (parts.next().unwrap(), blocks.count()),
                (Cow::from("\x1b[1ma\x1b[22m"), 1)
            )
        });
    });
}
