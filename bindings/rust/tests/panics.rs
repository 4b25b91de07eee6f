//! What a bad position says, and where.

use ansi_str::AnsiStr;
use std::ops::{Bound, RangeBounds};
use std::panic;
use std::sync::Mutex;

static LAST: Mutex<String> = Mutex::new(String::new());

/// The file and the words of the panic of a call.
fn panic_of(call: impl FnOnce() + panic::UnwindSafe) -> String {
    assert!(panic::catch_unwind(call).is_err());
    LAST.lock().unwrap().clone()
}

fn cut<R: RangeBounds<usize> + panic::UnwindSafe>(text: &str, range: R) -> String {
    panic_of(|| {
        let _ = text.ansi_cut(range);
    })
}

// one test alone, since a hook is of all threads
#[test]
#[allow(clippy::reversed_empty_ranges)]
fn a_bad_position_is_named_as_it_is_written() {
    panic::set_hook(Box::new(|told| {
        let place = told.location().unwrap();
        let words = told.payload().downcast_ref::<String>().unwrap();
        *LAST.lock().unwrap() = format!("{}: {words}", place.file());
    }));
    for text in ["\x1b[1m\u{e9}t\u{e9}\x1b[0m", "\u{e9}t\u{e9}"] {
        let expect =
            |told: String, words: &str| assert_eq!(told, format!("tests/panics.rs: the {words}"));
        expect(
            cut(text, 1..),
            "range 1.. of the plain text begins inside a character",
        );
        expect(
            cut(text, 2..4),
            "range 2..4 of the plain text ends inside a character",
        );
        expect(
            cut(text, ..=0),
            "range ..=0 of the plain text ends inside a character",
        );
        expect(
            cut(text, 3..2),
            "range 3..2 of the plain text ends before it begins",
        );
        expect(
            cut(text, 9..8),
            "range 9..8 of the plain text ends before it begins",
        );
        expect(
            cut(text, (Bound::Excluded(0), Bound::Unbounded)),
            "range (Excluded(0), Unbounded) of the plain text begins inside a character",
        );
        let split = panic_of(|| {
            let _ = text.ansi_split_at(4);
        });
        expect(
            split,
            "position 4 lies inside a character of the plain text",
        );
    }
}
