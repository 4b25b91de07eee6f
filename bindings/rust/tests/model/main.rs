//! A model of the library: its definitions, computed slowly and plainly, and compared with its results.

mod blocks;
mod cells;
mod changes;
mod columns;
mod cut;
mod edits;
mod find;
mod kept;
mod links;
mod restyle;
mod sides;
mod split;
mod style;
mod text;

use std::fmt::Debug;

/// The pieces of the texts whose styles are compared.
#[rustfmt::skip]
const STYLED_PIECES: [&str; 21] = [
    "\x1b[1m", "\x1b[22m", "\x1b[31m", "\x1b[0m", "\x1b[99m", "\x1b[m", "\x1b[38;5;3m", "\x1b[38;2;1;2;300m",
    "\x1b[48;7;1m", "\x1b[58;5;1;4m", "\x1b[11m", "\x1b[20m", "\x1b[23m", "\x1b[0;99m", "\x1b(B", "\x1b]0;t\x07",
    "\x1b", "a", "bc", "\u{e9}", " ",
];

/// All texts of at most that many of the pieces, the shorter first.
fn short_texts<'p>(pieces: &'p [&'p str], most: u32) -> impl Iterator<Item = String> + 'p {
    let base = pieces.len();
    (0..=most).flat_map(move |count| {
        let piece = move |number: usize, place: u32| pieces[number / base.pow(place) % base];
        (0..base.pow(count))
            .map(move |number| (0..count).map(|place| piece(number, place)).collect())
    })
}

/// A thousand texts of twelve of the pieces, drawn by an xorshift from a fixed seed.
fn drawn_texts<'p>(pieces: &'p [&'p str]) -> impl Iterator<Item = String> + 'p {
    let mut state = 0x9e37_79b9_7f4a_7c15_u64;
    let mut draw = move || {
        state ^= state << 13;
        state ^= state >> 7;
        state ^= state << 17;
        pieces[(state >> 32) as usize % pieces.len()]
    };
    (0..1_000).map(move |_| (0..12).map(|_| draw()).collect())
}

/// How often an answer was compared, so that a loop that compares nothing can't pass.
#[derive(Default)]
pub struct Tally(usize);

impl Tally {
    fn expect<T: PartialEq + Debug>(&mut self, got: T, want: T, name: impl Debug) {
        self.0 += 1;
        assert_eq!(got, want, "{name:?}");
    }
}

/// Compares what is asked of each of these texts, and gives how often.
fn compare(pieces: &[&str], most: u32, ask: impl Fn(&mut Tally, &str)) -> usize {
    let mut tally = Tally::default();
    for text in short_texts(pieces, most).chain(drawn_texts(pieces)) {
        ask(&mut tally, &text);
    }
    tally.0
}
