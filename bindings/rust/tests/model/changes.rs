//! Ranges of a text in another style or a link, replaced or removed, on cells: each character with its style and its link.

use crate::cells::{after, draws, Cell, Draws, Row};
use crate::columns::address;
use crate::restyle::are_in_turn;
use crate::text::Text;
use crate::Tally;
use ansi_str::restyle::AnsiRestyle;
use ansi_str::safe::{AnsiSafe, Links, Policy, Rest};
use std::ops::Range;

/// What is changed: a text, and the cells of its plain text.
struct Changed<'t> {
    spelled: &'t str,
    plain: String,
    row: Row,
}

impl<'t> Changed<'t> {
    fn new(spelled: &'t str) -> Self {
        let row = Row::all(spelled);
        Changed {
            spelled,
            plain: row.characters(),
            row,
        }
    }

    /// Which cells a range of the plain text has.
    fn cells(&self, range: &Range<usize>) -> Range<usize> {
        let before = |place| self.plain[..place].chars().count();
        before(range.start)..before(range.end)
    }

    /// The cells of another text after the character before a place, or at the front in the style and the link of the first character.
    fn put(&self, place: usize, with: &str) -> Row {
        let open = after(self.spelled);
        let before = match self.cells(&(place..place)).start {
            0 => self.row.0.first().unwrap_or(&open),
            count => &self.row.0[count - 1],
        };
        Row::all(&format!("{}{}{with}", before.style, before.link))
    }

    /// The cells with another text in place of each range.
    fn replaced(&self, ranges: &[Range<usize>], with: &str) -> Row {
        let (mut rows, mut end) = (Vec::new(), 0);
        for range in ranges {
            let cells = self.cells(range);
            rows.push(self.row.part(end..cells.start));
            rows.push(self.put(range.start, with));
            end = cells.end;
        }
        rows.push(self.row.part(end..self.row.0.len()));
        Row::beside(&rows)
    }

    /// The cells, those of each range changed.
    fn with(&self, ranges: &[Range<usize>], change: impl Fn(&Cell) -> Cell) -> Row {
        let mut row = self.row.clone();
        for range in ranges {
            for cell in &mut row.0[self.cells(range)] {
                *cell = change(cell);
            }
        }
        row
    }

    /// The cells with codes applied to those of each range.
    fn restyled(&self, ranges: &[Range<usize>], codes: &str) -> Row {
        self.with(ranges, |cell| Cell {
            character: cell.character,
            link: cell.link.clone(),
            style: after(&format!("{}\x1b[{codes}m", cell.style)).style,
        })
    }

    /// The cells, those of each range in a link.
    fn linked(&self, ranges: &[Range<usize>], link: &str) -> Row {
        self.with(ranges, |cell| Cell {
            link: link.to_owned(),
            ..cell.clone()
        })
    }

    /// Whether a place is inside a line end of two characters.
    fn parts_line_end(&self, place: usize) -> bool {
        self.plain[..place].ends_with('\r') && self.plain[place..].starts_with('\n')
    }

    fn is_safe(&self) -> bool {
        self.spelled.ansi_is_safe(Links::Keep)
    }

    /// Compares a text that a call made, in its cells and in what is open after it.
    fn expect(&self, tally: &mut Tally, got: &str, want: &Row, name: &str) {
        let name = (name, self.spelled);
        let text = Text::new(got);
        tally.expect(text.plain, want.characters(), name);
        tally.expect(&Row::all(got), want, name);
        tally.expect(after(got), after(self.spelled), name);
    }
}

/// Compares ranges in another style, and the matches of a pattern.
fn expect_restyled(tally: &mut Tally, text: &Changed, ranges: &[Range<usize>], codes: &str) {
    let got = text.spelled.ansi_restyle(ranges, codes);
    let is_good = are_in_turn(&text.plain, ranges);
    tally.expect(got.is_some(), is_good, (ranges, codes, text.spelled));
    if let Some(got) = got {
        text.expect(tally, &got, &text.restyled(ranges, codes), codes);
        let mut places = ranges.iter().flat_map(|range| [range.start, range.end]);
        let is_parted = places.any(|place| text.parts_line_end(place));
        let is_kept_safe = !text.is_safe() || is_parted || got.ansi_is_safe(Links::Keep);
        tally.expect(is_kept_safe, true, (codes, text.spelled));
    }
}

fn expect_marked(tally: &mut Tally, text: &Changed, pat: &str, codes: &str) {
    let found: Vec<_> = text.plain.match_indices(pat).collect();
    let matches: Vec<_> = found.iter().map(|it| it.0..it.0 + it.1.len()).collect();
    let got = text.spelled.ansi_mark(pat, codes).expect("good codes");
    text.expect(tally, &got, &text.restyled(&matches, codes), pat);
}

/// Compares a range replaced, removed and linked, and a place at which another text is put in.
fn expect_replaced(tally: &mut Tally, text: &Changed, range: &Range<usize>, with: &str) {
    let spelled = text.spelled;
    let is_good = are_in_turn(&text.plain, &[range.clone()]);
    let removed = spelled.ansi_remove(range.clone());
    let replaced = spelled.ansi_replace(range.clone(), with);
    let linked = spelled.ansi_link(range.clone(), "x y");
    let are_made = (removed.is_some(), replaced.is_some(), linked.is_some());
    tally.expect(are_made, (is_good, is_good, is_good), (range, spelled));
    if let (Some(removed), Some(replaced), Some(linked)) = (removed, replaced, linked) {
        let ranges = [range.clone()];
        text.expect(tally, &removed, &text.replaced(&ranges, ""), "removed");
        let is_kept_safe = !text.is_safe()
            || text.parts_line_end(range.start)
            || removed.ansi_is_safe(Links::Keep);
        tally.expect(is_kept_safe, true, (range, spelled));
        text.expect(tally, &replaced, &text.replaced(&ranges, with), with);
        let want = text.linked(&ranges, "\x1b]8;;x y\x1b\\");
        text.expect(tally, &linked, &want, "linked");
        let longer = spelled
            .ansi_insert(range.start, with)
            .expect("a good place");
        let at = range.start..range.start;
        text.expect(tally, &longer, &text.replaced(&[at], with), with);
    }
}

/// Compares all matches replaced.
fn expect_all_replaced(tally: &mut Tally, text: &Changed, pat: &str, with: &str) {
    let found = text.plain.match_indices(pat);
    let matches: Vec<_> = found.map(|it| it.0..it.0 + it.1.len()).collect();
    let got = text.spelled.ansi_replace_all(pat, with);
    text.expect(tally, &got, &text.replaced(&matches, with), with);
}

/// Compares the links, and the text without them.
fn expect_links(tally: &mut Tally, text: &Changed) {
    let bare = text.spelled.ansi_unlink();
    let all = [0..text.plain.len()];
    tally.expect(&Row::all(&bare), &text.linked(&all, ""), text.spelled);
    let mut open = after(text.spelled);
    open.link.clear();
    tally.expect(after(&bare), open, text.spelled);
    for links in [Links::Keep, Links::Remove] {
        let is_kept_safe = !text.is_safe() || bare.ansi_is_safe(links);
        tally.expect(is_kept_safe, true, text.spelled);
    }
    let mut addresses = vec![None; text.row.0.len()];
    for link in text.spelled.ansi_links() {
        addresses[text.cells(&link.range)].fill(Some(link.address));
    }
    let want = text.row.0.iter().map(|cell| address(&cell.link));
    let want: Vec<_> = want.map(|it| it.map(str::to_owned)).collect();
    tally.expect(addresses, want, text.spelled);
}

/// Codes that change a style, and what isn't codes.
const CODES: [&str; 7] = ["1;31", "0", "", "22;99", "38;5;7;4", "4:3", "39"];
const NO_CODES: [&str; 7] = ["m", "1m", " 1", "\x1b", "\u{e9}", "<1", "1,2"];

/// Other texts, none with a lone escape.
#[rustfmt::skip]
const OTHERS: [&str; 12] = [
    "", "x", "日\u{301}", "\x1b[1mx", "\x1b[0;99mx", "\x1b[mx\x1b[4m", "\x1b]8;;u\x07x", "x\x1b]8;;\x07", "\x1b]8;;\x1b\\x\x1b]8;i=1;v\x1b\\",
    "\x1b[31mx\x1b]0;t\x07", "\n", "[2J",
];

/// How a text is made safe.
const SAFE: Policy = Policy {
    rest: Rest::Drop,
    links: Links::Keep,
};

const PATTERNS: [&str; 8] = ["a", "", "bc", "\u{e9}", "日", "\r\n", "[2J", "aa"];

/// A text, often a safe one, and another without lone escapes, which a range that goes could make a sequence.
fn drawn(draw: &mut Draws) -> (String, String) {
    let mut text = draw.text();
    if draw.below(3) == 0 {
        text = text.ansi_sanitize(SAFE).into_owned();
    }
    let items = Text::new(&text).items;
    let kept = items.iter().filter(|item| item.spelled != "\x1b");
    let whole = kept.map(|item| item.spelled).collect();
    (text, whole)
}

/// A range, seldom one that is refused.
fn range(draw: &mut Draws, plain: &str) -> Range<usize> {
    let mut places: Vec<usize> = plain.char_indices().map(|it| it.0).collect();
    places.push(plain.len());
    let ends = (draw.of(&places), draw.of(&places));
    match draw.below(12) {
        0 => ends.0..ends.1 + 1,
        1 => ends.0..ends.1,
        _ => ends.0.min(ends.1)..ends.0.max(ends.1),
    }
}

#[test]
fn cells_are_restyled_as_defined() {
    let (mut tally, mut draw) = (Tally::default(), Draws(0xd1b5_4a32_d192_ed03));
    for _ in 0..draws() {
        let (spelled, _) = drawn(&mut draw);
        let text = Changed::new(&spelled);
        let count = draw.below(4);
        let mut ranges: Vec<_> = (0..count).map(|_| range(&mut draw, &text.plain)).collect();
        if draw.below(3) > 0 {
            let mut places: Vec<_> = ranges.iter().flat_map(|it| [it.start, it.end]).collect();
            places.sort_unstable();
            ranges = places.chunks(2).map(|pair| pair[0]..pair[1]).collect();
        }
        let codes = draw.of(&CODES);
        expect_restyled(&mut tally, &text, &ranges, codes);
        expect_marked(&mut tally, &text, draw.of(&PATTERNS), codes);
        let bad = draw.of(&NO_CODES);
        tally.expect(spelled.ansi_restyle(&ranges, bad), None, (bad, &spelled));
        tally.expect(spelled.ansi_mark("a", bad), None, (bad, &spelled));
    }
    assert!(tally.0 > draws() * 8);
}

#[test]
fn cells_are_replaced_and_linked_as_defined() {
    let (mut tally, mut draw) = (Tally::default(), Draws(0x94d0_49bb_1331_11eb));
    for _ in 0..draws() {
        let (_, spelled) = drawn(&mut draw);
        if !Text::new(&spelled).is_whole() {
            continue;
        }
        let text = Changed::new(&spelled);
        let (range, with) = (range(&mut draw, &text.plain), draw.of(&OTHERS));
        expect_replaced(&mut tally, &text, &range, with);
        expect_all_replaced(&mut tally, &text, draw.of(&PATTERNS), with);
        expect_links(&mut tally, &text);
    }
    assert!(tally.0 > draws() * 18);
}
