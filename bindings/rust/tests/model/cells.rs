//! Edits by columns and indents, on cells: each character that is shown, with its style and its link. What is compared is what a line
//! shows, and that it is safe, on one line, and with nothing open; not which sequences it has.

use crate::columns::{
    address, clusters, expanded, is_clean_link, lines, paragraph, width, Class, ALIGNMENTS, SIDES,
};
use crate::style::Style;
use crate::text::{Kind, Text};
use crate::Tally;
use ansi_str::columns::{edit_columns, Alignment, AnsiColumns, ColumnEdit, Side, Truncation, Wrap};
use ansi_str::safe::{AnsiSafe, Links};
use std::borrow::Cow;
use std::env;
use std::ops::Range;

/// A character, as a text has it or as it is shown.
#[derive(Clone, Debug, PartialEq, Eq)]
pub(crate) struct Cell {
    pub(crate) character: char,
    /// The sequences that set its style.
    pub(crate) style: String,
    /// The sequence that opened its link, or nothing.
    pub(crate) link: String,
}

impl Cell {
    /// A blank in the same style and the same link.
    fn blank(&self) -> Cell {
        let character = ' ';
        Cell {
            character,
            ..self.clone()
        }
    }

    /// A blank in no style and no link.
    pub(crate) fn plain() -> Cell {
        let (style, link) = (String::new(), String::new());
        let character = ' ';
        Cell {
            character,
            style,
            link,
        }
    }
}

/// The cell of a blank after a text, so what is open there.
pub(crate) fn after(spelled: &str) -> Cell {
    let mut row = Row::all(&format!("{spelled} "));
    row.0.pop().expect("the blank")
}

/// The cells of a text, or of what a line shows.
#[derive(Clone, Debug, PartialEq, Eq)]
pub(crate) struct Row(pub(crate) Vec<Cell>);

impl Row {
    /// The cells of all characters of a text's runs.
    pub(crate) fn all(spelled: &str) -> Row {
        Row::new(spelled, Some, |_| true)
    }

    /// The characters of the runs of a text that are in a place, each as it is shown there, or not shown; and which link sequences stay.
    fn new(
        spelled: &str,
        shown: impl Fn(char) -> Option<char>,
        stays: impl Fn(&str) -> bool,
    ) -> Row {
        let (mut style, mut link, mut cells) = (Style::default(), "", Vec::new());
        for item in Text::new(spelled).items {
            match item.kind {
                Kind::Sgr => style.apply(item.parameters()),
                Kind::Other => match address(item.spelled).filter(|_| stays(item.spelled)) {
                    Some("") => link = "",
                    Some(_) => link = item.spelled,
                    None => {}
                },
                Kind::Run => {
                    let start = style.start();
                    let characters = item.spelled.chars().filter_map(&shown);
                    cells.extend(characters.map(|character| Cell {
                        character,
                        style: start.clone(),
                        link: link.to_owned(),
                    }));
                }
                Kind::LoneEscape => {}
            }
        }
        Row(cells)
    }

    /// What a text shows on a line: a TAB and a line feed are blanks, and other controls aren't shown.
    fn of(spelled: &str) -> Row {
        let shown = |character| match character {
            '\t' | '\n' => Some(' '),
            _ if Class::of(character) == Class::Control => None,
            _ => Some(character),
        };
        Row::new(spelled, shown, is_clean_link)
    }

    pub(crate) fn characters(&self) -> String {
        self.0.iter().map(|cell| cell.character).collect()
    }

    fn width(&self) -> usize {
        width(&self.characters())
    }

    pub(crate) fn part(&self, range: Range<usize>) -> Row {
        Row(self.0[range].to_vec())
    }

    fn blanks(count: usize) -> Row {
        Row(vec![Cell::plain(); count])
    }

    /// Rows side by side. A cluster may join where two meet.
    pub(crate) fn beside(rows: &[Row]) -> Row {
        Row(rows.iter().flat_map(|row| row.0.clone()).collect())
    }

    /// Each cluster: which cells are its, and which columns.
    fn clusters(&self) -> Vec<(Range<usize>, Range<usize>)> {
        let (mut cell, mut column) = (0, 0);
        let characters = self.characters();
        let cluster = |cluster| {
            let start = (cell, column);
            cell += str::chars(cluster).count();
            column += width(cluster);
            (start.0..cell, start.1..column)
        };
        clusters(&characters).into_iter().map(cluster).collect()
    }

    /// The clusters that end in the first columns.
    fn fitting(&self, most: usize) -> Row {
        let clusters = self.clusters();
        let fits = |(_, columns): &&(Range<usize>, Range<usize>)| columns.end <= most;
        let end = clusters.iter().rfind(fits).map_or(0, |it| it.0.end);
        self.part(0..end)
    }

    /// The columns of a range. A cluster that has others too is a blank in each. One of no columns belongs to the column after it, or to
    /// the last one.
    fn slice(&self, start: usize, end: usize) -> Row {
        let last = self.width().saturating_sub(1);
        let mut cells = Vec::new();
        for (own, columns) in self.clusters() {
            let is_whole = match columns.is_empty() {
                true => (start..end).contains(&columns.start.min(last)) && self.width() > 0,
                false => start <= columns.start && columns.end <= end,
            };
            let blanks = columns.filter(|column| (start..end).contains(column));
            match is_whole {
                true => cells.extend_from_slice(&self.0[own]),
                false => cells.extend(blanks.map(|_| self.0[own.start].blank())),
            }
        }
        Row(cells)
    }

    fn truncated(&self, most: usize, tail: &str, side: Side) -> Row {
        let all = self.width();
        if all <= most {
            return self.clone();
        }
        let mut tail = Row::of(tail);
        if tail.width() > most {
            tail = Row::blanks(0);
        }
        let room = most - tail.width();
        let last = match side {
            Side::End => return Row::beside(&[self.fitting(room), tail]),
            Side::Start => room,
            Side::Middle => room / 2,
        };
        let (front, back) = (self.slice(0, room - last), self.slice(all - last, all));
        Row::beside(&[front, tail, back])
    }

    fn padded(&self, least: usize, alignment: Alignment) -> Row {
        let missing = least.saturating_sub(self.width());
        let before = match alignment {
            Alignment::Left => 0,
            Alignment::Center => missing / 2,
            Alignment::Right => missing,
        };
        Row::beside(&[
            Row::blanks(before),
            self.clone(),
            Row::blanks(missing - before),
        ])
    }

    /// What an edit makes of a row, which has no TAB.
    fn edited(&self, edit: &ColumnEdit<'_>) -> Row {
        match *edit {
            ColumnEdit::Expand(_) => self.clone(),
            ColumnEdit::Slice { start, end } => self.slice(start, end.unwrap_or(usize::MAX)),
            ColumnEdit::Truncate { width, tail, side } => self.truncated(width, tail, side),
            ColumnEdit::Pad { width, alignment } => self.padded(width, alignment),
            ColumnEdit::Fit {
                width,
                alignment,
                tail,
            } => self
                .truncated(width, tail, Side::End)
                .padded(width, alignment),
        }
    }
}

/// What edits in turn make of what a text shows. Those that expand TABs first find them in the text.
fn edited(spelled: &str, edits: &[ColumnEdit<'_>]) -> Row {
    match edits {
        [ColumnEdit::Expand(stop), rest @ ..] => edited(&expanded(spelled, *stop), rest),
        _ => edits
            .iter()
            .fold(Row::of(spelled), |row, edit| row.edited(edit)),
    }
}

/// What the call for an edit makes of a text.
fn made<'t>(text: &'t str, edit: &ColumnEdit<'_>) -> Cow<'t, str> {
    match *edit {
        ColumnEdit::Expand(stop) => text.ansi_expand_tabs(stop),
        ColumnEdit::Slice { start, end } => match end {
            Some(end) => text.ansi_slice(start..end),
            None => text.ansi_slice(start..),
        },
        ColumnEdit::Truncate { width, tail, side } => {
            text.ansi_truncate_with(&Truncation::to(width).tail(tail).side(side))
        }
        ColumnEdit::Pad { width, alignment } => text.ansi_pad(width, alignment),
        ColumnEdit::Fit {
            width,
            alignment,
            tail,
        } => text.ansi_fit(width, alignment, tail),
    }
}

/// Compares what a text shows, which is to be a line that is safe and leaves nothing open.
fn expect_line(tally: &mut Tally, got: &str, want: &Row, name: impl std::fmt::Debug + Copy) {
    let text = Text::new(got);
    let row = Row::all(got);
    let is_safe = text.items.iter().all(|item| match item.kind {
        Kind::Run => item
            .spelled
            .chars()
            .all(|it| Class::of(it) != Class::Control),
        Kind::Sgr => true,
        Kind::Other => is_clean_link(item.spelled),
        Kind::LoneEscape => false,
    });
    tally.expect(is_safe, true, name);
    tally.expect(got.ansi_is_safe(Links::Keep), true, name);
    tally.expect(&text.plain, &want.characters(), name);
    tally.expect(&row, want, name);
    tally.expect(got.ansi_width(), want.width(), name);
    tally.expect(after(got), Cell::plain(), name);
}

fn expect_edited(tally: &mut Tally, spelled: &str, edits: &[ColumnEdit<'_>]) {
    let name = (edits, spelled);
    let got = edit_columns(spelled, edits);
    expect_line(tally, &got, &edited(spelled, edits), name);
    let is_borrow = matches!(got, Cow::Borrowed(_));
    tally.expect(is_borrow, spelled.starts_with(&*got), name);
    // each edit is what its call makes of what the one before made
    let apply = |text: String, edit| made(&text, edit).into_owned();
    let in_turn = edits.iter().fold(spelled.to_owned(), apply);
    let only_expands = edits.iter().all(|it| matches!(it, ColumnEdit::Expand(_)));
    let in_turn = match only_expands {
        true => in_turn.ansi_pad(0, Alignment::Left).into_owned(),
        false => in_turn,
    };
    tally.expect(&*got, &in_turn, name);
}

/// Compares the lines of a text with indents.
fn expect_indented(tally: &mut Tally, spelled: &str, to: &Wrap<'_>) {
    let name = (to, spelled);
    let (first, later) = (Row::of(to.first_indent), Row::of(to.indent));
    let left = to.width.saturating_sub(first.width().max(later.width()));
    let paragraph = paragraph(spelled);
    let row = Row::all(&paragraph);
    let characters = row.characters();
    let cells_before = |place: usize| characters[..place].chars().count();
    let mut got = spelled.ansi_wrap_with(to);
    for (number, line) in lines(&characters, left).into_iter().enumerate() {
        let indent = if number == 0 { &first } else { &later };
        let own = row.part(cells_before(line.start)..cells_before(line.end));
        let got = got.next().expect("one more line");
        let want = Row::beside(&[indent.clone(), own]);
        expect_line(tally, &got, &want, name);
    }
    tally.expect(got.next(), None, name);
}

/// What the texts are made of: unfinished sequences, controls, links, and characters that join or are wide among them.
#[rustfmt::skip]
const PIECES: [&str; 52] = [
    "\x1b[1m", "\x1b[31m", "\x1b[0m", "\x1b[m", "\x1b[22;4m", "\x1b[38;5;200m", "\x1b[48;2;1;2;3m", "\x1b[4:3m", "\x1b[99m", "\x1b[39m",
    "\x1b]8;;http://x\x1b\\", "\x1b]8;id=1;http://y\x07", "\x1b]8;;\x07", "\x1b]8;;\x1b\\", "\x1b]8;;h\x01\x07", "\x1b]8;;\u{e9}\x07",
    "\x1b]0;t\x07", "\x1b[2J", "\x1b[2K", "\x1b(0", "\x1bc", "\x1bPq\x1b\\", "\x1b[>4;1m", "\x1b\\",
    "\x1b", "\x1b[", "\x1b[3", "\x1b]8;;http", "\x1b]0;t", "\x1bP", "\x1b(",
    "\x07", "\x08", "\x0e", "\x7f", "\u{85}", "\u{9b}", "\u{202e}", "\t", "\t", "\n", "\r\n", "\r",
    "\u{301}", "\u{200d}", "\u{200b}", "\u{1f469}", "\u{1f1e6}", "\u{1112}", "\u{1161}\u{11ab}", "日", "e\u{301}",
];

/// Letters, more often than the pieces.
const LETTERS: [&str; 8] = ["a", "bc", " ", "F", "日本", "\u{e9}", "m", "[2J"];

/// Tails and indents that do harm where they are written as they are, and others.
#[rustfmt::skip]
const TAILS: [&str; 27] = [
    "", "…", "...", "…", "日", "\x1b[2m…", "\x1b]8;;http://z\x07>", "\x1b[31m.\x1b[39m", "\x1b[0;99m~",
    "\x1b[2J~", "~\x07", "\u{301}", "\u{301}.", "\u{200d}", "\u{200d}\u{1f469}", "\u{1f1e6}", "\u{1161}", "\t", "\n", ".\r\n.", "\x1b",
    "\x1b[", "\x1b]8;;http", "\u{9b}2J", "\u{202e}~", "\x1b]8;;\u{e9}\x07~", "\u{200b}",
];

/// An xorshift.
pub(crate) struct Draws(pub(crate) u64);

impl Draws {
    pub(crate) fn below(&mut self, count: usize) -> usize {
        self.0 ^= self.0 << 13;
        self.0 ^= self.0 >> 7;
        self.0 ^= self.0 << 17;
        (self.0 >> 32) as usize % count
    }

    pub(crate) fn of<T: Copy>(&mut self, all: &[T]) -> T {
        all[self.below(all.len())]
    }

    pub(crate) fn text(&mut self) -> String {
        let count = self.below(15);
        let piece = |_| match self.below(5) {
            0 | 1 => self.of(&LETTERS),
            _ => self.of(&PIECES),
        };
        (0..count).map(piece).collect()
    }

    /// A number of columns, small or as many as there can be.
    fn columns(&mut self, below: usize) -> usize {
        match self.below(40) {
            0 => usize::MAX - self.below(2),
            _ => self.below(below),
        }
    }

    fn edit(&mut self) -> ColumnEdit<'static> {
        let (alignment, tail) = (self.of(&ALIGNMENTS), self.of(&TAILS));
        match self.below(5) {
            0 => ColumnEdit::Expand(self.below(9)),
            1 => ColumnEdit::Slice {
                start: self.below(8),
                end: Some(self.columns(16)).filter(|end| end % 5 > 0),
            },
            2 => ColumnEdit::Truncate {
                width: self.columns(14),
                tail,
                side: self.of(&SIDES),
            },
            3 => ColumnEdit::Pad {
                width: self.below(18),
                alignment,
            },
            _ => ColumnEdit::Fit {
                width: self.below(16),
                alignment,
                tail,
            },
        }
    }
}

/// How many texts are drawn: as many as `ANSI_STR_TEXTS` says, or ten thousand.
pub(crate) fn draws() -> usize {
    env::var("ANSI_STR_TEXTS").map_or(10_000, |count| count.parse().expect("a number"))
}

#[test]
fn edits_by_columns_show_what_is_defined() {
    let (mut tally, mut draw) = (Tally::default(), Draws(0x9e37_79b9_7f4a_7c15));
    for _ in 0..draws() {
        let text = draw.text();
        let count = 1 + draw.below(4);
        let edits: Vec<_> = (0..count).map(|_| draw.edit()).collect();
        expect_edited(&mut tally, &text, &edits);
    }
    expect_edited(&mut tally, "\x1b[1ma\tb\n", &[]);
    assert_eq!(tally.0, (draws() + 1) * 8);
}

#[test]
fn indented_lines_show_what_is_defined() {
    let (mut tally, mut draw) = (Tally::default(), Draws(0x2545_f491_4f6c_dd1d));
    for _ in 0..draws() {
        let text = draw.text();
        let (first, later) = (draw.of(&TAILS), draw.of(&TAILS));
        let to = Wrap::at(draw.columns(14)).first_indent(first).indent(later);
        expect_indented(&mut tally, &text, &to);
    }
    assert!(tally.0 > draws() * 7);
}
