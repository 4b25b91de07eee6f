//! Columns: clusters, widths, truncation, padding, slices, TABs, wrapping, and links.

use crate::style::Style;
use crate::text::{Item, Kind, Text};
use crate::{compare, Tally};
use ansi_str::columns::{Alignment, AnsiColumns, Side, Truncation, Wrap};
use std::iter;
use std::ops::Range;

/// What UAX #29 says of a character, as far as the texts of these tests have it.
#[derive(Clone, Copy, PartialEq, Eq)]
pub(crate) enum Class {
    Control,
    /// A control that is shown, in no column.
    ZeroWidthSpace,
    Extend,
    Joiner,
    Pictograph,
    Regional,
    Leading,
    Vowel,
    Trailing,
    Other,
}

impl Class {
    pub(crate) fn of(character: char) -> Class {
        match character {
            '\0'..='\x1f' | '\x7f'..='\u{9f}' | '\u{202e}' => Class::Control,
            '\u{200b}' => Class::ZeroWidthSpace,
            '\u{301}' => Class::Extend,
            '\u{200d}' => Class::Joiner,
            '\u{1f469}' => Class::Pictograph,
            '\u{1f1e6}'..='\u{1f1ff}' => Class::Regional,
            '\u{1112}' => Class::Leading,
            '\u{1161}' => Class::Vowel,
            '\u{11ab}' => Class::Trailing,
            _ => Class::Other,
        }
    }
}

/// Whether jamo are one syllable: leading ones, vowels and trailing ones, which are beside leading ones only if a vowel is between.
fn is_syllable(jamo: &[Class]) -> bool {
    let places = [Class::Leading, Class::Vowel, Class::Trailing];
    let place = |class: &Class| places.iter().position(|it| it == class);
    let is_next = |pair: &[Class]| match (place(&pair[0]), place(&pair[1])) {
        (Some(first), Some(second)) => second == first || second == first + 1,
        _ => false,
    };
    jamo.windows(2).all(is_next)
}

/// Whether what is between two pictographs joins them: a joiner, after marks if there are any.
fn joins(between: &[Class]) -> bool {
    match between {
        [marks @ .., Class::Joiner] => marks.iter().all(|class| *class == Class::Extend),
        _ => false,
    }
}

/// Whether the text is one cluster: the regular expression of UAX #29, Table 1b.
fn is_cluster(text: &str) -> bool {
    let classes: Vec<Class> = text.chars().map(Class::of).collect();
    let is_extending = |class: &Class| matches!(class, Class::Extend | Class::Joiner);
    let core = classes.iter().rposition(|class| !is_extending(class));
    match &classes[..core.map_or(0, |last| last + 1)] {
        [] => !classes.is_empty(),
        [Class::Control, Class::Control] => text == "\r\n",
        [Class::Control | Class::ZeroWidthSpace] => classes.len() == 1,
        [_] | [Class::Regional, Class::Regional] => true,
        jamo @ [Class::Leading | Class::Vowel | Class::Trailing, ..] => is_syllable(jamo),
        [Class::Pictograph, joined @ .., Class::Pictograph] => {
            joined.split(|class| *class == Class::Pictograph).all(joins)
        }
        _ => false,
    }
}

/// The clusters of a text: each is the longest that begins there. What begins a cluster is one.
pub(crate) fn clusters(text: &str) -> Vec<&str> {
    let mut clusters = Vec::new();
    let mut rest = text;
    while !rest.is_empty() {
        let ends = rest
            .char_indices()
            .map(|(start, char)| start + char.len_utf8());
        let end = ends
            .take_while(|end| is_cluster(&rest[..*end]))
            .last()
            .expect("a cluster");
        let (cluster, after) = rest.split_at(end);
        clusters.push(cluster);
        rest = after;
    }
    clusters
}

/// The columns of a cluster (UAX #11): pictographs that are joined have those of one.
fn cluster_width(cluster: &str) -> usize {
    let width = |character: char| match Class::of(character) {
        Class::ZeroWidthSpace => 0,
        // (the bidirectional controls are default ignorable)
        _ if matches!(character, '\u{202a}'..='\u{202e}' | '\u{2066}'..='\u{2069}') => 0,
        Class::Extend | Class::Joiner | Class::Vowel | Class::Trailing => 0,
        Class::Pictograph | Class::Leading => 2,
        _ if matches!(character, '日' | '本') => 2,
        _ => 1,
    };
    if cluster.starts_with('\u{1f469}') {
        return 2;
    }
    cluster.chars().map(width).sum()
}

pub(crate) fn width(text: &str) -> usize {
    clusters(text).into_iter().map(cluster_width).sum()
}

/// The greatest position up to which a text fits.
fn fitting(text: &str, most: usize) -> usize {
    let mut ends = vec![0];
    ends.extend(clusters(text).into_iter().scan(0, |end, cluster| {
        *end += cluster.len();
        Some(*end)
    }));
    let fits = |end: &usize| width(&text[..*end]) <= most;
    ends.into_iter().filter(fits).last().expect("nothing fits")
}

/// What stands between the ESC `]` of a sequence and its terminator.
fn command(sequence: &str) -> Option<&str> {
    let rest = sequence.strip_prefix("\x1b]")?;
    rest.strip_suffix('\x07')
        .or_else(|| rest.strip_suffix("\x1b\\"))
}

/// The address of a link sequence, which is empty in one that ends a link.
pub(crate) fn address(sequence: &str) -> Option<&str> {
    let (_parameters, address) = command(sequence)?.strip_prefix("8;")?.split_once(';')?;
    Some(address)
}

/// Whether a sequence is a link of printing ASCII alone, with parameters of at most 253 bytes and an address of at most 2,083.
pub(crate) fn is_clean_link(sequence: &str) -> bool {
    let is_printing = |byte| matches!(byte, 0x20..=0x7e);
    let link = command(sequence).and_then(|it| it.strip_prefix("8;"));
    let is_short =
        |(parameters, address): (&str, &str)| parameters.len() < 254 && address.len() < 2084;
    link.map_or(false, |it| it.bytes().all(is_printing))
        && link
            .and_then(|it| it.split_once(';'))
            .map_or(false, is_short)
}

/// A text with its runs as a place shows them. Of its sequences select graphic renditions and clean links stay.
fn placed(spelled: &str, shown: impl Fn(&str) -> String) -> String {
    let items = Text::new(spelled).items;
    let piece = |item: &Item| match item.kind {
        Kind::Run => shown(item.spelled),
        Kind::Sgr => item.spelled.to_owned(),
        Kind::Other if is_clean_link(item.spelled) => item.spelled.to_owned(),
        Kind::Other | Kind::LoneEscape => String::new(),
    };
    items.iter().map(piece).collect()
}

/// The printing characters of a run.
fn printing(run: &str) -> String {
    run.chars()
        .filter(|it| Class::of(*it) != Class::Control)
        .collect()
}

/// The text as a cell shows it.
fn cell(spelled: &str) -> String {
    placed(spelled, |run| {
        printing(&run.replace("\r\n", " ").replace(&['\t', '\n'][..], " "))
    })
}

/// The text as a paragraph shows it, with its line ends.
pub(crate) fn paragraph(spelled: &str) -> String {
    let line = |line: &str| printing(&line.replace('\t', " "));
    let unix = |run: &str| -> Vec<String> { run.split('\n').map(line).collect() };
    placed(spelled, |run| {
        let parts: Vec<String> = run
            .split("\r\n")
            .map(|part| unix(part).join("\n"))
            .collect();
        parts.join("\r\n")
    })
}

/// The sequence that opened the link that is open after these items, or nothing.
fn link_after<'t>(items: impl Iterator<Item = &'t Item<'t>>) -> &'t str {
    let sequences = items.filter(|item| address(item.spelled).is_some());
    let is_open = |sequence: &&str| address(sequence) != Some("");
    sequences
        .last()
        .map(|item| item.spelled)
        .filter(is_open)
        .unwrap_or("")
}

/// What ends the link and the style that are open at a position.
fn closing(text: &Text, position: usize) -> String {
    let link = link_after(text.items.iter().filter(|item| item.place <= position));
    link_end(link).to_owned() + &text.style_at(position).close()
}

fn link_end(link: &str) -> &'static str {
    if link.is_empty() {
        ""
    } else {
        "\x1b]8;;\x1b\\"
    }
}

/// The text of a cell, and what closes what it leaves open. So a tail and an indent are written.
fn closed_cell(spelled: &str) -> String {
    let cell = cell(spelled);
    let closing = closing(&Text::new(&cell), usize::MAX);
    cell + &closing
}

fn spelled_width(cell: &str) -> usize {
    width(&Text::new(cell).plain)
}

/// The tail as it is written, and its columns, if it isn't too wide.
fn fitting_tail(tail: &str, most: usize) -> (String, usize) {
    let tail = closed_cell(tail);
    let columns = spelled_width(&tail);
    if columns > most {
        return (String::new(), 0);
    }
    (tail, columns)
}

fn truncated(spelled: &str, most: usize, tail: &str) -> String {
    let cell = cell(spelled);
    let text = Text::new(&cell);
    let (tail, room) = match width(&text.plain) > most {
        true => fitting_tail(tail, most),
        false => (String::new(), 0),
    };
    let end = fitting(&text.plain, most - room);
    text.written(&(0..end), |mark| mark.place <= end) + &closing(&text, end) + &tail
}

fn padded(spelled: &str, least: usize, alignment: Alignment) -> String {
    let cell = cell(spelled);
    let text = Text::new(&cell);
    let missing = least.saturating_sub(width(&text.plain));
    let before = match alignment {
        Alignment::Left => 0,
        Alignment::Center => missing / 2,
        Alignment::Right => missing,
    };
    let blanks = |count| " ".repeat(count);
    blanks(before) + &cell + &closing(&text, usize::MAX) + &blanks(missing - before)
}

/// A column of a text: where what belongs to it begins, and its cluster.
struct Column {
    /// Where the clusters of no columns before its cluster begin, if it is the first column of this.
    place: usize,
    cluster: Range<usize>,
}

fn columns(text: &str) -> Vec<Column> {
    let mut columns = Vec::new();
    let (mut place, mut end) = (0, 0);
    for spelled in clusters(text) {
        let cluster = end..end + spelled.len();
        end = cluster.end;
        for column in 0..cluster_width(spelled) {
            columns.push(Column {
                place: if column == 0 { place } else { cluster.start },
                cluster: cluster.clone(),
            });
            place = end;
        }
    }
    columns
}

/// The columns of a cell from one up to another. Those of a cluster that an edge divides are blanks.
fn sliced(spelled: &str, start: usize, end: usize) -> String {
    let cell = cell(spelled);
    let text = Text::new(&cell);
    let columns = columns(&text.plain);
    let end = end.min(columns.len());
    if start >= end {
        return String::new();
    }
    let cluster_at = |column: usize| columns.get(column).map(|it| &it.cluster);
    let divided =
        |edge: usize| cluster_at(edge).filter(|it| cluster_at(edge.wrapping_sub(1)) == Some(*it));
    let before = divided(start);
    let after = divided(end).filter(|_| divided(end) != before);
    let blanks_of = |cluster: Option<&Range<usize>>| {
        let shown =
            (start..end).filter(|column| cluster.is_some() && cluster_at(*column) == cluster);
        " ".repeat(shown.count())
    };
    let first = columns[start].place;
    let from = before.map_or(first, |cluster| cluster.end);
    let to = columns.get(end).map_or(usize::MAX, |next| next.place);
    let opened = (start > 0).then_some(first);
    let is_opened = |mark: &Item| Some(mark.place) <= opened;
    let style = opened.map_or_else(Style::default, |place| text.style_at(place));
    let link = link_after(text.items.iter().filter(|item| is_opened(item)));
    let shown = text.written(&(from..to), |mark| !is_opened(mark) && mark.place <= to);
    style.start() + link + &blanks_of(before) + &shown + &blanks_of(after) + &closing(&text, to)
}

/// The first and the last columns that the tail leaves room for, with the tail between them.
fn truncated_with(spelled: &str, to: &Truncation) -> String {
    let all = width(&Text::new(&cell(spelled)).plain);
    if to.side == Side::End || all <= to.width {
        return truncated(spelled, to.width, to.tail);
    }
    let (tail, columns) = fitting_tail(to.tail, to.width);
    let room = to.width - columns;
    let last = match to.side {
        Side::Middle => room / 2,
        _ => room,
    };
    let front = sliced(spelled, 0, room - last);
    front + &tail + &sliced(spelled, all - last, all)
}

/// The text with each TAB expanded: one blank or more, until its line has a multiple of `stop` columns.
pub(crate) fn expanded(spelled: &str, stop: usize) -> String {
    let (mut out, mut line) = (String::new(), String::new());
    for item in Text::new(spelled).items {
        if item.kind != Kind::Run {
            out += item.spelled;
            continue;
        }
        for character in item.spelled.chars() {
            let before = line.len();
            match character {
                '\t' if stop == 0 => {}
                '\t' => {
                    line.push(' ');
                    while width(&cell(&line)) % stop > 0 {
                        line.push(' ');
                    }
                }
                _ => line.push(character),
            }
            out += &line[before..];
            if character == '\n' {
                line.clear();
            }
        }
    }
    out
}

#[rustfmt::skip]
const PIECES: [&str; 14] = [
    "\x1b[1m", "\x1b[31m", "\x1b[0m", "\x1b[4:3m", "\x1b]8;;http://x\x1b\\", "\x1b]8;;\x07",
    "a", " ", "日", "e\u{301}", "\u{301}", "\u{1f469}\u{200d}\u{1f469}", "\u{1f1e6}", "\u{1112}\u{1161}\u{11ab}",
];

/// Pieces of which a cell shows nothing, or a blank.
#[rustfmt::skip]
const HOSTILE_PIECES: [&str; 15] = [
    "\x1b[1m", "\x1b]8;;http://x\x07", "\x1b]8;;h\x01\x07", "\x1b]0;t\x07", "\x1b[2K", "\x1b(0", "\x1b", "\x1b[3",
    "\x0f", "\x7f", "\u{9b}", "\u{202e}", "\t", "a", "日",
];

#[rustfmt::skip]
const SLICED_PIECES: [&str; 14] = [
    "\x1b[1m", "\x1b[31m", "\x1b[0m", "\x1b]8;;http://x\x1b\\", "\x1b]8;;\x07", "\x1b]0;t\x07", "\x1b",
    "a", "日", "e\u{301}", "\u{301}", "\u{200b}", "\u{1f1e6}", "\t",
];

#[rustfmt::skip]
const EXPANDED_PIECES: [&str; 12] = [
    "\x1b[1m", "\x1b]0;t\x07", "\x1b", "\t", "\n", "\r", "\x0f", "a", "日", "\u{301}", "\u{200b}", "\u{1f1e6}",
];

pub(crate) const ALIGNMENTS: [Alignment; 3] =
    [Alignment::Left, Alignment::Center, Alignment::Right];

pub(crate) const SIDES: [Side; 3] = [Side::End, Side::Start, Side::Middle];

/// Compares a text truncated and padded at each width.
fn expect_shown(tally: &mut Tally, spelled: &str) {
    for columns in 0..6 {
        for tail in ["", "…", "\x1b[2m~\t\x1b[2J"] {
            let want = truncated(spelled, columns, tail);
            tally.expect(
                &*spelled.ansi_truncate(columns, tail),
                &want,
                (columns, tail, spelled),
            );
        }
        for alignment in ALIGNMENTS {
            let want = padded(spelled, columns, alignment);
            tally.expect(
                &*spelled.ansi_pad(columns, alignment),
                &want,
                (columns, alignment, spelled),
            );
        }
    }
}

/// Compares a text fitted to each width, and truncated to it at each side.
fn expect_fitted(tally: &mut Tally, spelled: &str) {
    for columns in 0..6 {
        for tail in ["", "…", "...", "\u{301}\x1b]8;;u\x07~\x07"] {
            let cut = truncated(spelled, columns, tail);
            for alignment in ALIGNMENTS {
                tally.expect(
                    &*spelled.ansi_fit(columns, alignment, tail),
                    &padded(&cut, columns, alignment),
                    (columns, alignment, tail, spelled),
                );
            }
            for side in SIDES {
                let to = Truncation::to(columns).tail(tail).side(side);
                tally.expect(
                    &*spelled.ansi_truncate_with(&to),
                    &truncated_with(spelled, &to),
                    (to, spelled),
                );
            }
        }
    }
}

/// Compares the slices of a text, at and past all its columns.
fn expect_slices(tally: &mut Tally, spelled: &str) {
    for start in 0..8 {
        for end in (0..8).chain([usize::MAX]) {
            let want = sliced(spelled, start, end);
            tally.expect(
                &*spelled.ansi_slice(start..end),
                &want,
                (start, end, spelled),
            );
        }
        let want = sliced(spelled, start, usize::MAX);
        tally.expect(&*spelled.ansi_slice(start..), &want, (start, spelled));
    }
}

/// Compares a text with its TABs expanded to stops of each width.
fn expect_expanded(tally: &mut Tally, spelled: &str) {
    for stop in 0..6 {
        let want = expanded(spelled, stop);
        tally.expect(&*spelled.ansi_expand_tabs(stop), &want, (stop, spelled));
    }
}

/// The greatest position of a plain text before which this is shown.
fn position_of(plain: &str, front: &str) -> usize {
    let shown = |end: &usize| Text::new(&cell(&plain[..*end])).plain == front;
    let ends = (0..=plain.len()).filter(|end| plain.is_char_boundary(*end));
    ends.filter(shown).last().expect("a front")
}

/// Compares a text's width, what of it fits, and the columns and links of its positions.
fn expect_columns(tally: &mut Tally, spelled: &str) {
    let text = Text::new(spelled);
    let shown = Text::new(&cell(spelled)).plain;
    tally.expect(spelled.ansi_width(), width(&shown), spelled);
    for most in 0..8 {
        let want = position_of(&text.plain, &shown[..fitting(&shown, most)]);
        tally.expect(spelled.ansi_fitting(most), want, (most, spelled));
    }
    for index in 0..=text.plain.len() {
        let link = link_after(text.items.iter().filter(|item| item.place <= index));
        let want = address(link).filter(|_| index < text.plain.len());
        tally.expect(
            spelled.ansi_link_at(index).as_deref(),
            want,
            (index, spelled),
        );
        let front = text.plain.get(..index);
        let want = front.map(|front| width(&Text::new(&cell(front)).plain));
        tally.expect(spelled.ansi_column_of(index), want, (index, spelled));
    }
}

/// The words of a paragraph, each with its place: runs of clusters between blanks.
fn words(paragraph: &str) -> Vec<(usize, Vec<&str>)> {
    let mut place = 0;
    let mut words = Vec::new();
    for word in clusters(paragraph).split(|cluster| *cluster == " ") {
        if !word.is_empty() {
            words.push((place, word.to_vec()));
        }
        place += word.concat().len() + 1;
    }
    words
}

/// The pieces of a word that begins at a place, each the longest that fits, and at least one cluster.
fn pieces(start: usize, word: &[&str], most: usize) -> Vec<Range<usize>> {
    let mut pieces = vec![start..start];
    let mut columns = 0;
    for cluster in word {
        let last = pieces.last_mut().expect("a piece");
        columns += cluster_width(cluster);
        if last.is_empty() || columns <= most {
            last.end += cluster.len();
        } else {
            let end = last.end;
            pieces.push(end..end + cluster.len());
            columns = cluster_width(cluster);
        }
    }
    pieces
}

/// The lines of a paragraph: a word stays on a line if all of it fits there.
fn paragraph_lines(paragraph: &str, most: usize) -> Vec<Range<usize>> {
    let mut lines: Vec<Range<usize>> = Vec::new();
    for (place, word) in words(paragraph) {
        let start = lines.last().map_or(0, |line| line.start);
        let end = place + word.concat().len();
        if width(&paragraph[start..end]) <= most {
            lines.pop();
            lines.push(start..end);
        } else {
            lines.extend(pieces(place, &word, most));
        }
    }
    if lines.is_empty() {
        lines.push(0..0);
    }
    lines
}

/// The lines of a text: a line end separates paragraphs. A width of 0 counts as 1.
pub(crate) fn lines(text: &str, most: usize) -> Vec<Range<usize>> {
    let mut start = 0;
    let mut lines = Vec::new();
    for line in text.split('\n') {
        let paragraph = match line.strip_suffix('\r') {
            Some(paragraph) if start + line.len() < text.len() => paragraph,
            _ => line,
        };
        let own = paragraph_lines(paragraph, most.max(1)).into_iter();
        lines.extend(own.map(|line| start + line.start..start + line.end));
        start += line.len() + 1;
    }
    lines
}

/// The lines of what is shown of a text, as the least places in the text before which as much is shown.
fn shown_lines(plain: &str, most: usize) -> Vec<Range<usize>> {
    let mut shown = String::new();
    let mut places = vec![0];
    for (start, character) in plain.char_indices() {
        match character {
            '\n' => shown.push('\n'),
            '\t' => shown.push(' '),
            _ if Class::of(character) != Class::Control => shown.push(character),
            _ => {}
        }
        places.resize(shown.len() + 1, start + character.len_utf8());
    }
    let given = |line: Range<usize>| places[line.start]..places[line.end];
    lines(&shown, most).into_iter().map(given).collect()
}

/// The lines of a wrap. A sequence belongs to the first line that doesn't end before it, or to the last line.
fn wrapped(text: &Text, lines: &[Range<usize>]) -> Vec<String> {
    let mut before: Option<usize> = None;
    let mut wrapped = Vec::new();
    for (number, line) in lines.iter().enumerate() {
        let is_last = number + 1 == lines.len();
        let is_before = |mark: &Item| matches!(before, Some(before) if mark.place <= before);
        let is_own = |mark: &Item| (is_last || mark.place <= line.end) && !is_before(mark);
        let content = text.written(line, is_own);
        let style = before.map_or_else(Style::default, |before| text.style_at(before));
        let link = link_after(text.items.iter().filter(|item| is_before(item)));
        let end = if is_last { usize::MAX } else { line.end };
        wrapped.push(if content.is_empty() {
            content
        } else {
            style.start() + link + &content + &closing(text, end)
        });
        before = Some(line.end);
    }
    wrapped
}

#[rustfmt::skip]
const WRAPPED_PIECES: [&str; 13] = [
    "\x1b[1m", "\x1b[4:3m", "\x1b]8;;http://x\x1b\\", "\x1b]8;;\x07",
    "a", "bc", " ", "  ", "日", "e\u{301}", "\u{1f1e6}", "\n", "\r\n",
];

#[rustfmt::skip]
const UNCLEAN_PIECES: [&str; 14] = [
    "\x1b[1m", "\x1b]8;;http://x\x1b\\", "\x1b]8;;\x07", "\x1b]8;;a\u{85}\x07", "\x1b[2J", "\x1b[3", "\x1b",
    "a", " b", "\t", "\r", "\n", "\x07", "\u{202e}",
];

/// Indents: the first, and the one of the later lines.
const INDENTS: [(&str, &str); 4] = [
    ("* ", "  "),
    ("", "\x1b[2m|"),
    ("\x1b]8;;u\x07\t\n", "\u{301}"),
    ("\x1b[2J日\x07", "\x1b"),
];

/// Compares a text wrapped at each width, without an indent and with each.
fn expect_lines(tally: &mut Tally, spelled: &str) {
    let text = Text::new(spelled);
    let clean = paragraph(spelled);
    let clean = Text::new(&clean);
    for most in 0..6 {
        let want = shown_lines(&text.plain, most);
        tally.expect(
            spelled.ansi_lines(most).collect::<Vec<_>>(),
            want,
            (most, spelled),
        );
        let got: Vec<String> = spelled.ansi_wrap(most).collect();
        let want = wrapped(&clean, &lines(&clean.plain, most));
        tally.expect(got, want, (most, spelled));
        for (first, later) in INDENTS {
            let (indent, next) = (closed_cell(first), closed_cell(later));
            let taken = spelled_width(&indent).max(spelled_width(&next));
            let left = lines(&clean.plain, most.saturating_sub(taken));
            let indents = iter::once(indent).chain(iter::repeat(next));
            let own = wrapped(&clean, &left);
            let want: Vec<_> = indents.zip(own).map(|(indent, it)| indent + &it).collect();
            let to = Wrap::at(most).first_indent(first).indent(later);
            let got: Vec<_> = spelled.ansi_wrap_with(&to).collect();
            tally.expect(got, want, (to, spelled));
        }
    }
}

#[test]
fn columns_are_counted_as_defined() {
    assert!(compare(&PIECES, 3, expect_columns) > 40_000);
}

#[test]
fn texts_are_truncated_and_padded_as_defined() {
    assert!(compare(&PIECES, 3, expect_shown) > 100_000);
    assert!(compare(&HOSTILE_PIECES, 3, expect_shown) > 100_000);
}

#[test]
fn texts_are_fitted_as_defined() {
    assert!(compare(&SLICED_PIECES, 3, expect_fitted) > 300_000);
}

#[test]
fn texts_are_sliced_as_defined() {
    assert!(compare(&SLICED_PIECES, 3, expect_slices) > 250_000);
}

#[test]
fn tabs_are_expanded_as_defined() {
    assert!(compare(&EXPANDED_PIECES, 4, expect_expanded) > 130_000);
}

#[test]
fn texts_are_wrapped_as_defined() {
    assert!(compare(&WRAPPED_PIECES, 4, expect_lines) > 300_000);
    assert!(compare(&UNCLEAN_PIECES, 4, expect_lines) > 400_000);
}
