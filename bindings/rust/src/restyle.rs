//! Where a pattern occurs and what is linked, parts of a text in another style or in a link, and a text without a part or with
//! another text in its place.
//!
//! Positions count bytes of the plain text. The library computes the results also for a text without ESC, since std can't.

use crate::{calls, AnsiStr};
use std::borrow::Cow;
use std::iter::FusedIterator;
use std::ops::Range;
use std::vec;

/// Calls on matches, ranges and links of a text, taken as if its sequences weren't there.
pub trait AnsiRestyle: AnsiStr {
    /// Where each match of a pattern begins and ends in the plain text, in order. Matches don't overlap, and may run across
    /// sequences. An empty pattern matches at each character boundary, one with an ESC nowhere. (std's `match_indices`, on the
    /// plain text.)
    ///
    /// ```
    /// use ansi_str::restyle::AnsiRestyle;
    /// let matches: Vec<_> = "a\x1b[1mba\x1b[0mb".ansi_matches("ab").collect();
    /// assert_eq!(matches, [0..2, 2..4]);
    /// ```
    #[must_use]
    fn ansi_matches(&self, pat: &str) -> AnsiMatches;

    /// The position of the pattern's first match that doesn't begin before a position, or `None`. The position may be inside a
    /// character, or past the end.
    ///
    /// ```
    /// use ansi_str::restyle::AnsiRestyle;
    /// assert_eq!("ab\x1b[1mab".ansi_find_from(1, "ab"), Some(2));
    /// assert_eq!("ab\x1b[1mab".ansi_find_from(3, "ab"), None);
    /// ```
    #[must_use]
    fn ansi_find_from(&self, position: usize, pat: &str) -> Option<usize>;

    /// The text with SGR codes applied to each character in the ranges. The codes are the parameters of an SGR, such as `1;31`:
    /// each character there has its own style after them. So `1` makes it bold and keeps its color, `22` makes it neither bold
    /// nor faint, and `0` or no code makes it plain. The result is borrowed if each range is empty.
    ///
    /// On a [whole](crate::is_whole) text every other character keeps its style, except for what an unknown code, such as `4:3` or
    /// `38:2::1:2:3`, has set: that ends after the next run of text in a range. The plain text and every other sequence stay.
    ///
    /// It is `None` if the codes have a byte other than a digit, `:` and `;`; or if a range begins before the one before it ends,
    /// ends before it begins or past the end of the plain text, or begins or ends inside a character. [`refused_range`] says which.
    ///
    /// ```
    /// use ansi_str::restyle::AnsiRestyle;
    /// let marked = "red \x1b[31mred".ansi_restyle(&[0..2, 5..6], "4").unwrap();
    /// assert_eq!(marked, "\x1b[4mre\x1b[24md \x1b[31mr\x1b[4me\x1b[24m\x1b[39m\x1b[31md");
    /// assert_eq!("red".ansi_restyle(&[0..1, 2..4], "4"), None);
    /// ```
    ///
    /// A search with a regular expression strips the text, and passes its matches:
    ///
    /// ```
    /// use ansi_str::{restyle::AnsiRestyle, AnsiStr};
    /// let log = "\x1b[31m404\x1b[39m in 12 ms";
    /// let plain = log.ansi_strip();
    /// // (with the crate `regex`: `Regex::new("[0-9]+")?.find_iter(&plain).map(|found| found.range())`)
    /// let numbers = plain.split(' ').filter(|word| word.parse::<u32>().is_ok());
    /// let ranges: Vec<_> = numbers
    ///     .map(|word| word.as_ptr() as usize - plain.as_ptr() as usize)
    ///     .zip([3, 2])
    ///     .map(|(start, len)| start..start + len)
    ///     .collect();
    /// let bold = log.ansi_restyle(&ranges, "1").unwrap();
    /// assert_eq!(bold, "\x1b[31m\x1b[1m404\x1b[22m\x1b[39m\x1b[31m\x1b[39m in \x1b[1m12\x1b[22m ms");
    /// ```
    #[must_use]
    fn ansi_restyle(&self, ranges: &[Range<usize>], codes: &str) -> Option<Cow<'_, str>>;

    /// The text with SGR codes applied to each match of a pattern, as [`ansi_matches`](AnsiRestyle::ansi_matches) finds them
    /// and [`ansi_restyle`](AnsiRestyle::ansi_restyle) applies them. It is `None` if the codes have a byte other than a digit,
    /// `:` and `;`, and borrowed if nothing matches or the pattern is empty.
    ///
    /// ```
    /// use ansi_str::restyle::AnsiRestyle;
    /// let marked = "to do: \x1b[1mdo".ansi_mark("do", "7").unwrap();
    /// assert_eq!(marked, "to \x1b[7mdo\x1b[27m: \x1b[1m\x1b[7mdo\x1b[22m\x1b[27m\x1b[1m");
    /// ```
    #[must_use]
    fn ansi_mark(&self, pat: &str, codes: &str) -> Option<Cow<'_, str>>;

    /// The text without a range of its plain text. Every sequence stays, so on a [whole](crate::is_whole) text each character that
    /// is left keeps its style. It is `None` if the range ends before it begins or past the end of the plain text, or begins or
    /// ends inside a character, and borrowed if the range is empty.
    ///
    /// ```
    /// use ansi_str::restyle::AnsiRestyle;
    /// let shorter = "one \x1b[1mtwo\x1b[22m three".ansi_remove(2..5).unwrap();
    /// assert_eq!(shorter, "on\x1b[1mwo\x1b[22m three");
    /// assert_eq!("one".ansi_remove(2..5), None);
    /// ```
    #[must_use]
    fn ansi_remove(&self, range: Range<usize>) -> Option<Cow<'_, str>>;

    /// The text with another text in place of a range of its plain text. The new text is in the style and the link of the
    /// character before the range; at the front, of the first one. Its own sequences come on top of that, and what they open
    /// ends with it. Every sequence of the text stays; those in the range come right after the new text.
    ///
    /// If both texts are [whole](crate::is_whole), each character before the range or after it keeps its style and its link, except
    /// that what an unknown code, such as `4:3`, has set ends with a new text that has an ESC.
    ///
    /// It is `None` if [`ansi_remove`](AnsiRestyle::ansi_remove) refuses the range, and borrowed if the range and the new text
    /// are empty.
    ///
    /// ```
    /// use ansi_str::restyle::AnsiRestyle;
    /// let replaced = "\x1b[32mgreen\x1b[39m".ansi_replace(1..3, "\x1b[1mAB").unwrap();
    /// assert_eq!(replaced, "\x1b[32mg\x1b[1mAB\x1b[22m\x1b[39m\x1b[32men\x1b[39m");
    /// assert_eq!("one".ansi_replace(2..5, "1"), None);
    /// ```
    #[must_use]
    fn ansi_replace(&self, range: Range<usize>, with: &str) -> Option<Cow<'_, str>>;

    /// The text with another text put in at a position, as [`ansi_replace`](AnsiRestyle::ansi_replace) does it with an empty
    /// range there. It is `None` if the position is past the end of the plain text or inside a character, and borrowed if the new
    /// text is empty.
    ///
    /// ```
    /// use ansi_str::restyle::AnsiRestyle;
    /// let longer = "\x1b[32mgreen\x1b[39m.".ansi_insert(5, "ish").unwrap();
    /// assert_eq!(longer, "\x1b[32mgreenish\x1b[39m.");
    /// assert_eq!("one".ansi_insert(4, "s"), None);
    /// ```
    #[must_use]
    fn ansi_insert(&self, position: usize, with: &str) -> Option<Cow<'_, str>>;

    /// The text with another text in place of each match of a pattern, as [`ansi_matches`](AnsiRestyle::ansi_matches) finds them
    /// and [`ansi_replace`](AnsiRestyle::ansi_replace) replaces each: the new text is in the style and the link that the character
    /// before the match has in this text. Every other character keeps its style and its link as there. It is borrowed if nothing
    /// matches. (std's `replace`, on the plain text.)
    ///
    /// ```
    /// use ansi_str::restyle::AnsiRestyle;
    /// let replaced = "\x1b[32mone\x1b[39m, one".ansi_replace_all("one", "two");
    /// assert_eq!(replaced, "\x1b[32mtwo\x1b[39m, two");
    /// ```
    #[must_use]
    fn ansi_replace_all(&self, pat: &str, with: &str) -> Cow<'_, str>;

    /// The text with a text of its own in place of each of many ranges, in one pass. Each is replaced as
    /// [`ansi_replace`](AnsiRestyle::ansi_replace) does it: its new text is in the style and the link that the character before
    /// the range has in this text. Every other character keeps its style and its link as there. Texts at the same position come in
    /// the order of their ranges. It is borrowed if each range is empty, and so is the text in its place.
    ///
    /// It is `None` if [`ansi_restyle`](AnsiRestyle::ansi_restyle) would refuse the ranges.
    ///
    /// ```
    /// use ansi_str::restyle::{AnsiRestyle, Replacement};
    /// let edits = [Replacement { range: 0..3, with: "1" }, Replacement { range: 4..7, with: "2" }];
    /// let replaced = "\x1b[32mone\x1b[39m two".ansi_replace_each(&edits).unwrap();
    /// assert_eq!(replaced, "\x1b[32m1\x1b[39m 2");
    /// ```
    #[must_use]
    fn ansi_replace_each(&self, edits: &[Replacement<'_>]) -> Option<Cow<'_, str>>;

    /// The links of the text, in order. A link sequence (OSC 8) with an address opens a link, which goes on up to the next link
    /// sequence or the end of the text. A link without text is left out.
    ///
    /// ```
    /// use ansi_str::restyle::AnsiRestyle;
    /// let mut links = "a \x1b]8;;http://x\x1b\\l\x1b[1mink\x1b]8;;\x1b\\".ansi_links();
    /// let link = links.next().unwrap();
    /// assert_eq!((link.range, link.address.as_str()), (2..6, "http://x"));
    /// assert_eq!(links.next(), None);
    /// ```
    #[must_use]
    fn ansi_links(&self) -> AnsiLinks;

    /// The text with a range linked to an address (OSC 8, without parameters). Each character in the range loses another link
    /// that it had. Every other character keeps its link: one that goes on into the range ends before it, and one that goes on
    /// after it is opened again there. The plain text, the styles and all other sequences stay.
    ///
    /// It is `None` if [`ansi_remove`](AnsiRestyle::ansi_remove) refuses the range, or if the address is empty, has more than 2,083
    /// bytes, or has a byte that isn't printable ASCII (20 to 7E). It is borrowed if the range is empty.
    ///
    /// ```
    /// use ansi_str::restyle::AnsiRestyle;
    /// let linked = "see \x1b[1mhere".ansi_link(4..8, "http://x").unwrap();
    /// assert_eq!(linked, "see \x1b[1m\x1b]8;;http://x\x1b\\here\x1b]8;;\x1b\\");
    /// assert_eq!("here".ansi_link(0..4, "a\nb"), None);
    /// ```
    #[must_use]
    fn ansi_link(&self, range: Range<usize>, address: &str) -> Option<Cow<'_, str>>;

    /// The text without its links: its link sequences (OSC 8) are left out, and everything else stays. It is borrowed if there is
    /// none.
    ///
    /// ```
    /// use ansi_str::restyle::AnsiRestyle;
    /// let bare = "\x1b]8;;http://x\x1b\\a \x1b[1mlink\x1b[0m\x1b]8;;\x1b\\".ansi_unlink();
    /// assert_eq!(bare, "a \x1b[1mlink\x1b[0m");
    /// ```
    #[must_use]
    fn ansi_unlink(&self) -> Cow<'_, str>;
}

/// The index of the first range that [`AnsiRestyle::ansi_restyle`] and [`AnsiRestyle::ansi_replace_each`] refuse, or `None` if they
/// refuse none.
///
/// ```
/// use ansi_str::restyle::refused_range;
/// assert_eq!(refused_range("\x1b[31mred", &[0..1, 1..3]), None);
/// assert_eq!(refused_range("\x1b[31mred", &[0..2, 1..3]), Some(1));
/// assert_eq!(refused_range("\x1b[31mred", &[0..4, 5..6]), Some(0));
/// ```
#[must_use]
pub fn refused_range(text: &str, ranges: &[Range<usize>]) -> Option<usize> {
    calls::refused_range(text, ranges)
}

/// A link of a text; [`AnsiRestyle::ansi_links`] gives it.
#[derive(Debug, Clone, PartialEq, Eq, Hash)]
pub struct AnsiLink {
    /// Where its text begins and ends in the plain text.
    pub range: Range<usize>,
    /// Its address, which isn't empty.
    pub address: String,
}

/// An iterator over links; [`AnsiRestyle::ansi_links`] returns it. That call finds all links, so the iterator doesn't borrow the
/// text.
#[derive(Debug, Clone)]
pub struct AnsiLinks {
    /// The addresses of all links, concatenated.
    addresses: String,
    /// Where the next one begins.
    start: usize,
    links: vec::IntoIter<calls::RawLink>,
}

impl Iterator for AnsiLinks {
    type Item = AnsiLink;

    fn next(&mut self) -> Option<AnsiLink> {
        let link = self.links.next()?;
        let address = self.addresses[self.start..link.address_end].to_owned();
        self.start = link.address_end;
        Some(AnsiLink {
            range: link.start..link.end,
            address,
        })
    }

    fn size_hint(&self) -> (usize, Option<usize>) {
        self.links.size_hint()
    }
}

impl ExactSizeIterator for AnsiLinks {}
impl FusedIterator for AnsiLinks {}

/// A range of a plain text, and the text in its place; [`AnsiRestyle::ansi_replace_each`] accepts a list of them.
#[derive(Debug, Clone, PartialEq, Eq, Hash)]
pub struct Replacement<'a> {
    /// The range, in bytes of the plain text.
    pub range: Range<usize>,
    /// The text in its place.
    pub with: &'a str,
}

/// An iterator over where a pattern occurs; [`AnsiRestyle::ansi_matches`] returns it. That call finds all matches, so the iterator
/// doesn't borrow the text.
#[derive(Debug, Clone)]
pub struct AnsiMatches(vec::IntoIter<calls::RawRange>);

impl Iterator for AnsiMatches {
    type Item = Range<usize>;

    fn next(&mut self) -> Option<Range<usize>> {
        self.0.next().map(|range| range.start..range.end)
    }

    fn size_hint(&self) -> (usize, Option<usize>) {
        self.0.size_hint()
    }
}

impl ExactSizeIterator for AnsiMatches {}
impl FusedIterator for AnsiMatches {}

impl<T: AsRef<str> + ?Sized> AnsiRestyle for T {
    fn ansi_matches(&self, pat: &str) -> AnsiMatches {
        AnsiMatches(calls::matches(self.as_ref(), pat).into_iter())
    }

    fn ansi_find_from(&self, position: usize, pat: &str) -> Option<usize> {
        calls::find_from(self.as_ref(), position, pat)
    }

    fn ansi_restyle(&self, ranges: &[Range<usize>], codes: &str) -> Option<Cow<'_, str>> {
        let text = self.as_ref();
        let restyled = calls::restyle(text, ranges, codes)?;
        let is_same = ranges.iter().all(|range| range.start == range.end);
        Some(borrowed_if(is_same, text, restyled))
    }

    fn ansi_mark(&self, pat: &str, codes: &str) -> Option<Cow<'_, str>> {
        let text = self.as_ref();
        let marked = calls::mark(text, pat, codes)?;
        // (a mark makes a text longer)
        Some(borrowed_if(marked.len() == text.len(), text, marked))
    }

    fn ansi_remove(&self, range: Range<usize>) -> Option<Cow<'_, str>> {
        let text = self.as_ref();
        let shorter = calls::remove(text, range.start, range.end)?;
        Some(borrowed_if(range.start == range.end, text, shorter))
    }

    fn ansi_replace(&self, range: Range<usize>, with: &str) -> Option<Cow<'_, str>> {
        let text = self.as_ref();
        let replaced = calls::replace(text, range.start, range.end, with)?;
        let is_same = range.start == range.end && with.is_empty();
        Some(borrowed_if(is_same, text, replaced))
    }

    fn ansi_insert(&self, position: usize, with: &str) -> Option<Cow<'_, str>> {
        let text = self.as_ref();
        let longer = calls::insert(text, position, with)?;
        Some(borrowed_if(with.is_empty(), text, longer))
    }

    fn ansi_replace_all(&self, pat: &str, with: &str) -> Cow<'_, str> {
        let text = self.as_ref();
        match text.ansi_find(pat) {
            Some(_) => Cow::Owned(calls::replace_all(text, pat, with)),
            None => Cow::Borrowed(text),
        }
    }

    fn ansi_replace_each(&self, edits: &[Replacement<'_>]) -> Option<Cow<'_, str>> {
        let text = self.as_ref();
        let replaced = calls::replace_each(text, edits)?;
        let is_nothing =
            |edit: &Replacement<'_>| edit.range.start == edit.range.end && edit.with.is_empty();
        Some(borrowed_if(edits.iter().all(is_nothing), text, replaced))
    }

    fn ansi_links(&self) -> AnsiLinks {
        let (addresses, links) = calls::links(self.as_ref());
        AnsiLinks {
            addresses,
            start: 0,
            links: links.into_iter(),
        }
    }

    fn ansi_link(&self, range: Range<usize>, address: &str) -> Option<Cow<'_, str>> {
        let text = self.as_ref();
        let linked = calls::link(text, range.start, range.end, address)?;
        Some(borrowed_if(range.start == range.end, text, linked))
    }

    fn ansi_unlink(&self) -> Cow<'_, str> {
        let text = self.as_ref();
        let bare = calls::unlink(text);
        // (a link sequence that is left out makes a text shorter)
        borrowed_if(bare.len() == text.len(), text, bare)
    }
}

/// The text, if the answer is the same.
fn borrowed_if(is_same: bool, text: &str, answer: String) -> Cow<'_, str> {
    if is_same {
        Cow::Borrowed(text)
    } else {
        Cow::Owned(answer)
    }
}
