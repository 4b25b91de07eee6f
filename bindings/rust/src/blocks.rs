//! The blocks of a text: its runs, each with its style.

use crate::calls;
use crate::style::Style;
use crate::AnsiStr;
use std::borrow::Cow;
use std::iter::FusedIterator;
use std::option;
use std::sync::Arc;

/// A character that no sequence before it takes in, nor another such character joins.
const CELL: char = '\u{e9}';

/// The blocks of a text, in order. Each is a run of text up to the next sequence, after the non-SGR sequences since the
/// last run.
///
/// ```
/// use ansi_str::{get_blocks, Color};
/// let block = get_blocks("\x1b[31mred\x1b[39m and plain").next().unwrap();
/// assert_eq!((block.text(), block.style().foreground()), ("red", Some(Color::Red)));
/// ```
pub fn get_blocks(text: &str) -> AnsiBlockIter<'_> {
    let blocks = if text.ansi_has_any() {
        Blocks::Styled(calls::blocks(text))
    } else {
        Blocks::Bare(Some(text).filter(|text| !text.is_empty()).into_iter())
    };
    AnsiBlockIter { blocks, link: None }
}

/// A run of text in one style, after the non-SGR sequences since the last run. Blocks compare by their texts and styles.
///
/// ```
/// use ansi_str::get_blocks;
/// for block in get_blocks("\x1b[31mred\x1b[39m fox") {
///     let style = block.style();
///     println!("{}{}{}", style.start(), block.text(), style.end());
/// }
/// ```
#[derive(Debug, Clone)]
pub struct AnsiBlock<'a> {
    text: Cow<'a, str>,
    /// Where the run begins in the text.
    run_start: usize,
    style: Style,
    link: Option<Arc<str>>,
}

impl PartialEq for AnsiBlock<'_> {
    fn eq(&self, other: &Self) -> bool {
        self.text == other.text && self.style == other.style
    }
}

impl Eq for AnsiBlock<'_> {}

impl AnsiBlock<'_> {
    /// The text, with those sequences.
    ///
    /// ```
    /// use ansi_str::get_blocks;
    /// let block = get_blocks("\x1b[31mred\x1b[39m").next().unwrap();
    /// assert_eq!(block.text(), "red");
    /// ```
    #[must_use]
    pub fn text(&self) -> &str {
        &self.text
    }

    /// The run alone: a piece of the plain text, without ESC. So it can become HTML, once its `&` and `<` are escaped.
    ///
    /// ```
    /// use ansi_str::get_blocks;
    /// let block = get_blocks("\x1b[2J\x1b[31mred\x1b[39m").next().unwrap();
    /// assert_eq!((block.run(), block.text()), ("red", "\x1b[2Jred"));
    /// ```
    #[must_use]
    pub fn run(&self) -> &str {
        &self.text[self.run_start..]
    }

    /// The address of the link (OSC 8) of the run, or `None` if it has none.
    ///
    /// ```
    /// use ansi_str::get_blocks;
    /// let links: Vec<_> = get_blocks("a \x1b]8;;http://x\x1b\\link\x1b]8;;\x1b\\.")
    ///     .map(|block| block.link().map(str::to_owned))
    ///     .collect();
    /// assert_eq!(links, [None, Some("http://x".to_owned()), None]);
    /// ```
    #[must_use]
    pub fn link(&self) -> Option<&str> {
        self.link.as_deref()
    }

    /// Whether the style has something to close.
    ///
    /// ```
    /// use ansi_str::get_blocks;
    /// let blocks = get_blocks("\x1b[31mred\x1b[39m fox");
    /// assert!(blocks.map(|block| block.has_ansi()).eq([true, false]));
    /// ```
    #[must_use]
    pub fn has_ansi(&self) -> bool {
        self.style.has_any()
    }

    /// The style of the run.
    ///
    /// ```
    /// use ansi_str::get_blocks;
    /// let block = get_blocks("\x1b[1mbold").next().unwrap();
    /// assert!(block.style().is_bold());
    /// ```
    #[must_use]
    pub fn style(&self) -> &Style {
        &self.style
    }
}

/// An iterator over the blocks of a text, in order; [`get_blocks`] returns it.
///
/// ```
/// use ansi_str::get_blocks;
/// let blocks = get_blocks("\x1b[31mred\x1b[39m fox");
/// assert_eq!(blocks.count(), 2);
/// ```
#[derive(Debug, Clone)]
#[must_use = "iterators are lazy and do nothing unless consumed"]
pub struct AnsiBlockIter<'a> {
    blocks: Blocks<'a>,
    /// The link of the last block.
    link: Option<Arc<str>>,
}

#[derive(Debug, Clone)]
enum Blocks<'a> {
    /// all of a text without ESC, or nothing
    Bare(option::IntoIter<&'a str>),
    Styled(calls::Blocks<'a>),
}

impl<'a> Iterator for AnsiBlockIter<'a> {
    type Item = AnsiBlock<'a>;

    fn next(&mut self) -> Option<Self::Item> {
        let (text, run_start, style) = match &mut self.blocks {
            Blocks::Bare(text) => (Cow::Borrowed(text.next()?), 0, Style::EMPTY),
            Blocks::Styled(blocks) => blocks.next()?,
        };
        let sequences = &text[..run_start];
        if sequences.contains("\x1b]8;") {
            self.link = link_after(self.link.take(), sequences);
        }
        Some(AnsiBlock {
            run_start,
            style,
            link: self.link.clone(),
            text,
        })
    }

    fn size_hint(&self) -> (usize, Option<usize>) {
        match &self.blocks {
            Blocks::Bare(text) => text.size_hint(),
            Blocks::Styled(blocks) => blocks.size_hint(),
        }
    }
}

impl FusedIterator for AnsiBlockIter<'_> {}

/// The link after sequences, if `link` is open before them.
fn link_after(link: Option<Arc<str>>, sequences: &str) -> Option<Arc<str>> {
    match calls::link_at(&format!("{sequences}{CELL}"), 0) {
        Some(address) => Some(address.into()),
        // (they close each link, or have none)
        None => link
            .filter(|_| calls::link_at(&format!("\x1b]8;;-\x1b\\{sequences}{CELL}"), 0).is_some()),
    }
}
