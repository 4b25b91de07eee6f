//! What is open at the end of a text. The Rust crate lacks this.

use crate::{calls, AnsiStr, Style};

/// The style and the link that are open at the end of a text; [`pen_after`] returns it.
///
/// ```
/// let pen = ansi_str::pen_after("\x1b[1mbold\x1b[0m");
/// assert!(pen.start().is_empty() && pen.end().is_empty());
/// ```
#[derive(Debug, Clone, PartialEq, Eq)]
pub struct Pen {
    style: Style,
    link: Option<String>,
    start: String,
    end: String,
}

impl Pen {
    /// The style.
    ///
    /// ```
    /// assert!(ansi_str::pen_after("\x1b[1mbold").style().is_bold());
    /// ```
    #[must_use]
    pub fn style(&self) -> &Style {
        &self.style
    }

    /// The address of the link (OSC 8), or `None` if none is open.
    ///
    /// ```
    /// assert_eq!(ansi_str::pen_after("\x1b]8;;http://x\x1b\\li").link(), Some("http://x"));
    /// ```
    #[must_use]
    pub fn link(&self) -> Option<&str> {
        self.link.as_deref()
    }

    /// The sequences that open both again, the style first. A link that a safe text wouldn't keep isn't opened, and what an unknown
    /// SGR code has set isn't set.
    ///
    /// ```
    /// assert_eq!(ansi_str::pen_after("\x1b[31mred").start(), "\x1b[31m");
    /// ```
    #[must_use]
    pub fn start(&self) -> &str {
        &self.start
    }

    /// The sequences that close both, the link first.
    ///
    /// ```
    /// assert_eq!(ansi_str::pen_after("\x1b[31mred").end(), "\x1b[39m");
    /// ```
    #[must_use]
    pub fn end(&self) -> &str {
        &self.end
    }
}

/// The style and the link that are open at the end of a text. So each line of several can be printed alone: print its `end` there, and
/// its `start` before the next line.
///
/// ```
/// use ansi_str::pen_after;
/// let (first, second) = ("\x1b[31mone", "two\x1b[39m");
/// let pen = pen_after(first);
/// assert_eq!(format!("{first}{}", pen.end()), "\x1b[31mone\x1b[39m");
/// let second = format!("{}{second}", pen.start());
/// assert_eq!(second, "\x1b[31mtwo\x1b[39m");
/// assert_eq!(pen_after(&second).end(), "");
/// ```
#[must_use]
pub fn pen_after(text: &str) -> Pen {
    if !text.ansi_has_any() {
        return Pen {
            style: Style::EMPTY,
            link: None,
            start: String::new(),
            end: String::new(),
        };
    }
    let (style, link) = calls::pen_after(text);
    Pen {
        style,
        link: Some(link.into_owned()).filter(|link| !link.is_empty()),
        start: calls::pen_start(text),
        end: calls::pen_end(text),
    }
}
