//! Safe output: a stranger's text can't drive the terminal.
//!
//! A safe text has printing characters, TAB, line feeds, carriage returns directly before a line feed, SGRs and, if they are
//! kept, links (OSC 8). It has no other sequence, no lone escape, no control character and no bidirectional control. Characters
//! that look alike, the address of a link, and text hidden by SGR 8 or by equal colors aren't looked at.

use crate::{calls, AnsiStr};
use std::borrow::Cow;
use std::str;

/// What is made of what is unsafe in a text.
#[derive(Debug, Clone, Copy, PartialEq, Eq)]
pub enum Rest {
    /// It is left out.
    Drop,
    /// It is shown in printing characters: `^[` for ESC, `<U+009B>` for U+009B.
    Show,
}

/// What is made of the links of a text.
#[derive(Debug, Clone, Copy, PartialEq, Eq)]
pub enum Links {
    /// Each link is unsafe.
    Remove,
    /// A link stays if its address has at most 2,083 bytes and its parameters have at most 253, and each byte between its `ESC ]` and
    /// its terminator is printable ASCII.
    Keep,
}

/// What is made of what is unsafe in a text, and of its links.
///
/// ```
/// use ansi_str::safe::{AnsiSafe, Links, Policy, Rest};
/// let policy = Policy { rest: Rest::Show, links: Links::Remove };
/// assert_eq!("a\x07".ansi_sanitize(policy), "a^G");
/// ```
#[derive(Debug, Clone, Copy, PartialEq, Eq)]
pub struct Policy {
    /// What is made of what is unsafe.
    pub rest: Rest,
    /// What is made of links.
    pub links: Links,
}

/// Calls of safe output.
pub trait AnsiSafe: AnsiStr {
    /// The text made safe, with no style and no link open at its end. A safe text at whose end nothing is open is borrowed.
    ///
    /// ```
    /// use ansi_str::safe::{AnsiSafe, Links, Policy, Rest};
    /// let policy = Policy { rest: Rest::Drop, links: Links::Remove };
    /// assert_eq!("\x1b[2J\x1b[31mred\x07".ansi_sanitize(policy), "\x1b[31mred\x1b[39m");
    /// ```
    #[must_use]
    fn ansi_sanitize(&self, policy: Policy) -> Cow<'_, str>;

    /// Whether the text is safe. A style or a link may be open at its end.
    ///
    /// ```
    /// use ansi_str::safe::{AnsiSafe, Links};
    /// assert!("\x1b[31mred".ansi_is_safe(Links::Remove));
    /// assert!(!"\x1b[2J".ansi_is_safe(Links::Keep));
    /// ```
    #[must_use]
    fn ansi_is_safe(&self, links: Links) -> bool;
}

impl<T: AsRef<str> + ?Sized> AnsiSafe for T {
    fn ansi_sanitize(&self, policy: Policy) -> Cow<'_, str> {
        let text = self.as_ref();
        let safe = calls::sanitize(text, policy.rest as u32, policy.links as u32);
        if safe == text {
            Cow::Borrowed(text)
        } else {
            Cow::Owned(safe)
        }
    }

    fn ansi_is_safe(&self, links: Links) -> bool {
        calls::is_safe(self.as_ref(), links as u32)
    }
}

/// The text of any bytes, made safe as by [`AnsiSafe::ansi_sanitize`]: first U+FFFD takes the place of what isn't UTF-8, as in
/// std's `String::from_utf8_lossy`. Bytes that are a safe text, at whose end nothing is open, are borrowed.
///
/// ```
/// use ansi_str::safe::{sanitize_bytes, Links, Policy, Rest};
/// let policy = Policy { rest: Rest::Drop, links: Links::Remove };
/// assert_eq!(sanitize_bytes(b"\x1b[2Jcaf\xe9\x07", policy), "caf\u{fffd}");
/// ```
#[must_use]
pub fn sanitize_bytes(bytes: &[u8], policy: Policy) -> Cow<'_, str> {
    let safe = calls::sanitize_bytes(bytes, policy.rest as u32, policy.links as u32);
    match str::from_utf8(bytes) {
        Ok(text) if text == safe => Cow::Borrowed(text),
        _ => Cow::Owned(safe),
    }
}
