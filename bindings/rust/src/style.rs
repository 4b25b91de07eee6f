//! The style of a block, and its colors.

use crate::calls::{self, RawStyle};
use std::fmt::{self, Debug, Display, Formatter};

/// A color by its name, by its number among 256, or by its red, green and blue.
///
/// No sequence sets `Purple` or `BrightPurple`: code 35 is `Magenta`.
///
/// ```
/// use ansi_str::{get_blocks, Color};
/// let block = get_blocks("\x1b[38;5;9mx").next().unwrap();
/// assert_eq!(block.style().foreground(), Some(Color::Fixed(9)));
/// ```
#[derive(Debug, Clone, Copy, PartialEq, Eq, PartialOrd, Ord, Hash)]
pub enum Color {
    /// Code 30, and 40 behind the text.
    Black,
    /// Code 90, and 100 behind the text.
    BrightBlack,
    /// Code 31, and 41 behind the text.
    Red,
    /// Code 91, and 101 behind the text.
    BrightRed,
    /// Code 32, and 42 behind the text.
    Green,
    /// Code 92, and 102 behind the text.
    BrightGreen,
    /// Code 33, and 43 behind the text.
    Yellow,
    /// Code 93, and 103 behind the text.
    BrightYellow,
    /// Code 34, and 44 behind the text.
    Blue,
    /// Code 94, and 104 behind the text.
    BrightBlue,
    /// Set by no code.
    Purple,
    /// Set by no code.
    BrightPurple,
    /// Code 35, and 45 behind the text.
    Magenta,
    /// Code 95, and 105 behind the text.
    BrightMagenta,
    /// Code 36, and 46 behind the text.
    Cyan,
    /// Code 96, and 106 behind the text.
    BrightCyan,
    /// Code 37, and 47 behind the text.
    White,
    /// Code 97, and 107 behind the text.
    BrightWhite,
    /// One of 256 colors, by its number.
    Fixed(u8),
    /// Red, green and blue.
    Rgb(u8, u8, u8),
}

/// The style of a run of text. Styles compare by all their parts, as those of the crate do: the color of the text, the color
/// behind it, the underline's color, then each attribute. A reset (code 0) and a code that isn't known are attributes
/// too, so two styles may differ although the sequences that set them are the same.
///
/// ```
/// use ansi_str::get_blocks;
/// let styles: Vec<_> = get_blocks("\x1b[1ma\x1b[22mb\x1b[1mc\x1b[0;1md").map(|block| *block.style()).collect();
/// assert_eq!(styles[0], styles[2]);
/// assert!(styles[1] < styles[0]);
/// assert_ne!(styles[0], styles[3]);
/// ```
#[derive(Clone, Copy, PartialEq, Eq, PartialOrd, Ord, Hash)]
pub struct Style(pub(crate) RawStyle);

impl Style {
    /// The style of a text without ESC.
    pub(crate) const EMPTY: Style = Style(RawStyle::PLAIN);

    pub(crate) fn has_any(&self) -> bool {
        self.0.has_any()
    }

    /// The style that SGR codes such as `1;31` select, or `None` if they have anything but digits, `;` and `:`. The Rust crate
    /// lacks this, [`union`](Style::union) and [`difference`](Style::difference).
    ///
    /// ```
    /// use ansi_str::{Color, Style};
    /// let style = Style::of("1;31").unwrap();
    /// assert!(style.is_bold() && style.foreground() == Some(Color::Red));
    /// assert_eq!(Style::of("bold"), None);
    /// ```
    #[must_use]
    pub fn of(codes: &str) -> Option<Style> {
        let is_code = |byte: u8| byte.is_ascii_digit() || byte == b';' || byte == b':';
        codes
            .bytes()
            .all(is_code)
            .then(|| calls::pen_after(&format!("\x1b[{codes}m")).0)
    }

    /// What is set in either of two styles. A color or a font of `other` is taken before that of this style, and the marks of a
    /// reset and of an unknown code are those of this style.
    ///
    /// ```
    /// use ansi_str::Style;
    /// let (bold_red, blue) = (Style::of("1;31").unwrap(), Style::of("34").unwrap());
    /// assert_eq!(bold_red.union(&blue).codes(), "1;34");
    /// ```
    #[must_use]
    pub fn union(&self, other: &Style) -> Style {
        Style(self.0.union(&other.0))
    }

    /// What is set in this style and isn't set so in the other: no attribute, color or font that both have. The marks of a reset
    /// and of an unknown code are those of this style.
    ///
    /// ```
    /// use ansi_str::Style;
    /// let (bold_red, red) = (Style::of("1;31").unwrap(), Style::of("31").unwrap());
    /// assert_eq!(bold_red.difference(&red).codes(), "1");
    /// ```
    #[must_use]
    pub fn difference(&self, other: &Style) -> Style {
        Style(self.0.difference(&other.0))
    }

    /// Prints the sequences that set the style.
    ///
    /// ```
    /// use ansi_str::get_blocks;
    /// let block = get_blocks("\x1b[31mred\x1b[39m").next().unwrap();
    /// assert_eq!(block.style().start().to_string(), "\x1b[31m");
    /// ```
    #[must_use]
    pub fn start(&self) -> AnsiSequenceStart<'_> {
        AnsiSequenceStart(self)
    }

    /// Prints the sequences that close the style, and nothing if it has nothing to close.
    ///
    /// ```
    /// use ansi_str::get_blocks;
    /// let block = get_blocks("\x1b[31mred\x1b[39m").next().unwrap();
    /// assert_eq!(block.style().end().to_string(), "\x1b[39m");
    /// ```
    #[must_use]
    pub fn end(&self) -> AnsiSequenceEnd<'_> {
        AnsiSequenceEnd(self)
    }

    /// The color of the text.
    ///
    /// ```
    /// use ansi_str::{get_blocks, Color};
    /// let block = get_blocks("\x1b[31mred\x1b[39m").next().unwrap();
    /// assert_eq!(block.style().foreground(), Some(Color::Red));
    /// ```
    #[must_use]
    pub fn foreground(&self) -> Option<Color> {
        self.0.foreground.color()
    }

    /// The color behind the text.
    ///
    /// ```
    /// use ansi_str::{get_blocks, Color};
    /// let block = get_blocks("\x1b[48;2;1;2;3mx").next().unwrap();
    /// assert_eq!(block.style().background(), Some(Color::Rgb(1, 2, 3)));
    /// ```
    #[must_use]
    pub fn background(&self) -> Option<Color> {
        self.0.background.color()
    }

    /// The color of the underline.
    ///
    /// ```
    /// use ansi_str::{get_blocks, Color};
    /// let block = get_blocks("\x1b[4m\x1b[58;5;9mx").next().unwrap();
    /// assert_eq!(block.style().underline_color(), Some(Color::Fixed(9)));
    /// ```
    #[must_use]
    pub fn underline_color(&self) -> Option<Color> {
        self.0.underline_color.color()
    }

    /// The font by its code, from 11 to 19.
    ///
    /// ```
    /// let block = ansi_str::get_blocks("\x1b[11mx").next().unwrap();
    /// assert_eq!(block.style().font(), Some(11));
    /// ```
    #[must_use]
    pub fn font(&self) -> Option<u8> {
        self.0.font()
    }

    /// The SGR codes that set the style, for [`ansi_restyle`](crate::restyle::AnsiRestyle::ansi_restyle) and
    /// [`ansi_mark`](crate::restyle::AnsiRestyle::ansi_mark). It is empty for a plain style.
    ///
    /// ```
    /// use ansi_str::{get_blocks, restyle::AnsiRestyle};
    /// let block = get_blocks("\x1b[1m\x1b[31mwarning").next().unwrap();
    /// assert_eq!(block.style().codes(), "1;31");
    /// let marked = "a warning".ansi_mark("warning", &block.style().codes()).unwrap();
    /// assert_eq!(marked, "a \x1b[1;31mwarning\x1b[22m\x1b[39m");
    /// ```
    #[must_use]
    pub fn codes(&self) -> String {
        let start = self.0.start();
        // (the start has a sequence for each code)
        let codes = start
            .split("\x1b[")
            .skip(1)
            .map(|code| &code[..code.len() - 1]);
        codes.collect::<Vec<_>>().join(";")
    }
}

/// The tests of the attributes, by their bits.
macro_rules! attributes {
    ($($bit:literal $name:ident $code:literal),*) => {
        impl Style {
            $(
                #[doc = concat!("Whether the attribute is set that code ", $code, " sets.")]
                ///
                /// ```
                #[doc = concat!("let block = ansi_str::get_blocks(\"\\x1b[", $code, "mx\").next().unwrap();")]
                #[doc = concat!("assert!(block.style().", stringify!($name), "());")]
                /// ```
                #[must_use]
                pub fn $name(&self) -> bool {
                    self.0.attributes & (1 << $bit) != 0
                }
            )*
        }
    };
}

attributes!(
    0 is_bold "1", 1 is_faint "2", 2 is_italic "3", 3 is_underline "4", 4 is_double_underline "21", 5 is_slow_blink "5",
    6 is_rapid_blink "6", 7 is_inverse "7", 8 is_hide "8", 9 is_crossedout "9", 10 is_framed "51", 11 is_encircled "52",
    12 is_fraktur "20", 13 is_proportional_spacing "26", 14 is_overlined "53", 15 is_ideogram_underline "60",
    16 is_ideogram_double_underline "61", 17 is_ideogram_overline "62", 18 is_ideogram_double_overline "63",
    19 is_ideogram_stress_marking "64", 20 is_superscript "73", 21 is_subscript "74"
);

impl Debug for Style {
    fn fmt(&self, formatter: &mut Formatter<'_>) -> fmt::Result {
        formatter
            .debug_struct("Style")
            .field("start", &self.0.start())
            .field("end", &self.0.end())
            .finish()
    }
}

/// Prints the sequences that set a style.
///
/// ```
/// use ansi_str::get_blocks;
/// let block = get_blocks("\x1b[31mred\x1b[39m").next().unwrap();
/// assert_eq!(format!("{}!", block.style().start()), "\x1b[31m!");
/// ```
pub struct AnsiSequenceStart<'a>(&'a Style);

impl Display for AnsiSequenceStart<'_> {
    fn fmt(&self, formatter: &mut Formatter<'_>) -> fmt::Result {
        formatter.write_str(&self.0 .0.start())
    }
}

/// Prints the sequences that close a style.
///
/// ```
/// use ansi_str::get_blocks;
/// let block = get_blocks("\x1b[31mred\x1b[39m").next().unwrap();
/// assert_eq!(format!("!{}", block.style().end()), "!\x1b[39m");
/// ```
pub struct AnsiSequenceEnd<'a>(&'a Style);

impl AnsiSequenceEnd<'_> {
    /// The sequence that closes every style.
    ///
    /// ```
    /// use ansi_str::AnsiSequenceEnd;
    /// let reset = format!("\x1b[1mbold{}", AnsiSequenceEnd::RESET_ALL);
    /// assert_eq!(reset, "\x1b[1mbold\x1b[0m");
    /// ```
    pub const RESET_ALL: &'static str = "\x1b[0m";
}

impl Display for AnsiSequenceEnd<'_> {
    fn fmt(&self, formatter: &mut Formatter<'_>) -> fmt::Result {
        formatter.write_str(&self.0 .0.end())
    }
}
