//! The calls of the library for C, over texts: the one module that isn't safe.

use crate::columns::ColumnEdit;
use crate::restyle::Replacement;
use crate::style::{Color, Style};
use crate::Edit;
use std::borrow::Cow;
use std::cmp::Ordering;
use std::marker::PhantomData;
use std::mem::{size_of, MaybeUninit};
use std::ops::Range;
use std::{ptr, slice, str};

/// The statuses of `include/ansi_str.h`.
const OK: u32 = 0;
const NO: u32 = 1;
const REFUSED: u32 = 2;
const TOO_SMALL: u32 = 4;
const OUT_OF_MEMORY: u32 = 5;

/// The greatest length of a style's start, of its close, and of both together.
pub(crate) const LONGEST_START: usize = 163;
pub(crate) const LONGEST_CLOSE: usize = 88;
const LONGEST_START_AND_CLOSE: usize = LONGEST_START + LONGEST_CLOSE;

#[repr(C)]
#[derive(Clone, Copy)]
struct Answer {
    status: u32,
    len: usize,
}

#[repr(C)]
#[derive(Clone, Copy)]
struct Answers {
    status: u32,
    count: usize,
    len: usize,
}

/// A color, a font and a style, as the header describes them bit by bit.
#[repr(C)]
#[derive(Debug, Clone, Copy, PartialEq, Eq, PartialOrd, Ord, Hash)]
pub(crate) struct RawColor {
    kind: u8,
    first: u8,
    second: u8,
    third: u8,
}

#[repr(C)]
#[derive(Debug, Clone, Copy, PartialEq, Eq, PartialOrd, Ord, Hash)]
struct RawFont {
    is_set: bool,
    number: u8,
}

#[repr(C)]
#[derive(Debug, Clone, Copy, PartialEq, Eq, Hash)]
pub(crate) struct RawStyle {
    pub(crate) attributes: u32,
    pub(crate) foreground: RawColor,
    pub(crate) background: RawColor,
    pub(crate) underline_color: RawColor,
    font: RawFont,
}

/// The state of a walk of this many bytes, which is the library's own. Its bytes may be those of a pointer.
#[repr(C, align(8))]
#[derive(Debug, Clone, Copy)]
struct State<const N: usize> {
    bytes: [MaybeUninit<u8>; N],
}

type RawWalk = State<40>;
type RawPartWalk = State<80>;
type RawLineWalk = State<64>;

// Where the header says that a state has these bytes.
const TEXT: usize = 0;
const PATTERN: usize = 16;
const FINISHED: usize = 76;

impl<const N: usize> State<N> {
    /// Zeros.
    const ZERO: State<N> = State {
        bytes: [MaybeUninit::new(0); N],
    };

    /// The same with the pointer of an empty text at a place.
    fn with_text(mut self, place: usize) -> State<N> {
        let bytes = &mut self.bytes[place..place + size_of::<Bytes>()];
        // SAFETY: the bytes of one pointer, at any alignment
        unsafe { ptr::write_unaligned(bytes.as_mut_ptr().cast(), "".as_ptr()) };
        self
    }
}

impl RawWalk {
    /// A walk with no block left.
    fn none() -> RawWalk {
        State::ZERO.with_text(TEXT)
    }
}

impl RawLineWalk {
    /// A walk with no line left.
    fn none() -> RawLineWalk {
        State::ZERO.with_text(TEXT)
    }
}

impl RawPartWalk {
    /// A walk with no part left.
    fn none() -> RawPartWalk {
        let mut walk = State::ZERO.with_text(TEXT).with_text(PATTERN);
        walk.bytes[FINISHED] = MaybeUninit::new(1);
        walk
    }
}

#[repr(C)]
struct RawPart {
    text: Bytes,
    len: usize,
}

#[repr(C)]
struct RawBlock {
    text: Bytes,
    len: usize,
    style: RawStyle,
}

#[repr(C)]
struct RawPen {
    link: Bytes,
    len: usize,
    style: RawStyle,
}

#[repr(C)]
#[derive(Clone, Copy)]
struct RawLine {
    start: usize,
    end: usize,
}

/// A range of a plain text.
#[repr(C)]
#[derive(Debug, Clone, Copy)]
pub(crate) struct RawRange {
    pub(crate) start: usize,
    pub(crate) end: usize,
}

/// A range, and the text in its place.
#[repr(C)]
struct RawReplacement {
    start: usize,
    end: usize,
    with: Bytes,
    with_len: usize,
}

/// A link: its range, and where its address ends in the addresses of all links.
#[repr(C)]
#[derive(Debug, Clone, Copy)]
pub(crate) struct RawLink {
    pub(crate) start: usize,
    pub(crate) end: usize,
    pub(crate) address_end: usize,
}

/// An edit by the number of its kind, its positions or its index, and its pattern.
#[repr(C)]
struct RawEdit {
    kind: u32,
    first: usize,
    second: usize,
    pattern: Bytes,
    pattern_len: usize,
}

impl RawEdit {
    /// An edit that doesn't take what isn't given has 0 and an empty pattern for it.
    fn new(edit: &Edit<'_>) -> RawEdit {
        let (kind, first, second, pattern) = match *edit {
            Edit::Cut { start, end } => (0, start, end.unwrap_or(usize::MAX), ""),
            Edit::Left(mid) => (1, mid, 0, ""),
            Edit::Right(mid) => (2, mid, 0, ""),
            Edit::Part { pat, index } => (3, index, 0, pat),
            Edit::Prefix(prefix) => (4, 0, 0, prefix),
            Edit::Suffix(suffix) => (5, 0, 0, suffix),
            Edit::Trim => (6, 0, 0, ""),
        };
        RawEdit {
            kind,
            first,
            second,
            pattern: pattern.as_ptr(),
            pattern_len: pattern.len(),
        }
    }
}

/// An edit by columns by the number of its kind, that of its side or alignment, its columns, and its tail.
#[repr(C)]
struct RawColumnEdit {
    kind: u32,
    place: u32,
    first: usize,
    second: usize,
    tail: Bytes,
    tail_len: usize,
}

impl RawColumnEdit {
    /// An edit that doesn't take what isn't given has 0 and an empty tail for it.
    fn new(edit: &ColumnEdit<'_>) -> RawColumnEdit {
        let (kind, place, first, second, tail) = match *edit {
            ColumnEdit::Expand(stop) => (0, 0, stop, 0, ""),
            ColumnEdit::Slice { start, end } => (1, 0, start, end.unwrap_or(usize::MAX), ""),
            ColumnEdit::Truncate { width, tail, side } => (2, side as u32, width, 0, tail),
            ColumnEdit::Pad { width, alignment } => (3, alignment as u32, width, 0, ""),
            ColumnEdit::Fit {
                width,
                alignment,
                tail,
            } => (4, alignment as u32, width, 0, tail),
        };
        RawColumnEdit {
            kind,
            place,
            first,
            second,
            tail: tail.as_ptr(),
            tail_len: tail.len(),
        }
    }
}

// A text or a buffer is a pointer to its first byte and its length. The pointer of a slice is never null.
type Bytes = *const u8;
type Room = *mut u8;

extern "C" {
    fn ansi_str_raw_strip_unchecked(t: Bytes, n: usize, b: Room, m: usize) -> Answer;
    fn ansi_str_raw_cut(t: Bytes, n: usize, start: usize, end: usize, b: Room, m: usize) -> Answer;
    fn ansi_str_raw_left(t: Bytes, n: usize, mid: usize, b: Room, m: usize) -> Answer;
    fn ansi_str_raw_right(t: Bytes, n: usize, mid: usize, b: Room, m: usize) -> Answer;
    fn ansi_str_raw_trim(t: Bytes, n: usize, b: Room, m: usize) -> Answer;
    fn ansi_str_raw_strip_prefix(
        t: Bytes,
        n: usize,
        p: Bytes,
        k: usize,
        b: Room,
        m: usize,
    ) -> Answer;
    fn ansi_str_raw_strip_suffix(
        t: Bytes,
        n: usize,
        p: Bytes,
        k: usize,
        b: Room,
        m: usize,
    ) -> Answer;
    fn ansi_str_raw_part(
        t: Bytes,
        n: usize,
        p: Bytes,
        k: usize,
        index: usize,
        b: Room,
        m: usize,
    ) -> Answer;
    fn ansi_str_raw_edit(
        t: Bytes,
        n: usize,
        edits: *const RawEdit,
        k: usize,
        b: Room,
        m: usize,
    ) -> Answer;
    fn ansi_str_raw_is_whole(t: Bytes, n: usize) -> Answer;
    fn ansi_str_raw_find_unchecked(t: Bytes, n: usize, p: Bytes, k: usize) -> Answer;
    fn ansi_str_raw_find_from(t: Bytes, n: usize, position: usize, p: Bytes, k: usize) -> Answer;
    fn ansi_str_raw_matches(
        t: Bytes,
        n: usize,
        p: Bytes,
        k: usize,
        ranges: *mut RawRange,
        most: usize,
    ) -> Answers;
    fn ansi_str_raw_refused_range(t: Bytes, n: usize, ranges: *const RawRange, k: usize) -> Answer;
    fn ansi_str_raw_restyle(
        t: Bytes,
        n: usize,
        ranges: *const RawRange,
        count: usize,
        codes: Bytes,
        codes_len: usize,
        b: Room,
        m: usize,
    ) -> Answer;
    fn ansi_str_raw_mark(
        t: Bytes,
        n: usize,
        p: Bytes,
        k: usize,
        codes: Bytes,
        codes_len: usize,
        b: Room,
        m: usize,
    ) -> Answer;
    fn ansi_str_raw_remove(
        t: Bytes,
        n: usize,
        start: usize,
        end: usize,
        b: Room,
        m: usize,
    ) -> Answer;
    fn ansi_str_raw_replace(
        t: Bytes,
        n: usize,
        start: usize,
        end: usize,
        with: Bytes,
        with_len: usize,
        b: Room,
        m: usize,
    ) -> Answer;
    fn ansi_str_raw_insert(
        t: Bytes,
        n: usize,
        position: usize,
        with: Bytes,
        with_len: usize,
        b: Room,
        m: usize,
    ) -> Answer;
    fn ansi_str_raw_replace_all(
        t: Bytes,
        n: usize,
        p: Bytes,
        k: usize,
        with: Bytes,
        with_len: usize,
        b: Room,
        m: usize,
    ) -> Answer;
    fn ansi_str_raw_replace_each(
        t: Bytes,
        n: usize,
        edits: *const RawReplacement,
        k: usize,
        b: Room,
        m: usize,
    ) -> Answer;
    fn ansi_str_raw_link(
        t: Bytes,
        n: usize,
        start: usize,
        end: usize,
        address: Bytes,
        address_len: usize,
        b: Room,
        m: usize,
    ) -> Answer;
    fn ansi_str_raw_unlink(t: Bytes, n: usize, b: Room, m: usize) -> Answer;
    fn ansi_str_raw_links(
        t: Bytes,
        n: usize,
        b: Room,
        m: usize,
        links: *mut RawLink,
        most: usize,
    ) -> Answers;
    fn ansi_str_raw_starts_with_unchecked(t: Bytes, n: usize, p: Bytes, k: usize) -> Answer;
    fn ansi_str_raw_ends_with_unchecked(t: Bytes, n: usize, p: Bytes, k: usize) -> Answer;
    fn ansi_str_raw_is_char_boundary_unchecked(t: Bytes, n: usize, index: usize) -> Answer;
    fn ansi_str_raw_floor_char_boundary_unchecked(t: Bytes, n: usize, index: usize) -> Answer;
    fn ansi_str_raw_parts_begin_unchecked(
        t: Bytes,
        n: usize,
        p: Bytes,
        k: usize,
        walk: *mut RawPartWalk,
    );
    fn ansi_str_raw_parts_next(
        walk: *mut RawPartWalk,
        part: *mut RawPart,
        b: Room,
        m: usize,
    ) -> Answer;
    fn ansi_str_raw_blocks_begin_unchecked(t: Bytes, n: usize, walk: *mut RawWalk);
    fn ansi_str_raw_blocks_next(
        walk: *mut RawWalk,
        block: *mut RawBlock,
        b: Room,
        m: usize,
    ) -> Answer;
    fn ansi_str_raw_width(t: Bytes, n: usize) -> Answer;
    fn ansi_str_raw_fitting(t: Bytes, n: usize, width: usize) -> Answer;
    fn ansi_str_raw_column_of(t: Bytes, n: usize, position: usize) -> Answer;
    fn ansi_str_raw_truncate(
        t: Bytes,
        n: usize,
        width: usize,
        p: Bytes,
        k: usize,
        b: Room,
        m: usize,
    ) -> Answer;
    fn ansi_str_raw_pad(
        t: Bytes,
        n: usize,
        width: usize,
        alignment: u32,
        b: Room,
        m: usize,
    ) -> Answer;
    fn ansi_str_raw_fit(
        t: Bytes,
        n: usize,
        width: usize,
        alignment: u32,
        p: Bytes,
        k: usize,
        b: Room,
        m: usize,
    ) -> Answer;
    fn ansi_str_raw_truncate_with(
        t: Bytes,
        n: usize,
        width: usize,
        p: Bytes,
        k: usize,
        side: u32,
        b: Room,
        m: usize,
    ) -> Answer;
    fn ansi_str_raw_slice(
        t: Bytes,
        n: usize,
        start: usize,
        end: usize,
        b: Room,
        m: usize,
    ) -> Answer;
    fn ansi_str_raw_expand_tabs(t: Bytes, n: usize, stop: usize, b: Room, m: usize) -> Answer;
    fn ansi_str_raw_edit_columns(
        t: Bytes,
        n: usize,
        edits: *const RawColumnEdit,
        k: usize,
        b: Room,
        m: usize,
    ) -> Answer;
    fn ansi_str_raw_wrap(
        t: Bytes,
        n: usize,
        width: usize,
        b: Room,
        m: usize,
        ends: *mut usize,
        k: usize,
    ) -> Answers;
    fn ansi_str_raw_wrap_with(
        t: Bytes,
        n: usize,
        width: usize,
        first: Bytes,
        first_len: usize,
        later: Bytes,
        later_len: usize,
        b: Room,
        m: usize,
        ends: *mut usize,
        k: usize,
    ) -> Answers;
    fn ansi_str_raw_lines_begin(t: Bytes, n: usize, width: usize, walk: *mut RawLineWalk)
        -> Answer;
    fn ansi_str_raw_lines_next(walk: *mut RawLineWalk, line: *mut RawLine) -> Answer;
    fn ansi_str_raw_link_at(t: Bytes, n: usize, index: usize, b: Room, m: usize) -> Answer;
    fn ansi_str_raw_sanitize(
        t: Bytes,
        n: usize,
        rest: u32,
        links: u32,
        b: Room,
        m: usize,
    ) -> Answer;
    fn ansi_str_raw_sanitize_bytes(
        t: Bytes,
        n: usize,
        rest: u32,
        links: u32,
        b: Room,
        m: usize,
    ) -> Answer;
    fn ansi_str_raw_is_safe(t: Bytes, n: usize, links: u32) -> Answer;
    fn ansi_str_raw_pen_after(t: Bytes, n: usize, pen: *mut RawPen) -> Answer;
    fn ansi_str_raw_pen_start(t: Bytes, n: usize, b: Room, m: usize) -> Answer;
    fn ansi_str_raw_pen_end(t: Bytes, n: usize, b: Room, m: usize) -> Answer;
    fn ansi_str_raw_style_start(style: *const RawStyle, b: Room, m: usize) -> Answer;
    fn ansi_str_raw_style_end(style: *const RawStyle, b: Room, m: usize) -> Answer;
    fn ansi_str_raw_style_union(first: *const RawStyle, second: *const RawStyle) -> RawStyle;
    fn ansi_str_raw_style_difference(first: *const RawStyle, second: *const RawStyle) -> RawStyle;
}

/// A call is refused: a position is inside a character, or the end of a range is below its start.
pub(crate) struct Refusal;

/// The result of a call that isn't done.
enum Unfinished {
    No,
    Refused,
    TooSmall(usize),
}

fn outcome(status: u32, len: usize) -> Result<usize, Unfinished> {
    match status {
        OK => Ok(len),
        NO => Err(Unfinished::No),
        REFUSED => Err(Unfinished::Refused),
        TOO_SMALL => Err(Unfinished::TooSmall(len)),
        OUT_OF_MEMORY => panic!("out of memory"),
        _ => unreachable!("a text is UTF-8"),
    }
}

/// The text that a call has written at the front of a vector's room.
///
/// # Safety
///
/// A call has returned `OK` and this length. So it has set these bytes, and they are UTF-8: it copies them out of a `str`
/// or a `String` of its own, which are UTF-8 by their types.
unsafe fn text_of(mut buffer: Vec<u8>, len: usize) -> String {
    buffer.set_len(len);
    debug_assert!(str::from_utf8(&buffer).is_ok());
    String::from_utf8_unchecked(buffer)
}

/// How much room is on the stack.
const SMALL: usize = 512;

/// What a call writes, first into this much room, then into as much as it asks for. The room is uninitialized: a call doesn't
/// read it.
#[inline]
fn written(room: usize, mut call: impl FnMut(Room, usize) -> Answer) -> Result<String, Unfinished> {
    if room > SMALL {
        return written_from(room, call);
    }
    let mut small = [MaybeUninit::<u8>::uninit(); SMALL];
    let answer = call(small.as_mut_ptr().cast(), SMALL);
    match outcome(answer.status, answer.len) {
        Err(Unfinished::TooSmall(needed)) => written_from(needed, call),
        // (most parts and blocks occur unchanged in the text)
        Ok(0) => Ok(String::new()),
        ended => ended.map(|len| {
            let mut buffer = Vec::with_capacity(len);
            // SAFETY: the call has set this many bytes, and there is room for them; for the text, as `text_of` says
            unsafe {
                ptr::copy_nonoverlapping(small.as_ptr().cast(), buffer.as_mut_ptr(), len);
                text_of(buffer, len)
            }
        }),
    }
}

/// The same without the stack.
fn written_from(
    room: usize,
    mut call: impl FnMut(Room, usize) -> Answer,
) -> Result<String, Unfinished> {
    let mut buffer = Vec::with_capacity(room);
    loop {
        let free = buffer.spare_capacity_mut();
        let answer = call(free.as_mut_ptr().cast(), free.len());
        match outcome(answer.status, answer.len) {
            Err(Unfinished::TooSmall(needed)) => buffer.reserve_exact(needed),
            // SAFETY: the call has set this many bytes of the text, as `text_of` says
            ended => return ended.map(|len| kept(unsafe { text_of(buffer, len) })),
        }
    }
}

/// A text whose capacity is at most twice what it needs.
fn kept(mut text: String) -> String {
    if text.len() < text.capacity() / 2 {
        text.shrink_to_fit();
    }
    text
}

/// The result of a call that succeeds for every text.
fn always(given: Result<String, Unfinished>) -> String {
    given.unwrap_or_else(|_| unreachable!("this call is never refused"))
}

fn is_so(answer: Answer) -> bool {
    outcome(answer.status, answer.len).is_ok()
}

/// The exports that write a text: from a text, a text and a number, a text and a pattern, and a style.
type Write = unsafe extern "C" fn(Bytes, usize, Room, usize) -> Answer;
type WriteAt = unsafe extern "C" fn(Bytes, usize, usize, Room, usize) -> Answer;
type WriteWithout = unsafe extern "C" fn(Bytes, usize, Bytes, usize, Room, usize) -> Answer;
type WriteStyle = unsafe extern "C" fn(*const RawStyle, Room, usize) -> Answer;

/// The exports that return a number or a status: of a text and a number, and of a text and a pattern.
type TellAt = unsafe extern "C" fn(Bytes, usize, usize) -> Answer;
type TellOf = unsafe extern "C" fn(Bytes, usize, Bytes, usize) -> Answer;

// SAFETY, of every call of an export: a text and a pattern are the pointer and the length of a `str`, which is UTF-8 and lives
// until the call returns. A buffer is those of `written`'s room, which is this module's own and so overlaps no text.

fn write(call: Write, text: &str) -> String {
    always(written(text.len(), |b, m| {
        // SAFETY: a `str`, and the room
        unsafe { call(text.as_ptr(), text.len(), b, m) }
    }))
}

fn write_side(call: WriteAt, text: &str, mid: usize) -> Result<String, Refusal> {
    written(text.len() + LONGEST_START_AND_CLOSE, |b, m| {
        // SAFETY: a `str`, and the room; any number may be a position
        unsafe { call(text.as_ptr(), text.len(), mid, b, m) }
    })
    .map_err(|_| Refusal)
}

fn write_without(call: WriteWithout, text: &str, pat: &str) -> Option<String> {
    let (t, n, p, k) = (text.as_ptr(), text.len(), pat.as_ptr(), pat.len());
    // SAFETY: two `str`s, and the room
    written(n, |b, m| unsafe { call(t, n, p, k, b, m) }).ok()
}

fn tell_at(call: TellAt, text: &str, number: usize) -> Answer {
    // SAFETY: a `str`; any number may be a position or a width
    unsafe { call(text.as_ptr(), text.len(), number) }
}

fn tell_of(call: TellOf, text: &str, pat: &str) -> Answer {
    // SAFETY: two `str`s
    unsafe { call(text.as_ptr(), text.len(), pat.as_ptr(), pat.len()) }
}

pub(crate) fn strip(text: &str) -> String {
    write(ansi_str_raw_strip_unchecked, text)
}

pub(crate) fn trim(text: &str) -> String {
    write(ansi_str_raw_trim, text)
}

pub(crate) fn cut(text: &str, start: usize, end: usize) -> Option<String> {
    written(text.len() + LONGEST_CLOSE, |b, m| {
        // SAFETY: a `str`, and the room; any numbers may be positions
        unsafe { ansi_str_raw_cut(text.as_ptr(), text.len(), start, end, b, m) }
    })
    .ok()
}

pub(crate) fn left(text: &str, mid: usize) -> Result<String, Refusal> {
    write_side(ansi_str_raw_left, text, mid)
}

pub(crate) fn right(text: &str, mid: usize) -> Result<String, Refusal> {
    write_side(ansi_str_raw_right, text, mid)
}

pub(crate) fn strip_prefix(text: &str, prefix: &str) -> Option<String> {
    write_without(ansi_str_raw_strip_prefix, text, prefix)
}

pub(crate) fn strip_suffix(text: &str, suffix: &str) -> Option<String> {
    write_without(ansi_str_raw_strip_suffix, text, suffix)
}

pub(crate) fn part(text: &str, pat: &str, index: usize) -> Option<String> {
    let (t, n, p, k) = (text.as_ptr(), text.len(), pat.as_ptr(), pat.len());
    // SAFETY: two `str`s, and the room; any number may be an index
    written(0, |b, m| unsafe {
        ansi_str_raw_part(t, n, p, k, index, b, m)
    })
    .ok()
}

/// The text after all edits, or `None` if one is refused.
pub(crate) fn edit(text: &str, edits: &[Edit<'_>]) -> Option<String> {
    let edits: Vec<RawEdit> = edits.iter().map(RawEdit::new).collect();
    written(text.len() + LONGEST_START_AND_CLOSE, |b, m| {
        let (t, n, k) = (text.as_ptr(), text.len(), edits.len());
        // SAFETY: a `str`, edits whose patterns are `str`s that outlive the call, and the room
        unsafe { ansi_str_raw_edit(t, n, edits.as_ptr(), k, b, m) }
    })
    .ok()
}

pub(crate) fn is_whole(text: &str) -> bool {
    // SAFETY: a `str`
    is_so(unsafe { ansi_str_raw_is_whole(text.as_ptr(), text.len()) })
}

pub(crate) fn find(text: &str, pat: &str) -> Option<usize> {
    let answer = tell_of(ansi_str_raw_find_unchecked, text, pat);
    outcome(answer.status, answer.len).ok()
}

pub(crate) fn find_from(text: &str, position: usize, pat: &str) -> Option<usize> {
    let (t, n, p, k) = (text.as_ptr(), text.len(), pat.as_ptr(), pat.len());
    // SAFETY: two `str`s; any number may be a position
    let answer = unsafe { ansi_str_raw_find_from(t, n, position, p, k) };
    outcome(answer.status, answer.len).ok()
}

/// Where each match of a pattern begins and ends.
pub(crate) fn matches(text: &str, pat: &str) -> Vec<RawRange> {
    let (t, n, p, k) = (text.as_ptr(), text.len(), pat.as_ptr(), pat.len());
    // (most often there are fewer)
    let mut ranges = Vec::with_capacity(16 + n / 32);
    loop {
        let free: &mut [MaybeUninit<RawRange>] = ranges.spare_capacity_mut();
        let (places, most) = (free.as_mut_ptr().cast(), free.len());
        // SAFETY: two `str`s, and the pointer and the length of a vector's spare room
        let answer = unsafe { ansi_str_raw_matches(t, n, p, k, places, most) };
        if answer.status == TOO_SMALL {
            ranges.reserve_exact(answer.count);
        } else {
            // SAFETY: the call has returned `OK`, the one other status for texts that are UTF-8, and set this many of them
            unsafe { ranges.set_len(answer.count) };
            return ranges;
        }
    }
}

/// Ranges, as the exports take them.
fn raw_ranges(ranges: &[Range<usize>]) -> Vec<RawRange> {
    let raw_of = |range: &Range<usize>| RawRange {
        start: range.start,
        end: range.end,
    };
    ranges.iter().map(raw_of).collect()
}

/// The index of the first range that is refused.
pub(crate) fn refused_range(text: &str, ranges: &[Range<usize>]) -> Option<usize> {
    let raw = raw_ranges(ranges);
    let (t, n) = (text.as_ptr(), text.len());
    // SAFETY: a `str`, and a vector's ranges; any numbers may be a range
    let answer = unsafe { ansi_str_raw_refused_range(t, n, raw.as_ptr(), raw.len()) };
    outcome(answer.status, answer.len).ok()
}

/// The text with codes applied in ranges, or `None` if one of them is refused.
pub(crate) fn restyle(text: &str, ranges: &[Range<usize>], codes: &str) -> Option<String> {
    let raw = raw_ranges(ranges);
    let (t, n, c, j) = (text.as_ptr(), text.len(), codes.as_ptr(), codes.len());
    // (what a range writes is most often shorter than this)
    written(n + 48 * raw.len(), |b, m| {
        // SAFETY: two `str`s, a vector's ranges, and the room; any numbers may be a range
        unsafe { ansi_str_raw_restyle(t, n, raw.as_ptr(), raw.len(), c, j, b, m) }
    })
    .ok()
}

/// The text with codes applied to each match, or `None` if they are refused.
pub(crate) fn mark(text: &str, pat: &str, codes: &str) -> Option<String> {
    let (t, n, p, k) = (text.as_ptr(), text.len(), pat.as_ptr(), pat.len());
    written(2 * n, |b, m| {
        // SAFETY: three `str`s, and the room
        unsafe { ansi_str_raw_mark(t, n, p, k, codes.as_ptr(), codes.len(), b, m) }
    })
    .ok()
}

/// The text without a range, or `None` if that is refused.
pub(crate) fn remove(text: &str, start: usize, end: usize) -> Option<String> {
    written(text.len(), |b, m| {
        // SAFETY: a `str`, and the room; any numbers may be a range
        unsafe { ansi_str_raw_remove(text.as_ptr(), text.len(), start, end, b, m) }
    })
    .ok()
}

/// The text with another text in place of a range, or `None` if that is refused.
pub(crate) fn replace(text: &str, start: usize, end: usize, with: &str) -> Option<String> {
    let (t, n, w, k) = (text.as_ptr(), text.len(), with.as_ptr(), with.len());
    written(n + k + LONGEST_START_AND_CLOSE, |b, m| {
        // SAFETY: two `str`s, and the room; any numbers may be a range
        unsafe { ansi_str_raw_replace(t, n, start, end, w, k, b, m) }
    })
    .ok()
}

/// The text with another text put in, or `None` if the position is refused.
pub(crate) fn insert(text: &str, position: usize, with: &str) -> Option<String> {
    let (t, n, w, k) = (text.as_ptr(), text.len(), with.as_ptr(), with.len());
    written(n + k + LONGEST_START_AND_CLOSE, |b, m| {
        // SAFETY: two `str`s, and the room; any number may be a position
        unsafe { ansi_str_raw_insert(t, n, position, w, k, b, m) }
    })
    .ok()
}

/// The text with another text in place of each match.
pub(crate) fn replace_all(text: &str, pat: &str, with: &str) -> String {
    let (t, n, p, k) = (text.as_ptr(), text.len(), pat.as_ptr(), pat.len());
    written(2 * n + with.len(), |b, m| {
        // SAFETY: three `str`s, and the room
        unsafe { ansi_str_raw_replace_all(t, n, p, k, with.as_ptr(), with.len(), b, m) }
    })
    .unwrap_or_else(|_| unreachable!("the call isn't refused"))
}

/// The text with a text of its own in place of each range, or `None` if the ranges are refused.
pub(crate) fn replace_each(text: &str, edits: &[Replacement<'_>]) -> Option<String> {
    let raw_of = |edit: &Replacement<'_>| RawReplacement {
        start: edit.range.start,
        end: edit.range.end,
        with: edit.with.as_ptr(),
        with_len: edit.with.len(),
    };
    let raw: Vec<RawReplacement> = edits.iter().map(raw_of).collect();
    let more: usize = edits.iter().map(|edit| edit.with.len()).sum();
    written(text.len() + more, |b, m| {
        let (t, n, k) = (text.as_ptr(), text.len(), raw.len());
        // SAFETY: a `str`, ranges with `str`s that outlive the call, and the room; any numbers may be a range
        unsafe { ansi_str_raw_replace_each(t, n, raw.as_ptr(), k, b, m) }
    })
    .ok()
}

/// The text with a range linked, or `None` if the range or the address is refused.
pub(crate) fn link(text: &str, start: usize, end: usize, address: &str) -> Option<String> {
    let (t, n, a, k) = (text.as_ptr(), text.len(), address.as_ptr(), address.len());
    // (21 bytes more, and in a link as many as opened it)
    written(n + k + 64, |b, m| {
        // SAFETY: two `str`s, and the room; any numbers may be a range
        unsafe { ansi_str_raw_link(t, n, start, end, a, k, b, m) }
    })
    .ok()
}

/// The text without its links.
pub(crate) fn unlink(text: &str) -> String {
    written(text.len(), |b, m| {
        // SAFETY: a `str`, and the room
        unsafe { ansi_str_raw_unlink(text.as_ptr(), text.len(), b, m) }
    })
    .unwrap_or_else(|_| unreachable!("the call isn't refused"))
}

/// The style that is open at the end of a text, and the address of its link, which is empty if none is open.
pub(crate) fn pen_after(text: &str) -> (Style, Cow<'_, str>) {
    let mut pen = RawPen {
        link: "".as_ptr(),
        len: 0,
        style: RawStyle::PLAIN,
    };
    // SAFETY: a `str`, and a pen with a good pointer
    let answer = unsafe { ansi_str_raw_pen_after(text.as_ptr(), text.len(), &mut pen) };
    debug_assert!(answer.status == OK);
    // SAFETY: a stretch of the text, or the empty text above
    let link = unsafe { slice::from_raw_parts(pen.link, pen.len) };
    (Style(pen.style), String::from_utf8_lossy(link))
}

/// What opens both again.
pub(crate) fn pen_start(text: &str) -> String {
    write_pen(ansi_str_raw_pen_start, text)
}

/// What closes both.
pub(crate) fn pen_end(text: &str) -> String {
    write_pen(ansi_str_raw_pen_end, text)
}

fn write_pen(call: Write, text: &str) -> String {
    // (only a start with a long link needs more)
    always(written(LONGEST_START_AND_CLOSE, |b, m| {
        // SAFETY: a `str`, and the room
        unsafe { call(text.as_ptr(), text.len(), b, m) }
    }))
}

/// The addresses of all links, concatenated, and where each link and its address is.
pub(crate) fn links(text: &str) -> (String, Vec<RawLink>) {
    let (t, n) = (text.as_ptr(), text.len());
    // (most texts have few links)
    let (mut addresses, mut links) = (Vec::with_capacity(64), Vec::with_capacity(4));
    loop {
        let free: &mut [MaybeUninit<RawLink>] = links.spare_capacity_mut();
        let (entries, most) = (free.as_mut_ptr().cast(), free.len());
        let room: &mut [MaybeUninit<u8>] = addresses.spare_capacity_mut();
        let (b, m) = (room.as_mut_ptr().cast(), room.len());
        // SAFETY: a `str`, and the pointers and the lengths of the spare room of two vectors
        let answer = unsafe { ansi_str_raw_links(t, n, b, m, entries, most) };
        if answer.status == TOO_SMALL {
            addresses.reserve_exact(answer.len);
            links.reserve_exact(answer.count);
        } else {
            // SAFETY: the call has returned `OK`, the one other status for a text that is UTF-8, and set this many of them,
            // and the bytes of addresses
            unsafe {
                links.set_len(answer.count);
                return (text_of(addresses, answer.len), links);
            }
        }
    }
}

pub(crate) fn starts_with(text: &str, pat: &str) -> bool {
    is_so(tell_of(ansi_str_raw_starts_with_unchecked, text, pat))
}

pub(crate) fn ends_with(text: &str, pat: &str) -> bool {
    is_so(tell_of(ansi_str_raw_ends_with_unchecked, text, pat))
}

pub(crate) fn is_char_boundary(text: &str, index: usize) -> bool {
    is_so(tell_at(
        ansi_str_raw_is_char_boundary_unchecked,
        text,
        index,
    ))
}

pub(crate) fn floor_char_boundary(text: &str, index: usize) -> usize {
    tell_at(ansi_str_raw_floor_char_boundary_unchecked, text, index).len
}

pub(crate) fn link_at(text: &str, index: usize) -> Option<String> {
    written(0, |b, m| {
        // SAFETY: a `str`, and the room; any number may be a position
        unsafe { ansi_str_raw_link_at(text.as_ptr(), text.len(), index, b, m) }
    })
    .ok()
}

pub(crate) fn width(text: &str) -> usize {
    // SAFETY: a `str`
    unsafe { ansi_str_raw_width(text.as_ptr(), text.len()) }.len
}

pub(crate) fn fitting(text: &str, width: usize) -> usize {
    tell_at(ansi_str_raw_fitting, text, width).len
}

pub(crate) fn column_of(text: &str, position: usize) -> Option<usize> {
    let answer = tell_at(ansi_str_raw_column_of, text, position);
    outcome(answer.status, answer.len).ok()
}

pub(crate) fn truncate(text: &str, width: usize, tail: &str) -> String {
    let (t, n, p, k) = (text.as_ptr(), text.len(), tail.as_ptr(), tail.len());
    always(written(n + LONGEST_CLOSE, |b, m| {
        // SAFETY: two `str`s, and the room; any number may be a width
        unsafe { ansi_str_raw_truncate(t, n, width, p, k, b, m) }
    }))
}

pub(crate) fn pad(text: &str, width: usize, alignment: u32) -> String {
    always(written(text.len() + LONGEST_CLOSE, |b, m| {
        // SAFETY: a `str`, and the room; any number may be a width
        unsafe { ansi_str_raw_pad(text.as_ptr(), text.len(), width, alignment, b, m) }
    }))
}

pub(crate) fn fit(text: &str, width: usize, alignment: u32, tail: &str) -> String {
    let (t, n, p, k) = (text.as_ptr(), text.len(), tail.as_ptr(), tail.len());
    always(written(n + LONGEST_CLOSE, |b, m| {
        // SAFETY: two `str`s, and the room; any number may be a width
        unsafe { ansi_str_raw_fit(t, n, width, alignment, p, k, b, m) }
    }))
}

pub(crate) fn truncate_with(text: &str, width: usize, tail: &str, side: u32) -> String {
    let (t, n, p, k) = (text.as_ptr(), text.len(), tail.as_ptr(), tail.len());
    always(written(n + LONGEST_START_AND_CLOSE, |b, m| {
        // SAFETY: two `str`s, and the room; any number may be a width
        unsafe { ansi_str_raw_truncate_with(t, n, width, p, k, side, b, m) }
    }))
}

pub(crate) fn slice(text: &str, start: usize, end: usize) -> String {
    always(written(text.len() + LONGEST_START_AND_CLOSE, |b, m| {
        // SAFETY: a `str`, and the room; any numbers may be columns
        unsafe { ansi_str_raw_slice(text.as_ptr(), text.len(), start, end, b, m) }
    }))
}

pub(crate) fn expand_tabs(text: &str, stop: usize) -> String {
    always(written(text.len() + LONGEST_CLOSE, |b, m| {
        // SAFETY: a `str`, and the room; any number may be a stop
        unsafe { ansi_str_raw_expand_tabs(text.as_ptr(), text.len(), stop, b, m) }
    }))
}

pub(crate) fn edit_columns(text: &str, edits: &[ColumnEdit<'_>]) -> String {
    let edits: Vec<RawColumnEdit> = edits.iter().map(RawColumnEdit::new).collect();
    always(written(text.len() + LONGEST_START_AND_CLOSE, |b, m| {
        let (t, n, k) = (text.as_ptr(), text.len(), edits.len());
        // SAFETY: a `str`, edits whose tails are `str`s that outlive the call, and the room; any numbers may be columns
        unsafe { ansi_str_raw_edit_columns(t, n, edits.as_ptr(), k, b, m) }
    }))
}

pub(crate) fn sanitize(text: &str, rest: u32, links: u32) -> String {
    always(written(text.len() + LONGEST_CLOSE, |b, m| {
        // SAFETY: a `str`, and the room; any numbers may be a policy
        unsafe { ansi_str_raw_sanitize(text.as_ptr(), text.len(), rest, links, b, m) }
    }))
}

pub(crate) fn sanitize_bytes(bytes: &[u8], rest: u32, links: u32) -> String {
    always(written(bytes.len() + LONGEST_CLOSE, |b, m| {
        // SAFETY: a slice, which needn't be UTF-8 here, and the room; any numbers may be a policy
        unsafe { ansi_str_raw_sanitize_bytes(bytes.as_ptr(), bytes.len(), rest, links, b, m) }
    }))
}

pub(crate) fn is_safe(text: &str, links: u32) -> bool {
    // SAFETY: a `str`; any number may be a choice about links
    is_so(unsafe { ansi_str_raw_is_safe(text.as_ptr(), text.len(), links) })
}

/// The lines of a text one after the other, and the end of each.
pub(crate) fn wrap(text: &str, width: usize, first: &str, later: &str) -> (String, Vec<usize>) {
    // (there is at most one line more than the text has bytes)
    let mut ends = Vec::with_capacity(text.len() + 1);
    let (f, i, l, j) = (first.as_ptr(), first.len(), later.as_ptr(), later.len());
    let lines = written(text.len() + LONGEST_START_AND_CLOSE, |b, m| {
        let (t, n, free) = (text.as_ptr(), text.len(), ends.spare_capacity_mut());
        let (places, k) = (free.as_mut_ptr().cast(), free.len());
        // SAFETY: `str`s, and the room. The ends are the pointer and the length of a vector's spare room, and the call that has
        // returned `OK` has set this many of them
        unsafe {
            let answer = if i + j == 0 {
                ansi_str_raw_wrap(t, n, width, b, m, places, k)
            } else {
                ansi_str_raw_wrap_with(t, n, width, f, i, l, j, b, m, places, k)
            };
            if answer.status == OK {
                ends.set_len(answer.count);
            }
            Answer {
                status: answer.status,
                len: answer.len,
            }
        }
    });
    (always(lines), ends)
}

/// Where each line of a text that is left begins and ends.
#[derive(Debug, Clone)]
pub(crate) struct Lines<'a> {
    walk: RawLineWalk,
    text: PhantomData<&'a str>,
}

// SAFETY: as for parts
unsafe impl Send for Lines<'_> {}
// SAFETY: as for parts
unsafe impl Sync for Lines<'_> {}

pub(crate) fn lines(text: &str, width: usize) -> Lines<'_> {
    let mut walk = RawLineWalk::none();
    // SAFETY: a `str`, which lives as long as the walk, and a walk with a good pointer
    is_so(unsafe { ansi_str_raw_lines_begin(text.as_ptr(), text.len(), width, &mut walk) });
    Lines {
        walk,
        text: PhantomData,
    }
}

impl Iterator for Lines<'_> {
    type Item = Range<usize>;

    fn next(&mut self) -> Option<Range<usize>> {
        let mut line = RawLine { start: 0, end: 0 };
        // SAFETY: a walk that the library began, whose text lives, and a line
        let is_there = is_so(unsafe { ansi_str_raw_lines_next(&mut self.walk, &mut line) });
        is_there.then_some(line.start..line.end)
    }
}

/// The parts of a text that are left.
#[derive(Debug, Clone)]
pub(crate) struct Parts<'a> {
    walk: RawPartWalk,
    texts: PhantomData<&'a str>,
}

// SAFETY: a walk only reads the texts that it points to, as a `&str` does, and no call keeps its pointers
unsafe impl Send for Parts<'_> {}
// SAFETY: a shared walk is only read
unsafe impl Sync for Parts<'_> {}

pub(crate) fn split<'a>(text: &'a str, pat: &'a str) -> Parts<'a> {
    let mut walk = RawPartWalk::none();
    let (t, n, p, k) = (text.as_ptr(), text.len(), pat.as_ptr(), pat.len());
    // SAFETY: two `str`s, which live as long as the walk, and a walk with good pointers
    unsafe { ansi_str_raw_parts_begin_unchecked(t, n, p, k, &mut walk) };
    Parts {
        walk,
        texts: PhantomData,
    }
}

impl<'a> Iterator for Parts<'a> {
    type Item = Cow<'a, str>;

    fn next(&mut self) -> Option<Cow<'a, str>> {
        let mut part = RawPart {
            text: "".as_ptr(),
            len: 0,
        };
        let written = written(0, |b, m| {
            // SAFETY: a walk that the library began, whose texts live, a part with a good pointer, and the room
            unsafe { ansi_str_raw_parts_next(&mut self.walk, &mut part, b, m) }
        });
        let written = written.ok()?;
        Some(if written.is_empty() {
            // SAFETY: the call has returned it, and the text lives as long as `'a` says
            Cow::Borrowed(unsafe { told(part.text, part.len) })
        } else {
            Cow::Owned(written)
        })
    }
}

/// The blocks of a text that are left, each as its text, where its run begins in that, and its style.
#[derive(Debug, Clone)]
pub(crate) struct Blocks<'a> {
    walk: RawWalk,
    text: PhantomData<&'a str>,
}

// SAFETY: as for parts
unsafe impl Send for Blocks<'_> {}
// SAFETY: as for parts
unsafe impl Sync for Blocks<'_> {}

pub(crate) fn blocks(text: &str) -> Blocks<'_> {
    let mut walk = RawWalk::none();
    // SAFETY: a `str`, which lives as long as the walk, and a walk with good pointers
    unsafe { ansi_str_raw_blocks_begin_unchecked(text.as_ptr(), text.len(), &mut walk) };
    Blocks {
        walk,
        text: PhantomData,
    }
}

/// A text that a call has returned.
///
/// # Safety
///
/// The pointer and the length are those of a stretch of the text that a walk or a block has from the library: it is
/// UTF-8.
unsafe fn told<'a>(bytes: Bytes, len: usize) -> &'a str {
    let told = slice::from_raw_parts(bytes, len);
    debug_assert!(str::from_utf8(told).is_ok());
    str::from_utf8_unchecked(told)
}

impl<'a> Iterator for Blocks<'a> {
    type Item = (Cow<'a, str>, usize, Style);

    #[inline]
    fn next(&mut self) -> Option<(Cow<'a, str>, usize, Style)> {
        let mut block = RawBlock {
            text: "".as_ptr(),
            len: 0,
            style: RawStyle::PLAIN,
        };
        let sequences = written(0, |b, m| {
            // SAFETY: a walk that the library began, whose text lives, a block with a good pointer, and the room
            unsafe { ansi_str_raw_blocks_next(&mut self.walk, &mut block, b, m) }
        });
        let mut sequences = sequences.ok()?;
        // SAFETY: the call has returned it, and the text lives as long as `'a` says
        let run = unsafe { told(block.text, block.len) };
        let run_start = sequences.len();
        let text = if sequences.is_empty() {
            Cow::Borrowed(run)
        } else {
            sequences.push_str(run);
            Cow::Owned(sequences)
        };
        Some((text, run_start, Style(block.style)))
    }
}

/// The attributes by their bits, as far as they have an order or a meaning of their own here.
const FRAMED_AND_ENCIRCLED: u32 = 1 << 10 | 1 << 11;
const RESET: u32 = 1 << 22;
const UNKNOWN: u32 = 1 << 23;
/// Those before them, from bold to crossed out, and those that come after the font.
const UP_TO_CROSSED_OUT: u32 = (1 << 10) - 1;
const AFTER_FONT: u32 = !(UP_TO_CROSSED_OUT | FRAMED_AND_ENCIRCLED | RESET);

impl RawStyle {
    /// A style with nothing set.
    pub(crate) const PLAIN: RawStyle = RawStyle {
        attributes: 0,
        foreground: RawColor::NONE,
        background: RawColor::NONE,
        underline_color: RawColor::NONE,
        font: RawFont {
            is_set: false,
            number: 0,
        },
    };

    /// Whether there is something to close. No character shows a reset or an unknown code: these count only together.
    pub(crate) fn has_any(mut self) -> bool {
        if self.attributes & RESET == 0 || self.attributes & UNKNOWN == 0 {
            self.attributes &= !(RESET | UNKNOWN);
        }
        self != RawStyle::PLAIN
    }

    /// The parts in the order in which the library compares them.
    fn parts(&self) -> impl Ord {
        // (so the first attribute counts most)
        let set = |bits: u32| (self.attributes & bits).reverse_bits();
        (
            [self.foreground, self.background, self.underline_color],
            [UP_TO_CROSSED_OUT, RESET, FRAMED_AND_ENCIRCLED].map(set),
            self.font,
            set(AFTER_FONT),
        )
    }

    /// The sequences that set the style.
    pub(crate) fn start(&self) -> String {
        self.sequences(ansi_str_raw_style_start)
    }

    /// The font by its code, if one is set.
    pub(crate) fn font(&self) -> Option<u8> {
        self.font.is_set.then_some(self.font.number)
    }

    /// The sequences that close the style.
    pub(crate) fn end(&self) -> String {
        self.sequences(ansi_str_raw_style_end)
    }

    /// What is set in either of two styles.
    pub(crate) fn union(&self, other: &RawStyle) -> RawStyle {
        // SAFETY: two styles that the library has made
        unsafe { ansi_str_raw_style_union(self, other) }
    }

    /// What is set in this style and isn't set so in the other.
    pub(crate) fn difference(&self, other: &RawStyle) -> RawStyle {
        // SAFETY: two styles that the library has made
        unsafe { ansi_str_raw_style_difference(self, other) }
    }

    /// What an export writes of the style: nothing if nothing is set.
    fn sequences(&self, call: WriteStyle) -> String {
        if *self == RawStyle::PLAIN {
            return String::new();
        }
        // SAFETY: a style that the library has made, and the room
        always(written(0, |b, m| unsafe { call(self, b, m) }))
    }
}

impl PartialOrd for RawStyle {
    fn partial_cmp(&self, other: &Self) -> Option<Ordering> {
        Some(self.cmp(other))
    }
}

impl Ord for RawStyle {
    fn cmp(&self, other: &Self) -> Ordering {
        self.parts().cmp(&other.parts())
    }
}

/// The colors that SGR codes name, and the same bright, in the order of the codes.
const NAMES: [[Color; 8]; 2] = [
    [
        Color::Black,
        Color::Red,
        Color::Green,
        Color::Yellow,
        Color::Blue,
        Color::Magenta,
        Color::Cyan,
        Color::White,
    ],
    [
        Color::BrightBlack,
        Color::BrightRed,
        Color::BrightGreen,
        Color::BrightYellow,
        Color::BrightBlue,
        Color::BrightMagenta,
        Color::BrightCyan,
        Color::BrightWhite,
    ],
];

impl RawColor {
    const NONE: RawColor = RawColor {
        kind: 0,
        first: 0,
        second: 0,
        third: 0,
    };

    pub(crate) fn color(&self) -> Option<Color> {
        match self.kind {
            0 => None,
            1 => Some(NAMES[usize::from(self.first >= 90)][usize::from(self.first % 10)]),
            2 => Some(Color::Fixed(self.first)),
            _ => Some(Color::Rgb(self.first, self.second, self.third)),
        }
    }
}
