// Text with ANSI control sequences, taken as if the sequences weren't there.
//
// The plain text is the text without its sequences. A position counts UTF-16 units of it, as in any string of JavaScript.
//
// Each call throws
// - a TypeError for a text that is no string or has a lone surrogate, and for a position or width that is no whole number;
// - a RangeError for a position or width below 0;
// - an OutOfMemoryError.
// No error affects later calls. An iterator makes each item on demand, and holds memory of its own for the text until it ends, also by
// `break`. If an item lacks memory, it throws there, and ends.

/** Memory has run out. */
export class OutOfMemoryError extends Error {}

/** The plain text. */
export function strip(text: string): string;

/**
 * The text from `start` to `end`, or to its end, in its styles: every sequence and lone ESC up to `end` stays, also those before
 * `start`, and the style still open there is closed. A position past the end counts as the end. Throws a RangeError if `end` is below
 * `start`, or if a position is between the surrogates of a character.
 */
export function cut(text: string, start: number, end?: number): string;

/** The side before a position, or that from it on, as `splitAt` returns both. */
export function left(text: string, index: number): string;
export function right(text: string, index: number): string;

/** Both sides of a position, in their styles. Past the end, the right side is empty. Throws as `cut` does. */
export function splitAt(text: string, index: number): [string, string];

/** The text without the white space at its ends (Unicode's `White_Space`). Sequences stay. */
export function trim(text: string): string;

/** The text without a prefix of its plain text, or null if the plain text doesn't begin with it. Sequences stay. */
export function stripPrefix(text: string, pattern: string): string | null;

/** The text without a suffix of its plain text, or null if the plain text doesn't end with it. Sequences stay. */
export function stripSuffix(text: string, pattern: string): string | null;

/** Whether the plain text begins with the pattern. */
export function startsWith(text: string, pattern: string): boolean;

/** Whether the plain text ends with the pattern. */
export function endsWith(text: string, pattern: string): boolean;

/** Whether the text has an ESC. */
export function hasAny(text: string): boolean;

/** Whether no ESC in the text begins an unfinished sequence. */
export function isWhole(text: string): boolean;

/** Whether the index is a position of the plain text, and not between the surrogates of a character. Its end is one. */
export function isCharBoundary(text: string, index: number): boolean;

/** The index, or the position before it if it is between the surrogates of a character. Past the end of the plain text, its end. */
export function floorCharBoundary(text: string, index: number): number;

/** The position of the pattern's first match in the plain text, or -1. A match may run across sequences. */
export function find(text: string, pattern: string): number;

/** The position of the pattern's first match that doesn't begin before a position, or -1. Past the end of the plain text there is none. */
export function findFrom(text: string, position: number, pattern: string): number;

/**
 * Where each match of the pattern begins and ends in the plain text, in order. Matches don't overlap, and may run across sequences. An empty
 * pattern matches at each beginning of a character and at the end. `restyle` takes the ranges as they are.
 */
export function matches(text: string, pattern: string): [number, number][];

/** A style by the SGR codes that set it, as an SGR has them, such as `1;31`; by names; or as `blocks` returns it. */
export type Change = string | StyleNames | Style;

/**
 * The attributes that are set, colors, and a font by its code, from 10 to 19. A color is by its name, by its number of 256, or by red, green
 * and blue.
 */
export interface StyleNames extends Partial<Record<Attribute, boolean>> {
  foreground?: Color | readonly [number, number, number];
  background?: Color | readonly [number, number, number];
  underlineColor?: Color | readonly [number, number, number];
  font?: number;
}

/** The SGR codes that set a style, such as `1;31`. */
export function codes(style: Change): string;

/** The text with each match of a pattern, as `matches` finds them, in a style, as `restyle` makes it. */
export function mark(text: string, pattern: string, style: Change): string;

/**
 * The text with SGR codes applied to each character in ranges: pairs of positions in order, which don't overlap. Each character there has its
 * own style after the codes: so `1` makes it bold and keeps its color, `22` makes it neither bold nor faint, and `0` or no code makes it
 * plain. In a whole text (`isWhole`) every other character keeps its style, except for what an unknown code, such as `4:3` or `38:2::1:2:3`, has
 * set: that ends after the next run of text in a range. The plain text and every other sequence stay. Throws a RangeError if the style has
 * anything but digits, `;` and `:`; or if a range begins before the one before it ends, ends below its start or past the end of the plain text,
 * or begins or ends between the surrogates of a character.
 */
export function restyle(text: string, ranges: Iterable<readonly [number, number]>, style: Change): string;

/** The index of the first range that `restyle` and `replaceEach` refuse, or null if they refuse none. */
export function refusedRange(text: string, ranges: Iterable<readonly [number, number]>): number | null;

/**
 * The text without what its plain text has from `start` to `end`. Every sequence stays, so in a whole text each character that is left keeps its
 * style. Throws a RangeError if `end` is below `start` or past the end of the plain text, or if a position is between the surrogates of a
 * character.
 */
export function remove(text: string, start: number, end: number): string;

/**
 * The text with another text in place of what its plain text has from `start` to `end`. The replacement is in the style and the link of the
 * character before `start`; at the front, of the first one. Its own sequences come on top of that, and what they open ends with it. If both
 * texts are whole (`isWhole`), each character before the range or after it keeps its style and its link, except that what an unknown code, such
 * as `4:3`, has set ends with a replacement that has an ESC. Every sequence of the text stays; those in the range come right after the
 * replacement. Throws as `remove` does.
 */
export function replace(text: string, start: number, end: number, replacement: string): string;

/**
 * The text with another text put in at a position, as `replace` does it with an empty range there. Throws a RangeError if the position is past
 * the end of the plain text, or between the surrogates of a character.
 */
export function insert(text: string, position: number, added: string): string;

/**
 * The text with another text in place of each match of a pattern, as `matches` finds them and `replace` replaces each: the replacement is in
 * the style and the link that the character before the match has in this text. Every other character keeps its style and its link as there. A
 * `$` in the replacement has no meaning of its own.
 */
export function replaceAll(text: string, pattern: string, replacement: string): string;

/**
 * The text with a text of its own in place of each of many ranges, in one pass. A replacement is a start, an end and a new text; the positions
 * are those of this text, in order, and the ranges don't overlap. Each range is replaced as `replace` does it: its new text is in the style and
 * the link that the character before the range has in this text. Every other character keeps its style and its link as there. Texts at the
 * same position come in order. Throws a RangeError as `restyle` does, for the ranges.
 */
export function replaceEach(text: string, replacements: Iterable<readonly [number, number, string]>): string;

/**
 * The text with what its plain text has from `start` to `end` linked to an address (OSC 8). Each character there loses another link that it had.
 * Every other character keeps its link: one that goes on into the range ends before it, and one that goes on after it is opened again there. The
 * plain text, the styles and all other sequences stay. Throws as `remove` does, and a RangeError if the address is empty, is longer than 2083
 * characters, or has anything but printable ASCII.
 */
export function link(text: string, start: number, end: number, address: string): string;

/** The text without its links: its OSC 8 sequences are left out, and everything else stays. */
export function unlink(text: string): string;

/** A link: where its text begins and ends in the plain text, and its address. */
export interface Link {
  start: number;
  end: number;
  address: string;
}

/**
 * The links of the text, in order. An OSC 8 sequence with an address opens a link, which goes on up to the next OSC 8 sequence or the end of the
 * text. A link without text is left out.
 */
export function links(text: string): Link[];

/** The parts of the text between the matches of the pattern, each in its styles. */
export function split(text: string, pattern: string): string[];

/** The part of an index, counted from 0, among those that `split` returns, or null if there is no such part. */
export function part(text: string, pattern: string, index: number): string | null;

/** An iterator over what `split` returns, one part at a time. */
export function iterSplit(text: string, pattern: string): IterableIterator<string>;

export type Edit =
  | readonly ['cut', number, number?]
  | readonly ['left', number]
  | readonly ['right', number]
  | readonly ['part', string, number]
  | readonly ['prefix', string]
  | readonly ['suffix', string]
  | readonly ['trim'];

/**
 * The text after all edits, each made on the result of the one before. Null if one is refused: its positions are bad, its prefix
 * or suffix is absent, or there is no such part.
 */
export function edit(text: string, edits: Iterable<Edit>): string | null;

export type Attribute =
  | 'bold' | 'faint' | 'italic' | 'underline' | 'doubleUnderline' | 'slowBlink' | 'rapidBlink' | 'inverse' | 'hide' | 'crossedOut'
  | 'framed' | 'encircled' | 'fraktur' | 'proportionalSpacing' | 'overlined' | 'ideogramUnderline' | 'ideogramDoubleUnderline'
  | 'ideogramOverline' | 'ideogramDoubleOverline' | 'ideogramStressMarking' | 'superscript' | 'subscript';

/** A color by its name, by its number of 256, or by red, green and blue; null if none is set. */
export type Color =
  | null
  | 'black' | 'red' | 'green' | 'yellow' | 'blue' | 'magenta' | 'cyan' | 'white'
  | 'brightBlack' | 'brightRed' | 'brightGreen' | 'brightYellow' | 'brightBlue' | 'brightMagenta' | 'brightCyan' | 'brightWhite'
  | number
  | { red: number; green: number; blue: number };

export interface Style {
  attributes: Attribute[];
  foreground: Color;
  background: Color;
  underlineColor: Color;
  /** The font by its code, from 11 to 19; null if none is set. */
  font: number | null;
  /** Whether the style has something to close. */
  hasAny: boolean;
  /** The sequences that set the style, and those that close it. */
  start: string;
  end: string;
}

export interface Block {
  /** The run: a piece of the plain text, without ESC. So it can become HTML, once its `&` and `<` are escaped. */
  text: string;
  /** The style of the run. */
  style: Style;
  /** The address of the link (OSC 8) of the run, or null. */
  link: string | null;
  /** The lone ESCs and the sequences other than SGRs since the run before. */
  sequences: string;
}

/**
 * The blocks of the text, one for each run of plain text, which goes up to the next lone ESC or sequence of any kind: an SGR (it
 * sets styles) or another. What comes after the last run is in no block.
 */
export function blocks(text: string): Block[];

/** An iterator over what `blocks` returns, one block at a time. */
export function iterBlocks(text: string): IterableIterator<Block>;

/** What is open at the end of a text. */
export interface Pen {
  style: Style;
  /** The address of the link (OSC 8), or null. */
  link: string | null;
  /**
   * The sequences that open both again, the style first. A link that `sanitize` wouldn't keep isn't opened, and what an unknown SGR code
   * has set isn't set.
   */
  start: string;
  /** The sequences that close both, the link first. */
  end: string;
}

/**
 * The style and the link that are open at the end of a text. So each line of several can be printed alone: print its `end` there, and its
 * `start` before the next line. The pen after that line is `penAfter(start + line)`.
 */
export function penAfter(text: string): Pen;

/** The style that codes or names select. Throws a RangeError if the codes have anything but digits, `;` and `:`. */
export function styleOf(style: Change): Style;

/** What is set in either of two styles. A color or a font of the second is taken before that of the first. */
export function union(first: Change, second: Change): Style;

/** What is set in the first of two styles and isn't set so in the second: no attribute, color or font that both have. */
export function difference(first: Change, second: Change): Style;

/** The display width of the text in columns: the sum over the extended grapheme clusters of what a terminal shows. */
export function width(text: string): number;

/** The position up to which the plain text fits into `width` columns. The text can be cut there. */
export function fitting(text: string, width: number): number;

/**
 * The column of a position: how many columns what is shown before it has. Inside a cluster, the part of it before the position counts as
 * a cluster. A `RangeError` for a position between the surrogates of a character.
 */
export function columnOf(text: string, position: number): number;

/**
 * The text truncated to `width` columns, on one line and safe: SGRs, clean links (OSC 8) and printing characters stay, TAB and line
 * ends become a blank, and the rest is left out. The link and the style still open at its end are closed. A tail, for example `…`,
 * follows if something was cut off and the tail isn't wider than `width`; its columns count too. It is shown as the text is, and closed.
 */
export function truncate(text: string, width: number, tail?: string): string;

/**
 * The same with options. At the side `start` or `middle` the columns that stay are those of `sliceColumns`, after the tail or on both
 * sides of it. The side is `end` by default.
 */
export function truncate(text: string, width: number, options: { tail?: string; side?: 'end' | 'start' | 'middle' }): string;

/**
 * The text padded with blanks to `width` columns, on one line and safe, as by `truncate`. The link and style still open at its end
 * are closed before the blanks there.
 */
export function pad(text: string, width: number, alignment?: 'left' | 'center' | 'right'): string;

/** The text of a table's cell: truncated to `width` columns, as by `truncate`, and then padded to them, as by `pad`. */
export function fit(text: string, width: number, alignment?: 'left' | 'center' | 'right', tail?: string): string;

/**
 * The columns of the text from `start`, of which the first is 0, up to `end` or the last one, on one line and safe, as by `truncate`.
 * What is open at the start is opened first, and the link and style still open at the end are closed. If a cluster is only partly in
 * the slice, each of its columns there is a blank. A slice without a column is empty.
 */
export function sliceColumns(text: string, start?: number, end?: number): string;

/**
 * The text with each TAB expanded: it becomes blanks up to the next multiple of `stop` columns, by default 8, from the beginning of
 * its line. Sequences and controls have no columns. Everything else is unchanged. If `stop` is 0, a TAB becomes nothing.
 */
export function expandTabs(text: string, stop?: number): string;

/** An edit by columns, with what the call of its name takes after the text: `expandTabs`, `sliceColumns`, `truncate`, `pad`, `fit`. */
export type ColumnEdit =
  | readonly ['expand', number?]
  | readonly ['slice', number?, number?]
  | readonly ['truncate', number, (string | { tail?: string; side?: 'end' | 'start' | 'middle' })?]
  | readonly ['pad', number, ('left' | 'center' | 'right')?]
  | readonly ['fit', number, ('left' | 'center' | 'right')?, string?];

/**
 * The text after all edits by columns, each made on the result of the one before. It is on one line and safe, and nothing is open at
 * its end, also if there is no edit but expansions of TABs.
 */
export function editColumns(text: string, edits: Iterable<ColumnEdit>): string;

/**
 * The text wrapped to lines of `width` columns, each safe: SGRs, clean links (OSC 8) and printing characters stay, a TAB becomes a
 * blank, and the rest is left out. Each line closes the link and style it leaves open; the next reopens them.
 */
export function wrap(text: string, width: number): string[];

/**
 * The same with one indent before the first line, and the other before each later line, each a text of its own, safe and closed. The text
 * is wrapped at the columns that the wider of both leaves, at least one.
 */
export function wrap(text: string, width: number, options: { firstIndent?: string; indent?: string }): string[];

/**
 * Where each line of the text begins and ends in the plain text, if it is wrapped to `width` columns of what is shown. A TAB is a blank, and
 * other controls have no column; those at the end of a line are left out. The text can be cut there.
 */
export function lines(text: string, width: number): [number, number][];

/** An iterator over what `lines` returns, one line at a time. */
export function iterLines(text: string, width: number): IterableIterator<[number, number]>;

/** The address of the link (OSC 8) around the unit of the plain text at a position, or null if no link is open there. */
export function linkAt(text: string, position: number): string | null;

/**
 * The text made safe, so that it can't drive the terminal. Printing characters, TAB, line feeds, carriage returns directly before a
 * line feed and SGRs stay, and with `links` links (OSC 8) of printable ASCII, with an address of at most 2083 characters and parameters of
 * at most 253. Any other sequence, lone ESC, control character or bidirectional control is dropped, or with `show` shown in printing
 * characters. The link and style still open at the end are closed.
 * Bytes are decoded first: what isn't UTF-8 becomes U+FFFD, as by `TextDecoder`, and a byte order mark stays.
 */
export function sanitize(text: string | Uint8Array, options?: { show?: boolean; links?: boolean }): string;

/** Whether the text is safe: whether `sanitize` would drop nothing. A style or a link may be open at its end. */
export function isSafe(text: string, options?: { links?: boolean }): boolean;
