// Text with ANSI control sequences, taken as if the sequences weren't there. index.d.ts says what each call does.
import {
  ATTRIBUTES, COLORS, RANGE, blocks as blocksOf, bytesOf, called, calledInSteps, filling, high, isBytes, iterBlocks as blockWalk,
  iterLines as lineWalk, iterParts, listing, listingLinks, openAfter, ranging, rangesAsBytes, telling, writing,
} from './memory.js';

export { OutOfMemoryError } from './memory.js';

const ALIGNMENTS = ['left', 'center', 'right'];
const SIDES = ['end', 'start', 'middle'];
const COLUMN_KINDS = { expand: 0, slice: 1, truncate: 2, pad: 3, fit: 4 };
const KINDS = { cut: 0, left: 1, right: 2, part: 3, prefix: 4, suffix: 5, trim: 6 };
/** The largest number that is passed on: past the end of any text. */
const END = Number.MAX_SAFE_INTEGER;

// What each export takes: pointers and lengths, and other numbers of 64 bits, as their low and their high half.
const STRIP = writing((x, f) => x.ansi_str_raw_strip(f.answer, 0, f.block, 0, f.text, 0, f.length, 0, f.buffer, 0, f.room, 0));
const FIND = telling((x, f) => x.ansi_str_raw_find(f.answer, 0, f.text, 0, f.length, 0, f.secondText, 0, f.secondLength, 0));
const FIND_FROM = telling((x, f) => (
  x.ansi_str_raw_find_from(f.answer, 0, f.text, 0, f.length, 0, f.first, high(f.first), f.secondText, 0, f.secondLength, 0)));
const MATCHES = ranging((x, f) => (
  x.ansi_str_raw_matches(f.answer, 0, f.text, 0, f.length, 0, f.secondText, 0, f.secondLength, 0, f.entries, 0, f.count, 0)));
// (the ranges are the second text, the codes the third)
const RESTYLE = writing((x, f) => x.ansi_str_raw_restyle(f.answer, 0, f.block, 0, f.text, 0, f.length, 0, f.secondText, 0,
  f.secondLength / RANGE, 0, f.thirdText, 0, f.thirdLength, 0, f.buffer, 0, f.room, 0));
const REFUSED_RANGE = telling((x, f) => (
  x.ansi_str_raw_refused_range(f.answer, 0, f.block, 0, f.text, 0, f.length, 0, f.secondText, 0, f.secondLength / RANGE, 0)));
const MARK = writing((x, f) => x.ansi_str_raw_mark(f.answer, 0, f.block, 0, f.text, 0, f.length, 0, f.secondText, 0, f.secondLength, 0,
  f.thirdText, 0, f.thirdLength, 0, f.buffer, 0, f.room, 0));
const REMOVE = writing((x, f) => x.ansi_str_raw_remove(f.answer, 0, f.block, 0, f.text, 0, f.length, 0, f.first, high(f.first),
  f.last, high(f.last), f.buffer, 0, f.room, 0));
const REPLACE = writing((x, f) => x.ansi_str_raw_replace(f.answer, 0, f.block, 0, f.text, 0, f.length, 0, f.first, high(f.first),
  f.last, high(f.last), f.secondText, 0, f.secondLength, 0, f.buffer, 0, f.room, 0));
const INSERT = writing((x, f) => x.ansi_str_raw_insert(f.answer, 0, f.block, 0, f.text, 0, f.length, 0, f.first, high(f.first),
  f.secondText, 0, f.secondLength, 0, f.buffer, 0, f.room, 0));
const REPLACE_ALL = writing((x, f) => x.ansi_str_raw_replace_all(f.answer, 0, f.block, 0, f.text, 0, f.length, 0, f.secondText, 0,
  f.secondLength, 0, f.thirdText, 0, f.thirdLength, 0, f.buffer, 0, f.room, 0));
// (the steps are the second text, and their number the first number)
const REPLACE_EACH = writing((x, f) => (
  x.ansi_str_raw_replace_each(f.answer, 0, f.block, 0, f.text, 0, f.length, 0, f.secondText, 0, f.first, 0, f.buffer, 0, f.room, 0)));
const EDIT = writing((x, f) => (
  x.ansi_str_raw_edit(f.answer, 0, f.block, 0, f.text, 0, f.length, 0, f.secondText, 0, f.first, 0, f.buffer, 0, f.room, 0)));
const EDIT_COLUMNS = writing((x, f) => (
  x.ansi_str_raw_edit_columns(f.answer, 0, f.block, 0, f.text, 0, f.length, 0, f.secondText, 0, f.first, 0, f.buffer, 0, f.room, 0)));
const LINK = writing((x, f) => x.ansi_str_raw_link(f.answer, 0, f.block, 0, f.text, 0, f.length, 0, f.first, high(f.first),
  f.last, high(f.last), f.secondText, 0, f.secondLength, 0, f.buffer, 0, f.room, 0));
const UNLINK = writing((x, f) => x.ansi_str_raw_unlink(f.answer, 0, f.block, 0, f.text, 0, f.length, 0, f.buffer, 0, f.room, 0));
const PEN_START = writing((x, f) => x.ansi_str_raw_pen_start(f.answer, 0, f.block, 0, f.text, 0, f.length, 0, f.buffer, 0, f.room, 0));
const PEN_END = writing((x, f) => x.ansi_str_raw_pen_end(f.answer, 0, f.block, 0, f.text, 0, f.length, 0, f.buffer, 0, f.room, 0));
const LINKS = listingLinks((x, f) => (
  x.ansi_str_raw_links(f.answer, 0, f.text, 0, f.length, 0, f.buffer, 0, f.room, 0, f.entries, 0, f.count, 0)));
const STARTS_WITH = telling((x, f) => x.ansi_str_raw_starts_with(f.answer, 0, f.text, 0, f.length, 0, f.secondText, 0, f.secondLength, 0));
const ENDS_WITH = telling((x, f) => x.ansi_str_raw_ends_with(f.answer, 0, f.text, 0, f.length, 0, f.secondText, 0, f.secondLength, 0));
const IS_WHOLE = telling((x, f) => x.ansi_str_raw_is_whole(f.answer, 0, f.text, 0, f.length, 0));
const SPLIT = listing((x, f) => x.ansi_str_raw_split(f.answer, 0, f.block, 0, f.text, 0, f.length, 0, f.secondText, 0, f.secondLength, 0,
  f.buffer, 0, f.room, 0, f.entries, 0, f.count, 0));
const WIDTH = telling((x, f) => x.ansi_str_raw_width(f.answer, 0, f.text, 0, f.length, 0));
const FITTING = telling((x, f) => x.ansi_str_raw_fitting(f.answer, 0, f.text, 0, f.length, 0, f.first, high(f.first)));
const COLUMN_OF = telling((x, f) => x.ansi_str_raw_column_of(f.answer, 0, f.text, 0, f.length, 0, f.first, high(f.first)));
const TRUNCATE = writing((x, f) => x.ansi_str_raw_truncate_with(f.answer, 0, f.block, 0, f.text, 0, f.length, 0, f.first, high(f.first),
  f.secondText, 0, f.secondLength, 0, f.word, f.buffer, 0, f.room, 0));
const FIT = filling((x, f) => x.ansi_str_raw_fit(f.answer, 0, f.block, 0, f.text, 0, f.length, 0, f.first, high(f.first), f.word,
  f.secondText, 0, f.secondLength, 0, f.buffer, 0, f.room, 0));
const PAD = filling((x, f) => (
  x.ansi_str_raw_pad(f.answer, 0, f.block, 0, f.text, 0, f.length, 0, f.first, high(f.first), f.word, f.buffer, 0, f.room, 0)));
const SLICE = writing((x, f) => x.ansi_str_raw_slice(f.answer, 0, f.block, 0, f.text, 0, f.length, 0, f.first, high(f.first),
  f.last, high(f.last), f.buffer, 0, f.room, 0));
const EXPAND_TABS = writing((x, f) => (
  x.ansi_str_raw_expand_tabs(f.answer, 0, f.block, 0, f.text, 0, f.length, 0, f.first, high(f.first), f.buffer, 0, f.room, 0)));
const WRAP = listing((x, f) => x.ansi_str_raw_wrap(f.answer, 0, f.block, 0, f.text, 0, f.length, 0, f.first, high(f.first),
  f.buffer, 0, f.room, 0, f.entries, 0, f.count, 0));
const WRAP_WITH = listing((x, f) => x.ansi_str_raw_wrap_with(f.answer, 0, f.block, 0, f.text, 0, f.length, 0, f.first, high(f.first),
  f.secondText, 0, f.secondLength, 0, f.thirdText, 0, f.thirdLength, 0, f.buffer, 0, f.room, 0, f.entries, 0, f.count, 0));
const LINES = ranging((x, f) => (
  x.ansi_str_raw_lines(f.answer, 0, f.text, 0, f.length, 0, f.first, high(f.first), f.entries, 0, f.count, 0)));
const LINK_AT = writing((x, f) => (
  x.ansi_str_raw_link_at(f.answer, 0, f.text, 0, f.length, 0, f.first, high(f.first), f.buffer, 0, f.room, 0)));
// (the word shows what isn't allowed, and the first number keeps links)
const SANITIZE = writing((x, f) => (
  x.ansi_str_raw_sanitize(f.answer, 0, f.block, 0, f.text, 0, f.length, 0, f.word, f.first, f.buffer, 0, f.room, 0)));
const SANITIZE_BYTES = writing((x, f) => (
  x.ansi_str_raw_sanitize_bytes(f.answer, 0, f.block, 0, f.text, 0, f.length, 0, f.word, f.first, f.buffer, 0, f.room, 0)));
const IS_SAFE = telling((x, f) => x.ansi_str_raw_is_safe(f.answer, 0, f.text, 0, f.length, 0, f.first));

/** The text that is made of another by steps, or null if one is refused. */
const stepped = (call, text, steps) => calledInSteps(call, text,
  steps.map(({ kind, place = 0, first, second, pattern }) => ({ words: [kind + place * 2 ** 32, first, second], text: pattern })));

/** The exports of the module, on texts and numbers. Positions are bytes of the plain text, and null is a refusal or nothing. */
const raw = {
  strip: (text) => called(STRIP, text),
  find: (text, pattern) => called(FIND, text, pattern),
  findFrom: (text, position, pattern) => called(FIND_FROM, text, pattern, '', position),
  /** Where each match begins and ends: the beginning and the end of the first, then those of the next. */
  matches: (text, pattern) => called(MATCHES, text, pattern),
  /** The text with codes applied in ranges, which are given in this form. */
  restyle: (text, positions, codes) => called(RESTYLE, text, rangesAsBytes(positions), codes),
  /** The index of the first range that `restyle` and `replaceEach` refuse. */
  refusedRange: (text, positions) => called(REFUSED_RANGE, text, rangesAsBytes(positions)),
  mark: (text, pattern, codes) => called(MARK, text, pattern, codes),
  remove: (text, start, end) => called(REMOVE, text, '', '', start, end),
  replace: (text, start, end, replacement) => called(REPLACE, text, replacement, '', start, end),
  insert: (text, position, added) => called(INSERT, text, added, '', position),
  replaceAll: (text, pattern, replacement) => called(REPLACE_ALL, text, pattern, replacement),
  /** The text with a text of its own in place of each range. */
  replaceEach: (text, ranges, replacements) => calledInSteps(REPLACE_EACH, text,
    ranges.map((range, index) => ({ words: range, text: replacements[index] }))),
  link: (text, start, end, address) => called(LINK, text, address, '', start, end),
  unlink: (text) => called(UNLINK, text),
  /** What opens again what is open at the end of the text, and what closes it. */
  penStart: (text) => called(PEN_START, text),
  penEnd: (text) => called(PEN_END, text),
  links: (text) => called(LINKS, text),
  startsWith: (text, pattern) => called(STARTS_WITH, text, pattern) !== null,
  endsWith: (text, pattern) => called(ENDS_WITH, text, pattern) !== null,
  isWhole: (text) => called(IS_WHOLE, text) !== null,
  edit: (text, steps) => stepped(EDIT, text, steps),
  editColumns: (text, steps) => stepped(EDIT_COLUMNS, text, steps),
  split: (text, pattern) => called(SPLIT, text, pattern),
  /** The display width of the plain text, in columns; the position up to which it fits; the columns before a position. */
  width: (text) => called(WIDTH, text),
  fitting: (text, width) => called(FITTING, text, '', '', width),
  columnOf: (text, position) => called(COLUMN_OF, text, '', '', position),
  truncate: (text, width, tail, side) => called(TRUNCATE, text, tail, '', width, 0, side),
  fit: (text, width, alignment, tail) => called(FIT, text, tail, '', width, 0, alignment),
  pad: (text, width, alignment) => called(PAD, text, '', '', width, 0, alignment),
  sliceColumns: (text, start, end) => called(SLICE, text, '', '', start, end),
  expandTabs: (text, stop) => called(EXPAND_TABS, text, '', '', stop),
  wrap: (text, width) => called(WRAP, text, '', '', width),
  wrapWith: (text, width, first, later) => called(WRAP_WITH, text, first, later, width),
  /** Where each line begins and ends, in the form of matches. */
  lines: (text, width) => called(LINES, text, '', '', width),
  /** The address of the link at a position. */
  linkAt: (text, position) => called(LINK_AT, text, '', '', position),
  sanitize: (text, rest, links) => called(SANITIZE, text, '', '', links, 0, rest),
  sanitizeBytes: (bytes, rest, links) => called(SANITIZE_BYTES, bytes, '', '', links, 0, rest),
  isSafe: (text, links) => called(IS_SAFE, text, '', '', links) !== null,
};

// (Node 18 has no such method)
const isWellFormed = String.prototype.isWellFormed ? (text) => text.isWellFormed() : (text) => !/\p{Surrogate}/u.test(text);

function textOf(name, value) {
  if (typeof value !== 'string') {
    throw new TypeError(`the ${name} must be a string`);
  }
  if (!isWellFormed(value)) {
    throw new TypeError(`the ${name} has a lone surrogate`);
  }
  return value;
}

function numberOf(name, value) {
  if (!Number.isInteger(value)) {
    throw new TypeError(`the ${name} must be a whole number`);
  }
  if (value < 0) {
    throw new RangeError(`the ${name} is below 0: ${value}`);
  }
  return Math.min(value, END);
}

// (an ASCII character is one byte and one unit, so its position in units is its position in bytes)
const isAscii = (text) => /^[\0-\x7f]*$/.test(text);

/** Converts a position in units of the plain text to bytes. A position between two surrogates becomes one inside their character. */
function placeOf(plain, position) {
  if (position >= plain.length) {
    return bytesOf(plain);
  }
  const before = plain.slice(0, position);
  return isWellFormed(before) ? bytesOf(before) : bytesOf(before.slice(0, -1)) + 2;
}

/** A function that converts positions in bytes of the plain text, which ascend, to units. */
function unitsIn(plain) {
  let [bytes, units] = [0, 0];
  return (position) => {
    while (bytes < position) {
      const character = String.fromCodePoint(plain.codePointAt(units));
      bytes += bytesOf(character);
      units += character.length;
    }
    return units;
  };
}

/** The same, but as many places past the end as the position is. */
const placeIn = (plain, position) => placeOf(plain, position) + Math.max(position - plain.length, 0);

/** Pairs of these positions. */
const pairsOf = (positions) => Array.from({ length: positions.length / 2 }, (_, index) => [positions[2 * index], positions[2 * index + 1]]);

/** A function that converts positions in units of the plain text, which ascend, to bytes, as `placeIn` does. */
function placesIn(plain) {
  let [bytes, units] = [0, 0];
  return (position) => {
    const place = bytes + placeIn(plain.slice(units, position), position - units);
    if (position <= plain.length && isWellFormed(plain.slice(units, position))) {
      [bytes, units] = [place, position];
    }
    return place;
  };
}

/** What a cut has as a step. */
function cutOf(start, end) {
  const first = numberOf('start', start);
  if (end === undefined) {
    return { first, second: END, places: ['first'] };
  }
  const second = numberOf('end', end);
  // (large positions become one, and so do those past the end; an end below its start has to stay below it)
  return start <= end ? { first, second, places: ['first', 'second'] } : { first: 1, second: 0, places: [] };
}

/** The edit as a step of the library: its kind, its numbers, which of them are positions (`places`), and its pattern. */
function stepOf(edit) {
  const [name, ...more] = Array.isArray(edit) ? edit : [];
  if (typeof name !== 'string' || !Object.hasOwn(KINDS, name)) {
    throw new TypeError('an edit must be an array that begins with the name of an edit');
  }
  const step = { kind: KINDS[name], first: 0, second: 0, places: [], pattern: '' };
  if (name === 'cut') {
    Object.assign(step, cutOf(more[0], more[1]));
  } else if (name === 'left' || name === 'right') {
    step.first = numberOf('index', more[0]);
    step.places = ['first'];
  } else if (name === 'part') {
    step.pattern = textOf('pattern', more[0]);
    step.first = numberOf('index', more[1]);
  } else if (name !== 'trim') {
    step.pattern = textOf('pattern', more[0]);
  }
  return step;
}

export function edit(text, edits) {
  textOf('text', text);
  const steps = [...edits].map(stepOf);
  if (isAscii(text)) {
    return raw.edit(text, steps);
  }
  // positions of a step count units of the result of the steps before it
  let given = text;
  for (const step of steps) {
    const placed = { ...step };
    if (step.places.length > 0) {
      const plain = raw.strip(given);
      for (const place of step.places) {
        placed[place] = placeOf(plain, step[place]);
      }
    }
    given = raw.edit(given, [placed]);
    if (given === null) {
      return null;
    }
  }
  return given;
}

/** Why an edit with these positions is refused. */
function refusal(plain, start, end) {
  if (end < start) {
    return `the end, ${end}, is before the start, ${start}`;
  }
  const inside = [start, end].find((position) => !isWellFormed(plain.slice(0, position)));
  return `the position ${inside} is inside a character`;
}

/** An edit that is refused only for its positions. */
function placed(text, step, ...positions) {
  const given = edit(text, [step]);
  if (given === null) {
    throw new RangeError(refusal(strip(text), ...positions));
  }
  return given;
}

export function strip(text) {
  return textOf('text', text).includes('\x1b') ? raw.strip(text) : text;
}

export function cut(text, start, end) {
  return placed(text, ['cut', start, end], start, end);
}

export function left(text, index) {
  return placed(text, ['left', index], index);
}

export function right(text, index) {
  return placed(text, ['right', index], index);
}

export function splitAt(text, index) {
  return [left(text, index), right(text, index)];
}

export function trim(text) {
  return placed(text, ['trim']);
}

export function stripPrefix(text, pattern) {
  return edit(text, [['prefix', pattern]]);
}

export function stripSuffix(text, pattern) {
  return edit(text, [['suffix', pattern]]);
}

export function part(text, pattern, index) {
  return edit(text, [['part', pattern, index]]);
}

export function startsWith(text, pattern) {
  return raw.startsWith(textOf('text', text), textOf('pattern', pattern));
}

export function endsWith(text, pattern) {
  return raw.endsWith(textOf('text', text), textOf('pattern', pattern));
}

export function hasAny(text) {
  return textOf('text', text).includes('\x1b');
}

export function isWhole(text) {
  return raw.isWhole(textOf('text', text));
}

export function isCharBoundary(text, index) {
  const plain = strip(text);
  const position = numberOf('index', index);
  return position <= plain.length && isWellFormed(plain.slice(0, position));
}

export function floorCharBoundary(text, index) {
  const plain = strip(text);
  const position = Math.min(numberOf('index', index), plain.length);
  return isWellFormed(plain.slice(0, position)) ? position : position - 1;
}

export function find(text, pattern) {
  textOf('text', text);
  textOf('pattern', pattern);
  if (!isAscii(text)) {
    return raw.strip(text).indexOf(pattern);
  }
  return raw.find(text, pattern) ?? -1;
}

export function findFrom(text, position, pattern) {
  textOf('text', text);
  const place = numberOf('position', position);
  textOf('pattern', pattern);
  if (isAscii(text)) {
    return raw.findFrom(text, place, pattern) ?? -1;
  }
  const plain = raw.strip(text);
  const found = raw.findFrom(text, placeIn(plain, place), pattern);
  return found === null ? -1 : unitsIn(plain)(found);
}

export function matches(text, pattern) {
  const places = raw.matches(textOf('text', text), textOf('pattern', pattern));
  return pairsOf(isAscii(text) ? places : places.map(unitsIn(raw.strip(text))));
}

/** The SGR codes that set the attributes, in their order. */
const CODES = [1, 2, 3, 4, 21, 5, 6, 7, 8, 9, 51, 52, 20, 26, 53, 60, 61, 62, 63, 64, 73, 74];

function byteOf(name, number) {
  if (numberOf(name, number) > 255) {
    throw new RangeError(`the ${name} is above 255: ${number}`);
  }
  return number;
}

/** The code of a color: after the code `extended`, or for a name, if there is a first code of names, from that on. */
function colorCode(name, color, extended, firstOfNames) {
  if (typeof color === 'string') {
    const index = indexOf(name, color, COLORS);
    return firstOfNames === null ? `${extended};5;${index}` : `${firstOfNames + index % 8 + (index >= 8 ? 60 : 0)}`;
  }
  if (typeof color === 'object') {
    const numbers = Array.isArray(color) ? color : [color.red, color.green, color.blue];
    if (numbers.length !== 3) {
      throw new TypeError(`the ${name} must have three numbers`);
    }
    return `${extended};2;${numbers.map((number) => byteOf(name, number)).join(';')}`;
  }
  return `${extended};5;${byteOf(name, color)}`;
}

/** The codes of a style: those of a string, or of an object by names, which may be the style of a block. */
function codesOf(style) {
  if (typeof style === 'string') {
    if (!/^[0-9:;]*$/.test(style)) {
      throw new RangeError(`the style must have only digits, ";" and ":": ${style}`);
    }
    return style;
  }
  if (typeof style !== 'object' || style === null) {
    throw new TypeError('the style must be a string or an object');
  }
  // (the last three tell nothing that the others don't)
  const { foreground = null, background = null, underlineColor = null, font = null, attributes: set = [], hasAny, start, end, ...names } = style;
  const attributes = { ...Object.fromEntries(Array.from(set, (name) => [name, true])), ...names };
  const unknown = Object.keys(attributes).find((name) => !ATTRIBUTES.includes(name));
  if (unknown !== undefined) {
    throw new TypeError(`the style has no attribute ${unknown}: they are ${ATTRIBUTES.join(', ')}`);
  }
  const codes = CODES.filter((_, index) => attributes[ATTRIBUTES[index]]);
  if (font !== null) {
    if (numberOf('font', font) < 10 || font > 19) {
      throw new RangeError(`the font must be from 10 to 19: ${font}`);
    }
    codes.push(font);
  }
  const colors = [['foreground', foreground, 38, 30], ['background', background, 48, 40], ['underline color', underlineColor, 58, null]];
  codes.push(...colors.filter(([, color]) => color !== null).map((given) => colorCode(...given)));
  return codes.join(';');
}

export function codes(style) {
  return codesOf(style);
}

export function mark(text, pattern, style) {
  return raw.mark(textOf('text', text), textOf('pattern', pattern), codesOf(style));
}

/** Throws for a position inside a character, or past the end, of a plain text. */
function checkRange(plain, start, end) {
  if (end > plain.length) {
    throw new RangeError(`the end, ${end}, is past the end of the plain text, ${plain.length}`);
  }
  if (end < start || !isWellFormed(plain.slice(0, start)) || !isWellFormed(plain.slice(0, end))) {
    throw new RangeError(refusal(plain, start, end));
  }
}

/** The positions of ranges in order. */
function positionsOf(ranges) {
  const positions = [];
  let before = 0;
  for (const range of ranges) {
    if (typeof range !== 'object' || range === null) {
      throw new TypeError(`the ranges must be pairs of a start and an end, such as [[0, 1]], not ${String(range)}`);
    }
    const [first, last] = range;
    const [start, end] = [numberOf('start', first), numberOf('end', last)];
    if (start < before) {
      throw new RangeError(`a range begins before the one before it ends: ${start} is below ${before}`);
    }
    if (end < start) {
      throw new RangeError(`the end, ${end}, is before the start, ${start}`);
    }
    positions.push(start, end);
    before = end;
  }
  return positions;
}

/** What is made of a text and positions in bytes; it is refused only for the ranges. */
function madeInRanges(text, positions, make) {
  const places = isAscii(text) ? positions : positions.map(placesIn(raw.strip(text)));
  const made = make(places);
  if (made === null) {
    checkRange(strip(text), ...pairsOf(positions)[raw.refusedRange(text, places)]);
  }
  return made;
}

export function refusedRange(text, ranges) {
  textOf('text', text);
  const positions = Array.from(ranges, ([start, end]) => [numberOf('start', start), numberOf('end', end)]);
  const plain = isAscii(text) ? null : raw.strip(text);
  return raw.refusedRange(text, plain === null ? positions.flat() : positions.flat().map((position) => placeIn(plain, position)));
}

export function restyle(text, ranges, style) {
  textOf('text', text);
  const codes = codesOf(style);
  return madeInRanges(text, positionsOf(ranges), (places) => raw.restyle(text, places, codes));
}

/** What is made of a text and a range in bytes; it is refused only for the range. */
function madeInRange(text, start, end, make) {
  const [first, last] = [numberOf('start', start), numberOf('end', end)];
  const plain = isAscii(text) ? null : raw.strip(text);
  const places = plain === null ? [first, last] : [first, last].map((position) => placeIn(plain, position));
  const made = make(...places);
  if (made === null) {
    checkRange(strip(text), first, last);
  }
  return made;
}

export function remove(text, start, end) {
  textOf('text', text);
  return madeInRange(text, start, end, (first, last) => raw.remove(text, first, last));
}

export function replace(text, start, end, replacement) {
  textOf('text', text);
  textOf('replacement', replacement);
  return madeInRange(text, start, end, (first, last) => raw.replace(text, first, last, replacement));
}

export function insert(text, position, added) {
  textOf('text', text);
  const at = numberOf('position', position);
  textOf('added text', added);
  const longer = raw.insert(text, isAscii(text) ? at : placeIn(raw.strip(text), at), added);
  if (longer === null) {
    const plain = strip(text);
    throw new RangeError(at > plain.length ? `the position, ${at}, is past the end of the plain text, ${plain.length}` : refusal(plain, at, at));
  }
  return longer;
}

export function replaceAll(text, pattern, replacement) {
  return raw.replaceAll(textOf('text', text), textOf('pattern', pattern), textOf('replacement', replacement));
}

export function replaceEach(text, replacements) {
  textOf('text', text);
  const given = Array.from(replacements, ([start, end, replacement]) => [start, end, textOf('replacement', replacement)]);
  const news = given.map(([, , replacement]) => replacement);
  return madeInRanges(text, positionsOf(given), (places) => raw.replaceEach(text, pairsOf(places), news));
}

export function link(text, start, end, address) {
  textOf('text', text);
  if (!/^[ -~]+$/.test(textOf('address', address))) {
    throw new RangeError(`the address must be printable ASCII, and not empty: ${address}`);
  }
  if (address.length > 2083) {
    throw new RangeError(`the address must have at most 2083 characters, not ${address.length}`);
  }
  return madeInRange(text, start, end, (first, last) => raw.link(text, first, last, address));
}

export function unlink(text) {
  return textOf('text', text).includes('\x1b') ? raw.unlink(text) : text;
}

export function links(text) {
  const found = raw.links(textOf('text', text));
  if (isAscii(text)) {
    return found;
  }
  const inUnits = unitsIn(raw.strip(text));
  return found.map(({ start, end, address }) => ({ start: inUnits(start), end: inUnits(end), address }));
}

export function split(text, pattern) {
  return raw.split(textOf('text', text), textOf('pattern', pattern));
}

export function iterSplit(text, pattern) {
  return iterParts(textOf('text', text), textOf('pattern', pattern));
}

/** A character that no sequence before it takes in. */
const CELL = '\xe9';

/** The address of the link after sequences, if `link` is open before them. */
function linkAfter(link, sequences) {
  // (if none is open after them, they close each link, or have none)
  return raw.linkAt(sequences + CELL, 0) ?? (raw.linkAt(`\x1b]8;;-\x1b\\${sequences}${CELL}`, 0) === null ? null : link);
}

/** The blocks, each with its link. */
function* withLinks(blocks) {
  let link = null;
  for (const block of blocks) {
    if (block.sequences.includes('\x1b]8;')) {
      link = linkAfter(link, block.sequences);
    }
    yield { ...block, link };
  }
}

export function iterBlocks(text) {
  return withLinks(blockWalk(textOf('text', text)));
}

/** A block of a whole text: its run, and the sequences before that. */
function apart({ text, style }) {
  const run = text.includes('\x1b') ? raw.strip(text) : text;
  return { text: run, style, sequences: text.slice(0, text.length - run.length) };
}

export function blocks(text) {
  // (a lone ESC before a run may begin a sequence with it, so only a walk says where the run begins)
  return isWhole(text) ? [...withLinks(blocksOf(text).map(apart))] : [...iterBlocks(text)];
}

export function penAfter(text) {
  const { style, link } = openAfter(textOf('text', text));
  // (a link is opened as it was written, with its parameters; and what an unknown code set is ended, which is no part of a style alone)
  return { style, link, start: link === null ? style.start : raw.penStart(text), end: hasAny(text) ? raw.penEnd(text) : '' };
}

export function styleOf(style) {
  return openAfter(`\x1b[${codesOf(style)}m`).style;
}

export function union(first, second) {
  // (the codes of a style only set)
  return styleOf([first, second].map((style) => codesOf(styleOf(style))).filter((codes) => codes !== '').join(';'));
}

export function difference(first, second) {
  const [mine, others] = [styleOf(first), styleOf(second)];
  const same = ['foreground', 'background', 'underlineColor', 'font'].filter((part) => JSON.stringify(mine[part]) === JSON.stringify(others[part]));
  const attributes = mine.attributes.filter((name) => !others.attributes.includes(name));
  return styleOf({ ...mine, ...Object.fromEntries(same.map((part) => [part, null])), attributes });
}

export function width(text) {
  return raw.width(textOf('text', text));
}

export function fitting(text, width) {
  const position = raw.fitting(textOf('text', text), numberOf('width', width));
  return isAscii(text) ? position : unitsIn(raw.strip(text))(position);
}

export function columnOf(text, position) {
  textOf('text', text);
  const place = numberOf('position', position);
  const column = raw.columnOf(text, isAscii(text) ? place : placeOf(raw.strip(text), place));
  if (column === null) {
    throw new RangeError(`the position ${place} is inside a character`);
  }
  return column;
}

/** The number of one of these words. */
function indexOf(name, word, words) {
  if (!words.includes(word)) {
    throw new TypeError(`the ${name} must be one of ${words.join(', ')}`);
  }
  return words.indexOf(word);
}

/** The options of a call. One that it doesn't know is refused. */
function optionsOf(options, names) {
  const unknown = Object.keys(options).find((name) => !names.includes(name));
  if (unknown !== undefined) {
    throw new TypeError(`there is no option ${unknown}: they are ${names.join(', ')}`);
  }
  return options;
}

/** The tail, and the side at which a text is truncated. */
function truncationOf(options = '') {
  const isText = typeof options !== 'object' || options === null;
  const { tail = '', side = 'end' } = isText ? { tail: options } : optionsOf(options, ['tail', 'side']);
  return { tail, side };
}

export function truncate(text, width, options) {
  const { tail, side } = truncationOf(options);
  return raw.truncate(textOf('text', text), numberOf('width', width), textOf('tail', tail), indexOf('side', side, SIDES));
}

export function pad(text, width, alignment = 'left') {
  const place = indexOf('alignment', alignment, ALIGNMENTS);
  return raw.pad(textOf('text', text), numberOf('width', width), place);
}

export function fit(text, width, alignment = 'left', tail = '') {
  const place = indexOf('alignment', alignment, ALIGNMENTS);
  return raw.fit(textOf('text', text), numberOf('width', width), place, textOf('tail', tail));
}

export function sliceColumns(text, start = 0, end = END) {
  return raw.sliceColumns(textOf('text', text), numberOf('start', start), numberOf('end', end));
}

export function expandTabs(text, stop = 8) {
  return raw.expandTabs(textOf('text', text), numberOf('stop', stop));
}

/** The edit by columns as a step of the library: its kind, its side or alignment (`place`), its numbers, and its tail as a pattern. */
function columnStepOf(edit) {
  const [name, ...more] = Array.isArray(edit) ? edit : [];
  if (typeof name !== 'string' || !Object.hasOwn(COLUMN_KINDS, name)) {
    throw new TypeError('an edit must be an array that begins with the name of an edit by columns');
  }
  const step = { kind: COLUMN_KINDS[name], place: 0, first: 0, second: 0, pattern: '' };
  if (name === 'expand') {
    const [stop = 8] = more;
    step.first = numberOf('stop', stop);
  } else if (name === 'slice') {
    const [start = 0, end = END] = more;
    [step.first, step.second] = [numberOf('start', start), numberOf('end', end)];
  } else if (name === 'truncate') {
    const { tail, side } = truncationOf(more[1]);
    [step.first, step.pattern, step.place] = [numberOf('width', more[0]), textOf('tail', tail), indexOf('side', side, SIDES)];
  } else {
    const [width, alignment = 'left', tail = ''] = more;
    [step.first, step.place] = [numberOf('width', width), indexOf('alignment', alignment, ALIGNMENTS)];
    step.pattern = name === 'fit' ? textOf('tail', tail) : '';
  }
  return step;
}

export function editColumns(text, edits) {
  return raw.editColumns(textOf('text', text), [...edits].map(columnStepOf));
}

export function wrap(text, width, options = {}) {
  const { firstIndent = '', indent = '' } = optionsOf(options, ['firstIndent', 'indent']);
  textOf('text', text);
  const most = numberOf('width', width);
  const [first, later] = [textOf('first indent', firstIndent), textOf('indent', indent)];
  return first + later === '' ? raw.wrap(text, most) : raw.wrapWith(text, most, first, later);
}

export function lines(text, width) {
  const places = raw.lines(textOf('text', text), numberOf('width', width));
  return pairsOf(isAscii(text) ? places : places.map(unitsIn(raw.strip(text))));
}

function* inUnits(lines, unitsOf) {
  for (const [start, end] of lines) {
    yield [unitsOf(start), unitsOf(end)];
  }
}

export function iterLines(text, width) {
  const places = lineWalk(textOf('text', text), numberOf('width', width));
  return isAscii(text) ? places : inUnits(places, unitsIn(raw.strip(text)));
}

export function linkAt(text, position) {
  textOf('text', text);
  const place = numberOf('position', position);
  return raw.linkAt(text, isAscii(text) ? place : placeOf(raw.strip(text), place));
}

export function sanitize(text, options = {}) {
  const { show = false, links = false } = optionsOf(options, ['show', 'links']);
  const policy = [show ? 1 : 0, links ? 1 : 0];
  return isBytes(text) ? raw.sanitizeBytes(text, ...policy) : raw.sanitize(textOf('text', text), ...policy);
}

export function isSafe(text, options = {}) {
  const { links = false } = optionsOf(options, ['links']);
  return raw.isSafe(textOf('text', text), links ? 1 : 0);
}
