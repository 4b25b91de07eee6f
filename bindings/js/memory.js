// The WebAssembly module, and how texts get into its memory and results out of it.

const OK = 0;
const NO = 1;
const REFUSED = 2;
const TOO_SMALL = 4;
const OUT_OF_MEMORY = 5;

const PAGE = 65536;
/** What begins at a multiple of this many bytes is aligned. */
const UNIT = 16;
/** More pages than any memory has, and the largest number that a request for pages may have. */
const ANY_PAGES = 2 ** 31;
/** An arena is this many bytes short of whole pages, which the module's arena leaves to the system. */
const SHORT = 16;
/** A memory that has grown past this many bytes is released after the call. */
const KEPT = 16 * 2 ** 20;
/** At most this many instances wait for calls. */
const WAITING = 4;
/** An ASCII text of fewer units is copied faster unit by unit. */
const FEW = 64;
/** A text of so many units is long. */
const LONG = 2 ** 24;
/** One more than the largest number of 32 bits. */
const HALF = 2 ** 32;

/** The size in bytes of the numbers and pointers that a call passes in memory, ahead of texts. */
const ANSWER = 32;
const BLOCK = 16;
const STEP = 40;
const ENTRY = 48;
export const END = 8;
export const RANGE = 16;
export const LINK = 24;
/** The largest state of a walk, and the largest item. */
const WALK = 80;
const ITEM = 48;
/** A style without the bytes at its end that are only for alignment. */
const STYLE = 18;
/** The first room for what a walk writes of an item, and of how many styles the sequences are remembered. */
const ROOM = 4096;
const STYLES = 256;

const encoder = new TextEncoder();
const decoder = new TextDecoder('utf-8', { ignoreBOM: true });

/** Memory has run out. No error affects later calls. */
export class OutOfMemoryError extends Error {
  constructor() {
    super('out of memory');
    this.name = 'OutOfMemoryError';
  }
}

/** The error of a package whose module can't be loaded. It says why. */
export const unloaded = (cause) => new Error(`ansi_str: ansi_str.wasm can't be loaded: ${cause.message}`, { cause });

let compiled = null;

/** Takes the compiled module, of which each instance is made. */
export function use(module) {
  compiled = module;
}

/** How many bytes a text has in UTF-8. */
export function bytesOf(text) {
  let bytes = text.length;
  for (let index = 0; index < text.length; index++) {
    const unit = text.charCodeAt(index);
    if (unit >= 0x80) {
      // (a surrogate has half of the four bytes of its pair)
      bytes += unit < 0x800 || (unit >= 0xd800 && unit < 0xe000) ? 1 : 2;
    }
  }
  return bytes;
}

const propertyOf = (name) => Object.getOwnPropertyDescriptor(Object.getPrototypeOf(Uint8Array.prototype), name).get;
const [lengthOf, kindOf] = [propertyOf('length'), propertyOf(Symbol.toStringTag)];

/** Whether a value is a `Uint8Array`, also one of another realm. A subclass can't tell otherwise. */
export const isBytes = (value) => kindOf.call(value) === 'Uint8Array';

/** At least as many bytes as a text has, or as the text of bytes, each of which may become U+FFFD. Those of a long text are counted,
 * since the memory has at most 4 GiB. */
function mostBytesOf(text) {
  if (typeof text !== 'string') {
    return 3 * lengthOf.call(text);
  }
  return text.length < LONG ? 3 * text.length : bytesOf(text);
}

/** The next multiple of a unit, which is a power of two. */
const padded = (size, unit = UNIT) => size + (-size & (unit - 1));

/** The high half of a number of 64 bits. The low half is what JavaScript makes of the number if 32 bits are asked for. */
export const high = (number) => Math.floor(number / HALF);

/** An instance of the module, and the arguments and the result of a call in its memory. The module takes and tells each number of 64 bits
 * as two halves. */
class Frame {
  constructor() {
    this.exports = new WebAssembly.Instance(compiled).exports;
    /** Where the result is, and what a call passes in memory beside it. The first byte is that which the module doesn't use itself. */
    this.answer = padded(Number(this.exports.__heap_base.value));
    this.block = this.answer + ANSWER;
    this.walk = this.block + BLOCK;
    this.item = this.walk + WALK;
    this.steps = this.item + ITEM;
    this.look();
    // (so that each frame has the same fields)
    this.begin('', '', '', 0, 0, 0);
    this.lay(0, 0, 0, 0);
  }

  /** Makes views of the whole memory. Growth invalidates earlier views. */
  look() {
    this.bytes = new Uint8Array(this.exports.memory.buffer);
    this.view = new DataView(this.exports.memory.buffer);
  }

  /** Begins a call on up to three texts, with two numbers and a word. */
  begin(text, second, third, first, last, word) {
    this.given = text;
    this.first = first;
    this.last = last;
    this.word = word;
    this.free = this.steps;
    /** At least as many bytes as the texts have. */
    this.size = mostBytesOf(text) + mostBytesOf(second) + mostBytesOf(third);
    this.reserve(this.size + 3 * UNIT);
    this.text = this.free;
    this.length = this.put(text);
    this.secondText = this.free;
    this.secondLength = this.put(second);
    this.thirdText = this.free;
    this.thirdLength = this.put(third);
    this.behind = this.free;
  }

  /** Begins a call on a text and steps: words, and after them a text. */
  beginSteps(text, steps) {
    const size = padded(steps.length * STEP) + steps.reduce((sum, { text }) => sum + padded(mostBytesOf(text)), 0);
    this.begin(text, '', '', steps.length, 0, 0);
    this.size += size;
    this.reserve(size);
    let at = this.take(steps.length * STEP);
    this.secondText = at;
    for (const step of steps) {
      const place = this.free;
      for (const word of [...step.words, place, this.put(step.text)]) {
        this.setNumber(at, word);
        at += 8;
      }
    }
    this.behind = this.free;
  }

  /** Makes room for the result, of some bytes and some entries of a size, and an arena, behind the texts. */
  lay(room, entry, count, arena) {
    this.room = room;
    this.entry = entry;
    this.count = count;
    this.arena = arena;
    this.free = this.behind;
    this.reserve(room + count * entry + 2 * UNIT + arena);
    this.buffer = this.take(room);
    this.entries = this.take(count * entry);
    this.setNumber(this.block, this.take(arena));
    this.setNumber(this.block + 8, Math.max(arena - SHORT, 0));
  }

  /** Repeats a call until its result has room and it has enough memory. Returns whether it has a result. */
  run(ask) {
    for (;;) {
      ask(this.exports, this);
      const status = this.view.getUint32(this.answer, true);
      if (status === OK) {
        return true;
      } else if (status === NO || status === REFUSED) {
        return false;
      } else if (status === TOO_SMALL) {
        const isList = this.entry > 0;
        this.lay(this.number(this.answer + (isList ? 16 : 8)), this.entry, isList ? this.number(this.answer + 8) : 0, this.arena);
      } else if (status === OUT_OF_MEMORY) {
        this.lay(this.room, this.entry, this.count, 2 * this.arena);
      } else {
        throw new Error(`ansi_str: status ${status}`);
      }
    }
  }

  /** Grows the memory so that it has this many free bytes. */
  reserve(size) {
    const lacks = this.free + size - this.bytes.length;
    if (lacks > 0) {
      this.exports.memory.grow(Math.min(Math.ceil(lacks / PAGE), ANY_PAGES));
      this.look();
    }
  }

  /** Reserves this many bytes and returns their place. */
  take(size) {
    const place = this.free;
    this.free += padded(size);
    return place;
  }

  /** Writes a text, or bytes as they are, into the free bytes, and returns its length there. */
  put(text) {
    const place = this.take(mostBytesOf(text));
    if (typeof text !== 'string') {
      this.bytes.set(text, place);
      return lengthOf.call(text);
    }
    const units = text.length;
    if (units < FEW) {
      const { bytes } = this;
      let index = 0;
      for (let unit; index < units && (unit = text.charCodeAt(index)) < 0x80; index++) {
        bytes[place + index] = unit;
      }
      if (index === units) {
        return units;
      }
    }
    return encoder.encodeInto(text, this.bytes.subarray(place)).written;
  }

  setNumber(at, value) {
    this.view.setUint32(at, value, true);
    this.view.setUint32(at + 4, high(value), true);
  }

  number(at) {
    return this.view.getUint32(at, true) + HALF * this.view.getUint32(at + 4, true);
  }

  /** The number that a call told. */
  told() {
    return this.number(this.answer + 8);
  }

  /** Bytes of the memory as a text. */
  decoded(start, end) {
    return start === end ? '' : decoder.decode(this.bytes.subarray(start, end));
  }

  /** A text of the buffer. */
  written(start, end) {
    return this.decoded(this.buffer + start, this.buffer + end);
  }

  /** The stretch of the text whose pointer and length are here. Of an ASCII text it is a slice. */
  stretch(at) {
    const [place, length] = [this.number(at), this.number(at + 8)];
    const start = place - this.text;
    return this.length === this.given.length ? this.given.slice(start, start + length) : this.decoded(place, place + length);
  }

  /** Gives the frame back for the next calls, if no call has failed and its memory is small. */
  leave() {
    if (this.bytes !== null && this.bytes.length <= KEPT && waiting.length < WAITING) {
      this.given = '';
      waiting.push(this);
    } else {
      this.drop();
    }
  }

  /** Gives up the memory. */
  drop() {
    this.exports = null;
    this.bytes = null;
    this.view = null;
  }

  /** Returns a function that reads the texts of a list of this many bytes. If these are ASCII, each text is a slice of one string. */
  get each() {
    const length = this.number(this.answer + 16);
    const whole = this.written(0, length);
    return whole.length === length ? (start, end) => whole.slice(start, end) : (start, end) => this.written(start, end);
  }
}

/** The frames that wait for calls. */
const waiting = [];

const taken = () => waiting.pop() ?? new Frame();

/** How large the arena of a call is at first. */
function arenaOf(size, entry) {
  // (the texts of a list are assembled there, from texts that stay)
  return padded((entry > 0 && size < LONG ? 4 : 1) * size + PAGE, PAGE);
}

/** The error that a caller gets for one of JavaScript's. */
const named = (error) => (error instanceof RangeError || error.code === 'ERR_STRING_TOO_LONG' ? new OutOfMemoryError() : error);

/** Makes a call on a frame that has begun. Returns what `read` makes of it, or null if the call has no result. */
function finished(frame, call) {
  const room = call.room(frame);
  const size = room + frame.length + frame.secondLength + frame.thirdLength;
  frame.lay(room, call.entry, call.count(frame), arenaOf(size, call.entry));
  const result = frame.run(call.ask) ? call.read(frame) : null;
  frame.leave();
  return result;
}

/**
 * Makes a call: `ask` passes the frame to the module, `room` says how many bytes the result may have at first, `count` how many entries of
 * the size `entry`, and `read` reads the result. It is made on a text, up to two more, two numbers and a word.
 */
export function called(call, text, second = '', third = '', first = 0, last = 0, word = 0) {
  try {
    const frame = taken();
    frame.begin(text, second, third, first, last, word);
    return finished(frame, call);
  } catch (error) {
    throw named(error);
  }
}

/** Makes a call on a text and steps, each of words and a text. */
export function calledInSteps(call, text, steps) {
  try {
    const frame = taken();
    frame.beginSteps(text, steps);
    return finished(frame, call);
  } catch (error) {
    throw named(error);
  }
}

const none = () => 0;
const told = (frame) => frame.told();
const written = (frame) => frame.written(0, frame.told());

/** A call that tells a number, or whether something is so. */
export const telling = (ask) => ({ room: none, entry: 0, count: none, read: told, ask });
/** A call that writes a text, which may have blanks up to as many columns as its first number. */
export const writing = (ask) => ({ room: (frame) => frame.size + 1024, entry: 0, count: none, read: written, ask });
export const filling = (ask) => ({ ...writing(ask), room: (frame) => frame.size + frame.first + 1024 });
/** A call that writes a list of texts, with entries of this size. */
const listingAs = (entry, read) => (ask) => (
  { room: (frame) => frame.size + 4096, entry, count: (frame) => 256 + (frame.given.length >> 3), read, ask });

/** Numbers as entries have them, in bytes. */
export function rangesAsBytes(numbers) {
  const bytes = new Uint8Array(8 * numbers.length);
  const view = new DataView(bytes.buffer);
  numbers.forEach((number, index) => {
    view.setUint32(8 * index, number, true);
    view.setUint32(8 * index + 4, high(number), true);
  });
  return bytes;
}

function listed(frame) {
  let start = 0;
  const each = frame.each;
  return Array.from({ length: frame.told() }, (_, index) => {
    const end = frame.number(frame.entries + index * END);
    const text = each(start, end);
    start = end;
    return text;
  });
}

/** Links, each with where its range begins and ends, and its address. */
function linked(frame) {
  let begin = 0;
  const each = frame.each;
  return Array.from({ length: frame.told() }, (_, index) => {
    const at = frame.entries + index * LINK;
    const [start, end, addressEnd] = [frame.number(at), frame.number(at + 8), frame.number(at + 16)];
    const address = each(begin, addressEnd);
    begin = addressEnd;
    return { start, end, address };
  });
}

/** Calls that write a list of texts, of links and of blocks. */
export const listing = listingAs(END, listed);
export const listingLinks = listingAs(LINK, linked);

/** A call whose entries are two numbers each. */
export const ranging = (ask) => ({
  room: none,
  entry: RANGE,
  count: (frame) => 64 + (frame.given.length >> 3),
  read: (frame) => Array.from({ length: 2 * frame.told() }, (_, index) => frame.number(frame.entries + index * 8)),
  ask,
});

/** Begins a walk over texts, in a frame of its own, so that its memory stays as it is during other calls. */
function begun(begin, text, pattern, width) {
  try {
    const frame = taken();
    frame.begin(text, pattern ?? '', '', width, 0, 0);
    frame.lay(ROOM, 0, 0, PAGE);
    frame.bytes.fill(0, frame.walk, frame.walk + WALK);
    // (pointers to the texts, as each walk has them)
    frame.setNumber(frame.walk, frame.text);
    if (pattern !== null) {
      frame.setNumber(frame.walk + 16, frame.secondText);
    }
    frame.run(begin);
    return frame;
  } catch (error) {
    throw named(error);
  }
}

/** The next item of a walk, or null if none is left. */
function following(frame, next, read) {
  try {
    frame.setNumber(frame.item, frame.text);
    frame.setNumber(frame.item + 8, 0);
    return frame.run(next) ? read(frame) : null;
  } catch (error) {
    frame.drop();
    throw named(error);
  }
}

/** The items of a walk over a text, each made on demand. */
function* walked(begin, next, read, text, pattern = null, width = 0) {
  const frame = begun(begin, text, pattern, width);
  try {
    for (let item; (item = following(frame, next, read)) !== null;) {
      yield item;
    }
  } finally {
    frame.leave();
  }
}

const beginLines = (x, f) => x.ansi_str_raw_lines_begin(f.answer, 0, f.text, 0, f.length, 0, f.first, high(f.first), f.walk, 0);
const nextLine = (x, f) => x.ansi_str_raw_lines_next(f.answer, 0, f.walk, 0, f.item, 0);

/** The lines of `lines` one by one. */
export const iterLines = (text, width) => walked(beginLines, nextLine, (frame) => [frame.number(frame.item), frame.number(frame.item + 8)],
  text, null, width);

const beginParts = (x, f) => x.ansi_str_raw_parts_begin(f.answer, 0, f.text, 0, f.length, 0, f.secondText, 0, f.secondLength, 0, f.walk, 0);
const nextPart = (x, f) => x.ansi_str_raw_parts_next(f.answer, 0, f.block, 0, f.walk, 0, f.item, 0, f.buffer, 0, f.room, 0);

/** The parts of `split` one by one. What a walk has written, and then the stretch of its text, are a part. */
export const iterParts = (text, pattern) => walked(beginParts, nextPart, (frame) => written(frame) + frame.stretch(frame.item), text, pattern);

// The attributes by their bits, and the colors that codes name by their last digits, and the same bright.
export const ATTRIBUTES = ['bold', 'faint', 'italic', 'underline', 'doubleUnderline', 'slowBlink', 'rapidBlink', 'inverse', 'hide', 'crossedOut',
  'framed', 'encircled', 'fraktur', 'proportionalSpacing', 'overlined', 'ideogramUnderline', 'ideogramDoubleUnderline', 'ideogramOverline',
  'ideogramDoubleOverline', 'ideogramStressMarking', 'superscript', 'subscript'];
export const COLORS = ['black', 'red', 'green', 'yellow', 'blue', 'magenta', 'cyan', 'white',
  'brightBlack', 'brightRed', 'brightGreen', 'brightYellow', 'brightBlue', 'brightMagenta', 'brightCyan', 'brightWhite'];
const [NO_COLOR, NAMED, FIXED] = [0, 1, 2];

function colorAt({ bytes }, at) {
  const [kind, first] = [bytes[at], bytes[at + 1]];
  if (kind === NO_COLOR) {
    return null;
  }
  if (kind === NAMED) {
    return COLORS[first % 10 + (first >= 90 ? 8 : 0)];
  }
  return kind === FIXED ? first : { red: first, green: bytes[at + 2], blue: bytes[at + 3] };
}

/** The style whose bytes are here, with the sequences that set it and those that close it. */
function styleAt(frame, at, start, end) {
  const attributes = frame.view.getUint32(at, true);
  return {
    attributes: attributes === 0 ? [] : ATTRIBUTES.filter((_, bit) => attributes & (1 << bit)),
    foreground: colorAt(frame, at + 4),
    background: colorAt(frame, at + 8),
    underlineColor: colorAt(frame, at + 12),
    font: frame.bytes[at + 16] ? frame.bytes[at + 17] : null,
    hasAny: end !== '',
    start,
    end,
  };
}

function listedBlocks(frame) {
  let begin = 0;
  const each = frame.each;
  return Array.from({ length: frame.told() }, (_, index) => {
    const at = frame.entries + index * ENTRY;
    const [textStart, textEnd, end] = [frame.number(at), frame.number(at + 8), frame.number(at + 16)];
    const block = { text: each(textStart, textEnd), style: styleAt(frame, at + 24, each(begin, textStart), each(textEnd, end)) };
    begin = end;
    return block;
  });
}

const BLOCKS = listingAs(ENTRY, listedBlocks)((x, f) => (
  x.ansi_str_raw_styled_blocks(f.answer, 0, f.block, 0, f.text, 0, f.length, 0, f.buffer, 0, f.room, 0, f.entries, 0, f.count, 0)));

/** The blocks. The text of each is its run after the sequences before it. */
export const blocks = (text) => called(BLOCKS, text);

// (the style is that of the item)
const styleStart = (x, f) => x.ansi_str_raw_style_start(f.answer, 0, f.block, 0, f.item + 16, 0, f.buffer, 0, f.room, 0);
const styleEnd = (x, f) => x.ansi_str_raw_style_end(f.answer, 0, f.block, 0, f.item + 16, 0, f.buffer, 0, f.room, 0);

/** What a call on a style writes. */
function sequenceOf(frame, ask) {
  frame.run(ask);
  return written(frame);
}

/** The sequences that set and close the styles that were met last, by the bytes of a style. */
const known = new Map();

/** The style of an item. */
function styleOfItem(frame) {
  const at = frame.item + 16;
  const bytes = String.fromCharCode(...frame.bytes.subarray(at, at + STYLE));
  let sequences = known.get(bytes);
  if (sequences === undefined) {
    if (known.size === STYLES) {
      known.clear();
    }
    sequences = [sequenceOf(frame, styleStart), sequenceOf(frame, styleEnd)];
    known.set(bytes, sequences);
  }
  return styleAt(frame, at, ...sequences);
}

/** The block of a walk. `text` is its run alone. */
function blockAt(frame) {
  const sequences = written(frame);
  return { text: frame.stretch(frame.item), style: styleOfItem(frame), sequences };
}

const beginBlocks = (x, f) => x.ansi_str_raw_blocks_begin(f.answer, 0, f.text, 0, f.length, 0, f.walk, 0);
const nextBlock = (x, f) => x.ansi_str_raw_blocks_next(f.answer, 0, f.block, 0, f.walk, 0, f.item, 0, f.buffer, 0, f.room, 0);

/** The same blocks one by one, each with the sequences before its run. */
export const iterBlocks = (text) => walked(beginBlocks, nextBlock, blockAt, text);

const askPen = (x, f) => {
  f.bytes.fill(0, f.item, f.item + ITEM);
  f.setNumber(f.item, f.text);
  x.ansi_str_raw_pen_after(f.answer, 0, f.text, 0, f.length, 0, f.item, 0);
};

const PEN = { ...writing(askPen), read: (frame) => {
  const link = frame.number(frame.item + 8) === 0 ? null : frame.stretch(frame.item);
  return { style: styleOfItem(frame), link };
} };

/** The style and the address of the link that are open at the end of a text. */
export const openAfter = (text) => called(PEN, text);
