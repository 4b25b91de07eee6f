// Makes the calls of the rows of texts and results, which rows/README.md describes, in Node and in a page.

/** The calls that aren't here. The positions of an edit count the bytes of what the edit before it made. */
const LACKING = ['is_char_boundary', 'part_interval', 'edit', 'block_order', 'items', 'refused_range'];
/** How many arguments of a call are positions. */
const POSITIONS = { cut: 2, left: 1, right: 1, split_at: 1, floor_char_boundary: 1, link_at: 1, column_of: 1, find_from: 1, remove: 2,
  replace: 2, insert: 1, link: 2 };

async function read(url) {
  if (url.protocol === 'file:') {
    const { readFile } = await import('node:fs/promises');
    return readFile(url, 'utf8');
  }
  return (await fetch(url)).text();
}

/** The text of these bytes, or null if they aren't UTF-8. */
function decoded(bytes) {
  try {
    return new TextDecoder('utf-8', { fatal: true, ignoreBOM: true }).decode(bytes);
  } catch {
    return null;
  }
}

/** The text of a string of one unit for each byte, or null if the bytes aren't UTF-8. */
const textOf = (units) => (/^[\0-\x7f]*$/.test(units) ? units : decoded(Uint8Array.from(units, (unit) => unit.charCodeAt(0))));

/** The bytes of a text, which begins with `x`, as a string of one unit for each. */
const unitsOf = (field) => field.slice(1).split('+').map((piece) => {
  const [digits, count = 1] = piece.split('*').reverse();
  return digits.replace(/../g, (pair) => String.fromCharCode(parseInt(pair, 16))).repeat(count);
}).join('');

/** A field: a text, or another field as it is. Null for a text that isn't UTF-8. */
const fieldOf = (field) => (field[0] === 'x' ? textOf(unitsOf(field)) : field);

/** The fields of a row. `sanitize_bytes` takes bytes in place of a text. */
const rowOf = (fields) => fields.map((field, place) => (
  place === 3 && fields[0] === 'sanitize_bytes' ? Uint8Array.from(unitsOf(field), (unit) => unit.charCodeAt(0)) : fieldOf(field)));

/** The rows: a call, its status, its result, a text, and what else the call takes or returns; or why no such row can be read. */
export async function rows() {
  const lines = (await read(new URL('../../crates/ansi_rows/stdin', import.meta.url))).split('\n').filter((line) => line !== '');
  return lines.map((line) => rowOf(line.split(' ').slice(2))).map((row) => (row.includes(null) ? ['not UTF-8'] : row));
}

/** Converts a position in bytes to units. Null if it is inside a character. */
export function inUnits(plain, position) {
  const bytes = new TextEncoder().encode(plain);
  const before = decoded(bytes.subarray(0, position));
  return before === null ? null : before.length + Math.max(position - bytes.length, 0);
}

/** Ranges of bytes as ranges of units; in place of a position inside a character stands null. */
const rangesOf = (text, fields, ansi) => fields.map((field) => field.split(',').map((position) => inUnits(ansi.strip(text), Number(position))));

/** What a call returns, or null if it throws a RangeError. */
function orNull(call) {
  try {
    return call();
  } catch (error) {
    if (!(error instanceof RangeError)) {
      throw error;
    }
    return null;
  }
}

/** The replacements of a row, each of three fields: where its range begins and ends, and a text. */
function replacementsOf(text, fields, ansi) {
  const plain = ansi.strip(text);
  const placed = fields.map((field, index) => (index % 3 < 2 ? inUnits(plain, Number(field)) : field));
  return Array.from({ length: fields.length / 3 }, (_, index) => placed.slice(3 * index, 3 * index + 3));
}

/** The edits by columns of a row, each of five fields, or null if one has no such kind, side or alignment. */
function columnEditsOf(fields) {
  const [sides, alignments] = [['end', 'start', 'middle'], ['left', 'center', 'right']];
  const edits = Array.from({ length: fields.length / 5 }, (_, index) => {
    const [kind, place, first, second, tail] = fields.slice(5 * index, 5 * index + 5);
    const [side, alignment] = [sides[place], alignments[place]];
    const end = Math.min(Number(second), Number.MAX_SAFE_INTEGER);
    return [['expand', Number(first)], ['slice', Number(first), end], side && ['truncate', Number(first), { tail, side }],
      alignment && ['pad', Number(first), alignment], alignment && ['fit', Number(first), alignment, tail]][kind];
  });
  return edits.includes(undefined) ? null : edits;
}

/** What the calls of a row return, each with what the row says. */
function answersOf(ansi, call, found, want, text, more) {
  const [first, second] = more;
  const number = Number(first);
  switch (call) {
    case 'strip':
      return [[ansi.strip(text), want]];
    case 'find':
      return [[ansi.find(text, first), found === null ? -1 : inUnits(ansi.strip(text), Number(want))]];
    case 'find_from':
      return [[ansi.findFrom(text, first, second), found === null ? -1 : inUnits(ansi.strip(text), Number(want))]];
    case 'matches':
      return [[ansi.matches(text, first), rangesOf(text, more.slice(1), ansi)]];
    case 'restyle':
      return [[orNull(() => ansi.restyle(text, rangesOf(text, more.slice(1), ansi), first)), found]];
    case 'mark':
      return [[orNull(() => ansi.mark(text, first, second)), found]];
    case 'remove':
      return [[orNull(() => ansi.remove(text, first, second)), found]];
    case 'replace':
      return [[orNull(() => ansi.replace(text, first, second, more[2])), found]];
    case 'insert':
      return [[orNull(() => ansi.insert(text, first, second)), found]];
    case 'replace_all':
      return [[ansi.replaceAll(text, first, second), want]];
    case 'replace_each':
      return [[orNull(() => ansi.replaceEach(text, replacementsOf(text, more, ansi))), found]];
    case 'link':
      return [[orNull(() => ansi.link(text, first, second, more[2])), found]];
    case 'unlink':
      return [[ansi.unlink(text), want]];
    case 'links': {
      const ranges = rangesOf(text, more.filter((_, index) => index % 2 === 0), ansi);
      return [[ansi.links(text), ranges.map(([start, end], index) => ({ start, end, address: more[2 * index + 1] }))]];
    }
    case 'cut':
      return [[ansi.edit(text, [['cut', first, second]]), found]];
    case 'left':
    case 'right':
      return [[ansi.edit(text, [[call, first]]), found], [ansi.splitAt(text, first)[call === 'left' ? 0 : 1], want]];
    case 'part': {
      const index = Math.min(Number(second), Number.MAX_SAFE_INTEGER);
      return [[ansi.part(text, first, index), found], [ansi.edit(text, [['part', first, index]]), found]];
    }
    case 'strip_prefix':
      return [[ansi.edit(text, [['prefix', first]]), found], [ansi.stripPrefix(text, first), found]];
    case 'strip_suffix':
      return [[ansi.edit(text, [['suffix', first]]), found], [ansi.stripSuffix(text, first), found]];
    case 'edit_columns': {
      const edits = columnEditsOf(more);
      return edits === null ? [] : [[ansi.editColumns(text, edits), found]];
    }
    case 'starts_with':
      return [[ansi.startsWith(text, first), found !== null]];
    case 'ends_with':
      return [[ansi.endsWith(text, first), found !== null]];
    case 'has_any':
      return [[ansi.hasAny(text), found !== null]];
    case 'is_whole':
      return [[ansi.isWhole(text), found !== null]];
    case 'floor_char_boundary':
      return [[ansi.floorCharBoundary(text, first), inUnits(ansi.strip(text), Number(want))]];
    case 'trim':
      return [[ansi.edit(text, [['trim']]), want], [ansi.trim(text), want]];
    case 'split':
      return [[ansi.split(text, first), more.slice(1)], [[...ansi.iterSplit(text, first)], more.slice(1)]];
    case 'split_at':
      return [[ansi.splitAt(text, first), more.slice(1)]];
    case 'count_parts':
      return [[ansi.split(text, first).length, Number(want)]];
    case 'blocks':
      return [[ansi.blocks(text).flatMap(({ text, sequences, style }) => [sequences + text, style.hasAny ? '1' : '0']), more.filter((_, index) => index % 5 === 0 || index % 5 === 4)],
        [[...ansi.iterBlocks(text)], ansi.blocks(text)]];
    case 'styled_blocks':
      return [[ansi.blocks(text).flatMap(({ text, sequences, style }) => [style.start, sequences + text, style.end]), more], [[...ansi.iterBlocks(text)], ansi.blocks(text)]];
    case 'count_blocks':
      return [[ansi.blocks(text).length, Number(want)]];
    case 'block':
      return [[ansi.blocks(text).map(({ text, sequences }) => sequences + text)[number] ?? null, found]];
    case 'block_start':
      return [[ansi.blocks(text)[number]?.style.start ?? null, found]];
    case 'block_end':
      return [[ansi.blocks(text)[number]?.style.end ?? null, found]];
    case 'width':
      return [[ansi.width(text), Number(want)]];
    case 'fitting':
      return [[ansi.fitting(text, number), inUnits(ansi.strip(text), Number(want))]];
    case 'column_of':
      return [[ansi.columnOf(text, first), Number(want)]];
    case 'front':
      return [[ansi.cut(text, 0, ansi.fitting(text, number)), want]];
    case 'truncate':
      return [[ansi.truncate(text, number, second), want]];
    case 'pad':
      return [[ansi.pad(text, number, second.toLowerCase()), want]];
    case 'fit':
      return [[ansi.fit(text, number, second.toLowerCase(), more[2]), want]];
    case 'truncate_with':
      return [[ansi.truncate(text, number, { tail: second, side: more[2].toLowerCase() }), want]];
    case 'slice':
      return [[ansi.sliceColumns(text, number, Number(second)), want]];
    case 'expand_tabs':
      return [[ansi.expandTabs(text, number), want]];
    case 'wrap':
      return [[ansi.wrap(text, number), more.slice(1)]];
    case 'wrap_with':
      return [[ansi.wrap(text, number, { firstIndent: second, indent: more[2] }), more.slice(3)]];
    case 'lines': {
      const places = rangesOf(text, more.slice(1), ansi);
      return [[ansi.lines(text, number), places], [[...ansi.iterLines(text, number)], places]];
    }
    case 'link_at':
      return [[ansi.linkAt(text, first), found]];
    case 'sanitize':
    case 'sanitize_bytes':
      return [[ansi.sanitize(text, { show: first === 'Show', links: second === 'Keep' }), want]];
    case 'is_safe':
      return [[ansi.isSafe(text, { links: first === 'Keep' }), found !== null]];
    case 'pen_after': {
      const { link, start, end } = ansi.penAfter(text);
      return [[[start, link ?? '', end], more]];
    }
    case 'style_of': {
      const style = orNull(() => ansi.styleOf(text));
      return [[style && [style.start, style.end], found && more]];
    }
    case 'union':
    case 'difference': {
      const { start, end } = ansi[call](text, first);
      return [[[start, end], more.slice(1)]];
    }
    default:
      throw new Error(`no call of a row: ${call}`);
  }
}

/** Makes the calls of a row. Returns null, or why it is passed over. Throws if a call returns anything else than the row says. */
function whyNot(ansi, [call, status, want, text, ...more]) {
  if (text === undefined || LACKING.includes(call)) {
    return call;
  }
  const given = more.map((each, index) => (index < (POSITIONS[call] ?? 0) ? inUnits(ansi.strip(text), Number(each)) : each));
  if (given.includes(null) || (call === 'restyle' && rangesOf(text, more.slice(1), ansi).flat().includes(null)) ||
      (call === 'replace_each' && replacementsOf(text, more, ansi).flat().includes(null))) {
    return 'a position inside a character';
  }
  for (const pair of answersOf(ansi, call, status === '0' ? want : null, want, text, given)) {
    const [got, wanted] = pair.map((answer) => JSON.stringify(answer));
    if (got !== wanted) {
      throw new Error(`${JSON.stringify([call, text, ...more])}: ${got}, and not ${wanted}`);
    }
  }
  return null;
}

/** Makes the calls of each row, of the package that is given. Returns how many rows passed, and how many of which calls were passed over. */
export async function pass(ansi) {
  let passed = 0;
  const over = {};
  for (const row of await rows()) {
    const why = whyNot(ansi, row);
    if (why === null) {
      passed += 1;
    } else {
      over[why] = (over[why] ?? 0) + 1;
    }
  }
  return { passed, over };
}
