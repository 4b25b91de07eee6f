// In place of the package wrap-ansi. README.md says what differs.
import { fitting, lines, replaceEach, strip, width, wrap } from 'ansi_str';

/** Wider than any text. */
const ENDLESS = Number.MAX_SAFE_INTEGER;
/** What keeps the blanks at the end of a line, until it is wrapped: a printing character, of private use. */
const GUARD = '\ue000';

/** The lines of the text as its line feeds divide it. Each closes the styles and the link that it leaves open; the next reopens them. */
function linesOf(text, trim) {
  if (trim) {
    return wrap(text, ENDLESS);
  }
  return wrap(text.replaceAll('\n', `${GUARD}\n`) + GUARD, ENDLESS).map((line) => {
    // (only what closes the line comes after the last guard)
    const at = line.lastIndexOf(GUARD);
    return line.slice(0, at) + line.slice(at + 1);
  });
}

/** The replacements that put a text in place of a character of the plain text, in its style: right after it. */
function replacing(position, character, added) {
  const end = position + character.length;
  return [[position, end, ''], [end, end, added]];
}

/** Where a word breaks if it fills each line, the first of which has `used` columns before it. */
function breaksOf(word, used, columns) {
  const first = used > 0 ? fitting(word, Math.max(columns - used, 0)) : 0;
  if (first === word.length) {
    return [];
  }
  // A TAB in a word is no place to break.
  const rest = word.slice(first).replaceAll('\t', '_');
  const starts = lines(rest, columns).map(([start]) => first + start);
  return used > 0 ? starts : starts.slice(1);
}

/** Whether a word that is wider than a line has fewer breaks if it begins a new one. */
const breaksLess = (more, used, columns) => Math.floor((more - 1) / columns) < 1 + Math.floor((used + more - columns - 1) / columns);

/** What a line of `used` columns has before its next word, and its columns then: a blank, but at the beginning of a trimmed line. */
function blankOf(used, columns, { trim, wordWrap }) {
  const isFull = used >= columns && !(wordWrap && trim);
  const before = isFull ? 0 : used;
  const blank = before > 0 || !trim ? ' ' : '';
  return [(isFull ? '\n' : '') + blank, before + blank.length];
}

/** Whether a word of `more` columns begins a new line, and whether it fills each line. */
function placeOf(more, used, columns, { hard, wordWrap }) {
  if (hard && more > columns) {
    return { isNew: breaksLess(more, used, columns), fills: true };
  }
  if (used + more <= columns) {
    return { isNew: false, fills: false };
  }
  return { isNew: used > 0 && more > 0 && (wordWrap || used >= columns), fills: !wordWrap };
}

/** The replacements that break a line of plain text. */
function editsOf(plain, columns, options) {
  const edits = [];
  let [start, used] = [0, 0];
  for (const [index, word] of plain.split(' ').entries()) {
    const more = width(word);
    let blank = ' ';
    if (index > 0) {
      [blank, used] = blankOf(used, columns, options);
    }
    const { isNew, fills } = placeOf(more, used, columns, options);
    if (isNew) {
      blank += '\n';
      used = 0;
    }
    if (blank !== ' ') {
      edits.push(...replacing(start - 1, ' ', blank));
    }
    const breaks = fills ? breaksOf(word, used, columns) : [];
    for (const position of breaks) {
      const character = String.fromCodePoint(word.codePointAt(position));
      edits.push(...replacing(start + position, character, `\n${character}`));
    }
    used = breaks.length > 0 ? width(word.slice(breaks.at(-1))) : used + more;
    start += word.length + 1;
  }
  return edits;
}

export default function wrapAnsi(string, columns, { hard = false, trim = true, wordWrap = true } = {}) {
  const options = { hard, trim, wordWrap };
  const most = Math.max(columns, 1);
  const paragraphs = linesOf(String(string).replaceAll('\r\n', '\n'), false);
  return paragraphs.flatMap((line) => linesOf(replaceEach(line, editsOf(strip(line), most, options)), trim)).join('\n');
}
