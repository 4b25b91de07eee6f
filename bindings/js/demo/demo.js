// The page: what each call makes of a text, as a terminal shows it, beside the usual way with regular expressions where that differs.

const element = (id) => document.getElementById(id);

/** A new element with its class, attributes and children. */
function made(name, className = '', attributes = {}, ...children) {
  const one = document.createElement(name);
  Object.entries(className ? { class: className, ...attributes } : attributes).forEach(([key, value]) => one.setAttribute(key, value));
  one.append(...children);
  return one;
}

// --- texts, as they are typed and written

const TYPED = /\\(?:(e|E|033|x1[bB])|x([0-9a-fA-F]{2})|u\{([0-9a-fA-F]{1,6})\}|([antr\\]))/g;
const LETTERS = { a: '\x07', n: '\n', t: '\t', r: '\r', '\\': '\\' };

/** The text that is typed. A number that is no character's stays as it is. */
const read = (typed) => typed.replace(TYPED, (all, escape, byte, code, letter) => {
  const number = parseInt(byte ?? code, 16);
  return escape ? '\x1b' : letter ? LETTERS[letter] : number < 0x110000 && (number < 0xd800 || number > 0xdfff) ? String.fromCodePoint(number) : all;
}).toWellFormed();

const HIDDEN = '\\0-\\x1f\\x7f-\\x9f\\u202a-\\u202e\\u2066-\\u2069';
const NAMES = { '\x1b': '\\e', '\x07': '\\a', '\n': '\\n', '\t': '\\t', '\r': '\\r', '\\': '\\\\' };

/** The text as it can be typed. */
const written = (text) => text.replace(new RegExp(`[\\\\${HIDDEN}]`, 'g'), (each) => {
  const code = each.charCodeAt(0).toString(16);
  return NAMES[each] ?? (code.length > 2 ? `\\u{${code}}` : `\\x${code.padStart(2, '0')}`);
});

// --- the usual way

const SGR = '\\x1b\\[[0-9;]*m';

const usual = {
  strip: (text) => [text.replace(new RegExp(SGR, 'g'), '')],
  cut(text, { from, to }) {
    let [cut, at] = ['', 0];
    text.split(new RegExp(`(${SGR})`)).forEach((piece, index) => {
      if (index % 2 === 0) {
        cut += piece.slice(Math.max(0, from - at), Math.max(0, to - at));
        at += piece.length;
      } else if (at <= to) {
        cut += piece;
      }
    });
    return [cut];
  },
  split: (text, { by }) => text.split(read(by)),
  truncate(text, { columns }) {
    const isLonger = usual.strip(text)[0].length > columns;
    return [isLonger ? usual.cut(text, { from: 0, to: Math.max(0, columns - 1) })[0] + '…' : text];
  },
  slice: (text, range) => usual.cut(text, range),
  wrap: (text, { columns }) => text.replace(new RegExp(`(.{1,${columns}})(\\s+|$)`, 'g'), '$1\n').replace(/\n$/, '').split('\n'),
  sanitize: (text) => [text.replace(/\x1b\[[0-9;?]*[A-Za-z]/g, '')],
};

// --- as a terminal shows it

let library;

const NAMED = {
  black: 0, red: 1, green: 2, yellow: 3, blue: 4, magenta: 5, cyan: 6, white: 7, brightBlack: 8, brightRed: 9,
  brightGreen: 10, brightYellow: 11, brightBlue: 12, brightMagenta: 13, brightCyan: 14, brightWhite: 15,
};

/** A color as CSS has it: one of 16, of the cube of 6 by 6 by 6, of 24 grays, or red, green and blue. */
function cssOf(color) {
  if (color === null) {
    return null;
  }
  if (typeof color === 'object') {
    return `rgb(${color.red} ${color.green} ${color.blue})`;
  }
  const index = NAMED[color] ?? color;
  if (index < 16) {
    return `var(--c${index})`;
  }
  if (index > 231) {
    const gray = 8 + 10 * (index - 232);
    return `rgb(${gray} ${gray} ${gray})`;
  }
  const level = (part) => (part % 6 === 0 ? 0 : 55 + 40 * (part % 6));
  const cube = index - 16;
  return `rgb(${level(Math.floor(cube / 36))} ${level(Math.floor(cube / 6))} ${level(cube)})`;
}

const SEQUENCE = /\x1b(?:\[[0-?]*[ -/]*[@-~]|[P\]X^_][^\x1b\x07]*(?:\x1b\\|\x07)|[ -/]*[0-~])/g;
/** A sequence that the text ends inside. */
const UNFINISHED = /\x1b(?:[P\]X^_][^\x1b\x07]*|\[[0-?]*[ -/]*|[ -/]*)$/;
const LINK = /^\x1b\]8;[^;]*;/;
const NEXT = 'next';

/** What a terminal shows of a text and of what is printed after it: stretches with their styles and links, and what drives it. */
function seen(text) {
  const unfinished = text.match(UNFINISHED)?.[0] ?? '';
  const body = text.slice(0, text.length - unfinished.length) + NEXT;
  const stretches = [];
  for (const { text: plain, style, link, sequences } of library.blocks(body)) {
    for (const sequence of sequences.match(SEQUENCE) ?? []) {
      if (!LINK.test(sequence)) {
        stretches.push({ driving: sequence });
      }
    }
    const { attributes, foreground, background } = style;
    const look = { link: link ?? '', attributes, foreground, background };
    const { plain: before, ...lookBefore } = stretches.at(-1) ?? {};
    if (JSON.stringify(lookBefore) === JSON.stringify(look)) {
      stretches.pop();
      stretches.push({ plain: before + plain, ...look });
    } else {
      stretches.push({ plain, ...look });
    }
  }
  const next = stretches.pop();
  const last = next.plain.slice(0, -NEXT.length);
  if (last !== '') {
    stretches.push({ ...next, plain: last });
  }
  if (unfinished !== '') {
    stretches.push({ driving: unfinished });
  }
  return { stretches, next: { ...next, plain: NEXT, isSwallowed: unfinished !== '' } };
}

const segments = new Intl.Segmenter();
const isAscii = (text) => /^[\0-\x7f]*$/.test(text);

/** Plain text, each wide character in as many columns as a terminal gives it, and each control in a frame. */
function cells(plain) {
  return plain.split(/([\x00-\x08\x0b-\x1f\x7f-\x9f\u202a-\u202e\u2066-\u2069])/).flatMap((piece, index) => {
    if (index % 2 === 1) {
      return [made('span', 'chip', { title: 'A terminal may obey this control character.' }, written(piece))];
    }
    if (isAscii(piece)) {
      return [piece];
    }
    return [...segments.segment(piece)].map(({ segment }) => (isAscii(segment) ? segment
      : made('span', 'cell', { style: `width: ${library.width(segment)}ch` }, segment)));
  });
}

function spanOf({ plain, driving, link, attributes, foreground, background, isSwallowed }) {
  if (driving !== undefined) {
    return made('span', 'chip', { title: 'A sequence that sets no style: a terminal obeys it.' }, written(driving));
  }
  const has = (name) => attributes.includes(name);
  let [front, back] = [cssOf(foreground), cssOf(background)];
  if (background !== null && (foreground === 'white' || foreground === 'brightWhite')) {
    front = '#fff'; // (on the page's own background white is gray, to be read on a light page)
  }
  if (has('inverse')) {
    [front, back] = [back ?? 'var(--screen)', front ?? 'var(--text)'];
  }
  const span = made('span', [link && 'link', isSwallowed && 'swallowed'].filter(Boolean).join(' '), link ? { title: link } : {}, ...cells(plain));
  const line = [has('underline') && 'underline', has('crossedOut') && 'line-through'].filter(Boolean).join(' ');
  Object.assign(span.style, {
    color: has('hide') ? 'transparent' : (front ?? ''),
    backgroundColor: back ?? '',
    fontWeight: has('bold') ? 'bold' : '',
    fontStyle: has('italic') ? 'italic' : '',
    opacity: has('faint') ? '0.6' : '',
  });
  if (line) {
    span.style.textDecoration = line;
  }
  return span;
}

function rowOf(text) {
  const { stretches, next } = seen(text);
  return made('div', 'row', {}, made('span', 'body', {}, ...stretches.map(spanOf)), made('span', 'next', {}, spanOf(next)));
}

/** The text with its sequences written out. */
function bytesOf(texts) {
  const line = made('div', 'bytes');
  texts.forEach((text, index) => {
    line.append(index > 0 ? ' │ ' : '');
    text.split(/(\x1b(?:\[[0-?]*[ -/]*[@-~]|[\]P][^\x1b\x07]*(?:\x1b\\|\x07)))/).forEach((piece, place) => {
      line.append(place % 2 === 1 ? made('b', '', {}, written(piece)) : written(piece));
    });
  });
  return line;
}

function figureOf(caption, texts, isUsual) {
  return made('figure', isUsual ? 'usual' : 'ours', {}, made('figcaption', '', {}, ...caption),
    made('div', 'screen', {}, ...texts.map(rowOf)), bytesOf(texts));
}

// --- the calls

/** The numbers and words beside the text, and what they are when the page is opened. */
const INPUTS = { from: 0, to: 10, by: ': ', columns: 12, show: false, links: true };

const CALLS = [
  {
    name: 'strip', says: 'the plain text', inputs: [], ours: (text) => [library.strip(text)],
    code: () => 'strip(text)', theirs: () => `text.replace(/${SGR}/g, '')`,
  },
  {
    name: 'cut', says: 'characters between positions, in their styles; a link stays open', inputs: ['from', 'to'],
    ours: (text, { from, to }) => [library.cut(text, library.floorCharBoundary(text, from), library.floorCharBoundary(text, to))],
    code: ({ from, to }) => `cut(text, ${from}, ${to})`, theirs: () => `what is between /${SGR}/g, counted and sliced`,
  },
  {
    name: 'split', says: 'parts, each in its styles; a link stays open', inputs: ['by'], ours: (text, { by }) => library.split(text, read(by)),
    code: ({ by }) => `split(text, '${by}')`, theirs: ({ by }) => `text.split('${by}')`,
  },
  {
    name: 'truncate', says: 'to columns, with a tail', inputs: ['columns'], isRuled: true,
    ours: (text, { columns }) => [library.truncate(text, columns, '…')],
    code: ({ columns }) => `truncate(text, ${columns}, '…')`, theirs: ({ columns }) => `the same slice to ${Math.max(0, columns - 1)}, and '…'`,
  },
  {
    name: 'slice', says: 'columns, in their styles and links', inputs: ['from', 'to'], ours: (text, { from, to }) => [library.sliceColumns(text, from, to)],
    code: ({ from, to }) => `sliceColumns(text, ${from}, ${to})`, theirs: () => `what is between /${SGR}/g, counted by characters and sliced`,
  },
  {
    name: 'wrap', says: 'to lines of columns', inputs: ['columns'], isRuled: true, ours: (text, { columns }) => library.wrap(text, columns),
    code: ({ columns }) => `wrap(text, ${columns})`, theirs: ({ columns }) => `text.replace(/(.{1,${columns}})(\\s+|$)/g, '$1\\n')`,
  },
  {
    name: 'sanitize', says: 'safe to print: styles stay, nothing else drives the terminal', inputs: ['show', 'links'],
    ours: (text, { show, links }) => [library.sanitize(text, { show, links })],
    code: ({ show, links }) => `sanitize(text, { show: ${show}, links: ${links} })`, theirs: () => 'text.replace(/\\x1b\\[[0-9;?]*[A-Za-z]/g, \'\')',
  },
];

const EXAMPLES = {
  'A log line': { text: '\\e[1;31merror: disk full\\e[0m on \\e[4msda1\\e[24m, \\e[38;5;34m3 files\\e[39m left' },
  'Wide characters': { text: '\\e[32m東京タワー: 가나다\\e[39m and \\e[35m👩‍👩‍👧 a family\\e[39m, \\e[33mcafe\\u{301}\\e[39m' },
  'A link': { text: 'see: \\e]8;;https://example.com/manual\\e\\\\the \\e[1mmanual of\\e[22m the program\\e]8;;\\e\\\\ for more', to: 14, columns: 16, by: ' of' },
  'A hostile text': { text: 'user: \\e]0;root@host\\aname \\e[2J\\e[31mred \\x9b5mblink \\u{202e}txt.exe\\e[0', to: 16, columns: 16 },
  'A banner': { text: '\\e[44;97mone line of a banner that is longer\\nthan the next\\e[0m and plain', by: '\\n', columns: 16 },
  'More styles': { text: '\\e[48;2;20;60;110;38;2;255;214;120mred: green and blue\\e[0m, \\e[3;9mitalic and crossed out\\e[0m, \\e[7minverse\\e[27m' },
};

const idOf = (call, input) => `${call.name}-${input}`;

function inputOf(call, name) {
  const kind = typeof INPUTS[name];
  const type = { number: 'number', string: 'text', boolean: 'checkbox' }[kind];
  const input = made('input', '', { type, id: idOf(call, name), ...(kind === 'number' ? { min: name === 'columns' ? 1 : 0, max: 999 } : {}) });
  input.addEventListener('input', () => {
    const value = kind === 'boolean' ? input.checked : kind === 'number' ? numberOf(name, input.value) : input.value;
    if (value !== null) {
      show({ ...state, [name]: value }, input);
    }
  });
  return made('label', '', {}, name, input);
}

/** The number that is typed, or null if it is none. */
function numberOf(name, typed) {
  const number = Math.min(Number(typed), 999);
  return /^\d+$/.test(typed) && number >= (name === 'columns' ? 1 : 0) ? number : null;
}

function cardOf(call) {
  const head = made('div', 'head', {}, made('h2', '', {}, call.name), made('span', 'dim', {}, call.says), ...call.inputs.map((name) => inputOf(call, name)));
  return made('article', 'card', { id: call.name }, head, made('div', `pair${call.isRuled ? ' ruled' : ''}`));
}

function showCall(call, text) {
  const pair = element(call.name).querySelector('.pair');
  pair.style.setProperty('--columns', state.columns);
  try {
    const ours = call.ours(text, state);
    const figures = [figureOf([made('code', '', {}, call.code(state))], ours, false)];
    const theirs = usual[call.name](text, state);
    if (JSON.stringify(ours.map(seen)) !== JSON.stringify(theirs.map(seen))) {
      figures.push(figureOf([made('b', '', {}, 'the usual way: '), made('code', '', {}, call.theirs(state))], theirs, true));
    }
    pair.replaceChildren(...figures);
  } catch (error) {
    pair.replaceChildren(made('p', 'dim', {}, error instanceof RangeError ? 'The end is before the start.' : String(error)));
  }
}

// --- the page

/** What is typed, and the inputs. */
let state = { ...INPUTS, ...EXAMPLES['A log line'] };

/** The state that a link carries, with what the page begins with for what it lacks. */
function stateOf(hash) {
  const carried = new URLSearchParams(hash.slice(1));
  const found = { ...INPUTS, text: carried.get('text') ?? EXAMPLES['A log line'].text };
  for (const [name, value] of Object.entries(INPUTS)) {
    const typed = carried.get(name);
    if (typed !== null) {
      found[name] = typeof value === 'number' ? numberOf(name, typed) ?? value : typeof value === 'boolean' ? typed === 'true' : typed;
    }
  }
  return found;
}

/** Shows a state. The input that it comes from stays as it is typed. */
function show(next, source = null) {
  state = next;
  const text = read(state.text);
  if (source !== element('text')) {
    element('text').value = state.text;
  }
  for (const call of CALLS) {
    for (const name of call.inputs) {
      const input = element(idOf(call, name));
      if (typeof state[name] === 'boolean') {
        input.checked = state[name];
      } else if (input !== source) {
        input.value = state[name];
      }
    }
    showCall(call, text);
  }
  element('shown').replaceChildren(rowOf(text));
  element('facts').textContent = `${library.strip(text).length} units, ${library.width(text)} columns, ` +
    `${library.isWhole(text) ? 'each sequence is complete' : 'a sequence is incomplete'}, ${library.isSafe(text, { links: true }) ? 'safe' : 'not safe'} to print.`;
  element('here').hash = new URLSearchParams(state).toString();
  for (const button of element('examples').children) {
    button.setAttribute('aria-pressed', EXAMPLES[button.textContent].text === state.text);
  }
}

function start() {
  element('examples').append(...Object.entries(EXAMPLES).map(([name, example]) => {
    const button = made('button', '', { type: 'button' }, name);
    button.addEventListener('click', () => show({ ...INPUTS, ...example }));
    return button;
  }));
  element('calls').append(...CALLS.map(cardOf));
  element('text').addEventListener('input', () => show({ ...state, text: element('text').value }, element('text')));
  window.addEventListener('hashchange', () => show(stateOf(location.hash)));
  show(stateOf(location.hash));
}

try {
  library = await import('ansi_str');
  start();
  element('message').remove();
} catch (error) {
  element('message').textContent = `The page can't run: ${error.message}`;
}
