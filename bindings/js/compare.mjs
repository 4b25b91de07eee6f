// Times calls on a cell and on a log, strip, cut, sliceColumns, wrap and width beside Debian's strip-ansi, slice-ansi, wrap-ansi and string-width in one run, and prints the rows of
// texts and results that those packages get wrong, and how. NODE_PATH=/usr/share/nodejs node compare.mjs
import { execFileSync } from 'node:child_process';
import { mkdtempSync, readFileSync, rmSync, statSync } from 'node:fs';
import { createRequire } from 'node:module';
import { tmpdir } from 'node:os';
import { fileURLToPath } from 'node:url';

const start = performance.now();
const {
  blocks, cut, editColumns, find, fit, mark, penAfter, sanitize, sliceColumns, split, strip, truncate, width, wrap,
} = await import('./index.js');
strip('\x1b[1ma');
const started = performance.now() - start;
const { inUnits, rows } = await import('./rows.mjs');
const require = createRequire(import.meta.url);
const [stripAnsi, sliceAnsi, wrapAnsi, stringWidth] = ['strip-ansi', 'slice-ansi', 'wrap-ansi', 'string-width'].map((name) => require(name).default ?? require(name));

const { size } = statSync(new URL('ansi_str.wasm', import.meta.url));
console.log(`module: ${size} bytes, ${started.toFixed(1)} ms from import to the end of the first call`);

/** The processor's time up to now, in microseconds. */
function clock() {
  const { user, system } = process.cpuUsage();
  return user + system;
}

/** The least time of a call in microseconds: after a second, of 25 rounds of some 20 ms; or of one call, if it takes longer. */
function timed(call) {
  const start = clock();
  let [calls, from] = [0, start];
  for (; clock() - start < 1e6; calls++) {
    from = clock();
    call();
  }
  if (calls < 3) {
    return clock() - from;
  }
  const runs = Math.ceil(calls / 50);
  let least = Infinity;
  for (let round = 0; round < 25; round++) {
    from = clock();
    for (let run = 0; run < runs; run++) {
      call();
    }
    least = Math.min(least, (clock() - from) / runs);
  }
  return least;
}

const folder = mkdtempSync(`${tmpdir()}/`);
execFileSync('python3', [fileURLToPath(new URL('../../bench/corpora.py', import.meta.url)), folder]);
const texts = { a: 'a', cell: '\x1b[1;31m  disk full on sda1  \x1b[0m', 'log of 1 MB': readFileSync(`${folder}/log.1M`, 'utf8') };
rmSync(folder, { recursive: true });
console.log('microseconds of the processor a call');
for (const [name, text] of Object.entries(texts)) {
  const middle = strip(text).length >> 1;
  const from = middle >> 1;
  const columns = name === 'log of 1 MB' ? 80 : 10;
  const calls = {
    strip: () => strip(text),
    'strip-ansi': () => stripAnsi(text),
    cut: () => cut(text, from, middle),
    sliceColumns: () => sliceColumns(text, from, middle),
    'slice-ansi': () => sliceAnsi(text, from, middle),
    wrap: () => wrap(text, columns),
    'wrap-ansi': () => wrapAnsi(text, columns, { hard: true, trim: false }),
    width: () => width(text),
    'string-width': () => stringWidth(text),
    ...(name === 'log of 1 MB' ? {} : {
      find: () => find(text, 'full'),
      fit: () => fit(text, columns),
      truncate: () => truncate(text, columns, '…'),
      editColumns: () => editColumns(text, [['truncate', columns, '…']]),
      mark: () => mark(text, 'full', '1'),
      split: () => split(text, ' '),
      blocks: () => blocks(text),
      penAfter: () => penAfter(text),
      sanitize: () => sanitize(text),
    }),
  };
  for (const [call, run] of Object.entries(calls)) {
    console.log(`${name}\t${call}\t${timed(run).toFixed(2)}`);
  }
}

/** What a text shows: each stretch of its plain text with its style. */
function seen(text, edit = (stretch) => stretch) {
  const stretches = [];
  for (const { text: run, style } of blocks(text)) {
    const look = JSON.stringify([style.attributes, style.foreground, style.background]);
    const stretch = edit(run);
    if (stretches.at(-1)?.[1] === look) {
      stretches.at(-1)[0] += stretch;
    } else if (stretch !== '') {
      stretches.push([stretch, look]);
    }
  }
  return JSON.stringify(stretches);
}

const withoutBlanks = (text) => text.replace(/\s/g, '');

/** Whether the text by itself leaves a style open. */
const isOpen = (text) => blocks(`${text}x`).at(-1).style.hasAny;

const judged = {};
function judge(name, kind, row) {
  judged[name] ??= { asked: 0, kinds: {} };
  judged[name].asked += 1;
  if (kind !== null) {
    const kinds = judged[name].kinds;
    const shown = JSON.stringify(row);
    kinds[kind] ??= [0, shown];
    kinds[kind][0] += 1;
    kinds[kind][1] = shown.length < kinds[kind][1].length ? shown : kinds[kind][1];
  }
}

/** How a slice differs from the wanted one, or null if it looks the same and leaves no style open. */
function differenceOf(got, want) {
  return strip(got) !== strip(want) ? 'another text' : seen(got) !== seen(want) ? 'another style' : isOpen(got) ? 'a style is left open' : null;
}

for (const [call, status, want, text, ...more] of await rows()) {
  if (call === 'strip') {
    const got = stripAnsi(text);
    const kind = got === want ? null : got.length < want.length ? 'takes off what is no sequence' : 'leaves some of a sequence';
    judge('strip-ansi', kind, [text, got, want]);
  } else if (call === 'cut' && status === '0' && text.length < 10000) {
    const plain = strip(text);
    const [from, to] = more.map((position) => inUnits(plain, Number(position)));
    // (slice-ansi counts columns)
    if (from !== null && to !== null && [...plain].every((character) => character.length === 1 && width(character) === 1)) {
      const got = sliceAnsi(text, from, to);
      judge('slice-ansi', differenceOf(got, want), [text, from, to, got, want]);
    }
  } else if (call === 'slice' && more[1] < 10000) {
    const [from, to] = more.map(Number);
    const got = sliceAnsi(text, from, to);
    judge('slice-ansi by columns', differenceOf(got, want), [text, from, to, got, want]);
  } else if (call === 'wrap') {
    const [columns, ...wanted] = more;
    const got = wrapAnsi(text, Number(columns), { hard: true });
    const lines = got.split('\n');
    const kind = withoutBlanks(strip(got)) !== withoutBlanks(strip(text)) ? 'other characters'
      : lines.some(isOpen) ? 'a line leaves a style open'
        : seen(got, withoutBlanks) !== seen(text, withoutBlanks) ? 'another style'
          : lines.some((line) => (line.match(/\x1b]8;;/g) ?? []).length % 2 === 1) ? 'a line leaves a link open'
            : /^ +\S/.test(strip(text)) && !/^ +\S/.test(strip(got)) ? 'an indent is lost'
              : JSON.stringify(lines) !== JSON.stringify(wanted) ? 'lines that end elsewhere' : null;
    judge('wrap-ansi', kind, [text, columns, lines, wanted]);
  } else if (call === 'width') {
    const got = stringWidth(text);
    const kind = got === Number(want) ? null : /[\r\n\t\x07]/.test(strip(text)) ? 'control characters' : text.includes('\x1b') ? 'a cluster that a sequence divides' : 'a cluster';
    judge('string-width', kind, [text, got, Number(want)]);
  }
}
for (const [name, { asked, kinds }] of Object.entries(judged)) {
  const wrong = Object.values(kinds).reduce((sum, [count]) => sum + count, 0);
  console.log(`${name}: ${wrong} of ${asked} rows otherwise`);
  for (const [kind, [count, shortest]] of Object.entries(kinds)) {
    console.log(`  ${kind}: ${count}, as ${shortest}`);
  }
}
