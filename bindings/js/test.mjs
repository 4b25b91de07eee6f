// Makes the calls of the rows of texts and results, and tests what only JavaScript has.
import assert from 'node:assert/strict';
import { execFileSync } from 'node:child_process';
import { cp, mkdtemp, readFile, rm, writeFile } from 'node:fs/promises';
import { createRequire } from 'node:module';
import { tmpdir } from 'node:os';
import { fileURLToPath } from 'node:url';
import { test } from 'node:test';
import { setFlagsFromString } from 'node:v8';
import { runInNewContext } from 'node:vm';
import {
  OutOfMemoryError, blocks, codes, columnOf, cut, difference, edit, endsWith, expandTabs, find, findFrom, fit, fitting, floorCharBoundary, hasAny, isCharBoundary, isSafe, isWhole, iterBlocks, iterLines, iterSplit, left, lines, linkAt,
  insert, link, links, mark, matches, pad, part, penAfter, refusedRange, remove, replace, replaceAll, replaceEach, restyle, right, sanitize, sliceColumns, split, splitAt, startsWith, strip, stripPrefix, stripSuffix, styleOf, trim, truncate, union, unlink, width, wrap,
} from './index.js';
import * as ansiStr from './index.js';
import { called, writing } from './memory.js';
import { pass } from './rows.mjs';
import sliceAnsi from 'ansi_str/compat/slice-ansi';
import stringWidth from 'ansi_str/compat/string-width';
import stripAnsi from 'ansi_str/compat/strip-ansi';
import wrapAnsi from 'ansi_str/compat/wrap-ansi';

const require = createRequire(import.meta.url);
const required = require('ansi_str');

for (const [way, given] of [['import', ansiStr], ['require', required]]) {
  test(`rows by ${way}`, async () => {
    const { passed, over } = await pass(given);
    console.log(`rows in JavaScript by ${way}: ${passed} passed; passed over: ${JSON.stringify(over)}`);
  });
}

test('`require` has what `import` has', () => {
  assert.deepEqual(Object.keys(required).sort(), Object.keys(ansiStr).sort());
  assert.throws(() => required.pad('abc', 2 ** 40), required.OutOfMemoryError);
  for (const [name, call] of Object.entries({ 'slice-ansi': sliceAnsi, 'string-width': stringWidth, 'strip-ansi': stripAnsi, 'wrap-ansi': wrapAnsi })) {
    const taken = require(`ansi_str/compat/${name}`);
    assert.equal(taken.name, call.name);
    assert.equal(taken.default, taken);
    assert.equal(taken('\x1b[1mab', 1), call('\x1b[1mab', 1));
  }
});

test('a module that cannot be loaded is one error, which says why', async () => {
  const folder = await mkdtemp(`${tmpdir()}/`);
  try {
    for (const name of ['index.js', 'index.cjs', 'calls.js', 'calls.cjs', 'memory.js', 'memory.cjs', 'package.json']) {
      await cp(fileURLToPath(new URL(name, import.meta.url)), `${folder}/${name}`);
    }
    const told = (code) => execFileSync(process.execPath, ['-e', `(async () => ${code})().catch((error) => console.log(error.message))`], { encoding: 'utf8', cwd: folder });
    for (const code of ["import('./index.js')", "require('./index.cjs')"]) {
      await rm(`${folder}/ansi_str.wasm`, { force: true });
      assert.match(told(code), /^ansi_str: ansi_str\.wasm can't be loaded: ENOENT.*\n$/);
      await writeFile(`${folder}/ansi_str.wasm`, 'no module');
      assert.match(told(code), /^ansi_str: ansi_str\.wasm can't be loaded: WebAssembly\.Module\(\).*\n$/);
    }
  } finally {
    await rm(folder, { recursive: true });
  }
});

test('the version is that of the changelog', async () => {
  const read = (name) => readFile(new URL(name, import.meta.url), 'utf8');
  const [, newest] = (await read('../../CHANGELOG.md')).match(/^## ([\d.]+)/m);
  assert.equal(JSON.parse(await read('package.json')).version, newest);
});

test('positions count UTF-16 units', () => {
  assert.equal(cut('\x1b[1m😀éab\x1b[0m', 2, 4), '\x1b[1méa\x1b[22m');
  const refused = (message) => ({ name: 'RangeError', message });
  assert.throws(() => cut('😀', 1), refused('the position 1 is inside a character'));
  assert.throws(() => cut('a\x1b[1m😀', 1, 2), refused('the position 2 is inside a character'));
  assert.throws(() => cut('abc', 2, 1), refused('the end, 1, is before the start, 2'));
  assert.throws(() => splitAt('😀', 1), refused('the position 1 is inside a character'));
  assert.equal(find('\x1b[1m😀a', 'a'), 2);
  assert.equal(fitting('\x1b[1m😀éab', 4), 4);
  assert.deepEqual([0, 2, 3, 9].map((position) => columnOf('\x1b[1m😀é', position)), [0, 2, 3, 3]);
  assert.throws(() => columnOf('😀', 1), refused('the position 1 is inside a character'));
  assert.deepEqual([0, 1, 2, 3, 4].map((index) => floorCharBoundary('\x1b[1m😀a', index)), [0, 0, 2, 3, 3]);
  assert.deepEqual(lines('\x1b[1m😀 é😀 a', 3), [[0, 2], [3, 6], [7, 8]]);
  assert.deepEqual(lines('a\n'.repeat(1000), 5).length, 1001);
  assert.deepEqual(wrap('lion tiger', 7, { firstIndent: '* ', indent: '  ' }), ['* lion', '  tiger']);
  const [walk, other] = [iterLines('\x1b[1m😀 é😀 a', 3), iterLines('é b', 1)];
  assert.deepEqual([walk.next().value, other.next().value, strip('\x1b[1ma'), ...walk, ...other], [[0, 2], [0, 1], 'a', [3, 6], [7, 8], [2, 3]]);
  assert.equal(linkAt('😀\x1b]8;;😀\x07é', 2), '😀');
  assert.equal(linkAt('\x1b]8;;u\x07😀', 1), 'u');
  assert.equal(linkAt('\x1b]8;;u\x07é', 2 ** 60), null);
  assert.equal(cut('abc', 10), '');
  assert.equal(edit('> \x1b[1m😀éa', [['prefix', '> '], ['cut', 2], ['left', 1]]), '\x1b[1mé\x1b[22m');
});

test('ranges count UTF-16 units, and a bad one is refused', () => {
  const refused = (message) => ({ name: 'RangeError', message });
  assert.deepEqual(matches('😀a\x1b[1m😀', '😀'), [[0, 2], [3, 5]]);
  assert.equal(matches('é'.repeat(1000), '').length, 1001);
  assert.deepEqual([0, 1, 2, 3, 4, 5, 6, 2 ** 60].map((position) => findFrom('😀a\x1b[1m😀', position, '😀')), [0, 3, 3, 3, -1, -1, -1, -1]);
  assert.deepEqual([0, 1, 2, 3, 4, 2 ** 60].map((position) => findFrom('😀a', position, '')), [0, 2, 2, 3, -1, -1]);
  assert.equal(restyle('\x1b[1m😀a\x1b[22m😀', [[0, 2], [3, 5]], '4'), '\x1b[1m\x1b[4m😀\x1b[22m\x1b[24m\x1b[1ma\x1b[22m\x1b[4m😀\x1b[24m');
  assert.equal(remove('😀a\x1b[1m😀', 2, 3), '😀\x1b[1m😀');
  for (const plain of ['abc', '😀c']) {
    const text = `\x1b[3m${plain}`;
    for (const end of [4, 2 ** 32, Number.MAX_SAFE_INTEGER]) {
      assert.throws(() => restyle(text, [[0, 2], [3, end]], '1'), refused(`the end, ${end}, is past the end of the plain text, 3`));
      assert.throws(() => restyle(text, [[0, 4], [4, end]], '1'), refused('the end, 4, is past the end of the plain text, 3'));
      assert.throws(() => remove(text, 0, end), refused(`the end, ${end}, is past the end of the plain text, 3`));
    }
    assert.throws(() => restyle(text, [[0, 2], [1, 3]], '1'), refused('a range begins before the one before it ends: 1 is below 2'));
    assert.throws(() => restyle(text, [[2, 1]], '1'), refused('the end, 1, is before the start, 2'));
    assert.throws(() => remove(text, 2, 1), refused('the end, 1, is before the start, 2'));
    assert.throws(() => restyle(text, [[-1, 1]], '1'), refused('the start is below 0: -1'));
    assert.throws(() => restyle(text, [[0, 1.5]], '1'), TypeError);
    assert.throws(() => remove(text, 0), TypeError);
    assert.throws(() => findFrom(text, -1, 'a'), RangeError);
    assert.throws(() => findFrom(text, 0, '\ud800'), /lone surrogate/);
    assert.throws(() => matches(text, null), /must be a string/);
  }
  for (const range of [[0, 1], [1, 2], [1, 1]]) {
    assert.throws(() => restyle('a😀'.slice(1), [range], '1'), refused('the position 1 is inside a character'));
    assert.throws(() => remove('\x1b[1m😀', ...range), refused('the position 1 is inside a character'));
  }
});

test('a replacement, an added text and a link count UTF-16 units, and a bad range is refused', () => {
  const refused = (message) => ({ name: 'RangeError', message });
  assert.equal(replace('😀a\x1b[1m😀', 2, 3, '\x1b[3mé'), '😀\x1b[3mé\x1b[23m\x1b[1m😀');
  assert.equal(insert('\x1b[1m😀a', 2, 'é'), '\x1b[1m😀éa');
  assert.equal(replaceAll('😀a\x1b[1m😀', '😀', '$&é'), '$&éa$&é\x1b[1m');
  assert.equal(replaceAll('é'.repeat(1000), '', '12'), `${'12é'.repeat(1000)}12`);
  assert.equal(replaceEach('😀a\x1b[1m😀', [[0, 2, 'é'], [2, 2, '$&'], [3, 5, '']]), 'é$&a\x1b[1m');
  assert.equal(replaceEach('é'.repeat(1000), Array.from({ length: 1001 }, (_, place) => [place, place, '12'])), `${'12é'.repeat(1000)}12`);
  assert.equal(replaceEach('\x1b[1ma', new Set()), '\x1b[1ma');
  assert.equal(link('😀a', 0, 2, 'u'), '\x1b]8;;u\x1b\\😀\x1b]8;;\x1b\\a');
  assert.deepEqual(links('😀\x1b]8;;é\x1b\\a😀\x1b]8;;v\x1b\\b'), [{ start: 2, end: 5, address: 'é' }, { start: 5, end: 6, address: 'v' }]);
  assert.equal(links('\x1b]8;;u\x07a'.repeat(1000)).length, 1000);
  assert.equal(unlink('é\x1b]8;;u\x07a'), 'éa');
  for (const plain of ['abc', '😀c']) {
    const text = `\x1b[3m${plain}`;
    for (const end of [4, 2 ** 32, Number.MAX_SAFE_INTEGER]) {
      assert.throws(() => replace(text, 0, end, 'x'), refused(`the end, ${end}, is past the end of the plain text, 3`));
      assert.throws(() => link(text, 0, end, 'x'), refused(`the end, ${end}, is past the end of the plain text, 3`));
      assert.throws(() => insert(text, end, 'x'), refused(`the position, ${end}, is past the end of the plain text, 3`));
      assert.throws(() => replaceEach(text, [[0, 0, 'x'], [2, end, 'x']]), refused(`the end, ${end}, is past the end of the plain text, 3`));
    }
    assert.throws(() => replaceEach(text, [[0, 2, 'x'], [1, 3, 'x']]), refused('a range begins before the one before it ends: 1 is below 2'));
    assert.throws(() => replaceEach(text, [[2, 1, 'x']]), refused('the end, 1, is before the start, 2'));
    assert.throws(() => replaceEach(text, [[0, 0]]), /the replacement must be a string/);
    assert.throws(() => replace(text, 2, 1, 'x'), refused('the end, 1, is before the start, 2'));
    assert.throws(() => link(text, 2, 1, 'x'), refused('the end, 1, is before the start, 2'));
    assert.throws(() => insert(text, -1, 'x'), refused('the position is below 0: -1'));
    for (const address of ['', 'a\nb', '\x1b\\', '\x7f', 'é']) {
      assert.throws(() => link(text, 0, 3, address), refused(`the address must be printable ASCII, and not empty: ${address}`));
    }
    assert.throws(() => link(text, 0, 3, 'a'.repeat(2084)), refused('the address must have at most 2083 characters, not 2084'));
    assert.throws(() => replace(text, 0, 0), /must be a string/);
    assert.throws(() => insert(text, 0, '\ud800'), /lone surrogate/);
    assert.throws(() => link(text, 0, 1, null), /must be a string/);
    assert.throws(() => replaceAll(text, null, 'x'), /the pattern must be a string/);
    assert.throws(() => replaceAll(text, 'a'), /the replacement must be a string/);
    assert.throws(() => links(null), /must be a string/);
  }
  for (const range of [[0, 1], [1, 2], [1, 1]]) {
    assert.throws(() => replace('\x1b[1m😀', ...range, 'x'), refused('the position 1 is inside a character'));
    assert.throws(() => replaceEach('\x1b[1m😀', [[...range, 'x']]), refused('the position 1 is inside a character'));
    assert.throws(() => link('\x1b[1m😀', ...range, 'x'), refused('the position 1 is inside a character'));
  }
  assert.throws(() => insert('\x1b[1m😀', 1, 'x'), refused('the position 1 is inside a character'));
});

test('a style by its codes or names, and what is set in two', () => {
  assert.deepEqual(styleOf('3;1;34;58;2;1;2;3;12'), blocks('\x1b[3;1;34;58;2;1;2;3;12mx')[0].style);
  assert.deepEqual(union({ bold: true }, '4:3;3'), styleOf('1;3'));
  assert.deepEqual(difference(styleOf('1;91'), { foreground: 'brightRed' }), styleOf('1'));
  const styles = ['', '1', '2;31', '1;32;12', '38;5;1;13', '38;2;0;0;1;48;5;2', '58;5;3;2;48;5;2'].map(styleOf);
  for (const style of styles) {
    assert.deepEqual([union(style, style), difference(style, style)], [style, styleOf('')]);
    for (const other of styles) {
      const both = union(style, other);
      assert.deepEqual([difference(other, both), union(difference(both, other), other)], [styleOf(''), both]);
    }
  }
  assert.throws(() => styleOf('1m'), { name: 'RangeError', message: 'the style must have only digits, ";" and ":": 1m' });
  assert.throws(() => union('1', 1), /a string or an object/);
});

test('a style is codes or names', () => {
  const codesOf = (style) => mark('x', 'x', style).match(/^\x1b\[(.*?)m/)[1];
  assert.equal(codesOf('1;31'), '1;31');
  assert.equal(codesOf({ bold: true, foreground: 'red' }), '1;31');
  assert.equal(codesOf({ faint: false, background: 208, font: 11 }), '11;48;5;208');
  assert.equal(codesOf({ underline: true, underlineColor: [97, 175, 239] }), '4;58;2;97;175;239');
  assert.equal(codesOf({ foreground: { red: 0, green: 1, blue: 255 }, underlineColor: 'brightWhite' }), '38;2;0;1;255;58;5;15');
  assert.equal(codesOf({}), '');
  const styleAfter = (codes) => blocks(`\x1b[${codes}mx`)[0].style;
  const style = styleAfter('3;1;34;58;2;1;2;3;12;45');
  assert.deepEqual(style, {
    attributes: ['bold', 'italic'],
    foreground: 'blue',
    background: 'magenta',
    underlineColor: { red: 1, green: 2, blue: 3 },
    font: 12,
    hasAny: true,
    start: '\x1b[1m\x1b[3m\x1b[12m\x1b[34m\x1b[45m\x1b[58;2;1;2;3m',
    end: '\x1b[10m\x1b[22m\x1b[23m\x1b[39m\x1b[49m\x1b[59m',
  });
  assert.equal(codesOf(style), '1;3;12;34;45;58;2;1;2;3');
  assert.equal(codesOf({ ...style, foreground: 208, font: null, bold: false, hide: true }), '3;8;38;5;208;45;58;2;1;2;3');
  for (const codes of ['58;5;255', '11', '19', '21', '107', '38;5;0', '']) {
    assert.equal(codesOf(styleAfter(codes)), codes);
    assert.deepEqual([...iterBlocks(`\x1b[${codes}mx`)][0].style, styleAfter(codes));
  }
  assert.deepEqual([styleAfter('58;5;255').underlineColor, styleAfter('4').underlineColor, styleAfter('4').font], [255, null, null]);
  const all = ['bold', 'faint', 'italic', 'underline', 'doubleUnderline', 'slowBlink', 'rapidBlink', 'inverse', 'hide', 'crossedOut', 'framed', 'encircled',
    'fraktur', 'proportionalSpacing', 'overlined', 'ideogramUnderline', 'ideogramDoubleUnderline', 'ideogramOverline', 'ideogramDoubleOverline',
    'ideogramStressMarking', 'superscript', 'subscript'];
  for (const name of all) {
    assert.deepEqual(blocks(mark('x', 'x', { [name]: true }))[0].style.attributes, [name]);
  }
  for (const color of ['black', 'white', 'brightBlack', 'brightCyan', 0, 255, { red: 1, green: 2, blue: 3 }]) {
    const [{ style }] = blocks(mark('x', 'x', { foreground: color, background: color }));
    assert.deepEqual([style.foreground, style.background], [color, color]);
  }
  for (const wrong of ['1m', 'm', ' 1', '1,2', '\x1b[1m', '１', '1\n']) {
    assert.throws(() => mark('x', 'y', wrong), { name: 'RangeError', message: `the style must have only digits, ";" and ":": ${wrong}` });
    assert.throws(() => restyle('x', [], wrong), RangeError);
  }
  for (const [wrong, message] of [[null, /a string or an object/], [1, /a string or an object/], [{ bald: true }, /no attribute bald: they are bold/],
    [{ foreground: 'purple' }, /one of black, red/], [{ font: 20 }, /from 10 to 19/], [{ font: 9 }, /from 10 to 19/], [{ background: 256 }, /above 255/],
    [{ background: [0, 0] }, /three numbers/], [{ foreground: { red: 1, green: 2 } }, /whole number/], [{ underlineColor: -1 }, /below 0/]]) {
    assert.throws(() => mark('x', 'x', wrong), message);
  }
});

test('a position past the end is the end, and an end below its start is refused, however large', () => {
  const numbers = [0, 1, 2, 9, 10, 2 ** 32, 2 ** 53 - 2, 2 ** 53 - 1, 2 ** 53, 2 ** 53 + 2, 2 ** 64, Number.MAX_VALUE];
  for (const plain of ['', 'a', 'abc', '老', 'é老']) {
    for (const text of [plain, `\x1b[1m${plain}`, `${plain}\x1b]0;t\x07`]) {
      for (const start of numbers) {
        assert.equal(strip(cut(text, start)), plain.slice(start));
        assert.equal(strip(edit(text, [['cut', start]])), plain.slice(start));
        assert.deepEqual(splitAt(text, start).map(strip), [plain.slice(0, start), plain.slice(start)]);
        for (const end of numbers) {
          if (start <= end) {
            assert.equal(strip(cut(text, start, end)), plain.slice(start, end));
          } else {
            assert.throws(() => cut(text, start, end), RangeError);
            assert.equal(edit(text, [['cut', start, end]]), null);
          }
        }
      }
    }
  }
});

// the calls whose first argument is a text
const OF_TEXTS = Object.values(ansiStr).filter((call) => ![OutOfMemoryError, codes, styleOf, union, difference].includes(call));

test('what is no text or no position is refused', () => {
  const calls = [...OF_TEXTS, (text) => find('', text), (text) => split('', text),
    (text) => edit('', [['suffix', text]]), (text) => truncate('', 1, text), (text) => truncate('', 1, { tail: text }), (text) => fit('', 1, 'left', text),
    ...[stripPrefix, stripSuffix, startsWith, endsWith, part, iterSplit].map((call) => (text) => call('', text))];
  for (const call of calls) {
    assert.throws(() => call('a\ud800'), /lone surrogate/);
    assert.throws(() => call(null), /must be a string/);
  }
  assert.throws(() => cut('abc', -1), RangeError);
  assert.throws(() => cut('abc', 1.5), TypeError);
  for (const call of [columnOf, linkAt, floorCharBoundary, (text, index) => part(text, 'b', index)]) {
    assert.throws(() => call('abc', -1), RangeError);
    assert.throws(() => call('abc', '1'), TypeError);
  }
  for (const wrong of ['cut', ['cuts', 1], [['cut'], 'x'], [new String('cut'), 0], ['toString'], [], [undefined], [0, 1], null, { 0: 'trim' }]) {
    assert.throws(() => edit('abc', [wrong]), /begins with the name of an edit/);
  }
  for (const call of [fitting, truncate, pad, fit, wrap, lines, iterLines]) {
    assert.throws(() => call('abc'), /the width must be a whole number/);
    assert.throws(() => call('abc', -1), RangeError);
  }
  for (const call of [sliceColumns, expandTabs, (text, end) => sliceColumns(text, 0, end)]) {
    assert.throws(() => call('abc', 1.5), /must be a whole number/);
    assert.throws(() => call('abc', -1), RangeError);
  }
  assert.throws(() => pad('abc', 5, 'middle'), /left, center, right/);
  assert.throws(() => fit('abc', 5, 'middle'), /left, center, right/);
  assert.throws(() => truncate('abc', 5, { side: 'left' }), /end, start, middle/);
});

/** The runs of the blocks of a text, with their links and the sequences before them. */
const told = (text) => blocks(text).map(({ text: run, link, sequences }) => [run, link, sequences]);

test('a block has the link of its run', () => {
  const [opened, closed] = ['\x1b]8;id=1;http://x\x1b\\', '\x1b]8;;\x07'];
  assert.deepEqual(told(`a${opened}b\x1b[1mc${closed}d`),
    [['a', null, ''], ['b', 'http://x', opened], ['c', 'http://x', ''], ['d', null, closed]]);
  // another sequence, and one that only begins as a link does, leave a link open; one link may follow another
  assert.deepEqual(told(`${opened}a\x1b[2Jb\x1b]8;c\x1b\\d\x1b]8;;-\x07e`),
    [['a', 'http://x', opened], ['b', 'http://x', '\x1b[2J'], ['d', 'http://x', '\x1b]8;c\x1b\\'], ['e', '-', '\x1b]8;;-\x07']]);
  assert.deepEqual(told(`${opened}${closed}a${opened}`), [['a', null, opened + closed]]);
  // what follows a lone ESC is text
  assert.deepEqual(told('\x1b\x1b[1m[2Ja'), [['[2Ja', null, '\x1b']]);
});

test('the pen after a text has what is open there', () => {
  const [link, linkEnd] = ['\x1b]8;id=1;http://x\x1b\\', '\x1b]8;;\x1b\\'];
  const { style, ...pen } = penAfter(`\x1b[1;31mred ${link}li`);
  assert.deepEqual(pen, { link: 'http://x', start: `\x1b[1m\x1b[31m${link}`, end: `${linkEnd}\x1b[22m\x1b[39m` });
  assert.deepEqual([style.attributes, style.foreground], [['bold'], 'red']);
  const ends = (text) => [penAfter(text).link, penAfter(text).start, penAfter(text).end];
  for (const text of ['', 'plain', '😀', '\x1b[31mred\x1b[0m', `${link}a${linkEnd}`, '\x1b[2J\x1b', 'a\x1b[3', 'a\x1b]8;;http://x']) {
    assert.deepEqual(ends(text), [null, '', '']);
  }
  // each line sets what is open before it, and closes what it leaves open
  let start = '';
  const carried = `\x1b[31mone ${link}two\n\nthree${linkEnd} four\nfive\x1b[m\nsix`.split('\n').map((line) => {
    const whole = start + line;
    const { start: next, end } = penAfter(whole);
    start = next;
    return whole + end;
  });
  assert.deepEqual(carried, [`\x1b[31mone ${link}two${linkEnd}\x1b[39m`, `\x1b[31m${link}${linkEnd}\x1b[39m`,
    `\x1b[31m${link}three${linkEnd} four\x1b[39m`, '\x1b[31mfive\x1b[m', 'six']);
  // a link that isn't printable ASCII is closed, and not opened again; nor is what an unknown code sets
  assert.deepEqual(ends('\x1b]8;;\xe9\x07a'), ['\xe9', '', linkEnd]);
  assert.deepEqual(ends('\x1b[4:3ma'), [null, '', '\x1b[0m']);
});

test('a block has the sequences other than SGRs, and a cut every sequence up to its end', () => {
  assert.deepEqual(told('a\x1b]0;t\x07\x1b[1m\x1bé\x1b[Kc\x1b[K'), [['a', null, ''], ['é', null, '\x1b]0;t\x07\x1b'], ['c', null, '\x1b[K']]);
  assert.equal(cut('\x1b]0;t\x07\x1b[1ma\x1b[Kb\x1b[Jc\x1b[22md', 1, 2), '\x1b]0;t\x07\x1b[1m\x1b[Kb\x1b[J\x1b[22m');
});

test('a policy has defaults: what may not stand is dropped, and so are links', () => {
  const text = '\x1b]8;;u\x07l\x1b]8;;\x07\r';
  assert.equal(sanitize(text), 'l');
  assert.equal(sanitize(text, {}), 'l');
  assert.equal(sanitize(text, { links: true, show: true }), `${text.slice(0, -1)}^M`);
  assert.equal(isSafe(text.slice(0, -1)), false);
  assert.equal(isSafe(text.slice(0, -1), { links: true }), true);
});

test('bytes are made safe', () => {
  // a length that a subclass tells isn't read, nor a name
  class Longer extends Uint8Array {
    get length() {
      return 5000000;
    }

    get [Symbol.toStringTag]() {
      return 'Int8Array';
    }
  }
  assert.equal(sanitize(Longer.of(97, 27)), 'a');
  const every = Uint8Array.from({ length: 256 }, (_, byte) => byte);
  for (const bytes of [Buffer.from('caf\xe9\x1b[2J', 'latin1'), new Uint8Array(), new Uint8Array(1e5).fill(255), every, every.subarray(200, 210)]) {
    const decoded = new TextDecoder('utf-8', { ignoreBOM: true }).decode(bytes);
    for (const options of [{}, { show: true }, { links: true }]) {
      assert.equal(sanitize(bytes, options), sanitize(decoded, options));
    }
  }
  assert.equal(sanitize(runInNewContext('Uint8Array.of(255)')), '\ufffd');
  for (const wrong of [Int8Array.of(1), new DataView(new ArrayBuffer(1)), new ArrayBuffer(1), [1], { length: 1 }]) {
    assert.throws(() => sanitize(wrong), /the text must be a string/);
  }
  assert.throws(() => sanitize('a\ud800'), /lone surrogate/);
  for (const call of OF_TEXTS.filter((call) => call !== sanitize)) {
    assert.throws(() => call(every), /must be a string/);
  }
});

test('what the other languages have by these names', () => {
  assert.deepEqual([left('\x1b[1mab', 1), right('\x1b[1mab', 1)], splitAt('\x1b[1mab', 1));
  assert.equal(codes({ bold: true, foreground: 'red' }), '1;31');
  assert.deepEqual([0, 1, 2, 3, 4].map((index) => isCharBoundary('\x1b[1m😀a', index)), [true, false, true, true, false]);
  assert.equal(refusedRange('é\x1b[1mab', [[0, 1], [1, 2], [2, 9]]), 2);
  assert.equal(refusedRange('ab', [[0, 1], [1, 2]]), null);
});

test('options and ranges of another form are refused, and say of which', () => {
  for (const call of [() => truncate('abc', 2, { tial: '…' }), () => wrap('abc', 2, { ident: '' }), () => sanitize('abc', { link: true }), () => isSafe('abc', { show: true })]) {
    assert.throws(call, /^TypeError: there is no option \w+: they are/);
  }
  assert.throws(() => restyle('abc', [0, 1], '1'), /^TypeError: the ranges must be pairs of a start and an end, such as \[\[0, 1\]\], not 0/);
});

test('styles that print differently differ', () => {
  const [red, unknown] = ['\x1b[31mx', '\x1b[31m\x1b[99mx'].map((text) => blocks(text)[0].style);
  assert.deepEqual([red.end, unknown.end], ['\x1b[39m', '\x1b[39m\x1b[0m']);
  assert.notDeepEqual(red, unknown);
  const codes = ['0', '1', '3', '31', '32', '91', '38;5;1', '38;2;1;1;1', '41', '58;5;1', '11', '12', '20', '53', '73', '99'];
  const styles = codes.flatMap((first) => codes.map((second) => blocks(`\x1b[${first}m\x1b[${second}mx`)[0].style));
  for (const one of styles) {
    for (const other of styles) {
      if (one.start !== other.start || one.end !== other.end) {
        assert.notDeepEqual(one, other);
      }
    }
  }
});

test('a style has names', () => {
  const [{ style }] = blocks('\x1b[1;3;91;48;2;1;2;3mx');
  assert.deepEqual(style.attributes, ['bold', 'italic']);
  assert.equal(style.foreground, 'brightRed');
  assert.deepEqual(style.background, { red: 1, green: 2, blue: 3 });
  assert.equal(blocks('\x1b[38;5;200mx')[0].style.foreground, 200);
  const [{ style: all }] = blocks('\x1b[1;2;3;4;21;5;6;7;8;9;51;52;20;26;53;60;61;62;63;64;73;74mx');
  assert.deepEqual(all.attributes, ['bold', 'faint', 'italic', 'underline', 'doubleUnderline', 'slowBlink', 'rapidBlink', 'inverse', 'hide',
    'crossedOut', 'framed', 'encircled', 'fraktur', 'proportionalSpacing', 'overlined', 'ideogramUnderline', 'ideogramDoubleUnderline',
    'ideogramOverline', 'ideogramDoubleOverline', 'ideogramStressMarking', 'superscript', 'subscript']);
  const named = ['black', 'red', 'green', 'yellow', 'blue', 'magenta', 'cyan', 'white'];
  named.forEach((name, digit) => {
    const bright = `bright${name[0].toUpperCase()}${name.slice(1)}`;
    for (const [code, wanted] of [[30, name], [90, bright], [40, name], [100, bright]]) {
      const { foreground, background } = blocks(`\x1b[${code + digit}mx`)[0].style;
      assert.deepEqual([foreground, background], code === 30 || code === 90 ? [wanted, null] : [null, wanted]);
    }
  });
});

test('memory is asked for and given back, and lack of it leaves the module fit for the next call', () => {
  const repeats = 100000;
  const long = '\x1b[31mred\x1b[39m and plain '.repeat(repeats);
  assert.equal(strip(long).length, 14 * repeats);
  assert.equal(split(long, ' ').length, 3 * repeats + 1);
  const grow = WebAssembly.Memory.prototype.grow;
  WebAssembly.Memory.prototype.grow = function (pages) {
    if (pages > 100) {
      throw new RangeError('no more');
    }
    return grow.call(this, pages);
  };
  try {
    const sanitizeBytes = (text) => sanitize(Buffer.from(text));
    for (const call of [strip, blocks, (text) => mark(text, 'red', '1'), (text) => matches(text, 'red'), (text) => split(text, ' '), (text) => wrap(text, 5), sanitizeBytes, (text) => [...iterLines(text, 5)],
      (text) => [...iterSplit(text, ' ')], (text) => [...iterBlocks(text)]]) {
      assert.throws(() => call(long), OutOfMemoryError);
      assert.equal(strip('\x1b[1ma'), 'a');
    }
  } finally {
    WebAssembly.Memory.prototype.grow = grow;
  }
  assert.equal(strip(long).length, 14 * repeats);
  for (const columns of [2 ** 36, 2 ** 40, Number.MAX_SAFE_INTEGER, Number.MAX_VALUE]) {
    assert.throws(() => pad('abc', columns), OutOfMemoryError);
    assert.throws(() => fit('abc', columns), OutOfMemoryError);
    assert.throws(() => expandTabs('a\t', columns), OutOfMemoryError);
    assert.equal(pad('abc', 5, 'center'), ' abc ');
    assert.equal(sliceColumns('abc', 1, columns), 'bc');
  }
});

/** Makes a call while no memory grows by more than `most` pages at once. Returns how many pages were asked for, and which memories grew. */
function limited(most, call) {
  const grow = WebAssembly.Memory.prototype.grow;
  const asked = { pages: 0, memories: new Set() };
  WebAssembly.Memory.prototype.grow = function (pages) {
    if (pages > most) {
      throw new RangeError('no more');
    }
    asked.pages += pages;
    asked.memories.add(this);
    return grow.call(this, pages);
  };
  try {
    call();
  } finally {
    WebAssembly.Memory.prototype.grow = grow;
  }
  return asked;
}

const WALKS = [[(text) => iterSplit(text, ' '), (text) => split(text, ' ')], [iterBlocks, blocks], [(text) => iterLines(text, 9), (text) => lines(text, 9)]];

test('an iterator makes one item at a time, in memory that only the text needs', () => {
  const long = '\x1b[31mred\x1b[39m and '.repeat(1e5);
  const pages = Math.ceil(3 * long.length / 65536) + 3;
  for (const [walkOf, listOf] of WALKS) {
    const walk = walkOf(long);
    const first = limited(pages, () => walk.next());
    assert.ok(first.pages <= pages);
    let items = 1;
    limited(-1, () => {
      for (const _ of walk) {
        items += 1;
      }
    });
    assert.equal(items, listOf(long).length);
    assert.ok(items >= 1e5);
  }
  for (const listOf of [(text) => split(text, ' '), blocks]) {
    limited(pages, () => assert.throws(() => listOf(long), OutOfMemoryError));
  }
});

test('iterators take turns, also while other calls use memory', () => {
  const texts = ['\x1b[31mred apple\x1b[39m and \x1b]0;t\x07 \x1b[1mlion', '\x1b[1mé 😀\x1b[K 老 \x1b]8;;u\x07ab c', '', ' ', 'no style'];
  const long = '\x1b[1m老'.repeat(2e6);
  for (const [walkOf, listOf] of WALKS) {
    for (const one of texts) {
      for (const other of texts) {
        const [walk, beside, items, more] = [walkOf(one), walkOf(other), [], []];
        for (let done = 0; done < 2;) {
          done = 0;
          for (const [each, into] of [[walk, items], [beside, more]]) {
            const item = each.next();
            if (item.done) {
              done += 1;
            } else {
              into.push(item.value);
            }
          }
          assert.equal(width('\x1b[1ma老'), 3);
        }
        assert.deepEqual([items, more], [listOf(one), listOf(other)]);
      }
    }
    const walk = walkOf(texts[1]);
    const items = [walk.next().value];
    assert.equal(strip(long).length, 2e6);
    assert.deepEqual([...items, ...walk], listOf(texts[1]));
  }
  assert.deepEqual([...iterSplit('a b c', ' ')].map((part) => [...iterSplit(part, '')]), [['', 'a', ''], ['', 'b', ''], ['', 'c', '']]);
});

/** The memories that a call grows, held weakly. */
const grownBy = (call) => [...limited(Infinity, call).memories].map((memory) => new WeakRef(memory));
const isHeld = (reference) => reference.deref() !== undefined;

test('an iterator that ends early gives its memory up, and the next one takes a small one over', async () => {
  setFlagsFromString('--expose-gc');
  const gc = runInNewContext('gc');
  const long = '\x1b[31mred\x1b[39m and '.repeat(1e6);
  for (const [walkOf] of WALKS) {
    const walk = walkOf(long);
    const memories = grownBy(() => walk.next());
    assert.equal(memories.length, 1);
    walk.return();
    for (let turn = 0; turn < 100 && memories.some(isHeld); turn++) {
      await new Promise((then) => { setTimeout(then, 10); });
      gc();
    }
    assert.ok(!memories.some(isHeld));
    assert.deepEqual(walk.next(), { value: undefined, done: true });
  }
  const { Instance } = WebAssembly;
  let made = 0;
  WebAssembly.Instance = function (module) {
    made += 1;
    return new Instance(module);
  };
  try {
    for (let turn = 0; turn < 1000; turn++) {
      for (const [walkOf] of WALKS) {
        for (const _ of walkOf('lion tiger')) {
          assert.ok([...walkOf('a b')].length > 0);
          break;
        }
      }
    }
  } finally {
    WebAssembly.Instance = Instance;
  }
  assert.ok(made <= 2);
  const walk = iterSplit('a b', ' ');
  walk.next();
  assert.throws(() => walk.throw(new RangeError('of the caller')), { name: 'RangeError', message: 'of the caller' });
  assert.deepEqual(walk.next(), { value: undefined, done: true });
});

test('an iterator whose item lacks memory throws, and ends', () => {
  const many = '\x1b]0;t\x07'.repeat(1e6);
  const part = `a ${'\x1b[31mb'.repeat(1e6)} \x1b[32mc`;
  for (const walk of [iterSplit(part, ' '), iterBlocks(`\x1b[1ma${many}b`)]) {
    walk.next();
    const other = iterSplit('a b', ' ');
    other.next();
    limited(-1, () => assert.throws(() => walk.next(), OutOfMemoryError));
    assert.deepEqual(walk.next(), { value: undefined, done: true });
    assert.deepEqual([...other, strip('\x1b[1ma')], ['b', 'a']);
  }
  assert.equal([...iterSplit(part, ' ')][1].length, 6e6 + 5);
  assert.deepEqual([...iterBlocks(`\x1b[1ma${many}b`)], blocks(`\x1b[1ma${many}b`));
  for (const [walkOf] of WALKS) {
    const walk = walkOf('a b'.repeat(2e6));
    limited(1, () => assert.throws(() => walk.next(), OutOfMemoryError));
    assert.deepEqual(walk.next(), { value: undefined, done: true });
  }
});

test('a call may use almost 4 GiB, and no more', () => {
  const strips = writing((x, f) => x.ansi_str_raw_strip(f.answer, 0, f.block, 0, f.text, 0, f.length, 0, f.buffer, 0, f.room, 0));
  const stripIn = (bytes) => called({ ...strips, room: () => bytes }, '\x1b[1ma');
  // (the arena has as many bytes as the room for the result)
  assert.equal(stripIn(0x7f000000), 'a');
  assert.throws(() => stripIn(0x80000000), OutOfMemoryError);
  assert.equal(strip('\x1b[1ma'), 'a');
});

test('the bytes of a long text are counted', () => {
  const long = '\x1b[1mé老😀'.repeat(2 ** 21 + 1);
  assert.ok(long.length > 2 ** 24);
  assert.equal(strip(long).length, 4 * (2 ** 21 + 1));
  assert.equal(split(long, '老').length, 2 ** 21 + 2);
});

test('a drop-in returns what its package does (as run: slice-ansi 5.0.0, strip-ansi 6.0.1, string-width 4.2.3, wrap-ansi 8.0.1)', () => {
  const fox = 'The quick \x1b[31mfox jumped over \x1b[39mthe lazy \x1b[32mdog and then\x1b[39m.';
  const rows = [
    [sliceAnsi('abc', 1), 'bc'],
    [sliceAnsi('abc', 0.5, 2.5), 'ab'],
    [sliceAnsi('abc', -2, 2), 'ab'],
    [sliceAnsi('abc', 0, -1), ''],
    [sliceAnsi('abc', 2, 1), ''],
    [sliceAnsi('abc', 1, Infinity), 'bc'],
    [sliceAnsi('日本語', 2, 4), '本'],
    [sliceAnsi(fox, 0, 20), 'The quick \x1b[31mfox jumped\x1b[39m'],
    [sliceAnsi(fox, 20, 30), '\x1b[31m over \x1b[39mthe '],
    [sliceAnsi(fox, 12), '\x1b[31mx jumped over \x1b[39mthe lazy \x1b[32mdog and then\x1b[39m.'],
    [sliceAnsi('\x1b[1m\x1b[31mbold red\x1b[39m\x1b[22m', 5), '\x1b[1m\x1b[31mred\x1b[39m\x1b[22m'],
    [sliceAnsi('\x1b[31mred\x1b[32mgreen\x1b[39m', 2, 5), '\x1b[31md\x1b[32mgr\x1b[39m'],
    [sliceAnsi('\x1b[4mUni\x1b[24mcorn', 2, 5), '\x1b[4mi\x1b[24mco'],
    [stripAnsi('\x1b[4mUnicorn\x1b[0m'), 'Unicorn'],
    [stripAnsi('\x1b]8;;https://github.com\x07Click\x1b]8;;\x07'), 'Click'],
    [stripAnsi('a\x1b[2Jb\x1b(Bc'), 'abc'],
    [stringWidth('a'), 1],
    [stringWidth('古'), 2],
    [stringWidth('\x1b[1m古\x1b[22m'), 2],
    [stringWidth('cafe\u0301'), 4],
    [stringWidth('👍🏽'), 2],
    [stringWidth(''), 0],
    [stringWidth(null), 0],
    [wrapAnsi(fox, 20), 'The quick \x1b[31mfox jumped\x1b[39m\n\x1b[31mover \x1b[39mthe lazy \x1b[32mdog\x1b[39m\n\x1b[32mand then\x1b[39m.'],
    [wrapAnsi(fox, 9), 'The quick\n\x1b[31mfox\x1b[39m\n\x1b[31mjumped\x1b[39m\n\x1b[31mover \x1b[39mthe\nlazy \x1b[32mdog\x1b[39m\n\x1b[32mand then\x1b[39m.'],
    [wrapAnsi('x abcdefgh y', 4), 'x\nabcdefgh\ny'],
    [wrapAnsi('x abcdefgh y', 4, { hard: true }), 'x\nabcd\nefgh\ny'],
    [wrapAnsi('x \x1b[31mabcdefgh\x1b[39m yz', 5, { hard: true }), 'x \x1b[31mabc\x1b[39m\n\x1b[31mdefgh\x1b[39m\nyz'],
    [wrapAnsi('  two  blanks  ', 20), 'two  blanks'],
    [wrapAnsi('  two  blanks  ', 4, { trim: false }), '  \ntwo \n \nblanks\n  '],
    [wrapAnsi('\x1b[41m a b \x1b[49m', 2, { trim: false }), '\x1b[41m a\x1b[49m\n\x1b[41m b\x1b[49m\n\x1b[41m \x1b[49m'],
    [wrapAnsi('The quick brown', 5, { wordWrap: false }), 'The q\nuick\nbrown'],
    [wrapAnsi('The quick brown', 5, { wordWrap: false, trim: false }), 'The q\nuick \nbrown'],
    [wrapAnsi('at an end   ', 3, { wordWrap: false }), 'at\nan\nend\n'],
    [wrapAnsi('日本語 テキスト', 5, { hard: true }), '日本\n語\nテキ\nスト'],
    [wrapAnsi('a\r\nb c\n\nd\n', 2), 'a\nb\nc\n\nd\n'],
    [wrapAnsi('\x1b]8;;http://u\x07a link\x1b]8;;\x07', 9), '\x1b]8;;http://u\x07a link\x1b]8;;\x07'],
    [wrapAnsi(12.5, Infinity), '12.5'],
  ];
  for (const [given, wanted] of rows) {
    assert.equal(given, wanted);
  }
});

test('where a drop-in differs from its package', () => {
  // (a link stays; a wide character that the slice divides becomes blanks; an accent has no column, an emoji two; what is open is closed)
  assert.equal(sliceAnsi('\x1b]8;;http://u\x1b\\a link\x1b]8;;\x1b\\', 2, 4), '\x1b]8;;http://u\x1b\\li\x1b]8;;\x1b\\');
  assert.equal(sliceAnsi('日本語', 1, 4), ' 本');
  assert.equal(sliceAnsi('cafe\u0301s', 0, 4), 'cafe\u0301');
  assert.equal(sliceAnsi('😀ab', 0, 2), '😀');
  assert.equal(sliceAnsi('\x1b[31mab', 0), '\x1b[31mab\x1b[39m');
  assert.equal(sliceAnsi('a\tb\nc\x1b[2J\x07d', 1), ' b cd');
  assert.equal(stripAnsi('\x1b[31'), '[31');
  assert.equal(stripAnsi('a\x1bPbody\x1b\\b'), 'ab');
  assert.throws(() => stripAnsi(null), TypeError);
  assert.equal(stringWidth('a\tb\n'), 4);
  assert.equal(stringWidth('\x1b[1ma', { countAnsiEscapeCodes: true }), 4);
  assert.throws(() => stringWidth('a', { ambiguousIsNarrow: false }), RangeError);
  const [, styled] = wrapAnsi('\x1b[1;31mboth words\x1b[0m', 5).split('\n');
  assert.deepEqual([blocks(styled)[0].style.attributes, blocks(styled)[0].style.foreground], [['bold'], 'red']);
  assert.equal(linkAt(wrapAnsi('\x1b]8;;http://u\x1b\\a link\x1b]8;;\x1b\\', 4).split('\n')[1], 0), 'http://u');
  assert.equal(wrapAnsi('cafe\u0301', 4), 'cafe\u0301');
  // (a line feed inside a sequence ends no line)
  assert.equal(wrapAnsi('\x1b]0;a\nb\x07c  \nd', 9, { trim: false }), 'c  \nd');
  for (const call of [stripAnsi, stringWidth, (text) => sliceAnsi(text, 0), (text) => wrapAnsi(text, 1)]) {
    assert.throws(() => call('a\ud800'), /lone surrogate/);
  }
});

test('a drop-in breaks long lines and long words in good time', () => {
  const hard = { hard: true };
  assert.equal(wrapAnsi('a'.repeat(1e5), 5, hard).length, 12e4 - 1);
  assert.equal(wrapAnsi('\x1b[31mred\x1b[39m word '.repeat(5000), 8, hard).split('\n').length, 5000);
});
