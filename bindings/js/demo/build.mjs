// Writes the page as one file that opens from disk, ansi_str.html or the path that is given: index.html with demo.js, the package and
// its module inside. bindings/js/build makes the module first. node build.mjs [FILE]
import { existsSync, readFileSync, writeFileSync } from 'node:fs';
import { fileURLToPath } from 'node:url';

const pathOf = (name) => fileURLToPath(new URL(name, import.meta.url));
const textOf = (name) => readFileSync(pathOf(name), 'utf8');
const urlOf = (type, text) => `data:${type},${encodeURIComponent(text)}`;

/** The text with a piece of it replaced, which occurs once. */
function replaced(text, piece, by) {
  const [before, after, ...more] = text.split(piece);
  if (after === undefined || more.length > 0) {
    throw new Error(`not there once: ${piece}`);
  }
  return before + by + after;
}

const module = pathOf('../ansi_str.wasm');
if (!existsSync(module)) {
  console.error(`${module} isn't there: run bindings/js/build first`);
  process.exit(1);
}
const browser = replaced(textOf('../browser.js'), "new URL('ansi_str.wasm', import.meta.url)",
  `'data:application/wasm;base64,${readFileSync(module, 'base64')}'`);
// (a module from a `data:` URL imports by names alone)
const codeOf = (text) => urlOf('text/javascript', text.replace(/'\.\/(calls|memory)\.js'/g, "'ansi_str/$1'"));
const imports = {
  ansi_str: codeOf(browser), 'ansi_str/calls': codeOf(textOf('../calls.js')), 'ansi_str/memory': codeOf(textOf('../memory.js')),
};
const page = replaced(textOf('index.html'), '{"imports": {"ansi_str": "../browser.js"}}', JSON.stringify({ imports }));
const script = `<script type="module">\n${textOf('demo.js')}</script>`;
writeFileSync(process.argv[2] ?? pathOf('ansi_str.html'), replaced(page, '<script type="module" src="demo.js"></script>', script));
