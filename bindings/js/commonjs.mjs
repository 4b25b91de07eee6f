// Writes beside each source of the package the file of the same name that `require` takes: `.cjs` for `.js`, `.d.cts` for `.d.ts`. Only what
// imports and exports is written otherwise. node commonjs.mjs [FOLDER]
import { readFileSync, readdirSync, writeFileSync } from 'node:fs';
import { fileURLToPath } from 'node:url';

const folder = process.argv[2] ?? fileURLToPath(new URL('.', import.meta.url));

/** The names of a list that imports or exports: `a, b as c`, each as a pair. */
const pairsOf = (list) => list.split(',').map((pair) => pair.trim()).filter((pair) => pair !== '').map((pair) => {
  const [name, other = name] = pair.split(/\s+as\s+/);
  return [name, other];
});

const required = (path) => `require('${path.replace(/^(\..*)\.js$/, '$1.cjs')}')`;

/** A module as `require` takes it. A function that it exports by default is the module itself. */
function converted(text) {
  const names = [];
  let main = null;
  const body = text
    .replace(/^import \{([^}]*)\} from '(.*)';$/gm, (_, list, path) => {
      const taken = pairsOf(list).map(([name, other]) => (name === other ? name : `${name}: ${other}`));
      return `const { ${taken.join(', ')} } = ${required(path)};`;
    })
    .replace(/^export \* from '(.*)';$/gm, (_, path) => `Object.assign(exports, ${required(path)});`)
    .replace(/^export \{([^}]*)\} from '(.*)';$/gm, (_, list, path) => pairsOf(list).map(([name, other]) => `exports.${other} = ${required(path)}.${name};`).join('\n'))
    .replace(/^export default (function (\w+))/gm, (_, start, name) => {
      main = name;
      return start;
    })
    .replace(/^export ((?:const|function\*?|class) (\w+))/gm, (_, start, name) => {
      names.push(name);
      return start;
    })
    .replaceAll('import.meta.url', "require('node:url').pathToFileURL(__filename)");
  const left = body.match(/^(import|export)\b.*|^.*\bawait\b.*/m);
  if (left !== null) {
    throw new Error(`not converted: ${left[0]}`);
  }
  const lines = main === null ? names.map((name) => `exports.${name} = ${name};`) : [`module.exports = ${main};`, `${main}.default = ${main};`];
  return `'use strict';\n\n${body.trimEnd()}\n${lines.length > 0 ? `\n${lines.join('\n')}\n` : ''}`;
}

/** The types of a module likewise. */
function typesOf(text) {
  const [, name] = text.match(/^export default function (\w+)/m) ?? [];
  if (name === undefined) {
    return text;
  }
  const interfaces = text.match(/^export interface [^]*?^\}\n/gm) ?? [];
  const rest = interfaces.reduce((left, each) => left.replace(each, ''), text)
    .replace('export default function', 'declare function')
    .replace(/\bOptions\b/g, `${name}.Options`);
  const inside = [...interfaces.map((each) => each.replace(/^(?=.)/gm, '  ')), `  export { ${name} as default };\n`];
  return `${rest.trim()}\n\ndeclare namespace ${name} {\n${inside.join('\n')}}\n\nexport = ${name};\n`;
}

for (const part of [folder, `${folder}/compat`]) {
  // (no page uses `require`)
  for (const name of readdirSync(part).filter((name) => name !== 'browser.js')) {
    const [, base, ending] = name.match(/^(\w[\w-]*)(\.js|\.d\.ts)$/) ?? [];
    if (ending !== undefined) {
      const text = readFileSync(`${part}/${name}`, 'utf8');
      writeFileSync(`${part}/${base}${ending === '.js' ? '.cjs' : '.d.cts'}`, ending === '.js' ? converted(text) : typesOf(text));
    }
  }
}
