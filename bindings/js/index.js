// The package in Node, which compiles the module at once. commonjs.mjs makes the entry for `require` of it.
import { readFileSync } from 'node:fs';
import { unloaded, use } from './memory.js';

try {
  use(new WebAssembly.Module(readFileSync(new URL('ansi_str.wasm', import.meta.url))));
} catch (error) {
  throw unloaded(error);
}

export * from './calls.js';
