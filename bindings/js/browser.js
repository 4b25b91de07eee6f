// The package in a page, as a bundler takes it or as it is: it fetches the module from beside itself.
import { unloaded, use } from './memory.js';

async function compiled() {
  const response = await fetch(new URL('ansi_str.wasm', import.meta.url));
  if (!response.ok) {
    throw new Error(`${response.url}: ${response.status}`);
  }
  return WebAssembly.compile(await response.arrayBuffer());
}

try {
  use(await compiled());
} catch (error) {
  throw unloaded(error);
}

export * from './calls.js';
