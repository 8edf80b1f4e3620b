// The package for Node. It loads dolzhytik.wasm at once, without `await`, so that `require` takes it.
import { readFileSync } from 'node:fs';
import { readFile } from 'node:fs/promises';
import { init as initAnywhere } from './browser.js';
import { use } from './calls.js';

export * from './api.js';

/** Where a bundler writes CommonJS, import.meta.url is undefined. */
function besideScript() {
  if (import.meta.url === undefined) return `${__dirname}/dolzhytik.wasm`;
  return new URL('./dolzhytik.wasm', import.meta.url);
}

const module = new WebAssembly.Module(readFileSync(besideScript()));
use(module, new WebAssembly.Instance(module));

/** `fetch` of Node takes no addresses of files. */
export async function init(source) {
  const given = await source;
  const isFile = given instanceof URL && given.protocol === 'file:';
  return initAnywhere(isFile ? await readFile(given) : given);
}
