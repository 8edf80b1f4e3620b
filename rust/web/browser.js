// The package for bundlers: `init` loads dolzhytik.wasm. No `await` is at the top level, so that
// bundlers can write a classic script, in which import.meta.url is undefined.
import { isLoaded, use } from './calls.js';

export * from './api.js';

/** The address of a classic script: of a page's while it starts, of a worker's always. */
const script = globalThis.document?.currentScript?.src || globalThis.location?.href;

/** Bundlers rewrite the second line, and copy the file. */
function besideScript() {
  if (import.meta.url === undefined) return new URL('dolzhytik.wasm', script);
  return new URL('./dolzhytik.wasm', import.meta.url);
}

/** Compiles the module, which is given by itself, its bytes, a response or an address. */
async function compile(source) {
  if (source instanceof WebAssembly.Module) return source;
  if (source instanceof URL || typeof source === 'string') return compile(await fetch(source));
  // Not `instanceof Response`, which Node loads at its first use.
  if (typeof source?.arrayBuffer !== 'function') return WebAssembly.compile(source);
  if (source.ok === false) {
    throw new Error(`${source.url}: HTTP status ${source.status}`);
  }
  return WebAssembly.compile(await source.arrayBuffer());
}

async function load(source) {
  const module = await compile(await source);
  use(module, await WebAssembly.instantiate(module));
}

/** The loading of the file beside the script. */
let loading = null;

export async function init(source) {
  if (source !== undefined) return load(source);
  if (isLoaded()) return undefined;
  loading ??= load(besideScript()).finally(() => (loading = null));
  return loading;
}
