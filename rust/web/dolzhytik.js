// The package for pages without a bundler, which loads dolzhytik.wasm from its own folder. In Node
// it loads the file too, if it is imported by its path.
import { init } from './browser.js';

export * from './browser.js';

const url = new URL('./dolzhytik.wasm', import.meta.url);
await init(url.protocol === 'file:' ? (await import('node:fs/promises')).readFile(url) : url);
