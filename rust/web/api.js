// What the package exports, but for `init`.
export { DolzhytikError, assemble, items, list, outline } from './calls.js';
export { disassemble, dump } from './dump.js';
export { minimize } from './minimize.js';
export { size } from './sizes.js';
export { strip } from './strip.js';
