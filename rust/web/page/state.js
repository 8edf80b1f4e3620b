// The open module, and texts about its sections.
import { prefixOf } from '../names.js';
import { counted, escaped, make, percent } from './elements.js';
import { reader, received } from './engine.js';
import { HEADER_SIZE } from './limits.js';

/**
 * `file` is the open module: its name, bytes, sections, and its errors or null. `parts` are its
 * functions and data segments, which are null until `ready` is fulfilled. `chosen` is the index of
 * the chosen section.
 */
export const state = { file: null, parts: null, ready: null, chosen: -1 };

/** The functions, as items of lists with the prefixes of their names, and the data segments. */
export async function readParts() {
  const { counts, imported } = await reader.call('parts');
  // Equal prefixes are one string, which is fast to find in a map.
  const prefixes = new Map();
  const asItem = (it) => {
    const prefix = it.name === null ? null : prefixOf(it.name);
    if (!prefixes.has(prefix)) prefixes.set(prefix, prefix);
    return Object.assign(it, { prefix: prefixes.get(prefix), text: it.name ?? `function ${it.index}` });
  };
  const all = (which, each) => received(counts[which], (at) => reader.call('partsFrom', which, at), each);
  const [functions, data] = await Promise.all([all('functions', asItem), all('data')]);
  return { functions, data, imported };
}

/** Sets the open module. Returns what to call when the parts of it are known. */
export function setFile(file) {
  let done;
  const ready = new Promise((resolve) => (done = resolve));
  Object.assign(state, { file, parts: null, ready, chosen: -1 });
  return (parts) => {
    if (state.file !== file) return false;
    state.parts = parts;
    done();
    return true;
  };
}

export const endOf = ({ offset, size }) => offset + size;

/** The bytes of a section with its id and size prefix. */
export const wholeSize = (section) => endOf(section) - section.start;

/** The part of the module that some bytes are. */
export const shareOf = (size) => percent.format(size / Math.max(1, state.file.bytes.length));

/** The sections with their numbers and first bytes, and one for the bytes that are not decoded. */
export function sectionsOf(bytes, { sections, error }) {
  let start = HEADER_SIZE;
  const all = sections.map((section, index) => {
    const whole = { ...section, start, number: index + 1, isUndecoded: false };
    start = endOf(section);
    return whole;
  });
  if (error === null) return all;
  const { offset } = error;
  const size = bytes.length - offset;
  const undecoded = { id: null, kind: 'undecoded', name: null, items: null, number: null, isUndecoded: true };
  return [...all, { ...undecoded, start: offset, offset, size }];
}

/** The index of the section with the byte at an offset, or -1. */
export function indexAt(offset) {
  return state.file.sections.findIndex((section) => section.start <= offset && offset < endOf(section));
}

/**
 * Whether the payload is not one of its id. Items of custom sections and of unknown ids are not
 * counted.
 */
export const isFlawed = ({ id, name, items }) => (id === 0 ? name === null : id <= 13 && items === null);

export const kindClass = ({ kind }) => `kind kind-${kind.replaceAll(' ', '-')}`;
export const kindText = (section) => (section.isUndecoded ? 'not decoded' : section.kind);
export const shortName = (section) => (section.name === null ? kindText(section) : escaped(section.name));

/** The section in words: its number, kind and name. */
export function titleOf(section) {
  if (section.isUndecoded) return 'The bytes from the damage on';
  const name = section.name === null ? '' : ` "${escaped(section.name)}"`;
  return `Section ${section.number}: ${section.kind}${name}`;
}

export const sizeLabel = (title, size) => `${title}, ${counted(size, 'byte')}, ${shareOf(size)}`;

/** The cell that names a section. */
export function nameCell(tag, section) {
  const cell = make(tag, { className: 'name', title: titleOf(section) });
  if (tag === 'th') cell.scope = 'row';
  cell.append(make('span', { className: `swatch ${kindClass(section)}` }));
  cell.append(make('bdi', { textContent: shortName(section) }));
  if (section.name !== null) cell.append(make('i', { textContent: 'custom' }));
  if (!section.isUndecoded && isFlawed(section)) {
    cell.append(make('span', { className: 'flaw', textContent: 'does not decode' }));
  }
  return cell;
}

/** A function by its name, or by its index if it has none. */
export const functionName = ({ index, name }) => (name === null ? `function ${index}` : escaped(name));

/** The functions that are in a section, if they are known. */
export function functionsIn(section) {
  if (section.id !== 10 && !section.isUndecoded) return [];
  const isIn = ({ offset }) => section.start <= offset && offset < endOf(section);
  return state.parts?.functions.filter(isIn) ?? [];
}
