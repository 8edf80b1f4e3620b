// The items of all sections with their fields, and the instructions of functions.
import { DolzhytikError, NONE, checkIndex, decodedBody, itemsWithFields, list, outline } from './calls.js';
import { decoded, exact } from './operands.js';

const CODE = 10;

/** The spaces of the sections whose items have an index. */
const SPACES = {
  1: 'type', 3: 'func', 4: 'table', 5: 'memory', 6: 'global', 9: 'element', 10: 'code', 11: 'data', 13: 'tag',
};

/** Counts the indices of items. Imports come before what the module defines. */
export class Indices {
  #next = {};

  /** The index of an item in a section of this id, or undefined if it has none. */
  of(id, { kind }) {
    const space = id === 2 ? kind : SPACES[id];
    if (space === undefined) return undefined;
    this.#next[space] ??= 0;
    // A body has the index of its function.
    if (space === 'code') return this.imported('func') + this.#next.code++;
    if (id === 2) this.#imported[space] = (this.#imported[space] ?? 0) + 1;
    return this.#next[space]++;
  }

  #imported = {};

  /** How many entries of a space are imported. */
  imported(space) {
    return this.#imported[space] ?? 0;
  }
}

/** The bytes of a body or a data segment: they end where the item ends. */
function rangeAtEnd({ offset, size }, count) {
  return { offset: offset + size - count, size: count };
}

/** An item with its fields and its index. */
function entryOf(section, item, fields, indices) {
  const { offset, size, text } = item;
  const { body, bytes, addend } = fields;
  const index = indices.of(section.id, fields);
  const entry = { offset, size, text };
  if (index !== undefined) entry.index = index;
  Object.assign(entry, fields);
  if (addend) entry.addend = exact(addend);
  if (body !== undefined) entry.body = rangeAtEnd(item, body);
  if (bytes !== undefined) entry.bytes = rangeAtEnd(item, bytes);
  return entry;
}

/**
 * The items of the section at an index up to the first that does not decode. Members of a group
 * have the offset and the size of the group.
 */
export function entriesOf(module, section, index, indices, limit = NONE) {
  const found = itemsWithFields(module, index, limit);
  const entries = [];
  for (const item of found.list) {
    const fields = JSON.parse(item.fields);
    for (const each of Array.isArray(fields) ? fields : [fields]) entries.push(entryOf(section, item, each, indices));
  }
  return { entries, isCut: found.isCut };
}

/** The sections with their items, without instructions. */
export function entriesOfAll(module, sections) {
  const indices = new Indices();
  return sections.map((section, index) => {
    const { entries, isCut } = entriesOf(module, section, index, indices);
    return { ...section, entries, isCut };
  });
}

function instructionOf(begin, [offset, size, prefix, number, ...args]) {
  return { offset: begin + offset, size, ...decoded(prefix, number, args) };
}

/**
 * The instructions of a body, up to the first byte that does not decode, and the offset and the
 * cause of that or null.
 */
export function instructionsOf(module, { offset, size }, limit = NONE) {
  const { instructions, error } = decodedBody(module.subarray(offset, offset + size), limit);
  return {
    instructions: instructions.map((it) => instructionOf(offset, it)),
    error: error && { offset: offset + error.offset, cause: error.cause },
  };
}

function withInstructions(module, entry) {
  return { ...entry, instructions: instructionsOf(module, entry.body).instructions };
}

export function dump(module, { instructions = true } = {}) {
  const sections = entriesOfAll(module, list(module));
  return sections.map(({ isCut, ...section }) => {
    if (section.id !== CODE || !instructions) return section;
    return { ...section, entries: section.entries.map((entry) => withInstructions(module, entry)) };
  });
}

/** An error of one function. */
function functionError(index, cause, offset) {
  const at = offset === null ? '' : ` at offset 0x${offset.toString(16)}`;
  return new DolzhytikError(`function ${index}${at}: ${cause}`, { cause, offset, line: null });
}

export function disassemble(module, index) {
  checkIndex(index);
  const indices = new Indices();
  const sections = outline(module);
  const bodies = sections.flatMap((section, at) => {
    const isNeeded = section.id === 2 || section.id === CODE;
    return isNeeded ? entriesOf(module, section, at, indices).entries.filter((it) => it.body) : [];
  });
  const entry = bodies.find((it) => it.index === index);
  if (!entry) throw functionError(index, 'the module has no body for it', null);
  const { instructions, error } = instructionsOf(module, entry.body);
  if (error) throw functionError(index, error.cause, error.offset);
  return { ...entry, instructions };
}
