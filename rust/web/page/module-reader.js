// What the worker reads of a module, as far as it decodes.
import { DolzhytikError, list, outline } from '../dolzhytik.js';
import { Indices, entriesOf, instructionsOf } from '../dump.js';
import { Names } from '../names.js';
import { sized } from '../sizes.js';
import { HEADER_SIZE, MESSAGE_ITEMS, MOST_ITEMS } from './limits.js';
import { Relocations } from './relocations.js';

/** Sections that name functions and other entries, those whose items have sizes, and those of types. */
const isNaming = ({ id, name }) => id === 2 || id === 7 || (id === 0 && (name === 'name' || name === 'linking'));
const isSized = ({ id }) => id === 10 || id === 11;
const isTyping = ({ id }) => id >= 1 && id <= 3;

/** The types of functions, by the index of the function. */
function typesOf(sections) {
  const entries = (id) => sections.filter((section) => section.id === id).flatMap((section) => section.entries);
  const types = entries(1);
  const functions = [...entries(2).filter(({ kind }) => kind === 'func'), ...entries(3)];
  return new Map(functions.map(({ index, type }) => [index, types[type]]));
}

/**
 * Whether the payload is not one of its id. Items of custom sections and of unknown ids are not
 * counted.
 */
const isFlawed = ({ id, name, items }) => (id === 0 ? name === null : id <= 13 && items === null);

/** Runs of locals with their first indices, which are after those of the parameters. */
function numbered(locals, parameters) {
  let next = parameters?.length ?? null;
  return locals.filter(({ count }) => count > 0).map((run) => {
    const first = next;
    if (next !== null) next += run.count;
    return { ...run, first };
  });
}

/** An unsigned LEB128 number in five bytes, which every size prefix of 32 bits has space for. */
const padded = (value) => [0, 7, 14, 21, 28].map((bit) => ((value >>> bit) & 127) | (bit < 28 ? 128 : 0));

/** The size of the LEB128 number at an offset. */
function sizeOfNumber(bytes, at) {
  let end = at;
  while (end < bytes.length && end < at + 5 && bytes[end] >= 128) end += 1;
  return end - at + 1;
}

/**
 * The section that a damaged module ends in, as a module of its own with the bytes that are there,
 * and how much further its bytes are in the damaged module.
 */
function lastSection(bytes, offset) {
  const payload = bytes.subarray(offset + 1 + sizeOfNumber(bytes, offset + 1));
  const front = [0, 0x61, 0x73, 0x6d, 1, 0, 0, 0, bytes[offset], ...padded(payload.length)];
  const module = new Uint8Array(front.length + payload.length);
  module.set(front);
  module.set(payload, front.length);
  return { module, shift: bytes.length - module.length };
}

export class ModuleReader {
  #bytes;
  #posted;
  #sections = [];
  /** The bytes of the sections that are there. */
  #module;
  #error = null;
  #names = null;
  /** The sections with the entries that name others. */
  #named = [];
  #relocations = null;
  /** The functions and data segments in their order. */
  #parts = { functions: [], data: [] };
  /** The items of the section that was asked for last. */
  #items = [];
  /** What the page does not keep of functions, by their indices. */
  #bodies = new Map();
  /** The types of functions, when one was asked for. */
  #types = null;

  constructor(bytes, posted) {
    this.#bytes = bytes;
    this.#posted = posted;
    this.#outline();
  }

  /**
   * The sections of the module. Where it is damaged, those before the damage: they are a module of
   * their own. The flaw is why a section does not decode.
   */
  sections() {
    const flaw = this.#error ? null : this.#flaw();
    return { sections: this.#sections, error: this.#error && this.#posted(this.#error), flaw };
  }

  #outline() {
    try {
      this.#sections = outline(this.#bytes);
      this.#module = this.#bytes;
    } catch (error) {
      if (!(error instanceof DolzhytikError) || error.offset === null) throw error;
      this.#error = error;
      this.#module = this.#bytes.subarray(0, error.offset);
      this.#sections = error.offset < HEADER_SIZE ? [] : outline(this.#module);
    }
  }

  #flaw() {
    if (!this.#sections.some(isFlawed)) return null;
    try {
      list(this.#module);
    } catch (error) {
      return this.#posted(error);
    }
    return null;
  }

  /** The items of a section that is there, or of the one that the module ends in. */
  #entries(index, indices, limit) {
    const section = this.#sections[index];
    if (section) return entriesOf(this.#module, section, index, indices, limit);
    const none = { entries: [], isCut: true };
    if (!this.#error || this.#error.offset < HEADER_SIZE || this.#error.offset + 2 > this.#bytes.length) return none;
    const { module, shift } = lastSection(this.#bytes, this.#error.offset);
    const id = module[HEADER_SIZE];
    if (id === 0 || id > 13) return none;
    const { entries } = entriesOf(module, { id, name: null }, 0, indices, limit);
    const moved = (part) => part && { ...part, offset: part.offset + shift };
    const inFile = (entry) => ({ ...moved(entry), ...(entry.body && { body: moved(entry.body) }) });
    return { entries: entries.map(inFile), isCut: true, id };
  }

  /** The sections with their entries, where these are wanted, and the one that a damaged module ends in. */
  #decoded(isWanted) {
    const indices = new Indices();
    const all = this.#sections.map((section, index) => {
      return { ...section, entries: isWanted(section) ? this.#entries(index, indices).entries : [] };
    });
    if (this.#error) all.push({ id: null, name: null, ...this.#entries(this.#sections.length, indices) });
    return all;
  }

  /** How many functions and data segments there are, and the names of imported functions. */
  parts() {
    const all = this.#decoded((section) => isNaming(section) || isSized(section));
    this.#named = all;
    this.#names = new Names(all);
    const entries = (of) => all.filter(({ id }) => id === of).flatMap((section) => section.entries);
    const functions = sized(all, this.#names, 10);
    entries(10).forEach(({ body, locals, instruction_count: count }, at) => {
      const { index, offset } = functions[at];
      this.#bodies.set(index, { offset, body, locals });
      functions[at].count = count;
    });
    const imported = entries(2).filter(({ kind }) => kind === 'func');
    const names = Object.fromEntries(imported.map(({ index }) => [index, this.#names.of('function', index)]));
    this.#parts = { functions, data: sized(all, this.#names, 11) };
    const counts = { functions: functions.length, data: this.#parts.data.length };
    return { counts, imported: names };
  }

  /** Some `functions` or `data` with their names and sizes, from a position on. */
  partsFrom(which, at) {
    return this.#parts[which].slice(at, at + MESSAGE_ITEMS);
  }

  /**
   * How many of the first items of a section are listed, up to the first that does not decode, and
   * whether there is such an item.
   */
  items(index) {
    const { entries, isCut } = this.#entries(index, new Indices(), MOST_ITEMS);
    this.#items = entries.slice(0, MOST_ITEMS).map(({ offset, size, text }, at) => ({ index: at, offset, size, text }));
    return { count: this.#items.length, isCut };
  }

  /** Some of these items with their texts, from a position on. */
  itemsFrom(at) {
    return this.#items.slice(at, at + MESSAGE_ITEMS);
  }

  /**
   * The instructions of a function with their relocations, and the names of what they have; its type
   * and locals.
   */
  instructions(index) {
    const { offset, body, locals } = this.#bodies.get(index);
    this.#types ??= typesOf(this.#decoded(isTyping));
    const type = this.#types.get(index);
    const { instructions: found, error } = instructionsOf(this.#bytes, body, MOST_ITEMS);
    const entriesAt = (section, limit) => this.#entries(section, new Indices(), limit).entries;
    this.#relocations ??= new Relocations(this.#named, entriesAt);
    const instructions = this.#relocations.among(found, offset);
    const names = namesOf(instructions, (entry) => this.#nameOf(index, entry));
    return { instructions, error, names, locals: numbered(locals, type?.params), type: type?.text };
  }

  /** The name of an entry that a function has. */
  #nameOf(index, { kind, index: of }) {
    if (kind === 'local') return this.#names.ofLocal(index, of);
    return kind === 'symbol' ? this.#relocations.nameOf(of) : this.#names.of(kind, of);
  }
}

/** The names of the entries that operands and relocations have, by `kind index`. */
function namesOf(instructions, nameOf) {
  const names = new Map();
  const take = (entry) => {
    const key = `${entry.kind} ${entry.index}`;
    if (!names.has(key)) names.set(key, nameOf(entry));
  };
  for (const { operands, relocations = [] } of instructions) {
    relocations.forEach(({ target }) => take(target));
    for (const operand of operands) {
      if (operand.index !== undefined) take(operand);
      if (operand.of) take(operand.of);
      if (typeof operand.type === 'number') take({ kind: 'type', index: operand.type });
      operand.clauses?.forEach(({ tag }) => tag !== null && take({ kind: 'tag', index: tag }));
    }
  }
  return names;
}
