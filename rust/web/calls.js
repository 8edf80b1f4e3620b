// The calls of dolzhytik.wasm, which other modules load.

const KINDS = [
  'custom', 'type', 'import', 'function', 'table', 'memory', 'global', 'export', 'start', 'element', 'code', 'data',
  'data count', 'tag',
];
/** Stands for a number that is not there. */
export const NONE = 0xffffffff;
const OUT_OF_MEMORY = 'out of memory';

/** Why a call fails. */
export class DolzhytikError extends Error {
  constructor(message, { cause, offset, line }) {
    super(message, { cause });
    this.name = 'DolzhytikError';
    this.offset = offset;
    this.line = line;
  }
}

// The WebAssembly module.

let compiled = null;
/**
 * The exports of the instance that takes the next call. It is null during a call, and after one
 * that was stopped.
 */
let idle = null;

/** Sets the module of later calls, dolzhytik.wasm, and an instance of it. */
export function use(module, instance) {
  compiled = module;
  idle = instance.exports;
}

export function isLoaded() {
  return compiled !== null;
}

function newInstance() {
  if (!isLoaded()) {
    throw new Error('dolzhytik.wasm is not loaded: await init() before other calls');
  }
  return new WebAssembly.Instance(compiled).exports;
}

function outOfMemory() {
  return new DolzhytikError(OUT_OF_MEMORY, { cause: OUT_OF_MEMORY, offset: null, line: null });
}

/**
 * Copies bytes into the memory of an instance, and returns their address, or 0 where it has no
 * space for them.
 */
function passed(wasm, bytes) {
  const address = bytes.length < NONE ? wasm.dz_alloc(bytes.length) >>> 0 : 0;
  if (address !== 0) {
    new Uint8Array(wasm.memory.buffer).set(bytes, address);
  }
  return address;
}

/** Calls an instance, and returns what `read` makes of its block, or the error. */
function answer(wasm, read, name, bytes, words) {
  const address = passed(wasm, bytes);
  if (address === 0) {
    return outOfMemory();
  }
  const block = wasm[name](address, bytes.length, ...words) >>> 0;
  wasm.dz_free(address);
  if (block === 0) {
    return outOfMemory();
  }
  const result = new Block(wasm.memory.buffer, block).result(read);
  wasm.dz_free(block);
  return result;
}

/** Calls an instance that is idle, or a new one. */
function called(read, name, bytes, ...words) {
  const wasm = idle ?? newInstance();
  idle = null;
  const result = answer(wasm, read, name, bytes, words);
  // A call that was stopped, as by an exhausted stack, does not come here.
  idle = wasm;
  if (result instanceof DolzhytikError) {
    throw result;
  }
  return result;
}

// Blocks.

const decoder = new TextDecoder('utf-8', { ignoreBOM: true });

/** A block in the memory of an instance, which is read word by word. */
class Block {
  #bytes;
  #view;
  #at = 4;

  constructor(buffer, address) {
    const size = new DataView(buffer).getUint32(address, true);
    this.#bytes = new Uint8Array(buffer, address, size);
    this.#view = new DataView(buffer, address, size);
  }

  word() {
    this.#at += 4;
    return this.#view.getUint32(this.#at - 4, true);
  }

  optional() {
    const word = this.word();
    return word === NONE ? null : word;
  }

  text() {
    const size = this.optional();
    if (size === null) {
      return null;
    }
    this.#at += size;
    return decoder.decode(this.#bytes.subarray(this.#at - size, this.#at));
  }

  /** Returns what `read` makes of the block, or the error that the block is. */
  result(read) {
    if (this.word() === 0) {
      return read(this);
    }
    const [offset, line, cause, message] = [this.optional(), this.optional(), this.text(), this.text()];
    return new DolzhytikError(message, { cause, offset, line });
  }

  /** Copies the bytes up to the end. */
  rest() {
    try {
      return this.#bytes.slice(this.#at);
    } catch {
      return outOfMemory();
    }
  }
}

function rest(block) {
  return block.rest();
}

function section(block) {
  const [id, offset, size, items] = [block.word(), block.word(), block.word(), block.optional()];
  return { id, kind: KINDS[id] ?? 'unknown', name: block.text(), offset, size, items };
}

function sections(block) {
  return Array.from({ length: block.word() }, () => section(block));
}

function item(block) {
  return { offset: block.word(), size: block.word(), text: block.text() };
}

function itemsOf(block) {
  return Array.from({ length: block.word() }, () => item(block));
}

function dumped(block) {
  const list = Array.from({ length: block.word() }, () => {
    const it = item(block);
    it.fields = block.text();
    return it;
  });
  return { list, isCut: block.word() === 1 };
}

function json(block) {
  return JSON.parse(decoder.decode(block.rest()));
}

function checkBytes(module) {
  if (!(module instanceof Uint8Array)) {
    throw new TypeError('the module must be a Uint8Array');
  }
}

// What others call.

export function outline(module) {
  checkBytes(module);
  return called(sections, 'dz_outline', module);
}

export function list(module) {
  checkBytes(module);
  return called(sections, 'dz_list', module);
}

export function minimize(module, { dropOffsets = false } = {}) {
  checkBytes(module);
  return called(rest, 'dz_minimize', module, dropOffsets ? 1 : 0);
}

export function assemble(recipe) {
  if (typeof recipe !== 'string') {
    throw new TypeError('the recipe must be a string');
  }
  return called(rest, 'dz_assemble', new TextEncoder().encode(recipe));
}

export function checkIndex(index) {
  if (!Number.isInteger(index) || index < 0) {
    throw new RangeError('the index must be an integer that is not negative');
  }
}

export function items(module, index, limit = NONE) {
  checkBytes(module);
  checkIndex(index);
  if (!(limit >= 0)) {
    throw new RangeError('the limit must be a number that is not negative');
  }
  return called(itemsOf, 'dz_items', module, Math.min(index, NONE), Math.min(limit, NONE));
}

// What the other scripts of the package call.

/**
 * The items of a section up to the first that does not decode, each with its fields in JSON, and
 * whether there is such an item.
 */
export function itemsWithFields(module, index, limit = NONE) {
  checkBytes(module);
  return called(dumped, 'dz_dump', module, index, limit);
}

/**
 * The locals and instructions of a body without its size prefix, and the offset in the body and the
 * cause where they end early. An instruction is a list: offset, size, prefix, number, arguments.
 */
export function decodedBody(body, limit = NONE) {
  return called(json, 'dz_instructions', body, limit);
}

/** The minimal encoding of a module of one section, whatever offsets it holds. */
export function minimizeSection(module) {
  return called(rest, 'dz_minimize', module, 2);
}
