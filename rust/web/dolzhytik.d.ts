// The library `dom` declares these. Without it they are empty here.
declare global {
  namespace WebAssembly {
    interface Module {}
  }
  interface Response {}
  interface URL {}
}

/** A section of a module. */
export interface Section {
  /** The section id. */
  id: number;
  /**
   * The kind that the id stands for: `custom`, `type`, `import`, `function`, `table`, `memory`,
   * `global`, `export`, `start`, `element`, `code`, `data`, `data count`, `tag` or `unknown`.
   */
  kind: string;
  /** The name of a custom section; null if it has none, and in other sections. */
  name: string | null;
  /** The offset of the payload from the start of the module, in bytes. */
  offset: number;
  /** The size of the payload, in bytes. */
  size: number;
  /**
   * The number of items; null if the payload does not decode, and in custom and unknown sections,
   * whose items are not counted. A recursion group of types is one item, and so is a group of
   * imports.
   */
  items: number | null;
}

/** An item of a section. */
export interface Item {
  /** The offset from the start of the module, in bytes. */
  offset: number;
  /** The size, in bytes. A function body has its size prefix. */
  size: number;
  /**
   * What the bytes decode to, for the most part in the WebAssembly text format. Later versions may
   * change it.
   */
  text: string;
}

export interface MinimizeOptions {
  /**
   * Leaves out the custom sections that hold offsets: `linking`, `reloc.*`, `.debug_*`,
   * `.gdb_index`, `.apple_*`, `metadata.code.*`, `external_debug_info`, `build_id` and
   * `sourceMappingURL`.
   */
  dropOffsets?: boolean;
  /**
   * Keeps code, data and the sections that offsets point into byte for byte, so that all offsets
   * stay right. With `dropOffsets` it is an error.
   */
  keepCode?: boolean;
}

/**
 * Why a call fails. If memory is refused, the cause is `out of memory`, and offset and line are
 * null if no section or line needs it.
 */
export class DolzhytikError extends Error {
  /**
   * What the program `dolzhytik` reports, without the name of the file; `dropOffsets` for
   * `--drop-offsets`.
   */
  message: string;
  /** The message without the section and the offset, or without the line. */
  cause: string;
  /** The offset of the section, at its id, or 0 for the header of the module; null for recipes. */
  offset: number | null;
  /** The line of the recipe, counted from 1, or 0 behind the last line; null for modules. */
  line: number | null;
}

/**
 * Returns the sections of a module, whether or not their payloads decode.
 * @throws {DolzhytikError} if the bytes do not begin with the header, or do not have all bytes of a
 * section.
 */
export function outline(module: Uint8Array): Section[];

/**
 * Returns what {@link outline} returns, if each section decodes. A section of an unknown id always
 * does, and a custom section of an unknown name does if it has a name.
 * @throws {DolzhytikError} if a payload does not decode, or as {@link outline} does.
 */
export function list(module: Uint8Array): Section[];

/**
 * Returns the minimal encoding of a module. A section that does not decode is kept, byte for byte.
 * @throws {DolzhytikError} if offsets in custom sections would no longer fit, or as {@link outline}
 * does.
 */
export function minimize(module: Uint8Array, options?: MinimizeOptions): Uint8Array;

/**
 * Returns the module of a recipe of version 1 or 2: lines that each add an item to a section.
 * @throws {DolzhytikError} if a line is faulty.
 */
export function assemble(recipe: string): Uint8Array;

/**
 * Returns the items of the section at this index of the outline, or the first ones, up to a limit.
 * There are none if the section does not decode, and in custom sections but `name`, `producers`,
 * `linking`, `reloc.*`, branch hints and compilation hints.
 * @throws {DolzhytikError} as {@link outline} does.
 * @throws {RangeError} if the index is no integer, or either number is negative.
 */
export function items(module: Uint8Array, index: number, limit?: number): Item[];

/** Bytes of a module: the offset from its start, and the size. */
export interface Range {
  offset: number;
  size: number;
}

/** A run of locals of one type. */
export interface Locals {
  count: number;
  type: string;
}

/** An index, and what it is the index of. */
export interface Index {
  kind: 'function' | 'table' | 'memory' | 'global' | 'tag' | 'type' | 'element' | 'data' | 'local' | 'label' | 'field' | 'lane';
  index: number;
}

/** A clause of `try_table`, or a handler. */
export interface Clause {
  kind: 'catch' | 'catch_ref' | 'catch_all' | 'catch_all_ref' | 'label' | 'switch';
  tag: number | null;
  label: number | null;
}

/** An operand of an instruction. Types are in the text format, bits and bytes in hexadecimal. */
export type Operand =
  | Index
  | { kind: 'length' | 'i32'; value: number }
  | { kind: 'i64'; value: bigint }
  | { kind: 'f32' | 'f64'; value: number; bits: string }
  | { kind: 'v128'; bytes: string }
  | {
      kind: 'memory argument';
      of: Index;
      ordering: 'acq_rel' | 'seq_cst' | null;
      /** A bigint if it is above 2 to the power of 53. */
      offset: number | bigint;
      align_log2: number;
    }
  | { kind: 'lanes' | 'labels'; indices: number[] }
  | { kind: 'block type'; type: number }
  | { kind: 'block type'; results: string[] }
  | { kind: 'heap type' | 'reference type'; type: string }
  | { kind: 'result types'; types: string[] }
  | { kind: 'ordering'; ordering: 'acq_rel' | 'seq_cst' }
  | { kind: 'catch clauses' | 'handlers'; clauses: Clause[] };

/** An instruction, with its name in the text format and its operands in the order of that. */
export interface Instruction extends Range {
  name: string;
  operands: Operand[];
}

/** A function that has a body. */
export interface FunctionBody extends Item {
  /** The index of the function. */
  index: number;
  locals: Locals[];
  instruction_count: number;
  /** The body without its size prefix. */
  body: Range;
  instructions?: Instruction[];
}

/**
 * An item with its fields, which depend on the section:
 *
 * - types: `index`, `form` (`func`, `struct`, `array`, `cont`), and of functions `params` and
 *   `results`
 * - imports: `module`, `name`, `kind`, `index`, and the fields of what is imported
 * - functions: `index`, `type`
 * - tables, memories: `index`, `address`, `minimum`, `maximum`, `shared`; of tables `type`, `init`
 * - globals: `index`, `type`, `mutable`, `shared`, `init`
 * - exports: `name`, `kind`, `index`
 * - start: `function`
 * - element segments: `index`, `mode`, `table`, `start`, `type`, `functions` or `expressions`
 * - code: {@link FunctionBody}
 * - data segments: `index`, `mode`, `memory`, `start`, `bytes` as a {@link Range}
 * - names: `space`, `index`, `name`; of names in a function or type also `of`, its index
 * - relocations: after `section`, the index of their section, each has `type` by LLVM's name,
 *   `section_offset`, `target` as a symbol or type with its index, and `addend` or null
 *
 * Types and constant expressions are in the text format. A member of a group has the offset and the
 * size of the group. A limit above 2 to the power of 53 is rounded, and such an addend is a bigint.
 */
export interface Entry extends Item {
  [field: string]: any;
}

export interface DumpedSection extends Section {
  entries: Entry[];
}

/**
 * Returns the sections with their items and the instructions of the functions, or without
 * instructions.
 * @throws {DolzhytikError} as {@link list} does.
 */
export function dump(module: Uint8Array, options?: { instructions?: boolean }): DumpedSection[];

/**
 * Returns the function of this index, with its instructions.
 * @throws {DolzhytikError} if the module has no body for it, or it does not decode, or as
 * {@link outline} does.
 * @throws {RangeError} if the index is no integer, or is negative.
 */
export function disassemble(module: Uint8Array, index: number): FunctionBody & { instructions: Instruction[] };

/** A function with a body or a data segment. The size of a body has its size prefix. */
export interface SizedPart extends Range {
  index: number;
  name: string | null;
}

/** Sizes of a module in bytes. Each list has the largest part first. */
export interface Sizes {
  size: number;
  /** The size of the header. */
  header: number;
  /** The sections with their ids and size prefixes. */
  sections: (Range & { number: number; id: number; kind: string; name: string | null })[];
  functions: SizedPart[];
  /** The functions by the prefixes of their names: the crate, or the namespace or class of C++. */
  groups: { prefix: string | null; functions: number; size: number }[];
  data: SizedPart[];
}

/**
 * Returns the sizes of the sections, functions and data segments. Names are from the name section,
 * symbols, exports and imports.
 * @throws {DolzhytikError} as {@link list} does.
 */
export function size(module: Uint8Array): Sizes;

export interface StripOptions {
  /** Removes the custom sections of these names. */
  names?: string[];
  /** Removes DWARF, with its relocations. */
  debug?: boolean;
  /** Removes all custom sections, also those that a linker needs. */
  all?: boolean;
  /** Keeps the custom sections of these names, with their relocations. */
  keep?: string[];
}

/**
 * Returns the module without custom sections: all of them if no option says which. If a section
 * that stays holds indices of sections, an empty section is in the place of a removed one.
 * @throws {DolzhytikError} if a linker needs a removed section, if a section that stays would
 * become wrong, or as {@link outline} does.
 */
export function strip(module: Uint8Array, options?: StripOptions): Uint8Array;

/** Where `dolzhytik.wasm` is from: compiled, its bytes, a response of `fetch`, or an address. */
export type Source = WebAssembly.Module | ArrayBufferView | ArrayBuffer | Response | URL | string;

/**
 * Loads `dolzhytik.wasm`: from the source, or, unless it is loaded, from the folder of the script.
 * Other calls need it in a bundle for browsers. In Node, and in a page that imports `dolzhytik.js`,
 * the import has loaded the file already.
 * @throws if the source does not load or compile. A later call tries again.
 */
export function init(source?: Source | PromiseLike<Source>): Promise<void>;
