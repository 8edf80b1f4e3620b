// The relocations of functions, as `dolzhytik dump -r` has them.
import { spaceOf } from '../names.js';
import { isOfRelocations } from '../references.js';

const CODE = 10;
/** The flag of a symbol that the module does not define. */
const UNDEFINED = 0x10;

const entriesOf = (sections) => sections.flatMap(({ entries }) => entries);

/** How many bytes a relocation patches, by its type. */
function patchedSize(type) {
  const is64 = type.endsWith('64');
  if (type.includes('LEB')) return is64 ? 10 : 5;
  return is64 ? 8 : 4;
}

/** The names of imports, by their kind and index. */
function importsOf(sections) {
  const imports = entriesOf(sections.filter(({ id }) => id === 2));
  return new Map(imports.map(({ kind, index, module, name }) => [`${spaceOf(kind)} ${index}`, `${module}.${name}`]));
}

export class Relocations {
  #sections;
  #symbols;
  #imports;
  /** Those of code, in the order of their offsets. */
  #patches;

  /**
   * Takes the sections of a module with the entries of imports and symbols. `entriesAt` decodes the
   * entries of the section at an index, up to a limit.
   */
  constructor(sections, entriesAt) {
    this.#sections = sections;
    const linking = entriesOf(sections.filter(({ id, name }) => id === 0 && name === 'linking'));
    this.#symbols = linking.flatMap(({ symbols = [] }) => symbols);
    this.#imports = importsOf(sections);
    const all = sections.flatMap((section, index) => {
      if (section.id !== 0 || !isOfRelocations(section)) return [];
      const [head] = entriesAt(index, 1);
      const code = sections[head?.section];
      return code?.id === CODE ? entriesAt(index).slice(1).map((entry) => this.#patch(code, entry)) : [];
    });
    this.#patches = all.sort((a, b) => a.offset - b.offset);
  }

  #patch({ offset }, { type, section_offset: at, target, addend }) {
    return { offset: offset + at, size: patchedSize(type), name: type, target: this.#named(target), addend };
  }

  /** A symbol with the function that it is, or a type. */
  #named(target) {
    const symbol = target.kind === 'symbol' ? this.#symbols[target.index] : null;
    return symbol?.kind === 'function' ? { ...target, function: symbol.index } : target;
  }

  /** The name of a symbol: its own, or that of its import or section. */
  nameOf(index) {
    const symbol = this.#symbols[index];
    if (!symbol) return null;
    if (symbol.kind === 'section') return this.#sections[symbol.index]?.name ?? null;
    const isUndefined = (symbol.flags & UNDEFINED) !== 0;
    return symbol.name ?? (isUndefined ? this.#imports.get(`${symbol.kind} ${symbol.index}`) ?? null : null);
  }

  /**
   * Gives the instructions of a function the relocations before their ends, from the first byte of
   * the function on.
   */
  among(instructions, begin) {
    let next = this.#firstFrom(begin);
    return instructions.map((it) => {
      const first = next;
      while (this.#patches[next]?.offset < it.offset + it.size) next += 1;
      return first === next ? it : { ...it, relocations: this.#patches.slice(first, next) };
    });
  }

  /** The position of the first at an offset or after it. */
  #firstFrom(offset) {
    let [low, high] = [0, this.#patches.length];
    while (low < high) {
      const middle = (low + high) >> 1;
      if (this.#patches[middle].offset < offset) low = middle + 1;
      else high = middle;
    }
    return low;
  }
}
