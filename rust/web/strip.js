// Removes custom sections, by the rules of `dolzhytik strip`.
import { DolzhytikError, outline } from './calls.js';
import { highestIndex, isOfRelocations, target, withEntries } from './references.js';
import { HEADER, wholeSections } from './sizes.js';

/** An empty custom section, `.objcopy.removed`, which keeps the indices of those after it right. */
const EMPTY = Uint8Array.from([0, 17, 16, ...new TextEncoder().encode('.objcopy.removed')]);
const isDebug = (name) => name.startsWith('.debug_') || name.startsWith('reloc..debug_');

/** Which sections the options remove and keep. */
class Choice {
  constructor({ names = [], debug = false, all = false, keep = [] }) {
    Object.assign(this, { names, debug, all, kept: keep });
  }

  /** Whether nothing says which sections to remove: all, but those that a linker needs. */
  get isDefault() {
    return !this.all && !this.debug && this.names.length === 0;
  }

  keeps(name) {
    return this.kept.some((kept) => name === kept || name === `reloc.${kept}`);
  }

  removes({ id, name }) {
    const isAll = this.all || this.isDefault;
    if (id !== 0) return false;
    // The name does not decode.
    if (name === null) return isAll;
    const isChosen = isAll || (this.debug && isDebug(name)) || this.names.includes(name);
    return isChosen && !this.keeps(name);
  }
}

function errorOf(section, cause) {
  const { number, kind, name, start } = section;
  const message = `section ${number} (${kind} ${JSON.stringify(name)}): ${cause}`;
  return new DolzhytikError(message, { cause, offset: start, line: null });
}

function linkerError(names) {
  const listed = names.map((name) => JSON.stringify(name)).join(', ');
  const cause = `strip would remove ${listed}, and no linker takes the module without them; `
    + 'debug removes only DWARF, and names only the sections of these names';
  return new DolzhytikError(cause, { cause, offset: null, line: null });
}

/** The names of removed sections that a linker needs: symbols, and relocations of what stays. */
function lostOf(sections, removed) {
  const losesTarget = (section) => removed[target(section)] === true;
  const isNeeded = (section) => section.name === 'linking' || (isOfRelocations(section) && !losesTarget(section));
  return sections.filter((section, index) => removed[index] && isNeeded(section)).map(({ name }) => name);
}

/** Why these sections cannot be removed, or null. */
function obstacle(sections, removed, choice) {
  const lost = lostOf(sections, removed);
  if (choice.isDefault && lost.length) return linkerError(lost);
  const first = removed.indexOf(true);
  if (first < 0) return null;
  const movesCode = sections.slice(first).some(({ id }) => id === 10);
  const whyNot = (section) => {
    if (section.name === 'sourceMappingURL' && movesCode) {
      return 'names a source map, which would be wrong, since the code would move; remove it too';
    }
    if (removed[target(section)]) return 'has the relocations of a section that would be removed; keep that too';
    const lacksSymbols = isOfRelocations(section) && lost.includes('linking');
    return lacksSymbols ? 'has relocations that need the symbols of "linking"; keep that section too' : null;
  };
  const broken = sections.find((section, index) => !removed[index] && whyNot(section) !== null);
  return broken ? errorOf(broken, whyNot(broken)) : null;
}

/** The bytes of all parts, one after another. */
export function joined(parts) {
  const bytes = new Uint8Array(parts.reduce((sum, part) => sum + part.length, 0));
  let at = 0;
  for (const part of parts) {
    bytes.set(part, at);
    at += part.length;
  }
  return bytes;
}

export function strip(module, options = {}) {
  const outlined = outline(module);
  const wholes = wholeSections(outlined);
  const sections = outlined.map((section, index) => {
    const { number, offset: start, size } = wholes[index];
    return { ...withEntries(module, section, index), number, start, whole: module.subarray(start, start + size) };
  });
  const choice = new Choice(options);
  const chosen = sections.map((section) => choice.removes(section));
  const removed = sections.map(
    (section, index) => chosen[index] || (!choice.keeps(section.name ?? '') && chosen[target(section)] === true),
  );
  const error = obstacle(sections, removed, choice);
  if (error) throw error;
  const staying = sections.filter((_, index) => !removed[index]);
  const highest = Math.max(-1, ...staying.map(highestIndex));
  const parts = sections.map(({ whole }, index) => {
    if (!removed[index]) return whole;
    return index <= highest ? EMPTY : new Uint8Array();
  });
  return joined([module.subarray(0, HEADER), ...parts]);
}
