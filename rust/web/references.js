// The indices of sections that custom sections of object files hold.
import { Indices, entriesOf } from './dump.js';

/** The kind of a section in a COMDAT group. */
const COMDAT_SECTION = 5;
/** The subsections of `dylink.0` that the tool conventions have. */
const DYLINK_IDS = [1, 2, 3, 4, 5];

export const isOfRelocations = ({ name }) => name !== null && name.startsWith('reloc.');

/**
 * The section with its items if it holds indices of others. That of relocations is cut only if their
 * section does not decode.
 */
export function withEntries(module, section, index) {
  if (isOfRelocations(section)) {
    const { entries } = entriesOf(module, section, index, new Indices(), 1);
    return { ...section, entries, isCut: entries.length === 0 };
  }
  const holds = section.id === 0 && ['linking', 'dylink.0'].includes(section.name);
  const found = holds ? entriesOf(module, section, index, new Indices()) : { entries: [], isCut: false };
  return { ...section, ...found };
}

/** The index of the section that relocations are of, or undefined. */
export const target = (section) => (isOfRelocations(section) ? section.entries[0]?.section : undefined);

/** Whether a section has a subsection of an unknown id, which may hold any indices and offsets. */
export function hasUnknownSubsection({ entries, name }) {
  return entries.some(({ subsection: id }) => id !== undefined && !(name === 'dylink.0' && DYLINK_IDS.includes(id)));
}

/** The indices of the sections that relocations are of, or that are symbols. */
export function sectionIndices(section) {
  const symbols = section.entries.flatMap((it) => it.symbols ?? []).filter((it) => it?.kind === 'section');
  const its = target(section);
  return [...(its === undefined ? [] : [its]), ...symbols.map((it) => it.index)];
}

/** The highest index that a section holds, or -1. What does not decode may hold any. */
export function highestIndex(section) {
  if (section.isCut || hasUnknownSubsection(section)) return Infinity;
  const members = section.entries.flatMap((it) => it.comdats ?? []).flatMap((group) => group.members);
  const grouped = members.filter(({ kind }) => kind === COMDAT_SECTION).map((it) => it.index);
  return [...sectionIndices(section), ...grouped].reduce((a, b) => Math.max(a, b), -1);
}
