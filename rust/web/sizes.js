// The sizes of sections, functions and data segments.
import { list } from './calls.js';
import { entriesOfAll } from './dump.js';
import { Names, prefixOf } from './names.js';

export const HEADER = 8;

const byBytes = (a, b) => b.size - a.size;

/** The sections with their first byte and their size, the id and the size prefix included. */
export function wholeSections(sections) {
  let start = HEADER;
  return sections.map((section, index) => {
    const { id, kind, name, offset, size } = section;
    const whole = { number: index + 1, id, kind, name, offset: start, size: offset + size - start };
    start = offset + size;
    return whole;
  });
}

/** The functions with a body, or the data segments, with their names. */
export function sized(sections, names, id) {
  const space = id === 10 ? 'function' : 'data';
  const entries = sections.filter((section) => section.id === id).flatMap((section) => section.entries);
  return entries.map(({ index, offset, size }) => ({ index, name: names.of(space, index), offset, size }));
}

/** The groups of functions by the prefixes of their names, the largest first. */
export function groupsOf(functions) {
  const groups = new Map();
  for (const { name, size } of functions) {
    const prefix = name === null ? null : prefixOf(name);
    const group = groups.get(prefix) ?? { prefix, functions: 0, size: 0 };
    group.functions += 1;
    group.size += size;
    groups.set(prefix, group);
  }
  return [...groups.values()].sort(byBytes);
}

export function size(module) {
  const sections = entriesOfAll(module, list(module));
  const names = new Names(sections);
  const functions = sized(sections, names, 10).sort(byBytes);
  return {
    size: module.length,
    header: HEADER,
    sections: wholeSections(sections).sort(byBytes),
    functions,
    groups: groupsOf(functions),
    data: sized(sections, names, 11).sort(byBytes),
  };
}
