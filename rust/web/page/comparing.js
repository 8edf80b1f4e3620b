// The sizes of two builds of a module, side by side. The worker compares them by the rules of
// `dolzhytik size OLD NEW`.
import { outline } from '../dolzhytik.js';
import { entriesOfAll } from '../dump.js';
import { Names } from '../names.js';
import { HEADER, sized, wholeSections } from '../sizes.js';

/** A build: its sections, functions and data segments, each with its size. */
function build(module) {
  const outlined = outline(module);
  const sections = entriesOfAll(module, outlined);
  const names = new Names(sections);
  const bytesOf = ({ offset, size }) => module.subarray(offset, offset + size);
  const functions = sized(sections, names, 10).map((it) => ({ ...it, bytes: bytesOf(it) }));
  return { size: module.length, sections: wholeSections(outlined), functions, data: sized(sections, names, 11) };
}

const change = (before, after) => {
  const { name, index, kind, number } = after ?? before;
  const [old, now] = [before?.size ?? null, after?.size ?? null];
  return { name, index, kind, number, before: old, after: now, change: (now ?? 0) - (old ?? 0) };
};

/** Matches parts by the keys in turn. A key of null matches nothing. */
function matched(before, after, keys) {
  const changes = [];
  let [old, now] = [before, after];
  for (const key of keys) {
    const waiting = grouped(old, key);
    const left = [];
    for (const part of now) {
      const its = key(part);
      const found = its === null ? undefined : waiting.get(its)?.shift();
      if (found) changes.push(change(found, part));
      else left.push(part);
    }
    const unmatched = new Set([...waiting.values()].flat());
    [old, now] = [old.filter((part) => unmatched.has(part)), left];
  }
  const removed = old.map((part) => change(part, null));
  return [...changes, ...now.map((part) => change(null, part)), ...removed];
}

function grouped(parts, key) {
  const groups = new Map();
  for (const part of parts) {
    const its = key(part);
    if (!groups.has(its)) groups.set(its, []);
    groups.get(its).push(part);
  }
  return groups;
}

/** Bytes as a text, which differs where they do. */
const latin = new TextDecoder('latin1');
const textOf = (bytes) => latin.decode(bytes);
const byChange = (a, b) => Math.abs(b.change) - Math.abs(a.change);

export function compared(oldModule, newModule) {
  const [old, now] = [build(oldModule), build(newModule)];
  const ofFunction = [
    ({ name, bytes }) => (name === null ? null : `${name}\0${textOf(bytes)}`),
    ({ name }) => name,
    ({ bytes }) => textOf(bytes),
  ];
  const ofSegment = [({ name }) => name, ({ name, index }) => (name === null ? index : null)];
  const ofSection = [({ id, name }) => `${id} ${name}`];
  return {
    before: old.size,
    after: now.size,
    header: HEADER,
    sections: matched(old.sections, now.sections, ofSection).sort(byChange),
    functions: matched(old.functions, now.functions, ofFunction).sort(byChange),
    data: matched(old.data, now.data, ofSegment).sort(byChange),
  };
}
