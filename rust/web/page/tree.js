// The parts of the module as nodes of a treemap.
import { labelOf } from '../names.js';
import { escaped } from './elements.js';
import { functionName, functionsIn, kindClass, shortName, state, wholeSize } from './state.js';

/** The hue of the n-th group, so that neighbours differ. */
const hueClass = (index) => `kind hue-${index % 8}`;

/**
 * A function or data segment as a node. `its` has functions of the part: its texts are made when they
 * are shown, since there may be very many.
 */
class PartNode {
  constructor(part, kind, its) {
    this.part = part;
    this.kind = kind;
    this.size = part.size;
    this.its = its;
  }

  get label() {
    return this.its.label(this.part);
  }

  get title() {
    return this.its.title(this.part);
  }

  open() {
    this.its.open(this.part);
  }
}

const segmentName = ({ index, name }) => (name === null ? `data ${index}` : escaped(name));

/** Functions as nodes: in groups by the prefixes of their names, if there are any. */
function functionNodes(functions, open) {
  const groups = new Map();
  for (const it of functions) {
    let group = groups.get(it.prefix);
    if (group === undefined) groups.set(it.prefix, (group = { prefix: it.prefix, members: [], size: 0 }));
    group.members.push(it);
    group.size += it.size;
  }
  const sums = [...groups.values()].sort((a, b) => b.size - a.size);
  const label = (it) => (it.name === null ? functionName(it) : escaped(labelOf(it.name)));
  const its = { label, title: functionName, open };
  const node = (kind) => (it) => new PartNode(it, kind, its);
  if (sums.length === 1) return functions.map(node(hueClass(0)));
  return sums.map(({ prefix, members, size }, index) => {
    const groupLabel = prefix === null ? 'without a prefix' : `${escaped(prefix)}::*`;
    return { label: groupLabel, size, kind: hueClass(index), children: () => members.map(node(hueClass(index))) };
  });
}

function segmentNodes(data, open) {
  const its = { label: segmentName, title: segmentName, open };
  return data.map((it) => new PartNode(it, 'kind kind-data', its));
}

/** The node of the module. */
export function treeOf({ openSection, openFunction, openItem }) {
  const { file, parts } = state;
  const node = (section, index) => {
    const base = { label: shortName(section), size: wholeSize(section), kind: kindClass(section) };
    const functions = functionsIn(section);
    if (functions.length) return { ...base, children: () => functionNodes(functions, ({ index: of }) => openFunction(of)) };
    const hasSegments = section.id === 11 && parts?.data.length > 1;
    if (hasSegments) return { ...base, children: () => segmentNodes(parts.data, ({ offset }) => openItem(offset)) };
    return { ...base, open: () => openSection(index) };
  };
  const nodes = file.sections.map(node);
  return { label: file.name, size: file.bytes.length, kind: '', children: () => nodes };
}
