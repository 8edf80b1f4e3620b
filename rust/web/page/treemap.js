// A treemap: rectangles whose areas are sizes. A node has a label, a size, and perhaps children, or
// what opens it.
import { hasModifier, make, moved, number } from './elements.js';

/** The most rectangles of a level, and the least area of one, in square pixels. */
const [MOST_RECTANGLES, LEAST_AREA] = [600, 20];
/** The most rectangles for nodes that are too small, and how many nodes each has at least. */
const [MOST_CHUNKS, LEAST_CHUNK] = [30, 200];
/** The least area of a rectangle that shows its children, and the most that it shows. */
const [NESTED_AREA, MOST_NESTED] = [6000, 150];
const HEAD = 20;

/** The worst ratio of sides of rectangles of these areas in a row along a side. */
function worst(least, most, sum, side) {
  const square = sum * sum;
  return Math.max((side * side * most) / square, square / (side * side * least));
}

/** The end of the row that begins at an area: as long as its ratios get better. */
function endOfRow(areas, from, side) {
  let [end, sum, before] = [from, 0, Infinity];
  for (; end < areas.length; end += 1) {
    const ratio = worst(areas[end], areas[from], sum + areas[end], side);
    if (ratio > before) break;
    [sum, before] = [sum + areas[end], ratio];
  }
  return { end, sum };
}

/** The rectangles of areas, the largest first, that fill a box. */
export function squarified(areas, box) {
  const boxes = [];
  let { x, y, width, height } = box;
  for (let from = 0; from < areas.length; ) {
    const isWide = width >= height;
    const { end, sum } = endOfRow(areas, from, Math.min(width, height));
    const thickness = sum / Math.max(1e-9, Math.min(width, height));
    let at = isWide ? y : x;
    for (const area of areas.slice(from, end)) {
      const length = area / Math.max(1e-9, thickness);
      if (isWide) boxes.push({ x, y: at, width: thickness, height: length });
      else boxes.push({ x: at, y, width: length, height: thickness });
      at += length;
    }
    if (isWide) [x, width] = [x + thickness, width - thickness];
    else [y, height] = [y + thickness, height - thickness];
    from = end;
  }
  return boxes;
}

/** Nodes that are too small as one, or as a few if there are many. */
function chunksOf(nodes) {
  const count = Math.max(1, Math.min(MOST_CHUNKS, Math.floor(nodes.length / LEAST_CHUNK)));
  const length = Math.ceil(nodes.length / count);
  return Array.from({ length: count }, (_, index) => {
    const its = nodes.slice(index * length, (index + 1) * length);
    const size = its.reduce((sum, it) => sum + it.size, 0);
    const label = `${number(its.length)} others of at most ${number(its[0]?.size ?? 0)} bytes`;
    return { label, size, kind: its[0]?.kind, children: () => its };
  }).filter(({ size }) => size > 0);
}

/** The largest nodes, and some for the others if there are too many or too small ones. */
function visible(nodes, area, most) {
  const sorted = [];
  let sum = 0;
  for (const node of nodes) {
    if (node.size > 0) sorted.push(node);
    sum += node.size;
  }
  sorted.sort((a, b) => b.size - a.size);
  const isSmall = ({ size }) => (size / sum) * area < LEAST_AREA;
  const small = sorted.findIndex(isSmall);
  const count = Math.min(small < 0 ? sorted.length : small, most);
  if (sorted.length - count < 2) return { nodes: sorted, sum };
  const rest = chunksOf(sorted.slice(count));
  return { nodes: [...sorted.slice(0, count), ...rest].sort((a, b) => b.size - a.size), sum };
}

function placed(nodes, box, most = MOST_RECTANGLES) {
  const area = box.width * box.height;
  const { nodes: shown, sum } = visible(nodes, area, most);
  const boxes = squarified(shown.map(({ size }) => (size / sum) * area), box);
  return shown.map((node, index) => ({ node, box: boxes[index] }));
}

function setBox({ style }, { x, y, width, height }) {
  const less = (length) => `${Math.max(1, length - 1)}px`;
  Object.assign(style, { left: `${x}px`, top: `${y}px`, width: less(width), height: less(height) });
}

const labelOf = ({ label }) => make('span', { className: 'label', textContent: label });

export class Treemap {
  /** The nodes from the root to the one that is shown. */
  #path = [];
  #width = 0;

  /** `describe` returns the label of a node for people who do not see its area. */
  constructor(element, crumbs, describe) {
    Object.assign(this, { element, crumbs, describe });
    element.addEventListener('click', (event) => {
      const cell = event.target.closest('.cell');
      if (cell) this.#open(cell.node);
    });
    element.addEventListener('keydown', (event) => this.#key(event));
    new ResizeObserver(() => {
      if (element.clientWidth !== this.#width) this.draw();
    }).observe(element);
  }

  show(root) {
    this.#path = [root];
    this.draw();
  }

  draw() {
    const { clientWidth: width, clientHeight: height } = this.element;
    this.#width = width;
    if (!this.#path.length || !width) return;
    const box = { x: 0, y: 0, width, height };
    const cells = placed(this.#path.at(-1).children(), box).map((it) => this.#cell(it));
    if (cells.length) cells[0].tabIndex = 0;
    this.element.replaceChildren(...cells);
    this.#showPath();
  }

  #cell({ node, box }) {
    const label = this.describe(node);
    const cell = make('div', { className: `cell ${node.kind}`, role: 'option', tabIndex: -1, title: label });
    cell.setAttribute('aria-label', label);
    cell.setAttribute('aria-selected', false);
    cell.node = node;
    setBox(cell, box);
    if (box.width > 34 && box.height > 17) cell.append(labelOf(node));
    if (node.children && box.width * box.height > NESTED_AREA) cell.append(...this.#nested(node, box));
    return cell;
  }

  /** The children of a node, which are shown in it, and not chosen. */
  #nested(node, { width, height }) {
    const inner = { x: 2, y: HEAD, width: width - 5, height: height - HEAD - 3 };
    if (inner.width < 20 || inner.height < 12) return [];
    return placed(node.children(), inner, MOST_NESTED).map(({ node: child, box }) => {
      const part = make('div', { className: `part ${child.kind}`, 'aria-hidden': true });
      setBox(part, box);
      if (box.width > 44 && box.height > 17) part.append(labelOf(child));
      return part;
    });
  }

  #open(node) {
    if (!node.children) return node.open?.();
    this.#path.push(node);
    this.draw();
    return this.element.querySelector('.cell')?.focus({ preventScroll: true });
  }

  /** Goes out to a node of the path. */
  #leave(count) {
    const from = this.#path[count];
    if (!from) return;
    this.#path.length = count;
    this.draw();
    const cells = [...this.element.children];
    const cell = cells.find(({ node }) => node === from || node.label === from.label) ?? cells[0];
    this.#focus(cell);
  }

  #focus(cell) {
    this.element.querySelector('[tabindex="0"]')?.setAttribute('tabindex', -1);
    cell.tabIndex = 0;
    cell.focus({ preventScroll: true });
  }

  #showPath() {
    const crumbs = this.#path.map((node, index) => {
      if (index === this.#path.length - 1) return make('span', { textContent: node.label, 'aria-current': 'true' });
      const button = make('button', { type: 'button', className: 'link', textContent: node.label });
      button.addEventListener('click', () => this.#leave(index + 1));
      return button;
    });
    const separator = () => make('span', { textContent: '›', 'aria-hidden': true });
    const separated = crumbs.flatMap((crumb, index) => (index ? [separator(), crumb] : [crumb]));
    this.crumbs.replaceChildren(...separated);
  }

  #key(event) {
    const cells = [...this.element.children];
    const index = cells.indexOf(event.target);
    if (hasModifier(event) || index < 0) return;
    if (event.key === 'Escape' || event.key === 'Backspace') this.#leave(this.#path.length - 1);
    else if (event.key === 'Enter' || event.key === ' ') this.#open(cells[index].node);
    else {
      const to = moved(event.key, index, cells.length, 10);
      if (to === null) return;
      this.#focus(cells[to]);
    }
    event.preventDefault();
  }
}
