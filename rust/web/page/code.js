// The instructions of a function, with their relocations.
import { partsOf } from '../operands.js';
import { byId, counted, escaped, hasModifier, hex, make, moved, number } from './elements.js';
import { Rows } from './rows.js';

const OPENING = ['block', 'loop', 'if', 'try', 'try_table'];
const MIDDLE = ['else', 'catch', 'catch_all'];
const CLOSING = ['end', 'delegate'];
/** The deepest block whose depth is shown. */
const MOST_DEPTH = 24;

/** How many blocks each instruction is in. */
function depthsOf(instructions) {
  let depth = 0;
  return instructions.map(({ name }) => {
    if (CLOSING.includes(name)) depth = Math.max(0, depth - 1);
    const its = MIDDLE.includes(name) ? Math.max(0, depth - 1) : depth;
    if (OPENING.includes(name)) depth += 1;
    return Math.min(its, MOST_DEPTH);
  });
}

/** A line for each instruction, and one below it for each of its relocations. */
function linesOf(instructions) {
  const depths = depthsOf(instructions);
  return instructions.flatMap(({ relocations = [], ...it }, index) => {
    const depth = depths[index];
    const below = relocations.map((each) => ({ ...each, depth: depth + 1, isRelocation: true }));
    return [{ ...it, depth }, ...below];
  });
}

export class CodeView {
  #lines = [];
  #names = new Map();
  chosen = -1;

  /** `onChoose` is called with the chosen instruction or relocation, and its text. */
  constructor(element, onChoose) {
    this.element = element;
    this.onChoose = onChoose;
    this.rows = new Rows(element, (row) => this.#row(row));
    element.addEventListener('click', (event) => {
      const row = event.target.closest('.instruction');
      if (row && !event.target.closest('a')) this.choose(Number(row.dataset.index));
    });
    element.addEventListener('keydown', (event) => this.#key(event));
  }

  show({ instructions, names }, text) {
    [this.#lines, this.#names, this.chosen] = [linesOf(instructions), names, -1];
    this.element.removeAttribute('aria-activedescendant');
    this.element.setAttribute('aria-rowcount', this.#lines.length);
    this.element.style.setProperty('--at', `${hex(instructions.at(-1)?.offset ?? 0).length}ch`);
    this.rows.show(this.#lines.length, text);
  }

  choose(index) {
    this.mark(index);
    this.onChoose(this.#lines[index], byId(`instruction-${index}`).querySelector('.text').textContent);
  }

  mark(index) {
    this.chosen = index;
    if (index >= 0) this.rows.reveal(index);
    this.rows.draw();
    if (index >= 0) this.element.setAttribute('aria-activedescendant', `instruction-${index}`);
    else this.element.removeAttribute('aria-activedescendant');
  }

  /** The position of the instruction with the byte at an offset, or -1. */
  indexAt(offset) {
    return this.#lines.findIndex((it) => !it.isRelocation && it.offset <= offset && offset < it.offset + it.size);
  }

  #row(index) {
    const it = this.#lines[index];
    const className = it.isRelocation ? 'instruction relocation' : 'instruction';
    const row = make('div', { className, id: `instruction-${index}`, role: 'row' });
    row.dataset.index = index;
    row.setAttribute('aria-rowindex', index + 1);
    row.setAttribute('aria-selected', index === this.chosen);
    row.append(make('span', { className: 'at', role: 'gridcell', textContent: hex(it.offset) }));
    const code = make('span', { className: 'text', role: 'gridcell' });
    code.style.paddingLeft = `${2 * it.depth}ch`;
    const operands = it.isRelocation ? this.#target(it) : this.#operands(it);
    code.append(make('span', { className: 'opcode', textContent: it.name }), ...operands);
    row.append(code);
    return row;
  }

  #operands({ operands }) {
    return operands.flatMap((operand) => {
      const parts = partsOf(operand);
      return parts.length ? [' ', ...parts.flatMap((part) => this.#part(part))] : [];
    });
  }

  /** The symbol or type of a relocation, and the addend with its sign. */
  #target({ target, addend }) {
    const sum = addend === null ? '' : addend < 0 ? String(addend) : `+${addend}`;
    return [' ', ...this.#part(target), sum];
  }

  /** A text, or an index with its name, which is a link if it is that of a function. */
  #part(part) {
    if (typeof part === 'string') return [part];
    const { kind, index } = part;
    const of = kind === 'function' ? index : part.function;
    const name = this.#names.get(`${kind} ${index}`);
    const text = name ? `${index} <${escaped(name)}>` : String(index);
    if (of !== undefined) return [make('a', { href: `#function=${of}`, textContent: text, tabIndex: -1 })];
    return name ? [`${index} `, make('span', { className: 'entry', textContent: `<${escaped(name)}>` })] : [text];
  }

  #key(event) {
    if (hasModifier(event)) return;
    if (event.key === 'Enter' && this.chosen >= 0) {
      byId(`instruction-${this.chosen}`)?.querySelector('a')?.click();
      return;
    }
    const to = moved(event.key, this.chosen, this.#lines.length, this.rows.inView);
    if (to === null || to < 0) return;
    event.preventDefault();
    this.choose(to);
  }
}

/** The function in a line: its size, and how much of it is listed. */
export function codeFacts({ size, count }, { instructions, error }) {
  const shown = instructions.length < count ? `the first ${number(instructions.length)} of ` : '';
  const facts = [`${shown}${counted(count ?? instructions.length, 'instruction')}`, counted(size, 'byte')];
  return error ? `${facts.join(' · ')} · ${error.cause} at ${hex(error.offset)}` : facts.join(' · ');
}
