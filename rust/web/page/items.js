// The items of a section: sorted by index, size or name, and those that a search finds.
import { counted, escaped, hasModifier, hex, make, moved, number } from './elements.js';
import { Rows } from './rows.js';

const ORDERS = {
  index: null,
  size: (a, b) => b.size - a.size,
  name: (a, b) => (a.text < b.text ? -1 : a.text > b.text ? 1 : 0),
};

/** Whether an item is a function. It has the number of its instructions. */
export const isFunction = (item) => item?.count !== undefined;

/** The text of an item, and of a function the number of its instructions. */
export function titleOfItem(item) {
  return isFunction(item) ? `${item.text}: ${counted(item.count, 'instruction')}` : item.text;
}

export class ItemList {
  /** The position of the chosen item among all, or -1. */
  chosen = -1;
  items = [];
  /** The positions of the items that are shown, in their order. */
  #shown = [];
  #order = 'index';
  #search = '';
  #empty = ['', false];

  /** `onChoose` is called at a choice, and `onOpen` at Enter or a click. */
  constructor(element, { onChoose, onOpen }) {
    this.element = element;
    Object.assign(this, { onChoose, onOpen });
    this.rows = new Rows(element, (row) => this.#row(row));
    element.addEventListener('click', (event) => {
      const row = event.target.closest('.item');
      if (!row) return;
      this.choose(Number(row.dataset.index));
      this.onOpen(this.items[this.chosen]);
    });
    element.addEventListener('keydown', (event) => this.#key(event));
    new ResizeObserver(() => this.#keepInView()).observe(element);
  }

  show(items, text, isWaiting = false) {
    this.items = items;
    this.chosen = -1;
    this.#empty = [text, isWaiting];
    this.element.removeAttribute('aria-activedescendant');
    this.element.style.setProperty('--index', `${String(items.at(-1)?.index ?? 0).length}ch`);
    this.element.style.setProperty('--at', `${hex(items.at(-1)?.offset ?? 0).length}ch`);
    this.#arrange();
  }

  get count() {
    return this.#shown.length;
  }

  sort(order) {
    this.#order = order;
    this.#arrange();
    this.#keepInView();
  }

  search(text) {
    this.#search = text.trim().toLowerCase();
    this.#arrange();
    this.#keepInView();
  }

  #arrange() {
    const { items } = this;
    const words = this.#search;
    const isFound = ({ text, offset, index }) =>
      text.toLowerCase().includes(words) || String(index) === words || hex(offset) === words;
    this.#shown = items.map((_, at) => at);
    if (words) this.#shown = this.#shown.filter((at) => isFound(items[at]));
    const compare = ORDERS[this.#order];
    if (compare) this.#shown.sort((a, b) => compare(items[a], items[b]));
    const [text, isWaiting] = items.length ? [`No item has "${this.#search}".`, false] : this.#empty;
    this.rows.show(this.#shown.length, text, isWaiting);
  }

  /** Marks an item, and scrolls to it. */
  mark(at) {
    this.chosen = at;
    const row = this.#rowOf(at);
    if (row >= 0) this.rows.reveal(row);
    this.rows.draw();
    if (row >= 0) this.element.setAttribute('aria-activedescendant', `item-${at}`);
    else this.element.removeAttribute('aria-activedescendant');
  }

  #rowOf(at) {
    const isAsIs = this.#order === 'index' && !this.#search;
    return isAsIs || at < 0 ? at : this.#shown.indexOf(at);
  }

  choose(at) {
    this.mark(at);
    this.onChoose(this.items[at]);
  }

  /** The position of the smallest item with the byte at this offset, or -1. */
  indexAt(offset) {
    return this.items.reduce((best, item, at) => {
      const isIn = item.offset <= offset && offset < item.offset + item.size;
      return isIn && (best < 0 || item.size <= this.items[best].size) ? at : best;
    }, -1);
  }

  #row(shown) {
    const at = this.#shown[shown];
    const item = this.items[at];
    const row = make('div', { className: 'item', id: `item-${at}`, role: 'option', title: escaped(titleOfItem(item)) });
    row.dataset.index = at;
    row.setAttribute('aria-selected', at === this.chosen);
    row.setAttribute('aria-posinset', shown + 1);
    row.setAttribute('aria-setsize', this.#shown.length);
    row.append(make('span', { className: 'index', textContent: item.index }));
    row.append(make('span', { className: 'at', textContent: hex(item.offset) }));
    row.append(make('bdi', { className: 'text', textContent: escaped(item.text) }));
    row.append(make('span', { className: 'bytes-of', textContent: number(item.size) }));
    return row;
  }

  #keepInView() {
    const row = this.#rowOf(this.chosen);
    if (row >= 0) this.rows.reveal(row);
  }

  #key(event) {
    if (hasModifier(event)) return;
    if (event.key === 'Enter' && this.chosen >= 0) {
      event.preventDefault();
      this.onOpen(this.items[this.chosen], true);
      return;
    }
    const row = this.#rowOf(this.chosen);
    const to = moved(event.key, row, this.#shown.length, this.rows.inView);
    if (to === null || to < 0) return;
    event.preventDefault();
    this.choose(this.#shown[to]);
  }
}
