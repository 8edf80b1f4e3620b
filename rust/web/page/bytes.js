// The bytes of a section in hexadecimal.
import { make, moved, showPages } from './elements.js';
import { Rows } from './rows.js';

/** The rows on a page of bytes. Browsers limit the height of an element. */
const PAGE_ROWS = 65_536;

/** The bytes of a section. Rows begin at multiples of their width. */
export class ByteView {
  #bytes = new Uint8Array();
  #from = 0;
  #payload = 0;
  #to = 0;
  #page = 0;
  #width = 16;
  marked = { from: 0, to: 0 };
  spot = -1;

  constructor(element, pages, onChoose) {
    this.element = element;
    this.pages = pages;
    this.rows = new Rows(element, (row) => this.#row(this.#firstRow + row));
    element.addEventListener('click', ({ target }) => {
      if (target.dataset.offset) onChoose(Number(target.dataset.offset));
    });
    new ResizeObserver(() => this.#fit()).observe(element);
  }

  /**
   * Shows the bytes between two offsets. Those before the payload are the id and the size prefix.
   */
  show(bytes, from, payload, to) {
    Object.assign(this, { spot: -1, marked: { from: 0, to: 0 } });
    [this.#bytes, this.#from, this.#payload, this.#to] = [bytes, from, payload, to];
    this.#showPage(0);
  }

  /** Highlights bytes, and scrolls to the first. */
  mark(from, to) {
    this.marked = { from, to };
    this.spot = -1;
    this.reveal(from);
  }

  reveal(offset) {
    const row = Math.floor(offset / this.#width) - Math.floor(this.#from / this.#width);
    const page = Math.floor(row / PAGE_ROWS);
    if (page !== this.#page) this.#showPage(page);
    this.rows.reveal(row % PAGE_ROWS);
    this.rows.draw();
  }

  /** The number of the first row of the page, counted from offset 0. */
  get #firstRow() {
    return Math.floor(this.#from / this.#width) + this.#page * PAGE_ROWS;
  }

  #showPage(page) {
    this.#page = page;
    const count = Math.ceil(this.#to / this.#width) - Math.floor(this.#from / this.#width);
    const isEmpty = this.#from === this.#to;
    this.rows.show(isEmpty ? 0 : Math.min(PAGE_ROWS, count - page * PAGE_ROWS), 'No bytes.');
    const go = (to) => this.#showPage(to);
    showPages(this.pages, 'bytes', page, Math.ceil(count / PAGE_ROWS), go);
  }

  /** Makes rows of eight bytes where sixteen are too wide, and keeps what is marked in view. */
  #fit() {
    if (this.element.clientWidth === 0) return;
    const { from, to } = this.marked;
    const kept = this.spot >= 0 ? this.spot : from < to ? from : null;
    const top = Math.max(this.#from, (this.#firstRow + this.rows.top) * this.#width);
    const width = this.element.clientWidth >= 77 * this.#charWidth() ? 16 : 8;
    const isSame = width === this.#width;
    if (isSame && kept === null) return;
    this.#width = width;
    if (!isSame) this.#page = -1;
    this.reveal(kept ?? top);
  }

  #charWidth() {
    const probe = make('span', { textContent: '0'.repeat(100) });
    this.element.append(probe);
    const width = probe.getBoundingClientRect().width / 100;
    probe.remove();
    return width;
  }

  #row(row) {
    const first = row * this.#width;
    const line = make('div', { className: 'line' });
    line.append(make('span', { className: 'at', textContent: first.toString(16).padStart(8, '0') }));
    const offsets = Array.from({ length: this.#width }, (_, column) => first + column);
    line.append(...offsets.map((offset) => this.#cell(offset)), this.#characters(offsets));
    return line;
  }

  #isShown(offset) {
    return this.#from <= offset && offset < this.#to;
  }

  /** A byte in hexadecimal. */
  #cell(offset) {
    if (!this.#isShown(offset)) return make('b', { className: 'none' });
    const textContent = this.#bytes[offset].toString(16).padStart(2, '0');
    const cell = make('b', { className: this.#classAt(offset), textContent });
    cell.dataset.offset = offset;
    return cell;
  }

  /** Bytes as characters, with an element for each run of one class. */
  #characters(offsets) {
    const runs = [];
    for (const offset of offsets) {
      const className = this.#isShown(offset) ? this.#classAt(offset) : '';
      if (runs.at(-1)?.className !== className) runs.push({ className, textContent: '' });
      runs.at(-1).textContent += this.#character(offset);
    }
    return make('span', { className: 'ascii' }, ...runs.map((run) => make('span', run)));
  }

  #character(offset) {
    if (!this.#isShown(offset)) return ' ';
    const byte = this.#bytes[offset];
    return byte > 0x20 && byte < 0x7f ? String.fromCharCode(byte) : '·';
  }

  #classAt(offset) {
    if (offset === this.spot) return 'spot';
    if (offset >= this.marked.from && offset < this.marked.to) return 'on';
    return offset < this.#payload ? 'head' : '';
  }
}
