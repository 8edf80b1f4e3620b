// Lists of rows, of which those in view are elements.
import { make } from './elements.js';

/** The rows that are made above and below those in view. */
const SPARE_ROWS = 8;

/** Rows of one height, of which those in view are made. */
export class Rows {
  #first = 0;
  #last = 0;
  #count = 0;
  #height = 0;

  constructor(scroller, makeRow) {
    this.scroller = scroller;
    this.makeRow = makeRow;
    this.made = make('div', { className: 'made', role: 'presentation' });
    this.canvas = make('div', { className: 'canvas', role: 'presentation' }, this.made);
    scroller.append(this.canvas);
    scroller.addEventListener('scroll', () => this.#drawWhereNeeded());
    new ResizeObserver(() => this.#resized()).observe(scroller);
  }

  /** The height of a row. It is measured when rows are shown: it takes the style of the page. */
  get height() {
    if (!this.#height) this.#height = parseFloat(getComputedStyle(this.scroller).lineHeight) || 0;
    return this.#height || 1;
  }

  /** How many rows are in view. */
  get inView() {
    return Math.max(1, Math.floor(this.scroller.clientHeight / this.height));
  }

  get top() {
    return Math.floor(this.scroller.scrollTop / this.height);
  }

  /** Shows this number of rows, or a text where it is 0. */
  show(count, text = '', isWaiting = false) {
    this.#count = count;
    this.#height = 0;
    this.canvas.style.height = count ? `${count * this.height}px` : '100%';
    this.scroller.scrollTop = 0;
    this.draw();
    if (!count) {
      this.made.style.transform = '';
      this.made.replaceChildren(make('p', { className: isWaiting ? 'blank waiting' : 'blank', textContent: text }));
    }
  }

  /** Replaces the rows that are made. */
  draw() {
    const end = this.top + this.inView + 2;
    this.#first = Math.max(0, this.top - SPARE_ROWS);
    this.#last = Math.min(this.#count, end + SPARE_ROWS);
    if (!this.#count) return;
    const rows = [];
    for (let row = this.#first; row < this.#last; row += 1) rows.push(this.makeRow(row));
    this.made.style.transform = `translateY(${this.#first * this.height}px)`;
    this.made.replaceChildren(...rows);
  }

  /**
   * Scrolls a row into view: by as little as possible where it is near, else to the upper third.
   */
  reveal(row) {
    const { height, scroller } = this;
    const { scrollTop, clientHeight } = scroller;
    const [first, last] = [row * height, (row + 1) * height - clientHeight];
    if (last <= scrollTop && scrollTop <= first) return;
    const isNear = last - 2 * height <= scrollTop && scrollTop <= first + 2 * height;
    const nearest = scrollTop > first ? first : last;
    scroller.scrollTop = isNear ? nearest : first - clientHeight / 3;
    this.#drawWhereNeeded();
  }

  #resized() {
    this.#height = 0;
    this.#drawWhereNeeded();
  }

  #drawWhereNeeded() {
    const isMade = this.top >= this.#first && this.top + this.inView + 1 <= this.#last;
    const isAll = this.#first === 0 && this.#last === this.#count;
    if (!isMade && !isAll) this.draw();
  }
}
