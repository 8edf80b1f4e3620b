// The bar and the table of sections.
import { byId, hex, make, moved, number, numberCell, showPages } from './elements.js';
import { kindClass, nameCell, shareOf, shortName, sizeLabel, state, titleOf, wholeSize } from './state.js';

/** The sections on a page of the tables. */
export const PAGE_SECTIONS = 500;
/** The most segments of the bar. */
const MOST_SEGMENTS = 60;

/** What compares sections in each order of the table. */
const ORDERS = {
  index: null,
  size: (a, b) => b.size - a.size,
  name: (a, b) => shortName(a).localeCompare(shortName(b), 'en'),
};

let handlers = {};
/** The indices of the sections in the order of the table, and its page. */
let order = [];
let page = 0;
let sortedBy = 'index';

// The bar.

/** The indexes of the largest sections: they get segments. */
function largest(sections) {
  const indexes = sections.map((_, index) => index);
  if (sections.length <= MOST_SEGMENTS) return new Set(indexes);
  return new Set(indexes.sort((a, b) => sections[b].size - sections[a].size).slice(0, MOST_SEGMENTS));
}

function segment(section, index) {
  const label = sizeLabel(titleOf(section), wholeSize(section));
  const className = `segment ${kindClass(section)}${section.isUndecoded ? ' undecoded' : ''}`;
  const element = make('div', { className, role: 'option', title: label, 'aria-label': label });
  element.dataset.index = index;
  element.style.flexGrow = wholeSize(section);
  element.append(make('span', { textContent: shortName(section), 'aria-hidden': true }));
  return element;
}

/** Shows segments for the largest sections, and one for each run of others. */
export function showBar() {
  const { sections, bytes } = state.file;
  const shown = largest(sections);
  const segments = [];
  let others = null;
  sections.forEach((section, index) => {
    if (shown.has(index)) {
      segments.push(segment(section, index));
      others = null;
      return;
    }
    if (!others) {
      const title = 'Small sections: see the table';
      others = make('div', { className: 'segment others', title, 'aria-hidden': true });
      segments.push(others);
    }
    others.style.flexGrow = Number(others.style.flexGrow) + wholeSize(section);
  });
  byId('bar').replaceChildren(...segments);
  byId('length').textContent = hex(bytes.length);
}

const segmentsOfBar = () => [...byId('bar').querySelectorAll('[role=option]')];

function markBar() {
  const segments = segmentsOfBar();
  segments.forEach((element) => {
    const isChosen = Number(element.dataset.index) === state.chosen;
    element.setAttribute('aria-selected', isChosen);
    element.tabIndex = isChosen ? 0 : -1;
  });
  if (segments.length && !segments.some(({ tabIndex }) => tabIndex === 0)) segments[0].tabIndex = 0;
  const section = state.file.sections[state.chosen];
  byId('share').textContent = `${shortName(section)}: ${shareOf(wholeSize(section))}`;
}

/** Arrow keys choose a segment; Enter moves the focus to the items. */
function barKey(event) {
  const segments = segmentsOfBar();
  const to = moved(event.key, segments.indexOf(event.target), segments.length, 10);
  if (event.key === 'Enter') handlers.enter(event, Number(event.target.dataset.index));
  if (to === null) return;
  event.preventDefault();
  handlers.choose(Number(segments[to].dataset.index));
  segments[to].focus();
}

// The table.

function sectionRow(index, row) {
  const section = state.file.sections[index];
  const element = make('tr', { tabIndex: -1, 'aria-rowindex': row + 2 });
  element.dataset.index = index;
  element.append(
    numberCell(section.number ?? '–'),
    numberCell(section.id ?? '–'),
    nameCell('td', section),
    numberCell(hex(section.offset)),
    numberCell(number(section.size)),
    numberCell(section.items === null ? '–' : number(section.items)),
  );
  element.querySelectorAll('td').forEach((cell) => cell.setAttribute('role', 'gridcell'));
  return element;
}

/** Shows the tables from their first page, in the order of the module. */
export function showSections() {
  sortBy(sortedBy, 'first');
}

function sortBy(by, pageOf = 'chosen') {
  const { sections } = state.file;
  sortedBy = by;
  order = sections.map((_, index) => index);
  if (ORDERS[by]) order.sort((a, b) => ORDERS[by](sections[a], sections[b]));
  document.querySelectorAll('#sections [data-order]').forEach((button) => {
    const isBy = button.dataset.order === by;
    const direction = by === 'size' ? 'descending' : 'ascending';
    if (isBy) button.parentElement.setAttribute('aria-sort', direction);
    else button.parentElement.removeAttribute('aria-sort');
  });
  showTables(pageOf === 'first' ? 0 : pageWith(state.chosen));
  if (pageOf !== 'first' && state.chosen >= 0) markTable();
}

const pageWith = (index) => Math.max(0, Math.floor(order.indexOf(index) / PAGE_SECTIONS));

/** Shows a page of the sections in both tables. */
function showTables(to) {
  page = to;
  const from = page * PAGE_SECTIONS;
  const rows = order.slice(from, from + PAGE_SECTIONS).map((index, at) => sectionRow(index, from + at));
  byId('sections').setAttribute('aria-rowcount', order.length + 1);
  byId('sections').tBodies[0].replaceChildren(...rows);
  showPages(byId('section-pages'), 'sections', page, Math.ceil(order.length / PAGE_SECTIONS), (other) => {
    showTables(other);
    markTable();
  });
  handlers.page(page);
}

/** Scrolls a row of the table into view, without moving the page. */
function scrollTableTo(row) {
  const table = byId('sections');
  const scroller = table.parentElement;
  const top = row.offsetTop - table.tHead.offsetHeight;
  const bottom = row.offsetTop + row.offsetHeight - scroller.clientHeight;
  scroller.scrollTop = Math.min(top, Math.max(bottom, scroller.scrollTop));
}

function markTable() {
  const rows = [...byId('sections').tBodies[0].rows];
  rows.forEach((row) => {
    const isChosen = Number(row.dataset.index) === state.chosen;
    row.setAttribute('aria-selected', isChosen);
    row.tabIndex = isChosen ? 0 : -1;
    if (isChosen) scrollTableTo(row);
  });
  if (rows.length && !rows.some(({ tabIndex }) => tabIndex === 0)) rows[0].tabIndex = 0;
}

/** Marks the chosen section in the bar and the table, whose page is that of the section. */
export function markSection() {
  if (pageWith(state.chosen) !== page) showTables(pageWith(state.chosen));
  markBar();
  markTable();
}

/** Arrow keys choose a row; Enter moves the focus to the items. */
function tableKey(event) {
  const row = event.target.closest('tr');
  const index = Number(row.dataset.index);
  const to = moved(event.key, order.indexOf(index), order.length, 10);
  if (event.key === 'Enter') handlers.enter(event, index);
  if (to === null || event.key === 'ArrowLeft' || event.key === 'ArrowRight') return;
  event.preventDefault();
  handlers.choose(order[to]);
  byId('sections').querySelector('[aria-selected=true]').focus();
}

/**
 * Calls `choose` with the index of a section that is chosen, `enter` at Enter, and `page` with the
 * page of the table.
 */
export function listenToSections(its) {
  handlers = its;
  const chooseClicked = (event) => {
    const { index } = event.target.closest('[data-index]')?.dataset ?? {};
    if (index !== undefined) handlers.choose(Number(index));
  };
  byId('bar').addEventListener('click', chooseClicked);
  byId('bar').addEventListener('keydown', barKey);
  byId('sections').tBodies[0].addEventListener('click', chooseClicked);
  byId('sections').tBodies[0].addEventListener('keydown', tableKey);
  byId('sections').tHead.addEventListener('click', ({ target }) => {
    if (target.dataset.order) sortBy(target.dataset.order);
  });
}
