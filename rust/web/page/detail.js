// The chosen section: its items or the instructions of a function, and its bytes.
import { ByteView } from './bytes.js';
import { CodeView, codeFacts } from './code.js';
import { byId, counted, escaped, hex, number, range } from './elements.js';
import { reader, received } from './engine.js';
import { ItemList, isFunction, titleOfItem } from './items.js';
import { HEADER_SIZE, MOST_ITEMS } from './limits.js';
import * as links from './links.js';
import { endOf, functionName, functionsIn, indexAt, isFlawed, state, titleOf } from './state.js';

/** The section whose items were asked for last, and whether a worker is at such a call. */
let wanted = null;
let isListing = false;
/** The function whose instructions are shown, or null. */
let shown = null;
/** What is called with each section that is chosen. */
let onSection = () => {};
export let itemList;
export let byteView;
let codeView;

/** Stops what the worker reads of a module that was open. */
export function stopListing() {
  if (isListing || (state.file && !state.parts)) reader.stop();
  isListing = false;
  [wanted, shown] = [null, null];
}

/** Chooses a section by its index, and shows its items. */
export function choose(index) {
  const section = state.file.sections[index];
  links.note(`#section=${section.number ?? state.file.sections.length}`);
  showSectionAt(index);
}

function showSectionAt(index) {
  const section = state.file.sections[index];
  showList();
  if (index === state.chosen && wanted === section) return;
  state.chosen = index;
  onSection();
  showSection(section);
}

function showSection(section) {
  const end = endOf(section);
  const items = section.items === null ? [] : [counted(section.items, 'item')];
  const facts = [range(section.offset, end), counted(section.size, 'byte'), ...items];
  byId('detail-title').textContent = titleOf(section);
  byId('detail-facts').textContent = facts.join(' · ');
  byId('items-note').textContent = '';
  byId('picked').textContent = '';
  byId('search').value = '';
  itemList.search('');
  byteView.show(state.file.bytes, section.start, section.offset, end);
  wantItems(section);
}

/** Lists the items of the section that was asked for last. */
async function wantItems(section) {
  wanted = section;
  byId('items-facts').textContent = '';
  byId('items-title').textContent = isCode(section) ? 'Functions' : 'Items';
  itemList.show([], 'Decoding the items', true);
  if (isListing) return;
  isListing = true;
  const asked = state.file;
  let answer = null;
  while (answer?.section !== wanted && asked === state.file) answer = await itemsOf(wanted);
  if (asked !== state.file) return;
  isListing = false;
  showItems(answer);
}

const isCode = ({ id }) => id === 10;

/** The items of a section. Those of code are its functions, which are known later. */
async function itemsOf(section) {
  try {
    if (isCode(section) || section.isUndecoded) {
      await state.ready;
      const found = functionItems(section);
      if (isCode(section) || found.items.length) return found;
    }
    const index = state.file.sections.indexOf(section);
    const { count, isCut } = await reader.call('items', index);
    const items = await received(count, (at) => reader.call('itemsFrom', at));
    return { section, items, isCut, error: null };
  } catch (error) {
    return { section, items: [], isCut: false, error };
  }
}

/** The functions that are in the section, as items with their names. */
function functionItems(section) {
  return { section, items: functionsIn(section), isCut: section.isUndecoded || isFlawed(section), error: null };
}

function whyNoItems(section, error) {
  if (error) return error.message;
  if (section.isUndecoded) return 'These bytes do not decode.';
  if (section.items === 0) return 'The section is empty.';
  if (isFlawed(section)) return `The payload does not decode as a ${section.kind} section.`;
  return 'The page lists no items of this section.';
}

function showItems({ section, items, isCut, error }) {
  const areFunctions = isCode(section) || isFunction(items[0]);
  byId('items-title').textContent = areFunctions ? 'Functions' : 'Items';
  const isFull = !areFunctions && items.length === MOST_ITEMS;
  const count = items.length ? number(items.length) : '';
  const cut = isCut && items.length ? `${count} before the damage` : count;
  byId('items-facts').textContent = isFull ? `the first ${count}` : cut;
  itemList.show(items, whyNoItems(section, error));
  if (byteView.spot >= 0) markItemAt(byteView.spot);
  // The function that an address or the treemap has opened, for the way back to the list.
  else if (shown) itemList.mark(items.indexOf(shown));
}

// Items and bytes.

function chooseItem(item) {
  byteView.mark(item.offset, item.offset + item.size);
  byId('items-note').textContent = escaped(titleOfItem(item));
  notePicked(`${isFunction(item) ? 'Function' : 'Item'} ${item.index}`, item);
}

function notePicked(what, { offset, size }) {
  byId('picked').textContent = `${what}: ${range(offset, offset + size)}, ${counted(size, 'byte')}`;
}

/** Shows the instructions of a function that is chosen in the list. */
function openItem(item, isByKey = false) {
  if (isFunction(item)) openFunction(item.index, isByKey);
}

/** Marks the item or instruction that has the byte, and its bytes. */
function markItemAt(offset) {
  if (shown) codeView.mark(codeView.indexAt(offset));
  const at = itemList.indexAt(offset);
  itemList.mark(at);
  const item = itemList.items[at];
  byteView.marked = item ? { from: item.offset, to: item.offset + item.size } : { from: 0, to: 0 };
  byteView.rows.draw();
  const byte = state.file.bytes[offset];
  const isOfFunctions = isFunction(itemList.items[0]);
  const isKnown = itemList.items.length > 0 && (isOfFunctions || itemList.items.length < MOST_ITEMS);
  const word = isOfFunctions ? 'function' : 'item';
  const inItem = item ? `in ${word} ${item.index}` : isKnown ? `in no ${word}` : '';
  byId('items-note').textContent = item ? escaped(titleOfItem(item)) : '';
  byId('picked').textContent = [`Byte ${hex(offset)}: ${hex(byte)}, ${byte}`, inItem].filter(Boolean).join(', ');
}

function chooseByte(offset) {
  byteView.spot = offset;
  byteView.reveal(offset);
  markItemAt(offset);
}

/**
 * Shows the byte at an offset, in whichever section it is, or the last one for the end of the file.
 * Returns whether there is one.
 */
export function showOffset(place) {
  const offset = Math.min(place, state.file.bytes.length - 1);
  const index = indexAt(offset);
  if (index < 0) return false;
  showSectionAt(index);
  chooseByte(offset);
  return true;
}

/** Shows the byte at the offset in the field. */
function goToOffset(event) {
  event.preventDefault();
  const field = byId('offset');
  const text = field.value.trim();
  const offset = /^(0x[0-9a-f]+|\d+)$/i.test(text) ? Number(text) : NaN;
  const why =
    offset < HEADER_SIZE
      ? 'The bytes before 0x8 are the header, which is in no section.'
      : `An offset such as 0x1a3 or 419, less than ${hex(state.file.bytes.length)}`;
  field.setCustomValidity(indexAt(offset) < 0 ? why : '');
  if (!field.reportValidity()) return;
  links.push(`#offset=${hex(offset)}`);
  showOffset(offset);
}

// Functions.

/** Scrolls the chosen section into view, where it is below the treemap. */
export const revealDetail = () => byId('detail').scrollIntoView({ block: 'nearest' });

/** Shows a function by its index, and adds it to the history. */
export function openFunction(index, isByKey = false) {
  links.push(`#function=${index}`);
  showFunction(index, isByKey);
}

/** Shows the instructions of a function, when the functions are known. */
export async function showFunction(index, isByKey = false) {
  const asked = state.file;
  await state.ready;
  if (asked !== state.file) return;
  const it = state.parts.functions.find((each) => each.index === index);
  if (!it) {
    noteMissing(index);
    return;
  }
  showSectionAt(indexAt(it.offset));
  shown = it;
  itemList.mark(itemList.items.findIndex((item) => item.index === index));
  byteView.mark(it.offset, it.offset + it.size);
  const found = await reader.call('instructions', index);
  if (asked !== state.file || shown !== it) return;
  byId('list').hidden = true;
  byId('function').hidden = false;
  byId('function-title').textContent = functionName(it);
  const facts = [...(it.name === null ? [] : [`function ${index}`]), codeFacts(it, found)];
  byId('function-facts').textContent = facts.join(' · ');
  codeView.show(found, 'No instruction decodes.');
  notePicked(`Function ${index}`, it);
  byId('items-note').textContent = signature(found);
  if (isByKey) byId('code').focus();
}

/** A run of locals with its indices, which are not known without the type of the function. */
function runText({ first, count, type }) {
  if (first === null) return `${counted(count, 'local')} ${type}`;
  return count === 1 ? `local ${first} ${type}` : `locals ${first} to ${first + count - 1} ${type}`;
}

/** The type of a function, and its runs of locals. */
function signature({ type, locals }) {
  return [type ?? 'The type is not known', ...locals.map(runText)].join(', ');
}

function noteMissing(index) {
  const name = state.parts.imported[index];
  const text = name ? `Function ${index} is imported: ${escaped(name)}` : `The module has no function ${index}.`;
  // No byte is chosen any more: items that come later would replace the text by that of the byte.
  byteView.spot = -1;
  byteView.rows.draw();
  byId('items-note').textContent = text;
  byId('picked').textContent = text;
}

/** Shows the list of items in the place of a function. */
function showList() {
  shown = null;
  byId('function').hidden = true;
  byId('list').hidden = false;
}

function chooseInstruction(it, text) {
  byteView.mark(it.offset, it.offset + it.size);
  byId('items-note').textContent = text;
  notePicked(it.name, it);
}

/** Shows a module of the header alone. */
export function showNoSection() {
  showList();
  byId('detail-title').textContent = 'No section';
  for (const id of ['detail-facts', 'items-facts', 'items-note', 'picked', 'share']) byId(id).textContent = '';
  itemList.show([], 'The module is its header alone.');
  byteView.show(state.file.bytes, 0, HEADER_SIZE, HEADER_SIZE);
}

/** Moves the focus to the items of a section. */
export function focusItems(event, index) {
  event.preventDefault();
  choose(index);
  (itemList.items.length || isListing ? itemList.element : byteView.element).focus();
}

export function listenToDetail(its) {
  onSection = its;
  itemList = new ItemList(byId('items'), { onChoose: chooseItem, onOpen: openItem });
  byteView = new ByteView(byId('bytes'), byId('byte-pages'), chooseByte);
  codeView = new CodeView(byId('code'), chooseInstruction);
  byId('go').addEventListener('submit', goToOffset);
  byId('offset').addEventListener('input', ({ target }) => target.setCustomValidity(''));
  byId('search').addEventListener('input', ({ target }) => {
    itemList.search(target.value);
    const all = number(itemList.items.length);
    const found = target.value.trim() ? `${number(itemList.count)} of ${all}` : all;
    byId('items-facts').textContent = itemList.items.length ? found : '';
  });
  byId('order').addEventListener('change', ({ target }) => itemList.sort(target.value));
  byId('back').addEventListener('click', () => {
    choose(state.chosen);
    itemList.element.focus();
  });
}

