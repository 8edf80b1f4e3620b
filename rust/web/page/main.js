// The page over the package. Workers make all calls of it, so that the page stays responsive.
import { listenToComparison, showComparison } from './comparison.js';
import {
  choose, focusItems, listenToDetail, openFunction, revealDetail, showFunction, showNoSection, showOffset, stopListing,
} from './detail.js';
import { byId, counted, download, hex, make, number, painted, say } from './elements.js';
import { reader } from './engine.js';
import * as links from './links.js';
import { clearMinimal, listenToMinimizing, minimize, showChoices, showSavings } from './minimizing.js';
import { listenToRecipe } from './recipe.js';
import { listenToSections, markSection, showBar, showSections } from './sections.js';
import { listenToHandle } from './split.js';
import { readParts, sectionsOf, setFile, shareOf, state } from './state.js';
import { treeOf } from './tree.js';
import { Treemap } from './treemap.js';

/** The number of modules that were opened. Results for an earlier one are dropped. */
let opened = 0;
let map;

// Damage.

const offsetFact = (label, offset) => {
  const link = make('a', { href: `#offset=${hex(offset)}`, textContent: hex(offset) });
  return make('span', {}, `${label}: `, link, ` (${number(offset)})`);
};

/** The offset of the first wrong byte, which the message has, or null. */
function wrongByte({ message }) {
  const found = / at offset (0x[0-9a-f]+)/.exec(message);
  return found && Number(found[1]);
}

function showDamage(error, note) {
  byId('damage').hidden = error === null;
  if (error === null) return;
  const wrong = wrongByte(error);
  const facts = [];
  if (error.cause) facts.push(make('span', { textContent: `Cause: ${error.cause}` }));
  if (wrong !== null) facts.push(offsetFact('First wrong byte', wrong));
  const start = error.offset === 0 ? 'Start of the file' : 'Start of the section';
  if (error.offset !== null) facts.push(offsetFact(start, error.offset));
  byId('damage-message').textContent = error.message;
  byId('damage-facts').replaceChildren(...facts);
  byId('damage-note').textContent = note;
}

/** The part of a damaged module that is in the table. */
function damageNote(count) {
  const { file } = state;
  const { kind } = file.sections.find(({ start }) => start === file.flaw?.offset) ?? {};
  if (file.flaw) {
    const what = `The payload does not decode as a ${kind} section. Its items before the wrong byte are listed.`;
    return `${what} The sections after it are in the table too.`;
  }
  if (count === 0) return 'The table has no sections; the bytes are below.';
  const before = count === 1 ? 'section' : `${number(count)} sections`;
  const rest = 'The bytes from there on are its last row, with the items that decode.';
  return `The table has the ${before} before the damage. ${rest}`;
}

// Opening.

/** Opens bytes as a module. It is minimized after the first paint of the table. */
async function open(name, bytes, isBuilt = false) {
  const turn = (opened += 1);
  const isFirst = state.file === null;
  say(`Reading ${name}`);
  stopListing();
  try {
    const read = await reader.call('open', bytes);
    if (turn !== opened) return;
    const { error, flaw } = read;
    const ready = setFile({ name, bytes, isBuilt, error, flaw, sections: sectionsOf(bytes, read) });
    const link = isFirst ? links.parsed(location.hash) : null;
    showFile(read.sections.length);
    showParts(ready, link).catch((failure) => say(failure.message));
    await painted();
    if (turn !== opened) return;
    minimize();
  } catch (error) {
    if (turn !== opened) return;
    say(`${name}: ${error.message}`);
    showDamage({ message: `${name}: ${error.message}`, cause: null, offset: null }, '');
  }
}

/** Shows the functions and the treemap, when they are known, and what the address says. */
async function showParts(ready, link) {
  const { file } = state;
  if (!ready(await readParts())) return;
  await painted();
  if (file !== state.file) return;
  showMap();
  if (link) follow(link);
}

function showMap() {
  const revealing = (call) => (value) => {
    call(value);
    revealDetail();
  };
  const [openSection, openBody, openItem] = [choose, openFunction, showItem].map(revealing);
  map.show(treeOf({ openSection, openFunction: openBody, openItem }));
}

function showItem(offset) {
  links.push(`#offset=${hex(offset)}`);
  showOffset(offset);
}

/** Shows what a part of the address says. */
function follow(link) {
  if (!state.file || !link) return;
  const { kind, value } = link;
  if (kind === 'function') showFunction(value);
  if (kind === 'offset') showOffset(value);
  if (kind === 'section' && value >= 1 && value <= state.file.sections.length) choose(value - 1);
  if (kind !== 'section') revealDetail();
}

function showFile(count) {
  const { name, bytes, error, flaw, sections } = state.file;
  byId('empty').hidden = true;
  byId('module').hidden = false;
  showDamage(error ?? flaw, damageNote(count));
  document.title = `${name}: Dolzhytik`;
  byId('file-name').textContent = name;
  byId('file-facts').textContent = `${counted(bytes.length, 'byte')} · ${counted(count, 'section')}`;
  byId('save').hidden = !state.file.isBuilt;
  clearMinimal();
  showBar();
  showSections();
  showMap();
  showChoices();
  scrollTo(0, 0);
  const damaged = sections.findIndex(({ start }) => start === (error ?? flaw)?.offset);
  if (sections.length) choose(Math.max(0, damaged));
  else showNoSection();
  say(`${name} is open.`);
}

async function readFile(file) {
  try {
    return new Uint8Array(await file.arrayBuffer());
  } catch {
    return null;
  }
}

/** Opens a file, or compares two. The second one is open then. */
async function openFiles([first, second]) {
  if (second) return compareFiles(first, second);
  const turn = (opened += 1);
  say(`Reading ${first.name}`);
  const bytes = await readFile(first);
  if (turn !== opened) return undefined;
  if (bytes === null) return say(`${first.name} cannot be read. Is it a folder, or too large?`);
  byId('comparison').hidden = true;
  return open(first.name, bytes);
}

async function compareFiles(first, second) {
  const [before, after] = await Promise.all([readFile(first), readFile(second)]);
  if (before === null || after === null) return say('A file cannot be read. Is it a folder, or too large?');
  return compare({ name: first.name, bytes: before }, { name: second.name, bytes: after });
}

/** Opens the second file, and shows what changed from the first. */
async function compare(before, after) {
  await open(after.name, after.bytes);
  const turn = opened;
  try {
    const found = await reader.call('compare', before.bytes, after.bytes);
    if (turn === opened) showComparison(before.name, after.name, found);
  } catch (error) {
    if (turn === opened) say(`Not compared: ${error.message}`);
  }
}

async function openExample() {
  const response = await fetch('example.wasm');
  if (!response.ok) return say('There is no example.wasm beside the page: tools/web --build makes it.');
  return open('example.wasm', new Uint8Array(await response.arrayBuffer()));
}

// The start.

function listenToDrops() {
  const holdsFiles = (event) => event.dataTransfer?.types.includes('Files');
  const mark = (isOver) => document.documentElement.classList.toggle('dropping', isOver);
  addEventListener('dragover', (event) => {
    if (!holdsFiles(event)) return;
    event.preventDefault();
    mark(true);
  });
  addEventListener('dragleave', (event) => {
    if (!event.relatedTarget) mark(false);
  });
  addEventListener('drop', (event) => {
    mark(false);
    if (!holdsFiles(event)) return;
    event.preventDefault();
    if (event.dataTransfer.files.length) openFiles(event.dataTransfer.files);
  });
}

/** Calls with the files of an input. The same file can be chosen again. */
function listenToInput(input, call) {
  input.addEventListener('change', () => {
    const files = [...input.files];
    input.value = '';
    if (files.length) call(files);
  });
}

function listen() {
  listenToInput(byId('file'), openFiles);
  listenToInput(byId('other'), async ([file]) => {
    const bytes = await readFile(file);
    if (bytes === null) return say(`${file.name} cannot be read.`);
    return compare(state.file, { name: file.name, bytes });
  });
  byId('compare').addEventListener('click', () => byId('other').click());
  byId('example').addEventListener('click', openExample);
  byId('save').addEventListener('click', () => download(state.file.name, state.file.bytes));
  listenToRecipe(open);
  listenToMinimizing();
  listenToComparison();
  listenToDrops();
  listenToSections({ choose, enter: focusItems, page: showSavings });
  listenToDetail(markSection);
  listenToHandle(byId('handle'));
  links.listen(follow);
}

async function start() {
  const describe = ({ label, title = label, size }) => `${title}, ${counted(size, 'byte')}, ${shareOf(size)}`;
  map = new Treemap(byId('map'), byId('map-path'), describe);
  listen();
  say('Loading dolzhytik.wasm');
  try {
    await reader.call('ready');
    if (!opened) say('Ready.');
  } catch (error) {
    say(`dolzhytik.wasm does not load: ${error.message}`);
  }
}

start();
