// Minimizes the module, and shows what each section saves.
import { byId, counted, download, escaped, make, number, numberCell, percent } from './elements.js';
import { minimizer } from './engine.js';
import { HEADER_SIZE } from './limits.js';
import { PAGE_SECTIONS } from './sections.js';
import { nameCell, sectionsOf, state, wholeSize } from './state.js';

/** The custom sections that hold offsets into other sections. */
const NAMES = ['linking', '.gdb_index', 'external_debug_info', 'build_id', 'sourceMappingURL'];
const PREFIXES = ['reloc.', '.debug_', '.apple_', 'metadata.code.'];
const holdsOffsets = (name) => NAMES.includes(name) || PREFIXES.some((prefix) => name.startsWith(prefix));

/** The most names of these that are listed. */
const MOST_NAMES = 12;

/** The minimized module and, for each section, the section of it or null. */
let minimal = null;
let page = 0;

/**
 * For each section the one after minimizing, or null where it was left out. Sections keep their
 * order, and those of a name are all left out or all kept.
 */
function paired(before, after) {
  let next = 0;
  return before.map((section) => {
    const made = after[next];
    if (made?.id !== section.id || made.name !== section.name) return null;
    next += 1;
    return made;
  });
}

/**
 * A row of the savings. `after` is a size, null for a section that is left out, or undefined where
 * not known.
 */
function savingRow(label, name, before, after) {
  const saved = after === undefined ? null : before - (after ?? 0);
  const row = make('tr', { className: saved === 0 ? 'none-saved' : '' });
  row.append(numberCell(label), name, numberCell(number(before)));
  row.append(numberCell(after === undefined ? '–' : after === null ? 'left out' : number(after)));
  row.append(numberCell(saved === null ? '–' : number(saved)));
  return row;
}

function sectionSaving(section, index) {
  const made = minimal?.pairs[index];
  const after = made ? wholeSize(made) : minimal ? null : undefined;
  return savingRow(section.number ?? '', nameCell('th', section), wholeSize(section), after);
}

/** Shows a page of the savings, which are not known before the module is minimized. */
export function showSavings(to = page) {
  page = to;
  const { file } = state;
  const table = byId('savings');
  const from = page * PAGE_SECTIONS;
  const shown = file.sections.slice(from, from + PAGE_SECTIONS);
  const rows = shown.map((section, at) => sectionSaving(section, from + at));
  const head = (textContent) => make('th', { scope: 'row', textContent });
  const hasHeader = page === 0 && file.error?.offset !== 0;
  const header = hasHeader ? [savingRow('', head('header'), HEADER_SIZE, minimal ? HEADER_SIZE : undefined)] : [];
  table.tBodies[0].replaceChildren(...header, ...rows);
  table.tFoot.replaceChildren(savingRow('', head('module'), file.bytes.length, minimal?.bytes.length));
}

function saySaving(text, isError = false) {
  byId('saving').textContent = text;
  byId('saving').className = isError ? 'saving error-text' : 'saving';
  byId('download').disabled = minimal === null;
}

/** A message without the options of `minimize`, which are choices here. */
const withoutOption = (message) => message.replace(/; dropOffsets drops such sections$/, '');

const BUTTONS = { keepCode: 'keep-code', dropOffsets: 'drop' };
const isPressed = (id) => byId(id).getAttribute('aria-pressed') === 'true';

function chosenOptions() {
  return Object.fromEntries(Object.entries(BUTTONS).map(([option, id]) => [option, isPressed(id)]));
}

/** Presses a button, or releases it. The other one is released. */
function press(id) {
  const pressed = id !== null && !isPressed(id);
  Object.values(BUTTONS).forEach((its) => byId(its).setAttribute('aria-pressed', its === id && pressed));
}

/** Forgets the module before. */
export function clearMinimal() {
  minimal = null;
  page = 0;
  saySaving(state.file.error ? '' : 'Minimizing');
}

/** Shows the choices that say what is lost, if the module has custom sections that hold offsets. */
export function showChoices() {
  const holding = state.file.sections.filter(({ name }) => name !== null && holdsOffsets(name));
  const names = [...new Set(holding.map(({ name }) => escaped(name)))];
  press(null);
  byId('choices').hidden = names.length === 0;
  const more = names.length > MOST_NAMES ? ` and ${number(names.length - MOST_NAMES)} more` : '';
  byId('choices-names').textContent = names.slice(0, MOST_NAMES).join(', ') + more;
}

export async function minimize() {
  const asked = state.file;
  minimizer.stop();
  minimal = null;
  showSavings();
  if (asked.error) return saySaving('A module that does not decode to its end is not minimized.');
  saySaving('Minimizing');
  try {
    const { bytes, sections } = await minimizer.call('minimize', asked.bytes, chosenOptions());
    if (asked !== state.file) return undefined;
    minimal = { bytes, pairs: paired(asked.sections, sectionsOf(bytes, { sections, error: null })) };
    showSavings();
    return saySaving(savingText(asked.bytes.length, bytes.length));
  } catch (error) {
    if (asked === state.file) saySaving(`Not minimized: ${withoutOption(error.message)}`, true);
    return undefined;
  }
}

function savingText(before, after) {
  if (before === after) return `${counted(before, 'byte')}: nothing to save.`;
  const share = percent.format((before - after) / before);
  return `${number(before)} bytes before, ${number(after)} after: ${number(before - after)} saved (${share}).`;
}

export function listenToMinimizing() {
  for (const id of Object.values(BUTTONS)) {
    byId(id).addEventListener('click', () => {
      press(id);
      minimize();
    });
  }
  const minimalName = () => state.file.name.replace(/(\.wasm)?$/i, '.min.wasm');
  byId('download').addEventListener('click', () => download(minimalName(), minimal.bytes));
}
