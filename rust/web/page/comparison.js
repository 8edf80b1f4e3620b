// What grew and shrank between two files: a table and a treemap.
import { byId, counted, escaped, make, number, numberCell, percent, signed } from './elements.js';
import { Treemap } from './treemap.js';

/** The most rows of functions, and of data segments. */
const MOST_ROWS = 100;

let map = null;

const sign = (change) => (change > 0 ? 'grew' : change < 0 ? 'shrank' : 'same');
const labels = {
  sections: ({ kind, name }) => (name === null ? kind : `${kind} "${escaped(name)}"`),
  functions: ({ index, name }) => (name === null ? `function ${index}` : escaped(name)),
  data: ({ index, name }) => (name === null ? `data ${index}` : escaped(name)),
};

const signedShare = (change, before) => signed(change / before, percent.format);

/** The address of a function that the open file has, or null. */
const addressOf = ({ index, after }) => (after === null ? null : `#function=${index}`);

function row(group, label, { before, after, change }, href = null) {
  const text = make('bdi', { textContent: label });
  const name = make('th', { scope: 'row', className: 'name', title: label }, href ? make('a', { href }, text) : text);
  const element = make('tr', { className: sign(change) });
  const size = (value) => numberCell(value === null ? '–' : number(value));
  element.append(make('td', { textContent: group }), name, size(before), size(after));
  element.append(numberCell(signed(change)), numberCell(before ? signedShare(change, before) : '–'));
  return element;
}

/** Rows of the parts that changed, and one for those that are not listed. */
function rowsOf(word, parts, label, address = () => null) {
  const changed = parts.filter(({ change }) => change !== 0);
  const rows = changed.slice(0, MOST_ROWS).map((part) => row(word, label(part), part, address(part)));
  const others = [...changed.slice(MOST_ROWS), ...parts.filter(({ change }) => change === 0)];
  if (others.length) {
    const sum = (its) => others.reduce((all, part) => all + (part[its] ?? 0), 0);
    const total = { before: sum('before'), after: sum('after'), change: sum('change') };
    rows.push(row(word, `${counted(others.length, 'other')}`, total));
  }
  return rows;
}

/** The parts that changed, as nodes whose areas are what changed. */
function nodesOf({ sections, functions, data }) {
  const node = (label, address = () => null) => (part) => ({
    label: `${label(part)} ${signed(part.change)}`,
    size: Math.abs(part.change),
    kind: `change ${sign(part.change)}`,
    open: address(part) && (() => (location.hash = address(part))),
  });
  const others = sections.filter(({ kind }) => kind !== 'code' && kind !== 'data');
  const parts = [...functions.map(node(labels.functions, addressOf)), ...data.map(node(labels.data))];
  return [...parts, ...others.map(node(labels.sections))];
}

function showTable(found) {
  const { sections, functions, data } = found;
  byId('changes').tBodies[0].replaceChildren(
    ...rowsOf('section', sections, labels.sections),
    ...rowsOf('function', functions, labels.functions, addressOf),
    ...rowsOf('data', data, labels.data),
  );
  const total = { before: found.before, after: found.after, change: found.after - found.before };
  byId('changes').tFoot.replaceChildren(row('', 'module', total));
}

/** Shows the changes from the file of one name to that of another. */
export function showComparison(before, after, found) {
  const change = found.after - found.before;
  const share = found.before ? ` (${signedShare(change, found.before)})` : '';
  byId('comparison').hidden = false;
  byId('comparison-title').textContent = `${before} → ${after}`;
  byId('comparison-facts').textContent =
    `${number(found.before)} → ${counted(found.after, 'byte')}: ${signed(change)}${change ? share : ''}`;
  showTable(found);
  const describe = ({ label, size }) => `${label}, ${counted(size, 'byte')}`;
  map ??= new Treemap(byId('changes-map'), byId('changes-path'), describe);
  const nodes = nodesOf(found);
  const hasChanges = nodes.some(({ size }) => size > 0);
  byId('changes-head').hidden = !hasChanges;
  byId('changes-map').hidden = !hasChanges;
  byId('no-changes').hidden = hasChanges;
  if (hasChanges) map.show({ label: 'Changes', size: 1, kind: '', children: () => nodes });
}

export function listenToComparison() {
  byId('comparison-close').addEventListener('click', () => {
    byId('comparison').hidden = true;
    byId('compare').focus();
  });
}
