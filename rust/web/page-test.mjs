#!/usr/bin/env node
// Tests the page in chromium, without a window.
//
//     rust/web/page-test.mjs [FOLDER [MODULE..]]
//
// Writes screenshots to FOLDER. Compares the page with dolzhytik.js in node for each MODULE, or for
// dolzhytik.wasm. If the variable PAGE_TESTS is set, only the tests run whose names have its text.
//
// The last line is 'N passed, M failed'. Exit status: 0 all passed, 1 a failed test, 77 not run
// because there is no chromium, or no dolzhytik.wasm.
import assert from 'node:assert/strict';
import fs from 'node:fs';
import os from 'node:os';
import path from 'node:path';
import { fileURLToPath } from 'node:url';
import { faultyControls, leastContrast } from './access.mjs';
import { Browser, findChromium } from './chromium.mjs';
import {
  CALLS, EXPORT, FUNCTION, HEADER, OBJECT, PADDED, TYPES, WITH_OFFSETS, custom, groupedModule, largeModule, moduleOf,
  namedModule, section, segmentsModule,
} from './modules.mjs';
import { CTRL, Page, scrollList, serve } from './tab.mjs';

const HERE = path.dirname(fileURLToPath(import.meta.url));
const only = process.env.PAGE_TESTS;
const [shots, ...words] = process.argv.slice(2);
const modules = (words.length ? words : [path.join(HERE, 'dolzhytik.wasm')]).map((file) => path.resolve(file));
const room = fs.mkdtempSync(path.join(os.tmpdir(), 'dolzhytik-page-'));
const MOST_ITEMS = 100_000;

/** Writes bytes to a file, and returns its path. */
function fileOf(its, bytes) {
  const file = path.join(room, its);
  fs.writeFileSync(file, bytes);
  return file;
}

// ---- Expected texts, and those of the page.

const number = (value) => value.toLocaleString('en-US');
const hex = (value) => `0x${value.toString(16)}`;

const rowOf = ({ id, kind, name: its, offset, size, items }, index) => [
  String(index + 1),
  String(id),
  its ?? kind,
  hex(offset),
  number(size),
  items === null ? '–' : number(items),
];

/** The name and the size of each section, with its id and size prefix. */
function wholesOf(sections) {
  let start = HEADER.length;
  return sections.map(({ name: its, kind, offset, size }) => {
    const whole = offset + size - start;
    start = offset + size;
    return { label: its ?? kind, whole };
  });
}

/** The rows of the savings: the header, each section, and the module. */
function savingsOf(library, before, after) {
  const kept = wholesOf(library.outline(after));
  const rows = wholesOf(library.outline(before)).map(({ label, whole }, index) => {
    const made = kept[0]?.label === label ? kept.shift().whole : null;
    return [String(index + 1), label, number(whole), made === null ? 'left out' : number(made), number(whole - made)];
  });
  const total = ['', 'module', number(before.length), number(after.length), number(before.length - after.length)];
  return [['', 'header', '8', '8', '0'], ...rows, total];
}

const rows = (page) =>
  page.run(() =>
    [...document.querySelectorAll('#sections tbody tr')].map(({ cells }) =>
      [...cells].map((cell) => cell.querySelector('bdi')?.textContent ?? cell.textContent),
    ),
  );

const savings = (page) =>
  page.run(() =>
    [...document.querySelectorAll('#savings tbody tr, #savings tfoot tr')].map(({ cells }) =>
      [...cells].map((cell) => cell.querySelector('bdi')?.textContent ?? cell.textContent),
    ),
  );

/** The offsets and values of the bytes that are shown and match. */
const bytesShown = (page, selector) =>
  page.run(
    (it) =>
      [...document.querySelectorAll(`#bytes ${it}`)].map((cell) => [
        Number(cell.dataset.offset),
        parseInt(cell.textContent, 16),
      ]),
    selector,
  );

const chosenRow = (page) => page.run(() => document.querySelector('#sections tr[aria-selected=true]')?.rowIndex);
const isMinimized = () => !document.getElementById('download').disabled;
const hasItems = () => document.querySelectorAll('#items .item').length > 0;

function goTo(page, offset) {
  return page.run((text) => {
    document.getElementById('offset').value = text;
    document.getElementById('go').requestSubmit();
  }, String(offset));
}

function thrown(call) {
  try {
    call();
  } catch (error) {
    return error;
  }
  throw new Error('no error');
}

/** Opens a module, and chooses its code section. */
async function openCode(page, library, file) {
  await page.choose(file);
  const bytes = fs.readFileSync(file);
  const sections = library.outline(bytes);
  const index = sections.findIndex(({ id }) => id === 10);
  await page.click(`#sections tbody tr[data-index="${index}"]`);
  await page.until(hasItems);
  const { offset, size } = sections[index - 1];
  const items = library.items(bytes, index, MOST_ITEMS);
  return { bytes, items, index, code: sections[index], start: offset + size };
}

// ---- Tests.

const opening = {
  async 'the page starts'(page) {
    assert.equal(await page.text('status'), 'Ready.');
    await page.shotsOfBoth('empty');
  },

  async 'the table of each module is its outline'(page, library) {
    for (const file of modules) {
      await page.choose(file);
      assert.deepEqual(await rows(page), library.outline(fs.readFileSync(file)).map(rowOf));
    }
  },

  async 'the bar has the sections to scale'(page, library) {
    await page.choose(modules[0]);
    const sections = library.outline(fs.readFileSync(modules[0]));
    const segments = await page.run(() =>
      [...document.querySelectorAll('#bar [role=option]')].map((segment) => ({
        label: segment.ariaLabel,
        width: segment.getBoundingClientRect().width,
      })),
    );
    assert.equal(segments.length, sections.length);
    const widths = wholesOf(sections).map(({ whole }, index) => ({ whole, width: segments[index].width }));
    const [first, ...others] = widths.filter(({ width }) => width > 40);
    others.forEach(({ whole, width }) => assert.ok(Math.abs(width / first.width - whole / first.whole) < 0.02));
    segments.forEach(({ label, width }, index) => {
      assert.ok(label.startsWith(`Section ${index + 1}: ${sections[index].kind}`), label);
      assert.ok(width >= 3.9);
    });
  },

  async 'a module of the header alone'(page, library) {
    await page.choose(fileOf('header.wasm', moduleOf()));
    assert.deepEqual(await rows(page), []);
    await page.until(isMinimized);
    assert.deepEqual(await page.download('#download', 'header.min.wasm'), library.minimize(moduleOf()));
  },

  async 'a dropped file opens'(page, library) {
    const data = { items: [], files: [fileOf('dropped.wasm', PADDED)], dragOperationsMask: 1 };
    for (const type of ['dragEnter', 'dragOver', 'drop']) {
      await page.send('Input.dispatchDragEvent', { type, x: 800, y: 500, data });
    }
    await page.untilText('file-name', 'dropped.wasm');
    assert.deepEqual(await rows(page), library.outline(PADDED).map(rowOf));
    assert.equal(await page.run(() => document.documentElement.className), '');
  },

  async 'names are texts, with escapes'(page) {
    const names = ['<img src=x onerror=alert(1)>', '\u202egnp.exe', 'a\nb', 'a'.repeat(5000)];
    await page.choose(fileOf('names.wasm', moduleOf(...names.map((text) => custom(text)))));
    const shown = ['<img src=x onerror=alert(1)>', '\\u{202e}gnp.exe', 'a\\u{a}b', 'a'.repeat(5000)];
    assert.deepEqual((await rows(page)).map((row) => row[2]), shown);
    assert.equal(await page.count('img'), 0);
    await page.shot('names');
  },

  async 'thousands of sections have pages'(page) {
    const sections = Array.from({ length: 3001 }, (_, index) => custom(`s${index}`));
    await page.choose(fileOf('many.wasm', moduleOf(...sections)));
    assert.equal((await rows(page)).length, 500);
    assert.equal(await page.count('#bar [role=option]'), 60);
    await page.focus('#sections tbody tr');
    await page.key('End');
    assert.deepEqual((await rows(page)).map((row) => row[2]), ['s3000']);
    assert.equal(await page.text('section-pages'), '‹7 of 7›');
    assert.equal(await page.run(() => document.activeElement.cells[2].title), 'Section 3001: custom "s3000"');
    await page.click('#section-pages button');
    assert.equal((await rows(page))[0][2], 's2500');
  },
};

/** The texts of the elements that match. */
const textsOf = (page, selector) =>
  page.run((its) => [...document.querySelectorAll(its)].map((it) => it.textContent), selector);
const facts = (page) => textsOf(page, '#damage-facts > span');

const damaged = {
  async 'a module that ends in a section'(page, library) {
    const cut = PADDED.subarray(0, PADDED.length - 16);
    const error = thrown(() => library.outline(cut));
    await page.choose(fileOf('cut.wasm', cut));
    assert.equal(await page.text('damage-message'), error.message);
    const [, wrong] = / at offset (0x[0-9a-f]+)/.exec(error.message);
    assert.deepEqual(await facts(page), [
      `Cause: ${error.cause}`, `First wrong byte: ${wrong} (${Number(wrong)})`,
      `Start of the section: ${hex(error.offset)} (${number(error.offset)})`,
    ]);
    await page.click('#damage-facts a');
    await page.until(() => document.querySelector('#bytes .spot') !== null);
    // The first wrong byte is behind the end of the file.
    assert.equal(Number(wrong), cut.length);
    assert.equal((await bytesShown(page, 'b.spot'))[0][0], cut.length - 1);
    const before = library.outline(PADDED).filter(({ offset }) => offset < error.offset);
    const rest = ['–', '–', 'not decoded', hex(error.offset), number(cut.length - error.offset), '–'];
    assert.deepEqual(await rows(page), [...before.map(rowOf), rest]);
    assert.equal(await page.run(isMinimized), false);
    await page.shotsOfBoth('damaged');
  },

  async 'a real module that is cut'(page, library) {
    const whole = fs.readFileSync(modules[0]);
    const cut = whole.subarray(0, Math.floor(whole.length * 0.9));
    const error = thrown(() => library.outline(cut));
    await page.choose(fileOf('cut-real.wasm', cut));
    assert.equal(await page.text('damage-message'), error.message);
    assert.ok((await facts(page)).at(-1).startsWith(`Start of the section: ${hex(error.offset)} `));
    // The section that the file ends in is the code: the functions before its end are listed.
    await page.until(hasItems);
    const last = library.dump(whole, { instructions: false }).find(({ id }) => id === 10).entries;
    const before = last.filter(({ offset, size }) => offset + size <= cut.length);
    assert.equal(await page.text('items-facts'), `${number(before.length)} before the damage`);
    await page.shot('damaged-real');
  },

  async 'a payload that does not decode'(page, library) {
    const broken = moduleOf(TYPES, section(3, [0x02, 0x00]), EXPORT);
    const error = thrown(() => library.list(broken));
    await page.choose(fileOf('payload.wasm', broken));
    assert.equal(await page.text('damage-message'), error.message);
    assert.ok((await facts(page)).at(-1).startsWith(`Start of the section: ${hex(error.offset)} `));
    assert.deepEqual(await rows(page), library.outline(broken).map(rowOf));
    assert.equal(await page.count('#sections .flaw'), 1);
    assert.equal(await chosenRow(page), 2);
    await page.until(hasItems);
    assert.equal(await page.text('items-facts'), '1 before the damage');
    await page.shot('damaged-payload');
  },

  async 'types that do not decode'(page) {
    await page.choose(fileOf('types.wasm', moduleOf(section(1, [0x01, 0x00]), FUNCTION)));
    assert.equal(await page.text('damage-message'), 'section 1 (type) at offset 0xb: unexpected byte or value');
    const expected = ['Cause: unexpected byte or value', 'First wrong byte: 0xb (11)', 'Start of the section: 0x8 (8)'];
    assert.deepEqual(await facts(page), expected);
    assert.equal(await chosenRow(page), 1);
  },

  async 'a file that is no module'(page, library) {
    for (const bytes of [Buffer.from('no module'), Buffer.alloc(0)]) {
      await page.choose(fileOf(`text-${bytes.length}.wasm`, bytes));
      assert.equal(await page.text('damage-message'), thrown(() => library.outline(bytes)).message);
      assert.equal((await facts(page)).at(-1), 'Start of the file: 0x0 (0)');
      assert.equal((await rows(page)).length, 1);
    }
  },

  async 'a module without damage hides the message'(page) {
    await page.choose(fileOf('whole.wasm', PADDED));
    assert.equal(await page.run(() => document.getElementById('damage').hidden), true);
  },
};

const chosen = {
  async 'the bytes of a section'(page, library) {
    const { bytes, code, start } = await openCode(page, library, modules[0]);
    const shown = await bytesShown(page, 'b:not(.none)');
    assert.ok(shown.length > 100 && shown.length < 3000, `${shown.length} bytes`);
    shown.forEach(([offset, byte]) => assert.equal(byte, bytes[offset]));
    // The id and the size prefix are before the payload.
    assert.equal(shown[0][0], start);
    assert.equal(await page.count('#bytes b.head'), code.offset - start);
  },

  async 'an item marks its bytes, and scrolls to them'(page, library) {
    const { bytes, items } = await openCode(page, library, modules[0]);
    for (const index of [0, Math.floor(items.length / 2), items.length - 1]) {
      await page.run((its) => (document.getElementById('items').scrollTop = its * 20 - 40), index);
      await page.until((its) => document.getElementById(`item-${its}`) !== null, index);
      await page.click(`#item-${index}`);
      const { offset, size } = items[index];
      const marked = await bytesShown(page, 'b.on');
      assert.equal(marked[0][0], offset);
      assert.ok(marked.length === size || marked.length > 200);
      marked.forEach(([at, byte]) => assert.ok(at < offset + size && byte === bytes[at]));
      await page.until(() => !document.getElementById('function').hidden);
      await page.click('#back');
      await page.until(isInView);
    }
    await page.shotsOfBoth('real');
  },

  async 'the items are those of the library'(page, library) {
    const { items, bytes } = await openCode(page, library, modules[0]);
    const shown = await page.run(() =>
      [...document.querySelectorAll('#items .item')].map((row) => [...row.children].map((cell) => cell.textContent)),
    );
    const { functions } = library.size(bytes);
    const nameOf = (index) => functions.find((it) => it.index === index).name ?? `function ${index}`;
    const expected = items.map(({ offset, size }, index) => [String(index), hex(offset), nameOf(index), number(size)]);
    assert.deepEqual(shown, expected.slice(0, shown.length));
    assert.equal(await page.text('items-facts'), number(items.length));
    // Other sections have the texts of the library.
    const exported = library.outline(bytes).findIndex(({ id }) => id === 7);
    await page.click(`#sections tbody tr[data-index="${exported}"]`);
    await page.until(() => document.querySelector('#items .text')?.textContent.startsWith('(export'));
    const texts = await page.run(() => [...document.querySelectorAll('#items .text')].map((it) => it.textContent));
    assert.deepEqual(texts, library.items(bytes, exported).slice(0, texts.length).map(({ text }) => text));
  },

  async 'a byte chooses the item that has it'(page, library) {
    const { items } = await openCode(page, library, modules[0]);
    const { offset } = items[1];
    await page.click(`#bytes b[data-offset="${offset}"]`);
    assert.equal(await page.run(() => document.querySelector('#items [aria-selected=true]').id), 'item-1');
    assert.equal((await bytesShown(page, 'b.on'))[0]?.[0], offset + 1);
    assert.equal((await bytesShown(page, 'b.spot'))[0][0], offset);
  },

  async 'an offset is shown, in whichever section it is'(page, library) {
    const { bytes, code, index } = await openCode(page, library, modules[0]);
    await page.click('#sections tbody tr');
    const offset = code.offset + code.size - 1;
    await goTo(page, hex(offset));
    await page.until(() => document.querySelector('#items [aria-selected=true]') !== null);
    assert.equal(await chosenRow(page), index + 1);
    assert.deepEqual(await bytesShown(page, 'b.spot'), [[offset, bytes[offset]]]);
    for (const wrong of [hex(bytes.length), '7', 'x', '']) {
      await goTo(page, wrong);
      assert.equal(await page.run(() => document.getElementById('offset').checkValidity()), false);
      await page.run(() => document.getElementById('offset').dispatchEvent(new Event('input')));
    }
  },
};

/** Whether the chosen item and the first of its bytes are in view, to a pixel. Runs in the page. */
function isInView() {
  const isIn = (selector, pane) => {
    const box = document.querySelector(selector)?.getBoundingClientRect();
    const view = document.querySelector(pane).getBoundingClientRect();
    return box !== undefined && box.top > view.top - 1 && box.bottom < view.bottom + 1;
  };
  return isIn('#bytes b.on', '#bytes') && isIn('#items [aria-selected=true]', '#items');
}

const showSavings = (page) => page.run(() => document.querySelector('.minimize').scrollIntoView({ block: 'end' }));

const minimizing = {
  async 'the bytes that each section saves, and the download'(page, library) {
    for (const file of [fileOf('padded.wasm', PADDED), ...modules]) {
      const bytes = new Uint8Array(fs.readFileSync(file));
      await page.choose(file);
      await page.until(isMinimized);
      const minimal = library.minimize(bytes);
      assert.deepEqual(await savings(page), savingsOf(library, bytes, minimal));
      const its = path.basename(file).replace('.wasm', '.min.wasm');
      assert.deepEqual(await page.download('#download', its), minimal);
      assert.equal(await page.run(() => document.getElementById('choices').hidden), true);
    }
    await showSavings(page);
    await page.shot('minimized', false);
  },

  async 'custom sections that hold offsets'(page, library) {
    const error = thrown(() => library.minimize(WITH_OFFSETS));
    await page.choose(fileOf('offsets.wasm', WITH_OFFSETS));
    const [message, option] = error.message.split('; ');
    assert.equal(option, 'dropOffsets drops such sections');
    await page.untilText('saving', `Not minimized: ${message}`);
    assert.equal(await page.run(isMinimized), false);
    await showSavings(page);
    await page.shot('offsets-refused', false);
    await page.click('#drop');
    await page.until(isMinimized);
    const minimal = library.minimize(WITH_OFFSETS, { dropOffsets: true });
    assert.deepEqual(await savings(page), savingsOf(library, WITH_OFFSETS, minimal));
    assert.deepEqual(await page.download('#download', 'offsets.min.wasm'), minimal);
    await page.shot('offsets-left-out', false);
    // The two buttons exclude each other.
    await page.click('#keep-code');
    await page.until(() => document.getElementById('saving').textContent.includes('saved'));
    const pressed = () => [...document.querySelectorAll('#choices [aria-pressed=true]')].map(({ id }) => id);
    assert.deepEqual(await page.run(pressed), ['keep-code']);
    const kept = library.minimize(WITH_OFFSETS, { keepCode: true });
    assert.deepEqual(await page.download('#download', 'offsets.min.wasm'), kept);
    await page.click('#keep-code');
    await page.untilText('saving', `Not minimized: ${message}`);
  },
};

const typeRecipe = (page, recipe) => page.run((text) => (document.getElementById('recipe').value = text), recipe);

const recipes = {
  async 'a recipe is built, and downloaded'(page, library) {
    await page.click('#write');
    const recipe = await page.run(() => document.getElementById('recipe').value);
    await page.click('#recipe-panel [type=submit]');
    await page.untilText('file-name', 'recipe.wasm');
    const module = library.assemble(recipe);
    assert.deepEqual(await rows(page), library.outline(module).map(rowOf));
    assert.deepEqual(await page.download('#save', 'recipe.wasm'), module);
    await page.shot('recipe');
  },

  async 'an error of a recipe shows its line'(page, library) {
    const recipe = 'type 60027f7f017f\nfunc 0\nexport add func\nbody 200020016a0b\n';
    const error = thrown(() => library.assemble(recipe));
    assert.equal(error.line, 3);
    await typeRecipe(page, recipe);
    await page.focus('#recipe');
    await page.key('Enter', CTRL);
    await page.untilText('recipe-error', error.message);
    const selected = await page.run(() => {
      const { value, selectionStart, selectionEnd } = document.getElementById('recipe');
      return value.slice(selectionStart, selectionEnd);
    });
    assert.equal(selected, 'export add func');
    assert.equal(await page.run(() => document.getElementById('recipe').ariaInvalid), 'true');
    await page.shot('recipe-error');
    await typeRecipe(page, recipe.replace('func\n', 'func 0\n'));
    await page.key('Enter', CTRL);
    await page.untilText('recipe-error', '');
    await page.click('#write');
  },
};

/** Presses Tab until an element that matches has the focus. */
async function tabTo(page, selector) {
  for (let turn = 0; turn < 30; turn += 1) {
    await page.key('Tab');
    if (await page.run((it) => document.activeElement.matches(it), selector)) return;
  }
  throw new Error(`Tab does not reach ${selector}`);
}

function hasFocusRing() {
  const { outlineStyle, outlineWidth } = getComputedStyle(document.activeElement);
  return outlineStyle === 'solid' && outlineWidth === '2px';
}

const blur = (page) => page.run(() => document.activeElement.blur());
const activeItem = (page) => page.run(() => document.activeElement.getAttribute('aria-activedescendant'));

const keyboard = {
  async 'the table and the items by keys'(page, library) {
    const { items, index, bytes } = await openCode(page, library, modules[0]);
    await blur(page);
    await tabTo(page, '#sections tr');
    assert.ok(await page.run(hasFocusRing));
    await page.key('Home');
    assert.equal(await chosenRow(page), 1);
    for (let turn = 0; turn < index; turn += 1) await page.key('ArrowDown');
    assert.equal(await chosenRow(page), index + 1);
    await page.key('Enter');
    assert.equal(await page.run(() => document.activeElement.id), 'items');
    assert.ok(await page.run(hasFocusRing));
    await page.until(hasItems);
    await page.key('ArrowDown');
    await page.key('ArrowDown');
    assert.equal(await activeItem(page), 'item-1');
    await page.key('End');
    const last = items.length - 1;
    assert.equal(await activeItem(page), `item-${last}`);
    assert.deepEqual((await bytesShown(page, 'b.on'))[0], [items[last].offset, bytes[items[last].offset]]);
  },

  async 'the bar by keys'(page, library) {
    const count = library.outline(fs.readFileSync(modules[0])).length;
    await page.choose(modules[0]);
    await blur(page);
    await tabTo(page, '#bar [role=option]');
    assert.ok(await page.run(hasFocusRing));
    await page.key('End');
    assert.equal(await chosenRow(page), count);
    await page.key('ArrowLeft');
    assert.equal(await chosenRow(page), count - 1);
    assert.equal(await page.run(() => document.activeElement.ariaSelected), 'true');
    await page.shot('keys');
  },

  async 'every control by Tab, and the download by Enter'(page, library) {
    await page.choose(fileOf('tabs.wasm', WITH_OFFSETS));
    await page.until(hasAnswer);
    // The treemap is drawn again when the functions are known, which takes the focus from it.
    await page.until(hasParts);
    await blur(page);
    const order = [
      '#file', '#example', '#write', '#compare', '#bar *', '#map .cell', '#sections button', '#sections tr', '#search',
      '#order', '#items', '#handle', '#offset', '#bytes', '#keep-code', '#drop',
    ];
    for (const selector of order) await tabTo(page, selector);
    await page.key('Enter');
    await page.until(isMinimized);
    await tabTo(page, '#download');
    await page.key('Enter');
    const dropped = library.minimize(WITH_OFFSETS, { dropOffsets: true });
    assert.deepEqual(await page.downloaded('tabs.min.wasm'), dropped);
  },
};

// ---- Treemap, functions, comparisons.

const cellsOf = (page, map = 'map') =>
  page.run(
    (id) =>
      [...document.getElementById(id).children].map((cell) => {
        const { width, height } = cell.getBoundingClientRect();
        return { label: cell.ariaLabel, area: (width + 1) * (height + 1), isNamed: cell.textContent !== '' };
      }),
    map,
  );

const mapPath = (page) => page.text('map-path');
const codeLines = (page) =>
  page.run(() => {
    const found = [...document.querySelectorAll('#code .instruction')];
    return found.map((row) => [...row.children].map((cell) => cell.textContent));
  });
const titleIs = (page, title) => page.untilText('function-title', title);
const hashOf = (page) => page.run(() => location.hash);
const hasParts = () => document.querySelectorAll('#map .part').length > 0;

const treemap = {
  async 'the areas of the treemap are sizes'(page, library) {
    await page.choose(modules[0]);
    await page.until(hasParts);
    const sizes = library.size(new Uint8Array(fs.readFileSync(modules[0]))).sections.map(({ size }) => size);
    const cells = await cellsOf(page);
    const [first, ...others] = cells.slice(0, 3);
    others.forEach(({ area }, index) => assert.ok(Math.abs(area / first.area - sizes[index + 1] / sizes[0]) < 0.01));
    assert.ok(cells[0].label.startsWith(`code, ${number(sizes[0])} bytes, `), cells[0].label);
  },

  async 'groups, into one and out again by keys'(page) {
    const functions = [['a::x', 40], ['a::y', 30], ['b::z', 20], ['main', 8]];
    await page.choose(fileOf('groups.wasm', namedModule(functions)));
    await page.until(hasParts);
    const colors = () => [...document.querySelectorAll('#map .part')].map((it) => getComputedStyle(it).backgroundColor);
    assert.equal(new Set(await page.run(colors)).size, 3);
    await blur(page);
    await tabTo(page, '#map .cell');
    assert.ok((await cellsOf(page))[0].label.startsWith('code, '));
    await page.key('Enter');
    const labels = (await cellsOf(page)).map(({ label }) => label.split(', ').slice(0, 2).join(', '));
    // The size of a body has its size prefix, the number of locals and `end`.
    assert.deepEqual(labels, ['a::*, 76 bytes', 'b::*, 23 bytes', 'without a prefix, 11 bytes']);
    await page.key('Enter');
    assert.equal(await mapPath(page), 'groups.wasm›code›a::*');
    await page.key('ArrowRight');
    await page.shotsOfBoth('treemap');
    await page.key('Enter');
    await titleIs(page, 'a::y');
    await tabTo(page, '#map .cell').catch(() => {});
    await page.focus('#map .cell');
    await page.key('Escape');
    assert.equal(await mapPath(page), 'groups.wasm›code');
    await page.click('#map-path button');
    assert.equal(await mapPath(page), 'groups.wasm');
  },

  async 'a function of a damaged module'(page) {
    const module = namedModule([['a', 40], ['b', 30], ['c', 20]]);
    const names = module.length - 20;
    await page.choose(fileOf('cut-names.wasm', module.subarray(0, names - 20)));
    await page.until(hasItems);
    await page.click('#item-0');
    await titleIs(page, 'function 0');
    assert.equal((await codeLines(page))[0][1], 'nop');
  },
};

const functions = {
  async 'a function has the instructions of the library'(page, library) {
    const { bytes, items } = await openCode(page, library, modules[0]);
    const index = items.findIndex(({ size }) => size > 300);
    await page.run((its) => (document.getElementById('items').scrollTop = its * 20), index);
    await page.until((its) => document.getElementById(`item-${its}`) !== null, index);
    await page.click(`#item-${index}`);
    await page.until(() => document.querySelectorAll('#code .instruction').length > 10);
    const { instructions } = library.disassemble(bytes, index);
    const lines = await codeLines(page);
    lines.forEach(([at, text], row) => {
      const { offset, name: its, operands } = instructions[row];
      assert.equal(at, hex(offset));
      assert.equal(text.split(' ')[0], its);
      if (operands[0]?.kind === 'local') assert.equal(text, `${its} ${operands[0].index}`);
    });
    await page.shotsOfBoth('function');
  },

  async 'links to callees, and the history'(page) {
    await page.choose(fileOf('calls.wasm', CALLS));
    await page.click('#sections tbody tr[data-index="2"]');
    await page.until(hasItems);
    await page.click('#item-0');
    await titleIs(page, 'one');
    assert.deepEqual((await codeLines(page)).map(([, text]) => text), ['local.get 0 <count>', 'call 1 <two>', 'end']);
    assert.equal(await hashOf(page), '#function=0');
    await page.click('#code a');
    await titleIs(page, 'two');
    assert.equal(await hashOf(page), '#function=1');
    await page.run(() => history.back());
    await titleIs(page, 'one');
    await page.run(() => history.forward());
    await titleIs(page, 'two');
    // By keys: the second instruction of `one` is the call.
    await page.run(() => history.back());
    await titleIs(page, 'one');
    await page.focus('#code');
    await page.key('ArrowDown');
    await page.key('ArrowDown');
    assert.equal((await bytesShown(page, 'b.on')).length, 2);
    await page.key('Enter');
    await titleIs(page, 'two');
    await page.click('#back');
    assert.equal(await page.run(() => document.getElementById('list').hidden), false);
  },

  async 'relocations are below what they patch, as dolzhytik dump -r prints them'(page) {
    await page.choose(fileOf('object.o', OBJECT));
    await page.run(() => (location.hash = '#function=1'));
    await titleIs(page, 'main');
    assert.deepEqual(await codeLines(page), [
      ['0x27', 'call 0 <env.printf>'], ['0x28', 'R_WASM_FUNCTION_INDEX_LEB 0 <env.printf>'],
      ['0x2d', 'i32.const 0'], ['0x2e', 'R_WASM_MEMORY_ADDR_SLEB 1 <far>-2'], ['0x33', 'drop'],
      ['0x34', 'i32.const 1'], ['0x35', 'R_WASM_TABLE_INDEX_SLEB 2 <main>'], ['0x3a', 'drop'], ['0x3b', 'end'],
    ]);
    assert.ok((await page.text('function-facts')).startsWith('function 1 · 6 instructions'));
    await page.shotsOfBoth('relocations');
    // A relocation marks the bytes that it patches, and a byte the instruction that has it.
    await page.click('#instruction-3');
    assert.equal(await page.text('items-note'), 'R_WASM_MEMORY_ADDR_SLEB 1 <far>-2');
    assert.deepEqual((await bytesShown(page, 'b.on')).map(([offset]) => offset), [0x2e, 0x2f, 0x30, 0x31, 0x32]);
    assert.equal(await page.text('picked'), 'R_WASM_MEMORY_ADDR_SLEB: 0x2e to 0x32, 5 bytes');
    await page.click('#bytes b[data-offset="47"]');
    assert.equal(await page.run(() => document.querySelector('#code [aria-selected=true]').id), 'instruction-2');
    // By keys: the symbol of the function is a link.
    await page.focus('#code');
    await page.key('Home');
    await page.key('ArrowDown');
    await page.key('Enter');
    await page.untilText('picked', 'Function 0 is imported: env.printf');
    await page.click('#sections tbody tr[data-index="5"]');
    await page.until(() => document.querySelector('#items .text')?.textContent.startsWith('relocations of'));
    assert.equal(await page.count('#items .item'), 4);
  },

  async 'the type and the locals of a function, with their indices'(page) {
    const body = [0x02, 0x02, 0x7e, 0x01, 0x7d, 0x20, 0x00, 0x0b];
    await page.choose(fileOf('locals.wasm', moduleOf(TYPES, FUNCTION, section(10, [0x01, body.length], body))));
    await page.run(() => (location.hash = '#function=0'));
    await page.untilText('items-note', '(func (param i32) (result i32)), locals 1 to 2 i64, local 3 f32');
  },

  async 'an address with a function or an offset'(page) {
    await page.choose(fileOf('calls.wasm', CALLS));
    await page.run(() => (location.hash = '#function=1'));
    await titleIs(page, 'two');
    await page.run(() => (location.hash = '#offset=0x9'));
    await page.until(() => document.querySelector('#bytes .spot')?.dataset.offset === '9');
    // The items of the section with the byte come after the text about the function.
    await page.run(() => (location.hash = '#function=1'));
    await titleIs(page, 'two');
    await page.run(() => ['#offset=0x9', '#function=7'].forEach((hash) => (location.hash = hash)));
    await page.untilText('picked', 'The module has no function 7.');
    await page.until(hasItems);
    assert.equal(await page.text('picked'), 'The module has no function 7.');
  },

  async 'the way back from a function of an address is to that function'(page) {
    const names = Array.from({ length: 300 }, (_, index) => [`f${index}`, 1]);
    await page.choose(fileOf('many-functions.wasm', namedModule(names)));
    await page.run(() => (location.hash = '#function=250'));
    await titleIs(page, 'f250');
    await page.click('#back');
    await page.until(isInView);
    assert.equal(await page.run(() => document.querySelector('#items [aria-selected=true]').id), 'item-250');
  },

  async 'the address of a page is shown when a file opens'(page) {
    const other = new Page(page.browser, room, null);
    await other.start(page.origin, '/#function=1');
    await other.choose(fileOf('calls.wasm', CALLS));
    await titleIs(other, 'two').finally(async () => {
      await other.close();
      await page.show();
    });
  },

  async 'lists are sorted and searched'(page) {
    const functions = [['beta', 5], ['alpha', 9], ['gamma', 1], ['alpine', 3]];
    await page.choose(fileOf('sorted.wasm', namedModule(functions)));
    await page.click('#sections tbody tr[data-index="2"]');
    await page.until(hasItems);
    const texts = () => page.run(() => [...document.querySelectorAll('#items .text')].map((it) => it.textContent));
    const set = (id, value, type) =>
      page.run((its, text, kind) => {
        document.getElementById(its).value = text;
        document.getElementById(its).dispatchEvent(new Event(kind));
      }, id, value, type);
    await set('order', 'size', 'change');
    assert.deepEqual(await texts(), ['alpha', 'beta', 'alpine', 'gamma']);
    await set('order', 'name', 'change');
    assert.deepEqual(await texts(), ['alpha', 'alpine', 'beta', 'gamma']);
    await set('search', 'ALP', 'input');
    assert.deepEqual(await texts(), ['alpha', 'alpine']);
    assert.equal(await page.text('items-facts'), '2 of 4');
    await set('search', 'none', 'input');
    assert.equal(await page.text('items'), 'No item has "none".');
    await set('search', '', 'input');
    await set('order', 'index', 'change');
    assert.deepEqual(await texts(), functions.map(([text]) => text));
    // The table of sections.
    await page.click('#sections [data-order=size]');
    const sizes = (await rows(page)).map((row) => Number(row[4]));
    assert.deepEqual(sizes, [...sizes].sort((a, b) => b - a));
    await page.click('#sections [data-order=name]');
    assert.deepEqual((await rows(page)).map((row) => row[2]), ['code', 'function', 'name', 'type']);
    await page.click('#sections [data-order=index]');
  },
};

const comparing = {
  async 'two files: the table and the treemap'(page) {
    const old = namedModule([['same', 4], ['grows', 10], ['gone', 20]]);
    const now = namedModule([['same', 4], ['grows', 25], ['new', 7]]);
    await page.choose(fileOf('old.wasm', old), fileOf('now.wasm', now));
    await page.until(() => !document.getElementById('comparison').hidden);
    assert.equal(await page.text('comparison-title'), 'old.wasm → now.wasm');
    const table = await page.run(() => {
      const found = [...document.querySelectorAll('#changes tr')];
      return found.map(({ cells }) => [...cells].map((it) => it.textContent));
    });
    const ofKind = (kind) => table.filter(([its]) => its === kind).map((row) => row.slice(1));
    // A body has its size prefix, the number of locals and `end` beside its instructions.
    assert.deepEqual(ofKind('function'), [
      ['gone', '23', '–', '−23', '−100%'], ['grows', '13', '28', '+15', '+115%'], ['new', '–', '10', '+10', '–'],
      ['1 other', '7', '7', '0', '0%'],
    ]);
    const change = (found) => found.reduce((sum, row) => sum + Number(row[3].replace('−', '-').replace('+', '')), 0);
    assert.equal(change(ofKind('section')), now.length - old.length);
    assert.equal(table.at(-1)[3], number(now.length));
    const cells = await cellsOf(page, 'changes-map');
    const labels = cells.slice(0, 3).map(({ label }) => label);
    assert.deepEqual(labels, ['gone −23, 23 bytes', 'grows +15, 15 bytes', 'new +10, 10 bytes']);
    const legend = await page.text('changes-head');
    assert.deepEqual(legend.trim().split(/\s{2,}/), ['Changes', 'grown or added', 'shrunk or removed']);
    const colors = await page.run(() => {
      const colorOf = (it) => getComputedStyle(it).backgroundColor;
      const swatches = [...document.querySelectorAll('#changes-head .swatch')].map(colorOf);
      return [swatches, [...document.getElementById('changes-map').children].map(colorOf)];
    });
    const [[grown, shrunk], [gone, grows, added]] = colors;
    assert.deepEqual([gone, grows, added], [shrunk, grown, grown]);
    // Functions of the open file are links, in the table and in the treemap.
    assert.deepEqual(await textsOf(page, '#changes a'), ['grows', 'new']);
    await page.click('#changes a');
    await titleIs(page, 'grows');
    await page.run(() => document.getElementById('changes-map').children[2].click());
    await titleIs(page, 'new');
    assert.ok(Math.abs(cells[1].area / cells[0].area - 15 / 23) < 0.02);
    assert.deepEqual((await rows(page)).length, 4);
    await page.shotsOfBoth('compared');
  },

  async 'two equal files are dropped, and the end of a comparison'(page) {
    const files = [fileOf('a.wasm', PADDED), fileOf('b.wasm', PADDED)];
    const data = { items: [], files, dragOperationsMask: 1 };
    for (const type of ['dragEnter', 'dragOver', 'drop']) {
      await page.send('Input.dispatchDragEvent', { type, x: 800, y: 500, data });
    }
    await page.untilText('comparison-title', 'a.wasm → b.wasm');
    const hidden = () => ['no-changes', 'changes-head', 'changes-map'].map((id) => document.getElementById(id).hidden);
    assert.deepEqual(await page.run(hidden), [false, true, true]);
    await page.click('#comparison-close');
    assert.equal(await page.run(() => document.getElementById('comparison').hidden), true);
  },
};

const handle = {
  async 'the handle by keys and by dragging'(page, library) {
    await openCode(page, library, modules[0]);
    const part = () => page.run(() => {
      const boxOf = (its) => document.querySelector(`.halves > .${its}`).getBoundingClientRect();
      const [list, bytes] = ['items', 'bytes'].map(boxOf);
      return list.height / (list.height + bytes.height);
    });
    await page.resize(1280, 900);
    await page.focus('#handle');
    for (let turn = 0; turn < 4; turn += 1) await page.key('ArrowDown');
    assert.ok(Math.abs((await part()) - 0.7) < 0.02);
    const { x, y } = await page.run(() => {
      const handle = document.getElementById('handle');
      handle.scrollIntoView({ block: 'center' });
      const box = handle.getBoundingClientRect();
      return { x: box.x + 20, y: box.y + 4 };
    });
    const pressed = { button: 'left', buttons: 1, clickCount: 1 };
    const mouse = (type, at) => page.send('Input.dispatchMouseEvent', { type, x, y: at, ...pressed });
    await mouse('mousePressed', y);
    await mouse('mouseMoved', y - 200);
    await mouse('mouseReleased', y - 200);
    assert.ok((await part()) < 0.5);
    await page.resize(1600, 1000);
  },
};

const example = {
  async 'the example of the page'(page, library) {
    await page.click('#example');
    await page.untilText('status', 'example.wasm is open.');
    const bytes = new Uint8Array(fs.readFileSync(path.join(HERE, 'example.wasm')));
    assert.deepEqual(await rows(page), library.outline(bytes).map(rowOf));
    assert.ok(bytes.length > 25_000 && bytes.length < 32_000, `${bytes.length} bytes`);
    assert.ok(library.size(bytes).groups.length > 2);
  },
};

/**
 * How much wider than the window the page is, and than their pane the bytes are. Runs in the page.
 */
function overflow() {
  const right = (selector) => document.querySelector(selector).getBoundingClientRect().right;
  return [document.scrollingElement.scrollWidth - innerWidth, right('#bytes .ascii') - right('#bytes')];
}

/** Keeps the layout shifts that no input causes. Runs in the page. */
function watchShifts() {
  window.shifts = [];
  const textOf = ({ value, sources }) => `${value}: ${sources.map(({ node }) => node?.id || node?.className)}`;
  window.keepShifts = (entries) => {
    const moved = entries.filter(({ hadRecentInput }) => !hadRecentInput);
    window.shifts.push(...moved.map(textOf));
  };
  window.shiftObserver = new PerformanceObserver((list) => window.keepShifts(list.getEntries()));
  window.shiftObserver.observe({ type: 'layout-shift' });
}

/** The layout shifts up to now, with those of which the observer was not called yet. */
async function shiftsOf(page) {
  await page.painted();
  return page.run(() => {
    window.keepShifts(window.shiftObserver.takeRecords());
    window.shiftObserver.disconnect();
    return window.shifts;
  });
}

/** Checks the contrast, and returns the background. */
async function backWithContrast(page, isDark) {
  await page.dark(isDark);
  const { ratio, what } = await page.run(leastContrast);
  assert.ok(ratio >= 4.5, `contrast ${ratio.toFixed(2)}, ${isDark ? 'dark' : 'light'}: ${what}`);
  return page.run(() => getComputedStyle(document.body).backgroundColor);
}

const hasAnswer = () => document.getElementById('saving').textContent !== 'Minimizing';

const looks = {
  async 'contrast in light and dark'(page) {
    for (const file of [modules[0], fileOf('cut.wasm', PADDED.subarray(0, 30))]) {
      await page.choose(file);
      const light = await backWithContrast(page, false);
      const dark = await backWithContrast(page, true);
      assert.notEqual(light, dark);
    }
    await page.dark(false);
  },

  async 'names, contrast and width at 1280 and 390 pixels'(page) {
    await page.shot('start');
    const offsets = fileOf('offsets.wasm', WITH_OFFSETS);
    const cut = fileOf('cut.wasm', PADDED.subarray(0, 33));
    const example = path.join(HERE, 'example.wasm');
    const cutExample = fileOf('cut-example.wasm', fs.readFileSync(example).subarray(0, 15_000));
    const states = [
      ['example', [example]], ['offsets', [offsets]], ['cut', [cut]], ['cut-example', [cutExample]], ['compared', [example, modules[0]]],
      ['function', [fileOf('calls.wasm', CALLS)], '#function=0'],
    ];
    for (const [its, files, hash] of states) {
      await page.choose(...files);
      await page.until(hasAnswer);
      if (hash) await page.run((to) => (location.hash = to), hash);
      if (hash) await titleIs(page, 'one');
      if (files.length > 1) await page.until(() => !document.getElementById('comparison').hidden);
      for (const [width, height] of [[1280, 800], [390, 844]]) {
        await page.resize(width, height);
        await page.painted();
        assert.deepEqual(await page.run(faultyControls), [], `${its} at ${width}`);
        const over = await page.run(() => document.scrollingElement.scrollWidth - innerWidth);
        assert.ok(over <= 0, `${its} at ${width}`);
        await backWithContrast(page, false);
        await backWithContrast(page, true);
        await page.dark(false);
        await page.shotsOfBoth(`${its}-${width}`);
      }
    }
    await page.resize(1600, 1000);
  },

  async '400 to 1600 pixels'(page, library) {
    const { items } = await openCode(page, library, modules[0]);
    await page.focus('#items');
    await page.key('End');
    const last = `#item-${items.length - 1}`;
    for (const width of [400, 700, 1000, 1200, 1366, 1600]) {
      await page.resize(width, 900);
      await page.until(isInView);
      const over = await page.run(overflow);
      assert.ok(Math.max(...over) <= 0, `${over} pixels too wide at ${width}`);
      assert.equal(await page.count(`${last}[aria-selected=true]`), 1);
      await page.shot(`width-${width}`);
    }
    await page.resize(400, 2400);
    await page.shot('narrow');
    await page.resize(1600, 1000);
  },

  async 'nothing moves when items and savings come'(page) {
    await page.choose(modules[0]);
    await page.run(watchShifts);
    await page.choose(fileOf(path.basename(modules[0]), fs.readFileSync(modules[0])));
    await page.until(hasAnswer);
    await page.until(hasItems);
    assert.deepEqual(await shiftsOf(page), []);
  },
};

const large = {
  async 'a module of 18 MB'(page, library) {
    const bytes = largeModule();
    const file = fileOf('large.wasm', bytes);
    const start = performance.now();
    await page.choose(file);
    await page.painted();
    const ms = performance.now() - start;
    console.log(`${number(bytes.length)} bytes: the table is painted after ${ms.toFixed()} ms`);
    assert.deepEqual(await rows(page), library.outline(bytes).map(rowOf));
    await page.until(isMinimized);
    console.log(`${number(bytes.length)} bytes: minimized after ${(performance.now() - start).toFixed()} ms`);
  },

  async 'its bytes and items are few elements'(page, library) {
    const { code, bytes } = await openCode(page, library, path.join(room, 'large.wasm'));
    const elements = await page.count('*');
    assert.ok(elements < 6000, `${elements} elements`);
    assert.equal(await page.text('items-facts'), number(300_000));
    const last = code.offset + code.size - 1;
    await goTo(page, last);
    assert.deepEqual(await bytesShown(page, 'b.spot'), [[last, bytes[last]]]);
    await page.shot('large');
    await page.click('#byte-pages button');
    const [[first]] = await bytesShown(page, 'b:not(.none)');
    assert.ok(code.offset < first && first < last - 65_536);
  },

  async 'of 80,000 parts and rows, few are elements'(page) {
    await page.resize(1280, 800);
    for (const [name, bytes] of [['segments', segmentsModule(80_000)], ['functions', groupedModule(80_000, 4_000_000)]]) {
      await page.choose(fileOf(`${name}.wasm`, bytes));
      await page.until(hasParts);
      const parts = await page.count('#map .part');
      assert.ok(parts < 2000, `${parts} parts of ${name}`);
      // The data section has no groups: segments that are not shown one by one are in others.
      if (name === 'segments') assert.match((await textsOf(page, '#map .part')).join(), /\d others of at most 4 bytes/);
    }
    await page.until(hasAnswer);
    await page.click('#sections tbody tr[data-index="2"]');
    await page.untilText('items-facts', '80,000');
    assert.equal((await page.run(scrollList)).rows, 80_000);
    const items = await page.count('#items .item');
    assert.ok(items < 200, `${items} items`);
    await page.resize(1600, 1000);
  },

  async 'a list is asked for at once, and comes in messages in their order'(page) {
    const answers = await page.run(async () => {
      const { received } = await import('/page/engine.js');
      const asked = [];
      const call = (at) => new Promise((answer) => asked.push({ at, answer }));
      const list = received(4500, call, (item) => -item);
      const starts = asked.map(({ at }) => at);
      asked.forEach(({ at, answer }) => answer(at ? [at] : [1, 2]));
      return { starts, items: await list };
    });
    assert.deepEqual(answers, { starts: [0, 2000, 4000], items: [-1, -2, -2000, -4000] });
  },

  async 'nothing moves while it is minimized'(page) {
    await page.resize(400, 900);
    await page.choose(path.join(room, 'large.wasm'));
    await showSavings(page);
    await page.run(watchShifts);
    await page.until(hasAnswer);
    assert.deepEqual(await shiftsOf(page), []);
    await page.resize(1600, 1000);
  },

  async 'the items are those of the section chosen last'(page, library) {
    await page.choose(path.join(room, 'large.wasm'));
    await page.run(() => [5, 3, 4].forEach((row) => document.querySelectorAll('#sections tr')[row].click()));
    await page.until(hasItems);
    const [{ text }] = library.items(fs.readFileSync(path.join(room, 'large.wasm')), 3);
    assert.equal(await page.run(() => document.querySelector('#items .text').textContent), text);
    assert.equal(await chosenRow(page), 4);
  },

  async 'a small module opens while a large one is minimized'(page, library) {
    await page.choose(path.join(room, 'large.wasm'));
    await page.choose(fileOf('small.wasm', PADDED));
    await page.until(isMinimized);
    assert.deepEqual(await savings(page), savingsOf(library, PADDED, library.minimize(PADDED)));
  },
};

const quiet = {
  async 'no request to another host, and no error in the console'(page) {
    const urls = page.requests.filter((url) => !/^(data|blob):/.test(url));
    assert.deepEqual([...new Set(urls.map((url) => new URL(url).origin))], [page.origin]);
    assert.ok(urls.includes(`${page.origin}/dolzhytik.wasm`));
    assert.deepEqual(page.complaints, []);
  },

  async 'a page whose WebAssembly module does not load'(page) {
    const broken = new Page(page.browser, room, shots);
    await broken.start(page.origin, '/broken/', 'dolzhytik.wasm does not load: ');
    assert.ok((await broken.text('status')).endsWith('HTTP status 404'));
  },
};

// ---- The run.

async function runTests(page, library) {
  const groups = [
    opening, damaged, chosen, treemap, functions, comparing, handle, example, minimizing, recipes, keyboard, looks, large,
    quiet,
  ];
  const counts = { passed: 0, failed: 0 };
  for (const [its, test] of groups.flatMap(Object.entries)) {
    if (only && !its.includes(only)) continue;
    try {
      await test(page, library);
      counts.passed += 1;
    } catch (error) {
      counts.failed += 1;
      console.log(`${its}: failed: ${error.stack}`);
    }
  }
  return counts;
}

async function main(chromium) {
  const library = await import('./dolzhytik.js');
  const server = await serve();
  const browser = new Browser(chromium, room);
  const page = new Page(browser, room, shots);
  try {
    await page.start(`http://127.0.0.1:${server.address().port}`);
    const { passed, failed } = await runTests(page, library);
    console.log(`${passed} passed, ${failed} failed`);
    return failed ? 1 : 0;
  } finally {
    await browser.close();
    server.close();
  }
}

function whyNot(chromium) {
  if (!chromium) return 'there is no chromium';
  const isBuilt = fs.existsSync(path.join(HERE, 'dolzhytik.wasm'));
  return isBuilt ? null : 'there is no rust/web/dolzhytik.wasm: tools/web --build makes it';
}

const chromium = findChromium();
const reason = whyNot(chromium);
if (reason) console.log(`page: not run: ${reason}`);
try {
  process.exitCode = reason ? 77 : await main(chromium);
} finally {
  fs.rmSync(room, { recursive: true, force: true });
}
