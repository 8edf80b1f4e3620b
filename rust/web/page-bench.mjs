#!/usr/bin/env node
// Measures the page in chromium: how long a module of 50 MB takes to open, a treemap of 20,000
// functions to draw, and a step of scrolling 80,000 functions. Times that are not processor time
// depend on what else the machine does. The longest task, of the thread of the page, is that of
// scrolling, and that of opening 80,000 data segments or functions until they are in the treemap.
//
//     rust/web/page-bench.mjs
//
// It prints a line for each, and fails at none. The exit status is 77 if there is no chromium, or
// no dolzhytik.wasm.
import fs from 'node:fs';
import os from 'node:os';
import path from 'node:path';
import { Browser, findChromium } from './chromium.mjs';
import { groupedModule, segmentsModule } from './modules.mjs';
import { Page, scrollList, serve } from './tab.mjs';

const room = fs.mkdtempSync(path.join(os.tmpdir(), 'dolzhytik-bench-'));
const isMinimized = () => document.getElementById('saving').textContent !== 'Minimizing';
const hasParts = () => document.querySelectorAll('#map .part').length > 0;

function fileOf(name, bytes) {
  const file = path.join(room, name);
  fs.writeFileSync(file, bytes);
  return file;
}

const said = (ms, what) => console.log(`${ms.toFixed().padStart(6)} ms  ${what}`);

async function open(page, file, what) {
  const start = performance.now();
  await page.choose(file);
  await page.painted();
  said(performance.now() - start, `${what}: the table is painted`);
  await page.until(hasParts);
  await page.painted();
  said(performance.now() - start, `${what}: all are in the treemap`);
}

/** Opens a file, and measures the tasks meanwhile too. */
async function openTraced(page, file, what) {
  const { longest } = await page.traced(() => open(page, file, what));
  said(longest, `${what}: the longest task, in processor time`);
  await page.until(isMinimized);
}

/** Goes into the code section of the treemap. Runs in the page. */
async function drawCode() {
  const start = performance.now();
  document.querySelector('#map .cell').click();
  document.getElementById('map').getBoundingClientRect();
  const drawn = performance.now() - start;
  await new Promise((done) => requestAnimationFrame(() => setTimeout(done)));
  const cells = document.querySelectorAll('#map .cell, #map .part').length;
  return { drawn, painted: performance.now() - start, cells };
}

async function measureTreemap(page, groups) {
  const what = `20,000 functions in ${groups === 1 ? '1 group' : `${groups} groups`}`;
  await open(page, fileOf('grouped.wasm', groupedModule(20_000, 2_000_000, groups)), `2 MB, ${what}`);
  const { drawn, painted, cells } = await page.run(drawCode);
  said(drawn, `treemap of ${what}: drawn, ${cells} boxes`);
  said(painted, 'the same: painted');
}

async function measure(page) {
  await page.resize(1280, 800);
  await measureTreemap(page, 40);
  await measureTreemap(page, 1);
  await openTraced(page, fileOf('segments.wasm', segmentsModule(80_000)), '0.3 MB, 80,000 data segments');
  const file = fileOf('large.wasm', groupedModule(80_000, 50_000_000));
  await openTraced(page, file, `${(fs.statSync(file).size / 1e6).toFixed(1)} MB, 80,000 functions`);
  await page.run(() => document.querySelector('#sections tbody tr[data-index="2"]').click());
  await page.until(() => document.getElementById('items-facts').textContent === '80,000');
  await page.painted();
  for (let round = 1; round <= 3; round += 1) {
    const { value: { times, rows }, longest } = await page.traced(() => page.run(scrollList));
    const what = `scrolling ${rows.toLocaleString('en-US')} rows, round ${round}`;
    said(times[60], `${what}: the median of 120 steps`);
    said(times.at(-1), `${what}: the longest step`);
    said(longest, `${what}: the longest task, in processor time`);
  }
}

async function main(chromium) {
  const server = await serve();
  const browser = new Browser(chromium, room);
  try {
    const page = new Page(browser, room, null);
    await page.start(`http://127.0.0.1:${server.address().port}`);
    await measure(page);
    return 0;
  } finally {
    await browser.close();
    server.close();
  }
}

const chromium = findChromium();
const isBuilt = fs.existsSync(new URL('./dolzhytik.wasm', import.meta.url));
if (!chromium || !isBuilt) console.log(`not run: there is no ${chromium ? 'dolzhytik.wasm' : 'chromium'}`);
try {
  process.exitCode = chromium && isBuilt ? await main(chromium) : 77;
} finally {
  fs.rmSync(room, { recursive: true, force: true });
}
