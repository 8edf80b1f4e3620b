// A tab of chromium with the page, and the server of it. The tests and the benchmark use it.
import fs from 'node:fs';
import http from 'node:http';
import path from 'node:path';
import { fileURLToPath } from 'node:url';

const HERE = path.dirname(fileURLToPath(import.meta.url));
/** After these milliseconds a condition that is waited for is an error. No test depends on them. */
const LONGEST_WAIT = 120_000;
const sleep = (ms) => new Promise((resolve) => setTimeout(resolve, ms));

/** Waits until a function returns true, and throws what `late` returns if it does not. */
async function waited(isTrue, late) {
  const end = Date.now() + LONGEST_WAIT;
  while (!(await isTrue())) {
    if (Date.now() > end) throw new Error(`not in ${LONGEST_WAIT / 1000} s: ${late()}`);
    await sleep(10);
  }
}

/** Waits until two frames are painted, in which observers of sizes have taken the new ones. */
function painted() {
  const frame = () => new Promise((done) => requestAnimationFrame(() => setTimeout(done)));
  return frame().then(frame);
}

// ---- The server.

const MEDIA_TYPES = { '.html': 'text/html', '.css': 'text/css', '.js': 'text/javascript', '.wasm': 'application/wasm' };

/** Serves the folder, and at /broken the folder without the WebAssembly module. */
function respond(request, response) {
  const { pathname } = new URL(request.url, 'http://localhost');
  const file = path.join(HERE, pathname.replace(/^\/broken\//, '/').replace(/\/$/, '/index.html'));
  const isMissing = !file.startsWith(HERE + path.sep) || !fs.existsSync(file);
  if (isMissing || pathname === '/broken/dolzhytik.wasm') return response.writeHead(404).end();
  response.writeHead(200, { 'content-type': MEDIA_TYPES[path.extname(file)] ?? 'application/octet-stream' });
  response.end(fs.readFileSync(file));
}

export async function serve() {
  const server = http.createServer(respond);
  await new Promise((resolve) => server.listen(0, '127.0.0.1', resolve));
  return server;
}

// ---- The tab.

const KEYS = {
  Tab: 9, Enter: 13, Escape: 27, End: 35, Home: 36, ArrowLeft: 37, ArrowUp: 38, ArrowRight: 39, ArrowDown: 40,
};
export const CTRL = 2;

/**
 * Scrolls through the list of items in 120 steps, each of which draws other rows and lays them out.
 * Returns the milliseconds of each step, and the number of rows. Runs in the page.
 */
export async function scrollList() {
  const list = document.getElementById('items');
  const times = [];
  for (let step = 0; step < 120; step += 1) {
    const start = performance.now();
    list.scrollTop = (list.scrollHeight * step) / 120;
    list.dispatchEvent(new Event('scroll'));
    list.getBoundingClientRect();
    times.push(performance.now() - start);
    await new Promise((done) => requestAnimationFrame(done));
  }
  const rows = Number(document.querySelector('#items .item').getAttribute('aria-setsize'));
  return { times: times.sort((a, b) => a - b), rows };
}

/** A tab with the page; the requests of it and its workers, and their errors and messages. */
export class Page {
  requests = [];
  complaints = [];
  /** How many downloads are complete, and how many of them `downloaded` has read. */
  downloads = 0;
  #read = 0;
  /** What takes the events of a trace. */
  #trace = null;

  /** Downloads and screenshots are in these folders. Without the second there are none. */
  constructor(browser, room, shots) {
    Object.assign(this, { browser, room, shots });
    this.listen();
  }

  /** Takes the events of the browser, which another tab may have taken. */
  listen() {
    this.browser.onEvent = (event) => this.#hear(event);
  }

  /** Opens the page at an address, and waits for its first status. */
  async start(origin, folder = '/', status = 'Ready.') {
    this.origin = origin;
    const { targetId } = await this.browser.send('Target.createTarget', { url: 'about:blank' });
    const { sessionId } = await this.browser.send('Target.attachToTarget', { targetId, flatten: true });
    Object.assign(this, { session: sessionId, target: targetId });
    await this.#watch(sessionId);
    await this.send('Page.enable');
    const downloads = { behavior: 'allow', downloadPath: this.room, eventsEnabled: true };
    await this.browser.send('Browser.setDownloadBehavior', downloads);
    await this.resize(1600, 1000);
    await this.send('Page.navigate', { url: origin + folder });
    await this.until((text) => document.getElementById('status')?.textContent.startsWith(text), status);
  }

  close() {
    return this.browser.send('Target.closeTarget', { targetId: this.target });
  }

  /** Shows the tab, which another one was before: a tab that is not shown is not painted. */
  async show() {
    this.listen();
    await this.send('Page.bringToFront');
  }

  send(method, params) {
    return this.browser.send(method, params, this.session);
  }

  /** Watches a target, and the workers that it starts. */
  async #watch(session) {
    const send = (method, params) => this.browser.send(method, params, session);
    const autoAttach = { autoAttach: true, waitForDebuggerOnStart: true, flatten: true };
    await Promise.all([send('Network.enable'), send('Runtime.enable'), send('Target.setAutoAttach', autoAttach)]);
    await send('Log.enable').catch(() => {});
    await send('Runtime.runIfWaitingForDebugger');
  }

  #hear({ method, params }) {
    const said = {
      'Runtime.exceptionThrown': () => params.exceptionDetails.exception?.description ?? params.exceptionDetails.text,
      'Runtime.consoleAPICalled': () => params.args.map(({ value }) => value).join(' '),
      'Log.entryAdded': () => params.entry.text,
    }[method];
    if (said) this.complaints.push(said());
    if (method === 'Tracing.dataCollected') this.#trace.events.push(...params.value);
    if (method === 'Tracing.tracingComplete') this.#trace.end();
    if (method === 'Browser.downloadProgress' && params.state === 'completed') this.downloads += 1;
    if (method === 'Network.requestWillBeSent') this.requests.push(params.request.url);
    if (method === 'Target.attachedToTarget') this.#watch(params.sessionId).catch(() => {});
  }

  /** Calls a function in the page. It has the arguments, and nothing else of this file. */
  async run(call, ...values) {
    const expression = `(${call})(...${JSON.stringify(values)})`;
    const asked = { expression, awaitPromise: true, returnByValue: true, userGesture: true };
    const { result, exceptionDetails } = await this.send('Runtime.evaluate', asked);
    if (exceptionDetails) throw new Error(exceptionDetails.exception?.description ?? exceptionDetails.text);
    return result.value;
  }

  /**
   * Calls a function. Returns its value, and the processor time of the longest task of the page's
   * thread meanwhile, in milliseconds: waiting for other programs does not count.
   */
  async traced(call) {
    const events = [];
    const complete = new Promise((end) => (this.#trace = { events, end }));
    const traceConfig = { includedCategories: ['toplevel', 'blink.user_timing'], excludedCategories: ['*'] };
    await this.browser.send('Tracing.start', { transferMode: 'ReportEvents', traceConfig });
    await this.run(() => performance.mark('traced') && null);
    const value = await call();
    await this.browser.send('Tracing.end');
    await complete;
    const { pid, tid } = events.find(({ name }) => name === 'traced');
    const isTask = (it) => it.pid === pid && it.tid === tid && it.name === 'ThreadControllerImpl::RunTask';
    return { value, longest: Math.max(...events.filter(isTask).map(({ tdur }) => tdur ?? 0)) / 1000 };
  }

  /** Waits until a function in the page returns true. */
  until(call, ...values) {
    return waited(() => this.run(call, ...values), () => `${call} ${values}`);
  }

  /** Waits until the page is painted as it is now. */
  painted() {
    return this.run(`async () => { ${painted}; await painted(); return true; }`);
  }

  text(id) {
    return this.run((its) => document.getElementById(its).textContent, id);
  }

  untilText(id, text) {
    return this.until((its, wanted) => document.getElementById(its).textContent === wanted, id, text);
  }

  focus(selector) {
    return this.run((it) => document.querySelector(it).focus(), selector);
  }

  count(selector) {
    return this.run((it) => document.querySelectorAll(it).length, selector);
  }

  async resize(width, height) {
    const metrics = { width, height, deviceScaleFactor: 1, mobile: false };
    await this.send('Emulation.setDeviceMetricsOverride', metrics);
    await this.until((x, y) => innerWidth === x && innerHeight === y, width, height);
  }

  dark(isDark) {
    const features = [{ name: 'prefers-color-scheme', value: isDark ? 'dark' : 'light' }];
    return this.send('Emulation.setEmulatedMedia', { features });
  }

  async key(key, modifiers = 0) {
    const event = { key, code: key, windowsVirtualKeyCode: KEYS[key], modifiers };
    const isText = key === 'Enter' && modifiers === 0;
    const down = isText ? { type: 'keyDown', text: '\r' } : { type: 'rawKeyDown' };
    await this.send('Input.dispatchKeyEvent', { ...event, ...down });
    await this.send('Input.dispatchKeyEvent', { ...event, type: 'keyUp' });
  }

  async click(selector) {
    const { x, y } = await this.run((it) => {
      const element = document.querySelector(it);
      element.scrollIntoView({ block: 'nearest' });
      const box = element.getBoundingClientRect();
      return { x: box.x + box.width / 2, y: box.y + box.height / 2 };
    }, selector);
    for (const type of ['mousePressed', 'mouseReleased']) {
      await this.send('Input.dispatchMouseEvent', { type, x, y, button: 'left', clickCount: 1 });
    }
  }

  /** Sets the files of the input, and waits for the table of the last one. */
  async choose(...files) {
    await this.run(() => (document.getElementById('status').textContent = ''));
    const { result } = await this.send('Runtime.evaluate', { expression: 'document.getElementById("file")' });
    await this.send('DOM.setFileInputFiles', { objectId: result.objectId, files });
    await this.untilText('status', `${path.basename(files.at(-1))} is open.`);
  }

  /** Clicks on a button, and returns the bytes of the file that it downloads. */
  async download(selector, name) {
    const file = path.join(this.room, name);
    fs.rmSync(file, { force: true });
    await this.click(selector);
    return this.downloaded(name);
  }

  async downloaded(name) {
    this.#read += 1;
    await waited(() => this.downloads >= this.#read, () => `the download of ${name}`);
    return new Uint8Array(fs.readFileSync(path.join(this.room, name)));
  }

  /** Writes a screenshot of the page from its top, or as far as it is scrolled. */
  async shot(name, isTop = true) {
    if (!this.shots) return;
    if (isTop) await this.run(() => scrollTo(0, 0));
    await this.painted();
    const { data } = await this.send('Page.captureScreenshot', { format: 'png' });
    fs.mkdirSync(this.shots, { recursive: true });
    fs.writeFileSync(path.join(this.shots, `${name}.png`), Buffer.from(data, 'base64'));
  }

  async shotsOfBoth(name) {
    await this.shot(`${name}-light`);
    await this.dark(true);
    await this.shot(`${name}-dark`);
    await this.dark(false);
  }
}
