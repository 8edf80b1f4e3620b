// The tests of the package as npm packs it: in Node, bundled by esbuild, in Chromium, and its types
// with tsc. tools/web runs them. Those whose tool is not installed are skipped.
import assert from 'node:assert/strict';
import { execFileSync } from 'node:child_process';
import fs from 'node:fs';
import http from 'node:http';
import os from 'node:os';
import path from 'node:path';
import { after, before, test } from 'node:test';
import { fileURLToPath, pathToFileURL } from 'node:url';
import { Browser, findChromium } from './chromium.mjs';

const room = fs.mkdtempSync(path.join(os.tmpdir(), 'dolzhytik-package-'));
const at = (...names) => path.join(room, ...names);
const PACKAGE = at('node_modules/dolzhytik');

/** Runs a program in the room, and returns its output. */
function run(program, ...words) {
  const env = { ...process.env, npm_config_cache: at('cache'), npm_config_offline: 'true' };
  delete env.NODE_TEST_CONTEXT;
  return execFileSync(program, words, { cwd: room, env, encoding: 'utf8', stdio: ['ignore', 'pipe', 'pipe'] });
}

/** Why tests that need a program are skipped, or false. */
function lacks(program) {
  try {
    run(program, '--version');
    return false;
  } catch {
    return `there is no ${program}`;
  }
}

/** Writes a file, and the folders above it. */
function write(name, text) {
  fs.mkdirSync(path.dirname(at(name)), { recursive: true });
  fs.writeFileSync(at(name), text);
}

/** Copies dolzhytik.wasm to a folder of a bundle. */
function copyModule(folder) {
  fs.copyFileSync(path.join(PACKAGE, 'dolzhytik.wasm'), at(folder, 'dolzhytik.wasm'));
}

before(() => {
  const folder = fileURLToPath(new URL('.', import.meta.url));
  const [{ filename }] = JSON.parse(run('npm', 'pack', folder, '--json'));
  fs.mkdirSync(PACKAGE, { recursive: true });
  run('tar', '-xzf', filename, '--strip-components=1', '-C', PACKAGE);
});

/** The kinds of the sections of a module of one type, in JavaScript that is the end of a script. */
const KINDS = "outline(assemble('type 600000')).map(({ kind }) => kind).join()";
const EXPECTED = 'type';

// Node.

test('a module of Node calls at once', () => {
  write('once.mjs', `import { assemble, outline } from 'dolzhytik';\nconsole.log(${KINDS});`);
  assert.equal(run('node', 'once.mjs'), `${EXPECTED}\n`);
});

test('CommonJS of Node imports', () => {
  write('import.cjs', `import('dolzhytik').then(({ assemble, outline }) => console.log(${KINDS}));`);
  assert.equal(run('node', 'import.cjs'), `${EXPECTED}\n`);
});

const canRequire = Boolean(process.features.require_module);

test('CommonJS of Node requires', { skip: !canRequire && 'this Node requires no modules' }, () => {
  write('require.cjs', `const { assemble, outline } = require('dolzhytik');\nconsole.log(${KINDS});`);
  assert.equal(run('node', 'require.cjs'), `${EXPECTED}\n`);
});

test('init of Node takes each source', () => {
  const sources = [
    '', 'bytes', 'bytes.buffer', 'new WebAssembly.Module(bytes)', 'new Response(bytes)', 'Promise.resolve(bytes)',
    "new URL(import.meta.resolve('dolzhytik/dolzhytik.wasm'))",
  ];
  write('init.mjs', `
    import { readFileSync } from 'node:fs';
    import { assemble, init, outline } from 'dolzhytik';
    const bytes = Uint8Array.from(readFileSync('node_modules/dolzhytik/dolzhytik.wasm'));
    ${sources.map((source) => `await init(${source});\nconsole.log(${KINDS});`).join('\n')}`);
  assert.equal(run('node', 'init.mjs'), `${EXPECTED}\n`.repeat(sources.length));
});

test('dump, disassemble, size and strip of the package', () => {
  write('calls.mjs', `
    import { assemble, disassemble, dump, size, strip } from 'dolzhytik';
    const module = assemble('type 600000\\nfunc 0\\nbody 010b\\nname n');
    const names = disassemble(module, 0).instructions.map(({ name }) => name);
    console.log(dump(module).length, names.join(), size(module).functions[0].size, strip(module).length);`);
  // Types, functions, code and names. The header has 8 bytes, the first sections 6, 4 and 7.
  assert.equal(run('node', 'calls.mjs'), '4 nop,end 4 25\n');
});

test('each script exports the same names', () => {
  write('names.mjs', `
    for (const script of ['node', 'browser', 'dolzhytik']) {
      console.log(Object.keys(await import(\`./node_modules/dolzhytik/\${script}.js\`)).join());
    }`);
  const [node, browser, page] = run('node', 'names.mjs').split('\n');
  assert.match(node, /init/);
  assert.deepEqual([browser, page], [node, node]);
});

test('calls before init, and sources that do not load', async () => {
  const { assemble, init, outline } = await import(pathToFileURL(path.join(PACKAGE, 'browser.js')));
  const isUnloaded = () => assert.throws(() => assemble(''), { message: /^dolzhytik.wasm is not loaded: await init\(\)/ });
  isUnloaded();
  await assert.rejects(init(new Response('', { status: 404 })), { message: /HTTP status 404$/ });
  await assert.rejects(init(Uint8Array.of(0)), WebAssembly.CompileError);
  await assert.rejects(init(null), TypeError);
  // Node fetches no files, at the second call as at the first.
  await assert.rejects(init());
  await assert.rejects(init());
  isUnloaded();
  await Promise.all([init(fs.readFileSync(path.join(PACKAGE, 'dolzhytik.wasm'))), init().catch(() => {})]);
  assert.deepEqual(outline(assemble('')), []);
  // A source that does not load leaves the one before.
  await assert.rejects(init(Uint8Array.of(0)), WebAssembly.CompileError);
  await init();
  assert.deepEqual(outline(assemble('')), []);
});

// esbuild.

const noEsbuild = lacks('esbuild');

/** Bundles a script to a folder of its own, and returns the path of the bundle. */
function bundle(folder, script, ...words) {
  write(`${folder}.mjs`, script);
  run('esbuild', `${folder}.mjs`, '--bundle', '--log-level=warning', `--outfile=${folder}/app.js`, ...words);
  return at(folder, 'app.js');
}

for (const [format, type] of [['cjs', 'commonjs'], ['esm', 'module']]) {
  test(`a bundle for Node, ${format}`, { skip: noEsbuild }, () => {
    const script = `import { assemble, outline } from 'dolzhytik';\nconsole.log(${KINDS});`;
    const file = bundle(format, script, '--platform=node', `--format=${format}`);
    write(`${format}/package.json`, JSON.stringify({ type }));
    copyModule(format);
    assert.equal(run('node', file), `${EXPECTED}\n`);
  });
}

test('a bundle that calls nothing has nothing of the package', { skip: noEsbuild }, () => {
  const file = bundle('unused', "import { outline } from 'dolzhytik';\nconsole.log(1);", '--platform=browser');
  assert(!fs.readFileSync(file, 'utf8').includes('TextDecoder'));
});

// Chromium.

const chromium = findChromium();
const noBrowser = noEsbuild || (!chromium && 'there is no chromium');
const MEDIA_TYPES = { '.html': 'text/html', '.js': 'text/javascript', '.mjs': 'text/javascript' };
let requests = [];
let browser = null;
let server = null;

/** Serves the room. dolzhytik.wasm has no media type of its own. */
function respond(request, response) {
  const file = at(request.url);
  requests.push(request.url);
  if (!fs.existsSync(file)) return response.writeHead(404).end();
  response.writeHead(200, { 'content-type': MEDIA_TYPES[path.extname(file)] ?? 'application/octet-stream' });
  return response.end(fs.readFileSync(file));
}

before(async () => {
  if (!chromium) return;
  server = http.createServer(respond);
  await new Promise((resolve) => server.listen(0, '127.0.0.1', resolve));
  browser = new Browser(chromium, room);
});
after(async () => {
  await browser?.close();
  server?.close();
  fs.rmSync(room, { recursive: true, force: true });
});

/** Opens a page of this HTML in a folder, and returns the result that a script of it sets. */
async function resultOf(folder, html) {
  write(`${folder}/index.html`, `<!doctype html><meta charset="utf-8"><link rel="icon" href="data:,">${html}`);
  requests = [];
  const { targetId } = await browser.send('Target.createTarget', { url: 'about:blank' });
  const { sessionId } = await browser.send('Target.attachToTarget', { targetId, flatten: true });
  const url = `http://127.0.0.1:${server.address().port}/${folder}/index.html`;
  await browser.send('Page.navigate', { url }, sessionId);
  const expression = `new Promise((resolve, reject) => {
    setTimeout(() => reject(new Error('no result in 60 s')), 60_000);
    const look = () => (globalThis.result ? resolve(globalThis.result) : setTimeout(look, 10));
    look();
  })`;
  const asked = { expression, awaitPromise: true, returnByValue: true };
  const { result, exceptionDetails } = await browser.send('Runtime.evaluate', asked, sessionId);
  if (exceptionDetails) throw new Error(exceptionDetails.exception?.description ?? exceptionDetails.text);
  return result.value;
}

/** A script that sets the result after init. */
const script = (source = '') => `
  import { assemble, init, outline } from 'dolzhytik';
  globalThis.result = init(${source}).then(() => ${KINDS});`;

const BESIDE = script();

test('a classic script in Chromium', { skip: noBrowser }, async () => {
  bundle('classic', BESIDE, '--platform=browser');
  copyModule('classic');
  assert.equal(await resultOf('classic', '<script src="app.js"></script>'), EXPECTED);
  assert.deepEqual(requests, ['/classic/index.html', '/classic/app.js', '/classic/dolzhytik.wasm']);
});

test('a module in Chromium', { skip: noBrowser }, async () => {
  bundle('module', BESIDE, '--platform=browser', '--format=esm');
  copyModule('module');
  assert.equal(await resultOf('module', '<script type="module" src="app.js"></script>'), EXPECTED);
});

test('a bundle of one file in Chromium', { skip: noBrowser }, async () => {
  const bytes = "import bytes from 'dolzhytik/dolzhytik.wasm';";
  bundle('one', bytes + script('bytes'), '--platform=browser', '--loader:.wasm=binary');
  assert.equal(await resultOf('one', '<script src="app.js"></script>'), EXPECTED);
  assert.deepEqual(requests, ['/one/index.html', '/one/app.js']);
});

test('addresses and responses in Chromium', { skip: noBrowser }, async () => {
  for (const source of ['url', 'new URL(url, location)', 'fetch(url)']) {
    const url = "import url from 'dolzhytik/dolzhytik.wasm';";
    bundle('address', url + script(source), '--platform=browser', '--loader:.wasm=file', '--public-path=/address');
    assert.equal(await resultOf('address', '<script src="app.js"></script>'), EXPECTED);
    assert.match(requests[2], /^\/address\/dolzhytik-\w+\.wasm$/);
  }
});

/** A page that posts a message to a worker, and takes the answer as its result. */
const PAGE = (options, message) => `<script>
  const worker = new Worker('app.js', ${JSON.stringify(options)});
  globalThis.result = new Promise((resolve, reject) => {
    worker.onmessage = ({ data }) => resolve(data);
    worker.onerror = ({ message }) => reject(new Error(message));
  });
  Promise.resolve(${message}).then((data) => worker.postMessage(data));
</script>`;

const WORKER = `
  import { assemble, init, outline } from 'dolzhytik';
  self.onmessage = async ({ data }) => {
    try {
      await init(data);
      postMessage(${KINDS});
    } catch (error) {
      postMessage(error.stack);
    }
  };`;

test('a classic worker in Chromium', { skip: noBrowser }, async () => {
  bundle('worker', WORKER, '--platform=browser');
  copyModule('worker');
  assert.equal(await resultOf('worker', PAGE({}, 'undefined')), EXPECTED);
});

test('a module worker in Chromium', { skip: noBrowser }, async () => {
  bundle('module-worker', WORKER, '--platform=browser', '--format=esm');
  copyModule('module-worker');
  assert.equal(await resultOf('module-worker', PAGE({ type: 'module' }, 'undefined')), EXPECTED);
});

test('a worker in Chromium that is posted a WebAssembly.Module', { skip: noBrowser }, async () => {
  bundle('posted', WORKER, '--platform=browser');
  const module = "WebAssembly.compileStreaming(fetch('/node_modules/dolzhytik/dolzhytik.wasm').then((response) => "
    + "new Response(response.body, { headers: { 'content-type': 'application/wasm' } })))";
  assert.equal(await resultOf('posted', PAGE({}, module)), EXPECTED);
});

test('a page and a worker in Chromium without a bundler', { skip: !chromium && 'there is no chromium' }, async () => {
  const file = '/node_modules/dolzhytik/dolzhytik.js';
  const once = `import { assemble, outline } from 'dolzhytik';\nglobalThis.result = Promise.resolve(${KINDS});`;
  const map = `<script type="importmap">{ "imports": { "dolzhytik": "${file}" } }</script>`;
  assert.equal(await resultOf('map', `${map}<script type="module">${once}</script>`), EXPECTED);
  // The worker has called before it takes the message.
  write('at-once/app.js', `
    import { assemble, outline } from '${file}';
    const kinds = ${KINDS};
    self.onmessage = () => postMessage(kinds);
    postMessage(kinds);`);
  assert.equal(await resultOf('at-once', PAGE({ type: 'module' }, 'undefined')), EXPECTED);
});

// tsc.

test('the types, with the library dom and without', { skip: lacks('tsc') }, () => {
  write('types.mts', `
    import {
      type DumpedSection, type Instruction, type Section, disassemble, dump, init, minimize, outline, size, strip,
    } from 'dolzhytik';
    declare const response: Promise<Response>;
    const loaded: Promise<void> = init(response);
    loaded.then(() => init(new Uint8Array(8))).then(() => init());
    export const sections: Section[] = outline(minimize(new Uint8Array(8), { dropOffsets: true, keepCode: false }));
    export const dumped: DumpedSection[] = dump(strip(new Uint8Array(8), { debug: true, keep: ['name'] }));
    export const [first]: Instruction[] = disassemble(new Uint8Array(8), 0).instructions;
    export const names: (string | null)[] = size(new Uint8Array(8)).functions.map(({ name }) => name);
    export const called: number[] = first.operands.flatMap((it) => (it.kind === 'function' ? [it.index] : []));`);
  for (const lib of ['es2020', 'es2020,dom']) {
    run('tsc', '--strict', '--noEmit', '--skipDefaultLibCheck', '--module', 'node16', '--lib', lib, 'types.mts');
  }
});
