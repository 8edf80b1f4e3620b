// The tests of the package, which tools/web runs. Expected bytes are from the WebAssembly format,
// by hand.
import assert from 'node:assert/strict';
import { execFileSync } from 'node:child_process';
import { copyFile, mkdtemp, readFile, rm, writeFile } from 'node:fs/promises';
import { tmpdir } from 'node:os';
import { join } from 'node:path';
import { test } from 'node:test';
import { fileURLToPath, pathToFileURL } from 'node:url';

// The exports of each instance that the package makes.
const instances = [];
const { Instance, instantiate } = WebAssembly;
WebAssembly.instantiate = async (module) => {
  const instance = await instantiate(module);
  instances.push(instance.exports);
  return instance;
};
WebAssembly.Instance = class extends Instance {
  constructor(module) {
    super(module);
    instances.push(this.exports);
  }
};

const dz = await import('./dolzhytik.js');
const { DolzhytikError, assemble, disassemble, dump, items, list, minimize, outline, size, strip } = dz;

function hex(text) {
  return Uint8Array.from(text.match(/[0-9a-f]{2}/gi) ?? [], (digits) => parseInt(digits, 16));
}

function path(name) {
  return fileURLToPath(new URL(name, import.meta.url));
}

const HEADER = '0061736d 01000000';

function moduleOf(...sections) {
  return hex(HEADER + sections.join(''));
}

/** Adds two numbers: sections of types, functions, exports and code. */
const ADD = moduleOf('01 07 01 60027f7f017f', '03 02 01 00', '07 07 01 03616464 00 00', '0a 09 01 07 00 200020016a0b');
/** The offsets at which its sections begin, and its end. */
const BORDERS = [8, 17, 21, 30, 41];

const section = (id, kind, offset, size, count, name = null) => ({ id, kind, name, offset, size, items: count });
const ADD_OUTLINE = [
  section(1, 'type', 10, 7, 1),
  section(3, 'function', 19, 2, 1),
  section(7, 'export', 23, 7, 1),
  section(10, 'code', 32, 9, 1),
];

/** The DolzhytikError of a call. */
function errorOf(call) {
  try {
    call();
  } catch (error) {
    assert(error instanceof DolzhytikError, error);
    assert.equal(error.name, 'DolzhytikError');
    return error;
  }
  return assert.fail('the call returns');
}

function checkError(call, message, cause, { offset = null, line = null }) {
  const error = errorOf(call);
  assert.deepEqual(
    { message: error.message, cause: error.cause, offset: error.offset, line: error.line },
    { message, cause, offset, line },
  );
}

// Outlines and lists.

test('an outline has the sections', () => {
  assert.deepEqual(outline(ADD), ADD_OUTLINE);
  assert.deepEqual(outline(hex(HEADER)), []);
});

test('an outline has sections that do not decode, and names of custom sections', () => {
  const customs = ['00 05 03616263 ff', '00 01 09', '0e 00', '00 05 04efbbbf61'];
  assert.deepEqual(outline(moduleOf('03 01 07', ...customs, '0c 01 02', '08 01 00')), [
    section(3, 'function', 10, 1, null),
    section(0, 'custom', 13, 5, null, 'abc'),
    section(0, 'custom', 20, 1, null),
    section(14, 'unknown', 23, 0, null),
    section(0, 'custom', 25, 5, null, '\ufeffa'),
    section(12, 'data count', 32, 1, 1),
    section(8, 'start', 35, 1, 1),
  ]);
});

test('the kinds of all ids', () => {
  const ids = Array.from({ length: 15 }, (_, id) => `${id.toString(16).padStart(2, '0')} 00`);
  assert.deepEqual(outline(moduleOf(...ids)).map(({ kind }) => kind), [
    'custom', 'type', 'import', 'function', 'table', 'memory', 'global', 'export', 'start', 'element', 'code', 'data',
    'data count', 'tag', 'unknown',
  ]);
});

test('a list has the sections of an outline', () => {
  assert.deepEqual(list(ADD), ADD_OUTLINE);
  assert.deepEqual(list(moduleOf('00 05 03616263 ff', '0e 01 00')), [
    section(0, 'custom', 10, 5, null, 'abc'),
    section(14, 'unknown', 17, 1, null),
  ]);
});

test('a list has no section that does not decode', () => {
  const ended = 'unexpected end of input';
  const rows = [
    // Seven functions, of which none is there.
    [['0e 00', '03 01 07'], 2, 'function', 0xd, ended, 10],
    // A type of the form 07.
    [['01 02 01 07'], 1, 'type', 0xb, 'unexpected byte or value', 8],
    // A byte FF in the name of an export.
    [['07 05 01 01ff 00 00'], 1, 'export', 0xc, 'invalid UTF-8', 8],
    [['0c 02 01 00'], 1, 'data count', 0xb, 'bytes remain after the value', 8],
    // A name of nine bytes.
    [['00 01 09'], 1, 'custom', 0xb, ended, 8],
    // A name map of one name, whose length is not there.
    [['00 09 046e616d65 01 02 01 00'], 1, 'custom "name"', 0x13, ended, 8],
  ];
  for (const [sections, number, kind, at, cause, offset] of rows) {
    const message = `section ${number} (${kind}) at offset 0x${at.toString(16)}: ${cause}`;
    checkError(() => list(moduleOf(...sections)), message, cause, { offset });
  }
});

test('a list decodes all encodings that the standard admits', () => {
  // An import of a global of the type anyref, in one byte.
  const module = moduleOf('02 08 01 016d 0167 03 6e 00');
  assert.deepEqual(list(module), [section(2, 'import', 10, 8, 1)]);
});

// Minimal encodings.

test('numbers get their minimal encodings', () => {
  const padded = moduleOf('03 86 00 01 85 80 80 80 00', '0a 8c 00 81 00 88 00 00 20 81 00 41 80 00 0b');
  assert.deepEqual(minimize(padded), moduleOf('03 02 01 05', '0a 08 01 06 00 20 01 41 00 0b'));
  assert.deepEqual(minimize(ADD), ADD);
});

test('a section that does not decode is kept', () => {
  const module = moduleOf('03 01 07', '0a 84 00 01 02 00 0b');
  assert.deepEqual(minimize(module), moduleOf('03 01 07', '0a 04 01 02 00 0b'));
});

test('custom sections that hold offsets', () => {
  const code = '0a 84 00 01 02 00 0b';
  const module = moduleOf(code, '00 08 072e64656275675f');
  const cause = 'holds offsets that would become wrong; dropOffsets drops such sections';
  checkError(() => minimize(module), `section 2, ".debug_", ${cause}`, cause, { offset: 15 });
  checkError(() => minimize(module, { dropOffsets: false }), `section 2, ".debug_", ${cause}`, cause, { offset: 15 });
  assert.deepEqual(minimize(module, { dropOffsets: true }), moduleOf('0a 04 01 02 00 0b'));
  assert.deepEqual(minimize(module, { dropOffsets: 'yes' }), moduleOf('0a 04 01 02 00 0b'));
  const minimal = moduleOf('0a 04 01 02 00 0b', '00 08 072e64656275675f');
  assert.deepEqual(minimize(minimal, {}), minimal);
});

test('custom sections that hold offsets, and the code stays', () => {
  const [types, code] = ['01 85 00 01 60 01 7f 00', '0a 84 00 01 02 00 0b'];
  const debug = '00 08 072e64656275675f';
  const minimalTypes = '01 05 01 60 01 7f 00';
  assert.deepEqual(minimize(moduleOf(types, code, debug), { keepCode: true }), moduleOf(minimalTypes, code, debug));
  // All before the code stay with a source map, which counts from the first byte.
  const map = custom('sourceMappingURL', '0161');
  assert.deepEqual(minimize(moduleOf(types, code, map), { keepCode: true }), moduleOf(types, code, map));
  // Relocations of types: these stay. Their own numbers are minimal.
  const [padded, minimal] = ['8000 00', '00 00'].map((numbers) => custom('reloc.TYPE', numbers));
  const linking = custom('linking', '02');
  assert.deepEqual(minimize(moduleOf(types, linking, padded), { keepCode: true }), moduleOf(types, linking, minimal));
  const cut = custom('reloc.TYPE', '00 02 00');
  assert.deepEqual(minimize(moduleOf(types, cut), { keepCode: true }), moduleOf(types, cut));
  assert.throws(() => minimize(ADD, { dropOffsets: true, keepCode: true }), TypeError);
});

test('the argument is not changed, and a result has its own bytes', () => {
  const argument = ADD.slice();
  const result = minimize(argument);
  assert.deepEqual(argument, ADD);
  assert.equal(result.byteOffset, 0);
  assert.equal(result.buffer.byteLength, ADD.length);
  result.fill(0);
  assert.deepEqual(minimize(argument), ADD);
});

test('a module is a part of a buffer', () => {
  const buffer = new Uint8Array(100).fill(7);
  buffer.set(ADD, 30);
  assert.deepEqual(outline(buffer.subarray(30, 30 + ADD.length)), ADD_OUTLINE);
  assert.deepEqual(outline(Buffer.from(ADD)), ADD_OUTLINE);
  const shared = new Uint8Array(new SharedArrayBuffer(ADD.length));
  shared.set(ADD);
  assert.deepEqual(outline(shared), ADD_OUTLINE);
});

// Recipes.

test('a recipe', () => {
  const module = assemble('type 60027f7f017f\nfunc 0\nexport add func 0\nbody 200020016a0b\n');
  assert.deepEqual(module, ADD);
  assert.equal(new Instance(new WebAssembly.Module(module)).exports.add(2, 3), 5);
  assert.deepEqual(assemble(''), hex(HEADER));
  assert.deepEqual(assemble('name ф'), moduleOf('00 0a 046e616d65 00 03 02d184'));
});

test('a recipe of version 2', () => {
  const recipe = `# Adds its argument to a local.
    version 2
    type 60017f017f
    memory 1 2
    func 0
    locals 1 i32   # local 1
    body 200020016a0b`;
  assert.deepEqual(
    assemble(recipe),
    moduleOf('01 06 01 60017f017f', '03 02 01 00', '05 04 01 01 01 02', '0a 0b 01 09 01 017f 200020016a0b'),
  );
});

test('recipes of version 2 that are none', () => {
  const check = (lines, line, cause) => {
    const place = line === 0 ? 'behind the last line' : `line ${line}`;
    checkError(() => assemble(`version 2\n${lines}`), `${place}: ${cause}`, cause, { line });
  };
  check('memory 1 2 3', 2, 'surplus word');
  check('import m g global i16', 2, 'unknown type');
  check('func 0\nlocals 1 i32', 0, 'locals without a body');
  checkError(() => assemble('func 0\nversion 2'), 'line 2: unknown command', 'unknown command', { line: 2 });
});

test('recipes that are none', () => {
  checkError(() => assemble('func 0\nfunk 1'), 'line 2: unknown command', 'unknown command', { line: 2 });
  checkError(() => assemble('\nbody 0'), 'line 2: bad hex', 'bad hex', { line: 2 });
  checkError(() => assemble('func x'), 'line 1: bad number', 'bad number', { line: 1 });
  checkError(() => assemble('export f'), 'line 1: missing word', 'missing word', { line: 1 });
});

// Items.

const item = (offset, size, text) => ({ offset, size, text });

/**
 * Checks the items of a section with this id and payload, each of which has its bytes and its text.
 */
function checkItems(id, before, rows) {
  const bytes = rows.map(([text]) => hex(text));
  const payload = Uint8Array.from([...hex(before), ...bytes.flatMap((row) => [...row])]);
  assert(payload.length < 128);
  const module = Uint8Array.from([...moduleOf('0e 00'), id, payload.length, ...payload, 14, 0]);
  let offset = 12 + hex(before).length;
  const expected = rows.map(([, text], index) => {
    offset += bytes[index].length;
    return item(offset - bytes[index].length, bytes[index].length, text);
  });
  assert.deepEqual(items(module, 1), expected);
  assert.deepEqual(items(module, 1, 1), expected.slice(0, 1));
  assert.deepEqual(items(module, 1, Infinity), expected);
  assert.deepEqual(items(module, 1, 0), []);
}

test('types', () => {
  checkItems(1, '06', [
    ['60 02 7f7e 01 7d', '(type (func (param i32 i64) (result f32)))'],
    ['60 00 00', '(type (func))'],
    ['5e 78 01', '(type (array (mut i8)))'],
    ['5f 02 7c 00 64 6b 01', '(type (struct (field f64 (mut (ref struct)))))'],
    ['50 01 00 60 00 00', '(type (sub 0 (func)))'],
    ['4e 02 4f 01 00 60 00 00 5e 77 00', '(rec (type (sub final 0 (func))) (type (array i16)))'],
  ]);
  checkItems(1, '05', [
    ['65 4c 01 5e 7f 00', '(type (shared (describes 1) (array i32)))'],
    ['50 00 5d 03', '(type (sub (cont 3)))'],
    ['65 5f 00', '(type (shared (struct)))'],
    ['4c 01 4d 02 5f 00', '(type (describes 1) (descriptor 2) (struct))'],
    ['4e 00', '(rec)'],
  ]);
});

test('value types', () => {
  const rows = [
    ['7f', 'i32'], ['7e', 'i64'], ['7d', 'f32'], ['7c', 'f64'], ['7b', 'v128'], ['70', 'funcref'],
    ['6f', 'externref'], ['63 6e', 'anyref'], ['63 6d', 'eqref'], ['63 6c', 'i31ref'], ['63 6b', 'structref'],
    ['63 6a', 'arrayref'], ['63 69', 'exnref'], ['63 74', 'nullexnref'], ['63 73', 'nullfuncref'],
    ['63 72', 'nullexternref'], ['63 71', 'nullref'], ['63 68', 'contref'], ['63 75', 'nullcontref'],
    ['64 70', '(ref func)'], ['64 07', '(ref 7)'], ['63 07', '(ref null 7)'], ['64 62 07', '(ref (exact 7))'],
    ['63 65 6e', '(ref null (shared any))'],
  ];
  const texts = rows.map(([, text]) => text).join(' ');
  const bytes = rows.map(([type]) => type).join(' ');
  checkItems(1, '01', [[`60 ${rows.length.toString(16)} ${bytes} 00`, `(type (func (param ${texts})))`]]);
});

test('imports', () => {
  checkItems(2, '06', [
    ['03656e76 0166 00 07', '(import "env" "f" (func (type 7)))'],
    ['03656e76 0174 01 70 00 0a', '(import "env" "t" (table 10 funcref))'],
    ['03656e76 016d 02 01 01 02', '(import "env" "m" (memory 1 2))'],
    ['03656e76 0167 03 7f 01', '(import "env" "g" (global (mut i32)))'],
    ['00 0165 04 00 02', '(import "" "e" (tag (type 2)))'],
    ['0161 0162 20 03', '(import "a" "b" (func exact (type 3)))'],
  ]);
  checkItems(2, '02', [
    ['0161 00 7f 02 0162 00 00 0163 03 7e 00', '(import "a" (item "b" (func (type 0))) (item "c" (global i64)))'],
    ['0161 00 7e 00 05 02 0162 0163', '(import "a" (item "b") (item "c") (func (type 5)))'],
  ]);
});

test('functions, tables, memories, globals, exports and tags', () => {
  checkItems(3, '03', [['00', '(func (type 0))'], ['80 01', '(func (type 128))'], ['81 00', '(func (type 1))']]);
  checkItems(4, '03', [
    ['70 01 01 02', '(table 1 2 funcref)'],
    ['6f 04 03', '(table i64 3 externref)'],
    ['40 00 64 00 00 01 d2 05 0b', '(table 1 (ref 0) (ref.func 5))'],
  ]);
  checkItems(5, '05', [
    ['00 11', '(memory 17)'],
    ['03 01 02', '(memory 1 2 shared)'],
    ['05 01 80 80 80 80 10', '(memory i64 1 4294967296)'],
    ['08 01 00', '(memory 1 (pagesize 1))'],
    ['08 01 40', '(memory 1 (pagesize 2^64))'],
  ]);
  checkItems(6, '02', [
    ['7f 01 41 7f 0b', '(global (mut i32) (i32.const -1))'],
    ['7e 02 42 05 0b', '(global (shared i64) (i64.const 5))'],
  ]);
  checkItems(7, '05', [
    ['0166 00 07', '(export "f" (func 7))'],
    ['0174 01 00', '(export "t" (table 0))'],
    ['016d 02 00', '(export "m" (memory 0))'],
    ['0167 03 01', '(export "g" (global 1))'],
    ['03220a74 04 00', '(export "\\"\\nt" (tag 0))'],
  ]);
  checkItems(13, '01', [['00 03', '(tag (type 3))']]);
});

test('one number', () => {
  checkItems(8, '', [['87 00', '(start 7)']]);
  checkItems(12, '', [['03', '3 data segments']]);
});

test('expressions', () => {
  const global = (bytes, text) => [`7f 00 ${bytes} 0b`, `(global i32 ${text})`];
  checkItems(6, '09', [
    global('23 02 41 0a 6a', '(global.get 2) (i32.const 10) (i32.add)'),
    global('43 0000c03f', '(f32.const 1.5)'),
    global('43 010080ff', '(f32.const -nan:0x1)'),
    global('44 000000000000f07f', '(f64.const inf)'),
    global('d0 70', '(ref.null func)'),
    global('d0 07', '(ref.null 7)'),
    global('fb 08 01 02', '(array.new_fixed 1 2)'),
    global('45', '(opcode 0x45)'),
    global('', '()'),
  ]);
  checkItems(6, '02', [
    global('fd 0c 0100000000000000 ff00000000000000', '(v128.const i64x2 0x1 0xff)'),
    global('fd 0e', '(opcode 0xfd 14)'),
  ]);
});

test('segments', () => {
  checkItems(9, '05', [
    ['00 41 01 0b 02 05 06', '(elem (i32.const 1) func 5 6)'],
    ['01 00 01 07', '(elem func 7)'],
    ['03 00 00', '(elem declare func)'],
    ['06 02 41 00 0b 70 01 d0 70 0b', '(elem (table 2) (i32.const 0) funcref (ref.null func))'],
    [`00 41 00 0b 12 ${'00'.repeat(18)}`, `(elem (i32.const 0) func${' 0'.repeat(16)} (; 2 more ;))`],
  ]);
  checkItems(11, '03', [
    ['00 41 08 0b 03 616263', '(data (i32.const 8) (; 3 bytes ;))'],
    ['01 01 61', '(data (; 1 byte ;))'],
    ['02 01 23 00 0b 00', '(data (memory 1) (global.get 0) (; 0 bytes ;))'],
  ]);
});

test('bodies', () => {
  checkItems(10, '03', [
    ['02 00 0b', 'body 0: 0 locals, 1 instruction'],
    ['09 02 01 7f 02 7e 20 00 1a 0b', 'body 1: 3 locals, 3 instructions'],
    ['88 00 01 81 80 00 7f 01 01 0b', 'body 2: 1 local, 3 instructions'],
  ]);
  const locals = 'ffffffff0f7f';
  checkItems(10, '01', [[`0e 02 ${locals} ${locals} 0b`, 'body 0: 8589934590 locals, 1 instruction']]);
});

test('names', () => {
  const name = '046e616d65';
  const module = moduleOf(
    `00 3a ${name}`,
    '00 03 02 6d6e',
    '01 09 02 00 0161 8100 0262 62'.replaceAll(' ', ''),
    '02 08 01 03 02 00 0178 01 00'.replaceAll(' ', ''),
    '0a 06 01 00 01 02 0179'.replaceAll(' ', ''),
    '0b 04 01 00 0165'.replaceAll(' ', ''),
    '63 03 010203',
    '0d 07 01 04 01 05 0270 71'.replaceAll(' ', ''),
  );
  module[9] = module.length - 10;
  assert.deepEqual(items(module, 0), [
    item(17, 3, 'module: "mn"'),
    item(23, 3, 'function 0: "a"'),
    item(26, 5, 'function 1: "bb"'),
    item(36, 3, 'function 3, local 0: "x"'),
    item(39, 2, 'function 3, local 1: ""'),
    item(46, 3, 'type 0, field 2: "y"'),
    item(52, 3, 'tag 0: "e"'),
    item(55, 5, 'subsection 99: 3 bytes'),
    item(65, 4, 'tag 4, parameter 5: "pq"'),
  ]);
  assert.deepEqual(outline(module)[0].items, null);
});

test('other custom sections', () => {
  checkItems(0, '0970726f647563657273 01', [
    ['086c616e6775616765 02 0143 00 0452757374 0431 2e3938', '(language "C" "" "Rust" "1.98")'],
  ]);
  checkItems(0, `19${Buffer.from('metadata.code.branch_hint').toString('hex')} 01`, [
    ['03 01 05 01 00', 'function 3: 1 hint'],
  ]);
  checkItems(0, `18${Buffer.from('metadata.code.instr_freq').toString('hex')} 01`, [
    ['03 01 05 01 20', 'function 3: 1 hint'],
  ]);
  checkItems(0, `1f${Buffer.from('metadata.code.compilation_order').toString('hex')} 01`, [
    ['03 01 00 02 01 05', 'function 3: 1 hint'],
  ]);
  checkItems(0, `1a${Buffer.from('metadata.code.call_targets').toString('hex')} 01`, [
    ['03 01 05 02 09 5a', 'function 3: 1 hint'],
  ]);
  checkItems(0, '076c696e6b696e67 02', [['08 01 00', '0 symbols'], ['09 07 06 7761736d3332', 'target "wasm32"']]);
});

test('no items', () => {
  const rows = [
    '00 05 03616263 ff', // a name that stands for no items
    '0e 01 00', // an id without items
    '03 02 02 00', // fewer functions than their number
    '03 03 01 00 00', // more functions than their number
    '0a 05 01 03 00 16 0b', // an unknown opcode
    '0c 02 01 00', // a byte behind the data count
    '00 09 046e616d65 01 02 01 00', // a name map that ends early
    '00 0a 046e616d65 00 03 0161 00', // a byte behind the name of the module
    '00 0a 046e616d65 01 03 00 00 00', // a byte behind a name map
    '00 09 046e616d65 02 02 00 00', // a byte behind names of locals
    '00 09 076c696e6b696e67 01', // another version of the linking section
    '00 01 09', // no name
  ];
  const module = moduleOf(...rows);
  assert.equal(outline(module).length, rows.length);
  rows.forEach((_, index) => assert.deepEqual(items(module, index), []));
  assert.deepEqual(items(module, rows.length), []);
  assert.deepEqual(items(ADD, 2 ** 32 + 1), []);
});

test('as many items as an outline counts, without gaps', async () => {
  const module = await readFile(path('dolzhytik.wasm'));
  outline(module).forEach((section, index) => {
    if (section.items === null) {
      return;
    }
    const found = items(module, index);
    assert.equal(found.length, section.items);
    found.slice(1).forEach(({ offset }, at) => assert.equal(offset, found[at].offset + found[at].size));
    assert.equal(found.at(-1).offset + found.at(-1).size, section.offset + section.size);
  });
});

// Errors.

test('what is no module', () => {
  const none = 'is not a module: it does not begin with 00 61 73 6d 01 00 00 00';
  const text = 'is text, not a binary module';
  const causes = [
    [hex(''), 'is empty, not a module'],
    [hex('00'), 'is not a module: it ends in the header, at offset 0x1'],
    [ADD.subarray(0, 7), 'is not a module: it ends in the header, at offset 0x7'],
    [ADD.subarray(1), none],
    [hex('0061736e 01000000'), 'is not a module: it differs from 00 61 73 6d 01 00 00 00 at offset 0x3'],
    [hex('0061736d 0d000100'), 'is a component, not a module'],
    [hex('0061736d 02000000'), 'is a module of version 2, not 1: the header differs at offset 0x4'],
    [hex('0061736d 01000001'), 'is a module of version 16777217, not 1: the header differs at offset 0x7'],
    [new TextEncoder().encode('(module)'), text],
    [new TextEncoder().encode('é\n'), text],
  ];
  for (const [bytes, cause] of causes) {
    for (const call of [outline, list, minimize, (module) => items(module, 0)]) {
      checkError(() => call(bytes), cause, cause, { offset: 0 });
    }
  }
});

test('sizes that are none', () => {
  const large = moduleOf('0e 00', '0e ffffffff 1f');
  const cause = 'integer too large';
  for (const call of [outline, list, minimize, (module) => items(module, 0)]) {
    checkError(() => call(large), `section 2 at offset 0xf: ${cause}`, cause, { offset: 10 });
  }
});

test('a module that ends early', () => {
  for (let end = 8; end < ADD.length; end += 1) {
    const module = ADD.subarray(0, end);
    const start = BORDERS.findLast((border) => border <= end);
    const number = BORDERS.indexOf(start) + 1;
    if (start === end) {
      assert.deepEqual(outline(module), ADD_OUTLINE.slice(0, number - 1));
      continue;
    }
    const cause = 'unexpected end of input';
    const message = `section ${number} at offset 0x${end.toString(16)}: ${cause}`;
    for (const call of [outline, list, minimize, (module) => items(module, 0)]) {
      checkError(() => call(module), message, cause, { offset: start });
    }
  }
});

test('arguments of other types', () => {
  for (const module of [undefined, null, 'text', [0, 97], ADD.buffer, new DataView(ADD.buffer), new Uint16Array(4)]) {
    for (const call of [outline, list, minimize, (module) => items(module, 0)]) {
      assert.throws(() => call(module), { name: 'TypeError', message: 'the module must be a Uint8Array' });
    }
  }
  for (const recipe of [undefined, null, 1, ADD]) {
    assert.throws(() => assemble(recipe), { name: 'TypeError', message: 'the recipe must be a string' });
  }
  assert.throws(() => minimize(ADD, null), TypeError);
  for (const index of [undefined, null, -1, 0.5, NaN, Infinity, '0', 0n]) {
    assert.throws(() => items(ADD, index), RangeError);
  }
  for (const limit of [-1, NaN, 'two']) {
    assert.throws(() => items(ADD, 0, limit), RangeError);
  }
});

// Damaged modules.

/** Numbers below an end that look random. */
function random(seed) {
  let state = BigInt(seed);
  return (end) => {
    state = BigInt.asUintN(64, state * 0x5851f42d4c957f2dn + 1n);
    return Number((state >> 33n) % BigInt(end));
  };
}

/** Calls everything with a module, and checks the errors. */
function tryAll(module, index) {
  for (const call of [outline, list, minimize, (module) => items(module, index)]) {
    try {
      call(module);
    } catch (error) {
      assert(error instanceof DolzhytikError, error);
      assert(error.offset >= 0 && error.offset <= module.length);
      assert(error.message.endsWith(error.cause));
      assert.equal(error.line, null);
    }
  }
}

test('random changes', async () => {
  const below = random(1);
  const large = await readFile(path('dolzhytik.wasm'));
  for (let turn = 0; turn < 3000; turn += 1) {
    const module = turn % 30 === 0 ? Uint8Array.from(large) : ADD.slice();
    for (let count = below(4); count >= 0; count -= 1) {
      module[below(module.length)] = below(256);
    }
    tryAll(module.subarray(0, turn % 2 === 0 ? module.length : below(module.length)), below(12));
  }
  assert.equal(instances.length, 1, 'no call trapped');
});

// Memory.

const OUT_OF_MEMORY = 'out of memory';

test('a module of 4 GiB is refused', () => {
  const module = Object.defineProperty(new Uint8Array(8), 'length', { value: 2 ** 32 });
  checkError(() => outline(module), OUT_OF_MEMORY, OUT_OF_MEMORY, {});
});

test('an array that JavaScript has no memory for', () => {
  const { slice } = Uint8Array.prototype;
  Uint8Array.prototype.slice = () => {
    throw new RangeError('Array buffer allocation failed');
  };
  try {
    checkError(() => minimize(ADD), OUT_OF_MEMORY, OUT_OF_MEMORY, {});
  } finally {
    Uint8Array.prototype.slice = slice;
  }
});

/** The module with a memory of at most this many pages. It has one memory, without a maximum. */
function withMost(module, pages) {
  const { offset, size } = outline(module).find(({ kind }) => kind === 'memory');
  assert.deepEqual([...module.subarray(offset - 1, offset + 2), size], [3, 1, 0, 3]);
  const most = [(pages & 127) | 128, ((pages >> 7) & 127) | 128, pages >> 14];
  const memory = Uint8Array.of(6, 1, 1, module[offset + 2], ...most);
  return Buffer.concat([module.subarray(0, offset - 1), memory, module.subarray(offset + size)]);
}

/** The package over a memory of at most this many pages, and its instance. */
async function limited(pages) {
  const folder = await mkdtemp(join(tmpdir(), 'dolzhytik-'));
  try {
    const { files } = JSON.parse(await readFile(path('package.json'), 'utf8'));
    for (const name of ['package.json', ...files.filter((file) => file.endsWith('.js'))]) {
      await copyFile(path(name), join(folder, name));
    }
    await writeFile(join(folder, 'dolzhytik.wasm'), withMost(await readFile(path('dolzhytik.wasm')), pages));
    const dz = await import(pathToFileURL(join(folder, 'dolzhytik.js')));
    return { dz, wasm: instances.at(-1) };
  } finally {
    await rm(folder, { recursive: true });
  }
}

/** Takes all memory of an instance but for one run of at most this many bytes. */
function leave(wasm, bytes) {
  const left = wasm.dz_alloc(bytes);
  const addresses = [];
  for (let size = 1 << 20; size >= 1; size >>= 1) {
    for (let address = wasm.dz_alloc(size); address !== 0; address = wasm.dz_alloc(size)) {
      addresses.push(address);
    }
  }
  wasm.dz_free(left);
  return addresses;
}

/** Checks that a call fails where an instance has no memory left. */
function checkRefused(dz) {
  assert.throws(() => dz.outline(ADD), { name: 'DolzhytikError', message: OUT_OF_MEMORY, offset: null, line: null });
}

/** What a call returns, or its error. */
function outcome(call, Thrown) {
  try {
    return call();
  } catch (error) {
    assert(error instanceof Thrown, error);
    return { message: error.message, cause: error.cause };
  }
}

test('nothing leaks', async () => {
  const { dz, wasm } = await limited(40);
  const bad = ADD.subarray(0, 20);
  const calls = [
    () => dz.outline(ADD), () => dz.list(ADD), () => dz.minimize(ADD), () => dz.assemble('func 1\nbody 0b'),
    () => dz.items(ADD, 3), () => dz.dump(ADD), () => dz.disassemble(ADD, 0), () => dz.strip(ADD), () => dz.size(ADD),
    () => dz.minimize(ADD, { keepCode: true }), () => outcome(() => dz.outline(bad), dz.DolzhytikError),
    () => outcome(() => dz.assemble('x'), dz.DolzhytikError),
  ];
  calls.forEach((call) => call());
  const size = wasm.memory.buffer.byteLength;
  for (const call of calls) {
    for (let turn = 0; turn < 10_000; turn += 1) {
      call();
    }
    assert.equal(wasm.memory.buffer.byteLength, size);
  }
  assert.equal(wasm, instances.at(-1), 'no call trapped');
});

test('addresses of 32 bits', async (t) => {
  const { dz, wasm } = await limited(65536);
  if (wasm.dz_alloc(2_200_000_000) === 0) {
    t.skip('this machine has no address space for it');
    return;
  }
  assert(wasm.memory.buffer.byteLength > 2 ** 31);
  assert.deepEqual(dz.outline(ADD), ADD_OUTLINE);
  assert.deepEqual(dz.minimize(ADD), ADD);
  assert.equal(dz.items(ADD, 3).length, 1);
  // The rest of the memory, up to its last page.
  leave(wasm, 0);
  checkRefused(dz);
});

test('each request for memory is refused in turn', async () => {
  const { dz, wasm } = await limited(40);
  const offsets = moduleOf('0a 84 00 01 02 00 0b', '00 08 072e64656275675f');
  const recipe = 'type 600000\nfunc 0\nexport f func 0\nbody 0b\ndata 0 00\nname n';
  const calls = [
    () => dz.outline(ADD), () => dz.list(ADD), () => dz.minimize(ADD), () => dz.assemble(recipe),
    () => dz.items(ADD, 0), () => dz.items(ADD, 3), () => dz.minimize(offsets), () => dz.outline(hex('')),
    () => dz.dump(ADD), () => dz.disassemble(ADD, 0), () => dz.strip(offsets),
    () => dz.minimize(offsets, { keepCode: true }),
  ];
  const expected = calls.map((call) => outcome(call, dz.DolzhytikError));
  const refused = calls.map(() => 0);
  let bytes = 0;
  for (let done = 0; done < calls.length; bytes += 16) {
    const taken = leave(wasm, bytes);
    const found = calls.map((call) => outcome(call, dz.DolzhytikError));
    taken.forEach((address) => wasm.dz_free(address));
    const isRefused = found.map(({ cause }) => cause === OUT_OF_MEMORY);
    isRefused.forEach((is, index) => (is ? (refused[index] += 1) : assert.deepEqual(found[index], expected[index])));
    done = isRefused.filter((is) => !is).length;
  }
  assert(Math.min(...refused) > 1, `${refused}`);
  assert.equal(wasm, instances.at(-1), 'no call trapped');
});

test('calls at the end of the stack', () => {
  const thrown = [];
  let done = false;
  // The call returns once the stack has space for it. Nothing else is called before.
  const descend = () => {
    try {
      descend();
    } catch (error) {
      thrown[thrown.length] = error;
    }
    done ||= outline(ADD).length === ADD_OUTLINE.length;
  };
  const before = instances.length;
  descend();
  assert(done && instances.length > before, 'an instance that was stopped is not called again');
  assert(thrown.every((error) => error instanceof RangeError));
  assert.deepEqual(outline(ADD), ADD_OUTLINE);
});

// Items with fields, and instructions.

/** The fields of the items of a section, without their bytes and texts. */
function fieldsOf(section) {
  return section.entries.map(({ offset, size: its, text, ...fields }) => fields);
}

/** A custom section. */
function custom(name, content) {
  const bytes = Buffer.from(name).toString('hex');
  const payload = hex(name.length.toString(16).padStart(2, '0') + bytes + content);
  assert(payload.length < 128);
  return `00 ${payload.length.toString(16).padStart(2, '0')} ${Buffer.from(payload).toString('hex')}`;
}

const instruction = (offset, its, name, ...operands) => ({ offset, size: its, name, operands });
const operand = (kind, index) => ({ kind, index });

test('a dump has fields and instructions', () => {
  const [types, functions, exported, code] = dump(ADD);
  assert.deepEqual(types.entries, [{
    offset: 11, size: 6, text: '(func (param i32 i32) (result i32))', index: 0, form: 'func', params: ['i32', 'i32'],
    results: ['i32'],
  }]);
  assert.deepEqual(fieldsOf(functions), [{ index: 0, type: 0 }]);
  assert.deepEqual(fieldsOf(exported), [{ index: 0, name: 'add', kind: 'func' }]);
  const instructions = [
    instruction(35, 2, 'local.get', operand('local', 0)), instruction(37, 2, 'local.get', operand('local', 1)),
    instruction(39, 1, 'i32.add'), instruction(40, 1, 'end'),
  ];
  assert.deepEqual(fieldsOf(code), [
    { index: 0, locals: [], instruction_count: 4, body: { offset: 34, size: 7 }, instructions },
  ]);
  assert.equal('instructions' in dump(ADD, { instructions: false })[3].entries[0], false);
  assert.deepEqual(disassemble(ADD, 0), code.entries[0]);
});

test('fields of imports, and the indices after them', () => {
  const module = moduleOf(
    '02 1c 04 0165 0166 00 07 0165 0167 03 7e 01 0165 016d 02 05 01 02 0165 0176 00 08',
    '03 02 01 07', '0a 04 01 02 00 0b',
  );
  const [imports, functions, code] = dump(module);
  assert.deepEqual(fieldsOf(imports), [
    { index: 0, module: 'e', name: 'f', kind: 'func', type: 7 },
    { index: 0, module: 'e', name: 'g', kind: 'global', type: 'i64', mutable: true, shared: false },
    { index: 0, module: 'e', name: 'm', kind: 'memory', address: 'i64', minimum: 1, maximum: 2, shared: false },
    { index: 1, module: 'e', name: 'v', kind: 'func', type: 8 },
  ]);
  assert.deepEqual(fieldsOf(functions), [{ index: 2, type: 7 }]);
  assert.equal(code.entries[0].index, 2);
  assert.throws(() => disassemble(module, 1), { message: 'function 1: the module has no body for it' });
  assert.throws(() => disassemble(module, -1), RangeError);
});

test('fields of names and segments', () => {
  const names = custom('name', '01 04 01 00 0161 02 06 01 00 01 02 0178'.replaceAll(' ', ''));
  const data = '0b 0b 02 00 41 05 0b 02 aabb 01 01 cc';
  const [segments, { entries }] = dump(moduleOf(data, names));
  assert.deepEqual(fieldsOf(segments), [
    { index: 0, mode: 'active', memory: 0, start: '(i32.const 5)', bytes: { offset: 16, size: 2 } },
    { index: 1, mode: 'passive', bytes: { offset: 20, size: 1 } },
  ]);
  assert.deepEqual(entries.map(({ space, of, index, name }) => ({ space, of, index, name })), [
    { space: 'function', of: undefined, index: 0, name: 'a' }, { space: 'local', of: 0, index: 2, name: 'x' },
  ]);
});

test('relocations', () => {
  // Of section 2: a type, an addend below zero, and one of 64 bits without an exact number.
  const kinds = ['06 05 03', '05 0a 07 7e', '10 80 01 08 8180808080808080c000'];
  const module = moduleOf(custom('reloc.DATA', `02 03 ${kinds.join(' ')}`.replaceAll(' ', '')));
  const [{ entries: [of, ...entries] }] = dump(module);
  assert.equal(of.section, 2);
  assert.deepEqual(entries.map(({ offset, size: its, text, ...fields }) => fields), [
    { type: 'R_WASM_TYPE_INDEX_LEB', section_offset: 5, target: { kind: 'type', index: 3 }, addend: null },
    { type: 'R_WASM_MEMORY_ADDR_I32', section_offset: 10, target: { kind: 'symbol', index: 7 }, addend: -2 },
    { type: 'R_WASM_MEMORY_ADDR_I64', section_offset: 128, target: { kind: 'symbol', index: 8 }, addend: 2n ** 62n + 1n },
  ]);
  assert.deepEqual(items(module, 0).map(({ text }) => text), [
    'relocations of section 2',
    'R_WASM_TYPE_INDEX_LEB offset 0x5 type 3',
    'R_WASM_MEMORY_ADDR_I32 offset 0xa symbol 7 addend -2',
    'R_WASM_MEMORY_ADDR_I64 offset 0x80 symbol 8 addend 4611686018427387905',
  ]);
});

test('names with characters that JSON escapes', () => {
  const name = '"\\\u0000\u001f\n\u2028é';
  const bytes = Buffer.from(name);
  const payload = `01${bytes.length.toString(16).padStart(2, '0')}${bytes.toString('hex')}0000`;
  const [{ entries }] = dump(moduleOf(`07 ${(payload.length / 2).toString(16).padStart(2, '0')} ${payload}`));
  assert.equal(entries[0].name, name);
});

/** The instructions of a body of these bytes but for the last `end`, without offsets and sizes. */
function decodedOf(code) {
  const body = hex(`00${code}0b`);
  const bytes = Buffer.from(body).toString('hex');
  const sizeOf = (count) => count.toString(16).padStart(2, '0');
  const module = moduleOf(`0a ${sizeOf(body.length + 2)} 01 ${sizeOf(body.length)} ${bytes}`);
  return disassemble(module, 0).instructions.slice(0, -1).map(({ name, operands }) => [name, ...operands]);
}

test('operands', () => {
  const checks = [
    ['10 03', 'call', operand('function', 3)],
    ['11 02 01', 'call_indirect', operand('table', 1), operand('type', 2)],
    ['0c 04', 'br', operand('label', 4)],
    ['0e 02 05 06 07', 'br_table', { kind: 'labels', indices: [5, 6] }, operand('label', 7)],
    ['23 09', 'global.get', operand('global', 9)],
    ['41 7f', 'i32.const', { kind: 'i32', value: -1 }],
    ['42 ffffffffffffffffff00', 'i64.const', { kind: 'i64', value: 2n ** 63n - 1n }],
    ['43 0000c03f', 'f32.const', { kind: 'f32', value: 1.5, bits: '3fc00000' }],
    ['44 000000000000f0ff', 'f64.const', { kind: 'f64', value: -Infinity, bits: 'fff0000000000000' }],
    [
      '28 02 08', 'i32.load',
      { kind: 'memory argument', of: operand('memory', 0), ordering: null, offset: 8, align_log2: 2 },
    ],
    [
      '28 42 01 ffffffffffffffffff01', 'i32.load',
      { kind: 'memory argument', of: operand('memory', 1), ordering: null, offset: 2n ** 64n - 1n, align_log2: 2 },
    ],
    ['fc08 03 01', 'memory.init', operand('memory', 1), operand('data', 3)],
    ['fc0c 03 01', 'table.init', operand('table', 1), operand('element', 3)],
    ['d0 70', 'ref.null', { kind: 'heap type', type: 'func' }],
    ['fb15 6e', 'ref.test', { kind: 'reference type', type: '(ref null any)' }],
    [
      'fd0c 000102030405060708090a0b0c0d0e0f', 'v128.const',
      { kind: 'v128', bytes: '000102030405060708090a0b0c0d0e0f' },
    ],
    ['fd15 07', 'i8x16.extract_lane_s', operand('lane', 7)],
    ['1c 01 7c', 'select', { kind: 'result types', types: ['f64'] }],
    ['fb02 01 04', 'struct.get', operand('type', 1), operand('field', 4)],
  ];
  for (const [code, ...expected] of checks) {
    assert.deepEqual(decodedOf(code), [expected]);
  }
  assert.deepEqual(decodedOf('02 40 0b')[0], ['block', { kind: 'block type', results: [] }]);
  assert.deepEqual(decodedOf('03 7f 0b')[0], ['loop', { kind: 'block type', results: ['i32'] }]);
  assert.deepEqual(decodedOf('04 05 0b')[0], ['if', { kind: 'block type', type: 5 }]);
  assert.deepEqual(decodedOf('1f 40 02 00 01 02 02 03 0b')[0], [
    'try_table', { kind: 'block type', results: [] },
    {
      kind: 'catch clauses',
      clauses: [{ kind: 'catch', tag: 1, label: 2 }, { kind: 'catch_all', tag: null, label: 3 }],
    },
  ]);
});

/** The lines of llvm-objdump: the offset in the code section, how many bytes, name and operand. */
function linesOfLlvm(output) {
  const lines = [...output.matchAll(/^ +([0-9a-f]+): ((?:[0-9a-f]{2} ?)+)\s*\t(\S+) *(?:\t([^#\n]*?) *(?:#.*)?)?$/gm)];
  const sizeOf = (bytes) => bytes.trim().split(' ').length;
  return lines.map(([, at, bytes, name, operands = '']) => [parseInt(at, 16), sizeOf(bytes), name, operands]);
}

const hasLlvm = (() => {
  try {
    return execFileSync('llvm-objdump', ['--version'], { encoding: 'utf8' }).includes('LLVM');
  } catch {
    return false;
  }
})();

test('instructions as llvm-objdump has them', { skip: !hasLlvm && 'there is no llvm-objdump' }, async () => {
  const file = path('dolzhytik.wasm');
  const output = execFileSync('llvm-objdump', ['-d', file], { encoding: 'utf8', maxBuffer: 2 ** 28 });
  const code = dump(new Uint8Array(await readFile(file))).find(({ id }) => id === 10);
  const found = code.entries.flatMap(({ instructions }) => instructions);
  const expected = linesOfLlvm(output);
  assert(expected.length > 50_000);
  // It prints the type of what `select` selects, which is no part of the bytes.
  const nameOf = (name) => name.replace(/^[if](32|64)\.select$/, 'select');
  const number = ({ kind, index, value }) => (kind === 'i32' || kind === 'i64' ? value : index);
  const isPlain = ({ operands: [one, other] }) => one && !other && number(one) !== undefined;
  expected.forEach(([at, bytes, name, operands], index) => {
    const it = found[index];
    assert.deepEqual([it.offset - code.offset, it.size, it.name], [at, bytes, nameOf(name)]);
    if (isPlain(it) && /^-?\d+$/.test(operands)) assert.equal(`${number(it.operands[0])}`, operands);
  });
  assert.equal(found.length, expected.length);
});

test('a dump of what does not decode', () => {
  checkSectionError(() => dump(moduleOf('03 02 02 00')));
  // The first body decodes, the second does not.
  const module = moduleOf('0a 08 02 02 00 0b 03 00 16 0b');
  checkSectionError(() => dump(module));
  assert.equal(disassemble(module, 0).instructions.length, 1);
  assert.throws(() => disassemble(module, 1), DolzhytikError);
});

function checkSectionError(call) {
  assert.throws(call, (error) => error instanceof DolzhytikError && error.offset === 8);
}

// Sizes, and modules without custom sections.

test('sizes', () => {
  const names = custom('name', '01 10 02 00 06613a3a6f6e65 01 06613a3a74776f'.replace('10', '11').replaceAll(' ', ''));
  const module = moduleOf('0a 0b 03 02 00 0b 03 00 01 0b 02 00 0b', '0b 04 01 01 01 cc', names);
  const found = size(module);
  assert.deepEqual(found.sections.map(({ kind, offset, size: its }) => [kind, offset, its]), [
    ['custom', 27, 26], ['code', 8, 13], ['data', 21, 6],
  ]);
  assert.deepEqual(found.functions, [
    { index: 1, name: 'a::two', offset: 14, size: 4 },
    { index: 0, name: 'a::one', offset: 11, size: 3 },
    { index: 2, name: null, offset: 18, size: 3 },
  ]);
  assert.deepEqual(found.groups, [{ prefix: 'a', functions: 2, size: 7 }, { prefix: null, functions: 1, size: 3 }]);
  assert.deepEqual(found.data, [{ index: 0, name: null, offset: 24, size: 3 }]);
  const sum = found.sections.reduce((all, { size: its }) => all + its, found.header);
  assert.equal(sum, module.length);
  assert.equal(found.size, module.length);
});

test('prefixes and labels of names', async () => {
  const { labelOf, prefixOf } = await import('./names.js');
  const rows = [
    ['core::fmt::write', 'core', 'core::fmt::write'],
    ['<core[846817f741e54dfd]::fmt::Error as core::fmt::Debug>::fmt', 'core'],
    ['<T as core::convert::Into<U>>::into', 'core'],
    ['_ZN4core3fmt5write17h0123456789abcdefE', 'core', 'fmt::write'],
    [
      '_ZN44_$LT$$RF$T$u20$as$u20$core..fmt..Display$GT$3fmt17h0123456789abcdefE', 'core',
      '<&T as core::fmt::Display>::fmt',
    ],
    ['_$LT$core..fmt..Error$u20$as$u20$core..fmt..Debug$GT$::fmt::h0123456789abcdef', 'core'],
    ['_RNvNtCs846817f741e_4core3fmt5write', 'core', 'fmt::write'],
    ['_RINvNtC4core3ptr13drop_in_placeNtC5alloc6StringE', 'core', 'ptr::drop_in_place'],
    ['_RNvMs_NtC4core3fmtNtB2_9Formatter3pad', 'core'],
    ['_RNvCs1_7___rustc12___rust_alloc', '__rustc', '__rustc::__rust_alloc'],
    ['<alloc::vec::Vec<T,A> as core::ops::Deref>::deref', 'alloc'],
    ['int ns::twice<int>(int)', 'ns'], ['ns::operator<(ns::C const&, ns::C const&)', 'ns'],
    ['std::ostream& ns::operator<< <int>(std::ostream&, int)', 'ns'], ['_ZNK2ns1C3getEv', 'ns', 'C::get'],
    ['_ZZN2ns1fEvENK3$_0clEv', 'ns'], ['_ZNSt1S1fEv', 'std'], ['_ZSt5move2IiET_S0_', 'std'],
    ['_ZNKSt3__112basic', 'std'],
    ['(anonymous namespace)::hidden(int)', '(anonymous namespace)'],
    ['_ZN12_GLOBAL__N_16hiddenEi', '(anonymous namespace)'],
    ...['', 'main', 'a.b', '::f', 'f(std::string)', '_Z5takesRN2ns1CE', '_ZN', '_ZN99999999999999999999a', '_R', '_RCs',
      '<::', '<T as U>::f', '_$LT$T$GT$::f', 'operator new(unsigned long)'].map((name) => [name, null]),
  ];
  for (const [name, prefix, label] of rows) {
    assert.equal(prefixOf(name), prefix, name);
    if (label) assert.equal(labelOf(name), label);
  }
});

test('strip', () => {
  const [note, debug] = [custom('note', '01'), custom('.debug_info', '00')];
  const reloc = custom('reloc..debug_info', '01 00');
  const type = '01 04 01 60 00 00';
  assert.deepEqual(strip(moduleOf(note, type, debug)), moduleOf(type));
  assert.deepEqual(strip(moduleOf(note, type, debug), { debug: true }), moduleOf(note, type));
  assert.deepEqual(strip(moduleOf(note, type, debug), { names: ['note'] }), moduleOf(type, debug));
  assert.deepEqual(strip(moduleOf(note, type, debug), { keep: ['note'] }), moduleOf(note, type));
  assert.deepEqual(strip(ADD), ADD);
  const linking = custom('linking', '02');
  assert.throws(() => strip(moduleOf(type, linking)), { name: 'DolzhytikError', message: /no linker takes/ });
  assert.deepEqual(strip(moduleOf(type, linking), { all: true }), moduleOf(type));
  // The relocations of a removed section are removed too.
  assert.deepEqual(strip(moduleOf(type, debug, reloc), { debug: true }), moduleOf(type));
  // Relocations that stay hold the index of a section: an empty one is in the place of `note`.
  const kept = custom('reloc.CODE', '01 00');
  const empty = custom('.objcopy.removed', '');
  const withNote = moduleOf(note, type, linking, kept);
  assert.deepEqual(strip(withNote, { names: ['note'] }), moduleOf(empty, type, linking, kept));
  const late = moduleOf(type, linking, custom('reloc.T', '00 00'), note);
  assert.deepEqual(strip(late, { names: ['note'] }), late.subarray(0, late.length - 8));
  const map = custom('sourceMappingURL', '0161');
  const code = '0a 04 01 02 00 0b';
  assert.throws(() => strip(moduleOf(note, code, map), { names: ['note'] }), { message: /names a source map/ });
  // The index of the section is what counts, whether or not the relocations decode.
  const cut = custom('reloc.CODE', '01 02 00');
  assert.deepEqual(strip(moduleOf(note, type, linking, cut), { names: ['note'] }), moduleOf(empty, type, linking, cut));
  const ofType = custom('reloc.TYPE', '00 00');
  assert.throws(() => strip(moduleOf(type, linking, ofType), { names: ['linking'] }), { message: /need the symbols/ });
});

// Pages.

test('the types name what the package exports', async () => {
  const types = await readFile(path('dolzhytik.d.ts'), 'utf8');
  const names = [...types.matchAll(/^export (?:class|function) (\w+)/gm)].map(([, name]) => name);
  assert.deepEqual(names.sort(), Object.keys(dz).sort());
});

test('the example of the README prints what it says', async () => {
  const readme = await readFile(path('README.md'), 'utf8');
  const [, code] = readme.match(/^```js\n(.*?)^```$/ms);
  const expected = [...code.matchAll(/^ *console\.log\(.*\); \/\/ (.*)$/gm)].map(([, text]) => text);
  const folder = await mkdtemp(path('node-'));
  const { log } = console;
  const printed = [];
  console.log = (...values) => printed.push(values.join(' '));
  try {
    await writeFile(join(folder, 'example.mjs'), code);
    await import(pathToFileURL(join(folder, 'example.mjs')));
  } finally {
    console.log = log;
    await rm(folder, { recursive: true });
  }
  assert(expected.length > 4);
  assert.deepEqual(printed, expected);
});
