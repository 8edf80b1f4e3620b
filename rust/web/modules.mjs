// Modules for the tests and the benchmark of the page.

export const HEADER = [0x00, 0x61, 0x73, 0x6d, 0x01, 0x00, 0x00, 0x00];

export function leb(value) {
  const bytes = [];
  let left = value;
  while (left >= 128) {
    bytes.push((left % 128) + 128);
    left = Math.floor(left / 128);
  }
  return [...bytes, left];
}

export const name = (text) => [...leb(Buffer.byteLength(text)), ...Buffer.from(text)];

export function section(id, ...parts) {
  const payload = Buffer.concat(parts.map((part) => Buffer.from(part)));
  return Buffer.concat([Buffer.from([id, ...leb(payload.length)]), payload]);
}

export const custom = (text, ...parts) => section(0, name(text), ...parts);
export const moduleOf = (...sections) => new Uint8Array(Buffer.concat([Buffer.from(HEADER), ...sections]));

/** The number of types is padded. */
export const TYPES = section(1, [0x81, 0x80, 0x00], [0x60, 0x01, 0x7f, 0x01, 0x7f]);
export const FUNCTION = section(3, [0x01, 0x00]);
export const EXPORT = section(7, [0x01], name('f'), [0x00, 0x00]);
/** The body returns its parameter, whose index is padded. */
export const CODE = section(10, [0x01, 0x06, 0x00, 0x20, 0x80, 0x80, 0x00, 0x0b]);
export const PADDED = moduleOf(TYPES, FUNCTION, EXPORT, CODE, custom('note', [1, 2, 3]));
export const OFFSETS = custom('.debug_info', [0, 0, 0, 0]);
export const WITH_OFFSETS = moduleOf(TYPES, FUNCTION, OFFSETS, EXPORT, CODE, OFFSETS, custom('note', [1]));

/** A body of `i32.const N`, `drop` a few times, and `local.get 0`. */
export function bodyOf(index) {
  const constants = Array.from({ length: 1 + (index % 9) }, (_, at) => [0x41, ...leb(64 + index + at), 0x1a]);
  const code = [0x00, ...constants.flat(), 0x20, 0x00, 0x0b];
  return Buffer.from([...leb(code.length), ...code]);
}

/** A module of 18 MB, half of it code with very many bodies. */
export function largeModule() {
  const count = 300_000;
  const data = Buffer.alloc(8_000_000, 'dolzhytik ');
  return moduleOf(
    TYPES,
    section(3, leb(count), Buffer.alloc(count)),
    section(5, [0x01, 0x00], leb(200)),
    EXPORT,
    section(10, leb(count), Buffer.concat(Array.from({ length: count }, (_, index) => bodyOf(index)))),
    section(11, [0x01, 0x00, 0x41, 0x00, 0x0b], leb(data.length), data),
    custom('note', data.subarray(0, 1_500_000)),
  );
}

// Modules with names, for treemaps, comparisons and the benchmark.

/** The body of `call N`, or of as many `nop` as the number says. */
const calling = (index) => Buffer.from([...leb(3 + leb(index).length), 0x00, 0x10, ...leb(index), 0x0b]);
const resting = (count) => Buffer.from([...leb(count + 2), 0x00, ...Array(count).fill(0x01), 0x0b]);

/** A name section of functions and, if there are some, of the locals of function 0. */
export function namesOf(names, locals = []) {
  const entry = (text, index) => Buffer.from([...leb(index), ...name(text)]);
  const list = (texts) => Buffer.concat([Buffer.from(leb(texts.length)), ...texts.map(entry)]);
  const functions = list(names);
  const parts = [[1, ...leb(functions.length)], functions];
  if (locals.length) {
    const inner = Buffer.concat([Buffer.from([1, 0]), list(locals)]);
    parts.push([2, ...leb(inner.length)], inner);
  }
  return custom('name', ...parts);
}

/** Functions of these names, of one type, that do nothing for the number of bytes. */
export function namedModule(functions) {
  const bodies = functions.map(([, count]) => resting(count));
  return moduleOf(
    section(1, [0x01, 0x60, 0x00, 0x00]),
    section(3, leb(functions.length), Buffer.alloc(functions.length)),
    section(10, leb(functions.length), ...bodies),
    namesOf(functions.map(([text]) => text)),
  );
}

/** Function 0 calls function 1, which calls function 0. Function 0 has a parameter with a name. */
export const CALLS = moduleOf(
  section(1, [0x01, 0x60, 0x01, 0x7f, 0x00]),
  section(3, [0x02, 0x00, 0x00]),
  section(10, [0x02], [0x06, 0x00, 0x20, 0x00, 0x10, 0x01, 0x0b], calling(0)),
  namesOf(['one', 'two'], ['count']),
);

/** A module of this many functions in groups, of about this many bytes. */
export function groupedModule(count, size, groups = 40) {
  const each = Math.ceil(size / count);
  const sizeOf = (index) => Math.floor(each / 2 + (each * (index % 101)) / 100);
  return namedModule(Array.from({ length: count }, (_, index) => [`group${index % groups}::f${index}`, sizeOf(index)]));
}

/** A module of this many passive data segments, of two bytes each. */
export function segmentsModule(count) {
  return moduleOf(section(11, leb(count), Buffer.alloc(4 * count, Buffer.from([0x01, 0x02, 0xaa, 0xbb]))));
}

/**
 * An object file. Its function `main` calls `env.printf`, takes the address of `far` less 2, and
 * that of itself. Linking section and relocations are those of the tool conventions.
 */
export const OBJECT = moduleOf(
  section(1, [0x01, 0x60, 0x00, 0x00]),
  section(2, [0x01], name('env'), name('printf'), [0x00, 0x00]),
  FUNCTION,
  section(
    10, [0x01, 0x16, 0x00], [0x10, 0x80, 0x80, 0x80, 0x80, 0x00], [0x41, 0x80, 0x80, 0x80, 0x80, 0x00, 0x1a],
    [0x41, 0x81, 0x80, 0x80, 0x80, 0x00, 0x1a, 0x0b],
  ),
  // Symbols: the import, which is undefined and has no name of its own; undefined data; `main`.
  custom('linking', [0x02, 0x08, 0x12, 0x03, 0x00, 0x10, 0x00, 0x01, 0x10], name('far'), [0x00, 0x00, 0x01], name('main')),
  // Of section 3: kinds 0, 4 and 1, with their offsets and symbols, and the addend of the second.
  custom('reloc.CODE', [0x03, 0x03, 0x00, 0x04, 0x00, 0x04, 0x0a, 0x01, 0x7e, 0x01, 0x11, 0x02]),
);
