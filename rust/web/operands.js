// The operands of instructions: as objects, which later versions of the package may extend, and in
// the text format.
import { INSTRUCTIONS } from './instructions.js';

/** The name of an instruction, and what its numbers are. */
function entryOf(prefix, number) {
  const [name, ...roles] = (INSTRUCTIONS[prefix]?.[number] ?? 'unknown').split(' ');
  return { name, roles };
}

/** A number of 64 bits, which is a BigInt if it has no exact number. */
export function exact(text) {
  const value = Number(text);
  return Number.isSafeInteger(value) ? value : BigInt(text);
}

function floatOf(kind, bits) {
  const view = new DataView(new ArrayBuffer(8));
  view.setBigUint64(0, BigInt(`0x${bits}`) << (kind === 'f32' ? 32n : 0n));
  return { kind, value: kind === 'f32' ? view.getFloat32(0) : view.getFloat64(0), bits };
}

function memoryArgument({ memory, type, align, offset, order = null }) {
  const of = type === undefined ? { kind: 'memory', index: memory } : { kind: 'type', index: type };
  return { kind: 'memory argument', of, ordering: order, offset: exact(offset), align_log2: align };
}

function blockType(block) {
  if (typeof block === 'number') return { kind: 'block type', type: block };
  return { kind: 'block type', results: block === null ? [] : [block] };
}

const clause = ([kind, tag, label]) => ({ kind, tag, label });

/** The operand of each kind of argument but numbers. */
const ARGUMENTS = {
  i32: (value) => ({ kind: 'i32', value }),
  i64: (value) => ({ kind: 'i64', value: BigInt(value) }),
  f32: (bits) => floatOf('f32', bits),
  f64: (bits) => floatOf('f64', bits),
  v128: (bytes) => ({ kind: 'v128', bytes }),
  mem: memoryArgument,
  lane: (index) => ({ kind: 'lane', index }),
  lanes: (indices) => ({ kind: 'lanes', indices }),
  block: blockType,
  heap: (type) => ({ kind: 'heap type', type }),
  order: (ordering) => ({ kind: 'ordering', ordering }),
  labels: (indices) => ({ kind: 'labels', indices }),
  catches: (clauses) => ({ kind: 'catch clauses', clauses: clauses.map(clause) }),
  types: (types) => ({ kind: 'result types', types }),
  handlers: (clauses) => ({ kind: 'handlers', clauses: clauses.map(clause) }),
};

function numberOf(role, value) {
  return role === undefined || role === 'length' ? { kind: 'length', value } : { kind: role, index: value };
}

const reference = (isNullable, heap) => ({ kind: 'reference type', type: `(ref ${isNullable ? 'null ' : ''}${heap})` });

/** The casts to a type that is not nullable, and to one that is. */
const CASTS = { 20: false, 22: false, 35: false, 21: true, 23: true, 36: true };

/** The operands of instructions whose opcode or flags have a part of them; null for others. */
function specialOperands(prefix, number, args) {
  if (prefix === 0xfb && number in CASTS) return [reference(CASTS[number], args[0].heap)];
  if (prefix === 0xfb && args[0]?.flags !== undefined) {
    const [{ flags }, label, from, to] = args;
    const types = [reference((flags & 1) !== 0, from.heap), reference((flags & 2) !== 0, to.heap)];
    return [{ kind: 'label', index: label }, ...types];
  }
  // `atomic.fence` has this ordering without a word in the text format.
  if (prefix === 0xfe && number === 3 && args[0].order === 'seq_cst') return [];
  return null;
}

/** Whether the text format has the two numbers in the other order than the bytes. */
function isSwapped(prefix, number) {
  const isIndirectCall = prefix === 0 && (number === 0x11 || number === 0x13);
  return isIndirectCall || (prefix === 0xfc && (number === 8 || number === 12));
}

/** The name and the operands of an instruction, in the order of the text format. */
export function decoded(prefix, number, args) {
  const { name, roles } = entryOf(prefix, number);
  const special = specialOperands(prefix, number, args);
  if (special) return { name, operands: special };
  let next = 0;
  const operands = args.map((arg) => {
    if (typeof arg === 'number') return numberOf(roles[next++], arg);
    const [[kind, value]] = Object.entries(arg);
    return ARGUMENTS[kind](value);
  });
  return { name, operands: isSwapped(prefix, number) ? operands.reverse() : operands };
}

// Texts.

/** The fewest digits that decode to the float. */
function digits(kind, value) {
  if (kind === 'f64') return String(value);
  for (let precision = 1; precision < 9; precision += 1) {
    const text = value.toPrecision(precision);
    if (Math.fround(text) === value) return String(Number(text));
  }
  return String(Number(value.toPrecision(9)));
}

function floatText({ kind, value, bits }) {
  if (Number.isFinite(value)) return Object.is(value, -0) ? '-0' : digits(kind, value);
  const whole = BigInt(`0x${bits}`);
  const [width, fraction] = kind === 'f32' ? [31n, 23n] : [63n, 52n];
  const payload = whole & ((1n << fraction) - 1n);
  const sign = whole >> width ? '-' : '';
  if (payload === 0n) return `${sign}inf`;
  return payload === 1n << (fraction - 1n) ? `${sign}nan` : `${sign}nan:0x${payload.toString(16)}`;
}

/** A vector as four numbers, the lowest first. */
function vectorText(bytes) {
  const lanes = bytes.match(/.{8}/g).map((lane) => `0x${lane.match(/../g).reverse().join('')}`);
  return ['i32x4', ...lanes].join(' ');
}

/**
 * The parts of an operand's text: strings, and objects with an index and its kind, such as a
 * function's.
 */
export function partsOf(operand) {
  const { kind } = operand;
  const make = PARTS[kind];
  return make ? make(operand) : [{ kind, index: operand.index }];
}

const tagParts = ({ kind, tag, label }) => {
  const tagPart = tag === null ? [] : [' ', { kind: 'tag', index: tag }];
  return [kind, ...tagPart, ...(label === null ? [] : [` ${label}`])];
};
const inParentheses = (parts) => ['(', ...parts, ')'];
const separated = (lists) => lists.flatMap((list, index) => (index ? [' ', ...list] : list));

function memoryParts({ of, ordering, offset, align_log2: align }) {
  const isFirst = of.kind === 'memory' && of.index === 0;
  const target = isFirst ? [] : of.kind === 'type' ? [['(type ', of, ')']] : [[of]];
  const words = [ordering, offset ? `offset=${offset}` : null, `align=${2 ** align}`].filter(Boolean);
  return separated([...target, ...words.map((word) => [word])]);
}

const PARTS = {
  length: ({ value }) => [`${value}`],
  i32: ({ value }) => [`${value}`],
  i64: ({ value }) => [`${value}`],
  f32: (float) => [floatText(float)],
  f64: (float) => [floatText(float)],
  v128: ({ bytes }) => [vectorText(bytes)],
  lane: ({ index }) => [`${index}`],
  lanes: ({ indices }) => [indices.join(' ')],
  labels: ({ indices }) => [indices.join(' ')],
  ordering: ({ ordering }) => [ordering],
  'memory argument': memoryParts,
  'heap type': ({ type }) => [type],
  'reference type': ({ type }) => [type],
  'result types': ({ types }) => [`(result ${types.join(' ')})`],
  'block type': ({ type, results }) => {
    if (type !== undefined) return ['(type ', { kind: 'type', index: type }, ')'];
    return results.length ? [`(result ${results.join(' ')})`] : [];
  },
  'catch clauses': ({ clauses }) => separated(clauses.map((it) => inParentheses(tagParts(it)))),
  handlers: ({ clauses }) =>
    separated(
      clauses.map(({ kind, tag, label }) => {
        const to = kind === 'switch' ? ' switch' : ` ${label}`;
        return ['(on ', { kind: 'tag', index: tag }, to, ')'];
      }),
    ),
};
