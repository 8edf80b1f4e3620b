// The names of entries, and the prefixes of names.

/** The spaces of names that are called otherwise in the name section and in JavaScript. */
const SPACES = { func: 'function' };
export const spaceOf = (kind) => SPACES[kind] ?? kind;

/** Symbols whose index is that of an entry of their kind. */
const NAMED_SYMBOLS = ['function', 'global', 'table', 'tag'];

/** The names of a module's entries. */
export class Names {
  #names = new Map();
  #locals = new Map();

  /**
   * Takes the names of sections with their entries. Those of later sources replace others: imports,
   * exports, symbols, the name section.
   */
  constructor(sections) {
    const entries = (is) => sections.filter(is).flatMap((section) => section.entries);
    const ofName = (name) => (section) => section.id === 0 && section.name === name;
    for (const { kind, index, module, name } of entries(({ id }) => id === 2)) {
      this.#give(spaceOf(kind), index, `${module}.${name}`);
    }
    for (const { kind, index, name } of entries(({ id }) => id === 7)) this.#give(spaceOf(kind), index, name);
    for (const item of entries(ofName('linking'))) this.#takeLinking(item);
    for (const item of entries(ofName('name'))) this.#takeName(item);
  }

  /** The name of an entry, or null. */
  of(space, index) {
    return this.#names.get(space)?.get(index) ?? null;
  }

  /** The name of a local of a function, or null. */
  ofLocal(of, index) {
    return this.#locals.get(of)?.get(index) ?? null;
  }

  #give(space, index, name) {
    if (!name) return;
    if (!this.#names.has(space)) this.#names.set(space, new Map());
    this.#names.get(space).set(index, name);
  }

  #takeLinking({ symbols = [], segments = [] }) {
    segments.forEach((name, index) => this.#give('data', index, name));
    const named = symbols.filter((it) => it && it.name && NAMED_SYMBOLS.includes(it.kind));
    named.forEach(({ kind, index, name }) => this.#give(kind, index, name));
  }

  #takeName({ space, index, of, name }) {
    if (space === 'local') {
      if (!this.#locals.has(of)) this.#locals.set(of, new Map());
      this.#locals.get(of).set(index, name);
    } else if (of === undefined && index !== undefined) {
      this.#give(space, index, name);
    }
  }
}

// Prefixes, as `dolzhytik size` has them: the crate, or the outermost namespace or class of C++.

const OPENING = '<([{';
const CLOSING = '>)]}';

/**
 * The part before the first `::` of the function's own path. The type of its result may be before
 * that, as in `int ns::f<int>(int)`. A `::` in brackets is one of an argument.
 */
function firstOfPath(name) {
  let [begin, depth, found] = [0, 0, null];
  for (let at = 0; at < name.length; at += 1) {
    const char = name[at];
    if (char === '(' && depth === 0 && at > begin) break;
    if (OPENING.includes(char)) depth += 1;
    else if (CLOSING.includes(char)) depth = Math.max(0, depth - 1);
    else if (depth > 0) continue;
    else if (char === ' ') {
      if (name.slice(begin, at).endsWith('operator')) break;
      [begin, found] = [at + 1, null];
    } else if (found === null && name.startsWith('::', at)) found = name.slice(begin, at);
  }
  return found;
}

/** The last word of a text, without the punctuation of types before it. */
const lastWord = (text, space) => text.split(space).at(-1).replace(/^[<&*[(]+/, '');

/**
 * The first part of a path in the brackets of Rust: `alloc` of `<alloc::string::String as ..>`.
 * Legacy names have `$LT$` for a bracket, and `..` for `::`.
 */
function withinBrackets(part) {
  const legacy = part.replace(/^_+/, '');
  let word = part;
  if (legacy.startsWith('$LT$')) {
    if (!legacy.includes('..')) return null;
    word = lastWord(legacy.slice(4).split('..')[0], '$');
  } else if (part.startsWith('<')) {
    if (!part.includes('::')) return null;
    word = lastWord(part.slice(1).split('::')[0], ' ');
  }
  // A crate may have its hash: `core[846817f741e54dfd]`.
  return word.split('[')[0];
}

/** An identifier after its length in decimal, or null. */
function counted(text) {
  const [digits] = /^\d*/.exec(text);
  const end = digits.length + Number(digits);
  return digits !== '' && end <= text.length ? text.slice(digits.length, end) : null;
}

/** The first part of a name mangled as C++ does, which Rust's legacy names are too. */
function ofItanium(mangled) {
  const path = mangled.replace(/^Z*/, '');
  if (!path.startsWith('N')) return path.startsWith('St') ? 'std' : null;
  const inner = path.slice(1).replace(/^[rVKRO]*/, '');
  if (/^S[tabsiod]/.test(inner)) return 'std';
  const part = counted(inner);
  if (part?.startsWith('_GLOBAL__N')) return '(anonymous namespace)';
  return part === null ? null : withinBrackets(part);
}

/** The crate of a name mangled as Rust does: `C`, a disambiguator, and an identifier. */
function ofRust(mangled) {
  const [path] = /^(N[A-Za-z]|I|[MX](s[^_]*_)?)*/.exec(mangled);
  const crate = /^C(?:s[^_]*_)?(.*)$/s.exec(mangled.slice(path.length));
  // An underscore is before an identifier that begins with one.
  return crate ? counted(crate[1].replace(/^(\d+)_/, '$1')) : null;
}

/** The prefix of a function's name, or null. */
export function prefixOf(name) {
  if (name.startsWith('_Z')) return ofItanium(name.slice(2)) || null;
  if (name.startsWith('_R')) return ofRust(name.slice(2)) || null;
  const first = firstOfPath(name);
  return (first === null ? null : withinBrackets(first)) || null;
}

// Labels.

/**
 * The identifiers of a mangled name: those behind their lengths. In Rust an underscore is before
 * one that begins with an underscore.
 */
function identifiers(mangled, isRust) {
  const found = [];
  const length = isRust ? /(\d+)_?/ : /(\d+)/;
  let rest = mangled;
  for (let it = length.exec(rest); it; it = length.exec(rest)) {
    const begin = it.index + it[0].length;
    const part = rest.slice(begin, begin + Number(it[1]));
    if (/^\D/.test(part)) found.push(part);
    rest = rest.slice(begin + (/^\D/.test(part) ? Number(it[1]) : 0));
  }
  return found;
}

/** The characters that legacy names of Rust have between dollar signs. */
const LEGACY = {
  LT: '<', GT: '>', RF: '&', BP: '*', C: ',', LP: '(', RP: ')', SP: '@', u20: ' ', u7b: '{', u7d: '}', u5b: '[',
  u5d: ']', u27: "'",
};

/**
 * A short text for a function's name: the last two parts of its path. It is the name itself if it
 * is not mangled, or not by a known rule.
 */
export function labelOf(name) {
  if (!/^(_R|_ZN)/.test(name)) return name;
  // A disambiguator of Rust may have digits.
  const mangled = name.startsWith('_R') ? name.slice(2).replace(/([CMX])s[0-9A-Za-z]*_/g, '$1') : name.slice(2);
  const parts = identifiers(mangled, name.startsWith('_R')).filter((part) => !/^h[0-9a-f]{16}$/.test(part));
  // Arguments of Rust are behind the path, which has a letter N for each part but the first.
  const path = name.startsWith('_R') ? /^I?((?:N[A-Za-z])*)C/.exec(mangled) : null;
  const plain = parts.slice(0, path ? path[1].length / 2 + 1 : undefined).slice(-2).join('::').replace(/^_\$/, '$');
  return plain.replace(/\$(\w+)\$/g, (all, word) => LEGACY[word] ?? all).replaceAll('..', '::') || name;
}
