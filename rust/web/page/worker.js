// The worker of an `Engine`. It keeps the module that was opened last.

/** The package, and what the page makes of it. It is an error of each call if they do not load. */
const loading = Promise.all([import('../dolzhytik.js'), import('./module-reader.js'), import('./comparing.js')]);
let opened = null;

/** An error as an object that can be posted. */
function posted({ message, cause, offset, line }) {
  return { message, cause: typeof cause === 'string' ? cause : null, offset: offset ?? null, line: line ?? null };
}

const calls = {
  ready: () => null,
  open([, { ModuleReader }], bytes) {
    opened = new ModuleReader(bytes, posted);
    return opened.sections();
  },
  parts: () => opened.parts(),
  partsFrom: (library, which, at) => opened.partsFrom(which, at),
  items: (library, index) => opened.items(index),
  itemsFrom: (library, at) => opened.itemsFrom(at),
  instructions: (library, index) => opened.instructions(index),
  minimize([{ minimize, outline }], bytes, options) {
    const minimal = minimize(bytes, options);
    return { bytes: minimal, sections: outline(minimal) };
  },
  build: ([{ assemble }], recipe) => assemble(recipe),
  compare: ([, , { compared }], before, after) => compared(before, after),
};

self.onmessage = async ({ data: { id, call, values } }) => {
  try {
    const value = calls[call](await loading, ...values);
    // A module is moved, not copied.
    self.postMessage({ id, value }, value?.bytes ? [value.bytes.buffer] : []);
  } catch (error) {
    self.postMessage({ id, error: posted(error) });
  }
};
