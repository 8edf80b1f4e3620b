// Minimizes modules, by one call, or section by section where the code stays.
import { DolzhytikError, minimize as minimizeAll, minimizeSection, outline } from './calls.js';
import { hasUnknownSubsection, sectionIndices, withEntries } from './references.js';
import { HEADER, wholeSections } from './sizes.js';
import { joined } from './strip.js';

const [CODE, DATA] = [10, 11];

/**
 * Which sections stay byte for byte, so that offsets stay right: code and data, those that
 * relocations or symbols name, with a source map all before the code, and with an unknown
 * subsection all.
 */
function keptOf(sections) {
  if (sections.some(hasUnknownSubsection)) return sections.map(() => true);
  const kept = sections.map(({ id }) => id === CODE || id === DATA);
  if (sections.some(({ name }) => name === 'sourceMappingURL')) {
    kept.fill(true, 0, Math.max(0, sections.findLastIndex(({ id }) => id === CODE)));
  }
  for (const section of sections) {
    for (const index of sectionIndices(section)) {
      if (index < kept.length) kept[index] = true;
    }
  }
  return kept;
}

function minimizeKeepingCode(module) {
  const outlined = outline(module);
  const wholes = wholeSections(outlined);
  const sections = outlined.map((section, index) => withEntries(module, section, index));
  const cut = sections.findIndex(({ isCut }) => isCut);
  if (cut >= 0) {
    const cause = 'does not decode, and may name sections whose offsets must stay right';
    const message = `section ${cut + 1} (${sections[cut].kind} ${JSON.stringify(sections[cut].name)}): ${cause}`;
    throw new DolzhytikError(message, { cause, offset: wholes[cut].offset, line: null });
  }
  const kept = keptOf(sections);
  const header = module.subarray(0, HEADER);
  const parts = wholes.map(({ offset, size }, index) => {
    const whole = module.subarray(offset, offset + size);
    return kept[index] ? whole : minimizeSection(joined([header, whole])).subarray(HEADER);
  });
  return joined([header, ...parts]);
}

export function minimize(module, { dropOffsets = false, keepCode = false } = {}) {
  if (!keepCode) return minimizeAll(module, { dropOffsets });
  if (dropOffsets) throw new TypeError('dropOffsets and keepCode exclude each other');
  return minimizeKeepingCode(module);
}
