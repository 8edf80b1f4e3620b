// Texts and elements.

const decimal = new Intl.NumberFormat('en-US');
export const percent = new Intl.NumberFormat('en-US', { style: 'percent', maximumSignificantDigits: 3 });
export const number = (value) => decimal.format(value);
export const hex = (value) => `0x${value.toString(16)}`;
export const counted = (count, noun) => `${number(count)} ${noun}${count === 1 ? '' : 's'}`;
export const range = (from, to) => (to - from > 1 ? `${hex(from)} to ${hex(to - 1)}` : hex(from));
export const byId = (id) => document.getElementById(id);

/** The change of a number, with its sign. `format` writes numbers. */
export const signed = (value, format = number) => {
  if (value === 0) return format(0);
  return `${value > 0 ? '+' : '−'}${format(Math.abs(value))}`;
};

/**
 * An element with properties (those with a dash are attributes) and children. Strings become text
 * nodes.
 */
export function make(tag, properties = {}, ...children) {
  const element = document.createElement(tag);
  for (const [name, value] of Object.entries(properties)) {
    if (name.includes('-') || name === 'role') element.setAttribute(name, value);
    else element[name] = value;
  }
  element.append(...children);
  return element;
}

/**
 * A text of a module, with escapes for control characters and those that change the direction of
 * text.
 */
export function escaped(text) {
  return text.replace(/[\p{Cc}\p{Cf}\p{Zl}\p{Zp}]/gu, (char) => `\\u{${char.codePointAt(0).toString(16)}}`);
}

export const numberCell = (textContent) => make('td', { className: 'number', textContent });

/** The index that a key moves to, or null for other keys. `step` is the length of a page. */
export function moved(key, index, count, step) {
  const to = {
    ArrowDown: index + 1,
    ArrowRight: index + 1,
    ArrowUp: index - 1,
    ArrowLeft: index - 1,
    PageDown: index + step,
    PageUp: index - step,
    Home: 0,
    End: count - 1,
  }[key];
  return to === undefined ? null : Math.max(0, Math.min(count - 1, to));
}

export const hasModifier = (event) => event.ctrlKey || event.altKey || event.metaKey;

/** Shows buttons for the previous and the next page; nothing where there is one page. */
export function showPages(element, noun, page, count, go) {
  if (count < 2) return element.replaceChildren();
  const button = (text, label, to) => {
    const disabled = to < 0 || to >= count;
    const made = make('button', { type: 'button', textContent: text, disabled, 'aria-label': label });
    made.addEventListener('click', () => {
      go(to);
      const enabled = element.querySelectorAll('button:enabled');
      enabled[to < page ? 0 : enabled.length - 1].focus();
    });
    return made;
  };
  const previous = button('‹', `Previous page of ${noun}`, page - 1);
  const next = button('›', `Next page of ${noun}`, page + 1);
  return element.replaceChildren(previous, `${number(page + 1)} of ${number(count)}`, next);
}

export const painted = () => new Promise((resolve) => requestAnimationFrame(() => setTimeout(resolve)));

export function download(name, bytes) {
  const url = URL.createObjectURL(new Blob([bytes], { type: 'application/wasm' }));
  make('a', { href: url, download: name }).click();
  setTimeout(() => URL.revokeObjectURL(url), 10_000);
}

export function say(text) {
  byId('status').textContent = text;
}
