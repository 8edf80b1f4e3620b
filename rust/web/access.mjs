// What keeps a page from being used: low contrast, and controls without a name. The functions run
// in the page, and have nothing else of this file.

/** The least contrast of a text to the colours behind it. */
export function leastContrast() {
  const canvas = document.createElement('canvas').getContext('2d', { willReadFrequently: true });
  const paint = (color) => {
    canvas.fillStyle = color;
    canvas.fillRect(0, 0, 1, 1);
  };
  const linear = (value) => (value <= 0.04045 ? value / 12.92 : ((value + 0.055) / 1.055) ** 2.4);
  const luminance = (colors) => {
    ['white', ...colors].forEach(paint);
    const [red, green, blue] = [...canvas.getImageData(0, 0, 1, 1).data].map((value) => linear(value / 255));
    return 0.2126 * red + 0.7152 * green + 0.0722 * blue;
  };
  const behind = (element) =>
    element ? [...behind(element.parentElement), getComputedStyle(element).backgroundColor] : [];
  const hasText = ({ childNodes }) => [...childNodes].some(({ nodeType, data }) => nodeType === 3 && data.trim());
  const isShown = (element) => hasText(element) && element.checkVisibility() && !element.closest(':disabled, .unseen');
  // Text on an image or a gradient has no contrast that is known.
  const isOnImage = (element) => {
    for (let it = element; it; it = it.parentElement) {
      const { backgroundColor, backgroundImage } = getComputedStyle(it);
      if (backgroundImage !== 'none') return true;
      if (!/transparent|[,/] 0(\.\d+)?\)$/.test(backgroundColor)) return false;
    }
    return false;
  };
  const contrast = (element) => {
    if (isOnImage(element)) return { ratio: 0, what: `on an image: ${element.tagName} ${element.className}` };
    const backs = behind(element);
    const [back, text] = [backs, [...backs, getComputedStyle(element).color]].map(luminance);
    const ratio = (Math.max(back, text) + 0.05) / (Math.min(back, text) + 0.05);
    return { ratio, what: `${element.tagName} ${element.className} ${element.textContent.slice(0, 20)}` };
  };
  const all = [...document.querySelectorAll('body *')].filter(isShown).map(contrast);
  return all.sort((a, b) => a.ratio - b.ratio)[0];
}

/**
 * The controls that have no name for people who do not see them, and those that the keyboard does
 * not reach: neither by Tab nor as a member of a group that it reaches.
 */
export function faultyControls() {
  const CONTROLS =
    'a[href], button, input, select, textarea, table, [tabindex], [role=button], [role=listbox], [role=option], '
    + '[role=grid], [role=separator], [role=region]';
  const UNTITLED = 'input, select, textarea, table, [role=listbox], [role=grid], [role=region]';
  const textOf = (ids) => ids.split(/\s+/).map((id) => document.getElementById(id)?.textContent ?? '').join(' ');
  const labels = (element) => [...(element.labels ?? [])].map(({ textContent }) => textContent).join(' ');
  const hasOwnText = (element) => !element.matches(UNTITLED);
  const nameOf = (element) => {
    const by = element.getAttribute('aria-labelledby');
    const own = hasOwnText(element) ? element.textContent : element.caption?.textContent ?? '';
    return [by ? textOf(by) : '', element.ariaLabel ?? '', labels(element), own].find((text) => text.trim()) ?? '';
  };
  const isReached = (element) => {
    if (element.tabIndex >= 0 || element.matches('table:not([role])')) return true;
    const group = element.closest('[role=listbox], [role=grid]');
    if (group === null) return false;
    return group.tabIndex >= 0 || group.querySelector('[tabindex="0"]') !== null || group.childElementCount === 0;
  };
  const isShown = (element) => element.checkVisibility() && !element.closest('[aria-hidden=true], [hidden]');
  // A button opens this one.
  const controls = [...document.querySelectorAll(CONTROLS)].filter((it) => isShown(it) && it.id !== 'other');
  const what = ({ tagName, id, className }) => `${tagName} ${id || className}`;
  const unnamed = controls.filter((it) => !nameOf(it)).map((it) => `no name: ${what(it)}`);
  const unreached = controls.filter((it) => !isReached(it) && !it.disabled).map((it) => `not by keyboard: ${what(it)}`);
  return [...unnamed, ...unreached];
}
