// The handle between the list and the bytes.
import { byId, hasModifier } from './elements.js';

const [LEAST, MOST, STEP] = [15, 85, 5];

/** Lets a handle share the space of its parent: by dragging, by arrow keys, Home and End. */
export function listenToHandle(handle) {
  const panes = handle.parentElement;
  const isWide = () => getComputedStyle(handle).cursor === 'col-resize';
  const set = (percent) => {
    const value = Math.round(Math.max(LEAST, Math.min(MOST, percent)));
    panes.style.setProperty('--first', `${value}fr`);
    panes.style.setProperty('--second', `${100 - value}fr`);
    handle.setAttribute('aria-valuenow', value);
  };
  handle.addEventListener('pointerdown', (event) => handle.setPointerCapture(event.pointerId));
  handle.addEventListener('pointermove', (event) => {
    if (!handle.hasPointerCapture(event.pointerId)) return;
    const box = panes.getBoundingClientRect();
    const part = isWide() ? (event.clientX - box.x) / box.width : (event.clientY - box.y) / box.height;
    set(part * 100);
  });
  handle.addEventListener('keydown', (event) => {
    if (hasModifier(event)) return;
    const now = Number(handle.getAttribute('aria-valuenow'));
    const steps = { ArrowUp: -STEP, ArrowLeft: -STEP, ArrowDown: STEP, ArrowRight: STEP, Home: -100, End: 100 };
    if (!(event.key in steps)) return;
    event.preventDefault();
    set(now + steps[event.key]);
  });
  const orient = () => handle.setAttribute('aria-orientation', isWide() ? 'vertical' : 'horizontal');
  new ResizeObserver(orient).observe(byId('module'));
}
