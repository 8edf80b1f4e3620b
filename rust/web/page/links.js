// The part of the address behind `#`: what is shown. The history of the browser goes back and
// forward over it.

/** The parts of an address such as `#function=12` that the page knows, or null. */
export function parsed(hash) {
  const found = /^#(function|offset|section)=(0x[0-9a-f]+|\d+)$/i.exec(hash);
  return found && { kind: found[1], value: Number(found[2]) };
}

/** Adds an address to the history, unless it is the last one. */
export function push(hash) {
  if (location.hash !== hash) history.pushState(null, '', hash);
}

/** Replaces the last address of the history, unless it is that of a function or an offset. */
export function note(hash) {
  const before = parsed(location.hash);
  if (before && before.kind !== 'section') push(hash);
  else history.replaceState(null, '', hash);
}

/** Calls with the parts of the address at each move in the history, and at a click on a link. */
export function listen(onMove) {
  addEventListener('popstate', () => onMove(parsed(location.hash)));
}
