// Single keys: to the filter, from row to row, to the what-if, and what the keys are. They are off where somebody has turned them off.
import { $, $$ } from './dom.js';

const KEPT = 'cdm-keys';

/** Whether they are on. */
export function areOn() {
  try {
    return localStorage.getItem(KEPT) !== 'off';
  } catch {
    return true;
  }
}

/** Turns them on or off, for this browser. */
export function turn(isOn) {
  try {
    localStorage.setItem(KEPT, isOn ? 'on' : 'off');
  } catch { /* for this page they stay on */ }
}

/** The row behind or before the one that has the focus; without one the first of the next start-ups. */
function toRow(by) {
  const links = $$('#next tbody th a, #all tbody th a').filter((link) => link.checkVisibility());
  const at = links.indexOf(document.activeElement);
  const link = at < 0 ? links[0] : links[Math.max(0, Math.min(links.length - 1, at + by))];
  link?.focus();
  link?.scrollIntoView({ block: 'nearest' });
}

const DOES = {
  '/': () => $('#filter [name=flight]').focus(),
  j: () => toRow(1),
  k: () => toRow(-1),
  w: () => { location.hash = '#what-if'; },
  '?': () => { location.hash = '#keys'; },
};

export function press(key) {
  if (areOn()) DOES[key]();
}
