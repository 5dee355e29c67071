// The line of state: how each runway stands, and how many flights are to be acted on. And the rows, each of which is a target as a whole.
import { $, $$, el, say } from './dom.js';
import { dayText, hm } from './times.js';
import { ACT } from './warnings.js';

const KEYS = ['/', 'j', 'k', 'w', '?'];
const FEW = 4; // so many runways are named one by one; of more, those alone that aren't just open
const FACE_WAIT = 5000; // ms; the first load has no face of its own
let shown = '';

/** A runway's cells from NOW on in a few words: `open 4/10'`, `shut to 07:00, again 07:10`. */
function words(cells, { cell: length }, date) {
  const isShut = (cell) => cell.closed >= length;
  const ends = (cell) => `${cell.closed && !isShut(cell) ? 'about ' : ''}${hm(cell.from, date)}`;
  const part = cells[0].closed && !isShut(cells[0]) ? ` ${cells[0].closed} of ${length} min` : '';
  const rest = part ? cells.slice(1) : cells;
  if (rest.length > 0 && isShut(rest[0])) {
    const open = rest.find((cell) => !isShut(cell));
    const again = open && rest.find((cell) => cell.from > open.from && cell.closed);
    if (!open) return `shut${part && `${part} and on`}`;
    return `shut${part && `${part}, then`} to ${ends(open)}${again ? `, again ${ends(again)}` : ''}`;
  }
  if (part) return `shut${part}`;
  const next = cells.find((cell) => cell.closed);
  return `open${cells[0].cap === null ? '' : ` ${cells[0].cap}/${length}'`}${next ? ` to ${ends(next)}` : ''}`;
}

/** Each runway with its cells from NOW on. */
export function showRunways(list, date) {
  const all = list.map(({ runway, cells }) => ({ name: runway.runway, said: words(cells, runway, date), isShut: cells[0].closed > 0 }));
  const named = all.length > FEW ? all.filter((one) => !/^open( [^ ]+)?$/.test(one.said)) : all;
  const text = JSON.stringify([named, all.length]);
  if (text === shown) return;
  shown = text;
  const others = all.length - named.length;
  $('#pills').replaceChildren(...named.map((one) => el('li', { class: one.isShut && 'shut' }, el('b', {}, one.name), ` ${one.said}`)),
    ...(others ? [el('li', {}, `${others} ${named.length ? 'others ' : ''}open`)] : []));
}

/** How many flights are to be acted on. */
export function showAct(list) {
  const count = new Set(list.filter((one) => ACT.includes(one.kind)).map((one) => one.flight)).size;
  say($('#n-act'), count);
  $('#b-act').classList.toggle('some', count > 0);
}

/** The first of those that are to be acted on. */
function toAct() {
  const first = $(`#warnings :is(${ACT.map((kind) => `.${kind}`)}) :is(a, button)`) ?? $('#warnings :is(a, button)');
  $('#warnings').scrollIntoView({ block: 'nearest' });
  first?.focus();
}

/** A press anywhere in a flight's row is one on its link, but where a text is being chosen. */
function toRow(event) {
  const row = event.target.closest?.('tr[data-flight]');
  if (!row || event.defaultPrevented || event.target.closest('a, button') || !getSelection().isCollapsed) return;
  const link = $('th a', row);
  link.focus({ preventScroll: true });
  link.dispatchEvent(new MouseEvent('click', { bubbles: true, cancelable: true, ctrlKey: event.ctrlKey, metaKey: event.metaKey, shiftKey: event.shiftKey }));
}

/** A face of its own, where the server has one: its folder names it then. */
function takeFace() {
  const link = $('#face');
  if (link.getAttribute('href').startsWith('/')) link.rel = 'stylesheet';
}

/** What a printed page is of. */
function stamp({ date, now, position }) {
  say($('#stamp'), `${location.host}, ${date && dayText(date)}, NOW ${hm(now, date)} UTC, record ${position}`);
}

/** A part of the page, from the bar at the bottom of a phone. */
function goTo(head) {
  head.closest('section').scrollIntoView();
  head.focus({ preventScroll: true });
}

/** A single key: what it does is loaded with the first one. */
async function pressed(event) {
  if (!KEYS.includes(event.key) || event.ctrlKey || event.metaKey || event.altKey || event.target.closest?.('input, select, textarea')) return;
  event.preventDefault();
  (await import('./keys.js')).press(event.key);
}

/** The help is opened: whether single keys are on is kept in the browser. */
export async function openKeys() {
  const { areOn, turn } = await import('./keys.js');
  $('#keys-on').checked = areOn();
  $('#keys-on').onchange = (event) => turn(event.target.checked);
}

export function startState(day) {
  document.addEventListener('keydown', pressed);
  for (const button of $$('#tabs button')) button.addEventListener('click', () => goTo($(`#${button.dataset.to}`)));
  addEventListener('beforeprint', () => stamp(day));
  matchMedia('print').addEventListener('change', () => stamp(day));

  setTimeout(takeFace, FACE_WAIT);
  $('#b-act').addEventListener('click', toAct);
  document.addEventListener('click', toRow);
}
