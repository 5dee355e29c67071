// The plan of an earlier day, as it ended, in the page's own words. It is loaded when somebody asks for it.
import { breath } from './all.js';
import { COLUMNS, TABLES, statusWord } from './columns.js';
import { el } from './dom.js';
import { Problem, objects } from './net.js';
import { dayText } from './times.js';

const SLICE = 100; // rows that are made at once
const NUMBERS = { class: 'n' };

/** A cell of a flight's row. */
function cellOf(row, name, date) {
  if (name === 'flight') return el('th', { scope: 'row' }, row.flight);
  return el('td', COLUMNS[name].isNumber ? NUMBERS : {}, name === 'status' ? [statusWord(row.status), row.rule].filter(Boolean).join(' ') : COLUMNS[name].print(row[name], date));
}

/** By start-up and then by name; those without one come last. */
const keyOf = (row) => `${row.tsat ?? '~'} ${row.flight}`;

/** Shows the plan of a day in a box, which has the focus then. */
export async function showPast(box, date) {
  const address = `/v1/plan?day=${date}`;
  const close = el('button', { type: 'button', popovertarget: box.id, popovertargetaction: 'hide', class: 'quiet' }, 'Close');
  try {
    const { list: [plan] } = await objects(`/v1/plan.json?day=${date}`);
    const body = el('tbody');
    const title = el('h2', { id: 'h-past', tabindex: -1 }, `Plan of ${dayText(date)}, as it ended`);
    const head = el('thead', {}, el('tr', {}, ...TABLES.all.map((name) => el('th', { scope: 'col', ...(COLUMNS[name].isNumber && NUMBERS) }, COLUMNS[name].label))));
    box.replaceChildren(close, title, el('p', {}, `${plan.flights.length} flights: placed ${plan.placed}, late ${plan.late}, blocked ${plan.blocked}, delay ${plan.delay} min. `,
      el('a', { href: address, target: '_blank', rel: 'noopener' }, 'As a text, in a tab of its own')),
    el('div', { class: 'scroll', tabindex: 0, role: 'region', 'aria-labelledby': title.id }, el('table', { 'aria-labelledby': title.id }, head, body)));
    title.focus();
    const rows = plan.flights.toSorted((one, other) => (keyOf(one) < keyOf(other) ? -1 : 1));
    for (let at = 0; at < rows.length; at += SLICE) {
      body.append(...rows.slice(at, at + SLICE).map((row) => el('tr', {}, ...TABLES.all.map((name) => cellOf(row, name, date)))));
      await breath();
    }
  } catch (problem) {
    if (!(problem instanceof Problem)) throw problem;
    box.replaceChildren(close, `No answer: ${problem.message}.`);
  }
}
