// What the filter shows, as a file of comma-separated values: the members of a Row under their own names, times as the program writes them.
import { el } from './dom.js';

const MEMBERS = ['flight', 'status', 'rule', 'runway', 'stand', 'priority', 'group', 'tobt', 'exot', 'ctot', 'tsat', 'ttot', 'delay'];

/** The lines of Rows, in the order in which they are given. */
export function textOf(rows) {
  const lines = rows.map((row) => MEMBERS.map((name) => row[name] ?? '').join(','));
  return [MEMBERS.join(','), ...lines, ''].join('\r\n');
}

/** Saves Rows as a file, which is named by the day and its NOW. */
export function save({ date, now }, rows) {
  const address = URL.createObjectURL(new Blob([textOf(rows)], { type: 'text/csv' }));
  const link = el('a', { href: address, download: `start-ups-${date}-${now.slice(11, 16).replace(':', '')}.csv` });
  link.click();
  setTimeout(() => URL.revokeObjectURL(address), 1000);
}
