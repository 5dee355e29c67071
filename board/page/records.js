// The log's records, as a list, and why one was refused.
import { el, say } from './dom.js';
import { recordText, withoutName } from './moves.js';
import { ask } from './net.js';
import { hms } from './times.js';

const MOST = 200; // records that are listed

/** Fills a table body with records, the newest first, with who sent them and when; those that are there already stay. */
export function showRecords(body, records, flight = null) {
  const there = new Map([...body.rows].map((row) => [row.dataset.position, row]));
  const rows = records.slice(-MOST).reverse().map((record) => there.get(String(record.position)) ?? rowOf(record, flight));
  if (rows.length !== body.rows.length || rows.some((row, at) => row !== body.rows[at])) body.replaceChildren(...rows);
}

function rowOf(record, flight) {
  const own = flight ? withoutName(record.line, flight) : record.line;
  const what = el('td', {}, recordText(own));
  if (record.reply === 'REFUSED') {
    const words = el('span', { class: 'words' });
    const button = el('button', { type: 'button', class: 'quiet' }, 'why', el('span', { class: 'vh' }, ` was record ${record.position} refused`));
    button.addEventListener('click', async () => {
      button.disabled = true;
      say(words, await whyRefused(record));
      button.remove();
    });
    what.append(' ', el('b', { class: 'refused' }, `refused ${record.word}`), ' ', button, words);
  }
  return el('tr', { 'data-position': record.position }, el('td', { class: 'n' }, String(record.position)), el('td', {}, hms(record.at)),
    el('th', { scope: 'row' }, record.desk, record.role !== record.desk && el('small', {}, ` ${record.role}`)), what);
}

/** Why a record was refused, in the program's words: as its reply has it, or else as it is asked. */
export const whyRefused = async ({ position, word, sentence: said }) => (said ? `${word}: ${said}` : sentence(position));

/** Why a record was refused, in the program's words. */
async function sentence(position) {
  try {
    return (await ask(`/v1/records/${position}/sentence`)).text.trim();
  } catch (problem) {
    return `no reason came: ${problem.message}`;
  }
}
