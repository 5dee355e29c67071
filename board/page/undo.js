// Which record takes a record back, and what of a record is asked about before it goes out. It decides by what the page shows alone.
import { hm, minutesFrom } from './times.js';

const EARLY = 30; // minutes by which a time may be earlier without a question
const LATEST = { OFF: true, AIR: true };

/** What a kind sets, as the flight's Row has it; a CTOT may be taken away. */
const SETS = { TOBT: (row) => row.tobt, RWY: (row) => row.runway, STAND: (row) => row.stand, PRIO: (row) => row.priority, GROUP: (row) => row.group,
  CTOT: (row) => row.ctot ?? '-' };
const TURNS = { CLOSE: 'OPEN', OPEN: 'CLOSE' };

/** The flight that a record is of, or null. */
export const flightOf = (line, day) => {
  const name = line.split(',')[1] ?? '';
  return day.rows.has(name) ? name : null;
};

/**
 * The record that takes another one back.
 * @param {string} line
 * @param {object | null} row the flight's, as it was before
 * @returns {string | null} null: none does
 */
export function undoing(line, row) {
  const [kind, ...fields] = line.split(',');
  if (TURNS[kind]) return [TURNS[kind], ...fields].join(',');
  const value = row && SETS[kind]?.(row);
  return value == null || String(value) === fields[1] ? null : [kind, fields[0], value].join(',');
}

/**
 * What is to be asked before a record goes out, in words, or ''.
 * @param {string} line
 * @param {object | null} row the flight's
 * @param {{now: string, date: string}} day
 */
export function doubt(line, row, { now, date }) {
  const [kind, , ...fields] = line.split(',');
  const at = (time) => hm(time, date);
  const time = ['CLOSE', 'OPEN', 'RATE'].includes(kind) ? fields[1] : ['TOBT', 'CTOT', 'OFF', 'AIR'].includes(kind) ? fields[0] : '';
  if (!time || Number.isNaN(Date.parse(time))) return '';
  const past = minutesFrom(time, now);
  if (past > (LATEST[kind] ? EARLY : 0)) return `${at(time)} is ${past} min before NOW, ${at(now)}.`;
  const stands = { TOBT: row?.tobt, CTOT: row?.ctot }[kind];
  const earlier = stands ? minutesFrom(time, stands) : 0;
  return earlier > EARLY ? `${at(time)} is ${earlier} min earlier than the ${kind} that stands, ${at(stands)}.` : '';
}
