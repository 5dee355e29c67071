// The window of a flight's CTOT, as the program has it. It is loaded with the first flight that has one.
import { objects } from './net.js';
import { later, minutesFrom, nextDay } from './times.js';

const [LATE, FROM, TO] = ['23:00', '22:30', '23:45']; // of the second day: a CTOT, and a closure around each window that it can have

/**
 * The first and the last minute of a flight's CTOT window; null where it can't be seen. No answer names the minutes before and after a CTOT, so
 * they are seen in a what-if: with a CTOT late on the second day and its runway closed around it, the flight waits for CLOSURE within its window alone.
 * @param {{flight: string, runway: string, ctot: string}} row
 * @param {string} date
 * @returns {Promise<{from: string, to: string} | null>} raises Problem
 */
export async function windowOf({ flight, runway, ctot }, date) {
  const [late, from, to] = [LATE, FROM, TO].map((time) => `${nextDay(date)}T${time}Z`);
  const body = `SCENARIO,WINDOW\nCTOT,${flight},${late}\nCLOSE,${runway},${from},${to}\n`;
  const { list: [{ waits }] } = await objects(`/v1/why/${flight}.json?scenario=WINDOW`, { method: 'POST', body });
  const at = waits.findIndex((wait, place) => wait.reason === 'CLOSURE' && waits[place - 1]?.reason === 'CTOT' && wait.from >= from);
  if (at < 0) return null;
  const [before, after] = [waits[at].from, waits[at].to].map((time) => minutesFrom(late, time));
  return { from: later(ctot, before), to: later(ctot, after) };
}
