// Scenarios beside each other: what any two plans differ in, and what the delay of each is made of.
import { LETTERS } from './columns.js';
import { $, el } from './dom.js';
import { signed } from './effect.js';
import { Problem, objects } from './net.js';

const TRIES = 3;
const ENTRY = ['status', 'rule', 'runway', 'tobt', 'exot', 'ctot', 'tsat', 'ttot', 'delay']; // what the program compares
const ROOM = 5; // per cent of the width: a letter has room
const CAUSES = ['delay', 'ice', 'ctot', 'closure', 'spacing', 'rate', 'now'];
const HEADS = ['Plan', 'Delay', 'Ice', 'CTOT', 'Closure', 'Spacing', 'Rate', 'Now'];

const entry = (row) => JSON.stringify(row && ENTRY.map((name) => row[name]));

/**
 * The flights whose entry one scenario has otherwise than another one, of what each moves in the day.
 * @param {{flight: string, before: object | null, after: object | null}[]} mine
 * @param {{flight: string, before: object | null, after: object | null}[]} others
 */
export function between(mine, others) {
  const [here, there] = [mine, others].map((list) => new Map(list.map((one) => [one.flight, one])));
  return [...new Set([...here.keys(), ...there.keys()])].sort().map((flight) => ({ flight, before: there.has(flight) ? there.get(flight).after : here.get(flight).before,
    after: here.has(flight) ? here.get(flight).after : there.get(flight).before })).filter(({ before, after }) => entry(before) !== entry(after));
}

/** The comparison that names a scenario; the one that names none, where an update of that scenario is refused. Raises Problem. */
async function planOr(path, body) {
  const asked = { method: 'POST', body, accept: 'application/json' };
  try {
    return await objects(path, asked);
  } catch (problem) {
    if (!(problem instanceof Problem) || problem.status !== 422) throw problem;
    return objects('/v1/compare', asked);
  }
}

/** The scenario that the program puts first, of those that are plans; null: none is. Raises Problem. */
export async function best(body) {
  const { list } = await objects('/v1/compare', { method: 'POST', body, accept: 'application/json' });
  return list.find((one) => one.scenario && !('word' in one))?.scenario ?? null;
}

/**
 * The lines of all plans, and the flights that scenario `name` has otherwise than `base`, another scenario, or than the day where that is null; all
 * of one position. Raises Problem.
 */
export async function comparison(body, name, base) {
  const asked = (one) => planOr(`/v1/compare/${one}`, body);
  const flightsOf = (list) => list.filter((one) => 'flight' in one);
  for (let again = 0; again < TRIES; again += 1) {
    const { list, position } = await asked(name);
    const lines = list.filter((one) => 'scenario' in one);
    const arePlans = [name, base].every((one) => lines.some((line) => line.scenario === one && !('word' in line)));
    if (!base || base === name || !arePlans) return { lines, position, base: null, moved: flightsOf(list) };
    const other = await asked(base);
    if (other.position === position) return { lines, position, base, moved: between(flightsOf(list), flightsOf(other.list)) };
  }
  throw new Problem(0, 'The day moves on too fast to compare two scenarios. Try again');
}

/** What a plan's delay is made of; of the day where the name is null. Raises Problem. */
export async function causesOf(body, name) {
  const { list } = await (name === null ? objects('/v1/causes.json') : objects(`/v1/causes.json?scenario=${name}`, { method: 'POST', body }));
  return { name, total: list.at(-1) };
}

/** The minutes of delay of each plan by cause, as a table and as bars on one scale. */
export class DelayByCause {
  constructor() {
    this.table = el('table', { class: 'cmp', 'aria-labelledby': 'h-wc' }, el('thead', {}, el('tr', {}, ...HEADS.map((word, at) => el('th', { scope: 'col', class: at > 0 && 'n' }, word)))),
      el('tbody'));
    this.bars = el('ul', { class: 'bars', 'aria-hidden': 'true' });
    this.root = el('div', { id: 'wi-causes' }, el('h3', { id: 'h-wc' }, 'Delay by cause ', el('small', {}, 'minutes')),
      el('div', { class: 'scroll', tabindex: 0, role: 'region', 'aria-label': 'Delay by cause of each plan' }, this.table), this.bars);
  }

  /** plans: {name, total} each, the day's first; the last row is what one differs in from another. */
  show(plans, name, base) {
    const [mine, of] = [name, base].map((one) => plans.find((plan) => plan.name === one)?.total);
    $('tbody', this.table).replaceChildren(...plans.map((plan) => el('tr', { class: plan.name === name && 'chosen' }, el('th', { scope: 'row' }, plan.name ?? 'day'),
      ...CAUSES.map((cause) => el('td', { class: 'n' }, String(plan.total[cause]))))),
    el('tr', { class: 'diff' }, el('th', { scope: 'row' }, 'difference'), ...CAUSES.map((cause) => el('td', { class: 'n' }, signed(mine[cause] - of[cause])))));
    const most = Math.max(1, ...plans.map((plan) => plan.total.delay));
    this.bars.replaceChildren(...plans.map((plan) => el('li', {}, el('span', {}, plan.name ?? 'day'), this.barOf(plan.total, most))));
  }

  barOf(total, most) {
    return el('span', {}, ...CAUSES.slice(1).filter((cause) => total[cause] > 0).map((cause) => {
      const [letter, share] = [LETTERS[cause.toUpperCase()], total[cause] * 100 / most];
      const part = el('b', { class: `k${letter}` }, share >= ROOM && letter);
      part.style.width = `${share.toFixed(2)}%`;
      return part;
    }));
  }
}
