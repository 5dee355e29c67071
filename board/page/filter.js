// The filter, kept in the address, so that a link shows the same.
import { STATUSES, statusOf } from './columns.js';
import { isLate } from './day.js';
import { $, el, say } from './dom.js';
import { current } from './warnings.js';

const LIMITS = ['flight', 'runway', 'status', 'op']; // by which flights are left out
const FIELDS = [...LIMITS, 'whose', 'sort'];
const FEW_NAMED = 4;
const MOST_WARNED = 8;
const LONGEST = 64; // of a value in the address

export class Filter {
  constructor(onChange) {
    this.form = $('#filter');
    this.onChange = onChange;
    this.own = null; // the flights for which the desk sends, by how their names begin
    this.form.elements.status.append(...Object.values(STATUSES).map(({ word }) => el('option', {}, word)));
    this.read();
    this.form.addEventListener('submit', (event) => {
      event.preventDefault();
      this.typed();
    });
    for (const name of ['input', 'change']) this.form.addEventListener(name, () => this.typed());
    $('#show-all').addEventListener('click', () => {
      for (const field of LIMITS) this.form.elements[field].value = '';
      this.form.elements.whose.value = this.own ? 'all' : '';
      this.typed();
      this.form.elements.flight.focus();
    });
    addEventListener('popstate', () => {
      this.read();
      this.onChange();
    });
  }

  /** What the address says. */
  read() {
    const query = new URLSearchParams(location.search);
    for (const field of FIELDS) {
      const input = this.form.elements[field];
      const value = (query.get(field) ?? '').slice(0, LONGEST);
      if (value && input.tagName === 'SELECT' && ![...input.options].some((one) => one.value === value)) {
        input.append(el('option', { value }, value));
      }
      input.value = value;
    }
    this.take();
  }

  /** What the form says. */
  take() {
    const values = Object.fromEntries(FIELDS.map((field) => [field, this.form.elements[field].value.trim()]));
    this.values = { ...values, flight: values.flight.toUpperCase(), op: values.op.toUpperCase() };
    this.isMine = this.own !== null && this.values.whose !== 'all';
    this.isOn = this.isMine || LIMITS.some((field) => this.values[field]);
    this.operators = this.values.op.split(/[\s,]+/).filter(Boolean); // `DLH,EWG` means either
  }

  typed() {
    this.take();
    const query = new URLSearchParams(Object.entries(this.values).filter(([, value]) => value)).toString();
    history.replaceState(null, '', `${location.pathname}${query && `?${query}`}${location.hash}`);
    this.onChange();
  }

  /** Sets it from elsewhere. */
  set(values) {
    for (const field of LIMITS) this.form.elements[field].value = values[field] ?? '';
    this.typed();
  }

  /** The desk that is signed in sends for these flights alone: it sees them first. null: for all. */
  owns(flights) {
    if (JSON.stringify(flights) === JSON.stringify(this.own)) return;
    this.own = flights;
    $('#whose').hidden = !flights;
    this.take();
    this.onChange();
  }

  /** Whether a Row is shown. */
  takes(row) {
    const { flight, runway, status } = this.values;
    return (!this.isMine || this.own.some((name) => row.flight.startsWith(name))) && (!flight || row.flight.includes(flight)) && (!runway || row.runway === runway)
      && (!status || row.status === statusOf(status)) && (!this.operators.length || this.operators.some((op) => row.flight.startsWith(op)));
  }

  /** Says what is shown, at the top of the tables, with its own totals and warnings. */
  head(shown, all, rows) {
    const { flight, runway, status } = this.values;
    const own = this.isMine && `my flights${this.own.length > FEW_NAMED ? '' : `, ${this.own.join(' or ')}`}`;
    const words = [own, flight && `flight ${flight}`, runway && `runway ${runway}`, status, this.operators.length && `operator ${this.operators.join(' or ')}`]
      .filter(Boolean);
    $('#filtered').hidden = !this.isOn;
    if (!this.isOn) return;
    say($('#filtered span'), `Filter: ${words.join(', ')}. ${shown} of ${all} flights${this.totals(rows)}`);
    this.warned(rows);
  }

  /** The totals of what is shown, as the program counts those of all. */
  totals(rows) {
    const these = [...rows.values()].filter((row) => this.takes(row));
    const placed = these.filter((row) => row.status === 'PLANNED');
    const delays = placed.map((row) => row.delay);
    const blocked = these.filter((row) => row.status === 'BLOCKED').length;
    return `: ${placed.length} placed, ${placed.filter(isLate).length} late, ${blocked} blocked, ${delays.reduce((sum, delay) => sum + delay, 0)} minutes of delay, `
      + `${Math.max(0, ...delays)} at most. The line above and the runways show all.`;
  }

  /** Its flights of which the program warns. */
  warned(rows) {
    const list = current.list.filter((one) => one.flight && rows.has(one.flight) && this.takes(rows.get(one.flight)));
    const text = list.map((one) => `${one.kind} ${one.flight}`).join();
    if (text === this.told) return;
    this.told = text;
    $('#f-warned').replaceChildren(`${list.length === 1 ? '1 warning' : `${list.length} warnings`}${list.length ? ':' : ''}`,
      ...list.slice(0, MOST_WARNED).flatMap((one, at) => [`${at ? ', ' : ' '}${one.kind} `, el('a', { href: `#${one.flight}` }, one.flight)]), list.length > MOST_WARNED ? ` +${list.length - MOST_WARNED}` : '');
  }

  /** Of the delay by operator, the operators that are shown with their sum; all of it where none is named. */
  causesOf(list, by) {
    const named = this.operators.length ? this.operators : this.isMine ? this.own : [];
    const mine = by === 'operator' ? list.filter((one) => named.includes(one.group)) : [];
    if (!mine.length) return list;
    const sum = { ...list.at(-1) };
    for (const name of Object.keys(sum).filter((one) => Number.isInteger(sum[one]))) sum[name] = mine.reduce((total, one) => total + one[name], 0);
    return [...mine, sum];
  }

  /** The runways and operators that there are. */
  offer(runways, operators) {
    const select = this.form.elements.runway;
    for (const name of runways) {
      if (![...select.options].some((one) => one.value === name)) select.append(el('option', { value: name }, name));
    }
    $('#operators').replaceChildren(...operators.map((name) => el('option', { value: name })));
  }
}
