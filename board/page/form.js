// The records that a desk's role may make, as a form: kinds, fields, forms and ranges are those of the program's table.
import { COLUMNS } from './columns.js';
import { el } from './dom.js';
import { isPressed } from './press.js';
import { Sender } from './sender.js';
import { hm, typed } from './times.js';

export { movedOn } from './effect.js';

/** What the page says of a field in place of the program's form and range. */
const HINTS = { priority: '0 is first, 9 last' };
const TIME = 'YYYY-MM-DDTHH:MMZ';

/** The words that a form lists, as `NONE, STAND or REMOTE`; null where it is no such list. */
const listed = (form) => (/^[A-Z]+(, [A-Z]+)* or [A-Z]+$/.test(form) ? form.split(/, | or /) : null);

/** What a field has now, from the flight's Row. */
function current(name, kind, row, date) {
  if (!row) return '';
  if (name === 'time') return { TOBT: row.tobt, CTOT: row.ctot }[kind] ? hm({ TOBT: row.tobt, CTOT: row.ctot }[kind], date) : '';
  return { priority: row.priority, runway: row.runway, stand: row.stand, group: row.group }[name] ?? '';
}

export class RecordForm extends Sender {
  /**
   * kinds: rows of the table; flight: of which all records are, or null; runways(): their names; onSend, word: as of any sender;
   * toScenario(line): puts a record into the what-if, and says into which scenario.
   */
  constructor(kinds, { flight, row, day, runways, onSend, label, toScenario = null, word = 'Send' }) {
    const kind = el('select', { name: 'kind' });
    const fields = el('div', { class: 'fields' });
    super({ day, onSend, word, label, inputs: [el('label', {}, 'Kind ', kind), fields], kinds: () => this.kinds.map((one) => one.kind) });
    Object.assign(this, { flight, runways, kind, fields, inputs: [] });
    kind.addEventListener('change', () => this.choose());
    fields.addEventListener('input', () => this.unmark());
    if (toScenario) this.button.after(this.adds(toScenario));
    this.offer(kinds, row);
  }

  /** A button that puts the record into the what-if, where nothing is sent. */
  adds(toScenario) {
    const button = el('button', { type: 'button' }, 'Add to what-if');
    button.addEventListener('click', async () => {
      if (!this.isWhole()) return;
      const name = await toScenario(this.line.textContent);
      this.answer('Added', `to scenario ${name}; nothing is sent.`, null, true);
      this.reply.append(el('a', { href: '#what-if' }, 'Open the what-if'));
    });
    return button;
  }

  /** The kinds that are taken now; the one that is chosen stays with what is typed, if it is among them. */
  offer(kinds, row) {
    const { value } = this.kind;
    Object.assign(this, { kinds, row });
    const offered = kinds.map(({ kind }) => kind);
    if (offered.join() !== [...this.kind.options].map((option) => option.value).join()) { // a list that is open stays
      this.kind.replaceChildren(...offered.map((kind) => el('option', { value: kind }, kind)));
      this.kind.value = value;
    }
    if (value && this.kind.value) return;
    // What comes next of a flight, where the desk may send it.
    const due = { PLANNED: row?.runway ? ['TOBT', 'OFF'] : [], BLOCKED: ['TOBT'], OFFBLOCK: ['AIR'] }[row?.status] ?? [];
    this.kind.value = (kinds.find(({ kind }) => due.includes(kind)) ?? kinds[0]).kind;
    const isTyping = this.fields.contains(document.activeElement);
    this.choose();
    if (isTyping) this.kind.focus();
  }

  /** The fields of the kind that is chosen, as they are now: nothing of them is filled in yet. */
  choose() {
    const kind = this.kinds.find((one) => one.kind === this.kind.value);
    this.inputs = [];
    this.said = '';
    const nodes = [];
    this.unmark();
    for (const [at, field] of kind.fields.entries()) {
      if (this.flight && at === 0) continue;
      const id = `${this.id}-${at}`;
      const hint = HINTS[field.name] ?? [field.form.replace(TIME, `HH:MM UTC (or ${this.day.date.slice(8)} HH:MM)`), field.range].filter(Boolean).join('; ');
      const choices = field.name === 'runway' && this.runways().length ? this.runways() : listed(field.form);
      const value = current(field.name, kind.kind, this.row, this.day.date);
      const input = choices
        ? el('select', { id, name: field.name, 'aria-describedby': `${id}-h` }, ...choices.map((one) => el('option', { value: one }, one)))
        : el('input', { id, name: field.name, size: field.form.includes(TIME) ? 9 : 6, maxlength: 17, autocomplete: 'off', spellcheck: 'false',
          'aria-describedby': `${id}-h ${this.id}-line ${this.id}-reply`, value });
      if (choices && choices.includes(String(value))) input.value = value;
      const label = field.name === 'group' ? COLUMNS.group.label.toLowerCase() : field.name;
      this.inputs.push({ input, isTime: field.form.includes(TIME), label, hint });
      nodes.push(el('label', { for: id }, label), input, el('span', { class: 'hint', id: `${id}-h` }, hint));
    }
    this.fields.replaceChildren(...nodes);
    this.isTouched = false;
    this.preview();
  }

  /** Whether somebody types in it, presses its button, sends it or reads its reply. */
  get isUsed() {
    return this.isSending || !this.reply.hidden || this.root.contains(document.activeElement) || isPressed(this.root);
  }

  get isFilled() {
    return this.inputs.every(({ input }) => input.value.trim());
  }

  /** Puts a kind and its values in, as a proposal. One is led to the first box that has none of them, or to the button. */
  propose(kind, ...values) {
    this.kind.value = kind;
    this.choose();
    values.forEach((value, at) => { this.inputs[at].input.value = value; });
    this.isTouched = values.length === this.inputs.length;
    this.preview();
    const { input } = this.inputs[values.length] ?? { input: this.button };
    input.focus();
    input.select?.();
  }

  /** Whether all is filled in. The first box that isn't is marked, with what it takes, and has the focus. */
  isWhole() {
    const empty = this.inputs.find(({ input }) => !input.value.trim());
    if (!empty) return true;
    const { input, isTime, label, hint } = empty;
    const { now, date } = this.day;
    this.answer('Not sent.', isTime ? `Give a time, such as ${hm(now, date)}.` : `Give the ${label}: ${hint}.`, null, false);
    input.setAttribute('aria-invalid', 'true');
    input.focus();
    return false;
  }

  /** Something else is typed: no box is asked for any more. */
  unmark() {
    const marked = this.fields.querySelector('[aria-invalid]');
    if (!marked) return;
    marked.removeAttribute('aria-invalid');
    this.reply.hidden = true;
  }

  send() {
    if (this.isWhole()) super.send();
  }

  /** What was taken back is what the form has now. */
  taken(reply) {
    const { isBack } = this.sent;
    super.taken(reply);
    this.row = reply.changes?.find((row) => row.flight === this.flight) ?? this.row;
    if (isBack) this.choose();
  }

  text() {
    const values = this.inputs.map(({ input, isTime }) => (isTime ? typed(input.value, this.day.date) : input.value.trim()));
    return [this.kind.value, ...(this.flight ? [this.flight] : []), ...values].join(',');
  }
}
