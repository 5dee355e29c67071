// What-if: a box for scenarios, their comparison, what moves, and the picture of both. Nothing of it changes the day.
import { DelayByCause, best, causesOf, comparison } from './beside.js';
import { $, el, say } from './dom.js';
import { Effect, findings, signed } from './effect.js';
import { RecordForm } from './form.js';
import { turn } from './hold.js';
import { recordText, startUp } from './moves.js';
import { Problem, newKey, objects } from './net.js';
import { sender, whyNot } from './press.js';
import { whyRefused } from './records.js';
import { hm, minutesFrom, typed } from './times.js';
import { flightOf, undoing } from './undo.js';

const SHORT = /(?<=,)(\d\d )?\d\d:\d\d(?=,|\s*$)/gm; // a time without its day
const WHOLE = /\d{4}-\d\d-\d\dT\d\d:\d\dZ/g;
const KEPT = 'cdm-scenarios'; // of this tab, over a reload
const LINKED = 'scenarios'; // in the address
const MOST_LINK = 6000; // characters of an address
const FIRST = 'SCENARIO,A';
const EMPTY = /^(SCENARIO,NAME)?\s*$/;
const MOST_BESIDE = 4; // scenarios whose loads and causes are shown at once
const GAP = 8; // px
const COLUMNS = ['placed', 'delay', 'max', 'late', 'blocked', 'moved'];

/** What the program or the server says, as a sentence of the page. */
const asSentence = (text) => text.replace(/^cdmseq: /, '').replace(/^./, (first) => first.toUpperCase());

/** The form that desks have; what it makes goes into the last scenario, and its onSend(line) says into which. */
class ScenarioForm extends RecordForm {
  constructor(kinds, more) {
    super(kinds, more);
    this.note.remove(); // it sends nothing
    this.line.previousSibling.data = 'Is added as ';
    this.button.classList.remove('sends');
    this.button.removeAttribute('aria-disabled');
    this.button.setAttribute('type', 'submit'); // said, it isn't the panel's main one
    this.button.setAttribute('aria-describedby', `${this.id}-effect`);
  }

  send() {
    if (this.isWhole()) this.answer('Added', `to scenario ${this.onSend(this.line.textContent)}; nothing is sent.`, null, true);
  }
}

export class WhatIf {
  constructor({ day, bands, picture, desk, runways, send }) {
    Object.assign(this, { day, bands, picture, desk, runways, onSend: send, asked: 0, form: null, compared: '', isOpen: false });
    this.box = $('#scenario');
    this.base = el('select');
    this.against = el('p', { hidden: true }, el('label', {}, 'Difference to ', this.base));
    this.axis = el('div', { id: 'wi-axis' });
    this.causes = new DelayByCause();
    this.base.addEventListener('change', () => this.compare(this.compared));
    addEventListener('layout', () => this.place());
    this.link = el('a', { id: 'wi-link', hidden: true }, 'Link to these scenarios');
    [this.sends, this.note] = sender('wi-why', '');
    Object.assign(this.sends, { type: 'button', id: 'wi-send', hidden: true });
    this.sent = el('p', { class: 'reply', id: 'wi-sent', tabindex: -1, hidden: true });
    this.sending = { id: 'what-if', root: this.sent, told: (order) => this.told(order) };
    this.works = el('p', { class: 'hint', id: 'wi-works', role: 'status' });
    [this.back, this.backNote] = sender('wi-back-why', '');
    Object.assign(this.back, { type: 'button', id: 'wi-back' });
    this.back.classList.add('back');
    this.backEffect = new Effect(day, 'wi-back-effect');
    this.undo = el('div', { class: 'undo', hidden: true }, this.back, this.backEffect.root, this.backNote);
    $('#scenario-h').after(this.link);
    $('#wi-fault').before(this.works);
    $('#h-wm').before(this.sends, this.note, this.sent, this.undo, this.against, this.axis, this.causes.root);
    this.sends.addEventListener('click', () => this.send(this.recordsOf(this.compared)));
    this.back.addEventListener('click', () => this.send({ from: null, lines: this.backLines }));
    this.box.addEventListener('input', () => this.keep());
    this.recall();
    $('#b-pictures').addEventListener('click', async () => (await this.picture()).show(this.names.length ? this.text : '', this.names));
  }

  open() {
    if (!this.box.value) this.box.value = 'SCENARIO,NAME\n';
    this.hint();
    this.keep();
    this.makeForm();
    say($('#wi-at'), `over the day at record ${this.day.position}`);
    this.isOpen = true;
    this.place();
    this.beside([{ name: '', runways: [] }]);
  }

  /** Where the panel covers the page, the runways, which are the scenarios' axis of time, are in it. */
  place() {
    const [runways, isIn] = [$('#runways'), this.isOpen && document.documentElement.classList.contains('l-narrow')];
    if (isIn === (runways.parentNode === this.axis)) return;
    if (isIn) this.axis.append(runways);
    else $('#left').prepend(runways);
    if (isIn) runways.inert = false;
  }

  /** The form that desks have, of all kinds of records: what it makes goes into the last scenario. */
  async makeForm() {
    if (this.form) return;
    try {
      const { list } = await objects('/v1/kinds');
      if (this.form) return;
      this.form = new ScenarioForm(list, { flight: null, row: null, day: this.day, runways: this.runways, label: 'A record for the last scenario',
        word: 'Add to scenario', onSend: (line) => this.add(line) });
      $('#wi-fault').after(this.form.root);
    } catch (problem) {
      if (!(problem instanceof Problem)) throw problem; // records can be typed
    }
  }

  /** Puts a record behind what is written; the name of the scenario in which it is then. */
  add(line) {
    const short = line.replace(WHOLE, (time) => hm(time, this.day.date));
    const text = this.box.value.trimEnd();
    this.box.value = `${EMPTY.test(text) ? FIRST : text}\n${short}\n`;
    this.keep();
    return this.names.at(-1) ?? '';
  }

  /** What was written stays over a reload, and is in a link, with whole times. */
  keep() {
    try {
      sessionStorage.setItem(KEPT, this.box.value);
    } catch { /* for this page alone */ }
    const address = `${location.pathname}?${new URLSearchParams({ [LINKED]: this.text })}#what-if`;
    this.link.hidden = EMPTY.test(this.box.value) || address.length > MOST_LINK;
    this.link.href = address;
  }

  /** What a link has, or what was written before the page was loaded again. */
  recall() {
    const query = new URLSearchParams(location.search);
    const linked = query.get(LINKED);
    if (linked !== null) {
      query.delete(LINKED);
      history.replaceState(null, '', `${location.pathname}${query.size ? `?${query}` : ''}${location.hash}`);
    }
    let kept = '';
    try {
      kept = sessionStorage.getItem(KEPT) ?? '';
    } catch { /* nothing was kept */ }
    if (!this.box.value) this.box.value = linked ?? kept;
    this.keep();
  }

  /** The records of a scenario, as they are written, with whole times; and the line before them. */
  recordsOf(name) {
    const written = this.text.split('\n');
    const from = written.findIndex((line) => line.trim() === `SCENARIO,${name}`) + 1;
    const count = written.slice(from).findIndex((line) => line.startsWith('SCENARIO,'));
    const lines = count < 0 ? written.slice(from) : written.slice(from, from + count);
    return { from, lines: lines.map((line) => line.trim()).filter(Boolean) };
  }

  /** A button for who may send all records of the scenario that was compared. */
  offer(name) {
    const { lines } = this.recordsOf(name);
    Object.assign(this, { compared: name });
    this.sent.hidden = this.undo.hidden = true;
    this.sends.hidden = !lines.length || !lines.every((line) => this.desk.maySend(line));
    say(this.sends, `Send ${lines.length === 1 ? 'this record' : `these ${lines.length} records`} of ${name}`);
  }

  /** They are tried first: if one of them would be refused now, none is sent. `from`: the line before them in what is written; null: they take others back. */
  async send({ from, lines }) {
    if (whyNot()) {
      this.answer('Not sent.', whyNot(), false);
      return;
    }
    this.sends.disabled = this.back.disabled = true;
    this.out = { lines, isBack: from === null, backs: lines.map((line) => undoing(line, this.day.rows.get(flightOf(line, this.day)) ?? null)) };
    try {
      const [first] = await findings(`SCENARIO,${this.compared}\n${lines.join('\n')}\n`);
      if (first) this.answer('Not sent.', `${from === null ? recordText(lines[first.line - 2] ?? '') : `Line ${from + first.line - 1}`}: ${first.sentence}. None of them is sent.`, false);
      else this.onSend(this.sending, lines.join('\n'), newKey());
    } catch (problem) {
      if (!(problem instanceof Problem)) throw problem;
      this.answer('Not sent.', `${problem.message}.`, false);
    } finally {
      this.sends.disabled = this.back.disabled = false;
    }
  }

  /** All of them were taken: which, and what takes them back, the last one first. */
  taken({ position }) {
    const { lines, isBack, backs } = this.out;
    this.sends.hidden = true;
    const known = [...new Set(backs.filter(Boolean).reverse())];
    const others = lines.filter((line, at) => !backs[at]);
    const words = others.length && known.length ? ` What takes back ${others.map(recordText).join(', ')} isn’t known here; of the others: ${known.map(recordText).join(', ')}.` : '';
    this.answer(isBack ? 'Taken back.' : 'Accepted.', `All of them, up to record ${position}: ${lines.map(recordText).join(', ')}.${words}`, true);
    this.backLines = known;
    this.undo.hidden = others.length > 0 || !known.every((line) => this.desk.maySend(line));
    say(this.back, `Take back: ${known.map(recordText).join(', ')}`);
    if (this.undo.hidden) this.backEffect.clear();
    else this.backEffect.of(known, null, 0);
  }

  /** What became of them. */
  async told({ word, reply, detail }) {
    if (word === 'taken') {
      this.taken(reply);
    } else if (word === 'refused') {
      this.answer('Refused,', `record ${reply.position}: ${(await whyRefused(reply)).replace(/[.]?$/, '.')} The others are in the log.`, false);
    } else {
      this.answer(word === 'not known' ? 'Not known.' : 'Not sent.', `${detail}.${word === 'not known' ? ' Send them again: they are taken once.' : ''}`, false);
    }
  }

  answer(word, words, isGood) {
    this.sent.replaceChildren(el('b', {}, word), ` ${words}`);
    this.sent.classList.toggle('good', isGood);
    this.sent.hidden = false;
    this.sent.focus({ preventScroll: true });
    this.sent.scrollIntoView({ block: 'nearest' });
  }

  /** How a scenario is written, with a runway and the date of this day. */
  hint() {
    const { date } = this.day;
    if (!date) return;
    $('#scenario-h').replaceChildren('SCENARIO,name, then records as desks send them, one a line. A time is HH:MM UTC '
      + `(or ${date.slice(8)} HH:MM, or with its whole date).`, el('code', {}, `CLOSE,${this.bands.runways[0]?.runway ?? '27L'},06:20,06:40`));
  }

  close() {
    this.isOpen = false;
    this.place();
    this.beside(null);
    $('#wi-answer').hidden = true;
  }

  /** The scenarios' rows of the bands: the place of one is there as long as the panel is open. */
  beside(plans, base = null) {
    turn.take(() => this.bands.beside(plans, base));
  }

  fault(words) {
    const node = $('#wi-fault');
    node.hidden = !words;
    say(node, words);
    if (words) this.forget();
    if (words) node.focus({ preventScroll: true });
  }

  /** What is written, with whole times. */
  get text() {
    const { date } = this.day;
    return date ? this.box.value.replace(SHORT, (said) => typed(said, date)) : this.box.value;
  }

  get names() {
    return this.box.value.split('\n').map((line) => /^SCENARIO,([A-Z0-9-]{1,16})\s*$/.exec(line)?.[1]).filter(Boolean);
  }

  /** Compares them; `name` is the scenario whose flights are shown: the best one, if none is chosen. */
  async compare(name = null) {
    const number = this.asked += 1;
    const body = this.text;
    this.fault('');
    if (this.form) this.form.reply.hidden = true; // it was of what was written before
    if (!this.names.length) return this.fault('A scenario begins with a line SCENARIO,NAME.');
    say(this.works, 'Comparing …');
    try {
      const shown = name ?? (this.names.length > 1 ? await best(body) : null) ?? this.names[0];
      const found = number === this.asked && await comparison(body, shown, this.base.value || null);
      if (number === this.asked) await this.show(found, shown, body, number);
    } catch (problem) {
      if (!(problem instanceof Problem)) throw problem;
      if (number === this.asked) await this.failed(problem, body);
    } finally {
      if (number === this.asked) say(this.works, '');
    }
  }

  /** What the program says of all, of the one that is chosen, and of how it differs from the day or from another one. */
  async show({ lines, position, base, moved }, name, body, number) {
    const areWrong = lines.filter((one) => 'word' in one).map((one) => one.scenario);
    const plans = this.names.filter((one) => !areWrong.includes(one));
    say($('#wi-at'), `over the day at record ${position}`);
    this.offerBases(plans, name, base);
    this.table(lines, name, base);
    this.moved(moved, name, base);
    this.offer(name);
    $('#wi-answer').hidden = false;
    if (document.activeElement !== this.base) this.toAnswer();
    if (areWrong.length) await this.refused(body, number);
    if (number !== this.asked) return;
    const isWrong = areWrong.includes(name);
    this.causes.root.hidden = isWrong;
    say($('#wi-note'), '');
    if (isWrong) this.sends.hidden = true;
    if (isWrong) this.beside([{ name: '', runways: [] }]);
    else await this.drawn(plans, name, base, body, number);
  }

  /** The rows and the causes come behind the comparison, which stays where the day has moved on meanwhile so that they have no answer. */
  async drawn(plans, name, base, body, number) {
    try {
      await this.draw(plans, name, base, body, number);
    } catch (problem) {
      if (!(problem instanceof Problem)) throw problem;
      if (number !== this.asked) return;
      this.causes.root.hidden = true;
      this.beside([{ name: '', runways: [] }]);
      say($('#wi-note'), `The runways’ rows and the causes have no answer: ${problem.message}. Compare again.`);
    }
  }

  /** What was asked for is in sight, below the panel's head; the page behind stays where it is. */
  toAnswer() {
    const [panel, head] = [$('#p-what-if'), $('#wi-head')];
    panel.scrollTop += head.getBoundingClientRect().top - $('.ph', panel).getBoundingClientRect().bottom - GAP;
    head.focus({ preventScroll: true });
  }

  /** What it may differ from: the day, or another scenario. */
  offerBases(plans, name, base) {
    const others = plans.filter((one) => one !== name);
    this.against.hidden = !others.length || !plans.includes(name);
    this.base.replaceChildren(el('option', { value: '' }, 'the day'), ...others.map((one) => el('option', {}, one)));
    this.base.value = base ?? '';
  }

  /** The loads and the causes of the first of them, among which are the two that are compared. */
  async draw(plans, name, base, body, number) {
    const chosen = [...new Set([name, base, ...plans])].filter(Boolean).slice(0, MOST_BESIDE);
    const names = plans.filter((one) => chosen.includes(one));
    const [loads, causes] = [[], [await causesOf(body, null)]];
    for (const one of names) {
      const { list } = await objects(`/v1/load.json?scenario=${one}`, { method: 'POST', body });
      loads.push({ name: one, runways: list, isChosen: one === name });
      causes.push(await causesOf(body, one));
      if (number !== this.asked) return;
    }
    this.causes.show(causes, name, base);
    this.beside(loads, loads.find((one) => one.name === base)?.runways ?? null);
    if (document.activeElement === $('#wi-head')) this.toAnswer(); // there is more below it now
    const left = plans.length - names.length;
    say($('#wi-note'), `In the runways’ bands ${names.length > 1 ? 'each scenario has its rows' : `the second row is ${name}`}; * marks a flight that isn’t in that cell `
      + `${base ? `in ${base}` : 'now'}, and where it was its name is struck out.${left ? ` Of ${plans.length} scenarios ${names.length} are shown: choose another one in the table.` : ''}`);
  }

  /** Why there is no comparison: at its line, in the program's words, if it is what is written. */
  async failed(problem, body) {
    const number = this.asked;
    let found = [];
    try {
      if (problem.status === 422) found = await findings(body);
    } catch (other) {
      if (!(other instanceof Problem)) throw other;
    }
    if (number !== this.asked) return;
    const [first] = found;
    this.fault(asSentence(first ? `${first.line ? `Line ${first.line}: ` : ''}${first.sentence}.` : `${problem.message}.`));
    if (first?.line) this.select(first.line);
  }

  /** Marks a line of what is written, so that who goes there is at it. */
  select(line) {
    const lines = this.box.value.split('\n');
    const start = lines.slice(0, line - 1).join('\n').length + (line > 1 ? 1 : 0);
    this.box.setSelectionRange(start, start + (lines[line - 1] ?? '').length);
  }

  /** Why the day refuses a scenario, in its line of the table: at which line of what is written, and the program's words. */
  async refused(body, number) {
    const found = await findings(body);
    if (number !== this.asked) return;
    const named = body.split('\n').map((line) => /^SCENARIO,(\S+)/.exec(line)?.[1]);
    for (const { line, sentence } of found) {
      const name = named.slice(0, line).findLast(Boolean);
      const cell = $(`#wi-table td[data-scenario="${CSS.escape(name ?? '')}"]`);
      if (cell) say(cell, `Refused at line ${line}: ${sentence}.`);
    }
  }

  /** What was compared before isn't shown beside a fault. */
  forget() {
    $('#wi-answer').hidden = true;
    this.beside([{ name: '', runways: [] }]);
  }

  table(lines, shown, base) {
    const of = lines.find((one) => one.scenario === base);
    const rows = lines.map((one) => {
      const label = one.scenario ?? 'day';
      const title = one.scenario === null || lines.length <= 2 ? label : this.chooser(label, one.scenario === shown);
      if ('word' in one) return el('tr', {}, el('th', { scope: 'row' }, title), el('td', { colspan: 6, 'data-scenario': one.scenario }, `Refused: update ${one.update}, ${one.word}.`));
      return el('tr', { class: one.scenario === shown && 'chosen' }, el('th', { scope: 'row' }, title),
        ...COLUMNS.map((name) => el('td', { class: 'n' }, String(one[name]))));
    });
    const mine = lines.find((one) => one.scenario === shown && !('word' in one));
    if (mine) {
      rows.push(el('tr', { class: 'diff' }, el('th', { scope: 'row' }, 'difference'), ...COLUMNS.slice(0, 5).map((name) => el('td', { class: 'n' },
        signed(mine[name] - of[name]))), el('td')));
    }
    $('#wi-table').replaceChildren(...rows);
  }

  /** A scenario's button, pressed if its flights are shown. */
  chooser(name, isShown) {
    const button = el('button', { type: 'button', class: 'quiet', 'aria-pressed': String(isShown) }, name);
    button.addEventListener('click', () => this.compare(name));
    return button;
  }

  moved(list, name, base) {
    const { date } = this.day;
    const heads = $('#wi-flights').parentNode.tHead.rows[0].cells;
    say(heads[1], base ?? 'Day');
    say(heads[2], base ? name : 'What-if');
    say($('#wi-moved'), list.length ? `${list.length === 1 ? '1 flight' : `${list.length} flights`}, TSAT or rule` : 'no flight');
    $('#wi-flights').replaceChildren(...list.map(({ flight, before, after }) => {
      const row = after ?? before;
      const change = !before ? 'new' : before.tsat && after.tsat ? `${signed(minutesFrom(before.tsat, after.tsat))} min`
        : after.tsat ? 'placed' : before.tsat ? 'blocked' : 'no start-up';
      return el('tr', {}, el('th', { scope: 'row' }, el('a', { href: `#${row.flight ?? flight}` }, flight)), el('td', {}, startUp(before, date)),
        el('td', {}, startUp(after, date)), el('td', {}, change));
    }));
  }
}
