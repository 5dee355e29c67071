// What sends a record: its effect before, what is asked once, the reply, and what takes it back.
import { el, say, styled } from './dom.js';
import { Effect } from './effect.js';
import { recordText } from './moves.js';
import { newKey } from './net.js';
import { sender, whyNot } from './press.js';
import { whyRefused } from './records.js';
import { doubt, flightOf, undoing } from './undo.js';

styled(new URL('act.css', import.meta.url).href);

const NAMED = 8; // flights that changed, by name
const NOT_KNOWN = 'It isn’t known whether the record was taken. Send it again: it is taken once.';
let count = 0;

export class Sender {
  /** day; onSend(sender, line, key); word: of the button; inputs: what is filled in; kinds(): which kinds of records the desk may send. */
  constructor({ day, onSend, word, inputs, label, kinds }) {
    Object.assign(this, { day, onSend, word, maySend: kinds, isSending: false, isTouched: false, said: '', doubted: null, sent: null });
    this.id = `f${count += 1}`;
    this.line = el('code');
    [this.button, this.note] = sender(`${this.id}-why`, word);
    this.button.setAttribute('aria-describedby', `${this.id}-why ${this.id}-effect`);
    this.reply = el('p', { class: 'reply', id: `${this.id}-reply`, tabindex: -1, hidden: true });
    this.effect = new Effect(day, `${this.id}-effect`);
    [this.back, this.backNote] = sender(`${this.id}-back-why`, '');
    this.back.setAttribute('aria-describedby', `${this.id}-back-why ${this.id}-back`);
    this.back.classList.add('back');
    this.back.type = 'button';
    this.backEffect = new Effect(day, `${this.id}-back`);
    this.wider = el('small', { hidden: true }, 'It opens what another CLOSE has closed as well.');
    this.earlier = el('small', { hidden: true });
    this.undo = el('div', { class: 'undo', hidden: true }, this.earlier, this.back, ' ', this.wider, this.backEffect.root, this.backNote);
    // What comes and goes is below the button, which stays where it is.
    this.root = el('form', { class: 'send', 'aria-label': label }, ...inputs, this.button, this.note,
      el('p', { class: 'hint', id: `${this.id}-line` }, 'Goes out as ', this.line), this.effect.root, this.reply, this.undo);
    for (const name of ['input', 'change']) {
      this.root.addEventListener(name, () => {
        this.isTouched = true;
        this.preview();
      });
    }
    this.root.addEventListener('submit', (event) => {
      event.preventDefault();
      this.send();
    });
    this.back.addEventListener('click', () => this.goes(this.back.dataset.line));
  }

  /** What it would send. Its own. */
  text() {
    return '';
  }

  /** Whether all is filled in. Its own. */
  get isFilled() {
    return true;
  }

  /**
   * Says what would go out and, if somebody filled it in, what that would do. A time is of the date at which it was typed, also where one leaves
   * its field, or presses the button, in a day that has begun since.
   */
  preview() {
    const said = JSON.stringify([this.isTouched, ...[...this.root.elements].filter((one) => one.name).map((one) => one.value)]);
    if (said === this.said) return;
    this.said = said;
    const text = this.text();
    say(this.line, text);
    if (this.doubted !== null && this.doubted !== text) {
      this.doubted = null;
      say(this.button, this.word);
      if (this.reply.classList.contains('asks')) this.reply.hidden = true;
    }
    if (this.isTouched && this.isFilled) this.effect.of([text], flightOf(text, this.day));
    else this.effect.clear();
  }

  /** What it says goes out: a time that was typed is of the date at which it was typed. What looks wrong is asked once. */
  send() {
    const line = this.line.textContent;
    const words = whyNot() || this.doubted === line ? '' : doubt(line, this.rowOf(line), this.day);
    if (!words) {
      this.goes(line);
      return;
    }
    this.doubted = line;
    say(this.button, `${this.word} even so`);
    this.answer('Look again.', `${words} Press ${this.word} even so if it is meant.`, null, false);
    this.reply.classList.add('asks');
  }

  /** Which flights a record changed. */
  changedText(reply) {
    const names = (reply.changes ?? []).map((row) => row.flight);
    const what = names.length === 1 ? 'This flight' : `${names.length} flights`;
    return names.length ? `${what} changed: ${names.slice(0, NAMED).join(', ')}${names.length > NAMED ? ' …' : ''}.` : 'No flight changed.';
  }

  rowOf(line) {
    return this.day.rows.get(flightOf(line, this.day)) ?? null;
  }

  goes(line) {
    if (whyNot()) {
      this.answer('Not sent.', whyNot(), null, false);
      return;
    }
    this.isSending = true;
    this.sent = { line, row: this.rowOf(line), isBack: this.undo.hidden === false && line === this.back.dataset.line };
    this.button.disabled = this.back.disabled = true;
    this.onSend(this, line, newKey());
  }

  /** What is known of the record that it sent: `taken`, `refused`, `not taken`, `not known`, or `not sent`. */
  async told({ word, reply, detail, isAgain }) {
    this.isSending = false;
    this.doubted = null;
    say(this.button, this.word);
    this.button.disabled = this.back.disabled = false;
    if (word === 'taken') this.taken(reply);
    else if (word === 'refused') await this.refused(reply);
    else if (word === 'not known') this.answer(isAgain ? 'Not known.' : 'No reply.', `${NOT_KNOWN} (${detail}.)`, null, false);
    else this.answer(word === 'not taken' ? 'Not taken.' : 'Not sent.', `${detail}.`, null, false);
  }

  /** What was done, and what takes it back. */
  taken(reply) {
    this.isTouched = false;
    this.said = '';
    this.effect.clear();
    const { line, row, isBack } = this.sent;
    this.answer(isBack ? 'Taken back.' : 'Accepted.', this.changedText(reply), reply, true);
    const back = undoing(line, row);
    if (back && this.maySend().includes(back.split(',', 1)[0])) this.offerBack(back, reply.position);
    else this.undo.hidden = true;
  }

  /** What takes back a record of this position. */
  offerBack(line, position) {
    say(this.earlier, `For record ${position}, which was accepted before:`);
    this.undo.hidden = false;
    this.back.dataset.line = line;
    say(this.back, `Take back: ${recordText(line)}`);
    this.wider.hidden = !line.startsWith('OPEN,');
    this.backEffect.clear();
    this.backEffect.of([line], flightOf(line, this.day), 0);
  }

  /** The reply says why: what was said of its effect before says no more. */
  async refused(reply) {
    this.effect.clear();
    if (!reply.sentence) this.answer(`Refused, ${reply.word}.`, 'Nothing is changed.', reply, false);
    const words = await whyRefused(reply);
    this.answer('Refused,', `${words.replace(/[.]?$/, '.')} Nothing is changed.`, reply, false);
  }

  /** The reply, below the form, in place of the one before; it gets the focus, so that it is read, and is in sight. */
  answer(word, words, reply, isGood) {
    this.reply.replaceChildren(el('b', {}, word), ` ${words} `, reply ? el('small', {}, `record ${reply.position}, ${reply.at.slice(11, 19)}`) : '');
    this.reply.classList.remove('asks');
    this.reply.classList.toggle('good', isGood);
    this.earlier.hidden = isGood; // what is taken back below isn't what this reply is of
    this.reply.hidden = false;
    this.reply.focus({ preventScroll: true });
    this.reply.scrollIntoView({ block: 'nearest' });
  }
}
