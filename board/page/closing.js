// A runway is closed from its own head: from when, for how long, what that does, and the record. It is loaded with the first such button.
import { el, say } from './dom.js';
import { Sender } from './sender.js';
import { hm, later, typed } from './times.js';

const LENGTHS = [5, 10, 15, 20, 30, 45, 60, 90, 120]; // minutes
const USUAL = 30;
const WHOLE = /^\d{4}-\d\d-\d\dT\d\d:\d\dZ$/;

export class Closing extends Sender {
  /** runway: its name; day, onSend, kinds: as of any sender; onEnd(): it isn't wanted any more. */
  constructor({ runway, day, onSend, kinds, onEnd }) {
    const from = el('input', { name: 'from', size: 9, maxlength: 17, autocomplete: 'off', spellcheck: 'false', value: hm(day.now, day.date) });
    const length = el('select', { name: 'length' }, ...LENGTHS.map((minutes) => el('option', { value: minutes, selected: minutes === USUAL }, `${minutes} min`)));
    const until = el('small');
    const end = el('button', { type: 'button', class: 'quiet' }, 'Not now');
    super({ day, onSend, word: `Close ${runway}`, label: `Close runway ${runway}`, kinds,
      inputs: [el('label', {}, 'From, UTC ', from), el('label', {}, 'for ', length), until] });
    this.button.after(end);
    Object.assign(this, { runway, from, length, until, endButton: end, isTouched: true, done: '' });
    until.id = `${this.id}-until`;
    from.setAttribute('aria-describedby', until.id);
    end.addEventListener('click', onEnd);
    this.root.addEventListener('keydown', (event) => {
      if (event.key !== 'Escape') return;
      event.preventDefault();
      onEnd();
    });
    this.preview();
  }

  get isFilled() {
    return WHOLE.test(this.begin);
  }

  get begin() {
    return typed(this.from.value, this.day.date);
  }

  preview() {
    super.preview();
    this.enable();
  }

  /** What is no time can't be sent, nor what was sent already: it is taken back below, or other minutes are chosen. */
  enable() {
    this.button.disabled = this.isSending || !this.isFilled || this.line.textContent === this.done;
  }

  async told(outcome) {
    await super.told(outcome);
    this.enable();
  }

  taken(reply) {
    super.taken(reply);
    this.done = this.line.textContent;
    say(this.endButton, 'Done');
  }

  text() {
    const { begin, isFilled } = this;
    const end = isFilled ? later(begin, Number(this.length.value)) : '';
    say(this.until, isFilled ? `to ${hm(end, this.day.date)}` : `From when on? Give a time, such as ${hm(this.day.now, this.day.date)}.`);
    if (isFilled) this.from.removeAttribute('aria-invalid');
    else this.from.setAttribute('aria-invalid', 'true');
    return ['CLOSE', this.runway, begin, end].join(',');
  }
}

/** The buttons in the heads of the runways' bands, for who may close them. */
export class Closings {
  constructor({ day, desk, onSend }) {
    Object.assign(this, { day, desk, onSend, open: new Map() });
  }

  get kinds() {
    return (this.desk.mayAll ?? []).map((one) => one.kind);
  }

  /** The button of a runway; null: nobody here may close it. */
  buttonOf(runway, root) {
    if (!this.kinds.includes('CLOSE')) {
      this.open.get(runway)?.root.remove();
      this.open.delete(runway);
      return null;
    }
    const button = el('button', { type: 'button', class: 'quiet', 'aria-expanded': 'false' }, 'Close runway', el('span', { class: 'vh' }, ` ${runway}`));
    button.addEventListener('click', () => (this.open.has(runway) ? this.end(runway, button) : this.begin(runway, root, button)));
    return button;
  }

  begin(runway, root, button) {
    const form = new Closing({ runway, day: this.day, onSend: this.onSend, kinds: () => this.kinds, onEnd: () => this.end(runway, button) });
    this.open.set(runway, form);
    button.setAttribute('aria-expanded', 'true');
    root.append(form.root);
    form.from.focus();
    form.from.select(); // what is typed takes its place
  }

  end(runway, button) {
    this.open.get(runway)?.root.remove();
    this.open.delete(runway);
    button.setAttribute('aria-expanded', 'false');
    button.focus();
  }
}
