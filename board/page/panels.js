// Which panel is open, kept in the address: #CLH67 is the flight's, #what-if, #send and #sign-in are the others.
import { $, $$ } from './dom.js';
import { turn } from './hold.js';

const FLIGHT = /^[A-Z0-9]{1,7}$/;
/** Where a panel covers the page, what is below it has no focus; what the connection is stays in sight. */
const covers = { get matches() { return document.documentElement.classList.contains('l-narrow'); } };
const BELOW = ['.skip', 'h1', 'nav', '#b-act', '#warnings', '#runways', '#filtered', '#attention', '#next', '#all'];

export class Panels {
  /** panels: the name of each to {open(flight), close()}. */
  constructor(panels) {
    this.panels = panels;
    this.open = null;
    this.flight = null;
    this.from = null;
    this.behind = '';
    this.marked = [];
    addEventListener('hashchange', () => this.follow());
    addEventListener('layout', () => this.cover());
    document.addEventListener('keydown', (event) => {
      if (event.key === 'Escape' && this.open && !event.defaultPrevented) this.close();
    });
    for (const button of $$('.x-close')) button.addEventListener('click', () => this.close());
    for (const button of $$('[data-panel]')) {
      button.addEventListener('click', () => (this.open === button.dataset.panel ? this.close() : this.go(button.dataset.panel)));
    }
    document.addEventListener('click', (event) => {
      const link = event.target.closest?.('a[href^="#"]');
      if (link && link.hash === location.hash && this.nameOf(link.hash)) this.focus();
    });
  }

  nameOf(hash) {
    const word = hash.slice(1);
    return this.panels[word] && word !== 'flight' ? word : FLIGHT.test(word) ? 'flight' : null;
  }

  go(name) {
    location.hash = `#${name}`;
  }

  /** Closes what is open; the flight that a link named is there again after the sign-in. */
  close() {
    const behind = this.open === 'sign-in' ? this.behind : '';
    this.behind = '';
    history.pushState(null, '', location.pathname + location.search + behind);
    this.follow();
  }

  /** Shows what the address says. */
  follow() {
    turn.take(() => this.show());
  }

  show() {
    const name = this.nameOf(location.hash);
    const flight = name === 'flight' ? location.hash.slice(1) : null;
    if (name === this.open && flight === this.flight) return;
    if (name && !this.open) this.from = document.activeElement;
    if (name === 'sign-in' && this.flight) this.behind = `#${this.flight}`;
    if (this.open && name !== this.open) this.panels[this.open].close();
    [this.open, this.flight] = [name, flight];
    for (const panel of $$('.panel')) panel.hidden = panel.id !== `p-${name}`;
    document.documentElement.classList.toggle('has-panel', name !== null);
    this.cover();
    for (const button of $$('[data-panel]')) button.setAttribute('aria-expanded', String(button.dataset.panel === name));
    this.mark();
    if (name) {
      this.panels[name].open(flight);
      $(`#p-${name}`).scrollTop = 0;
      this.focus();
    } else if (this.from?.isConnected) {
      this.from.focus({ preventScroll: true });
      this.from = null;
    }
  }

  cover() {
    for (const below of BELOW) $(below).inert = covers.matches && this.open !== null;
  }

  focus() {
    ($(`#p-${this.open} [data-first]`) ?? $(`#p-${this.open} h2`)).focus({ preventScroll: true });
  }

  /** Frames the rows of the open flight. */
  mark() {
    for (const row of this.marked) row.classList.remove('open');
    this.marked = this.flight ? $$(`tr[data-flight="${this.flight}"]`) : [];
    for (const row of this.marked) row.classList.add('open');
  }
}
