// Who speaks: the desk of a token, or, where the server asks for none, the role that is chosen.
import { $, el, say } from './dom.js';
import { said } from './net.js';

const KEPT = 'cdm-role';

/** The role that this tab had before it was loaded again, or ''. */
function keptRole() {
  try {
    return /^[A-Z]{2,3}$/.exec(sessionStorage.getItem(KEPT) ?? '')?.[0] ?? '';
  } catch {
    return '';
  }
}

export class Desk {
  /** @param {(event: object) => void} give takes signIn, signOut, role and tab */
  constructor(give) {
    Object.assign(this, { give, who: null, table: null, Form: null, movedOn: null, toScenario: null }); // Form, movedOn: with the table of kinds
    said.role = keptRole();
    this.channel = new BroadcastChannel('cdm-desk');
    this.channel.addEventListener('message', () => give({ type: 'tab' }));
    $('#p-sign-in form').addEventListener('submit', (event) => {
      event.preventDefault();
      const { desk, token } = event.target.elements;
      give({ type: 'signIn', desk: desk.value.trim(), token: token.value.trim() });
    });
    $('#b-sign-out').addEventListener('click', () => give({ type: 'signOut' }));
    $('#role').addEventListener('change', () => this.choose($('#role').value));
  }

  choose(role) {
    try {
      sessionStorage.setItem(KEPT, role);
    } catch { /* for this page alone */ }
    said.role = role;
    this.give({ type: 'role', role });
  }

  /** Tells other tabs that somebody signed in or out. */
  tell(word) {
    this.channel.postMessage(word);
  }

  /** Who speaks now, as the server says; null: nobody. */
  show(who, role) {
    this.who = who;
    said.role = role;
    const isOpen = Boolean(who?.roles.length);
    $('#role-label').hidden = !isOpen;
    if (isOpen) {
      $('#role').replaceChildren(el('option', { value: '' }, 'read only'), ...who.roles.map((name) => el('option', { value: name }, name)));
      $('#role').value = role;
    }
    say($('#desk'), who?.desk && !isOpen ? who.desk : '');
    say($('#desk-left'), !who ? '' : who.role === 'READ' ? (isOpen ? '' : 'reads only') : `${isOpen ? '' : `${who.role}, `}${who.left.toLocaleString('en')} records left`);
    $('#b-sign-in').hidden = isOpen || Boolean(who?.desk);
    $('#b-sign-out').hidden = isOpen || !who?.desk;
    $('#b-send').hidden = !who?.kinds.length || Boolean(who.flights);
  }

  /** What the server says to a token. */
  signedIn(isIn, detail) {
    const fault = $('#sign-fault');
    fault.hidden = isIn;
    if (isIn) {
      $('#p-sign-in form').elements.token.value = '';
      return;
    }
    say(fault, `Not signed in: ${detail}.`);
    fault.focus();
  }

  get words() {
    return this.who?.desk === this.who?.role ? this.who?.role : `${this.who?.desk}, ${this.who?.role}`;
  }

  /** The kinds that it may send of a flight. */
  kindsOf(flight) {
    if (!this.mayAll || this.who.flights && !this.who.flights.some((name) => flight.startsWith(name))) return [];
    return this.mayAll.filter((kind) => kind.of === 'flight' && kind.kind !== 'FLT');
  }

  /** Whether it may send a record. */
  maySend(line) {
    const [word, name = ''] = line.split(',');
    const kind = this.mayAll?.find((one) => one.kind === word);
    return Boolean(kind) && (kind.of !== 'flight' || !this.who.flights || this.who.flights.some((one) => name.startsWith(one)));
  }

  /** All kinds that it may send. */
  get mayAll() {
    if (!this.who || !this.table) return null;
    return this.table.filter((kind) => this.who.kinds.includes(kind.kind) && (kind.kind !== 'CLOCK' || this.who.clock));
  }
}
