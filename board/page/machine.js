// What the page knows and what it does next: events in, orders out. It has no document, no network, no timer, no clock and no chance.
import { Following } from './following.js';
import { QUIET, OPENING, RECORD_DEADLINE, SOON, LOG } from './limits.js';

/**
 * What comes in. Each has `at`, milliseconds of a clock that only goes on, and `now`, milliseconds of the server's clock as far as it is
 * known, for words alone. `type` is the name of the method that takes it:
 * start; wake; opened {stream}; chunk {stream, text}; ended {stream, status, detail, retry}; answer {id, status, log, position, lastAt, text,
 * stale, retry, detail, isOwn}; heard {status, stale}: of a question that a box asked by itself; send {form, line, key};
 * signIn {desk, token}; signOut; role {role}; tab; panel {open, flight}; causes {isOpen, by}; options {flight}; seen {position};
 * fault {part, detail}.
 * What goes out: ask {id, name, path, method, body, accept, after, key, role}, abandon {id}, open {stream, since, role}, close {stream},
 * wait {until}, show {what, ..}, say {what, ..}, enable {why}, tell {word} (to other tabs).
 * @typedef {{type: string, at: number, now: number} & Record<string, any>} Incoming
 * @typedef {{do: 'ask' | 'abandon' | 'open' | 'close' | 'wait' | 'show' | 'say' | 'enable' | 'tell'} & Record<string, any>} Order
 * @typedef {'new' | 'reading' | 'live' | 'behind' | 'lost' | 'out'} State
 * A moment of a log; `lastAt`: when its record was taken, as far as it is known. A log that has lost records has others in their places.
 * @typedef {{log: string, position: number, lastAt?: string}} Moment
 */

/** The method that takes an event of a type. */
const methods = new Map();

function methodOf(type) {
  if (!methods.has(type)) methods.set(type, `on${type[0].toUpperCase()}${type.slice(1)}`);
  return methods.get(type);
}

export class Machine extends Following {
  /** @returns {State} */
  get state() {
    if (this.isOut) return 'out';
    if (this.lost) return 'lost';
    if (!this.rows) return 'new';
    if (this.need || !this.stream?.isTold) return 'reading';
    return this.staleSince ? 'behind' : 'live';
  }

  /** All questions that the page asks by itself. */
  table() {
    const isOn = () => this.rows !== null && !this.isOut && this.stream?.isOpen === true;
    const flight = () => this.panel.open === 'flight' && this.panel.flight;
    return [
      { name: 'who', isApart: true, isWanted: () => true, path: () => '/v1/who', after: () => (this.who ? this.rows?.position ?? 0 : 0) },
      { name: 'kinds', isApart: true, isWanted: () => this.kinds === null && Boolean(this.who?.kinds.length), path: () => '/v1/kinds' },
      { name: 'plan', isApart: true, isOfDay: true, isWanted: () => this.rows === null || this.need !== null, path: () => '/v1/plan.json' },
      { name: 'health', isApart: true, isWanted: isOn, path: () => '/health' },
      { name: 'history', isApart: true, isOfDay: true, isWanted: () => isOn() && this.history !== null, path: () => `/v1/records?since=${this.history.since}` },
      { name: 'between', isApart: true, isOfDay: true, isWanted: () => isOn() && this.held !== null, path: () => `/v1/records?since=${Math.max(0, this.rows.position - 1)}` },
      { name: 'ahead', isApart: true, isOfDay: true, isWanted: () => isOn() && !this.need && this.isAhead,
        path: () => `/v1/records?since=${this.stream.moment.position}`, after: () => this.stream.moment.position },
      { name: 'next', isOfDay: true, isWanted: isOn, path: () => '/v1/next.json' },
      { name: 'why', isOfDay: true, isWanted: () => isOn() && Boolean(flight()) && this.day.rows.has(flight()), path: () => `/v1/why/${flight()}.json` },
      { name: 'options', isOfDay: true, isWanted: () => isOn() && this.isHelpAsked, path: () => `/v1/options/${flight()}.json` },
      { name: 'records', isOfDay: true, isWanted: () => isOn() && Boolean(flight()), path: () => `/v1/records?flight=${flight()}&day=${this.day.date}` },
      { name: 'totals', isOfDay: true, isWanted: isOn, path: () => '/v1/compare', method: 'POST', body: '', accept: 'application/json' },
      { name: 'warnings', isOfDay: true, isWanted: isOn, path: () => '/v1/warnings.json' },
      { name: 'load', isOfDay: true, isWanted: isOn, path: () => '/v1/load.json' },
      { name: 'log', isOfDay: true, isWanted: () => isOn() && this.panel.open === 'send',
        path: () => `/v1/records?since=${Math.max(0, Math.floor(this.rows.position / LOG) - 1) * LOG}&day=${this.day.date}` },
      { name: 'causes', isOfDay: true, isWanted: () => isOn() && this.causesOf.isOpen, path: () => `/v1/causes.json?by=${this.causesOf.by}` },
      { name: 'operators', isOfDay: true, isWanted: () => isOn() && !this.operators, path: () => '/v1/causes.json?by=operator' },
    ];
  }

  /**
   * One event; what is to be done upon it.
   * @param {Incoming} event
   * @returns {Order[]}
   */
  take(event) {
    this.at = event.at;
    this.now = event.now;
    this[methodOf(event.type)](event);
    this.work();
    const { orders } = this;
    this.orders = [];
    return orders;
  }

  /** What is due by now. */
  work() {
    const { stream } = this;
    if (stream && this.at >= stream.heardAt + (stream.isOpen ? QUIET : OPENING)) {
      this.order({ do: 'close', stream: stream.number });
      this.onEnded({ stream: stream.number, status: 0, detail: 'nothing is heard from the server', retry: 0 });
    }
    for (const ask of this.asks.values()) if (this.at >= ask.until) this.giveUp(ask);
    if (this.who && !this.isOut && !this.stream && this.at >= this.reopenAt) this.open();
    for (const name of this.questions.due(this.at)) this.ask(name);
    this.sayState();
    this.wait();
  }

  /** When to be woken, if nothing comes before. */
  wait() {
    let until = this.questions.next();
    for (const ask of this.asks.values()) until = Math.min(until, ask.until);
    if (this.stream) until = Math.min(until, this.stream.heardAt + (this.stream.isOpen ? QUIET : OPENING));
    else if (this.who && !this.isOut) until = Math.min(until, this.reopenAt);
    if (until === this.wakeAt) return;
    this.wakeAt = until;
    this.order({ do: 'wait', until });
  }

  onWake() {}

  onOpenPanel({ open, flight }) {
    this.panel = { open, flight };
    this.dropHelp();
    for (const name of ['why', 'records', 'log']) {
      this.had.delete(name);
      this.questions.wantNow(name, this.at);
    }
  }

  /** What could help the flight of the panel: many what-ifs, which are asked once, as somebody wants them. */
  onOptions({ flight }) {
    if (this.panel.open !== 'flight' || this.panel.flight !== flight || this.questions.isAsked('options')) return;
    this.isHelpAsked = true;
    this.questions.wantNow('options', this.at);
  }

  onCauses({ isOpen, by }) {
    this.causesOf = { isOpen, by };
    this.questions.wantNow('causes', this.at);
  }

  /** A box asked by itself; what its answer says of the whole page. It may have asked as somebody who spoke before: so it is asked who speaks. */
  onHeard({ status, stale }) {
    if (status === 401 && this.who) this.questions.wantNow('who', this.at);
    else if (stale !== undefined) this.takeStale(stale);
  }

  onSend({ form, line, key }) {
    const { desk } = this;
    const begun = this.sending.begin(line, key);
    if (begun.why) {
      this.order({ do: 'say', what: 'sent', form, word: 'not sent', reply: null, detail: begun.why, isAgain: true });
      return;
    }
    this.send_({ name: 'record', path: '/v1/records', method: 'POST', body: `${line}\n`, key: begun.key, form, desk, line }, RECORD_DEADLINE);
  }

  takeSent(ask, event) {
    const outcome = this.sending.end(ask, event);
    this.order({ do: 'say', what: 'sent', form: ask.form, desk: ask.desk, line: ask.line, ...outcome });
    if (!outcome.reply) {
      if (event.status === 401 && this.desk === ask.desk) this.signedOut(event.detail);
      return;
    }
    this.questions.want('who', this.at + this.chance() * SOON); // how many records it has left
    if (this.rows) for (const name of ['records', 'log']) this.questions.want(name, this.at);
  }

  get desk() {
    return this.who?.desk ?? this.who?.role ?? '';
  }

  /** An exception of the page's own: what it was to show is asked for again, and it is said. */
  onFault({ part, detail }) {
    this.order({ do: 'say', what: 'fault', part, detail });
    this.faults += 1;
    if (this.questions.turns.has(part)) {
      this.had.delete(part);
      if (part === 'operators') this.operators = false;
      this.questions.failed(part, this.at, 0);
      if (part === 'options') this.unanswered({ name: part }, 'it couldn’t be shown');
      return;
    }
    if (part !== 'rows') return;
    this.isBroken = true;
    if (this.rows && this.stream?.isOpen) this.readAnew();
  }

  /** The state, if it is another one. */
  sayState() {
    const { state } = this;
    const since = state === 'lost' ? this.lost.since : state === 'behind' ? this.staleSince : this.oldSince;
    const detail = this.lost?.detail ?? '';
    const { told } = this;
    if (state !== told?.state || since !== told.since || detail !== told.detail) {
      this.told = { state, since, detail };
      this.order({ do: 'say', what: 'state', state, since, detail, lostSince: this.lostSince, position: this.rows?.position ?? null, was: this.was });
      if (state === 'live' || state === 'behind') Object.assign(this, { lostSince: null, was: null });
      if (state === 'out') this.was = null;
    }
    const why = this.whyNot(state);
    if (why === this.toldWhyNot) return;
    this.toldWhyNot = why;
    this.order({ do: 'enable', why });
  }

  /** Why no record can be sent in a state: `opening`, `lost` or `away`, which is the log; '' where one can. */
  whyNot(state) {
    if (state === 'lost') return 'lost';
    if (state === 'new' || !this.stream?.isOpen) return 'opening';
    return this.staleSince ? 'away' : '';
  }
}
