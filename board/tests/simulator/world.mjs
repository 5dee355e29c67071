// A model of the network between a page and its servers, and of whoever else speaks: what happens when is drawn by a seed.
import { Agenda } from './chance.mjs';
import { Log, Server, changeOf, recordOf, wordOf } from './servers.mjs';

const COMMENT = 15000; // ms between two comments of a stream
const TOGETHER = 100; // ms: events are written together
const FOUND = 5; // records that are found at once by who asks for many
const REACHED = 2000; // ms for which a question waits for its position
const TURNS = { plan: 0.03, record: 0.1 }; // the share of such requests meanwhile the next day begins
const BY_HAND = ['record', 'sign-in', 'forget']; // who presses a button asks when it pleases
const OWN = 'application/problem+json';

/**
 * The world around one page. `give(event)` hands an event to the page. Where it is lossy, its log loses records again and again while answers
 * are under way, and no day changes: a change has all read anew, also what is wrong.
 */
export class World {
  constructor(chance, give, isLossy = false) {
    Object.assign(this, { chance, give, isLossy, agenda: new Agenda(), asks: new Map(), notBefore: new Map(), at: 0, isQuiet: false, isAway: false, faulty: false });
    Object.assign(this, { streams: new Map(), isOpen: chance.is(0.4), records: 0, logs: [] });
    this.hasViews = chance.is(0.6);
    this.anyone = chance.is(0.3);
    this.cookie = this.isOpen || chance.is(0.3) ? null : { desk: 'AO', isTaken: true };
    this.jump = 0; // by how much the server's clock is ahead
    this.log = this.newLog(chance.below(8));
    this.servers = [new Server(this.log), new Server(this.log)];
    this.servers[1].lag = chance.is(0.5) ? chance.between(0, 3000) : 0;
    /** @type {Map<string, object[]>} keys of the page's records to the records that they made */
    this.kept = new Map();
  }

  /** Another log, with so many records, among which may be a change of day. */
  newLog(count) {
    const log = new Log(`L${this.logs.length}`, `2025-03-${10 + this.logs.length}`);
    this.logs.push(log);
    const change = this.chance.below(12);
    for (let number = 0; number < count; number += 1) log.add(number === change && !this.isLossy ? this.drawChange(log) : this.draw(log));
    return log;
  }

  draw(log, desk) {
    const record = recordOf(this.chance, this.records += 1, this.now, desk);
    record.isSure = this.chance.is(this.isLossy ? 0.3 : 0.7);
    record.log = log;
    return record;
  }

  drawChange(log) {
    const record = changeOf(this.chance, this.now);
    record.isSure = this.chance.is(0.7);
    record.log = log;
    return record;
  }

  get now() {
    return 1741600000000 + this.at + this.jump;
  }

  later(pause, what) {
    this.agenda.put(this.at + pause, what);
  }

  /** How long something takes on its way. */
  way() {
    const { chance } = this;
    if (this.isQuiet) return chance.between(1, 80);
    return chance.is(this.isLossy ? 0.3 : 0.12) ? chance.between(500, 6000) : chance.between(1, 200);
  }

  // Records and servers.

  /** Whether any server takes records. */
  get isTaken() {
    return !this.isAway && this.servers.some((server) => server.isUp && server.staleSince === null && server.log === this.log);
  }

  /** Somebody else's record, at whichever server. */
  post() {
    if (this.isTaken) this.commit(this.draw(this.log));
  }

  /** The next day begins, by the clock or as a desk of the tower wants it: at one of the servers first. */
  nextDay() {
    if (this.isTaken && !this.isLossy) this.commit(this.drawChange(this.log));
  }

  commit(record) {
    this.log.add(record);
    for (const server of this.servers) this.catchUp(server, server.lag + this.chance.between(0, 20));
    return record;
  }

  catchUp(server, pause) {
    this.later(pause, () => {
      this.advance(server);
      this.writeAll(server);
    });
  }

  /** A server goes on up to a change of day, which takes its time. */
  advance(server) {
    while (server.log === this.log && server.era === this.log.eras.length && server.next && !server.turning) {
      if (server.next.isChange) this.turn(server);
      else server.advance();
    }
  }

  /** A server carries over, and begins the day; no record has a reply before its sequencer is started. */
  turn(server) {
    const { chance } = this;
    const turning = server.turning = {};
    const pause = () => (this.isQuiet || chance.is(0.5) ? chance.between(20, 300) : chance.between(300, 3000));
    this.later(pause(), () => {
      if (server.turning !== turning) return; // it began anew meanwhile
      const isThere = server.log === this.log && server.era === this.log.eras.length && server.next?.isChange;
      if (isThere) server.advance();
      this.writeAll(server);
      this.later(isThere ? pause() : 0, () => {
        if (server.turning !== turning) return;
        server.turning = null;
        this.catchUp(server, 0);
      });
    });
  }

  /** A server restarts, with the log as it is. */
  restart(server, pause = this.chance.between(100, 3000)) {
    if (!server.isUp) return;
    server.isUp = false;
    this.cutAll(server, this.chance.is(0.3));
    if (!this.isQuiet && this.chance.is(0.1)) this.later(pause * this.chance.draw(), () => this.nextDay());
    const start = () => {
      if (server.isUp) return; // by a start that was ordered later
      if (this.isAway) { this.later(200, start); return; } // it starts as soon as it reaches the log
      server.restart(this.log);
      Object.assign(server, { isUp: true, staleSince: null, doubtful: -1 });
    };
    this.later(pause, start);
  }

  /** The next day at the old address, or an import: another log, and a shorter one. */
  change() {
    if (this.isAway) return;
    this.log = this.newLog(this.chance.below(5));
    for (const server of this.servers) {
      server.isUp = true;
      this.restart(server, this.chance.between(50, 1500));
    }
  }

  /** The database is away for a while; what wasn't answered may be lost. */
  away(pause = this.chance.between(300, this.isLossy ? 1000 : 8000)) {
    if (this.isAway || this.servers.some((server) => server.staleSince !== null)) return;
    this.isAway = true;
    for (const server of this.servers) server.staleSince = wordOf(this.now);
    this.later(pause, () => {
      this.isAway = false;
      let sure = this.log.records.length;
      while (sure > 0 && !this.log.records[sure - 1].isSure) sure -= 1;
      const lost = this.chance.is(this.isLossy ? 0.9 : 0.5) ? this.log.records.length - sure : 0;
      if (lost > 0) this.log.lose(lost);
      for (const server of this.servers) this.later(this.chance.between(0, this.isQuiet ? 500 : 3000), () => this.comeBack(server));
    });
  }

  /** A server reaches its log again, and sees whether that is still its past. */
  comeBack(server) {
    if (this.isAway || server.log !== this.log || server.staleSince === null) return;
    server.staleSince = null;
    if (server.era !== this.log.eras.length) {
      const isSame = this.log.eras.slice(server.era).every((era) => server.has <= era.from);
      if (isSame) server.era = this.log.eras.length;
      else server.restart();
      if (isSame) server.states = this.log.states.slice(0, server.has + 1);
    }
    this.catchUp(server, 0);
  }

  // Streams.

  open({ stream, since, role }) {
    const server = this.chance.of(this.servers);
    const one = { number: stream, server, cookie: this.cookie, isDead: false, isSilent: false, had: 0, starts: server.starts, last: this.at, isTold: false, role, timer: 0 };
    this.streams.set(stream, one);
    const pause = this.way();
    const fate = this.isQuiet ? 1 : this.chance.draw();
    if (fate < 0.04) { one.isSilent = true; return; }
    if (fate < 0.1) { this.endStream(one, pause, 0, ''); return; }
    if (fate < 0.14) { this.endStream(one, pause, this.chance.of([429, 503, 502]), 'busy', this.chance.of([0, 1, 4])); return; }
    this.later(pause, () => {
      if (one.isDead) return;
      if (!server.isUp) { this.endStream(one, this.way(), this.chance.of([0, 502]), ''); return; }
      const denied = this.denied(one.cookie);
      if (denied) { this.endStream(one, this.way(), denied, 'a token of a desk is needed'); return; }
      this.deliver(one, { type: 'opened' });
      one.had = server.has;
      one.starts = server.starts;
      one.isTold = true;
      this.write(one, server.begin(since, this.desk(one)));
      if (this.hasViews && this.chance.is(0.7)) this.write(one, server.view(this.without()));
      this.comment(one);
    });
  }

  desk(one) {
    return this.isOpen ? one.role : one.cookie?.desk ?? '';
  }

  without() {
    return this.chance.is(0.1) ? this.chance.of(['totals', 'next', 'warnings', 'load']) : '';
  }

  comment(one) {
    this.later(COMMENT, () => {
      if (one.isDead || one.isSilent || !one.server.isUp) return;
      this.write(one, ':\n\n');
      this.comment(one);
    });
  }

  /** Bytes on their way, in their order, cut anywhere. */
  write(one, text) {
    if (one.isDead) return;
    for (let at = 0; at < text.length;) {
      const count = this.chance.is(0.7) ? text.length : 1 + this.chance.below(text.length);
      this.deliver(one, { type: 'chunk', text: text.slice(at, at + count) });
      at += count;
    }
    if (!this.isQuiet && this.chance.is(0.015)) one.isSilent = true;
  }

  deliver(one, event) {
    if (one.isSilent) return;
    one.last = Math.max(one.last, this.at + this.way());
    event.stream = one.number;
    this.agenda.put(one.last, () => {
      if (one.isSilent || one.isClosed) return;
      one.heardAt = this.at;
      this.give(event);
    });
  }

  endStream(one, pause, status, detail, retry = 0) {
    if (one.isDead) return;
    one.isDead = true;
    this.agenda.put(Math.max(one.last, this.at + pause), () => {
      if (one.isSilent || one.isClosed) return;
      one.isClosed = true;
      if (retry) this.notBefore.set('events', this.at + retry * 1000);
      this.give({ type: 'ended', stream: one.number, status, detail, retry });
    });
  }

  /** The browser forgets a request: what its answer would set isn't set. */
  abandoned(id) {
    const ask = this.asks.get(id);
    if (ask) ask.isAnswered = true;
  }

  closed(number) {
    const one = this.streams.get(number);
    if (one) Object.assign(one, { isDead: true, isClosed: true });
    this.streams.delete(number);
  }

  cutAll(server, isSaid) {
    for (const one of this.streams.values()) {
      if (one.server !== server) continue;
      if (isSaid) this.write(one, 'event: end\ndata: {}\n\n');
      this.endStream(one, this.way(), 0, '');
    }
  }

  /** What is new at a server, to its streams, some of it together. */
  writeAll(server) {
    for (const one of this.streams.values()) {
      if (one.server !== server || one.timer || one.isDead || !one.isTold) continue;
      one.timer = 1;
      this.later(this.chance.between(0, TOGETHER), () => {
        one.timer = 0;
        this.flush(one);
        if (one.isDead || !server.isUp) return;
        if (!this.hasViews || !this.chance.is(0.9)) return;
        const view = server.view(this.without()); // made at once, and written behind whatever came meanwhile
        const { starts } = server;
        this.later(this.chance.between(20, 400), () => this.writeView(one, view, starts));
      });
    }
  }

  flush(one) {
    const { server } = one;
    if (one.isDead || !server.isUp) return;
    const since = one.starts === server.starts ? one.had : -1;
    if (since === server.has) return;
    one.had = server.has;
    one.starts = server.starts;
    this.write(one, server.events(since, this.desk(one)));
  }

  writeView(one, view, starts) {
    if (one.isDead || !one.server.isUp || one.server.starts !== starts) return;
    this.flush(one);
    this.write(one, view);
  }

  // Who may speak.

  /** 401 where there is no token that is taken. */
  denied(cookie) {
    if (this.isOpen) return 0;
    if (cookie) return cookie.isTaken ? 0 : 401;
    return this.anyone ? 0 : 401;
  }

  /** The desk's token is taken away. */
  revoke() {
    if (!this.cookie) return;
    this.cookie.isTaken = false;
    for (const one of this.streams.values()) if (one.cookie === this.cookie) this.endStream(one, this.way(), 0, '');
  }

  /** In another tab somebody signs in, or out. */
  otherTab() {
    if (this.isOpen) return;
    this.cookie = this.chance.is(0.6) ? { desk: this.chance.of(['AO', 'ATC']), isTaken: true } : null;
    this.later(this.way(), () => this.give({ type: 'tab' }));
  }

  // Requests.

  /** A box asks by itself, such as what is to be known before the day changes. */
  ownQuestion() {
    const cookie = this.cookie;
    const server = this.chance.of(this.servers);
    this.later(this.way(), () => {
      const status = !server.isUp || this.chance.is(0.1) ? 0 : this.denied(cookie) || 200;
      this.later(this.way(), () => this.give({ type: 'heard', status, stale: status === 200 ? server.staleSince : undefined }));
    });
  }

  /** A request: it may be lost on its way or its answer may, it may break, come twice or late, or somebody between says no. */
  request(ask) {
    const { chance } = this;
    const cookie = this.cookie;
    this.asks.set(ask.id, ask);
    if (!this.isQuiet && chance.is(TURNS[ask.name] ?? 0)) this.later(chance.between(0, 600), () => this.nextDay());
    const fate = this.isQuiet ? 1 : chance.draw();
    if (fate < 0.03) return; // nothing comes of it, ever
    if (fate < 0.06) { this.later(this.way(), () => this.back(ask, failed(0, 'The server isn’t reached'))); return; }
    if (fate < 0.09) { this.later(this.way(), () => this.back(ask, failed(chance.of([502, 503, 504]), 'bad gateway'))); return; }
    this.later(this.way(), () => this.arrive(ask, cookie, chance.of(this.servers), fate));
  }

  arrive(ask, cookie, server, fate) {
    if (!server.isUp) { this.later(this.way(), () => this.back(ask, failed(this.chance.of([0, 502]), 'The server isn’t reached'))); return; }
    if (!this.isQuiet && this.chance.is(ask.name === 'record' ? 0.15 : 0.04)) {
      this.later(this.way(), () => this.back(ask, failed(this.chance.of([429, 503]), 'busy', OWN, this.chance.of([1, 4]))));
      return;
    }
    const until = this.at + REACHED;
    const reach = () => {
      if (ask.method === 'GET' && ask.after > server.has && this.at < until) { this.later(200, reach); return; }
      if (!server.isUp) { this.later(this.way(), () => this.back(ask, failed(0, 'The server isn’t reached'))); return; }
      const answer = this.answer(ask, cookie, server);
      if (answer === null) return; // a record that waits for its reply
      this.send(ask, answer, fate);
    };
    reach();
  }

  /** An answer on its way back. */
  send(ask, answer, fate) {
    if (fate < 0.12) return; // lost
    if (fate < 0.15) { this.later(this.way(), () => this.back(ask, failed(0, 'The answer broke off'))); return; }
    if (fate < 0.17) { this.later(this.way(), () => this.back(ask, failed(504, 'the proxy waited too long'))); return; }
    if (fate < 0.2) { this.later(this.way(), () => this.back(ask, { ...answer, status: 200, log: '', position: NaN, text: '<html>please sign in</html>', retry: 0, isOwn: false })); return; }
    this.later(this.way(), () => this.back(ask, answer));
    if (fate < 0.24) this.later(this.way(), () => this.back(ask, answer));
  }

  back(ask, answer) {
    if (!ask.isAnswered) answer.then?.();
    if (!ask.isAnswered && answer.retry && !BY_HAND.includes(ask.name)) this.notBefore.set(ask.name, this.at + answer.retry * 1000);
    ask.isAnswered = true;
    answer.id = ask.id;
    this.give(answer);
  }

  answer(ask, cookie, server) {
    const { path, method } = ask;
    if (path === '/health') return this.found(server, [{ ready: true, position: server.has, ...(server.staleSince ? { stale_since: server.staleSince } : {}) }], false);
    if (path === '/v1/session') return this.session(ask);
    const denied = this.denied(cookie);
    if (denied) return failed(denied, 'a token of a desk is needed', OWN);
    if (path === '/v1/records' && method === 'POST') return this.take(ask, cookie, server);
    if (method === 'GET' && ask.after > server.has) return failed(503, 'this position isn’t here yet', OWN, 1);
    if (path === '/v1/who') return this.found(server, [this.who(ask, cookie, server)], false);
    if (path === '/v1/kinds') return this.found(server, [{ kind: 'TOBT' }], false);
    if (/^\/v1\/(why|options)\//.test(path) && this.chance.is(0.05)) return failed(404, 'no flight', OWN);
    const since = /^\/v1\/records\?since=(\d+)(?:&day=(.+))?$/.exec(path);
    const text = since ? server.found(Number(since[1]), since[2], ask.name === 'history' ? FOUND : Infinity) : server.text(path);
    return text === null ? failed(404, 'the log has no such day', OWN) : this.found(server, text, true);
  }

  found(server, list, isOfDay) {
    return { type: 'answer', id: 0, status: 200, text: typeof list === 'string' ? list : list.map((one) => JSON.stringify(one)).join('\n'), detail: '', retry: 0, isOwn: true, log: isOfDay ? server.log.id : '',
      position: isOfDay ? server.has : NaN, lastAt: isOfDay ? server.lastAt(server.has) : undefined, stale: isOfDay ? server.staleSince : undefined };
  }

  who(ask, cookie, server) {
    const desk = this.isOpen ? ask.role || null : cookie?.desk ?? null;
    return { desk, role: desk ?? 'READ', kinds: desk ? ['TOBT'] : [], roles: this.isOpen ? ['AO', 'ATC'] : [], left: 1, log: server.log.id, day: server.state.date };
  }

  session(ask) {
    if (ask.method === 'DELETE') return { ...failed(204, ''), then: () => { this.cookie = null; } };
    const { desk, token } = JSON.parse(ask.body);
    if (token !== 'right') return failed(401, 'wrong desk or token', OWN);
    return { ...failed(204, ''), then: () => { this.cookie = { desk, isTaken: true }; } };
  }

  /** A record of the page: in the log once for each key, or nothing is taken. */
  take(ask, cookie, server) {
    const desk = this.isOpen ? ask.role : cookie?.desk ?? '';
    if (!desk) return failed(403, 'this desk only reads', OWN);
    if (this.isAway || server.staleSince !== null || server.log !== this.log) return failed(503, 'the log isn’t reached', OWN, 1);
    const key = `${this.log.id} ${desk} ${ask.key}`;
    const record = this.kept.get(key) ?? this.commit(Object.assign(this.draw(this.log, desk), { line: ask.body.trim(), key: ask.key, isSure: true, isClock: false }));
    this.kept.set(key, record);
    const { fate } = ask;
    const until = this.at + 5000;
    const wait = () => {
      const isPast = record.position < server.first && !this.isQuiet && this.chance.is(0.2); // its day can't be read at present
      const isHere = server.has >= record.position && server.records[record.position - 1] === record && !isPast;
      if (!isHere && this.at < until && server.isUp) { this.later(50, wait); return; }
      this.send(ask, isHere && server.isUp ? this.found(server, server.replyText(record), false) : failed(504, 'no reply yet', OWN), fate ?? (this.isQuiet ? 1 : this.chance.draw()));
    };
    wait();
    return null;
  }
}

/** An answer that is none. */
const failed = (status, detail, type = '', retry = 0) => ({ type: 'answer', id: 0, status, text: '', detail, retry, isOwn: type === OWN, log: '', position: NaN, lastAt: undefined,
  stale: undefined });
