// What a screen shows by the machine's orders, and the laws to which it is held.
import { FLIGHTS, delayOf, nowOf } from './servers.mjs';

const TOLD = 20000; // ms within which a silent break is told
const OF_A_DAY = ['records', 'log']; // panels that list what came in the day

/** A law that doesn't hold. */
export class Broken extends Error {
  constructor(law, why) {
    super(`${law}: ${why}`);
    this.law = law;
  }
}

export class Judge {
  constructor(world, machine) {
    Object.assign(this, { world, machine, rows: new Map(), date: '', who: null, totals: null, isTotalsOld: false, state: null, since: null, boxes: new Map(), clocks: new Set(), stale: null });
    Object.assign(this, { panel: null, isHelpWanted: false }); // the flight of the panel, and whether somebody waits for what could help it
    Object.assign(this, { sends: new Map(), notTaken: [], faultyUntil: 0, firstShown: null, isDirty: false });
  }

  /** What somebody does: who asks what could help a flight waits until that is told, or until the panel is another one. */
  hear({ type, open, flight }) {
    if (type === 'openPanel') {
      this.isHelpWanted = false;
      this.panel = open === 'flight' ? flight : null;
      this.boxes.delete('options');
    }
    if (type === 'options') this.isHelpWanted ||= flight === this.panel;
  }

  /** One order of the machine, as a screen carries it out. */
  see(order) {
    if (order.do === 'ask' && order.name === 'options' && !this.isHelpWanted) throw new Broken('Heeded', 'what could help is asked, and nobody wants it');
    if (order.do === 'ask' || order.do === 'open') this.heeds(order.name ?? 'events');
    if (order.do === 'show') this.show(order);
    if (order.do === 'say') this.say(order);
    if (order.do === 'ask' && order.name === 'record') this.sent(order);
  }

  show(order) {
    const { machine } = this;
    if (order.what === 'replies' || order.what === 'plan') {
      if (order.isWhole) this.rows.clear();
      for (const { changed } of order.replies ?? [order]) this.put(changed);
      this.date = machine.day.date;
      this.moment = { ...machine.rows, now: machine.day.now };
      this.firstShown ??= { ...machine.rows };
      if (order.what === 'plan' && (order.isFirst || order.isOther)) this.firstShown = { ...machine.rows };
      for (const { reply } of order.replies ?? []) if (isClock(reply)) this.clocks.add(`${machine.rows.log} ${reply.at}`);
      this.isDirty = true;
    }
    if (order.what === 'who') this.who = order.who;
    if (order.what === 'empty') this.boxes.clear();
    if (order.what === 'past') for (const name of [...OF_A_DAY, 'options']) this.boxes.delete(name);
    if (order.what === 'past') this.isHelpWanted = false;
    if (order.what === 'answer' && order.name === 'options') this.helped(order);
    if (order.what === 'history') for (const reply of order.list) if (isClock(reply)) this.clocks.add(`${machine.rows.log} ${reply.at}`);
    if (order.what === 'totals') Object.assign(this, { totals: order.totals, isTotalsOld: order.isOld, isDirty: true });
    if (order.what === 'answer') this.boxes.set(order.name, { list: order.list, log: machine.rows.log });
  }

  /** What could help is of the flight that somebody asked about, and of the moment that is said. */
  helped({ list: [{ of, flight }], position }) {
    const { log } = this.machine.rows;
    if (!this.isHelpWanted || flight !== this.panel) throw new Broken('Shown', `what could help ${flight} is shown, and the panel is of ${this.panel}`);
    if (!this.pasts({ log, position }).some(({ stamp }) => of === `${log}/${stamp}`)) throw new Broken('Shown', `what could help is of ${of}, and is said to be of ${log}-${position}`);
    this.isHelpWanted = false;
  }

  put(changed) {
    for (const [name, [, row]] of changed) {
      if (row) this.rows.set(name, row);
      else this.rows.delete(name);
    }
  }

  say(order) {
    if (order.what === 'state') Object.assign(this, { state: order.state, since: order.since });
    if (order.what === 'stale') this.stale = order.since;
    if (order.what === 'unanswered' && order.name === 'options') this.isHelpWanted = false;
    if (order.what === 'sent') this.outcome(order);
    if (order.what === 'fault' && order.part === 'events') throw new Broken('Alive', `an event wasn't taken: ${order.detail}`);
  }

  /** A server that says after how many seconds to come again isn't asked before. */
  heeds(name) {
    const { at, notBefore } = this.world;
    if (at < (notBefore.get(name) ?? 0)) throw new Broken('Heeded', `${name} is asked ${Math.round(notBefore.get(name) - at)} ms before the server wants it`);
  }

  // Said.

  /** The page sends a record: with the key of an earlier try, as long as that may have been taken. */
  sent(order) {
    const name = order.body.trim();
    const open = this.sends.get(name);
    if (open && open.isOpen && open.key !== order.key) throw new Broken('Said', `${name} is sent with a second key before it is known whether it was taken`);
    this.sends.set(name, { key: order.key, isOpen: true, isAgain: open?.isOpen === true });
  }

  outcome({ word, reply, line }) {
    if (word === 'not sent') return;
    const name = line;
    const sent = this.sends.get(name);
    const taken = [...this.world.kept].filter(([, record]) => record.key === sent.key && record.desk === reply?.desk);
    if (word === 'taken' || word === 'refused') {
      if (!taken.some(([, record]) => record.isAccepted === (word === 'taken') && record.position === reply.position)) throw new Broken('Said', `${name} is told as ${word} and isn't`);
      sent.isOpen = false;
    }
    if (word === 'not taken') {
      this.notTaken.push([name, sent.key]);
      sent.isOpen = false;
    }
  }

  // Shown, and Alive: at each step.

  check(at) {
    const { machine, world } = this;
    if (machine.state !== 'out' && !Number.isFinite(machine.wakeAt)) throw new Broken('Alive', `the state ${machine.state} waits for ever`);
    if (this.state !== machine.state) throw new Broken('Shown', `the state ${machine.state} isn't said`);
    if (this.state === 'out' || this.state === 'new') return;
    const isOld = this.state === 'lost' || this.state === 'behind' || this.state === 'reading' && this.since !== null;
    if (isOld && this.since === null) throw new Broken('Shown', 'it is old, and since when isn\'t said');
    this.checkStream(at, isOld);
    this.checkPanels();
    for (const [name, { log }] of this.boxes) if (log !== machine.rows.log) throw new Broken('Shown', `${name} is of a day that is gone`);
    if (!this.isDirty || world.faulty) return;
    this.isDirty = false;
    this.checkRows(isOld);
  }

  /** What a panel tells of a day is of the one that is shown. */
  checkPanels() {
    if (this.world.faulty) return;
    for (const name of OF_A_DAY) {
      const other = this.boxes.get(name)?.list.find(({ date }) => date !== this.date);
      if (other) throw new Broken('Shown', `${name} is of ${other.date}, and the date is ${this.date}`);
    }
  }

  checkStream(at, isOld) {
    if (isOld || !this.machine.stream?.isOpen) return;
    const stream = this.world.streams.get(this.machine.stream.number);
    if (!stream || stream.isClosed) throw new Broken('Shown', 'the events have ended, and that isn\'t said');
    if (at - (stream.heardAt ?? at) > TOLD) throw new Broken('Shown', 'a silent break isn\'t told within 20 seconds');
  }

  /** The day of a moment, in whichever past of its log. */
  pasts({ log, position }) {
    return this.world.logs.find((one) => one.id === log).eras.map((era) => era.states[position]).filter(Boolean);
  }

  checkRows(isOld) {
    const shown = this.stamps();
    const { moment } = this;
    const day = this.pasts(moment).find((state) => this.stampsOf(moment.log, state) === shown && state.date === this.date);
    const log = this.world.logs.find((one) => one.id === moment.log);
    if (!day) {
      const known = this.pasts(moment).map((state) => `${this.stampsOf(moment.log, state)} ${state.date}`);
      throw new Broken('Shown', `the rows and the date are of no moment: ${shown} ${this.date} as ${moment.log}-${moment.position} ${known}`);
    }
    if (moment.now !== nowOf(day)) throw new Broken('Shown', `NOW is ${moment.now}, of another moment than the rows, ${nowOf(day)}`);
    // Two pasts under one name: which of them an answer is of, only the server that still has the lost one can say, as soon as it sees it.
    const isCurrent = log === this.world.log && log.states[moment.position] === day;
    if (!this.totals || this.isTotalsOld || isOld || !isCurrent) return;
    if (this.totals.delay !== delayOf(moment.log, day)) throw new Broken('Shown', `the totals ${this.totals.delay} are of another moment than the rows ${moment.log}/${day.stamp}, and that isn't said`);
  }

  /** The moments that changed the rows that are shown. */
  stamps() {
    let text = '';
    for (const name of FLIGHTS) text += `,${this.rows.get(name)?.tsat ?? ''}`;
    return text;
  }

  /** The same of the day of a moment; it is made once. */
  stampsOf(log, state) {
    return state.shown ??= state.stamps.map((stamp) => (stamp === null ? ',' : `,${log}/${stamp}`)).join('');
  }

  // Arrives: when the network has been quiet.

  checkEnd() {
    const { world, machine } = this;
    for (const [name, key] of this.notTaken) {
      if ([...world.kept.values()].some((record) => record.key === key)) throw new Broken('Said', `${name} is told as not taken and is in the log`);
    }
    const isDenied = world.denied(world.cookie) !== 0;
    if (isDenied !== (machine.state === 'out')) {
      throw new Broken(isDenied ? 'Shown' : 'Alive', `the state is ${machine.state}, and the token is ${isDenied ? 'not ' : ''}taken`);
    }
    if (machine.state === 'out') return;
    const server = world.servers[0];
    if (machine.state !== (server.staleSince ? 'behind' : 'live')) throw new Broken('Arrives', `the state is ${machine.state} when all has been quiet`);
    const truth = `${world.log.id}: ${this.stampsOf(world.log.id, world.log.states.at(-1))}`;
    const shown = `${machine.rows.log}: ${this.stamps()}`;
    if (shown !== truth) throw new Broken('Arrives', `shown is ${shown}, the day is ${truth}`);
    if (this.date !== world.log.states.at(-1).date || this.machine.day.now !== nowOf(world.log.states.at(-1))) throw new Broken('Arrives', `the date or NOW is another one`);
    if (this.isHelpWanted) throw new Broken('Arrives', 'somebody waits for what could help, and nothing is told');
    this.checkBoxes();
    this.checkDay();
    this.checkClock();
  }

  checkBoxes() {
    const { world, machine } = this;
    const stamp = world.log.states.at(-1).stamp;
    const totals = delayOf(world.log.id, world.log.states.at(-1));
    if (this.totals?.delay !== totals || this.isTotalsOld) throw new Broken('Arrives', `the totals are ${this.totals?.delay}${this.isTotalsOld ? ', said to be old' : ''}, of the day ${totals}`);
    const names = ['next', 'warnings', 'load'];
    if (machine.panel.open === 'flight') names.push('records');
    for (const name of names) {
      const of = name === 'records' && !this.boxes.get(name)?.list[0]?.of ? null : this.boxes.get(name)?.list[0].of;
      if (of !== `${world.log.id}/${stamp}`) throw new Broken('Arrives', `${name} is of ${of}, the day is ${world.log.id}/${stamp}`);
    }
  }

  /** What is of a day as a whole: the operators, how many records a desk may send, and the panel's records. */
  checkDay() {
    const { world, machine } = this;
    const { date } = world.log.states.at(-1);
    const [operators] = this.boxes.get('operators')?.list ?? [];
    if (operators?.date !== date) throw new Broken('Arrives', `the operators are of ${operators?.date}, the day is ${date}`);
    const isThere = world.log.states.some(({ stamp }) => operators.of === `${world.log.id}/${stamp}`);
    if (!isThere) throw new Broken('Arrives', `the operators are of ${operators.of}, which is lost`);
    const left = `${this.who?.log} ${this.who?.day}`;
    if (this.who?.kinds.length && left !== `${world.log.id} ${date}`) throw new Broken('Arrives', `how many records are left is of ${left}, the day is ${world.log.id} ${date}`);
    const listed = this.boxes.get('log')?.list.at(-1)?.position ?? 0;
    const last = world.log.records.findLast((record) => record.isAccepted)?.position ?? 0; // who else is refused is told to nobody
    if (machine.panel.open === 'send' && listed < last) throw new Broken('Arrives', `the last record that is listed is ${listed}, of the log ${last}`);
  }

  /** The last CLOCK is counted as one. */
  checkClock() {
    const { log } = this.world;
    const last = log.records.findLast((record) => record.isClock);
    if (last && this.firstShown?.log === log.id && last.position > this.firstShown.position && !this.clocks.has(`${log.id} ${last.at}`)) {
      throw new Broken('Arrives', `the CLOCK at ${last.position} isn't counted`);
    }
  }
}

const isClock = (reply) => reply.reply === 'ACCEPTED' && reply.line.startsWith('CLOCK,');
