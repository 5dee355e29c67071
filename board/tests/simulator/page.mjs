// Drives the page's own machine through schedules drawn by a seed, against a model of servers, and holds it to its laws.
//   node board/tests/simulator/page.mjs [--schedules N] [--seed N] [--page FOLDER] [--told] [--until LAW] [--replaced | --helped]
// By --until the first schedule that breaks this law is the last one. By --replaced they are those of a record that is lost and replaced, by
// --helped those in which somebody also asks what could help a flight.
// The last line says how many schedules were run and how many broke a law; before it, of each that did, its seed, the law and why.
import { resolve } from 'node:path';
import { fileURLToPath, pathToFileURL } from 'node:url';
import { Chance } from './chance.mjs';
import { Broken, Judge } from './judge.mjs';
import { World } from './world.mjs';

const CHAOS = [2000, 9000]; // ms in which anything happens
const GIVEN_UP = 42000; // ms until whatever was lost before is given up
const ARRIVES = 10000; // ms of quiet after which the day is shown
const LOSSY = 4; // of so many schedules one has a log that loses records
const LINES = ['TOBT,A', 'TOBT,A', 'TOBT,B'];
const DRAWN = new Set(['replies', 'plan', 'answer']);
const MOST_TOLD = 100; // schedules that broke a law
const HERE = fileURLToPath(new URL('.', import.meta.url));

/** One schedule. Raises Broken. */
class Schedule {
  constructor(Machine, seed, isTold) {
    this.chance = new Chance(seed);
    this.isTold = isTold;
    this.world = new World(this.chance, (event) => this.give(event), seed % LOSSY === LOSSY - 1);
    this.machine = new Machine(() => this.chance.draw(), '');
    this.judge = new Judge(this.world, this.machine);
    this.keys = 0;
    this.wakeAt = Infinity;
    this.steps = 0;
  }

  run() {
    this.give({ type: 'start' });
    const end = this.chance.between(...CHAOS);
    for (let at = 0; at < end; at += this.chance.between(20, 1000)) this.world.agenda.put(at, () => this.happens());
    this.until(end);
    this.world.isQuiet = true;
    this.settle();
    this.until(end + GIVEN_UP - ARRIVES);
    for (let count = this.chance.below(4); count > 0; count -= 1) {
      this.world.agenda.put(this.world.at + this.chance.between(0, ARRIVES), () => (this.chance.is(0.1) ? this.world.nextDay() : this.world.post()));
    }
    this.until(this.world.at + 2 * ARRIVES + 500);
    this.judge.checkEnd();
  }

  /** All are there again, and equal; one of ten logs is away. */
  settle() {
    const { world } = this;
    for (const server of world.servers) server.lag = Math.min(server.lag, 50);
    if (world.servers.every((server) => server.staleSince === null) && this.chance.is(0.1)) {
      world.agenda.put(world.at + GIVEN_UP - 2 * ARRIVES, () => { if (world.servers.every((server) => server.isUp)) world.away(1e9); });
    }
  }

  until(end) {
    const { world, world: { agenda } } = this;
    while (Math.min(agenda.next, this.wakeAt) <= end) {
      if (this.wakeAt < agenda.next) {
        world.at = this.wakeAt;
        this.wakeAt = Infinity;
        this.steps += 1;
        this.give({ type: 'wake' });
        continue;
      }
      const { at, what } = agenda.take();
      world.at = at;
      this.steps += 1;
      what();
    }
    world.at = end;
  }

  /** An event to the machine; its orders are carried out. */
  give(event) {
    const { world } = this;
    if (this.isTold) console.log(Math.round(world.at), '>', JSON.stringify({ ...event, at: undefined, now: undefined }).slice(0, 300));
    event.at = world.at;
    event.now = world.now;
    this.judge.hear(event);
    const orders = this.machine.take(event);
    const faults = [];
    for (const order of orders) {
      if (this.isTold) console.log(Math.round(world.at), '  <', JSON.stringify(order, (key, value) => (value instanceof Map ? [...value.keys()] : value)).slice(0, 300));
      this.carryOut(order, faults);
    }
    for (const part of faults) this.give({ type: 'fault', part, detail: 'x is not a function' });
    this.judge.check(world.at);
  }

  carryOut(order, faults) {
    const { world } = this;
    const isShown = order.do === 'show' && DRAWN.has(order.what);
    if (isShown && !world.isQuiet && this.chance.is(0.01)) {
      faults.push(order.what === 'answer' ? order.name : 'rows');
      world.faulty = order.what !== 'answer' || world.faulty;
      return;
    }
    if (order.do === 'show' && order.what === 'plan' && order.isWhole) world.faulty = false;
    this.judge.see(order);
    if (order.do === 'ask') world.request(order);
    if (order.do === 'abandon') world.abandoned(order.id);
    if (order.do === 'open') world.open(order);
    if (order.do === 'close') world.closed(order.stream);
    if (order.do === 'wait') this.wakeAt = Math.max(order.until, world.at);
  }

  /** Somebody or something does something. */
  happens() {
    const { chance, world } = this;
    const kind = chance.draw();
    if (world.isLossy && kind < 0.12) world.away();
    else if (kind < 0.46) world.post();
    else if (kind < 0.5) world.restart(chance.of(world.servers));
    else if (kind < 0.52) world.change();
    else if (kind < 0.56) world.away();
    else if (kind < 0.59) world.cutAll(chance.of(world.servers), false);
    else if (kind < 0.61) world.revoke();
    else if (kind < 0.65) world.otherTab();
    else if (kind < 0.67) world.jump += chance.between(-3600000, 3600000);
    else if (kind < 0.72) world.nextDay();
    else if (kind < 0.82) this.clicks();
    else this.sends();
  }

  clicks() {
    const { chance, world } = this;
    const what = chance.below(6);
    if (what === 0) this.give({ type: 'openPanel', open: chance.of(['flight', 'send', null]), flight: 'AB1' });
    else if (what === 1) this.give({ type: 'causes', isOpen: chance.is(0.5), by: 'operator' });
    else if (what === 2 && world.isOpen) this.give({ type: 'role', role: chance.of(['', 'AO', 'ATC']) });
    else if (what === 3 && !world.isOpen) this.give({ type: 'signIn', desk: chance.of(['AO', 'ATC']), token: chance.of(['right', 'right', 'wrong']) });
    else if (what === 4 && !world.isOpen && chance.is(0.3)) this.give({ type: 'signOut' });
    else if (what === 5) world.ownQuestion();
  }

  /** A desk sends a record, or again the one that had no reply. */
  sends() {
    if (!this.machine.who || !this.machine.desk || this.machine.state === 'out') return;
    this.give({ type: 'send', form: 'f', line: this.chance.of(LINES), key: `k${this.keys += 1}` });
  }
}

/** A schedule in which somebody also asks what could help a flight, whose panel is opened for that if it isn't. */
class Helped extends Schedule {
  clicks() {
    super.clicks();
    const { chance, machine: { panel } } = this;
    if (chance.is(0.3)) return;
    if (panel.open !== 'flight' || chance.is(0.2)) this.give({ type: 'openPanel', open: 'flight', flight: chance.of(['AB1', 'AB2']) });
    this.give({ type: 'options', flight: this.machine.panel.flight });
  }
}

/**
 * A schedule that is hardly ever drawn. Totals came of a refused record, of which the events say nothing; they wait for the word that nothing
 * came between. Then the log loses that record, and takes another refused one in its place, before the server of the events has heard of
 * either. Nothing else happens.
 */
class Replaced extends Schedule {
  run() {
    const { world, world: { servers: [first, second] } } = this;
    Object.assign(world, { isQuiet: true, isLossy: true, isOpen: true, cookie: null, hasViews: false });
    this.give({ type: 'start' });
    this.until(8000);
    second.lag = 0;
    this.commit(true, true, 1000);
    Object.assign(second, { lag: 30000 });
    this.commit(false, false, 3000);
    world.away(100);
    this.until(world.at + 400);
    first.lag = second.lag = 0;
    this.commit(false, true, 3 * ARRIVES);
    this.judge.checkEnd();
  }

  /** A record of somebody, accepted or not; one that isn't sure is lost as soon as the log is away. */
  commit(isAccepted, isSure, pause) {
    const { world } = this;
    const draw = () => world.draw(world.log);
    let record = draw();
    while (record.isAccepted !== isAccepted || record.isBig || record.isClock) record = draw();
    world.commit(Object.assign(record, { isSure }));
    this.until(world.at + pause);
  }
}

/** Runs schedules of a kind from a seed on. */
export async function run({ Kind = Schedule, folder, schedules, seed, until, isTold = false }) {
  const { Machine } = await import(pathToFileURL(resolve(folder, 'machine.js')));
  const failed = [];
  const began = process.cpuUsage();
  let steps = 0;
  for (let number = 0; number < schedules; number += 1) {
    const schedule = new Kind(Machine, seed + number, isTold);
    try {
      schedule.run();
    } catch (fault) {
      const law = fault instanceof Broken ? fault.law : 'Alive';
      failed.push({ seed: seed + number, law, why: fault instanceof Broken ? fault.message : fault.stack });
    }
    steps += schedule.steps;
    if (until && failed.at(-1)?.law === until) break;
  }
  return { failed, steps, seconds: process.cpuUsage(began).user / 1e6 };
}

const words = process.argv.slice(2);
const said = (name, otherwise) => (words.includes(`--${name}`) ? words[words.indexOf(`--${name}`) + 1] : otherwise);
const schedules = Number(said('schedules', 50000));
const Kind = words.includes('--replaced') ? Replaced : words.includes('--helped') ? Helped : Schedule;
const { failed, steps, seconds } = await run({ Kind, folder: said('page', resolve(HERE, '../../page')), schedules, seed: Number(said('seed', 1)), until: said('until'), isTold: words.includes('--told') });
for (const { seed, law, why } of said('until') ? failed.slice(-1) : failed.slice(0, MOST_TOLD)) console.log(`seed ${seed} breaks ${law}: ${why}`);
const laws = [...new Set(failed.map((one) => one.law))].map((law) => `${failed.filter((one) => one.law === law).length} ${law}`);
console.log(`${schedules} schedules, ${steps} steps, ${seconds.toFixed(1)} s of a processor: ${failed.length} broke a law${laws.length ? ` (${laws.join(', ')})` : ''}`);
process.exitCode = failed.length ? 1 : 0;
