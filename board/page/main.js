// The page: what people and the server do becomes an event for the machine, and what it orders is done here.
import { $, $$, say } from './dom.js';
import { All, SLICE, breath } from './all.js';
import { Bands } from './bands.js';
import { Blocked, Causes } from './blocked.js';
import { Desk } from './desk.js';
import { Filter } from './filter.js';
import { FlightPanel } from './flight.js';
import { Connection, Head, startTheme } from './head.js';
import { anchored, turn } from './hold.js';
import { Machine } from './machine.js';
import { Moves } from './moves.js';
import { clock, heard, needed, request, said, Streams } from './net.js';
import { Next } from './next.js';
import { Panels } from './panels.js';
import { enableForms } from './press.js';
import { showRecords } from './records.js';
import { openKeys, showAct, startState } from './state.js';
import { hm, hms, isTime } from './times.js';
import { Warnings } from './warnings.js';

const FEW = 100; // so many rows are made at once
const ASIDE = ['ask', 'abandon', 'open', 'close', 'wait']; // orders by which nothing is shown
const root = document.documentElement;
const desk = new Desk(give);
const machine = new Machine(Math.random, said.role);
const { day } = machine;
const head = new Head(day);
const connection = new Connection(head);
const moves = new Moves(day, (names) => give(() => show(names)));
const filter = new Filter(() => {
  again(all, next, blocked);
  showCauses();
});
const [all, next, blocked] = [new All(day, moves, filter), new Next(day, moves, filter), new Blocked(day, moves, filter)];
const warnings = new Warnings(day, filter);
const bands = new Bands(day);
const runways = () => bands.runways.map((one) => one.runway);
const causes = new Causes(() => give({ type: 'causes', isOpen: causes.isWanted, by: causes.select.value }));
const flight = new FlightPanel(day, desk, runways, send);
const streams = new Streams(give);
const asked = new Map(); // requests that have no answer yet, by number
const forms = new Map(); // forms whose record has no answer yet, by name
const events = []; // what the machine hasn't taken yet, and what else is to be drawn
const unwritten = new Set(); // flights whose rows are to be written
let newest = null; // the record that changed them last, how many start-ups it moved, and how many records there were
let operators = [];
let causesList = [];
let mine = null; // my flights, of a desk that sends for its own alone
let closings = null; // the runways' own forms, with the table of kinds
let shownNow = '';
let lastRecord = null; // of those that came before the page was opened
let timer = 0;
let isTaking = false;
let taken = null; // when the last event is
let began = 0; // this task
let making = null; // while rows are made that aren't shown yet
let unsent = null; // what was sent last, if it isn't known to be taken
let sendForm = null; // the form of records that are of no flight
let options = null; // what could help the flight of the panel, once somebody has asked

const sendPanel = {
  open() {
    makeForm();
    give({ type: 'openPanel', open: 'send', flight: null });
  },
  close: closed,
};
/** A part of the page that is loaded as soon as it is needed, and made once. */
function part(name, make) {
  const get = () => {
    get.made ??= needed(name).then(make).catch((fault) => {
      get.made = null;
      throw fault;
    });
    return get.made;
  };
  return get;
}
const picture = part('picture', ({ Picture }) => new Picture());
const whatIf = part('whatif', ({ WhatIf }) => new WhatIf({ day, bands, picture, desk, runways, send }));
const toDo = part('act', ({ Act }) => new Act({ day, moves, desk, runways, warnings, propose })); // what to do about each warning
desk.toScenario = async (line) => (await whatIf()).add(line);
const whatIfPanel = {
  open: () => whatIf().then((one) => panels.open === 'what-if' && one.open()),
  close: () => whatIf.made?.then((one) => one.close()),
};
$('#b-picture').addEventListener('click', (event) => {
  if (event.ctrlKey || event.metaKey || event.shiftKey) return;
  event.preventDefault();
  picture().then((one) => one.show(''));
});
$('#p-what-if form').addEventListener('submit', (event) => {
  event.preventDefault();
  whatIf().then((one) => one.compare());
});
const toDoPanel = {
  open: () => toDo().then((one) => panels.open === 'act' && one.open()),
  close: () => toDo.made?.then((one) => one.close()),
};

/** Puts a record into a flight's form, as a proposal; its panel is opened. */
function propose(name, kind, ...values) {
  addEventListener('hashchange', () => give(() => flight.form?.propose(kind, ...values)), { once: true });
  panels.go(name);
}

/** Puts a record into the form that sends it, as a proposal: its flight's, or that of records that are of no flight. */
function fill(line) {
  const [kind, first, ...more] = line.split(',').map((value) => (isTime(value) ? hm(value, day.date) : value));
  if (first === flight.name) {
    flight.form?.propose(kind, ...more);
    return;
  }
  addEventListener('hashchange', () => give(() => sendForm?.propose(kind, first, ...more)), { once: true });
  panels.go('send');
}

/** Asks what could help the flight of the panel. */
async function askOptions(name) {
  const { Options } = await needed('options');
  options ??= new Options({ day, desk, fill, onAsk: (one) => give({ type: 'options', flight: one }) });
  options.ask(name);
}

$('#b-options').addEventListener('click', () => askOptions(flight.name));
// A link to a flight that asks for it too.
document.addEventListener('click', (event) => {
  const name = event.target.closest?.('[data-helps]')?.dataset.helps;
  if (!name || event.ctrlKey || event.metaKey || event.shiftKey) return;
  if (panels.flight === name) askOptions(name);
  else addEventListener('hashchange', () => give(() => { askOptions(name); }), { once: true });
});

const panels = new Panels({
  flight: {
    open(name) {
      options?.clear();
      flight.open(name);
      give({ type: 'openPanel', open: 'flight', flight: name });
    },
    close() {
      options?.clear();
      flight.close();
      closed();
    } },
  'what-if': whatIfPanel, act: toDoPanel, send: sendPanel, 'sign-in': { open() {}, close() {} }, keys: { open: openKeys, close() {} } });

function closed() {
  give({ type: 'openPanel', open: null, flight: null });
}

/** The form of records that are of no flight. */
function makeForm() {
  const kinds = desk.mayAll ?? [];
  sendForm = kinds.length ? new desk.Form(kinds, { flight: null, row: null, day, runways, onSend: send, toScenario: desk.toScenario, label: 'One record' }) : null;
  $('#s-form').replaceChildren(...(sendForm ? [sendForm.root] : []));
  say($('#p-send h2 small'), `as ${desk.words}`);
}

/** What the desk that speaks may do beside its forms. */
function offered() {
  toDo.made?.then((one) => one.changed());
  options?.changed();
  if (closings) bands.offerAll((runway, root) => closings.buttonOf(runway, root));
}

/** A record of a form. */
function send(form, line, key) {
  forms.set(form.id, form);
  give({ type: 'send', form: form.id, line, key });
}

/**
 * An event for the machine, or a task that draws, in its turn: not before what was ordered is shown, so that all that is shown is of one
 * position. Answers when it was taken.
 */
function give(event) {
  events.push(event);
  if (!isTaking) taken = take().catch((fault) => failed(fault, 'rows'));
  return taken;
}

turn.take = give;

async function take() {
  isTaking = true;
  began = performance.now();
  try {
    while (events.length) {
      const orders = ordersOf(events.shift());
      draw(orders);
      while (orders.length || making) {
        await rest();
        draw(orders);
      }
      if (isLong()) await rest();
    }
  } finally {
    isTaking = false;
  }
}

/** What is ordered upon an event, without that by which nothing is shown: that is done already. */
function ordersOf(event) {
  if (typeof event === 'function') return [{ do: 'show', what: 'task', task: event }];
  try {
    const orders = machine.take({ at: performance.now(), now: clock.now(), ...event });
    orders.filter((order) => ASIDE.includes(order.do)).forEach(act);
    return orders.filter((order) => !ASIDE.includes(order.do));
  } catch (fault) {
    told(fault, 'machine');
    return [];
  }
}

/** Does what is ordered: all of it, but nothing behind rows that are being made, and no answer in a task that is long already. */
function draw(orders) {
  const all = () => {
    if (unwritten.size) act({ do: 'show', what: 'rows' });
    while (orders.length && !making && !(orders[0].what === 'answer' && isLong())) act(orders.shift());
  };
  if (unwritten.size || orders.some((order) => order.do === 'show')) anchored(all);
  else all();
}

/** Nobody waits for a page that isn't seen, and the browser may stop what such a page wants to do later. */
const isLong = () => !document.hidden && performance.now() - began > SLICE;

async function rest() {
  await making;
  await breath();
  began = performance.now();
}

function act(order) {
  try {
    DONE[order.do](order);
  } catch (fault) {
    failed(fault, order.what === 'answer' ? order.name : ['plan', 'replies', 'rows', 'task'].includes(order.what) ? 'rows' : `${order.do} ${order.what ?? ''}`);
  }
}

/** An exception of the page's own: the machine asks again for what wasn't shown. */
function failed(fault, part) {
  told(fault, part);
  give({ type: 'fault', part, detail: String(fault?.message ?? fault) });
}

function told(fault, part) {
  console.error(part, fault);
  connection.fault({ part, detail: String(fault?.message ?? fault) });
}

/** What the machine orders. */
const DONE = {
  async ask(order) {
    const control = new AbortController();
    asked.set(order.id, control);
    const answer = await request(order, control.signal);
    asked.delete(order.id);
    give({ type: 'answer', id: order.id, ...answer });
  },
  abandon: ({ id }) => asked.get(id)?.abort(),
  open: (order) => { streams.open(order); },
  close: ({ stream }) => streams.close(stream),
  wait({ until }) {
    clearTimeout(timer);
    if (Number.isFinite(until)) timer = setTimeout(() => give({ type: 'wake' }), Math.max(0, until - performance.now()) + 1);
  },
  show: (order) => SHOWN[order.what](order),
  say: (order) => SAID[order.what](order),
  enable: ({ why }) => enableForms(why),
  tell: ({ word }) => desk.tell(word),
};

/** Who speaks and what it may send, but for how many, and in which day. */
const speaks = (who) => JSON.stringify({ ...who, left: 0, day: '', log: '' });

/** What it shows. */
const SHOWN = {
  who({ who, role = '' }) {
    const isSame = speaks(who) === speaks(desk.who);
    desk.show(who, role);
    filter.owns(who?.flights ?? null);
    startMine();
    if (!isSame) offered();
    if (!who || isSame) return; // what is being typed stays
    flight.changed();
    if (flight.name) flight.makeForm();
    if (panels.open === 'send' && !$('#s-form form')) makeForm();
  },
  async kinds({ kinds }) {
    const [{ RecordForm, movedOn }, { Closings }] = await Promise.all([needed('form'), needed('closing')]);
    give(() => {
      Object.assign(desk, { table: kinds, Form: RecordForm, movedOn });
      closings = new Closings({ day, desk, onSend: send });
      offered();
      mine?.show();
      if (flight.name) flight.makeForm();
      if (panels.open === 'send') makeForm();
    });
  },
  plan: showPlan,
  rows: write,
  task: ({ task }) => task(),
  replies: ({ replies }) => showReplies(replies),
  history: showHistory,
  totals: ({ totals, position, isOld }) => {
    head.totals(totals);
    const list = $('header dl');
    list.dataset.of = `${isOld ? 'still ' : ''}of record ${position}`; // always there, so that nothing comes and goes with each record
    list.setAttribute('aria-label', isOld ? `Totals of record ${position}` : 'Totals');
  },
  answer: ({ name, list, position }) => {
    ANSWERED[name](list, position);
  },
  empty,
  past,
};

/** What it says. */
const SAID = {
  state(order) {
    connection.state({ ...order, unsent, at: lastRecord?.position === order.position ? lastRecord?.at : null });
    if (order.state === 'out') panels.go('sign-in');
  },
  stale: ({ since }) => head.stale(since),
  end: () => connection.tell('The server ends.', ' The page comes back by itself.'),
  fault: (order) => connection.fault(order),
  answered: ({ name }) => fault(name, ''),
  unanswered: ({ name, detail }) => fault(name, detail),
  'sign-in': ({ isIn, detail }) => {
    desk.signedIn(isIn, detail);
    if (isIn && panels.open === 'sign-in') panels.close();
  },
  sent(order) {
    unsent = order.reply ? null : order;
    const form = forms.get(order.form);
    forms.delete(order.form);
    form?.told(order).catch((fault_) => failed(fault_, 'form'));
    if (!form?.root.isConnected) connection.sent(order);
    else if (order.word === 'taken') head.taken(order.reply.position);
  },
};

/** The boxes of answers. */
const ANSWERED = {
  next: (list, position) => next.take(list, position),
  why: (list) => flight.takeWhy(list),
  records: (list) => flight.takeRecords(list),
  options: (list, position) => options.take(list, position),
  warnings(list, position) {
    head.warnings(warnings.take(list), position);
    all.counts();
    next.tag(warnings.tags);
    showAct(list);
  },
  load(list) {
    bands.take(list);
    whatIf.made?.then((one) => one.hint());
    filter.offer(runways(), operators);
    flight.warned(); // another runway may answer a warning
    toDo.made?.then((one) => one.changed());
  },
  log: (list) => showRecords($('#s-records'), list),
  causes(list) {
    causesList = list;
    showCauses();
  },
  operators(list) {
    operators = list.map((one) => one.group).filter((name) => name !== 'TOTAL' && name !== '-');
    filter.offer(runways(), operators);
  },
};

/** The delay by cause, of what the filter shows. */
function showCauses() {
  if (causesList.length) causes.take(filter.causesOf(causesList, causes.select.value));
}

/** Where a box says why it has no answer. */
const FAULTS = { next: '#next .fault', warnings: '#warnings .fault', load: '#runways .fault' };
const NOTES = { log: ['#h-sl small', 'newest first'], causes: ['#causes p small', $('#causes p small').textContent] };

function fault(name, detail) {
  if (FAULTS[name]) {
    const node = $(FAULTS[name]);
    node.hidden = !detail;
    say(node, detail && `No answer: ${detail}.`);
  } else if (NOTES[name]) {
    const [place, usual] = NOTES[name];
    say($(place), detail ? `no answer: ${detail}` : usual);
  } else if (detail && name === 'why') {
    flight.failed({ message: detail });
  } else if (detail && name === 'options') {
    options?.failed(detail);
  } else if (detail && name === 'records') {
    say($('#f-count'), `no answer: ${detail}`);
  }
}

/** The whole day: what changed of it, or, where a box failed to show some of it, all. */
function showPlan({ changed, isFirst, isOther, isNext, isWhole }) {
  if (isFirst || isOther) {
    if (!moves.remember()) moves.look(hms(clock.now()).slice(0, 5));
    give({ type: 'seen', position: moves.seen.position });
  } else if (isNext) {
    moves.forget([...changed.keys()].filter((name) => !day.rows.has(name)));
    moves.begin(changed);
  } else if (!isWhole) {
    moves.note(changed, null);
    mine?.moved(changed);
  }
  show([...(isFirst ? day.rows.keys() : isWhole ? all.items.keys() : []), ...changed.keys()]);
}

/** What my flights are made of is loaded by who has some. */
async function startMine() {
  if (mine || !desk.who?.flights) {
    mine?.show();
    return;
  }
  const { Mine } = await import('./mine.js');
  mine ??= new Mine({ day, moves, desk, causeOf: (name) => next.items.get(name)?.cause ?? null, send, title: () => head.title() });
  give(() => mine.show());
}

/** Records that came together. */
function showReplies(replies) {
  const names = new Set();
  for (const { reply, changed } of replies) {
    newest = [reply, moves.note(changed, reply), (newest?.[2] ?? 0) + 1];
    for (const name of changed.keys()) names.add(name);
    mine?.moved(changed, reply);
    if (reply.line.startsWith('CLOCK,')) head.clockTaken(reply.at);
  }
  show(names);
}

/**
 * Flights whose rows are to be written again, as a record changed them, or as they are no longer marked. They are written at once, so that all
 * that are shown are of one position; where many have no row yet, theirs are made before.
 */
function show(names) {
  for (const name of names) unwritten.add(name);
  const lacking = all.lacking(unwritten);
  if (lacking.length <= FEW || document.hidden) write();
  else making = all.make(lacking).catch((fault) => failed(fault, 'rows')).finally(() => { making = null; });
}

function write() {
  const names = [...unwritten];
  unwritten.clear();
  const now = `${day.date} ${day.now}`;
  next.changed(names, now !== shownNow);
  for (const table of [blocked, all]) table.changed(names);
  if (now !== shownNow) head.now();
  shownNow = now;
  if (names.includes(flight.name) || !flight.row) flight.changed();
  mine?.show();
  panels.mark();
  desk.movedOn?.();
  options?.movedOn();
  root.classList.remove('is-new');
  if (newest) head.record(...newest);
  newest = null;
}

/** Tables as the filter or what was seen is now. */
function again(...tables) {
  give(() => tables.forEach((table) => table.again()));
}

/** Records that came before, or that changed too much to be sent as events: when a CLOCK came, and why what moved has moved. */
function showHistory({ list, isFirst }) {
  for (const reply of list) moves.tell(reply);
  const last = list.findLast((reply) => reply.reply === 'ACCEPTED' && reply.line.startsWith('CLOCK,'));
  if (last || isFirst) head.clockTaken(last?.at ?? null);
  next.again();
  const end = list.at(-1);
  if (end && isFirst) lastRecord = end;
  if (end && isFirst && machine.state === 'live') connection.live({ ...end, state: 'live', was: null, lostSince: null });
}

/** What was shown of a day that is gone. */
function empty() {
  for (const known of [moves.recent, moves.causes, moves.told]) known.clear();
  warnings.first = null;
  operators = [];
  $('#causes tbody').replaceChildren();
  give(() => { // the rows of the other day are shown first
    if (flight.name) flight.open(flight.name);
    whatIfPanel.close();
    if (panels.open === 'what-if') whatIfPanel.open();
  });
}

/** What was told of a day that has ended. */
function past() {
  options?.clear();
  for (const body of $$('#s-records, #f-records')) body.replaceChildren();
  say($('#f-count'), '');
  $('#day').hidePopover();
}

heard.answer = ({ status, stale }) => give({ type: 'heard', status, stale });
$('#seen').addEventListener('click', () => {
  give(() => moves.look(hms(clock.now()).slice(0, 5)));
  again(next, blocked);
});
for (const name of ['error', 'unhandledrejection']) addEventListener(name, (event) => failed(event.error ?? event.reason ?? event.message, 'page'));
startTheme();
startState(day);
panels.follow();
give({ type: 'start' });
