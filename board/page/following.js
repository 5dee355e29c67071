// Part of the page's machine: the events, lost and found again, and their text, wherever it is cut into chunks.
import { isSameMoment } from './day.js';
import { OPENING, REOPEN, START_WAIT, SOON, HEALTH, MOST_QUEUED, VIEWS } from './limits.js';
import { pauseAfter, spread } from './questions.js';
import { Reading } from './reading.js';

const MOST_UNENDED = 4 << 20; // characters; the server writes at most half a MiB at once

/**
 * @typedef {object} Told
 * @property {string} id LOGID-POSITION, or '' where the event has none
 * @property {string} name '' for a block that only says where the stream is
 * @property {string} data
 */

/**
 * One event of a block of lines.
 * @param {string} block
 * @returns {Told}
 */
function eventOf(block) {
  const event = { id: '', name: '', data: '' };
  for (const line of block.split('\n')) {
    const colon = line.indexOf(':');
    if (colon <= 0) continue; // a comment
    const value = line.slice(colon + 1).replace(/^ /, '');
    if (line.startsWith('id:')) event.id = value;
    if (line.startsWith('event:')) event.name = value;
    if (line.startsWith('data:')) event.data += value;
  }
  return event;
}

/**
 * A moment as the server writes it, `LOGID-POSITION`.
 * @param {string} id
 * @returns {Moment | null}
 */
function momentOf(id) {
  const found = /^(.+)-(\d{1,15})$/.exec(id);
  return found ? { log: found[1], position: Number(found[2]), lastAt: undefined } : null;
}

class Chunks {
  constructor() {
    this.rest = '';
  }

  /**
   * The events that end in this chunk; what doesn't end yet is kept for the next one.
   * @param {string} text
   * @returns {Told[]}
   * @throws {Error} where an event never ends
   */
  take(text) {
    this.rest += text;
    const end = this.rest.lastIndexOf('\n\n');
    if (end < 0) {
      if (this.rest.length > MOST_UNENDED) throw new Error('an event of the server never ends');
      return [];
    }
    const whole = this.rest.slice(0, end);
    this.rest = this.rest.slice(end + 2);
    return whole.split('\n\n').filter(Boolean).map(eventOf);
  }
}

/** Events whose data say when the record of their moment was taken. */
const OF_MOMENT = ['from', 'reset', 'reply', 'refused'];

export class Following extends Reading {
  /** Opens the events behind the rows' moment. Where there are no rows yet, the events say of which moment or a later one the plan is to be. */
  open() {
    const { rows } = this;
    this.stream = { number: this.number += 1, isOpen: false, heardAt: this.at, chunks: new Chunks(), isTold: false, moment: rows && { ...rows }, lacks: 0 };
    // What is waited for is told anew by this stream.
    if (this.need) this.dropNeed();
    this.order({ do: 'open', stream: this.stream.number, since: rows ? `${rows.log}-${rows.position}` : '', role: this.role });
  }

  closeStream() {
    if (this.stream) this.order({ do: 'close', stream: this.stream.number });
    Object.assign(this, { stream: null, queue: [], view: null });
  }

  isMine({ stream }) {
    return this.stream !== null && this.stream.number === stream;
  }

  onOpened(event) {
    if (!this.isMine(event)) return;
    Object.assign(this.stream, { isOpen: true, heardAt: this.at });
    Object.assign(this, { failures: 0, strangers: 0, faults: 0 });
    this.oldSince = this.lost?.since ?? this.oldSince;
    this.lost = null;
    for (const name of VIEWS) this.questions.want(name, this.at + spread(START_WAIT, this.chance()));
    this.questions.want('health', this.at + spread(HEALTH, this.chance()));
    if (this.staleSince) this.questions.want('health', this.at + this.chance() * SOON);
    this.wantPanels();
    this.questions.want('operators', this.at + spread(START_WAIT, this.chance()));
    if (this.history) this.questions.want('history', this.at);
    if (this.isHelpAsked) this.questions.want('options', this.at);
    if (!this.rows) this.questions.want('plan', this.at + OPENING); // if they don't say where they begin
  }

  onEnded(event) {
    if (!this.isMine(event)) return;
    this.closeStream();
    if (event.status === 401 || event.status === 403) {
      this.signedOut(event.detail);
      return;
    }
    this.reopenAt = this.at + pauseAfter(REOPEN, this.failures, event.retry, this.chance());
    if (event.retry > 0) this.eventsAsTold = this.reopenAt;
    this.failures += 1;
    if (!this.rows) this.questions.want('plan', this.at); // it may be that only events don't come through
    this.losing(event.detail);
  }

  losing(detail) {
    this.lost ??= { since: this.now, detail: detail || 'the server isn’t reached' };
    this.lostSince ??= this.lost.since;
  }

  onChunk(event) {
    if (!this.isMine(event)) return;
    this.stream.heardAt = this.at;
    let events = [];
    try {
      events = this.stream.chunks.take(event.text);
    } catch (fault) {
      this.order({ do: 'close', stream: event.stream });
      this.onEnded({ stream: event.stream, status: 0, detail: fault.message, retry: 0 });
    }
    const replies = [];
    for (const told of events) {
      try {
        this.takeEvent(told, replies);
      } catch (fault) {
        this.order({ do: 'say', what: 'fault', part: 'events', detail: fault.message });
        if (this.stream.moment) this.readAnew();
      }
    }
    if (replies.length) this.apply(replies);
  }

  /** One event of the server; replies that are of the rows' log are gathered. */
  takeEvent({ id, name, data }, replies) {
    const moment = momentOf(id);
    const was = this.stream.moment;
    const told = OF_MOMENT.includes(name) ? JSON.parse(data) : null;
    if (moment) {
      moment.lastAt = told?.at ?? (moment.position === was?.position ? was.lastAt : undefined);
      this.stream.moment = moment;
    }
    if (name === 'end') this.order({ do: 'say', what: 'end' });
    else if (name === 'from') this.takeFrom();
    else if (name === 'reset' || moment && was && moment.log !== was.log) {
      this.stream.isTold = true;
      this.apply(replies.splice(0));
      this.readAnew();
    } else if (name === 'view') {
      this.apply(replies.splice(0));
      this.takeView(JSON.parse(data));
    } else if (name === 'reply') this.takeReply(told, replies);
  }

  /**
   * Where the events begin. A server that began anew may have another past than the one of the rows, under the same name: then another
   * record stands in the place of the rows' last one.
   */
  takeFrom() {
    const { rows, stream } = this;
    stream.isTold = true;
    this.isUntold = false;
    if (!rows) this.readFirst();
    else if (isSameMoment(rows, stream.moment) && !this.isBroken) Object.assign(this, { oldSince: null, isGone: false });
    else this.readAnew(!isSameMoment(rows, stream.moment));
  }

  takeReply(reply, replies) {
    if (this.need || !this.rows) {
      this.queue.push(reply);
      if (this.queue.length > MOST_QUEUED) this.readAnew();
    } else {
      replies.push(reply);
    }
  }

  /**
   * Whether a reply is of another past than the rows: another record stands in the place of their last one, or, where the events told none
   * there, what they tell next was taken before that one.
   */
  isOfOtherPast({ position, at }) {
    const { rows } = this;
    if (position === rows.position) return at !== rows.lastAt;
    return this.isUntold && position > rows.position && at < rows.lastAt;
  }

  /** Puts replies over the rows, in their order. */
  apply(replies) {
    if (!this.rows) return;
    const shown = [];
    for (const reply of replies) {
      if (!reply.changes && reply.position > this.rows.position) {
        this.readAnew();
        break;
      }
      if (this.isOfOtherPast(reply)) {
        this.readAnew(true);
        break;
      }
      if (reply.position >= this.rows.position) this.isUntold = false;
      const changed = this.day.apply(reply);
      if (!changed) continue;
      Object.assign(this.rows, { position: this.day.position, lastAt: reply.at });
      shown.push({ reply, changed });
    }
    if (shown.length) this.order({ do: 'show', what: 'replies', replies: shown });
    this.settle();
    this.wantViews();
    this.wantPanels();
  }
}
