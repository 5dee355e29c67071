// Which question is asked when. It does nothing by itself: it is told what is wanted and what came, and says what is due.

export const PACE = 1000; // ms: no question of the day is asked more often
const PAUSES = [1000, 2000, 4000]; // ms after failures, one after another

/**
 * A question to the server. `isApart`: it waits for no other; of all others one is asked at a time.
 * @typedef {{name: string, isWanted: () => boolean, path: () => string, isApart?: boolean, method?: string, body?: string,
 *   accept?: string, isOfDay?: boolean}} Question
 */

/** When a question is due, before when it isn't asked, whether it is being asked, and how often it failed since it was answered. */
class Turn {
  constructor(question) {
    this.question = question;
    this.asTold = -Infinity; // before when the server doesn't want it, whoever asks
    this.clear();
  }

  clear() {
    this.due = Infinity;
    this.notBefore = -Infinity;
    this.isAsked = false;
    this.failures = 0;
  }

  /** From when on it may be asked. */
  get moment() {
    return this.due === Infinity || this.isAsked || !this.question.isWanted() ? Infinity : Math.max(this.due, this.notBefore, this.asTold);
  }
}

/**
 * Never sooner than asked for, but not all screens at one moment.
 * @param {number} pause ms
 * @param {number} chance from 0 to 1
 */
export const spread = (pause, chance) => pause * (0.75 + chance / 2);

/** A pause after a failure, spread; where the server says after how many seconds to come again, not sooner. */
export const pauseAfter = (pauses, failures, retry, chance) => Math.max(
  pauses[Math.min(failures, pauses.length - 1)] * (0.5 + chance / 2), retry * 1000 * (1 + chance / 4));

export class Questions {
  /**
   * @param {Question[]} table
   * @param {() => number} chance
   */
  constructor(table, chance) {
    this.table = new Map(table.map((question) => [question.name, question]));
    this.list = table.map((question) => new Turn(question));
    this.turns = new Map(this.list.map((turn) => [turn.question.name, turn]));
    this.chance = chance;
  }

  /** All as if nothing had been asked. */
  clear() {
    for (const turn of this.list) turn.clear();
  }

  /** A question is due at a moment, if it isn't sooner. */
  want(name, at) {
    const turn = this.turns.get(name);
    turn.due = Math.min(turn.due, at);
  }

  /** A question is due now, such as that of a panel that was just opened; but not before the server wants it. */
  wantNow(name, at) {
    const turn = this.turns.get(name);
    turn.due = at;
    turn.notBefore = -Infinity;
  }

  /** What it asks is known. */
  drop(name) {
    this.turns.get(name).due = Infinity;
  }

  isAsked(name) {
    return this.turns.get(name).isAsked;
  }

  /** Whether one is being asked that the others wait for. */
  get isTaken() {
    return this.list.some((turn) => turn.isAsked && !turn.question.isApart);
  }

  /** The questions that are to be asked now. */
  due(at) {
    const names = [];
    let isTaken = null;
    for (const turn of this.list) {
      if (turn.due > at) continue;
      const { isApart, name } = turn.question;
      isTaken ??= this.isTaken;
      if (!isApart && isTaken || turn.moment > at) continue;
      isTaken ||= !isApart;
      names.push(name);
    }
    return names;
  }

  /** It is being asked: what comes from now on makes it due anew. */
  ask(name, at) {
    const turn = this.turns.get(name);
    turn.due = Infinity;
    turn.notBefore = turn.question.isApart ? -Infinity : at + PACE;
    turn.isAsked = true;
  }

  /** It isn't asked any more; that has no answer. */
  forget(name) {
    this.turns.get(name).isAsked = false;
  }

  answered(name) {
    const turn = this.turns.get(name);
    turn.isAsked = false;
    turn.failures = 0;
  }

  /** It has no answer and is asked again. */
  failed(name, at, retry) {
    const turn = this.turns.get(name);
    turn.due = at + pauseAfter(PAUSES, turn.failures, retry, this.chance());
    turn.notBefore = turn.due;
    if (retry > 0) turn.asTold = turn.due;
    turn.isAsked = false;
    turn.failures += 1;
  }

  /** The next moment at which one is due that waits for no answer. */
  next() {
    const { isTaken } = this;
    let next = Infinity;
    for (const turn of this.list) {
      if (turn.due < next && (turn.question.isApart || !isTaken)) next = Math.min(next, turn.moment);
    }
    return next;
  }
}
