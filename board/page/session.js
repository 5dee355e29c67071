// Part of the page's machine: who speaks, and what begins anew where that is somebody else.
import { Answers } from './answers.js';
import { DEADLINE } from './limits.js';

export class Session extends Answers {
  onStart() {
    this.begin();
  }

  /** From the beginning, as whoever speaks now. Rows that are shown stay. */
  begin() {
    for (const ask of [...this.asks.values()]) if (ask.isOfSession) this.abandon(ask);
    this.questions.clear();
    this.closeStream();
    Object.assign(this, { who: null, reopenAt: Math.max(this.at, this.eventsAsTold), failures: 0 });
    this.questions.want('who', this.at);
  }

  onTab() {
    this.begin();
  }

  onRole({ role }) {
    this.role = role;
    this.begin();
  }

  onSignIn({ desk, token }) {
    this.abandonAll('sign-in');
    const body = JSON.stringify({ desk, token });
    this.send_({ name: 'sign-in', path: '/v1/session', method: 'POST', body }, DEADLINE);
  }

  onSignOut() {
    this.isForgotten = true;
    this.forget('out');
  }

  /** Forgets the cookie, whatever the server says to that, and begins anew. */
  forget(word) {
    for (const ask of [...this.asks.values()]) if (ask.isOfSession) this.abandon(ask);
    this.questions.clear();
    this.closeStream();
    this.who = null;
    this.order({ do: 'show', what: 'who', who: null });
    this.send_({ name: 'forget', path: '/v1/session', method: 'DELETE', word, isOfSession: true }, DEADLINE);
  }

  /** The token isn't taken any more, or nobody has signed in. */
  signedOut(detail) {
    if (this.isOut) return;
    if (this.who?.desk && !this.who.roles.length) this.was = { desk: this.who.desk, detail };
    if (this.isForgotten && !this.who) {
      this.goOut();
      return;
    }
    this.isForgotten = true;
    this.forget('');
  }

  goOut() {
    for (const ask of [...this.asks.values()]) if (ask.isOfSession) this.abandon(ask);
    this.questions.clear();
    this.closeStream();
    Object.assign(this, { isOut: true, isForgotten: false, lost: null, lostSince: null, need: null, queue: [], who: null, oldSince: this.now });
    this.order({ do: 'show', what: 'who', who: null });
  }

  /**
   * The server knows who speaks.
   * @returns {boolean} whether what it counts is of the day that is shown
   */
  takeWho(who) {
    this.who = who;
    if (!who.roles.length) this.role = '';
    this.isOut = false;
    this.isForgotten = false;
    this.order({ do: 'show', what: 'who', who, role: this.role });
    if (who.desk && !who.roles.length) this.was = null;
    if (who.kinds.length && this.kinds === null) this.questions.want('kinds', this.at); // what it may send; who only reads needs no forms
    return this.isWhoOfDay;
  }

  /** Whether how many records are left is counted in the day that is shown: another day may be lost again, or end. */
  get isWhoOfDay() {
    const { who, rows, day } = this;
    return !rows || !who?.kinds.length || who.day === undefined || who.log === rows.log && who.day === day.date;
  }
}
