// What this page has sent and whether it is known to be taken. It does nothing by itself: answers in, outcomes out.

const MOST_UNKNOWN = 100; // lines without a reply, before no other one is sent

/**
 * What a desk is told of a record: `taken` and `refused` have its reply; `not taken`: it never will be; `not known`: it may have been.
 * @typedef {{word: 'taken' | 'refused' | 'not taken' | 'not known', reply: object | null, detail: string, isAgain: boolean}} Outcome
 */

export class Sending {
  constructor() {
    /** @type {Map<string, string>} the key of each line that may have been taken */
    this.unknown = new Map();
    /** @type {Set<string>} lines on their way */
    this.underway = new Set();
  }

  /**
   * The key with which a line goes out: its old one as long as it isn't known whether the line was taken, whoever speaks now; the
   * server takes the key of another desk for another one.
   * @param {string} line
   * @param {string} fresh a key that nobody has used
   * @returns {{key: string} | {why: string}} why it isn't sent
   */
  begin(line, fresh) {
    if (this.underway.has(line)) return { why: 'This record is on its way already' };
    const key = this.unknown.get(line);
    if (!key && this.unknown.size >= MOST_UNKNOWN) return { why: 'Too many records had no reply; send those again first' };
    this.underway.add(line);
    return { key: key ?? fresh };
  }

  /**
   * What an answer says of a line. Only a reply settles one that had no answer before: a later refusal to take it says nothing of it.
   * @param {{line: string, key: string}} sent
   * @param {{status: number, text: string, detail: string, isOwn: boolean}} answer
   * @returns {Outcome}
   */
  end({ line, key }, answer) {
    const isAgain = this.unknown.has(line);
    this.underway.delete(line);
    const reply = answer.status === 200 ? replyOf(answer.text, line) : null;
    if (reply) {
      this.unknown.delete(line);
      return { word: reply.reply === 'ACCEPTED' ? 'taken' : 'refused', reply, detail: '', isAgain };
    }
    if (!isAgain && isNothingTaken(answer)) return { word: 'not taken', reply: null, detail: answer.detail, isAgain };
    this.unknown.set(line, key);
    return { word: 'not known', reply: null, detail: answer.status === 200 ? 'The answer isn’t understood' : answer.detail, isAgain };
  }
}

/** Whether the server itself says that nothing was taken; a proxy on the way may say a status too, and knows nothing of it. */
const isNothingTaken = ({ status, isOwn }) => isOwn && (status === 503 || status >= 400 && status < 500);

/** The reply in an answer, if it is the one to this line; of several lines the first that is refused, or else the last. */
function replyOf(text, line) {
  try {
    const replies = text.split('\n', line.split('\n').length).map((one) => JSON.parse(one));
    const areOwn = replies.map((reply) => reply?.line).join('\n') === line && replies.every(({ reply }) => reply === 'ACCEPTED' || reply === 'REFUSED');
    return areOwn ? replies.find(({ reply }) => reply === 'REFUSED') ?? replies.at(-1) : null;
  } catch {
    return null;
  }
}
