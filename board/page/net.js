// Requests to the server, what it says of them, and its events as text. What they say and when it comes again is the machine's.

/** Why a request wasn't done, in the server's own words; status 0: it wasn't reached. */
export class Problem extends Error {
  constructor(status, detail, retry = 0) {
    super(detail);
    this.status = status;
    this.retry = retry;
  }
}

/** The server's clock, as far as its answers say it; never the machine's own. */
export const clock = {
  ahead: null,
  now: () => Date.now() + (clock.ahead ?? 0),
  hear(answer) {
    const date = Date.parse(answer.headers.get('Date') ?? '');
    if (!Number.isNaN(date)) clock.ahead = date - Date.now();
  },
};

/** Who is told what the answer to a box's own question says of the whole page: {status, stale}. */
export const heard = { answer: () => {} };

/** The role that a request says, where the server asks for none. */
export const said = { role: '' };

/** What a request may say, as headers. */
function headersOf({ role, accept, after, key }) {
  const headers = { 'Cdm-Role': role, Accept: accept, 'Cdm-After': after ? String(after) : '', 'Idempotency-Key': key };
  return Object.fromEntries(Object.entries(headers).filter(([, value]) => value));
}

/** What an answer that isn't one says: its words, whether they are the server's own, and after how many seconds to come again. */
export function problemOf(answer, text) {
  const retry = Number(answer.headers.get('Retry-After')) || 0;
  try {
    const { detail } = JSON.parse(text);
    if (typeof detail === 'string') return { detail, retry, isOwn: true };
  } catch { /* not its own words */ }
  return { detail: `the server answered ${answer.status}`, retry, isOwn: false };
}

/**
 * One request, with its whole answer as the machine takes it. It never fails: status 0 is one that has no answer.
 * @param {{path: string, method?: string, body?: string, accept?: string, after?: number, key?: string, role?: string}} order
 * @param {AbortSignal} [signal]
 */
export async function request({ path, method = 'GET', body, ...more }, signal) {
  const none = { status: 0, text: '', log: '', position: NaN, lastAt: undefined, stale: undefined, retry: 0, isOwn: false };
  let answer;
  try {
    answer = await fetch(path, { method, body, headers: headersOf(more), signal, credentials: 'same-origin' });
  } catch {
    return { ...none, detail: 'The server isn’t reached' };
  }
  clock.hear(answer);
  let text;
  try {
    text = await answer.text();
  } catch {
    return { ...none, detail: 'The answer broke off' };
  }
  if (!answer.ok) return { ...none, status: answer.status, ...problemOf(answer, text) };
  const [, log = '', position = 'NaN'] = /^(?:W\/)?"([^."]+)[^"]*-(\d+)"$/.exec(answer.headers.get('ETag') ?? '') ?? [];
  const stale = position === 'NaN' ? undefined : answer.headers.get('Cdm-Stale-Since');
  return { ...none, status: answer.status, text, log, position: Number(position), lastAt: answer.headers.get('Cdm-At') ?? undefined, stale, detail: '', isOwn: true };
}

/** One question of a box of its own. Raises Problem. */
export async function ask(path, options = {}) {
  const answer = await request({ path, role: said.role, ...options });
  heard.answer(answer);
  if (answer.status < 200 || answer.status >= 300) throw new Problem(answer.status, answer.detail, answer.retry);
  return answer;
}

/** The objects of an answer, one a line, with its position. Raises Problem. */
export async function objects(path, options) {
  const { text, position } = await ask(path, options);
  try {
    return { position, list: text.split('\n').filter(Boolean).map((line) => JSON.parse(line)) };
  } catch {
    throw new Problem(0, 'The server’s answer isn’t understood');
  }
}

const AGAIN = 2000; // ms until a part of the page that didn't come is asked for again
const MOST_AGAIN = 5;

/** A module of the page that is loaded when it is first needed. */
export async function needed(name) {
  for (let again = 0; ; again += 1) {
    try {
      return await import(`./${name}.js${again ? `?${again}` : ''}`);
    } catch (fault) {
      if (again === MOST_AGAIN) throw fault;
      await new Promise((go) => { setTimeout(go, AGAIN); });
    }
  }
}

/** A key that nobody has used. */
export function newKey() {
  return [...crypto.getRandomValues(new Uint8Array(16))].map((byte) => byte.toString(16).padStart(2, '0')).join('');
}

/** The events of the server: connections, and their text as it comes. */
export class Streams {
  /** @param {(event: object) => Promise<void>} give takes opened, chunk and ended, each with the stream's number */
  constructor(give) {
    this.give = give;
    /** @type {Map<number, AbortController>} */
    this.controls = new Map();
  }

  /** Opens one behind a moment, LOGID-POSITION. It ends by its event `ended`. */
  async open({ stream, since, role }) {
    const control = new AbortController();
    this.controls.set(stream, control);
    const ended = await this.read(stream, since, role, control.signal);
    this.controls.delete(stream);
    this.give({ type: 'ended', stream, ...ended });
  }

  close(stream) {
    this.controls.get(stream)?.abort();
  }

  /** One connection; why it ended. */
  async read(stream, since, role, signal) {
    try {
      const headers = role ? { 'Cdm-Role': role } : {};
      const answer = await fetch(`/v1/events?since=${encodeURIComponent(since)}`, { headers, signal, cache: 'no-store' });
      clock.hear(answer);
      if (!answer.ok) return { status: answer.status, ...problemOf(answer, await answer.text()) };
      this.give({ type: 'opened', stream });
      const reader = answer.body.pipeThrough(new TextDecoderStream()).getReader();
      for (;;) {
        const { value, done } = await reader.read();
        if (done) return { status: 0, detail: 'the server closed it', retry: 0 };
        await this.give({ type: 'chunk', stream, text: value }); // no more is read than is taken
      }
    } catch {
      return { status: 0, detail: 'the connection broke', retry: 0 };
    }
  }
}
