// Times as the program writes them (2025-03-10T06:15Z), and as people read and type them. All of them are UTC.

const MINUTE = 60000;
const NAMES = ['Sun', 'Mon', 'Tue', 'Wed', 'Thu', 'Fri', 'Sat'];
const MONTHS = ['Jan', 'Feb', 'Mar', 'Apr', 'May', 'Jun', 'Jul', 'Aug', 'Sep', 'Oct', 'Nov', 'Dec'];

/** The day after a day. */
export const nextDay = (day) => new Date(Date.parse(`${day}T00:00Z`) + 1440 * MINUTE).toISOString().slice(0, 10);

/** A day in words: Mon 10 Mar 2025. */
export function dayText(day) {
  const [year, month, date] = day.split('-').map(Number);
  return `${NAMES[new Date(`${day}T00:00Z`).getUTCDay()]} ${date} ${MONTHS[month - 1]} ${year}`;
}

/** Hour and minute; of the second day with its date before it: `11 00:12`. */
export function hm(time, day) {
  if (!time) return '–';
  const minute = time.slice(11, 16);
  return time.startsWith(day) ? minute : `${time.slice(8, 10)} ${minute}`;
}

/** Whether a text is a time as the program writes it. */
export const isTime = (text) => /^\d{4}-\d\d-\d\dT\d\d:\d\dZ$/.test(text);

/** Hour, minute and second of a moment of the server's clock. */
export const hms = (at) => (typeof at === 'string' ? at : new Date(at).toISOString()).slice(11, 19);

/** The one subtraction of this page: minutes from one time to another. */
export const minutesFrom = (from, to) => Math.round((Date.parse(to) - Date.parse(from)) / MINUTE);

/** A time so many minutes later, as a proposal for what somebody may type. */
export const later = (time, minutes) => `${new Date(Date.parse(time) + minutes * MINUTE).toISOString().slice(0, 16)}Z`;

/** What somebody typed as a time: 07:05, 0705, `11 00:12`; anything else stays as it is, for the program to judge. */
export function typed(said, day) {
  const found = /^(?:(\d\d) )?(\d\d):?(\d\d)$/.exec(said.trim());
  if (!found) return said.trim();
  const date = [day, nextDay(day)].find((one) => !found[1] || one.endsWith(`-${found[1]}`));
  return date ? `${date}T${found[2]}:${found[3]}Z` : said.trim();
}
