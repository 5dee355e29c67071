// The limits and pauses of the page's machine.

export const QUIET = 17000; // ms: the server writes something each 15 seconds
export const OPENING = 10000; // ms for the first byte of the events
export const DEADLINE = 15000; // ms for an answer; the program has ten seconds, and two to reach a position
export const RECORD_DEADLINE = 40000; // ms for a reply; the server gives up after 30 seconds
export const REOPEN = [500, 1000, 2000, 4000]; // ms
export const VIEW_WAIT = 3000; // ms for what all screens ask alike, after a record
export const START_WAIT = 700; // ms for the same, after the events were opened
export const SOON = 500; // ms over which the questions of many screens are spread
export const AHEAD_WAIT = 2000; // ms for the events up to what is shown, before the records between are asked for
export const MOST_AHEAD = 3; // servers that lack what is shown, before it is held for lost
export const HELD_WAIT = 1500; // ms for the events up to an answer that is newer than the rows
export const HEALTH = 15000; // ms between two looks at whether the log is reached
export const HEALTH_OLD = 3000; // ms between two looks, while it isn’t
export const MOST_QUEUED = 500; // replies that wait for the plan
export const MOST_STRANGERS = 5; // answers of another log, before the events are opened anew
export const MOST_STALE = 3; // plans without the log behind them, before one is taken
export const RECENT = 20; // records that are looked at for the last CLOCK, when the page begins
export const MOST_RECENT = 2000; // of older ones the server doesn't know what they changed
export const LOG = 50; // records of the log that are shown

/** What all screens ask alike; the server sends it behind a record, and is asked where it doesn't. */
export const VIEWS = ['totals', 'next', 'warnings', 'load'];

/** What the panels ask. */
export const PANELS = ['why', 'records', 'log', 'causes'];
