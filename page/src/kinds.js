// What is counted, what it is called, and how much of it is kept.

const COLUMNS_KEPT = 300, COLUMNS_SHOWN = 60, COLUMNS_RECENT = 10;
// the kinds of a column: events, then what was seen at its end
const KINDS = ['SUCCESS', 'FALLBACK_SUCCESS', 'EXCEPTION_THROWN', 'BAD_REQUEST', 'SHORT_CIRCUITED', 'THREAD_POOL_REJECTED',
  'SEMAPHORE_REJECTED', 'TIMEOUT', 'FAILURE', 'RESPONSE_FROM_CACHE', 'FALLBACK_MISSING', 'FALLBACK_FAILURE',
  'FALLBACK_REJECTION', 'busy', 'queued', 'opened', 'full'];
const numberOf = kind => KINDS.indexOf(kind);
const BUSY = numberOf('busy'), QUEUED = numberOf('queued'), OPENED = numberOf('opened'), FULL = numberOf('full');

const series = (look, many, one, ...kinds) => ({look, many, one, kinds: kinds.map(numberOf)});
// upwards what callers got, downwards why it was no value
const UP = [
  series('value', 'values', 'value', 'SUCCESS'),
  series('fallback', 'fallbacks', 'fallback', 'FALLBACK_SUCCESS'),
  series('error', 'errors', 'error', 'EXCEPTION_THROWN'),
  series('bad', 'bad requests', 'bad request', 'BAD_REQUEST'),
];
const DOWN = [
  series('short', 'short-circuited', 'short-circuited', 'SHORT_CIRCUITED'),
  series('rejected', 'rejected', 'rejected', 'THREAD_POOL_REJECTED', 'SEMAPHORE_REJECTED'),
  series('timeout', 'timeouts', 'timeout', 'TIMEOUT'),
  series('failure', 'failures', 'failure', 'FAILURE'),
];
const BARS = [...UP, ...DOWN];
// what has no bar, but is told in words
const ASIDE = {joined: 'RESPONSE_FROM_CACHE', missing: 'FALLBACK_MISSING', fell: 'FALLBACK_FAILURE',
  noPermit: 'FALLBACK_REJECTION', trips: 'opened', full: 'full'};
const ASIDES = Object.entries(ASIDE).map(([word, kind]) => [word, numberOf(kind)]);

// the states of a circuit, and what each is drawn as
const STATES = ['closed', 'half-open', 'open', 'forced-open'], STATE_LOOKS = ['closed', 'half', 'open', 'open'];

// how bad a command is: idle, well, at risk, in trouble, and in trouble with errors for its callers
const IDLE = 0, WELL = 1, RISK = 2, TROUBLE = 3, ERRORS = 4;
const LEVEL_WORDS = ['idle', 'well', 'at risk', 'trouble', 'trouble'];
const LEVELS = [
  {id: 'trouble', words: 'in trouble', has: level => level >= TROUBLE},
  {id: 'risk', words: 'at risk', has: level => level === RISK},
  {id: 'well', words: 'well', has: level => level === WELL},
  {id: 'idle', words: 'idle', has: level => level === IDLE},
];
