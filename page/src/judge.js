// How bad a command is, and the sentences that say why: over the last ten seconds.

const CLOSED_LATELY = 60000;
const isPooled = command => command.settings.strategy !== 'SEMAPHORE';
const pooled = group => group.all.filter(isPooled);
const poolOf = group => pooled(group).reduce((sum, c) => ({busy: sum.busy + c.busy, queued: sum.queued + c.queued}), {busy: 0, queued: 0});
// five of a hundred, and at least two
const isShare = (n, of) => n > 1 && n >= 0.05 * of;

// What is said of a command: in the head of the page, and shorter in its row, where numbers and circuit stand beside it.
class Verdict {
  constructor() {
    this.level = WELL;
    this.says = [];
    this.brief = [];
  }
  add(words, short = words) {
    this.says.push(words);
    if (short) this.brief.push(short);
  }
  rise(level, words, short) {
    this.level = Math.max(this.level, level);
    this.add(words, short);
  }
}

function judge(c, now) {
  const facts = factsOf(c, now), verdict = new Verdict(), {r, per, group, isOpen} = facts;
  if (group.free === 0 || facts.full) verdict.rise(ERRORS, `the group is full: ${rate(per(facts.full))} calls/s are refused with no fallback`);
  if (isOpen) judgeOpen(c, facts, verdict);
  if (isShare(r.error, r.answers)) {
    if (isOpen) verdict.level = ERRORS;
    else verdict.rise(ERRORS, facts.got, facts.gets);
  }
  if (!isOpen) judgeRuns(c, facts, verdict);
  if (group.free && group.free <= 0.1 * group.settings.slots) verdict.rise(RISK, `${group.free} of ${group.settings.slots} slots free`);
  if (verdict.level === WELL && !r.answers && !r.joined && !c.busy) verdict.level = IDLE;
  const begun = verdict.level >= TROUBLE ? began(c) : null;
  c.view = {...facts, level: verdict.level, says: verdict.says, brief: verdict.brief, begun, chip: chipOf(c, facts),
    busy: facts.pool.busy, own: c.busy, percent: c.percent, total: c.total};
}

// What there is to judge by.
function factsOf(c, now) {
  const p = c.settings, group = c.group, r = c.past.sums(service.edge - COLUMNS_RECENT, service.edge);
  const held = !p.circuit_on ? '' : p.force_open || c.circuit === 'forced-open' ? 'open' : p.force_closed ? 'closed' : '';
  const pool = isPooled(c) ? poolOf(group) : {busy: c.busy, queued: 0}, limit = isPooled(c) ? group.settings.core : p.semaphore;
  return {
    r, group, held, pool, limit, now,
    per: n => n / Math.max(1, r.have),
    full: group.past.total(FULL, service.edge - COLUMNS_RECENT, service.edge),
    trips: c.past.total(OPENED, service.edge - COLUMNS_KEPT, service.edge),
    isOpen: held === 'open' || held !== 'closed' && p.circuit_on && c.circuit !== 'closed',
    since: Math.max(0, now - c.since),
    ...whatCallersGet(c, r),
    ...whereItRuns(c, pool, limit),
  };
}
function whatCallersGet(c, r) {
  const per = n => rate(n / Math.max(1, r.have));
  const why = !c.settings.fallback_on ? 'fallbacks are off' : r.missing ? 'there is no fallback' : r.noPermit ? 'too many fallbacks at once'
    : r.fell ? 'the fallback fails' : '';
  const as = why && `, as ${why}`, fallbacks = r.fallback ? 'callers get fallbacks' : '';
  if (!r.error) return {got: fallbacks, gets: fallbacks};
  return {got: `callers get ${r.fallback ? `${per(r.fallback)} fallbacks and ` : ''}${per(r.error)} errors a second${as}`, gets: `callers get errors${as}`};
}
function whereItRuns(c, pool, limit) {
  if (!isPooled(c)) return {hog: '', atPool: `${c.busy} of ${limit} permits taken`};
  const other = pooled(c.group).find(o => o !== c && o.busy * 2 > limit), hog = other ? `, ${other.busy} by ${other.full}` : '';
  return {hog, atPool: `${pool.busy} of ${limit} workers busy${hog}, ${pool.queued} of ${c.group.settings.queue} waiting`};
}

function judgeOpen(c, {r, per, held, trips, since, now, got, gets}, verdict) {
  const left = c.opened === null ? 0 : c.opened + c.settings.sleep_ms - now, often = trips > 1 ? `tripped ${trips} times in 5 min` : '';
  if (held) verdict.add('held open by the settings', '');
  else verdict.add(`open for ${span(since)}${often && `, ${often}`}`, often);
  verdict.add(r.short ? `${rate(per(r.short))} calls/s short-circuited` : 'no calls', '');
  if (got) verdict.add(got, gets);
  if (!held) verdict.add(c.circuit === 'half-open' ? 'a test call is under way' : left > 0 ? `test call in ${Math.ceil(left / 1000)} s` : 'the next call is the test');
  verdict.level = Math.max(verdict.level, held ? RISK : TROUBLE);
}

function judgeRuns(c, facts, verdict) {
  const p = c.settings, {r, per, held, got, gets, hog, atPool} = facts;
  if (isShare(r.rejected, r.answers)) {
    verdict.rise(TROUBLE, `${rate(per(r.rejected))} calls/s rejected: ${atPool}`, `pool full${hog}`);
    if (!r.error && got) verdict.add(got, gets);
  } else if (r.rejected) verdict.rise(RISK, `${many(r.rejected, 'call')} rejected in 10 s: ${atPool}`);
  if (held === 'closed' && c.total >= p.volume && c.percent >= p.percent) verdict.rise(TROUBLE, 'would be open, but is held closed by the settings');
  judgeFaults(c, r, verdict);
  const asks = p.circuit_on && !held;
  if (asks && c.percent && c.percent * 2 >= p.percent && c.total * 2 >= p.volume) verdict.rise(RISK, `error rate ${c.percent} % of ${c.total}, trips at ${p.percent} % of ${p.volume}`);
  if (r.error && verdict.level < ERRORS) verdict.rise(RISK, `${many(r.error, 'error')} in 10 s`);
  if (!r.rejected && r.answers && isNearlyFull(c, facts.limit)) verdict.rise(RISK, atPool);
  if (asks && c.since > 0 && facts.since < CLOSED_LATELY) verdict.rise(RISK, `closed again ${span(facts.since)} ago`);
}
function judgeFaults(c, r, verdict) {
  const runs = r.value + r.timeout + r.failure;
  if (!isShare(r.timeout + r.failure, runs)) return;
  const parts = [[r.timeout, `took over ${c.settings.timeout_ms.toLocaleString('en')} ms`], [r.failure, 'failed']].filter(([n]) => n);
  const [[first, words]] = parts;
  verdict.rise(RISK, parts.length > 1 ? `of ${runs} runs in 10 s ${list(parts.map(part => part.join(' ')))}` : `${first} of ${runs} runs in 10 s ${words}`);
}
// Four fifths are busy, or somebody waits, in two of the last three columns.
function isNearlyFull(c, limit) {
  const all = isPooled(c) ? pooled(c.group) : [c], at = (column, k) => all.reduce((sum, o) => sum + o.past.count(column, k), 0);
  const isNear = back => at(service.edge - back, BUSY) >= 0.8 * limit || at(service.edge - back, QUEUED) > 0;
  return [1, 2, 3].filter(isNear).length > 1;
}
function chipOf(c, {held, since}) {
  if (held) return [`held ${held}`, held];
  return c.settings.circuit_on ? [`${c.circuit} ${span(since)}`, c.circuit] : ['no breaker', 'none'];
}

// When the trouble began: back over columns that are bad, with fewer than ten good ones between two; and what came since.
function began(c) {
  let first = null;
  for (let column = service.edge - 1, good = 0; column >= service.edge - COLUMNS_KEPT && good < 10; column--) {
    if (isBad(c.past, column)) {
      first = column;
      good = 0;
    } else if (!c.past.has(column) || c.past.sums(column, column + 1).answers) good++;
  }
  if (first === null) return null;
  const isOlder = first - Math.max(c.past.first, service.edge - COLUMNS_KEPT) < 3, s = c.past.sums(first, service.edge);
  const why = [[s.failure, 'failure'], [s.timeout, 'timeout'], [s.rejected, 'rejection']].filter(([n]) => n);
  return {first, at: `${isOlder ? 'before ' : ''}${clockOf(first)}`, why: list(why.map(([n, word]) => many(n, word)))};
}
function isBad(past, column) {
  if (!past.has(column)) return false;
  const s = past.sums(column, column + 1);
  return past.state(column) > 0 || s.short + s.rejected + s.timeout + s.failure + s.error > 0.2 * Math.max(1, s.answers);
}
