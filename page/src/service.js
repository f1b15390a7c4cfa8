// What the service told last, and how it is asked.

// without news for so long, or with a clock that stands for so long, nothing is known any more, in milliseconds
const PATIENCE = 3500, STANDSTILL = 5500, LONGEST_REQUEST = 5000;
const UNKNOWN_FORMAT = 'its answer is of a format that this page does not know: reload it';

const groups = new Map();
let ordered = [], commands = [];
// `edge` is the number of the column behind the last that was told; `restarts` are the columns with which a service began
const service = {run: null, from: 0, edge: 0, columnMs: 1000, told: null, restarts: []};
const asking = {answered: null, since: null, tries: 0, fault: '', isBusy: false, timer: 0};

const isStale = () => !asking.answered || performance.now() - asking.answered > PATIENCE || performance.now() - asking.since > STANDSTILL;
const serviceNow = () => service.told.now + (isStale() ? 0 : performance.now() - service.told.at);

// Takes an answer over, and tells whether it was all that is wanted. Where the service is another one, where settings
// changed, or where a name is new, everything is asked for once more: settings are told with the first column alone.
function take(said) {
  if (said.format !== 1 || !Array.isArray(said.groups)) throw new Error(UNKNOWN_FORMAT);
  const {ms, first, next, holes = []} = said.columns, base = Math.round(said.started / ms);
  if (service.from > 0 && (said.tuned !== service.told.tuned || !said.groups.every(isKnown))) return askAnew();
  if (said.run !== service.run && isAnother(said.run, base)) return askAnew();
  const when = {base, first: base + first, next: base + next, holes: new Set(holes.map(hole => base + hole))};
  takeGroups(said.groups, when);
  service.columnMs = ms;
  const now = performance.now(), before = service.told;
  if (!before || before.run !== said.run || before.now !== said.now) asking.since = now;
  service.told = {run: said.run, tuned: said.tuned, now: said.now, at: now, service: shown(String(said.service || '')), started: said.started};
  service.from = next;
  service.edge = base + next;
  return true;
}
function askAnew() {
  service.from = 0;
  return false;
}
const isKnown = told => groups.has(told.name) && told.commands.every(c => groups.get(told.name).commands.has(c.name));
// Notes that another service answers, and tells whether what it said began amid its columns.
function isAnother(run, base) {
  if (service.run !== null) {
    service.restarts.push(base);
    say('The service was started again.');
  }
  service.run = run;
  return service.from > 0;
}

function takeGroups(told, when) {
  const left = new Set(groups.keys());
  ordered = told.map((said, place) => {
    left.delete(said.name);
    if (!groups.has(said.name)) groups.set(said.name, {name: said.name, past: new Past(), commands: new Map(), all: []});
    return takeGroup(groups.get(said.name), said, place, when);
  });
  for (const name of left) {
    const group = groups.get(name);
    group.commands.forEach(remove);
    group.box?.remove();
    groups.delete(name);
  }
  commands = ordered.flatMap(group => group.all);
}
function takeGroup(group, said, place, when) {
  const born = when.base + (said.born || 0);
  Object.assign(group, {place, free: said.free});
  if (said.settings) group.settings = said.settings;
  group.past.take(said.columns || {}, when.first, when.next, born, when.holes);
  const gone = new Set(group.commands.keys());
  group.all = said.commands.map(told => {
    gone.delete(told.name);
    if (!group.commands.has(told.name)) group.commands.set(told.name, newCommand(group, told.name));
    return takeCommand(group.commands.get(told.name), told, born, when);
  });
  for (const name of gone) {
    remove(group.commands.get(name));
    group.commands.delete(name);
  }
  return group;
}
function takeCommand(command, told, born, when) {
  command.past.take(told.columns, when.first, when.next, born, when.holes);
  for (const word of ['busy', 'queued', 'circuit', 'errors', 'total', 'percent', 'since', 'opened']) command[word] = told[word];
  if (told.settings) command.settings = told.settings;
  return command;
}
function newCommand(group, name) {
  const isOwn = name === group.name;
  return {group, past: new Past(), lingers: 0, whole: isOwn ? name : `${group.name}/${name}`, name: shown(name),
    full: isOwn ? shown(name) : `${shown(group.name)}/${shown(name)}`};
}
function remove(command) {
  command.row?.box.remove();
  command.tile?.remove();
}

// ---- asking ----

async function poll() {
  clearTimeout(asking.timer);
  if (asking.isBusy) return;
  asking.isBusy = true;
  const begun = performance.now(), control = new AbortController(), limit = setTimeout(() => control.abort(), LONGEST_REQUEST);
  let wait;
  try {
    for (let round = 0, isWhole = false; !isWhole && round < 3; round++) isWhole = await ask(control.signal);
    asking.answered = performance.now();
    asking.tries = 0;
    asking.fault = '';
    wait = Math.max(100, Math.max(1000, service.columnMs) - (asking.answered - begun));
  } catch (error) {
    asking.tries++;
    asking.fault = faultOf(error);
    wait = Math.min(10000, 1000 * 2 ** (asking.tries - 1)) * (0.8 + 0.4 * Math.random());
  }
  clearTimeout(limit);
  asking.isBusy = false;
  asking.timer = setTimeout(poll, wait);
  render();
}
async function ask(signal) {
  const answer = await fetch(`state.json?from=${service.from}`, {cache: 'no-store', signal});
  if (!answer.ok) throw new Error(`it answered ${answer.status}`);
  let said;
  try { said = await answer.json(); } catch (error) { throw error.name === 'AbortError' ? error : new Error('its answer is no JSON'); }
  try { return take(said); } catch (error) { throw error instanceof TypeError ? new Error('its answer lacks something') : error; }
}
function faultOf(error) {
  if (error.name === 'AbortError') return 'it took a request and was silent for 5 s';
  return error instanceof TypeError ? 'no connection' : error.message;
}
