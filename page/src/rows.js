// A row for each command, by groups, the worst first; rows do not move under a moving hand.

const LINGER = 30000, STILL = 3000, FEW = 12;
const NUMBERS = [...UP.slice(0, 3), {look: 'rate', many: 'error rate'}, ...DOWN];
let rowIds = 0;

// The worst first: errors, then open circuits, then what else is in trouble; of equals what broke first, which is perhaps what
// broke the others.
const worst = (a, b) => b.view.level - a.view.level || b.view.isOpen - a.view.isOpen
  || (a.view.begun?.first ?? 0) - (b.view.begun?.first ?? 0) || a.group.place - b.group.place;
const isShown = c => (!view.q || c.whole.toLowerCase().includes(view.q))
  && (!view.show.size || LEVELS.some(level => view.show.has(level.id) && level.has(c.view.level)));

function rowOf(c) {
  if (c.row) return c.row;
  const box = make('div', 'row'), info = make('div', 'info', box), head = make('div', 'head', info);
  const row = c.row = {box, mark: make('span', 'mark', head)};
  row.name = make('button', 'name', make('h2', '', head), c.full);
  row.name.type = 'button';
  row.name.title = c.whole;
  row.chip = make('span', 'chip', head);
  row.chipMark = swatch(row.chip, 'closed', 16);
  row.chipText = make('span', '', row.chip);
  const brief = make('span', 'brief', head);
  row.briefs = ['calls a second', 'error rate', 'busy of limit'].map(words => {
    const part = make('span', '', brief);
    part.title = words;
    return part;
  });
  row.why = make('p', 'why', info);
  row.calls = make('b', '', row.why);
  row.more = row.why.appendChild(new Text(''));
  row.numbers = numbersOf(info);
  row.rule = make('p', 'rule', info);
  row.chart = newChart(box);
  row.chart.of = c;
  row.name.addEventListener('click', () => { c.wish = !c.tall; render(); });
  row.name.addEventListener('keydown', event => keyInRow(event, c));
  box.id = `c${++rowIds}`;
  return row;
}
function numbersOf(parent) {
  const dl = make('dl', 'nums', parent), numbers = {};
  for (const {look, many: words} of NUMBERS) {
    const cell = make('div', '', dl), dt = make('dt', '', cell);
    if (look !== 'rate') swatch(dt, look);
    dt.append(words);
    const dd = make('dd', '', cell);
    numbers[look] = {cell, big: dd.appendChild(new Text('')), small: make('small', '', dd)};
  }
  return numbers;
}

function body() {
  const now = performance.now();
  for (const c of commands) {
    if (c.view.level >= TROUBLE) c.lingers = now;
    const isNear = commands.length <= FEW || c.lingers > 0 && now - c.lingers < LINGER;
    c.tall = c.wish ?? (view.rows === 'auto' ? isNear : view.rows === 'tall');
  }
  let any = false;
  inOrder(now).forEach((group, rank) => { any = placeGroup(group, rank) || any; });
  $('none').hidden = any || !commands.length;
  map();
  for (const c of commands) if (!c.row.box.hidden && c.row.chart.isSeen) lane(c);
  axis();
}
function inOrder(now) {
  for (const group of ordered) group.worst = group.all.reduce((a, b) => worst(a, b) <= 0 ? a : b);
  const isMoving = now - hand.moved < STILL && ordered.every(group => group.box?.isConnected);
  return ordered.slice().sort(isMoving ? (a, b) => a.rank - b.rank : (a, b) => worst(a.worst, b.worst));
}
function placeGroup(group, rank) {
  const box = $('list'), those = group.all.filter(isShown);
  group.rank = rank;
  if (!group.box) Object.assign(group, {box: make('section', 'group', box), strips: []});
  // before the groups stand the axis and what is said where there is none
  if (box.children[rank + 2] !== group.box) moveTo(box, group.box, box.children[rank + 2] || null);
  group.box.hidden = !those.length;
  set(group.box, {class: `group s${group.worst.view.level}${those.some(c => c.tall) ? '' : ' flat'}`, 'aria-label': `group ${shown(group.name)}`});
  group.all.forEach((c, i) => {
    const row = rowOf(c);
    if (group.box.children[i] !== row.box) moveTo(group.box, row.box, group.box.children[i] || null);
    row.box.hidden = !those.includes(c);
    if (!row.box.hidden) fillRow(c, row);
  });
  strips(group, those);
  return those.length > 0;
}

function fillRow(c, row) {
  const v = c.view, key = `${c.tall} ${v.level} ${v.isOpen}`;
  // a row out of sight keeps its numbers, but not how bad it is
  if (row.key === key && !row.chart.isSeen && row.name !== document.activeElement) return;
  row.key = key;
  set(row.box, {class: `row ${c.tall ? 'tall' : 'small'} s${v.level}${v.isOpen ? ' isopen' : ''}`});
  set(row.name, {'aria-expanded': c.tall, 'aria-label': c.full});
  if (!row.chart.isSeen) set(row.chart.svg, {height: c.tall ? 132 : 30});
  put(row.mark, !c.tall && v.isOpen ? v.chip[0] : LEVEL_WORDS[v.level]);
  // below its group's own command a short row has the further command's name alone
  const isBelow = !c.tall && c.full !== c.name && c.group.all[0].whole === c.group.name && isShown(c.group.all[0]);
  put(row.name, isBelow ? `/ ${c.name}` : c.full);
  const look = lookOf(v.chip[1]);
  put(row.chipText, v.chip[0]);
  set(row.chipMark, {class: v.chip[1] === 'none' ? 'base' : look, 'stroke-width': look === 'closed' ? 4 : 10});
  const calls = v.per(v.r.answers + v.r.joined), brief = [`${rate(calls)}/s`, `${v.percent} %`, `${isPooled(c) ? v.busy : v.own}/${v.limit}`];
  brief.forEach((text, i) => put(row.briefs[i], text));
  if (c.tall) fillTall(c, row, calls);
}
const lookOf = state => state === 'half-open' ? 'half' : state === 'open' ? 'open' : 'closed';
function fillTall(c, row, calls) {
  const v = c.view, r = v.r, joined = r.joined ? `, ${rate(v.per(r.joined))} joined` : '';
  put(row.calls, `${rate(calls)} calls/s`);
  put(row.more, `${v.brief.length ? `; ${v.brief.join('; ')}` : ''}${v.begun ? `. Began ${v.begun.at}` : joined}`);
  for (const look in row.numbers) {
    const {cell, big, small} = row.numbers[look], isRate = look === 'rate', n = isRate ? v.percent : r[look];
    set(cell, {class: n ? '' : 'nil'});
    put(big, isRate ? `${n} %` : rate(v.per(n)));
    put(small, isRate ? ` of ${v.total}` : n ? '/s' : '');
  }
  put(row.rule, `${c.settings.timeout_on ? `timeout ${c.settings.timeout_ms} ms` : 'no timeout'}; ${ruleOf(c.settings)}`);
}
function ruleOf(p) {
  if (!p.circuit_on) return 'no circuit breaker';
  if (p.force_open) return 'circuit forced open';
  return p.force_closed ? 'circuit forced closed' : `trips at ${p.percent} % of ${p.volume}, sleeps ${span(p.sleep_ms)}`;
}

// Below the rows of a group its pool, and the permits of each command that has some.
function strips(group, those) {
  const wanted = [...poolStrip(group, those), ...those.filter(c => c.tall && !isPooled(c)).map(permitStrip)];
  while (group.strips.length > wanted.length) {
    const old = group.strips.pop();
    watcher.unobserve(old.chart.svg);
    old.box.remove();
  }
  wanted.forEach((what, i) => fillStrip(group, group.strips[i] ??= newStrip(group), what, i));
}
function poolStrip(group, those) {
  const all = pooled(group);
  if (!those.some(c => c.tall && isPooled(c))) return [];
  const {core, queue} = group.settings, {busy, queued} = poolOf(group), shares = all.filter(c => c.busy).map(c => `${c.name} ${c.busy}`);
  return [{all, limits: queue ? [core, core + queue] : [core], words: [`pool of ${list(all.map(c => c.name))}: `, `${busy} of ${core} busy`,
    queue ? `, ${queued} of ${queue} waiting` : ', no queue', all.length > 1 && busy ? ` (${shares.join(', ')})` : '']}];
}
const permitStrip = c => ({all: [c], limits: [c.settings.semaphore],
  words: [`permits of ${c.name}: `, `${c.busy} of ${c.settings.semaphore} taken`, '', '']});
function newStrip(group) {
  const box = make('div', 'pool', group.box), p = make('p', '', box);
  p.append('', make('b'), '', '');
  return {box, p, chart: newChart(box)};
}
function fillStrip(group, it, {all, limits, words}, i) {
  if (group.box.lastChild !== it.box && group.box.children[group.all.length + i] !== it.box) group.box.append(it.box);
  words.forEach((text, k) => put(it.p.childNodes[k], text));
  it.chart.all = all;
  if (it.chart.isSeen) strip(it.chart, all, limits, words.join(''));
}
