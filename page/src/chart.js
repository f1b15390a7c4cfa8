// Lanes and strips: columns from the left to the right, all of one kind in one path of thick strokes.

const LEFT = 42, TALL = {band: 17, base: 83.5, up: 54, down: 46, least: 2}, SMALL = {band: 3.5, base: 21.5, up: 14, down: 7, least: 1.5};
const PARTS = ['gap', 'grid', 'base', 'lim', 'closed', 'open', 'half', 'trip', 'busy', 'queued', ...BARS.map(bar => bar.look), 'again', 'cross'];
// `last` is the number of the last drawn column, which are one or five seconds wide; `edge` is the second where the picture ends
const picture = {width: 600, step: 9, last: 0, edge: 0};
const unit = () => view.span;
const firstOf = i => (picture.last - COLUMNS_SHOWN + 1 + i) * unit();
const xOf = column => LEFT + (column - firstOf(0)) / unit() * picture.step;

// The picture ends behind the last column that was told, or further right where nothing is told any more.
function moveEdge() {
  const base = Math.round(service.told.started / service.columnMs), gone = service.told.now + performance.now() - service.told.at;
  const edge = isStale() ? Math.max(service.edge, base + Math.floor(gone / service.columnMs)) : service.edge;
  picture.edge = frozen ?? edge;
  picture.last = Math.floor((picture.edge - 1) / unit());
}
function measure() {
  const columns = getComputedStyle($('axis')).gridTemplateColumns.split(' ').map(parseFloat);
  picture.width = Math.max(240, Math.floor(columns.at(-1)));
  picture.step = (picture.width - LEFT) / COLUMNS_SHOWN;
}
// The least round number that is no less.
function nice(n) {
  for (let d = n < 1 ? 0.1 : 1; ; d *= 10) {
    const found = (d < 10 ? [1, 2, 3, 4, 5, 6, 8] : [1, 1.2, 1.5, 2, 2.5, 3, 4, 5, 6, 8]).find(m => m * d >= n);
    if (found) return rounded(found * d);
  }
}
function ticks() {
  const every = (unit() === 1 ? 10 : 60) * (picture.step < 7 ? 2 : 1), found = [];
  for (let t = Math.ceil(firstOf(0) / every) * every; t <= firstOf(COLUMNS_SHOWN); t += every) found.push(t);
  return found;
}

function newChart(parent) {
  const svg = draw('svg', 'lane', parent), chart = {svg, paths: {}, isSeen: false};
  set(svg, {role: 'img'});
  for (const part of PARTS) chart.paths[part] = draw('path', part, svg);
  chart.texts = draw('g', '', svg);
  svg.chart = chart;
  watcher.observe(svg);
  return chart;
}
// what is not seen is not drawn
const watcher = new IntersectionObserver(seen => {
  for (const {target, isIntersecting} of seen) target.chart.isSeen = isIntersecting;
  later();
}, {rootMargin: '300px 0px'});

// Stretches of columns with one answer to a question, which is null where nothing is to be drawn.
function stretches(ask) {
  const found = [];
  for (let column = firstOf(0); column < picture.edge; column++) {
    const what = ask(column), last = found.at(-1);
    if (what === null) continue;
    if (last && last.what === what && last.to === column) last.to++;
    else found.push({what, from: column, to: column + 1});
  }
  return found;
}
const gapsOf = past => stretches(column => past.has(column) || column < past.first ? null : 1);
// Of each drawn column the mean over its seconds that are known.
function means(past, read) {
  return Array.from({length: COLUMNS_SHOWN}, (_, i) => {
    let have = 0, sum = 0;
    for (let column = firstOf(i), end = Math.min(column + unit(), picture.edge); column < end; column++) {
      if (!past.has(column)) continue;
      have++;
      sum += read(column);
    }
    return have ? sum / have : 0;
  });
}
const highest = values => Math.max(...Array.from({length: COLUMNS_SHOWN}, (_, i) => values.reduce((sum, v) => sum + v[i], 0)));

function stack(paths, looks, values, base, scale, least) {
  const tops = new Float64Array(COLUMNS_SHOWN).fill(base), wide = rounded(Math.max(1, picture.step - 1));
  looks.forEach((look, k) => {
    let d = '';
    values[k].forEach((n, i) => {
      if (n <= 0) return;
      const high = Math.sign(scale) * Math.max(least, n * Math.abs(scale));
      d += `M${rounded(LEFT + (i + 0.5) * picture.step)} ${rounded(tops[i])}v${rounded(high)}`;
      tops[i] += high;
    });
    set(paths[look], {d, 'stroke-width': wide});
  });
}
// What lanes and strips have in common: their size, gaps, grid, restarts and texts.
function finish(chart, past, high, words) {
  const {svg, paths} = chart, upright = x => `M${rounded(xOf(x))} 0V${high}`;
  set(svg, {width: picture.width, height: high});
  set(paths.gap, {d: gapsOf(past).map(s => `${upright(s.from)}H${rounded(xOf(s.to))}V0z`).join('')});
  set(paths.grid, {d: ticks().map(upright).join('')});
  set(paths.again, {d: restartsShown().map(upright).join('')});
  cross(chart);
  const key = JSON.stringify(words);
  if (chart.key === key) return;
  chart.key = key;
  chart.texts.replaceChildren(...words.map(textAt));
}
const restartsShown = () => service.restarts.filter(column => column > firstOf(0) && column < picture.edge);
function textAt([x, y, text, cls]) {
  const node = draw('text', cls);
  set(node, {x: rounded(x), y: rounded(y)});
  node.textContent = text;
  return node;
}
// The column under the hand is marked in all lanes.
function cross(chart) {
  const i = hand.column === null ? -1 : Math.floor(hand.column / unit()) - picture.last + COLUMNS_SHOWN - 1;
  set(chart.paths.cross, {d: i < 0 || i >= COLUMNS_SHOWN ? '' : `M${rounded(LEFT + (i + 0.5) * picture.step)} 0V400`});
}

function lane(c) {
  const {chart} = c.row, {paths} = chart, form = c.tall ? TALL : SMALL, words = [];
  const [up, down] = [UP, DOWN].map(bars => bars.map(bar => means(c.past, column => c.past.of(column, bar))));
  // the baseline stands still, and the scale goes in steps, so that it seldom changes
  const mostDown = highest(down), top = nice(Math.max(highest(up), mostDown * form.up / form.down, 0.5)), scale = form.up / top;
  stack(paths, UP.map(bar => bar.look), up, form.base, -scale, form.least);
  stack(paths, DOWN.map(bar => bar.look), down, form.base + 1, scale, form.least);
  set(paths.base, {d: `M${LEFT} ${form.base + 0.5}H${picture.width}`});
  band(c, form, words);
  if (c.tall) labelLane(c, form.base, top, words);
  finish(chart, c.past, c.tall ? (mostDown ? 132 : 92) : 30, words);
  describe(c);
}
// The circuit breaker above the bars. One that is held open by the settings is drawn as open.
function band(c, {band: y}, words) {
  const {paths} = c.row.chart, found = stretches(column => c.past.has(column) ? c.past.state(column) : null), isHeld = c.view.held === 'open';
  for (const look of ['closed', 'half', 'open']) {
    const own = c.settings.circuit_on ? found.filter(s => (isHeld ? 'open' : STATE_LOOKS[s.what]) === look) : [];
    set(paths[look], {d: own.map(s => `M${rounded(xOf(s.from))} ${y}H${rounded(xOf(s.to))}`).join(''),
      'stroke-width': look === 'closed' ? (c.tall ? 4 : 2) : c.tall ? 14 : 6});
    if (look !== 'open' || !c.tall) continue;
    for (const s of own) if (xOf(s.to) - xOf(s.from) > 44) words.push([(xOf(s.from) + xOf(s.to)) / 2, y + 4.5, 'open', 'on']);
  }
  const trips = c.tall ? stretches(column => c.past.count(column, OPENED) ? column : null) : [];
  set(paths.trip, {d: trips.map(s => `M${rounded(xOf(s.from) + picture.step / unit() / 2 - 4)} 1h8l-4 7z`).join('')});
}
function labelLane(c, base, top, words) {
  const y = base - TALL.up + 9;
  words.push([LEFT - 6, y, `${top}/s`, 's e']);
  for (const column of restartsShown()) words.push([xOf(column) + 4, y, 'started again', 's']);
  for (const s of gapsOf(c.past)) if (xOf(s.to) - xOf(s.from) > 90) words.push([(xOf(s.from) + xOf(s.to)) / 2, base - 4, 'nothing heard', 's m']);
}
// What a screen reader says of a lane, made anew each five seconds at most.
function describe(c) {
  const {chart} = c.row, now = performance.now();
  if (chart.described && now - chart.described < 5000) return;
  chart.described = now;
  const s = c.past.sums(firstOf(0), picture.edge), trips = s.trips ? `tripped ${many(s.trips, 'time')}, ` : '';
  set(chart.svg, {'aria-label': `${c.full}, the last ${unit() === 1 ? 'minute' : '5 minutes'}: ${countsOf(s) || 'no calls'}; ${trips}circuit ${c.view.chip[0]}`});
}
const countsOf = sums => list(BARS.filter(bar => sums[bar.look]).map(bar => many(sums[bar.look], bar.one, bar.many)));

// How many are busy and wait, of a pool or of the permits of a command.
function strip(chart, all, limits, name) {
  const high = 36, base = 34, scale = 30 / Math.max(1, limits.at(-1));
  const sum = k => means(all[0].past, column => all.reduce((n, c) => n + c.past.count(column, k), 0));
  stack(chart.paths, ['busy', 'queued'], [sum(BUSY), sum(QUEUED)], base, -scale, 0);
  set(chart.paths.base, {d: `M${LEFT} ${base + 0.5}H${picture.width}`});
  set(chart.paths.lim, {d: limits.map(n => `M${LEFT} ${rounded(base - n * scale)}H${picture.width}`).join('')});
  const words = limits.map(n => [LEFT - 6, base - n * scale + 8, String(n), 's e']), areClose = limits.length > 1 && (limits[1] - limits[0]) * scale < 11;
  finish(chart, all[0].past, high, areClose ? words.slice(1) : words);
  set(chart.svg, {'aria-label': name});
}
function axis() {
  const box = $('axis');
  if (!box.chart) set(box.chart = draw('svg', '', box), {height: 20});
  set(box.chart, {width: picture.width});
  put(box.firstChild, commands.some(c => !c.tall) ? 'calls a second, error rate, busy of limit' : '');
  const words = ticks().filter(t => xOf(t) > LEFT + 20 && xOf(t) < picture.width - 26).map(t => [xOf(t), 14, clockOf(t), 's m']);
  const key = JSON.stringify(words);
  if (box.key === key) return;
  box.key = key;
  box.chart.replaceChildren(...words.map(textAt));
}
