// The map: each command at a place that never changes.

const NAMED = 30, TILE = ['gap', 'base', 'closed', 'open', 'half', 'value', 'fallback', 'error', 'bad'];

function map() {
  const box = $('map');
  commands.forEach((c, i) => {
    const tile = c.tile ??= newTile(c, i);
    if (box.children[i] !== tile) box.insertBefore(tile, box.children[i] || null);
    fillTile(c, tile);
  });
}
function newTile(c, i) {
  const tile = make('button'), svg = draw('svg', '', tile);
  tile.type = 'button';
  tile.tabIndex = i ? -1 : 0;
  set(svg, {width: 18, height: 18, 'aria-hidden': true});
  c.glyph = TILE.map(cls => [cls, draw('path', cls, svg)]);
  c.label = make('span', '', tile);
  tile.addEventListener('click', () => go(c));
  return tile;
}
function fillTile(c, tile) {
  const {level, r, chip: [, state]} = c.view, isNamed = commands.length <= NAMED, isOff = !isShown(c);
  const heights = UP.map(bar => r.answers ? Math.round(22 * r[bar.look] / r.answers) : 0), key = [level, state, isNamed, isOff, ...heights].join();
  if (tile.key === key) return;
  tile.key = key;
  put(c.label, isNamed ? c.full : '');
  const words = `${c.full}: ${LEVEL_WORDS[level]}, ${state === 'none' ? 'no circuit breaker' : `circuit ${state}`}`;
  set(tile, {class: `${isNamed ? 'named ' : ''}s${level}${isOff ? ' off' : ''}`, 'aria-label': words, title: words});
  drawGlyph(c.glyph, r, state === 'none' ? '' : lookOf(state));
}
// The circuit above, and below it what callers got, by shares.
function drawGlyph(glyph, r, look) {
  let y = 18;
  for (const [cls, path] of glyph) {
    if (cls === 'base') set(path, {d: 'M.5 7.5h17v10h-17z'});
    else if (UP.some(bar => bar.look === cls)) {
      const top = r.answers && r[cls] ? Math.max(7, y - Math.max(2, 11 * r[cls] / r.answers)) : y;
      set(path, {d: top < y ? `M9 ${rounded(y)}V${rounded(top)}` : '', 'stroke-width': 18});
      y = top;
    } else set(path, {d: cls === look ? 'M0 3h18' : '', 'stroke-width': cls === 'closed' ? 2 : 6});
  }
}

$('map').addEventListener('keydown', event => {
  const tiles = [...$('map').children].filter(tile => !tile.classList.contains('off')), i = tiles.indexOf(document.activeElement);
  const ways = {ArrowRight: () => i + 1, ArrowLeft: () => i - 1, Home: () => 0, End: () => tiles.length - 1,
    ArrowDown: () => beyond(tiles, i, 1), ArrowUp: () => beyond(tiles, i, -1)};
  const to = i < 0 ? undefined : tiles[ways[event.key]?.()];
  if (!to) return;
  event.preventDefault();
  for (const tile of tiles) tile.tabIndex = -1;
  to.tabIndex = 0;
  to.focus();
});
// The tile of the next line, or of the line before, that is nearest.
function beyond(tiles, i, way) {
  const here = tiles[i].getBoundingClientRect();
  let nearest, line, least = Infinity;
  for (let k = i + way; tiles[k]; k += way) {
    const there = tiles[k].getBoundingClientRect(), distance = Math.abs(there.left - here.left);
    if ((there.top - here.top) * way < 4) continue;
    line ??= there.top;
    if (Math.abs(there.top - line) > 4) break;
    if (distance < least) [least, nearest] = [distance, k];
  }
  return nearest;
}
// Shows a command that was asked for.
function go(c) {
  c.wish = true;
  if (!isShown(c)) {
    view.q = $('filter').value = '';
    view.show.clear();
    keep();
  }
  render();
  c.row.box.scrollIntoView({block: 'start'});
  c.row.name.focus({preventScroll: true});
}
