// What is shown, which stands in the address so that it can be sent to somebody; and when it is drawn.

const view = {q: '', show: new Set(), span: 1, rows: 'auto'};
const drawn = {at: -1e9, isPending: false};
// the edge at which the page was paused
let frozen = null;

function render() {
  drawn.at = performance.now();
  if (service.told) {
    moveEdge();
    const now = serviceNow();
    for (const c of commands) judge(c, now);
  }
  head();
  if (document.hidden || !service.told) return;
  if (frozen === null) body();
  else for (const c of commands) if (c.row?.chart.isSeen) cross(c.row.chart);
}
function later() {
  if (drawn.isPending) return;
  drawn.isPending = true;
  requestAnimationFrame(() => {
    drawn.isPending = false;
    render();
  });
}

function keep() {
  const words = new URLSearchParams();
  if (view.q) words.set('q', view.q);
  if (view.show.size) words.set('show', [...view.show].join(' '));
  if (view.span !== 1) words.set('span', view.span);
  if (view.rows !== 'auto') words.set('rows', view.rows);
  history.replaceState(null, '', words.size ? `#${words}` : location.pathname + location.search);
}
function readAddress() {
  const words = new URLSearchParams(location.hash.slice(1)), rows = words.get('rows');
  $('filter').value = view.q = (words.get('q') || '').toLowerCase();
  for (const id of (words.get('show') || '').split(' ')) if (LEVELS.some(level => level.id === id)) view.show.add(id);
  if (words.get('span') === '5') view.span = Number($('span').value = '5');
  if (['tall', 'small'].includes(rows)) view.rows = $('rows').value = rows;
}

const levelButtons = LEVELS.map(({id, words}) => {
  const button = make('button', '', $('levels'));
  button.type = 'button';
  button.addEventListener('click', () => changed(() => view.show.delete(id) || view.show.add(id)));
  return {id, words, button};
});
function changed(change) {
  change();
  keep();
  render();
}
$('filter').addEventListener('input', () => changed(() => { view.q = $('filter').value.trim().toLowerCase(); }));
$('span').addEventListener('change', () => changed(() => { view.span = Number($('span').value); }));
$('rows').addEventListener('change', () => changed(() => {
  view.rows = $('rows').value;
  for (const c of commands) delete c.wish;
}));
$('pause').addEventListener('click', () => {
  frozen = frozen === null && service.told ? service.edge : null;
  set($('pause'), {'aria-pressed': frozen !== null});
  render();
});
$('retry').addEventListener('click', poll);

fillLegend();
readAddress();
new ResizeObserver(() => { measure(); later(); }).observe($('list'));
setInterval(() => { if (performance.now() - drawn.at > 900) render(); }, 500);
document.addEventListener('visibilitychange', () => { if (!document.hidden) poll(); });
for (const what of ['online', 'pageshow']) addEventListener(what, poll);
document.addEventListener('resume', poll);
poll();
