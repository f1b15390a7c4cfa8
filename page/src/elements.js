// Elements, which are made once and changed only where something differs: so a screen reader and the layout are left alone.

const $ = id => document.getElementById(id);
function make(tag, cls, parent, text) {
  const node = document.createElement(tag);
  if (cls) node.className = cls;
  if (text !== undefined) node.textContent = text;
  parent?.append(node);
  return node;
}
function draw(tag, cls, parent) {
  const node = document.createElementNS('http://www.w3.org/2000/svg', tag);
  if (cls) node.setAttribute('class', cls);
  parent?.append(node);
  return node;
}
function put(node, text) {
  if (node.kept !== text) node.textContent = node.kept = text;
}
function set(node, values) {
  const kept = node.sets ??= {};
  for (const name in values) {
    if (kept[name] === values[name]) continue;
    kept[name] = values[name];
    node.setAttribute(name, values[name]);
  }
}
function swatch(parent, cls, wide = 10) {
  const svg = draw('svg', '', parent), path = draw('path', cls, svg), isFilled = cls === 'gap' || cls === 'trip';
  set(svg, {width: wide, height: 10, 'aria-hidden': true});
  set(path, {d: cls === 'trip' ? 'M1 1h8l-4 8z' : cls === 'gap' ? `M0 0h${wide}v10H0z` : `M0 5h${wide}`,
    'stroke-width': isFilled ? 0 : cls === 'closed' ? 4 : cls === 'lim' ? 1 : 10});
  return path;
}
// Puts an element before another one, and leaves the focus where it is.
function moveTo(parent, node, before) {
  const focused = node.contains(document.activeElement) ? document.activeElement : null;
  parent.insertBefore(node, before);
  if (focused && document.activeElement !== focused) focused.focus({preventScroll: true});
}

function fillLegend() {
  const legend = [['Callers got', UP.map(bar => [bar.look, bar.one])], ['because of', DOWN.map(bar => [bar.look, bar.one])],
    ['Circuit', [['open', 'open'], ['half', 'half-open'], ['closed', 'closed'], ['trip', 'trip']]],
    ['Pool', [['busy', 'busy'], ['queued', 'waiting'], ['lim', 'limit']]], ['', [['gap', 'nothing heard']]]];
  const ul = $('legend').querySelector('ul');
  for (const [label, items] of legend) {
    if (label) make('li', 'of', ul, label);
    for (const [cls, words] of items) {
      const li = make('li', '', ul);
      swatch(li, cls, cls === 'trip' ? 10 : 22);
      li.append(words);
    }
  }
}
const icons = {
  unknown: '<path d="M2 8h12" stroke="#848d97" stroke-width="4"/>',
  trouble: '<path d="M8 1 15 15H1z" fill="#6f42c1" stroke="#fff"/>',
  well: '<path d="M2 8h12" stroke="#2c8a4b" stroke-width="5"/>',
};
function showIcon(what) {
  if (icons.now === what) return;
  icons.now = what;
  const svg = `<svg xmlns="http://www.w3.org/2000/svg" viewBox="0 0 16 16">${icons[what]}</svg>`;
  document.querySelector('link[rel=icon]').href = `data:image/svg+xml,${encodeURIComponent(svg)}`;
}
