// Pointer and keys: the column under the hand, and rows that are made tall or short.

// the column under the hand, the command whose lane it is over, and when it moved last
const hand = {column: null, over: null, moved: -1e9};

function keyInRow(event, c) {
  hand.moved = performance.now();
  if (event.key === 'Escape') return tip(null);
  if (event.key === 'ArrowLeft' || event.key === 'ArrowRight') return stepColumn(event, c);
  const names = [...document.querySelectorAll('.name')].filter(name => name.offsetParent), i = names.indexOf(event.target);
  const to = names[{ArrowDown: i + 1, ArrowUp: i - 1, Home: 0, End: names.length - 1}[event.key]];
  if (!to) return;
  event.preventDefault();
  to.focus();
}
function stepColumn(event, c) {
  event.preventDefault();
  const way = event.key === 'ArrowLeft' ? -1 : 1, last = picture.edge - 1;
  hand.column = hand.column === null ? last : Math.min(last, Math.max(firstOf(0), hand.column + way * unit()));
  const box = c.row.chart.svg.getBoundingClientRect();
  tip(c, box.left + Math.min(xOf(hand.column) + 14, picture.width - 240), box.top + 20, true);
}

// Tells the column under the hand at a place of the window, and perhaps to a screen reader.
function tip(c, x, y, isAloud) {
  const box = $('tip');
  box.hidden = !c;
  hand.over = c;
  later();
  if (!c) {
    hand.column = null;
    return;
  }
  const first = Math.floor(hand.column / unit()) * unit(), words = columnWords(c.past, first);
  box.replaceChildren();
  make('b', '', box, `${clockOf(first)} ${c.full}`);
  box.append(words);
  box.style.left = `${Math.max(4, Math.min(x, innerWidth - 310))}px`;
  box.style.top = `${Math.min(y, innerHeight - box.offsetHeight - 4)}px`;
  if (isAloud) say(`${clockOf(first)}: ${words}`);
}
function columnWords(past, first) {
  const s = past.sums(first, first + unit()), queued = past.count(first, QUEUED);
  if (!s.have) return first < past.first ? 'not kept' : 'nothing heard';
  const joined = s.joined ? `, ${s.joined} joined` : '', waiting = queued ? `, ${queued} waiting` : '';
  return `${countsOf(s) || 'no calls'}${joined}; ${s.trips ? 'tripped, ' : ''}${STATES[past.state(first)]}; ${past.count(first, BUSY)} busy${waiting}`;
}

addEventListener('pointermove', event => {
  const svg = event.target.closest?.('svg.lane');
  if (event.target.closest?.('#list')) hand.moved = performance.now();
  if (!svg) {
    if (hand.over && !hand.over.row?.name.matches(':focus')) tip(null);
    return;
  }
  const x = event.clientX - svg.getBoundingClientRect().left - LEFT;
  if (x < 0) return tip(null);
  hand.column = firstOf(Math.min(COLUMNS_SHOWN - 1, Math.floor(x / picture.step)));
  tip(svg.chart.of || svg.chart.all[0], event.clientX > innerWidth - 330 ? event.clientX - 310 : event.clientX + 14, event.clientY + 14);
}, {passive: true});
