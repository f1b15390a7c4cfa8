// The head of the page: what is in trouble, in sentences, and whether anything is known at all.

const SAID_AT_ONCE = 4, SAY_EVERY = 4000;
const spoken = {at: 0, waiting: [], was: new Map()};

function head() {
  const isUnknown = isStale(), by = {};
  for (const {id, has} of LEVELS) by[id] = commands.filter(c => c.view && has(c.view.level));
  by.trouble.sort(worst);
  put($('headline'), headline(by, isUnknown));
  showTitle(by, isUnknown);
  document.body.classList.toggle('stale', Boolean(service.told) && isUnknown);
  const notice = noticeOf(isUnknown);
  $('notice').hidden = !notice;
  $('retry').hidden = !isUnknown;
  put($('noticed'), notice);
  put($('clock'), service.told ? clockWords() : '');
  if (document.hidden || !service.told) return;
  sentences(by.trouble);
  put($('fine'), fineWords(by));
  for (const {id, words, button} of levelButtons) {
    put(button, `${words} ${by[id].length}`);
    set(button, {'aria-pressed': view.show.has(id)});
  }
  if (!isUnknown) speakOfChanges();
}
function headline({trouble, risk, idle}, isUnknown) {
  const named = all => `${all.length <= 3 ? list(all.map(c => c.full)) : `${all.length} of ${commands.length} commands`}`;
  if (!service.told) return 'Waiting for the service';
  if (isUnknown) return `Not known: nothing heard for ${span(performance.now() - Math.min(asking.answered, asking.since))}`;
  if (trouble.length) return `${named(trouble)} ${trouble.length === 1 ? 'is' : 'are'} in trouble`;
  if (risk.length) return `None in trouble, ${named(risk)} at risk`;
  if (!commands.length) return 'The service has no commands';
  if (commands.length === 1) return idle.length ? 'No calls' : `${commands[0].full} is well`;
  if (idle.length === commands.length) return 'No calls';
  return idle.length ? `All ${commands.length - idle.length} commands with calls are well, ${idle.length} idle` : `All ${commands.length} commands are well`;
}
function showTitle({trouble, risk}, isUnknown) {
  const isDark = !service.told || isUnknown;
  const mark = isDark ? '?' : trouble.length ? `▲${trouble.length} ${trouble[0].full}` : risk.length ? `△${risk.length}` : '✓';
  const title = `${mark} · bulkhead${service.told?.service ? ` ${service.told.service}` : ''}`;
  if (document.title !== title) document.title = title;
  showIcon(isDark ? 'unknown' : trouble.length ? 'trouble' : 'well');
}
function noticeOf(isUnknown) {
  if (!service.told) return asking.tries ? `No answer yet: ${asking.fault}. Tried ${many(asking.tries, 'time')}.` : '';
  const at = clockOf(service.edge);
  if (isUnknown) return asking.fault ? `The service does not answer: ${asking.fault}. What stands below is of ${at}.` : `The service answers, and its numbers stand still since ${at}.`;
  return frozen === null ? '' : `Paused at ${clockOf(frozen)}. What came since is kept, as far as 5 minutes.`;
}
function clockWords() {
  const {service: name, now} = service.told;
  return `${name ? `${name}: ` : ''}${many(commands.length, 'command')} in ${many(ordered.length, 'group')}, started ${span(now)} ago`;
}

// What is in trouble, what callers get, and since when.
function sentences(trouble) {
  const ul = $('says'), said = trouble.slice(0, SAID_AT_ONCE);
  while (ul.children.length > said.length) ul.lastChild.remove();
  said.forEach((c, i) => {
    const li = ul.children[i] || make('li', '', ul);
    if (!li.firstChild) {
      make('a', '', li);
      li.append('');
    }
    const link = `#${rowOf(c).box.id}`, {says, begun} = c.view;
    put(li.firstChild, c.full);
    if (li.firstChild.getAttribute('href') !== link) {
      li.firstChild.href = link;
      li.firstChild.onclick = event => { event.preventDefault(); go(c); };
    }
    put(li.lastChild, ` ${says.join('; ')}.${begun ? ` Began ${begun.at}${begun.why && ` with ${begun.why}`}.` : ''}`);
  });
}
function fineWords({trouble, risk, well, idle}) {
  const few = all => all.length <= 8 ? list(all.map(c => c.full)) : `${all.slice(0, 6).map(c => c.full).join(', ')} and ${all.length - 6} more`;
  const parts = [['In trouble too', trouble.slice(SAID_AT_ONCE)], ['At risk', risk], ['Well', well], ['Idle', idle]].filter(([, all]) => all.length);
  return parts.map(([words, all]) => `${words}: ${few(all)}.`).join(' ');
}

// What a screen reader is told: not each second, and what changed alone.
function speakOfChanges() {
  for (const c of commands) {
    const isBad = c.view.level >= TROUBLE, was = spoken.was.get(c);
    spoken.was.set(c, isBad);
    if (was !== undefined && was !== isBad) spoken.waiting.push(isBad ? `${c.full} is in trouble: ${c.view.says[0]}` : `${c.full} is no more in trouble`);
  }
  if (!spoken.waiting.length || performance.now() - spoken.at <= SAY_EVERY) return;
  say(spoken.waiting.slice(0, 5).join('. '));
  spoken.waiting = [];
}
function say(words) {
  spoken.at = performance.now();
  $('live').textContent = words;
}
