// Keys, pointer, buttons, search; and the loop that draws what has changed.

// ---- steps

// The next event of the task, the steal, the finish or the marked label before or after the cursor.
function stepBy(what, direction) {
  let target;
  if (what === 'task') {
    const task = view.task >= 0 ? view.task : run.task[view.at];
    const low = run.eventsOf.start[task];
    const high = run.eventsOf.start[task + 1];
    const at = lastUpTo(run.eventsOf.items, direction > 0 ? view.at : view.at - 1, low, high);
    const next = direction > 0 ? at + 1 : at;
    target = next >= low && next < high ? run.eventsOf.items[next] : undefined;
  } else if (what === 'label') {
    if (view.label === 0) return;
    const {start, items} = run.stepsAt;
    const low = start[view.label];
    const high = start[view.label + 1];
    const at = lastUpTo(items, direction > 0 ? view.at : view.at - 1, low, high);
    const next = direction > 0 ? at + 1 : at;
    target = high > low ? items[next < low ? high - 1 : next >= high ? low : next] : undefined;
  } else {
    const list = what === 'steal' ? run.steals : run.finishEvents;
    const at = lastUpTo(list, direction > 0 ? view.at : view.at - 1);
    target = list[direction > 0 ? at + 1 : at];
  }
  if (target !== undefined) go(target);
}

const KEYS = {
  ArrowLeft: shift => go(view.at - (shift ? 10 : 1)),
  ArrowRight: shift => go(view.at + (shift ? 10 : 1)),
  ArrowUp: () => stepBy('task', -1),
  ArrowDown: () => stepBy('task', 1),
  PageUp: () => stepBy('steal', -1),
  PageDown: () => stepBy('steal', 1),
  Home: () => go(0),
  End: () => go(run.events - 1),
  '[': () => stepBy('finish', -1),
  ']': () => stepBy('finish', 1),
  n: () => stepBy('label', 1),
  N: () => stepBy('label', -1),
  m: () => { const label = labelOf(view.at); markLabel(label === view.label ? 0 : label); },
  Enter: () => selectTask(view.task === run.task[view.at] ? NONE : run.task[view.at]),
  '+': () => zoom(0.6),
  '=': () => zoom(0.6),
  '-': () => zoom(1 / 0.6),
  0: () => show(0, SPAN),
  a: () => show(view.from - (view.to - view.from) / 4, view.to - (view.to - view.from) / 4),
  d: () => show(view.from + (view.to - view.from) / 4, view.to + (view.to - view.from) / 4),
  ' ': () => play(!view.playing),
  r: () => setRows({tree: 'packed', packed: 'finishes', finishes: 'tree'}[view.rows]),
  s: () => setChain(!view.chain),
  l: () => setTab('program', byId('tab-labels').getAttribute('aria-selected') === 'true' ? 'text' : 'labels'),
  t: () => { readColors(!view.dark); setChain(view.chain); },
  x: openSchedules,
  '/': () => byId('find').focus(),
  '?': () => byId('help').showModal(),
  Escape: () => { view.task = NONE; markLabel(0); changed(ROWS | LOOK); },
};

function setChain(on) {
  view.chain = on;
  byId('chain').setAttribute('aria-pressed', String(on));
  byId('theme').textContent = view.dark ? 'Light' : 'Dark';
  changed(WINDOW | ROWS);
  keepLink();
}

addEventListener('keydown', event => {
  if (event.ctrlKey || event.metaKey || event.altKey || byId('help').open || byId('schedules').open) return;
  const tag = event.target.tagName;
  const isTab = event.target.getAttribute('role') === 'tab' && event.key.startsWith('Arrow');
  if (event.target.id === 'find' || tag === 'SELECT' || isTab) return;
  if (tag === 'BUTTON' && (event.key === ' ' || event.key === 'Enter')) return;
  const act = Object.prototype.hasOwnProperty.call(KEYS, event.key) ? KEYS[event.key] : null;
  if (!act) return;
  act(event.shiftKey);
  event.preventDefault();
});

// ---- buttons, links, tabs

for (const button of document.querySelectorAll('[data-key]')) {
  button.addEventListener('click', () => KEYS[button.dataset.key](false));
}
for (const name of ['tree', 'packed', 'finishes']) byId('rows-' + name).addEventListener('click', () => setRows(name));

function setTab(group, name) {
  for (const tab of document.querySelectorAll(`[data-tabs="${group}"] [role=tab]`)) {
    const chosen = tab.id === 'tab-' + name;
    tab.setAttribute('aria-selected', String(chosen));
    tab.tabIndex = chosen ? 0 : -1;
    byId(tab.getAttribute('aria-controls')).hidden = !chosen;
    const note = byId(tab.getAttribute('aria-controls') + '-note');
    if (note) note.hidden = !chosen;
  }
  changed(CURSOR | LOOK);
}
for (const tab of document.querySelectorAll('[role=tab]')) {
  const list = tab.closest('[data-tabs]');
  tab.addEventListener('click', event => {
    setTab(list.dataset.tabs, tab.id.slice(4));
    if (event.detail > 0) byId('lanes').focus({preventScroll: true});     // clicked: the arrow keys go on moving the cursor
  });
  tab.addEventListener('keydown', event => {
    if (event.key !== 'ArrowLeft' && event.key !== 'ArrowRight') return;
    const tabs = Array.from(list.querySelectorAll('[role=tab]'));
    const next = tabs[(tabs.indexOf(tab) + (event.key === 'ArrowRight' ? 1 : tabs.length - 1)) % tabs.length];
    setTab(list.dataset.tabs, next.id.slice(4));
    next.focus();
    event.preventDefault();
  });
}

document.addEventListener('click', event => {
  const target = event.target.closest('[data-event], [data-task], [data-label], [data-sort]');
  if (!target) return;
  const {event: at, task, label, sort} = target.dataset;
  if (at !== undefined) go(Number(at));
  else if (task !== undefined) selectTask(Number(task) === view.task ? NONE : Number(task));
  else if (sort !== undefined) { sortBy = sort; changed(LOOK); }
  else clickLabel(Number(label));
});

// Marks all executions of a statement. A second click goes to the next one.
function clickLabel(label) {
  if (label === view.label) stepBy('label', 1); else markLabel(label);
}

byId('log').addEventListener('wheel', event => {
  event.preventDefault();
  go(view.at + Math.sign(event.deltaY) * 3);
}, {passive: false});

// ---- search: a path, a label, an event with `@`, or a part of a statement

function search(text) {
  const wanted = text.trim();
  if (wanted === '') { tellFound(''); return; }
  const event = /^@ ?([0-9]{1,9})$/.exec(wanted);
  const task = taskAt(run, wanted);
  const label = /^(?:label )?([0-9]{1,6})$/.exec(wanted);
  if (event) {
    go(Number(event[1]));
    tellFound('event ' + num(view.at));
  } else if (task >= 0 && (wanted.includes('.') || wanted === '0')) {
    view.task = task;
    const own = itemsOf(run.eventsOf, task);
    go(own.length > 0 ? own[0] : run.spawned[task]);
    selectTask(task);
    tellFound(`task ${wanted}, ${count(own.length, 'event')}`);
  } else if (label && Number(label[1]) >= 1 && Number(label[1]) <= program.labels) {
    findLabel(Number(label[1]));
  } else {
    const found = program.heads.findIndex((head, i) => i > 0 && statement(program, i).includes(wanted));
    if (found > 0) findLabel(found); else tellFound('not found');
  }
}

function findLabel(label) {
  markLabel(label);
  tellFound(`label ${label}: ${count(stepsByLabel[label], 'step')}`);
  if (stepsByLabel[label] > 0 && run.label[view.at] !== label) stepBy('label', 1);
}

const tellFound = text => { byId('found').textContent = text; };
byId('find').addEventListener('keydown', event => {
  if (event.key === 'Enter') search(byId('find').value);
  if (event.key === 'Escape') { byId('find').value = ''; tellFound(''); byId('lanes').focus(); }
});
byId('slide').addEventListener('input', () => go(Number(byId('slide').value)));
byId('copy').addEventListener('click', () => {
  putLink();
  const tell = text => {
    byId('copy').textContent = text;
    setTimeout(() => { byId('copy').textContent = 'Copy link'; }, 1500);
  };
  if (navigator.clipboard) navigator.clipboard.writeText(location.href).then(() => tell('Copied'), () => tell('See address'));
  else tell('See address');
});

// ---- the pointer

function tip(event, ...lines) {
  const element = byId('tip');
  if (lines.length === 0) { element.hidden = true; return; }
  fill(element, ...lines.map(line => make('div', {class: line.startsWith('  ') ? 'mono' : null}, line.trim())));
  element.hidden = false;
  const box = element.getBoundingClientRect();
  element.style.left = clamp(event.clientX + 14, 4, Math.max(4, innerWidth - box.width - 8)) + 'px';
  const below = event.clientY + 18 + box.height <= innerHeight;
  element.style.top = (below ? event.clientY + 18 : Math.max(4, event.clientY - box.height - 12)) + 'px';
}

// An event in a few lines: what it is, its statement, what it changed, what led to it.
function aboutEvent(event) {
  const lines = [`${num(event)}: ${sentence(run, event)}`];
  const label = run.label[event];
  if (label > 0) lines.push(`  ${label}  ${statement(program, label)}`);
  const effect = effectOf(run, program, event);
  if (effect.length > 0) lines.push('  ' + effect.join('; '));
  const cause = causeOf(run, event);
  if (cause >= 0) lines.push(`after ${num(cause)}: ${sentence(run, cause)}`);
  if (run.chain[event]) lines.push('on the longest chain');
  return lines;
}

// Drags move the part in view, clicks move the cursor, the wheel zooms around the pointer.
function watch(element, about) {
  let drag = null;
  element.addEventListener('pointerdown', event => {
    drag = {x: event.clientX, from: view.from, to: view.to, moved: 0};
    element.setPointerCapture(event.pointerId);
  });
  element.addEventListener('pointermove', event => {
    const box = element.getBoundingClientRect();
    if (drag) {
      const by = event.clientX - drag.x;
      drag.moved = Math.max(drag.moved, Math.abs(by));
      if (drag.moved > 3) {
        const events = by / perEvent();
        show(drag.from - events, drag.to - events);
      }
      return;
    }
    const at = Math.floor(eventAt(event.clientX - box.left));
    const inside = event.clientX - box.left >= GUTTER && at >= 0 && at < run.events;
    view.pointed = inside ? at : NONE;
    tip(event, ...(inside ? about(at, event.clientY - box.top) : []));
    changed(POINTER);
  });
  element.addEventListener('pointerup', event => {
    const x = event.clientX - element.getBoundingClientRect().left;
    const y = event.clientY - element.getBoundingClientRect().top;
    if (drag && drag.moved <= 3 && x >= GUTTER) go(nearest(eventAt(x), y, element), false);
    drag = null;
  });
  element.addEventListener('pointerleave', event => {
    view.pointed = NONE;
    tip(event);
    changed(POINTER);
  });
  element.addEventListener('wheel', event => {
    const sideways = Math.abs(event.deltaX) > Math.abs(event.deltaY);
    if (element.id === 'rows' && !event.ctrlKey && !event.shiftKey && !sideways) return;
    event.preventDefault();
    const around = eventAt(Math.max(GUTTER, event.clientX - element.getBoundingClientRect().left));
    const by = event.deltaX / perEvent();
    if (sideways) show(view.from + by, view.to + by);
    else zoom(Math.exp(event.deltaY * 0.0015), around);
  }, {passive: false});
}

// The event that a click means: in a lane, if an event is narrower than 3 pixels, the worker's own event next to it.
function nearest(at, y, element) {
  const event = clamp(Math.floor(at), 0, run.events - 1);
  if (element.id !== 'lanes' || perEvent() > 3) return event;
  const worker = Math.floor(y / laneHeight);
  const reach = Math.ceil(3 / perEvent());
  for (let by = 0; by <= Math.min(reach, 20000); by++) {
    if (run.worker[event - by] === worker) return event - by;
    if (run.worker[event + by] === worker) return event + by;
  }
  return event;
}

function aboutLane(event, y) {
  const worker = Math.floor(y / laneHeight);
  if (worker < 0 || worker >= run.lanes) return aboutEvent(event);
  const own = nearest(event, y, byId('lanes'));
  if (run.worker[own] === worker) return aboutEvent(own);
  const spell = spellAt(run, worker, event);
  if (spell < 0) return [`worker ${worker} at ${num(event)}: idle`];
  const last = lastEventOf(run, run.spellTask[spell], event);
  const has = `worker ${worker} at ${num(event)}: has task ${pathOf(run, run.spellTask[spell])}; its event before:`;
  return [has].concat(aboutEvent(last));
}

function aboutRow(event, y) {
  const row = Math.floor((y + sizes.rowsTop) / ROW);
  if (row < 0 || row >= rowsNow()) return [];
  if (view.rows === 'finishes') {
    const scope = scopeInRow(row, event);
    if (scope < 0) return [];
    const {issued, returned} = bookAfter(run, scope, event);
    const rescue = run.rescued[scope] > 0
      ? [`its rescue drops ${count(run.rescued[scope], 'fault')} at ${num(run.resumed[scope])}`] : [];
    const hold = `${count(holdersOf(run, scope, event).length, 'task')} hold the rest`;
    return [`${finishName(run, scope)} at ${num(event)}`, `issued ${num(issued)}, returned ${num(returned)}, ${hold}`,
      `opened at ${num(run.scopeAt[scope])}`, ...rescue];
  }
  const task = view.rows === 'tree' ? run.order[row] : packedTask(row, event);
  if (task < 0) return [];
  const {state, worker} = whereIs(run, task, event);
  const lines = [`task ${pathOf(run, task)} at ${num(event)}: ${STATES[state]}${worker >= 0 ? ', worker ' + worker : ''}`];
  const last = lastEventOf(run, task, event);
  return last < 0 ? lines : lines.concat(aboutEvent(last));
}

watch(byId('lanes'), aboutLane);
watch(byId('rows'), aboutRow);
byId('rows').addEventListener('click', event => {
  const box = byId('rows').getBoundingClientRect();
  const row = Math.floor((event.clientY - box.top + sizes.rowsTop) / ROW);
  if (event.clientX - box.left >= GUTTER || row < 0 || row >= rowsNow() || view.rows === 'finishes') return;
  const task = view.rows === 'tree' ? run.order[row] : packedTask(row, view.at);
  if (task >= 0) selectTask(task === view.task ? NONE : task);
});
byId('rows').addEventListener('scroll', () => { readScrolls(); changed(ROWS); });
byId('text').addEventListener('scroll', () => {
  readScrolls();
  if (textLines.length > MOST_LINES_AT_ONCE) changed(CURSOR);
});

// In the overview, a press or a drag moves the part in view.
{
  const element = byId('over');
  let held = false;
  const move = event => {
    const box = element.getBoundingClientRect();
    const at = (event.clientX - box.left - GUTTER) / (sizes.lanes - GUTTER - EDGE) * SPAN;
    const width = view.to - view.from;
    show(at - width / 2, at + width / 2);
  };
  element.addEventListener('pointerdown', event => {
    held = true;
    element.setPointerCapture(event.pointerId);
    move(event);
  });
  element.addEventListener('pointermove', event => { if (held) move(event); });
  element.addEventListener('pointerup', () => { held = false; });
}

// ---- playing and drawing

let due = 0;
let before = 0;

function play(on) {
  view.playing = on;
  before = performance.now();
  due = 0;
  byId('play').setAttribute('aria-label', on ? 'Pause' : 'Play');
  byId('play').setAttribute('aria-pressed', String(on));
  byId('say').setAttribute('aria-live', on ? 'off' : 'polite');
  if (on && view.at >= run.events - 1) go(0);
}

function advance(now) {
  const rate = Number(byId('speed').value) || run.events / 20;
  due += (now - before) / 1000 * rate;
  before = now;
  if (due >= 1) {
    go(view.at + Math.floor(due));
    due %= 1;
  }
  if (view.at >= run.events - 1) play(false);
}

function draw() {
  drawOverview();
  drawLanes();
  drawRows();
  if (view.changed & (CURSOR | LOOK)) drawPanels();
  const [first, last] = [Math.floor(view.from), Math.min(run.events, Math.ceil(view.to)) - 1];
  byId('range').textContent = run.events === 0 ? 'no events' : `events ${num(first)} to ${num(last)} of ${num(run.events)}`;
  view.changed = 0;
}

function frame() {
  if (view.playing) advance(performance.now());
  if (view.changed) draw();
  requestAnimationFrame(frame);
}

// ---- the start

writeFacts();
keepLines();
byId('slide').max = String(Math.max(0, run.events - 1));
readColors(matchMedia('(prefers-color-scheme: dark)').matches);
measure();
if (run.tasks > 2000) view.rows = 'packed';
follow(location.hash);
if (run.data.isExplored) openSchedules();
setRows(view.rows);
setChain(view.chain);
setTab('program', 'text');
setTab('first', 'log');
setTab('second', 'scopes');
setTab('third', 'workers');
addEventListener('hashchange', () => { follow(location.hash); setRows(view.rows); setChain(view.chain); });
{
  const observer = new ResizeObserver(measure);
  for (const element of [document.body, byId('lanes'), byId('rows'), byId('log'), byId('text')]) observer.observe(element);
}
// A printed page is light, whatever the screen is.
{
  let wasDark = false;
  addEventListener('beforeprint', () => { wasDark = view.dark; readColors(false); draw(); });
  addEventListener('afterprint', () => { readColors(wasDark); });
}
requestAnimationFrame(frame);
