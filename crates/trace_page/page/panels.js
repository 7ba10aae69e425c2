// The panels that say in text what the run is like at the cursor: program, events, finishes, workers, values, output.

const chip = worker => {
  const element = make('span', {class: 'chip-worker', title: 'worker ' + worker}, String(worker));
  element.style.background = colorOf(worker);
  return element;
};
const taskLink = task => make('button', {class: 'link mono', 'data-task': String(task), type: 'button'}, pathOf(run, task));
const eventLink = event => make('button', {class: 'link', 'data-event': String(event), type: 'button'}, num(event));
const small = (...texts) => make('small', null, ...texts);

// ---- the program's text

const LINE = 20;                    // the height of a line of the text, as in page.css
const MOST_LINES_AT_ONCE = 1500;    // of a longer text only the lines around those in view are there

const textLines = program.text.replace(/\n$/, '').split('\n');
const firstLabels = labelsByLine();
const stepsByLabel = Array.from({length: program.labels + 1}, (_, label) => itemsOf(run.stepsAt, label).length);
const mostSteps = largest(stepsByLabel);

const heads = [];           // for each label the elements of its head, on the lines that are there
let marked = [];
let there = {from: 0, to: 0};
let revealed = 0;

// For each line the first label on it or after it.
function labelsByLine() {
  const first = new Int32Array(textLines.length + 1);
  let label = 1;
  for (let i = 0; i <= textLines.length; i++) {
    while (label <= program.labels && program.heads[label].line < i + 1) label++;
    first[i] = label;
  }
  return first;
}

// Writes the lines that can be seen, if they aren't there.
function keepLines() {
  const n = textLines.length;
  const first = n <= MOST_LINES_AT_ONCE ? 0 : Math.min(n, Math.floor(sizes.textTop / LINE));
  const last = n <= MOST_LINES_AT_ONCE ? n : Math.min(n, first + Math.ceil(sizes.text / LINE) + 1);
  if (first >= there.from && last <= there.to && there.to > 0) return;
  there = {from: Math.max(0, first - 100), to: Math.min(n, last + 100)};
  heads.length = 0;
  marked = [];
  const rows = textLines.slice(there.from, there.to).map((text, i) => lineOf(text, there.from + i));
  byId('text').replaceChildren(space(there.from), ...rows, space(n - there.to));
}

function space(lines) {
  const element = make('div');
  element.style.height = lines * LINE + 'px';
  return element;
}

function lineOf(text, i) {
  const start = program.lineStarts[i];
  const code = make('span', {class: 'code'});
  const first = firstLabels[i];
  let steps = 0;
  let at = 0;
  const open = program.heads[first - 1];
  if (first > 1 && open.from < start && open.to > start) at = addHead(code, text, start, 0, first - 1);
  for (let label = first; label < firstLabels[i + 1]; label++) {
    const from = program.heads[label].from - start;
    addTokens(code, text.slice(at, from));
    steps = Math.max(steps, stepsByLabel[label]);
    at = addHead(code, text, start, from, label);
  }
  addTokens(code, text === '' ? ' ' : text.slice(at));
  const heat = make('span', {class: 'heat'});
  heat.style.width = (steps > 0 ? Math.max(1, 22 * steps / mostSteps) : 0) + 'px';
  const label = firstLabels[i + 1] > first ? String(first) : '';
  return make('div', {class: 'line'}, make('span', {class: 'number'}, String(i + 1)), make('span', {class: 'label'}, label),
    heat, code, make('span', {class: 'who'}));
}

// Adds the part of a statement's head that is on a line, and returns where it ends.
function addHead(code, text, start, from, label) {
  const to = Math.min(text.length, program.heads[label].to - start);
  const title = `label ${label}: ${count(stepsByLabel[label], 'step')}`;
  const head = make('span', {class: 'head', 'data-label': String(label), title});
  addTokens(head, text.slice(from, to));
  code.append(head);
  (heads[label] = heads[label] || []).push(head);
  return to;
}

function addTokens(parent, text) {
  let at = 0;
  for (const found of text.matchAll(TOKEN)) {
    if (found.index > at) parent.append(text.slice(at, found.index));
    const word = found[0];
    const comment = word.startsWith('//');
    parent.append(comment ? make('i', null, word) : WORDS.has(word) ? make('b', null, word) : word);
    at = found.index + word.length;
  }
  if (at < text.length) parent.append(text.slice(at));
}

// Marks where each worker's task is, and the statement of the event under the cursor.
function drawProgram() {
  reveal(labelOf(view.at));
  keepLines();
  for (const head of marked) {
    head.classList.remove('now', 'near');
    const who = head.closest('.line').lastChild;
    who.replaceChildren();
  }
  marked = [];
  const own = run.label[view.at];
  const mark = (label, name) => {
    for (const head of heads[label] || []) {
      head.classList.add(name);
      marked.push(head);
    }
  };
  for (let worker = 0; worker < run.lanes; worker++) {
    const spell = spellAt(run, worker, view.at);
    if (spell < 0) continue;
    const step = lastStep(run, run.spellTask[spell], view.at);
    const label = step < 0 ? 0 : run.label[step];
    if (label === 0) continue;
    mark(label, 'near');
    if (heads[label]) addChip(heads[label][0].closest('.line').lastChild, worker);
  }
  if (own > 0) mark(own, 'now');
  for (const head of byId('text').querySelectorAll('.hit')) head.classList.remove('hit');
  if (view.label > 0) for (const head of heads[view.label] || []) head.classList.add('hit');
}

// Adds the number of a worker to the end of a line. A line has room for a few.
function addChip(who, worker) {
  const most = 6;
  if (who.childElementCount < most) who.append(chip(worker));
  else if (who.childElementCount === most) who.append(make('small', null, '+1'));
  else who.lastChild.textContent = '+' + (Number(who.lastChild.textContent) + 1);
}

// The statement of the task of an event, also if the event takes no step.
const labelOf = event => (run.events === 0 ? 0 : labelOfTask(run.task[event], event));

// The label of the statement that a task executed last.
function labelOfTask(task, event) {
  const step = lastStep(run, task, event);
  return step < 0 ? 0 : run.label[step];
}

// Scrolls the text so that the statement with a label can be seen, unless it was the last one for which that was done.
function reveal(label) {
  if (label === 0 || label === revealed) return;
  revealed = label;
  const y = 6 + (program.heads[label].line - 1) * LINE;
  sizes.textTop = scrolledTo(byId('text'), sizes.textTop, sizes.text, textLines.length * LINE + 26, y, LINE);
}

// ---- the table of labels

const MOST_LABELS = 3000;
let sortBy = 'label';

function drawLabels() {
  const cost = run.data.cost;
  const chained = new Int32Array(program.labels + 1);
  for (const e of run.chainEvents) chained[run.label[e]]++;
  const rows = [];
  for (let label = 1; label <= program.labels; label++) {
    rows.push(cost ? {label, work: cost.work[label - 1], span: cost.span[label - 1]}
      : {label, work: stepsByLabel[label], span: chained[label]});
  }
  const order = {label: (a, b) => a.label - b.label, work: (a, b) => b.work - a.work || a.label - b.label,
    span: (a, b) => b.span - a.span || a.label - b.label};
  rows.sort(order[rows.length > MOST_LABELS && sortBy === 'label' ? 'work' : sortBy]);
  const total = Math.max(1, rows.reduce((sum, row) => sum + row.work, 0));
  const head = ['label', 'work', 'span'].map(name => make('th', {'aria-sort': sortBy === name ? 'descending' : null},
    make('button', {class: 'link', 'data-sort': name, type: 'button'}, name)));
  const body = rows.slice(0, MOST_LABELS).map(({label, work, span}) => {
    const name = {'data-label': String(label)};
    return make('tr', {...name, class: label === view.label ? 'hit' : null},
      make('td', null, make('button', {...name, class: 'link', type: 'button'}, String(label))),
      make('td', null, num(work)), make('td', null, num(span)),
      make('td', null, shareBar(work / total), make('code', null, statement(program, label))));
  });
  fill(byId('labels'), make('table', null, make('thead', null, make('tr', null, ...head, make('th', null, 'statement'))),
    make('tbody', null, ...body)));
  const part = rows.length > MOST_LABELS ? `the first ${num(MOST_LABELS)} of ${num(rows.length)}, ` : '';
  byId('labels-note').textContent = part + (cost ? 'as `cost` prints them' : 'steps in this trace and on its longest chain');
}

function shareBar(share) {
  const bar = make('span', {class: 'share'});
  bar.style.width = Math.round(60 * share) + 'px';
  return bar;
}

// ---- events

function drawEventList() {
  const element = byId('log');
  const shown = Math.max(7, Math.floor(sizes.log / 20) - 1);
  const first = clamp(view.at - Math.floor(shown / 2), 0, Math.max(0, run.events - shown));
  const rows = [];
  for (let e = first; e < Math.min(run.events, first + shown); e++) {
    const when = e === view.at ? ' now' : e > view.at ? ' later' : '';
    rows.push(make('div', {class: 'event' + when, 'data-event': String(e), 'aria-current': e === view.at ? 'true' : null},
      make('span', {class: 'mono'}, num(e)), run.worker[e] < 0 ? make('span') : chip(run.worker[e]),
      make('span', null, brief(run, program, e))));
  }
  fill(element, ...rows);
  const cause = run.events > 0 ? causeOf(run, view.at) : NONE;
  fill(byId('log-note'), ...(cause < 0 ? [] : ['after ', eventLink(cause)]));
  byId('log-note').title = cause < 0 ? '' : 'what led to it: ' + sentence(run, cause);
}

// ---- finishes

const MOST_SCOPES = 40;
const MOST_HOLDERS = 48;

function openScopes(event) {
  const open = [];
  for (let s = lastUpTo(run.scopeAt, event); s >= 0; s--) if (run.scopePassed[s] > event) open.push(s);
  return open;
}

function drawScopes() {
  const open = openScopes(view.at);
  const passing = run.kind[view.at] === PASS ? [run.scope[view.at]] : [];
  const rows = passing.concat(open).slice(0, MOST_SCOPES).map(scope => {
    const {issued, returned} = bookAfter(run, scope, view.at);
    const holders = holdersOf(run, scope, view.at);
    const bar = make('div', {class: 'bar'});
    bar.append(barPart(returned / issued, colors.soft, false, `${num(returned)} of ${num(issued)} are back`));
    for (const {task, weight} of holders.slice(0, MOST_HOLDERS)) {
      const {state, worker} = whereIs(run, task, view.at);
      const title = `task ${pathOf(run, task)} ${STATES[state]} and has ${num(weight)}`;
      bar.append(barPart(weight / issued, colorOf(worker), state !== RUNS, title));
    }
    const names = holders.slice(0, 4).flatMap(({task, weight}, i) => [i > 0 ? ', ' : '', taskLink(task), ' ' + num(weight)]);
    const passes = scope === passing[0];
    return make('div', {class: 'item', 'data-scope': scopeName(run, scope)},
      make('div', {class: 'top'}, make('b', {class: 'mono'}, scopeName(run, scope)),
        small(passes ? 'passes: all is back' : `issued ${num(issued)}, returned ${num(returned)}`)), bar,
      holders.length > 0 ? small('out: ', ...names, holders.length > 4 ? ` and ${num(holders.length - 4)} more` : '') : null,
      small(...timesOf(scope)));
  });
  fill(byId('scopes'), ...rows);
  byId('scopes-note').textContent = `${num(open.length)} open`;
}

// When a scope is opened, when its owner parks there, and when it passes.
function timesOf(scope) {
  const times = [['opens', run.scopeAt[scope]], ['waits', run.scopeParked[scope]], ['passes', run.scopePassed[scope]]]
    .filter(([, at]) => at < run.events);
  return times.flatMap(([what, at], i) => [i > 0 ? ' · ' : '', what + ' ', eventLink(at)]);
}

function barPart(share, color, hatched, title) {
  const part = make('i', {title});
  part.style.width = 100 * share + '%';
  part.style.background = hatched ? `repeating-linear-gradient(135deg, ${color} 0 2px, transparent 2px 5px)` : color;
  return part;
}

// ---- workers, and tasks by where they are

function drawWorkers() {
  const deques = [];
  const waiting = [];
  let runs = 0;
  let queued = 0;
  const live = liveTasks(run, view.at);
  for (const task of live) {
    const {state, worker} = whereIs(run, task, view.at);
    if (state === QUEUED) {
      (deques[worker] = deques[worker] || []).push(task);
      queued++;
    } else if (state === WAITS) waiting.push(task);
    else if (state === RUNS) runs++;
  }
  const begun = lastUpTo(run.spawned, view.at) + 1;
  const counts = `${num(runs)} run · ${num(queued)} queued · ${num(waiting.length)} wait · ${num(begun - live.length)} ended`;
  const list = (tasks, most) => tasks.slice(-most).flatMap(task => [taskLink(task), ' '])
    .concat(tasks.length > most ? [`and ${num(tasks.length - most)} more`] : []);
  const rows = [make('div', {class: 'item', id: 'task-counts'}, small(counts))];
  for (let worker = 0; worker < run.lanes; worker++) {
    const spell = spellAt(run, worker, view.at);
    const step = spell < 0 ? NONE : lastStep(run, run.spellTask[spell], view.at);
    const queue = deques[worker] || [];
    rows.push(make('div', {class: 'item', 'data-worker': String(worker)},
      make('div', {class: 'top'}, chip(worker), spell < 0 ? small('idle') : taskLink(run.spellTask[spell]),
        step < 0 ? null : make('code', null, `${run.label[step]} ${statement(program, run.label[step])}`)),
      small('deque: ', ...(queue.length > 0 ? list(queue, 6) : ['empty']))));
  }
  if (waiting.length > 0) rows.push(make('div', {class: 'item'}, small('waiting at a finish: ', ...list(waiting, 12))));
  fill(byId('workers'), ...rows);
}

// ---- the tree of tasks

const MOST_TASKS = 200;
const SIGN_OF = ['·', '≡', '▶', '‖', '✓'];

// The tasks that are there after an event, in the order of their paths: a row for each task that is live or has live tasks
// below it, and one for neighbours that have ended with all tasks below them.
function taskRows(event) {
  const begun = lastUpTo(run.spawned, event) + 1;
  const live = new Int32Array(begun);
  const size = new Int32Array(begun).fill(1);
  for (let task = begun - 1; task >= 0; task--) {
    if (!run.isOver[task] || run.ended[task] > event) live[task]++;
    if (task === 0) break;
    live[run.parent[task]] += live[task];
    size[run.parent[task]] += size[task];
  }
  const rows = [];
  const stack = [0];
  while (stack.length > 0) {
    const task = stack.pop();
    const before = rows[rows.length - 1];
    if (live[task] > 0) {
      rows.push({task, last: task, ended: 0});
      const {start, items} = run.children;
      for (let i = start[task + 1] - 1; i >= start[task]; i--) if (items[i] < begun) stack.push(items[i]);
    } else if (before && before.ended > 0 && run.parent[before.task] === run.parent[task]) {
      before.last = task;
      before.ended += size[task];
    } else {
      rows.push({task, last: task, ended: size[task]});
    }
  }
  return rows;
}

function drawTasks() {
  const all = taskRows(view.at);
  const at = lastUpTo(all.map(row => treeRow[row.task]), treeRow[taskAtCursor()]);
  const first = clamp(at - MOST_TASKS / 2, 0, Math.max(0, all.length - MOST_TASKS));
  const rows = all.slice(first, first + MOST_TASKS).map((row, i) => {
    const element = row.ended > 0 ? endedRow(row) : liveRow(row.task);
    if (first + i === at) element.classList.add('now');
    element.style.paddingLeft = 12 + 10 * Math.min(run.depth[row.task], 12) + 'px';
    return element;
  });
  const live = all.reduce((sum, row) => sum + (row.ended === 0 && whereIs(run, row.task, view.at).state !== ENDED), 0);
  const begun = lastUpTo(run.spawned, view.at) + 1;
  const more = all.length - rows.length;
  fill(byId('tasks'), ...rows, more > 0 ? small(`and ${num(more)} more rows before and after these`) : null);
  byId('tasks-note').textContent = `${num(live)} live, ${num(begun - live)} ended`;
}

function liveRow(task) {
  const {state, worker} = whereIs(run, task, view.at);
  const label = state === RUNS ? labelOfTask(task, view.at) : 0;
  const row = make('div', {class: 'task', 'data-state': STATES[state], 'data-count': '1'},
    make('span', {class: 'sign'}, SIGN_OF[state]), taskLink(task), small(STATES[state] + (state === QUEUED || state === RUNS
      ? ', worker ' + worker : '')), label > 0 ? make('code', null, `${label} ${statement(program, label)}`) : null);
  row.firstChild.style.color = state === ENDED ? colors.soft : colorOf(worker);
  return row;
}

// Tasks that have ended with all below them.
function endedRow({task, last, ended}) {
  const below = ended > 1 ? `${num(ended)} have ended` : 'has ended';
  const row = make('div', {class: 'task', 'data-state': STATES[ENDED], 'data-count': String(ended)},
    make('span', {class: 'sign'}, SIGN_OF[ENDED]), taskLink(task), last === task ? null : small('to '),
    last === task ? null : taskLink(last), small(below));
  row.firstChild.style.color = colors.soft;
  return row;
}

// ---- values of the task at the cursor

const MOST_ELEMENTS = 160;

function drawValues() {
  const task = view.task >= 0 && view.task < run.tasks ? view.task : taskAtCursor();
  const {state} = whereIs(run, task, view.at);
  byId('values-note').textContent = `task ${pathOf(run, task)}`;
  const flow = flowOf(run, task, view.at);
  const parts = [make('div', {class: 'item'}, make('div', {class: 'top'}, taskLink(task), small(STATES[state])),
    flow === 'on' ? null : small(flow === 'stopped' ? 'stopped: over its budget' : 'faulted: continues after its finish'))];
  if (state !== UNBORN && state !== ENDED) {
    const place = placeOf(task);
    parts.push(scalarTable(task, place), ...place.sections.map(section => sectionRow(task, place, section)));
  }
  fill(byId('values'), ...parts);
}

// The procedure in which a task is, and which names are in scope there.
function placeOf(task) {
  const step = lastStep(run, task, view.at);
  const label = step < 0 ? 0 : run.label[step];
  const calls = label > 0 && run.task[step] === task && changesAt(run.faultAt, step).length === 0;
  const callee = calls ? calleeOf(program, label) : NONE;
  const number = callee >= 0 ? callee : label > 0 ? procedureOf(program, label) : program.procedures.length - 1;
  const procedure = program.procedures[number];
  const head = program.heads[label];
  const ranges = program.ranges[number];
  if (label === 0) return {procedure, scalars: [], sections: program.arrays.map((array, i) => i)};
  // After a call, the task is before the first statement of the callee: only parameters are in scope.
  const entered = program.heads[procedure.first] || head;
  const isVisible = range => (callee >= 0 ? range.from < entered.from : range.from <= head.from && head.from < range.to);
  const visible = (names, list) => names.map((name, i) => i).filter(i => list[i] && isVisible(list[i]));
  const scalars = visible(procedure.scalars, ranges.scalars);
  return {procedure, scalars, sections: visible(procedure.sections, ranges.sections)};
}

function scalarTable(task, place) {
  if (place.scalars.length === 0) return null;
  return make('table', {class: 'scalars'}, make('tbody', null, ...place.scalars.map(slot => {
    const {value, at} = scalarAfter(run, task, slot, view.at);
    return make('tr', {class: at === view.at ? 'now' : null}, make('td', {class: 'mono'}, place.procedure.scalars[slot]),
      make('td', {class: 'mono value'}, String(value)), make('td', null, at < 0 ? '' : small('since ', eventLink(at))));
  })));
}

const HELD = ['not held', 'owned', 'a copy', 'given to a child'];
const HELD_CLASS = ['foreign', 'owned', 'copied', 'given'];

// A section: which part of which array it is, what of it the task holds, and the numbers.
function sectionRow(task, place, section) {
  const {array, first, length} = windowAfter(run, task, section, view.at);
  const name = place.procedure.sections[section];
  const arrayName = run.data.arrays[array].name;
  const {from, to} = shownPart(task, array, first, length);
  const held = holdings(run, task, array, from, to - from, view.at);
  const kinds = [1, 2, 3].filter(kind => held.includes(kind)).map(kind => HELD[kind]);
  const cells = [];
  for (let index = from; index < to; index++) {
    const {value, at} = elementAfter(run, array, index, view.at);
    const kind = held[index - from];
    cells.push(make('span', {class: `cell ${HELD_CLASS[kind]}${at === view.at ? ' now' : ''}`,
      title: `${arrayName}[${index}]: ${HELD[kind]}${at < 0 ? '' : ', stored at event ' + num(at)}`},
      kind === OWNED || kind === COPIED ? String(value) : '·'));
  }
  return make('div', {class: 'item', 'data-section': name}, make('div', {class: 'top'}, make('b', {class: 'mono'}, name),
    small(`${arrayName}[${num(first)} .. ${num(first + length)}], ${kinds.join(', ') || 'nothing held'}`)),
    make('div', {class: 'cells mono'}, from > first ? `… from ${num(from)}: ` : '', ...cells,
      to < first + length ? ' …' : ''));
}

// Of a long section, the elements around the one that the task stored last.
function shownPart(task, array, first, length) {
  if (length <= MOST_ELEMENTS) return {from: first, to: first + length};
  const {index, array: arrays} = run.data.stores;
  const place = lastOf(run.storesBy, task, run.storeAt, view.at);
  const store = place < 0 ? NONE : run.storesBy.items[place];
  const near = store >= 0 && arrays[store] === array ? index[store] : first;
  const from = clamp(near - MOST_ELEMENTS / 2, first, first + length - MOST_ELEMENTS);
  return {from, to: from + MOST_ELEMENTS};
}

// ---- output

const MOST_LINES = 400;

function drawOutput() {
  const rows = [];
  let lines = 0;
  let faults = 0;
  for (const e of run.inOrder) {
    if (e > view.at) continue;
    for (const line of changesAt(run.lineAt, e)) {
      lines++;
      if (lines <= MOST_LINES) rows.push(outputRow(e, run.data.lines.values[line].join(' '), false));
    }
    faults += faultsKept(run, e, view.at).length;
  }
  if (lines > MOST_LINES) rows.push(small(`and ${num(lines - MOST_LINES)} more lines`));
  for (const e of run.inOrder) {
    if (e > view.at) continue;
    for (const fault of faultsKept(run, e, view.at)) {
      rows.push(outputRow(e, `fault ${pathOf(run, run.task[e])} at ${run.label[e]}: ${faultKind(run, fault)}`, true));
    }
  }
  const over = run.events > 0 && run.scopePassed[0] <= view.at;
  const stopped = run.data.flows.flow.includes('s');
  if (over && stopped) rows.unshift(make('div', {class: 'item'}, 'The outcome is ', make('b', null, 'stopped'),
    '. Nothing of this is printed.'));
  fill(byId('output'), ...(rows.length > 0 ? rows : [small('No line has been printed yet.')]));
  const how = over ? ', the whole outcome' : ' so far';
  byId('output-note').textContent = `${count(lines, 'line')}, ${count(faults, 'fault')}${how}`;
}

function outputRow(event, text, isFault) {
  return make('div', {class: isFault ? 'output fault' : 'output', 'data-event': String(event),
    title: `event ${num(event)}, task ${pathOf(run, run.task[event])}`}, text);
}

// ---- what never changes

function writeFacts() {
  const {summary} = run;
  const parallelism = summary.span > 0 ? (Math.floor(summary.steps / summary.span * 100) / 100).toFixed(2) : '-';
  const by = summary.steps_by_worker.slice(0, Math.min(8, run.lanes)).map(num).join(' · ') + (run.lanes > 8 ? ' ..' : '');
  const facts = [['tasks', num(summary.tasks)], ['steps', num(summary.steps)], ['span', num(summary.span)],
    ['parallelism', parallelism], ['steals', num(summary.steals)], ['replenishments', num(summary.replenishments)],
    ['most live tasks', num(summary.most_live_tasks)], ['deepest nest', num(summary.deepest_nest)], ['steps by worker', by]];
  fill(byId('facts'), ...facts.map(([name, value]) => make('div', null, make('dt', null, name), make('dd', null, value))));
  byId('name').textContent = run.data.name;
  byId('name').title = run.data.isExplored ? 'a run by one worker' : 'trace: ' + run.data.trace;
  byId('what').textContent = run.data.isExplored ? 'afx explore' : 'afx trace';
  document.title = (run.data.isExplored ? 'afx explore ' : 'afx trace of ') + run.data.name;
}

function drawPanels() {
  drawProgram();
  const panels = {log: drawEventList, output: drawOutput, scopes: drawScopes, tasks: drawTasks, workers: drawWorkers,
    values: drawValues};
  for (const name of Object.keys(panels)) if (!byId(name).hidden) panels[name]();
  if (!byId('labels').hidden && view.changed & LOOK) drawLabels();
  const text = run.events > 0 ? wholeTale(run, program, view.at) : 'no event';
  byId('say').textContent = text;
  byId('say').title = text;
  byId('slide').value = view.at;
  const lanes = byId('lanes');
  lanes.setAttribute('aria-valuenow', String(view.at));
  lanes.setAttribute('aria-valuetext', `event ${num(view.at)}: ${text}`);
}
