// Other schedules of the run: the reader chooses which task takes the next step. A task takes the same steps under each
// schedule, so the events of one run are enough for all of them. `afx explore` takes the same choices.

const MOST_STEPS = 2000;      // of the longest run whose schedules can be explored
const MOST_LEAVES = 300;
const MOST_ROWS = 400;

const schedule = {choices: [], events: [], trees: []};
const acts = [];

// What a task does in order: its steps, the ends of its finishes, and its end.
function actsOf(task) {
  const matters = event => takesStep(run.kind[event]) || run.kind[event] === PARK || run.kind[event] === END;
  if (!acts[task]) acts[task] = Array.from(itemsOf(run.eventsOf, task)).filter(matters);
  return acts[task];
}

// ---- step trees

// A task that is about to do what it does at a position. `told` are the events whose lines and faults come before that.
function leafOf(task, at, told) {
  const event = actsOf(task)[at];
  const ready = event !== undefined && takesStep(run.kind[event]) ? 1 : 0;
  return {kind: 'leaf', task, at, told, event, ready, done: ready === 0};
}

const besideOf = (left, right) =>
  ({kind: 'beside', left, right, ready: left.ready + right.ready, done: left.done && right.done});

// A finish whose body is a tree. The owner continues as soon as all in it is done. A rescue drops the faults.
function finishOf(first, owner, scope) {
  if (!first.done) return {kind: 'finish', first, owner, scope, ready: first.ready, done: false};
  const told = toldIn(first);
  return leafOf(owner, rightmost(first).at + 1, run.rescued[scope] > 0 ? told.filter(isNoFault) : told);
}

const isNoFault = event => changesAt(run.faultAt, event).length === 0;

function rightmost(tree) {
  let at = tree;
  while (at.kind === 'beside') at = at.right;
  return at;
}

// The lines and faults so far, in the order of the outcome.
function toldIn(tree) {
  if (tree.kind === 'leaf') return tree.told;
  return tree.kind === 'finish' ? toldIn(tree.first) : toldIn(tree.left).concat(toldIn(tree.right));
}

// The tree after a step of the task with a number, among those that can take one, from the left.
function stepped(tree, number) {
  if (tree.kind === 'finish') return finishOf(stepped(tree.first, number), tree.owner, tree.scope);
  if (tree.kind === 'leaf') return afterStep(tree);
  const {left, right} = tree;
  return number < left.ready ? besideOf(stepped(left, number), right) : besideOf(left, stepped(right, number - left.ready));
}

function afterStep({task, at, told, event}) {
  if (run.kind[event] === SPAWN) return besideOf(leafOf(childAt(run, event), 0, told), leafOf(task, at + 1, []));
  if (run.kind[event] === OPEN) return finishOf(leafOf(task, at + 1, told), task, run.scope[event]);
  const tells = changesAt(run.lineAt, event).length > 0 || changesAt(run.faultAt, event).length > 0;
  return leafOf(task, at + 1, tells ? told.concat(event) : told);
}

function leafAt(tree, number) {
  if (tree.kind === 'leaf') return tree;
  if (tree.kind === 'finish') return leafAt(tree.first, number);
  return number < tree.left.ready ? leafAt(tree.left, number) : leafAt(tree.right, number - tree.left.ready);
}

// ---- choices

const treeNow = () => schedule.trees[schedule.trees.length - 1];

// Why schedules of this run can't be explored, or an empty text.
function whyNoSchedules() {
  if (run.events === 0 && run.data.isExplored) return `The run takes more than ${num(MOST_STEPS)} steps.`;
  if (run.events === 0 || !run.isOver[0]) return 'The trace ends before the run.';
  if (run.data.flows.flow.includes('s')) return 'The run is stopped: a task is over its budget.';
  const {steps} = run.summary;
  return steps > MOST_STEPS ? `The run takes ${num(steps)} steps. At most ${num(MOST_STEPS)} can be explored.` : '';
}

function startSchedule() {
  schedule.choices = [];
  schedule.events = [];
  schedule.trees = [leafOf(0, 0, [])];
}

// Lets the task with a number take the next step. Returns whether there is one.
function choose(number) {
  const tree = treeNow();
  if (number >= tree.ready) return false;
  schedule.choices.push(number);
  schedule.events.push(leafAt(tree, number).event);
  schedule.trees.push(stepped(tree, number));
  return true;
}

function backTo(steps) {
  schedule.choices.length = schedule.events.length = steps;
  schedule.trees.length = steps + 1;
}

function chooseAll(choices) {
  startSchedule();
  for (const choice of choices) if (!choose(choice)) return;
}

// ---- what is shown

function openSchedules() {
  const why = whyNoSchedules();
  byId('schedules-why').textContent = why;
  byId('schedules-why').hidden = why === '';
  byId('schedules-all').hidden = why !== '';
  if (!byId('schedules').open) byId('schedules').showModal();
  if (why === '') {
    if (schedule.trees.length === 0) startSchedule();
    drawSchedule();
  }
  keepLink();
}

// A leaf with its number, if it can take a step; or what it waits for.
function leafRow(leaf, numbers) {
  numbers.leaves++;
  const path = make('span', {class: 'link mono'}, cut(pathOf(run, leaf.task), 16));
  if (leaf.ready === 0) {
    const ended = leaf.event === undefined || run.kind[leaf.event] === END || leaf.task === 0 && numbers.depth === 0;
    return make('div', {class: 'leaf'}, make('span', {class: 'sign'}, ended ? '✓' : '‖'), path,
      small(ended ? 'has ended' : 'is at the end of its finish'));
  }
  const number = numbers.next++;
  const text = `${run.label[leaf.event]}  ${statement(program, run.label[leaf.event])}`;
  return make('div', {class: 'leaf'}, make('button', {type: 'button', 'data-choice': String(number),
    title: `let task ${pathOf(run, leaf.task)} take the next step`}, String(number)), path, make('code', null, text));
}

function treeRows(tree, numbers) {
  if (numbers.leaves > MOST_LEAVES) {
    numbers.next += tree.ready;
    return [];
  }
  if (tree.kind === 'leaf') return [leafRow(tree, numbers)];
  if (tree.kind === 'beside') return treeRows(tree.left, numbers).concat(treeRows(tree.right, numbers));
  numbers.depth++;
  const inner = treeRows(tree.first, numbers);
  numbers.depth--;
  return [make('div', {class: 'body'}, ...inner, small(`then task ${pathOf(run, tree.owner)} continues`))];
}

function stepRow(event, i) {
  const effect = effectOf(run, program, event);
  const last = i === schedule.events.length - 1;
  return make('div', {class: last ? 'event now' : 'event', 'data-back': String(i + 1), title: 'go back to this step'},
    make('span', {class: 'mono'}, String(i)), make('span', {class: 'choice-number'}, String(schedule.choices[i])),
    make('span', null, [brief(run, program, event).replace(/;$/, '')].concat(effect).join('; ')));
}

// The number that an element has after the chosen steps, by the place of the element.
function valuesNow() {
  const values = new Map();
  for (const event of schedule.events) {
    for (const store of changesAt(run.storeAt, event)) {
      const {array, index, value} = run.data.stores;
      values.set(run.arrayStart[array[store]] + index[store], {value: value[store], at: event});
    }
  }
  return values;
}

function arrayRow(array, number, values) {
  const last = schedule.events[schedule.events.length - 1];
  const cells = [];
  for (let i = 0; i < Math.min(array.length, MOST_ELEMENTS); i++) {
    const found = values.get(run.arrayStart[number] + i);
    const value = found ? found.value : i < array.initial.length ? array.initial[i] : 0;
    cells.push(make('span', {class: found && found.at === last ? 'cell owned now' : 'cell owned'}, String(value)));
  }
  return make('div', {class: 'item'}, make('b', {class: 'mono'}, array.name), make('div', {class: 'cells mono'}, ...cells,
    array.length > MOST_ELEMENTS ? ' …' : ''));
}

function toldRow(event) {
  const lines = changesAt(run.lineAt, event).map(line => run.data.lines.values[line].join(' '));
  const faults = changesAt(run.faultAt, event).map(fault =>
    `fault ${pathOf(run, run.task[event])} at ${run.label[event]}: ${faultKind(run, fault)}`);
  return make('div', {class: faults.length > 0 ? 'output fault' : 'output'}, ...lines, ...faults);
}

function drawSchedule() {
  const tree = treeNow();
  const numbers = {next: 0, leaves: 0, depth: 0};
  const rows = treeRows(tree, numbers);
  fill(byId('tree'), ...rows, numbers.leaves > MOST_LEAVES ? small('and more') : null);
  byId('tree-note').textContent = tree.done ? 'the run has ended' : `${count(tree.ready, 'task')} can take a step`;
  const first = Math.max(0, schedule.events.length - MOST_ROWS);
  fill(byId('chosen'), first > 0 ? small(`${count(first, 'step')} before these`) : null,
    ...schedule.events.slice(first).map((event, i) => stepRow(event, first + i)));
  byId('chosen-note').textContent = `${num(schedule.events.length)} of ${count(run.summary.steps, 'step')}`;
  byId('chosen').scrollTop = byId('chosen').scrollHeight;
  const values = valuesNow();
  const told = toldIn(tree);
  fill(byId('reached'), ...run.data.arrays.map((array, i) => arrayRow(array, i, values)), ...told.map(toldRow),
    tree.done ? small('Each schedule of this program comes to this outcome.') : null);
  byId('command').textContent = commandNow();
  byId('undo').disabled = schedule.choices.length === 0;
  byId('random').disabled = byId('leftmost').disabled = tree.done;
  keepLink();
}

// The command that takes these choices. A page doesn't know the name of the input.
function commandNow() {
  const given = run.data.arrays.some(array => array.initial.length > 0) ? ' --input ..' : '';
  const choices = schedule.choices.length > 0 ? ' --choices ' + schedule.choices.join(',') : '';
  return `afx explore ${program.name}${given}${choices}`;
}

const CHOOSING = {
  Backspace: () => backTo(Math.max(0, schedule.choices.length - 1)),
  Home: () => backTo(0),
  End: () => { while (choose(0)) { /* the leftmost task takes each step */ } },
  r: () => choose(Math.floor(Math.random() * treeNow().ready)),
};

function chosenBy(key) {
  if (/^[0-9]$/.test(key)) choose(Number(key));
  else if (Object.prototype.hasOwnProperty.call(CHOOSING, key)) CHOOSING[key]();
  else return false;
  drawSchedule();
  return true;
}

byId('schedules').addEventListener('keydown', event => {
  if (event.ctrlKey || event.metaKey || event.altKey || schedule.trees.length === 0) return;
  if (chosenBy(event.key)) event.preventDefault();
});
byId('schedules').addEventListener('close', keepLink);
byId('schedules').addEventListener('click', event => {
  const target = event.target.closest('[data-choice], [data-back], [data-choosing]');
  if (!target) return;
  const {choice, back, choosing} = target.dataset;
  if (choice !== undefined) choose(Number(choice));
  else if (back !== undefined) backTo(Number(back));
  else CHOOSING[choosing]();
  drawSchedule();
  if (choice !== undefined) byId('tree').focus();
});
