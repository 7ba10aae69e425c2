// Events, states and marks in words.

const STATES = ['not yet spawned', 'waits in a deque', 'runs', 'waits at its finish', 'has ended'];

// `finish 0.1#2`, or `main`.
const finishName = (run, scope) => (scope === 0 ? 'main' : 'finish ' + scopeName(run, scope));

// One sentence about an event, without its statement.
function sentence(run, event) {
  const task = 'task ' + pathOf(run, run.task[event]);
  const worker = 'worker ' + run.worker[event];
  const scope = run.scope[event];
  switch (run.kind[event]) {
    case TAKE: return `${worker} takes ${task} from its deque`;
    case STEAL: return `${worker} steals ${task} from worker ${stealAt(run, event).from}`;
    case STEP: return `${task} takes a step`;
    case SPAWN: return `${task} spawns task ${pathOf(run, childAt(run, event))}`;
    case OPEN: return `${task} opens ${finishName(run, scope)}`;
    case REPLENISH: return `${finishName(run, scope)} gives ${task} more weight`;
    case PARK: return `${task} waits at the end of ${finishName(run, scope)}`;
    case END: return `${task} ends`;
    case PASS: return `${finishName(run, scope)} passes: all that was started in it has ended`;
    default: return `${worker} continues ${task} after ${finishName(run, scope)}`;
  }
}

// A path of at most so many characters: the end of a longer one.
const cut = (text, most) => (text.length > most ? '…' + text.slice(1 - most) : text);

// A few words about an event, for a list.
function brief(run, program, event) {
  const task = cut(pathOf(run, run.task[event]), run.kind[event] === STEP ? 10 : 24);
  const scope = run.scope[event];
  switch (run.kind[event]) {
    case TAKE: return `take ${task}`;
    case STEAL: return `steal ${task} from worker ${stealAt(run, event).from}`;
    case STEP: return `${task}  ${statement(program, run.label[event])}`;
    case SPAWN: return `${task} spawns ${pathOf(run, childAt(run, event))}`;
    case OPEN: return `${task} opens ${scopeName(run, scope)}`;
    case REPLENISH: return `${task} gets more weight`;
    case PARK: return `${task} parks at ${scopeName(run, scope)}`;
    case END: return `${task} ends`;
    case PASS: return `${scopeName(run, scope)} passes`;
    default: return `resume ${task}`;
  }
}

// The steal that an event is.
function stealAt(run, event) {
  const steal = lastUpTo(run.steals, event);
  return {from: run.stealFrom[steal], by: run.stealBy[steal]};
}

// The child that an event spawns.
function childAt(run, event) {
  return lastUpTo(run.spawned, event);
}

// What a step changed, in words: `i = 3`, `a[2] = 7`, `prints 1 2`, `fault F4`.
function effectOf(run, program, event) {
  const parts = [];
  const names = program.procedures;
  const label = run.label[event];
  const step = label > 0 ? label : 0;
  const callee = step > 0 ? calleeOf(program, step) : -1;
  const procedure = names[callee >= 0 ? callee : procedureOf(program, step)];
  for (const change of changesAt(run.scalarAt, event)) {
    const slot = run.data.scalars.slot[change];
    if (parts.length < 6 && procedure.scalars[slot]) parts.push(`${procedure.scalars[slot]} = ${run.scalarValue[change]}`);
  }
  for (const store of changesAt(run.storeAt, event)) {
    const {array, index} = run.data.stores;
    parts.push(`${run.data.arrays[array[store]].name}[${index[store]}] = ${run.storeValue[store]}`);
  }
  for (const line of changesAt(run.lineAt, event)) parts.push('prints ' + run.data.lines.values[line].join(' '));
  for (const fault of changesAt(run.faultAt, event)) parts.push('fault ' + faultKind(run, fault));
  for (const gathered of changesAt(run.gatheredAt, event)) {
    const dropped = run.rescued[run.scope[event]] > 0 ? ', which the rescue drops' : '';
    parts.push('gathers ' + count(run.data.gathered.count[gathered], 'fault') + dropped);
  }
  for (const flow of changesAt(run.flowAt, event)) {
    if (run.data.flows.flow[flow] === 's') parts.push('stopped over its budget');
  }
  return parts;
}

// The numbers of the changes at an event, in a sorted list of events.
function changesAt(at, event) {
  const all = [];
  for (let i = lastUpTo(at, event); i >= 0 && at[i] === event; i--) all.push(i);
  return all.reverse();
}

// `F4`, or `F6 3`.
function faultKind(run, fault) {
  return run.data.faults.text[fault];
}

// All that the line under the page says of an event.
function wholeTale(run, program, event) {
  const label = run.label[event];
  const parts = [sentence(run, event)];
  if (label > 0) parts.push(`label ${label}, ${statement(program, label).replace(/;$/, '')}`);
  return [parts.join(': ')].concat(effectOf(run, program, event)).join('; ');
}
