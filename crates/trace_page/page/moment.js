// What the run is like right after an event: where tasks are, what they hold, what the scopes' books say.

const [UNBORN, QUEUED, RUNS, WAITS, ENDED] = [0, 1, 2, 3, 4];

// The last event of a task up to an event, or -1.
function lastEventOf(run, task, event) {
  const low = run.eventsOf.start[task];
  const at = lastUpTo(run.eventsOf.items, event, low, run.eventsOf.start[task + 1]);
  return at < low ? NONE : run.eventsOf.items[at];
}

// Where a task is after an event, and which worker has or had it.
function whereIs(run, task, event) {
  if (task > 0 && run.spawned[task] > event) return {state: UNBORN, worker: NONE};
  if (run.isOver[task] && run.ended[task] <= event) return {state: ENDED, worker: run.worker[run.ended[task]]};
  const last = lastEventOf(run, task, event);
  if (last < 0) return {state: QUEUED, worker: task === 0 ? 0 : run.worker[run.spawned[task]]};
  const kind = run.kind[last];
  if (kind === STEAL) return {state: QUEUED, worker: run.worker[last]};
  if (kind === PARK || kind === PASS) return {state: WAITS, worker: run.worker[last]};
  return {state: RUNS, worker: run.worker[last]};
}

// The spell of a worker that contains an event, or -1.
function spellAt(run, worker, event) {
  const at = lastOf(run.spellsOfWorker, worker, run.spellFirst, event);
  if (at < 0) return NONE;
  const spell = run.spellsOfWorker.items[at];
  if (run.spellLast[spell] < event) return NONE;
  const leaves = run.spellLast[spell] === event && run.spellEnding[spell] !== 'g';
  return leaves ? NONE : spell;
}

// The tasks that have been spawned and haven't ended after an event.
function liveTasks(run, event) {
  const live = [];
  const begun = lastUpTo(run.spawned, event);
  for (let task = 0; task <= begun; task++) if (run.ended[task] > event || !run.isOver[task]) live.push(task);
  return live;
}

// A group of changes up to an event: the number of its last change, or -1.
function changeOf(group, key, at, event) {
  const place = lastOf(group, key, at, event);
  return place < 0 ? NONE : group.items[place];
}

// What a task's scalar or section was changed to last, or -1 if it has its initial value. A child begins with those of its
// parent.
function lastChange(run, table, at, task, slot, event) {
  let holder = task;
  let until = event;
  while (holder >= 0) {
    const key = table.offset[holder] + slot;
    if (key < table.offset[holder + 1]) {
      const change = changeOf(table.groups, key, at, until);
      if (change >= 0) return change;
    }
    until = Math.min(until, run.spawned[holder]);
    holder = run.parent[holder];
  }
  return NONE;
}

function scalarAfter(run, task, slot, event) {
  const change = lastChange(run, run.scalarsOf, run.scalarAt, task, slot, event);
  return change < 0 ? {value: 0, at: NONE} : {value: run.scalarValue[change], at: run.scalarAt[change]};
}

// The part of an array that a section names.
function windowAfter(run, task, section, event) {
  const change = lastChange(run, run.windowsOf, run.windowAt, task, section, event);
  const windows = run.data.windows;
  if (change >= 0) return {array: windows.array[change], first: windows.first[change], length: windows.length[change]};
  const array = run.data.arrays[section];
  return array ? {array: section, first: 0, length: array.length} : {array: 0, first: 0, length: 0};
}

// The number of an element after an event, and the event that stored it.
function elementAfter(run, array, index, event) {
  const place = run.arrayStart[array] + index;
  const change = place + 1 < run.storesOf.start.length ? changeOf(run.storesOf, place, run.storeAt, event) : NONE;
  if (change >= 0) return {value: run.storeValue[change], at: run.storeAt[change]};
  const initial = run.data.arrays[array].initial;
  return {value: index < initial.length ? initial[index] : 0, at: NONE};
}

// What a task has of an element. 0 is nothing.
const [OWNED, COPIED, GIVEN] = [1, 2, 3];

// What a task may do with each element of a part of an array: it owns it, has a copy, has given it to a child, or neither.
function holdings(run, task, array, first, length, event) {
  const held = new Uint8Array(length);
  const given = run.data.given;
  const lay = (item, what) => {
    if (given.array[item] !== array) return;
    const from = Math.max(given.first[item], first);
    const to = Math.min(given.first[item] + given.length[item], first + length);
    for (let i = from; i < to; i++) if (what !== COPIED || held[i - first] === 0) held[i - first] = what;
  };
  if (task === 0) held.fill(OWNED);
  else for (const item of itemsOf(run.givenTo, task)) lay(item, given.mayWrite[item] ? OWNED : COPIED);
  for (const child of itemsOf(run.children, task)) {
    if (run.spawned[child] > event) break;
    const home = run.home[child];
    if (run.scopeOwner[home] === task && run.resumed[home] <= event) continue;
    for (const item of itemsOf(run.givenTo, child)) if (given.mayWrite[item]) lay(item, GIVEN);
  }
  return held;
}

// The innermost scope in which a task is after an event. The scopes that a task opens are nested.
function scopeAround(run, task, event) {
  const home = run.home[task];
  const opened = changeOf(run.scopesOf, task, run.scopeAt, event);
  let scope = opened > 0 ? opened : home;
  while (scope !== home && run.resumed[scope] <= event) scope = run.up[scope];
  return scope;
}

// The book of a scope after an event.
function bookAfter(run, scope, event) {
  const book = changeOf(run.booksOf, scope, run.bookAt, event);
  return book < 0 ? {issued: 0, returned: 0} : {issued: run.issued[book], returned: run.returned[book]};
}

// The tasks that hold weight of a scope after an event, the largest weight first.
function holdersOf(run, scope, event) {
  const all = [];
  const add = (task, holder) => {
    const change = changeOf(run.weightsOf, holder, run.weightAt, event);
    if (change >= 0 && run.weightNow[change] > 0) all.push({task, weight: run.weightNow[change]});
  };
  if (scope > 0) add(run.scopeOwner[scope], run.tasks + scope);
  for (const task of itemsOf(run.startedIn, scope)) {
    if (run.spawned[task] > event) break;
    if (task === 0 || run.ended[task] > event || !run.isOver[task]) add(task, task);
  }
  return all.sort((a, b) => b.weight - a.weight || a.task - b.task);
}

const FLOWS = {o: 'on', f: 'faulted', s: 'stopped'};

// Whether a task continues: `on`, `faulted` or `stopped`.
function flowOf(run, task, event) {
  const change = changeOf(run.flowsOf, task, run.flowAt, event);
  const rescue = changeOf(run.rescuesOf, task, run.rescueAt, event);
  if (rescue >= 0 && (change < 0 || run.flowAt[change] <= run.rescueAt[rescue])) return 'on';
  return FLOWS[change < 0 ? 'o' : run.data.flows.flow[change]];
}

// The number of faults that the rescue of each scope drops, the resumes of these scopes, and for each fault the resume at
// which it is dropped.
function followRescues(run, program) {
  run.rescued = new Int32Array(run.scopes);
  const resumes = [];
  for (let i = 0; i < run.gatheredAt.length; i++) {
    const event = run.gatheredAt[i];
    const scope = run.scope[event];
    if (!program.rescues.has(run.label[run.scopeAt[scope]])) continue;
    run.rescued[scope] = run.data.gathered.count[i];
    resumes.push(event);
  }
  run.rescueAt = Int32Array.from(resumes);
  run.rescuesOf = groups(tasksAt(run, run.rescueAt), run.tasks);
  run.droppedAt = integers(run.faultAt.length, fault => dropOf(run, run.faultAt[fault]));
}

// The resume at which a rescue drops the fault of an event, or the number of events. A fault goes from scope to scope
// outwards.
function dropOf(run, event) {
  let scope = scopeAround(run, run.task[event], event);
  while (scope > 0 && run.resumed[scope] < run.events) {
    if (run.rescued[scope] > 0) return run.resumed[scope];
    scope = run.up[scope];
  }
  return run.events;
}

// The faults of an event that no rescue has dropped up to another event.
const faultsKept = (run, event, until) => changesAt(run.faultAt, event).filter(fault => run.droppedAt[fault] > until);

// The event that had to happen before this one, or -1: what led to it.
function causeOf(run, event) {
  const task = run.task[event];
  const kind = run.kind[event];
  if (kind === PASS) return run.lastReturn[run.scope[event]];
  if (kind === RESUME) return run.scopePassed[run.scope[event]];
  const at = lastUpTo(run.eventsOf.items, event - 1, run.eventsOf.start[task], run.eventsOf.start[task + 1]);
  if (at >= run.eventsOf.start[task]) return run.eventsOf.items[at];
  return run.spawned[task];
}

// The statement that a task executed last, as the event of its step, or -1.
function lastStep(run, task, event) {
  const low = run.eventsOf.start[task];
  for (let at = lastUpTo(run.eventsOf.items, event, low, run.eventsOf.start[task + 1]); at >= low; at--) {
    const e = run.eventsOf.items[at];
    if (run.label[e] > 0) return e;
  }
  return task > 0 ? run.spawned[task] : NONE;
}
