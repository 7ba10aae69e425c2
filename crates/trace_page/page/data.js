// The data of the page, as lists by columns. docs/TRACE-PAGE.md describes each member of the data.

// For each name, the list of what the rows have there.
function byColumns(rows, names) {
  const lists = {};
  names.forEach((name, i) => { lists[name] = rows.map(row => row[i]); });
  return lists;
}

// Most of the data is the list of changes. It is read from its text: a list of JSON for each event would take longer to make
// than all the rest. No string of JSON contains these texts, because its quotes are escaped.
const BEFORE_CHANGES = '"trace":{"changes":[';
const AFTER_CHANGES = '],"header":';

function readData(text) {
  const from = text.indexOf(BEFORE_CHANGES) + BEFORE_CHANGES.length;
  const to = text.indexOf(AFTER_CHANGES, from);
  const data = readParts(JSON.parse(text.slice(0, from) + text.slice(to)));
  readChanges(data, text, from, to);
  return data;
}

// A page of `explore --html` shows events of no trace's file.
function readParts({layout, program, trace}) {
  const data = {
    name: program.name, text: program.text, places: byColumns(program.places, ['line', 'column']),
    arrays: program.arrays.map((array, i) => ({...array, initial: trace.initial[i]})),
    cost: program.cost && {work: program.cost.work.slice(1), span: program.cost.span.slice(1)},
    trace: trace.name, isExplored: trace.name === '', header: trace.header, summary: trace.summary,
    events: {kinds: trace.kinds, labels: trace.labels, tasks: trace.tasks},
    tasks: tasksOf(trace), chain: onChain(layout.chain), steals: byColumns(layout.steals, ['at', 'worker', 'from']),
  };
  data.tasks.row = layout.task_rows;
  data.spells = byColumns(layout.spells, ['at', 'last', 'worker', 'ending']);
  data.spells.task = data.spells.at.map(at => trace.tasks[at]);
  data.scopes = byColumns(layout.finishes, ['at', 'last', 'isPassed', 'parked', 'number']);
  data.scopes.owner = data.scopes.at.map((at, scope) => (scope === 0 ? 0 : trace.tasks[at]));
  data.scopes.passed = data.scopes.last.map((last, scope) => (data.scopes.isPassed[scope] ? last : null));
  data.scopes.row = layout.finish_rows;
  data.lanes = 1 + Math.max(trace.header.workers - 1, largest(data.spells.worker), largest(data.steals.worker),
    largest(data.steals.from));
  return data;
}

// The numbers of the marked events.
function onChain(marks) {
  const events = [];
  for (let e = marks.indexOf('1'); e >= 0; e = marks.indexOf('1', e + 1)) events.push(e);
  return events;
}

// The parent of each task, and its number among the children of that. The k-th task is that of the k-th spawn.
function tasksOf({kinds, tasks}) {
  const parent = [0];
  const number = [0];
  const children = [0];
  for (let e = kinds.indexOf('w'); e >= 0; e = kinds.indexOf('w', e + 1)) {
    parent.push(tasks[e]);
    number.push(++children[tasks[e]]);
    children.push(0);
  }
  return {parent, number};
}

const [QUOTE, COMMA, MINUS, ZERO, NINE, LIST, LIST_END, TRUE, FALSE] = Array.from('",-09[]tf', c => c.charCodeAt(0));

// Reads the values of a JSON text without spaces one after the other. Its strings have no escapes.
function valuesIn(text, from) {
  const reader = {at: from};
  reader.next = () => {
    const code = text.charCodeAt(reader.at);
    if (code === QUOTE) return string();
    if (code === LIST) return list();
    if (code !== TRUE && code !== FALSE) return number(code === MINUS);
    reader.at += code === TRUE ? 4 : 5;
    return code === TRUE;
  };
  const string = () => {
    const first = reader.at + 1;
    const last = text.indexOf('"', first);
    reader.at = last + 1;
    return text.slice(first, last);
  };
  const number = isBelow0 => {
    if (isBelow0) reader.at++;
    let n = 0;
    for (let code = text.charCodeAt(reader.at); code >= ZERO && code <= NINE; code = text.charCodeAt(++reader.at)) {
      n = 10 * n + code - ZERO;
    }
    return isBelow0 ? -n : n;
  };
  const list = () => {
    const all = [];
    reader.at++;
    while (text.charCodeAt(reader.at) !== LIST_END) {
      all.push(reader.next());
      if (text.charCodeAt(reader.at) === COMMA) reader.at++;
    }
    reader.at++;
    return all;
  };
  return reader;
}

// What the events change, each kind of change in lists of its own. The text has a list of changes for each event.
function readChanges(data, text, from, to) {
  const {kinds, tasks} = data.events;
  const books = data.books = {issued: [], returned: []};
  const weights = data.weights = {own: [], child: []};
  const scalars = data.scalars = {at: [], slot: [], value: []};
  const windows = data.windows = {at: [], section: [], array: [], first: [], length: []};
  const flows = data.flows = {at: [], flow: []};
  const stores = data.stores = {at: [], array: [], index: [], value: []};
  const lines = data.lines = {at: [], values: []};
  const faults = data.faults = {at: [], text: []};
  const gathered = data.gathered = {at: [], count: []};
  const given = data.given = {task: [], mayWrite: [], array: [], first: [], length: []};
  const lists = {
    w: [weights.own], c: [weights.child], b: [books.issued, books.returned], x: [scalars.slot, scalars.value],
    s: [windows.section, windows.array, windows.first, windows.length], f: [flows.flow],
    e: [stores.array, stores.index, stores.value], p: [lines.values], q: [faults.text], g: [gathered.count],
    n: [given.mayWrite, given.array, given.first, given.length],
  };
  const at = {x: scalars.at, s: windows.at, f: flows.at, e: stores.at, p: lines.at, q: faults.at, g: gathered.at};
  const flowOfTask = [];
  const reader = valuesIn(text, from);
  let child = 0;
  for (let e = 0; reader.at < to; e++) {
    if (kinds[e] === 'w') child++;
    reader.at++;                                        // the list of the event
    while (text.charCodeAt(reader.at) !== LIST_END) {
      const kind = text[reader.at + 2];                 // as in `["x",0,1]`
      reader.at += 4;
      const list = lists[kind];
      const length = list[0].length;
      for (let i = 0; i < list.length; i++) {
        reader.at++;
        list[i].push(reader.next());
      }
      reader.at += text.charCodeAt(reader.at + 1) === COMMA ? 2 : 1;
      if (kind === 'f' && (flowOfTask[tasks[e]] || 'o') === flows.flow[length]) {
        flows.flow.length = length;                     // a flow that the task had
        continue;
      }
      if (kind === 'f') flowOfTask[tasks[e]] = flows.flow[length];
      if (kind === 'n') given.task.push(child);
      else if (at[kind]) at[kind].push(e);
    }
    reader.at += 2;
  }
}
