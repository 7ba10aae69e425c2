// Rows under the lanes: tasks as a tree, tasks next to each other in as few rows as possible, or finishes.

const ROW = 18;
const MOST_HEIGHT = 16000000;       // browsers limit the height of an element

const rowsNow = () => (view.rows === 'tree' ? run.tasks
  : view.rows === 'packed' ? run.byRow.start.length - 1 : run.scopesByRow.start.length - 1);

// The row of each task in the tree.
const treeRow = new Int32Array(run.tasks);
run.order.forEach((task, row) => { treeRow[task] = row; });

function rowOf(task) {
  if (view.rows === 'tree') return treeRow[task];
  if (view.rows === 'packed') return run.row[task];
  const scope = scopeAround(run, task, view.at);
  return run.scopeRow[scope] === null ? 0 : run.scopeRow[scope];
}

// Scrolls to the row of a task if it can't be seen.
function showRow(task) {
  const top = scrolledTo(byId('rows'), sizes.rowsTop, sizes.rows, heightOfRows(), rowOf(task) * ROW, ROW);
  if (top !== sizes.rowsTop) changed(ROWS);
  sizes.rowsTop = top;
}

const heightOfRows = () => Math.min(MOST_HEIGHT, rowsNow() * ROW + 6);

function setRows(which) {
  view.rows = which;
  for (const name of ['tree', 'packed', 'finishes']) {
    byId('rows-' + name).setAttribute('aria-pressed', String(name === which));
  }
  byId('rows-note').textContent = which === 'finishes' ? finishesNote()
    : 'thick: runs · thin: in a deque · dashed: waits at its finish';
  keepHeight(byId('tall'), heightOfRows());
  changed(ROWS | CURSOR);
  showRow(taskAtCursor());
  keepLink();
}

function drawRows() {
  const element = byId('rows');
  const width = sizes.lanes;
  const height = sizes.rows;
  const top = sizes.rowsTop;
  const [base, over] = element.firstElementChild.children;
  const first = Math.floor(top / ROW);
  const last = Math.min(rowsNow(), Math.ceil((top + height) / ROW));
  if (view.changed & (WINDOW | ROWS | LOOK)) drawBaseRows(penOf(base, width, height), first, last, top, width);
  const front = penOf(over, width, height);
  for (let row = first; row < last; row++) {
    const middle = row * ROW - top + ROW / 2;
    if (view.rows === 'tree') drawTaskName(front, run.order[row], middle, width);
    else if (view.rows === 'packed') drawPackedName(front, row, middle, width);
    else drawFinishName(front, row, middle, width);
  }
  drawCursor(front, width, height);
}

// What doesn't change when the cursor moves.
function drawBaseRows(pen, first, last, top, width) {
  for (let row = first; row < last; row++) {
    const y = row * ROW - top;
    if (row % 2 === 1) {
      tint(pen, colors.lane, 1);
      pen.fillRect(0, y, width, ROW);
    }
    if (view.rows === 'tree') drawTreeRow(pen, row, y, width, top);
    else if (view.rows === 'packed') drawPackedRow(pen, row, y, width);
    else drawFinishRow(pen, row, y, width);
  }
}

function drawTreeRow(pen, row, y, width, top) {
  const task = run.order[row];
  if (task === view.task) {
    tint(pen, colors.mark, 1);
    pen.fillRect(0, y, width, ROW);
  }
  const at = run.spawned[task];
  if (task > 0 && at >= view.from && at <= view.to) {
    const x = xOf(at + 0.5);
    const parentY = Math.max(-4, treeRow[run.parent[task]] * ROW - top + ROW / 2 + 4);
    tint(pen, colors.soft, 0.55);
    pen.fillRect(x - 0.5, parentY, 1, y + ROW / 2 - parentY);
    pen.globalAlpha = 1;
  }
  drawLife(pen, task, y + ROW / 2, width, 0);
}

// The life of a task: thick while a worker has it, thin in a deque, dashed while it waits at a finish.
function drawLife(pen, task, middle, width, least) {
  const right = width - EDGE;
  const spells = run.spellsOfTask;
  const low = spells.start[task];
  const high = spells.start[task + 1];
  const born = Math.max(0, run.spawned[task]);
  let from = Math.max(low, lastOf(spells, task, run.spellFirst, view.from));
  let drawn = Math.max(GUTTER - 1, least);
  if (from === low) drawQueued(pen, task, born, low < high ? run.spellFirst[spells.items[low]] : run.events, middle, right);
  for (; from < high; from++) {
    const spell = spells.items[from];
    if (run.spellFirst[spell] >= view.to) break;
    const x0 = Math.max(GUTTER, xOf(run.spellFirst[spell]));
    const x1 = Math.min(right, xOf(run.spellLast[spell] + 1));
    if (x1 >= GUTTER && x1 > drawn + 0.5) {
      workerBar(pen, run.spellWorker[spell], x0, middle - 5.5, Math.max(1, x1 - x0), 11, 1);
      drawn = x1;
    }
    if (run.spellEnding[spell] === 'p') {
      const next = from + 1 < high ? run.spellFirst[spells.items[from + 1]] : Math.min(run.ended[task] + 1, run.events);
      dashes(pen, Math.max(GUTTER, xOf(run.spellLast[spell] + 1)), Math.min(right, xOf(next)), middle);
    }
  }
  const end = run.ended[task];
  if (run.isOver[task] && end >= view.from && end < view.to) {
    tint(pen, colors.soft, 1);
    pen.fillRect(Math.min(right, xOf(end + 1)) - 1, middle - 5, 2, 10);
  }
  return drawn;
}

// A task in deques: from its spawn on in that of its parent's worker, from a steal on in that of the thief.
function drawQueued(pen, task, born, until, middle, right) {
  let from = born;
  let worker = task === 0 ? 0 : run.worker[born];
  const part = (to, next) => {
    const x0 = Math.max(GUTTER, xOf(from + 0.5));
    const x1 = Math.min(right, xOf(to));
    if (x1 > x0) {
      tint(pen, colorOf(worker), 0.8);
      pen.fillRect(x0, middle - 1.5, x1 - x0, 3);
      pen.globalAlpha = 1;
    }
    from = to;
    worker = next;
  };
  for (let i = run.eventsOf.start[task]; i < run.eventsOf.start[task + 1]; i++) {
    const e = run.eventsOf.items[i];
    if (run.kind[e] !== STEAL) break;
    part(e + 0.5, run.worker[e]);
  }
  part(until, worker);
}

function dashes(pen, x0, x1, middle) {
  if (x1 <= x0) return;
  pen.strokeStyle = colors.soft;
  pen.lineWidth = 1.5;
  pen.setLineDash([3, 3]);
  pen.beginPath();
  pen.moveTo(x0, middle);
  pen.lineTo(x1, middle);
  pen.stroke();
  pen.setLineDash([]);
}

// Several tasks in one row, one after the other.
function drawPackedRow(pen, row, y, width) {
  const group = run.byRow;
  const high = group.start[row + 1];
  let at = Math.max(group.start[row], lastOf(group, row, run.spawned, view.from));
  let drawn = GUTTER - 1;
  for (; at < high && run.spawned[group.items[at]] < view.to; at++) {
    const task = group.items[at];
    const x1 = xOf(run.ended[task] + 1);
    if (x1 < drawn + 0.5) continue;
    if (x1 - xOf(run.spawned[task]) < 2) {
      const spell = run.spellsOfTask.start[task] < run.spellsOfTask.start[task + 1]
        ? run.spellsOfTask.items[run.spellsOfTask.start[task]] : NONE;
      tint(pen, colorOf(spell < 0 ? NONE : run.spellWorker[spell]), 1);
      pen.fillRect(Math.max(GUTTER, x1 - 2), y + ROW / 2 - 5.5, 2, 11);
      drawn = Math.max(GUTTER, x1);
      at = Math.max(at, lastOf(group, row, run.spawned, eventAt(x1 + 1)) - 1);
      continue;
    }
    if (task === view.task) {
      tint(pen, colors.mark, 1);
      const x0 = Math.max(GUTTER, xOf(run.spawned[task]));
      pen.fillRect(x0, y, Math.min(width, x1) - x0, ROW);
    }
    drawn = drawLife(pen, task, y + ROW / 2, width, drawn - 1);
  }
  pen.globalAlpha = 1;
}

const finishesNote = () => 'solid: the owner works in it · dashed: the owner waits' +
  (run.rescueAt.length > 0 ? ' · dot: a rescue drops its faults' : '');

// Several finishes in one row: solid while the owner works in one, dashed while it waits. A dot at the end of a rescued one.
function drawFinishRow(pen, row, y, width) {
  const group = run.scopesByRow;
  const high = group.start[row + 1];
  const right = width - EDGE;
  let at = Math.max(group.start[row], lastOf(group, row, run.scopeAt, view.from));
  let drawn = -9;
  for (; at < high && run.scopeAt[group.items[at]] < view.to; at++) {
    const scope = group.items[at];
    const x0 = Math.max(GUTTER, xOf(run.scopeAt[scope]));
    const x1 = Math.min(right, xOf(Math.min(run.events, run.scopePassed[scope] + 1)));
    if (x1 < GUTTER || x1 < drawn + 1) continue;
    drawn = x1;
    const middle = y + ROW / 2;
    const parked = clamp(xOf(Math.min(run.events, run.scopeParked[scope] + 1)), x0, x1);
    tint(pen, colors.soft, 1);
    pen.fillRect(x0, middle - 2, Math.max(1, parked - x0), 4);
    if (x1 - x0 < 3) continue;
    dashes(pen, parked, x1, middle);
    tint(pen, colors.soft, 1);
    pen.fillRect(x0, middle - 5, 1.5, 10);
    if (run.scopePassed[scope] < run.events) pen.fillRect(x1 - 1.5, middle - 5, 1.5, 10);
    if (run.rescued[scope] > 0) drawDot(pen, colors.rescue, x1 - 1, middle);
    const name = scopeName(run, scope);
    pen.font = SMALL;
    const needed = pen.measureText(name).width + 6;
    if (x1 - x0 > needed + 12) {
      tint(pen, colors.panel, 0.95);
      pen.fillRect(x0 + 5, middle - 7, needed, 14);
      tint(pen, colors.ink, 1);
      pen.fillText(name, x0 + 8, middle + 0.5);
    }
  }
  pen.globalAlpha = 1;
}

function drawDot(pen, color, x, y) {
  tint(pen, color, 1);
  pen.beginPath();
  pen.arc(x, y, 3.5, 0, 7);
  pen.fill();
}

// ---- the left end of a row

// A sign for where a task is: a triangle (runs), three lines (in a deque), two bars (waits), a hook (has ended), a dot.
function drawState(pen, state, worker, x, middle) {
  pen.fillStyle = colorOf(worker);
  if (state === RUNS) {
    pen.beginPath();
    pen.moveTo(x - 4, middle - 5.5);
    pen.lineTo(x + 6, middle);
    pen.lineTo(x - 4, middle + 5.5);
    pen.fill();
  } else if (state === QUEUED) {
    for (let y = -4; y <= 4; y += 4) pen.fillRect(x - 4, middle + y - 1, 9, 2);
  } else if (state === WAITS) {
    pen.fillStyle = colors.ink;
    pen.fillRect(x - 3, middle - 4.5, 3, 9);
    pen.fillRect(x + 2, middle - 4.5, 3, 9);
  } else if (state === ENDED) {
    pen.strokeStyle = colors.soft;
    pen.lineWidth = 1.8;
    pen.beginPath();
    pen.moveTo(x - 4, middle);
    pen.lineTo(x - 1, middle + 4);
    pen.lineTo(x + 5, middle - 4);
    pen.stroke();
  } else {
    pen.fillStyle = colors.soft;
    pen.beginPath();
    pen.arc(x, middle, 1.8, 0, 7);
    pen.fill();
  }
}

function drawTaskName(pen, task, middle, width) {
  const {state, worker} = whereIs(run, task, view.at);
  if (task === run.task[view.at]) {
    tint(pen, colors.cursor, 0.1);
    pen.fillRect(0, middle - ROW / 2, width, ROW);
    pen.globalAlpha = 1;
  }
  drawState(pen, state, worker, 14, middle);
  drawRowText(pen, pathOf(run, task), 26 + Math.min(run.depth[task], 6) * 7, middle, state === UNBORN || state === ENDED);
}

// The text of a row, cut at its left if it is too long.
function drawRowText(pen, text, x, middle, faint) {
  pen.font = CODE;
  const most = Math.floor((GUTTER - 4 - x) / 7.3);
  pen.fillStyle = faint ? colors.soft : colors.ink;
  pen.fillText(cut(text, most), x, middle + 0.5);
}

// In a packed row, the task that is there at the cursor.
function packedTask(row, event) {
  const at = lastOf(run.byRow, row, run.spawned, event);
  const task = at < 0 ? NONE : run.byRow.items[at];
  return task >= 0 && (run.ended[task] >= event || !run.isOver[task]) ? task : NONE;
}

function drawPackedName(pen, row, middle, width) {
  const task = packedTask(row, view.at);
  if (task < 0) return;
  const {state, worker} = whereIs(run, task, view.at);
  if (task === run.task[view.at]) {
    tint(pen, colors.cursor, 0.1);
    pen.fillRect(0, middle - ROW / 2, width, ROW);
    pen.globalAlpha = 1;
  }
  drawState(pen, state, worker, 14, middle);
  drawRowText(pen, pathOf(run, task), 26, middle, state === ENDED);
}

function scopeInRow(row, event) {
  const at = lastOf(run.scopesByRow, row, run.scopeAt, event);
  const scope = at < 0 ? NONE : run.scopesByRow.items[at];
  return scope >= 0 && run.scopePassed[scope] >= event ? scope : NONE;
}

function drawFinishName(pen, row, middle, width) {
  const scope = scopeInRow(row, view.at);
  if (scope >= 0 && scope === scopeAround(run, taskAtCursor(), view.at)) {
    tint(pen, colors.cursor, 0.1);
    pen.fillRect(0, middle - ROW / 2, width, ROW);
    pen.globalAlpha = 1;
  }
  if (scope >= 0) drawRowText(pen, scopeName(run, scope), 12, middle, false);
}
