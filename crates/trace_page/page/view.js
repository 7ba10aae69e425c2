// What is shown: the cursor, the part of the events in view, marks, colours; and the link that restores it.

const run = readRun(readData(byId('data').textContent));
const program = readProgram(run.data);
followRescues(run, program);

const view = {
  at: 0,                    // the event under the cursor
  from: 0,                  // the first event in view, and the one after the last
  to: 1,
  task: NONE,               // the task that is selected
  label: 0,                 // the label whose executions are marked
  rows: 'tree',             // tree, packed or finishes
  chain: false,             // whether the longest chain is shown
  dark: false,
  pointed: NONE,            // the event under the pointer
  playing: false,
  changed: 0,               // what has to be drawn again
};
const [CURSOR, WINDOW, ROWS, LOOK, POINTER] = [1, 2, 4, 8, 16];
const SPAN = Math.max(run.events, 8);
const GUTTER = 136;
const EDGE = 10;
const PALETTE = 8;

const colors = {};
const patterns = [];

const changed = what => { view.changed |= what; };

// Widths and heights of elements, and how far they are scrolled. They are read when they change, because reading them
// makes the browser lay out the page.
const sizes = {lanes: 0, rows: 0, rowsTop: 0, log: 0, text: 0, textTop: 0};

function measure() {
  sizes.lanes = byId('lanes').clientWidth;
  sizes.rows = byId('rows').clientHeight;
  sizes.log = byId('log').clientHeight || sizes.log;
  sizes.text = byId('text').clientHeight || sizes.text;
  readScrolls();
  changed(CURSOR | WINDOW | ROWS | LOOK);
}

function readScrolls() {
  sizes.rowsTop = byId('rows').scrollTop;
  sizes.textTop = byId('text').scrollTop;
}

// Scrolls an element whose content has a height, so that a part of it can be seen. Returns where it is scrolled to.
function scrolledTo(element, top, height, content, y, part) {
  if (y >= top + 4 && y + part <= top + height - 4) return top;
  const to = clamp(y - height / 2, 0, Math.max(0, content - height));
  element.scrollTop = to;
  return to;
}

// ---- colours and patterns

function readColors(dark) {
  view.dark = dark;
  document.documentElement.dataset.theme = dark ? 'dark' : 'light';
  const style = getComputedStyle(document.documentElement);
  for (const name of ['panel', 'ink', 'soft', 'line', 'lane', 'mark', 'cursor', 'gold', 'hit', 'on', 'rescue']) {
    colors[name] = style.getPropertyValue('--' + name).trim();
  }
  for (let i = 0; i < PALETTE; i++) colors['w' + i] = style.getPropertyValue('--w' + i).trim();
  patterns.length = 0;
  for (let i = 0; i < PALETTE; i++) patterns.push(patternOf(i));
  changed(CURSOR | WINDOW | ROWS | LOOK);
}

const colorOf = worker => (worker < 0 ? colors.soft : colors['w' + (worker % PALETTE)]);

// Workers with one colour have different patterns, and so have neighbouring colours.
const patternNumber = worker => (worker + Math.floor(worker / PALETTE)) % PALETTE;
const fillPattern = worker => (worker < 0 ? null : patterns[patternNumber(worker)]);

// Lines and dots in the colour of text on a bar, which are laid over its colour.
function patternOf(number) {
  const size = 8;
  const tile = document.createElement('canvas');
  tile.width = tile.height = size;
  const pen = tile.getContext('2d');
  pen.strokeStyle = pen.fillStyle = colors.on;
  pen.globalAlpha = 0.42;
  pen.lineWidth = 1.4;
  const line = (x0, y0, x1, y1) => {
    pen.beginPath();
    pen.moveTo(x0, y0);
    pen.lineTo(x1, y1);
    pen.stroke();
  };
  const rising = () => { line(-2, 2, 2, -2); line(-2, 10, 10, -2); line(6, 10, 10, 6); };
  const falling = () => { line(-2, 6, 2, 10); line(-2, -2, 10, 10); line(6, -2, 10, 2); };
  const dot = (x, y) => {
    pen.beginPath();
    pen.arc(x, y, 1.3, 0, 7);
    pen.fill();
  };
  const draws = [() => {}, rising, () => { dot(2, 2); dot(6, 6); }, falling, () => line(0, 4, 8, 4), () => line(4, 0, 4, 8),
    () => { rising(); falling(); }, () => { line(0, 4, 8, 4); line(4, 0, 4, 8); }];
  draws[number]();
  return pen.createPattern(tile, 'repeat');
}

// ---- the part in view, and the cursor

// The task of the event under the cursor; the root if there is no event.
const taskAtCursor = () => (run.events > 0 ? run.task[view.at] : 0);

function show(from, to) {
  const width = clamp(to - from, Math.min(8, SPAN), SPAN);
  view.from = clamp(from, 0, SPAN - width);
  view.to = view.from + width;
  changed(WINDOW | ROWS);
  keepLink();
}

function zoom(factor, around = view.at + 0.5) {
  const at = around < view.from || around > view.to ? (view.from + view.to) / 2 : around;
  show(at - (at - view.from) * factor, at + (view.to - at) * factor);
}

// Moves the cursor. The part in view follows, unless the event was clicked in it.
function go(event, keepInView = true) {
  view.at = clamp(event, 0, Math.max(0, run.events - 1));
  const width = view.to - view.from;
  if (keepInView && (view.at < view.from + width * 0.04 || view.at + 1 > view.to - width * 0.04)) {
    show(view.at - width * 0.3, view.at + width * 0.7);
  }
  if (keepInView) showRow(taskAtCursor());
  changed(CURSOR);
  keepLink();
}

function selectTask(task) {
  view.task = task;
  if (task >= 0) showRow(task);
  changed(CURSOR | WINDOW | ROWS);
  keepLink();
}

function markLabel(label) {
  view.label = label;
  changed(CURSOR | WINDOW | LOOK);
  keepLink();
}

// ---- the link

let linkTimer = 0;

function linkOf() {
  const parts = ['at=' + view.at];
  if (view.from > 0 || view.to < SPAN) parts.push(`view=${Math.round(view.from)}-${Math.round(view.to)}`);
  if (view.task >= 0) parts.push('task=' + pathOf(run, view.task));
  if (view.label > 0) parts.push('label=' + view.label);
  if (view.rows !== 'tree') parts.push('rows=' + view.rows);
  if (view.chain) parts.push('chain=1');
  if (byId('schedules').open && schedule.choices.length > 0) parts.push('choices=' + schedule.choices.join(','));
  parts.push('theme=' + (view.dark ? 'dark' : 'light'));
  return '#' + parts.join('&');
}

function keepLink() {
  clearTimeout(linkTimer);
  linkTimer = setTimeout(putLink, 150);
}

// Puts the link into the address. A page that was opened in a frame may not do that; it works without.
function putLink() {
  try { history.replaceState(null, '', linkOf()); } catch (error) { view.link = linkOf(); }
}

// Restores what a link says. Parts that it doesn't name, or names wrongly, keep their values.
function follow(link) {
  const parts = new URLSearchParams(link.replace(/^#/, ''));
  const number = name => (/^[0-9]{1,9}$/.test(parts.get(name) || '') ? Number(parts.get(name)) : null);
  if (parts.has('theme')) readColors(parts.get('theme') === 'dark');
  if (['tree', 'packed', 'finishes'].includes(parts.get('rows'))) view.rows = parts.get('rows');
  keepHeight(byId('tall'), heightOfRows());
  view.chain = parts.get('chain') === '1';
  view.task = parts.has('task') ? taskAt(run, parts.get('task')) : NONE;
  const label = number('label');
  view.label = label !== null && label <= program.labels ? label : 0;
  const range = /^([0-9]{1,9})-([0-9]{1,9})$/.exec(parts.get('view') || '');
  if (range) show(Number(range[1]), Number(range[2])); else show(0, SPAN);
  go(number('at') || 0, !range);
  followChoices(parts.get('choices'));
  changed(CURSOR | WINDOW | ROWS | LOOK);
}

// Opens the schedule that a link names.
function followChoices(text) {
  if (!/^[0-9]{1,4}(,[0-9]{1,4})*$/.test(text || '') || whyNoSchedules() !== '') return;
  chooseAll(text.split(',').map(Number));
  openSchedules();
}

// ---- canvases

// Makes a canvas as large as it is shown, and returns a clean context in units of the page.
function penOf(canvas, width, height) {
  const ratio = window.devicePixelRatio || 1;
  const [w, h] = [Math.max(1, Math.round(width * ratio)), Math.max(1, Math.round(height * ratio))];
  if (canvas.width !== w || canvas.height !== h) {
    canvas.width = w;
    canvas.height = h;
    canvas.style.width = width + 'px';
    canvas.style.height = height + 'px';
  }
  const pen = canvas.getContext('2d');
  pen.setTransform(ratio, 0, 0, ratio, 0, 0);
  pen.clearRect(0, 0, width, height);
  pen.globalAlpha = 1;
  pen.textAlign = 'left';
  pen.textBaseline = 'middle';
  pen.font = TEXT;
  return pen;
}

const TEXT = '12px system-ui, "DejaVu Sans", sans-serif';
const SMALL = '11px system-ui, "DejaVu Sans", sans-serif';
const BOLD = '600 11px system-ui, "DejaVu Sans", sans-serif';
const CODE = '12px ui-monospace, "DejaVu Sans Mono", monospace';
const TINY_CODE = '10px ui-monospace, "DejaVu Sans Mono", monospace';

const perEvent = () => (sizes.lanes - GUTTER - EDGE) / (view.to - view.from);
const xOf = event => GUTTER + (event - view.from) * perEvent();
const eventAt = x => view.from + (x - GUTTER) / perEvent();

function tint(pen, color, alpha) {
  pen.globalAlpha = alpha;
  pen.fillStyle = color;
}

// Fills a rectangle with the colour of a worker and its pattern.
function workerBar(pen, worker, x, y, width, height, alpha) {
  tint(pen, colorOf(worker), alpha);
  pen.fillRect(x, y, width, height);
  const pattern = fillPattern(worker);
  if (width >= 6 && pattern) {
    tint(pen, pattern, alpha);
    pen.fillRect(x, y, width, height);
  }
  pen.globalAlpha = 1;
}
