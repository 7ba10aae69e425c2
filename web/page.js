// The page: a program on the left; what `afx` says of it on the right. Each answer is a run of a command in a worker.
"use strict";

const $ = id => document.getElementById(id);
const { programs: EXAMPLES, inputs: INPUTS, groups: GROUPS } = JSON.parse($("examples").textContent);
const FILE = "program.afx";
const STEPS = 200_000, TRACED_STEPS = 5_000, LISTS = 20_000;

// ---- the worker: it holds the module, and can be ended at any time

let worker, kept, ids = 0;
const waiting = new Map();

function begin() {
  worker = new Worker(URL.createObjectURL(new Blob([$("worker").textContent.replaceAll("<\\/", "</")], { type: "text/javascript" })));
  return new Promise((ready, failed) => {
    worker.onmessage = ({ data }) => {
      if (data.ready) {
        kept ??= data.module;
        ready(data);
      } else if (data.failed) failed(data.failed);
      else {
        waiting.get(data.id)?.(data);
        waiting.delete(data.id);
        busy();
      }
    };
    worker.postMessage(kept ? { module: kept } : { packed: $("module").textContent });
  });
}

/** Runs a command on the program; `more` are further files. */
function afx(words, more = {}) {
  const files = { [FILE]: program(), ...more };
  if ($("input").value.trim() && INPUT_COMMANDS.includes(words[0]) && words.includes(FILE)) {
    files["input.json"] = $("input").value;
    words = [...words, "--input", "input.json"];
  }
  return new Promise(done => {
    const id = ++ids;
    waiting.set(id, done);
    worker.postMessage({ id, words, files });
    setTimeout(busy, 200);
  });
}
const INPUT_COMMANDS = ["inspect", "cost", "explore", "walk", "view"];

function busy() {
  $("stop").disabled = !waiting.size;
}

function stop(why = "stopped by you") {
  if (!waiting.size) return;
  worker.terminate();
  const left = [...waiting.values()];
  waiting.clear();
  begin();
  for (const done of left) done({ status: -1, out: "", err: why, ms: 0, mb: 0, files: {} });
  busy();
}

// ---- the editor

const program = () => $("text").value;
// Marks of lines: what the verdict says of them, and above that what is chosen or may go next.
let marks = {}, nexts = {}, turn = 0, timer;

function paint() {
  const lines = program().split("\n");
  $("numbers").textContent = lines.map((_, i) => i + 1).join("\n");
  $("shown").innerHTML = lines.map((line, i) => {
    const mark = nexts[i + 1] ?? marks[i + 1];
    const says = mark?.says ? ` data-says="${escaped(mark.says)}"` : "";
    return `<span class="line ${mark?.kind ?? ""}"${says}>${coloured(line) || " "}</span>`;
  }).join("");
}

function mark(line, kind, says, why) {
  if (line) marks[line] ??= { kind, says, why: why ?? says };
}

function edited() {
  turn++;
  if (waiting.size) stop("the program has changed");
  marks = {};
  nexts = {};
  choices = [];
  ends = new Map();
  paint();
  complete();
  clearTimeout(timer);
  timer = setTimeout(look, 150);
}

/** Puts a text in place of a part, so that it can be undone. */
function replace(from, to, text) {
  const area = $("text");
  area.focus();
  area.setSelectionRange(from, to);
  if (!document.execCommand("insertText", false, text)) {
    area.setRangeText(text, from, to, "end");
    edited();
  }
}

const setProgram = text => replace(0, program().length, text);

// words that may follow

let words = [], chosen = 0;

function complete(asked = false) {
  const area = $("text"), at = area.selectionStart;
  const begun = /[A-Za-z_][A-Za-z0-9_]*$/.exec(area.value.slice(0, at))?.[0] ?? "";
  const others = area.value.slice(0, at - begun.length) + area.value.slice(at);
  const after = /[A-Za-z0-9_]/.test(area.value[at] ?? "");
  words = (asked || begun.length > 1) && !after && area.selectionEnd === at && document.activeElement === area
    ? namesIn(others).filter(name => name.startsWith(begun) && name !== begun).sort().slice(0, 40) : [];
  chosen = 0;
  const list = $("words");
  list.hidden = !words.length;
  if (!words.length) return;
  list.innerHTML = words.map((name, i) => `<li role="option" aria-selected="${i === chosen}">${escaped(name)}</li>`).join("");
  const before = area.value.slice(0, at).split("\n"), probe = document.createElement("span");
  probe.textContent = before.at(-1).slice(0, before.at(-1).length - begun.length).replaceAll("\t", "  ") || "";
  probe.style.cssText = "position:absolute;visibility:hidden;white-space:pre";
  $("shown").append(probe);
  list.style.left = `${probe.getBoundingClientRect().width + 4}px`;
  probe.remove();
  list.style.top = `${10 + before.length * 21}px`;
}

function choose(by) {
  chosen = (chosen + by + words.length) % words.length;
  [...$("words").children].forEach((item, i) => item.setAttribute("aria-selected", i === chosen));
  $("words").children[chosen].scrollIntoView({ block: "nearest" });
}

function accept(number = chosen) {
  const at = $("text").selectionStart, begun = /[A-Za-z_0-9]*$/.exec(program().slice(0, at))[0];
  replace(at - begun.length, at, words[number]);
  $("words").hidden = true;
  words = [];
}

$("text").addEventListener("keydown", event => {
  const area = $("text");
  if (words.length && ["ArrowDown", "ArrowUp", "Tab", "Escape"].includes(event.key)) {
    event.preventDefault();
    event.stopPropagation();
    if (event.key === "Tab") accept();
    else if (event.key === "Escape") { words = []; $("words").hidden = true; }
    else choose(event.key === "ArrowDown" ? 1 : -1);
  } else if (event.key === "Enter" && !event.ctrlKey && !event.metaKey) {
    const before = area.value.slice(0, area.selectionStart), line = before.slice(before.lastIndexOf("\n") + 1);
    event.preventDefault();
    replace(area.selectionStart, area.selectionEnd, "\n" + /^ */.exec(line)[0] + (line.trimEnd().endsWith("{") ? "  " : ""));
  } else if (event.key === "}" && /(^|\n)( {2})+$/.test(area.value.slice(0, area.selectionStart))) {
    event.preventDefault();
    replace(area.selectionStart - 2, area.selectionEnd, "}");
  } else if (event.key === " " && event.ctrlKey) {
    event.preventDefault();
    complete(true);
  }
});
$("text").addEventListener("input", edited);
$("text").addEventListener("blur", () => setTimeout(() => { $("words").hidden = true; }, 150));
$("words").addEventListener("mousedown", event => {
  event.preventDefault();
  const item = event.target.closest("li");
  if (item) accept([...$("words").children].indexOf(item));
});
$("input").addEventListener("input", edited);

// reasons at the pointer

$("text").addEventListener("mousemove", event => {
  const line = Math.floor((event.clientY - $("text").getBoundingClientRect().top - 10) / 21) + 1, told = (nexts[line] ?? marks[line])?.why;
  $("tip").hidden = !told;
  if (!told) return;
  $("tip").textContent = told;
  $("tip").style.left = `${Math.min(event.clientX + 12, innerWidth - $("tip").offsetWidth - 8)}px`;
  $("tip").style.top = `${event.clientY + 16}px`;
});
$("text").addEventListener("mouseleave", () => { $("tip").hidden = true; });
$("text").addEventListener("click", () => {
  const line = program().slice(0, $("text").selectionStart).split("\n").length;
  const number = tab === "schedules" ? open.findIndex(task => task.line === line) : -1;
  if (number >= 0 && open.filter(task => task.line === line).length === 1) step(number);
});

// ---- the verdict: `inspect` says at every change whether the program is accepted, which statements it has, and what it does

let accepted = false, readable = false, answers = {}, statements = [], took = "";

function verdict(kind, sign, head, small, why = "") {
  $("verdict").className = kind;
  $("verdict").querySelector(".sign").textContent = sign;
  $("verdict").querySelector("strong").textContent = head;
  $("verdict").querySelector("small").textContent = small;
  $("why").textContent = why;
  $("fixes").textContent = "";
}

const object = text => {
  try {
    return JSON.parse(text);
  } catch {
    return {};
  }
};

/** Why something is refused, and what would be right. */
const explained = error => [error.reason ?? "", ...(error.help ?? []).map(help => `help: ${help}`)].filter(Boolean).join("\n");
const firstLine = text => (text ?? "").split("\n")[0];

async function look() {
  const now = ++turn, run = await afx(["inspect", "--steps", String(STEPS), FILE]);
  if (now !== turn) return;
  answers = object(run.out);
  statements = [];
  for (const one of answers.list?.statements ?? []) statements[one.label] = one;
  took = `${run.ms.toFixed(1)} ms, ${run.mb.toFixed(0)} MB`;
  marks = {};
  judge(answers.check ?? { message: run.err || "no answer" }, now);
  paint();
  show();
}

function judge(check, now) {
  accepted = Boolean(check.accepted);
  readable = accepted || Boolean(check.race);
  if (accepted) {
    verdict("good", "✓", "No race", `every schedule gives one answer: ${many(check.labels, "statement")}, ${many(check.procedures, "procedure")}`);
    warn(now);
  } else if (check.race) {
    markRace(check.race);
    const { first, second, procedure } = check.race;
    const lines = first.line === second.line ? `line ${first.line} may run at the same time as itself` : `lines ${first.line} and ${second.line} may run at the same time`;
    verdict("bad", "!", `A race in ${procedure}`, `${lines}, and share elements`, explained(check));
    offerFinish(check.race, now);
  } else {
    const why = firstLine(check.reason);
    mark(check.line, "wrong", check.code ?? "", explained(check));
    verdict("bad", "!", why || check.message, [check.message, check.line ? `line ${check.line}, column ${check.column}` : ""].filter(Boolean).join(", "),
      explained({ ...check, reason: (check.reason ?? "").split("\n").slice(1).join("\n") }));
    for (const help of check.help ?? []) offerInsert(check, help, now);
  }
}

/** Warnings about an accepted program, and marks at their lines. */
async function warn(now) {
  const run = await afx(["check", "--warn=always", FILE]);
  if (now !== turn || !run.err.trim()) return;
  for (const [, line, text] of run.err.matchAll(/^[^\s:]+:(\d+):\d+: warning: (.*)$/gm)) mark(+line, "warned", text, text);
  $("why").textContent = run.err.trim();
  paint();
}

function markRace(race) {
  const { first, second, witness } = race;
  const says = access => `${access.kind === "write" ? "writes" : "reads"} ${access.section}`;
  const both = first.line === second.line;
  mark(first.line, "first", both ? `${says(first)} and ${says(second)}` : says(first),
    `${says(first)}; line ${second.line} ${says(second)}, and may run at the same time`);
  mark(second.line, "second", says(second), `${says(second)}; line ${first.line} ${says(first)}, and may run at the same time`);
  for (const way of [witness?.first ?? [], witness?.second ?? []]) {
    for (const one of way.slice(0, -1)) {
      const word = {
        async: "starts a task", call: `calls ${one.calls}`, finish: "waits for its tasks", while: "comes again", parts: "has a turn for each piece",
        rescue: "goes on after faults", split: `names ${one.section}`,
      }[one.kind];
      mark(one.line, "way", word ?? "", `on the way to an access: ${word ?? one.kind}`);
    }
  }
}

// ---- fixes: each is tried, and offered only if `check` says that it helps

function offer(name, text) {
  const button = document.createElement("button");
  button.textContent = name;
  button.onclick = () => setProgram(text);
  $("fixes").append(button);
}

async function tryFix(name, text, helps, now) {
  const laid = await afx(["fmt", FILE], { [FILE]: text });
  const fixed = laid.status === 0 ? laid.out : text;
  const found = await afx(["check", "--format", "json", FILE], { [FILE]: fixed });
  if (now === turn && helps(object(found.out))) offer(name, fixed);
}

/** The first statement of the way to the access that still has to be done, inside a finish. */
function offerFinish(race, now) {
  const way = race.witness?.pending === "second" ? race.witness?.second : race.witness?.first;
  const start = way?.[0];
  if (!start?.line) return;
  const text = program(), from = offsetOf(text, start.line, start.column), to = endOf(text, from);
  const fixed = `${text.slice(0, from)}finish { ${text.slice(from, to)} }${text.slice(to)}`;
  tryFix(`Put line ${start.line} into a finish`, fixed, next => next.accepted || (next.race && next.race.first.line !== race.first.line), now);
}

/** A sign or a word that is missing. */
function offerInsert(error, help, now) {
  const word = /^add `([^`]+)` before this\.$/.exec(help)?.[1];
  if (!word || !error.line) return;
  const text = program(), at = offsetOf(text, error.line, error.column), before = text.slice(0, at).trimEnd().length;
  const fixed = `${text.slice(0, before)}${word}${text.slice(before)}`;
  const further = next => next.accepted || next.race || next.line > error.line
    || (next.line === error.line && next.column > error.column + word.length);
  tryFix(`Add ${word}`, fixed, further, now);
}

// ---- what is shown

const TABS = [["answer", "Answer"], ["cost", "Cost"], ["pairs", "May run together"], ["schedules", "Schedules"], ["trace", "Trace"]];
let tab = "answer", choices = [], open = [], ends = new Map();

function drawTabs() {
  $("tabs").innerHTML = TABS.map(([name, title], i) =>
    `<button role="tab" id="tab-${name}" data-tab="${name}" aria-controls="pane" aria-selected="${name === tab}" tabindex="${name === tab ? 0 : -1}"`
    + ` title="Alt+${i + 1}">${title}</button>`).join("");
  $("pane").setAttribute("aria-labelledby", `tab-${tab}`);
}

function select(name) {
  tab = name;
  nexts = {};
  drawTabs();
  paint();
  show();
}

const pane = html => {
  $("pane").className = "";
  $("pane").innerHTML = html;
};
const many = (count, word) => `${count.toLocaleString("en")} ${word}${count === 1 ? "" : "s"}`;
const note = text => `<p class="note">${text}</p>`;
const current = (now, name) => now === turn && tab === name;

async function show() {
  const now = turn;
  if (!readable) return pane(tab === "answer" ? "" : note("First fix what is reported above."));
  await { answer: showAnswer, cost: showCost, pairs: showPairs, schedules: showSchedules, trace: showTrace }[tab](now);
}

/** An error in one line, with what its explanation says. */
const failed = error => `<pre>${escaped(error.message ?? "")}\n${escaped(explained(error))}</pre>`;

/** An outcome: its lines, its faults, its arrays. */
function ending(outcome) {
  if (outcome.stopped) return `<pre>stopped</pre>${note(`A task has more than ${STEPS.toLocaleString("en")} steps, or asyncs are nested too deep.`)}`;
  const lines = (outcome.lines ?? []).map(line => line.join(" ")).join("\n");
  const faults = (outcome.faults ?? []).map(one =>
    `\nfault ${one.path} at line ${one.line}: ${one.kind}${one.number === null ? "" : ` ${one.number}`}`).join("");
  const arrays = Object.entries(outcome.arrays ?? {}).map(([name, numbers]) =>
    `\n${escaped(name)}: ${numbers.slice(0, 32).join(" ")}${numbers.length > 32 ? ` .. (${many(numbers.length, "element")})` : ""}`).join("");
  return `<pre>${escaped(lines) || "<i>nothing is printed</i>"}${escaped(faults)}</pre>${arrays ? `<pre class="arrays">${arrays.trim()}</pre>` : ""}`;
}

function showAnswer() {
  const outcome = answers.serial ?? {};
  pane((outcome.message ? failed(outcome) : ending(outcome))
    + note(`On one thread: each async runs in place. ${took}. `
    + (accepted ? "Every schedule gives the same answer: that is proved." : "Other schedules may give another answer: see “Schedules”.")));
}

const where = label => {
  const one = statements[label];
  return one ? `${one.line}: ${one.text.slice(0, 50)}` : `label ${label}`;
};

async function showCost(now) {
  const run = await afx(["cost", "--by-line", "--format", "json", "--steps", String(STEPS), FILE]), cost = object(run.out);
  if (!current(now, "cost")) return;
  if (cost.work === undefined) return pane(cost.message ? failed(cost) : ending(cost) + note("Only a run that ends without faults has a cost."));
  const rows = [...cost.statements].sort((a, b) => b.work - a.work).filter(row => row.work), most = rows[0]?.work || 1;
  pane(`<p><b>${many(cost.work, "step")}</b> of ${many(cost.tasks, "task")}; the longest chain has <b>${cost.span.toLocaleString("en")}</b>. So no number of`
    + ` workers is more than <b>${(cost.work / Math.max(1, cost.span)).toFixed(2)}</b> times as fast.</p>`
    + note("Steps by statement, and in brackets those on the longest chain:")
    + `<div class="bars">${rows.slice(0, 20).map(row => `<code>${escaped(where(row.label))}</code>`
      + `<span class="bar" style="width:${Math.max(0.5, 100 * row.work / most)}%"></span><span>${row.work.toLocaleString("en")} (${row.span.toLocaleString("en")})</span>`).join("")}</div>`);
}

async function showPairs(now) {
  const run = await afx(["mhp", "--format", "json", FILE]), { pairs, ...error } = object(run.out);
  if (!current(now, "pairs")) return;
  if (!pairs) return pane(failed(error));
  pane(note(pairs.length ? `${many(pairs.length, "pair")} of statements may run at the same time. Choose one to see it.` : "No two statements may run at the same time.")
    + pairs.slice(0, 200).map(([one, other]) => `<div class="row"><button data-lines="${statements[one]?.line},${statements[other]?.line}">`
      + `<code>${escaped(where(one))}</code> with <code>${escaped(where(other))}</code></button></div>`).join("")
    + (pairs.length > 200 ? note("The others are left out.") : ""));
}

// schedules, step by step

const explore = list => afx(["explore", "--format", "json", "--choices", list.map(choice => choice.number).join(","), FILE]);

async function showSchedules(now) {
  const run = await explore(choices), answer = object(run.out);
  if (!current(now, "schedules")) return;
  open = answer.open ?? [];
  markNext();
  if (!answer.open && !answer.message) ends.set(JSON.stringify(answer), { answer, choices: [...choices] });
  const head = answer.message ? failed(answer)
    : answer.open ? `<p>After ${many(choices.length, "step")}, <b>${many(open.length, "task")}</b> may take the next one. Choose it here, or click its line.</p>`
      : `<p>The run has ended after ${many(choices.length, "step")}:</p>${ending(answer)}`;
  pane(head + nextTasks()
    + `<div class="row"><button data-do="back"${choices.length ? "" : " disabled"}>One back</button>`
    + `<button data-do="again"${choices.length ? "" : " disabled"}>From the start</button>`
    + `<button data-do="on"${open.length ? "" : " disabled"}>On at random</button><button data-do="all">Look for all ends</button></div>`
    + foundEnds()
    + (choices.length ? `<ol class="steps">${choices.map(choice => `<li>${choice.path}: ${escaped(where(choice.label))}</li>`).join("")}</ol>` : ""));
}

function nextTasks() {
  return `<div class="tasks">${open.slice(0, 60).map((task, i) => `<button data-step="${i}"><span class="path">${task.path}</span>`
    + `<span>line ${task.line}</span><code>${escaped(statements[task.label]?.text ?? "")}</code></button>`).join("")}</div>`
    + (open.length > 60 ? note("The others are left out.") : "");
}

/** Marks the lines whose statements may go next. */
function markNext() {
  nexts = {};
  for (const task of open) {
    const before = nexts[task.line] ? `${nexts[task.line].says}, ` : "next: ";
    nexts[task.line] = { kind: "next", says: `${before}${task.path}`, why: "click: this task takes the next step" };
  }
  paint();
}

function foundEnds() {
  if (!ends.size) return "";
  const told = ends.size === 1 ? "One end was found" : `${ends.size} different ends were found`;
  return note(`${told}.${accepted ? " There is no other: that is proved." : ""}`)
    + `<div class="ends">${[...ends.values()].map((end, i) => `<div>${ending(end.answer)}<button data-end="${i}">Show how</button></div>`).join("")}</div>`;
}

const chosenTask = (task, number) => ({ number, path: task.path, label: task.label });

function step(number) {
  choices.push(chosenTask(open[number], number));
  return showSchedules(turn);
}

async function onAtRandom() {
  const now = turn;
  for (let count = 0; count < 2000 && current(now, "schedules"); count++) {
    const answer = object((await explore(choices)).out);
    if (!answer.open) break;
    const number = Math.floor(Math.random() * answer.open.length);
    choices.push(chosenTask(answer.open[number], number));
  }
  if (current(now, "schedules")) show();
}

/** Asks for the ends of all schedules. */
async function allEnds() {
  const now = turn;
  $("state").textContent = "looking for all ends";
  const answer = object((await afx(["explore", "--all", String(LISTS), FILE])).out);
  $("state").textContent = "";
  if (!current(now, "schedules") || !answer.ends) return;
  ends = new Map();
  for (const end of answer.ends) ends.set(JSON.stringify(end.outcome), { answer: end.outcome, numbers: end.choices });
  $("state").textContent = answer.all ? `all schedules were tried: ${many(answer.tried, "list")} of choices`
    : `not all schedules: ${many(answer.tried, "list")} of choices`;
  show();
}

/** The tasks that choices name. */
async function tasksOf(numbers) {
  const list = [];
  for (const number of numbers) list.push(chosenTask(object((await explore(list)).out).open[number], number));
  return list;
}

async function showHow(end) {
  const now = turn, list = end.choices ?? await tasksOf(end.numbers);
  if (!current(now, "schedules")) return;
  choices = [...list];
  show();
}

// a trace

let workers = 3, seed = 1, shownPage = "";

const controls = (more = "") => `<div class="row"><label>Workers <input id="workers" type="number" min="1" max="64" value="${workers}"></label>`
  + `<label>Seed <input id="seed" type="number" min="0" value="${seed}"></label><button data-do="another">Another schedule</button>${more}</div>`;

async function showTrace(now) {
  if (!accepted) return pane(note("Only a program without a race is run on several workers."));
  const run = await afx(["walk", "--workers", String(workers), "--seed", String(seed), "--steps", String(TRACED_STEPS), "--trace", "program.trace", FILE]);
  if (!current(now, "trace")) return;
  const trace = run.files["program.trace"];
  if (!trace) return pane(`${controls()}<pre>${escaped(run.err)}</pre>`);
  const view = await afx(["view", FILE, "program.trace", "--html", "trace.html"], { "program.trace": trace });
  if (!current(now, "trace")) return;
  const page = view.files["trace.html"];
  if (!page) return pane(`${controls()}<pre>${escaped(view.err)}</pre>`);
  URL.revokeObjectURL(shownPage);
  shownPage = URL.createObjectURL(new Blob([page], { type: "text/html" }));
  pane(controls(`<a href="${shownPage}" target="_blank">Open it in a tab of its own</a>`) + (run.status === 3 ? note(`Stopped: here a task may take ${TRACED_STEPS.toLocaleString("en")} steps.`) : ""));
  $("pane").className = "framed";
  const frame = document.createElement("iframe");
  frame.title = "The trace of a run";
  frame.src = shownPage;
  $("pane").append(frame);
}

// ---- what can be pressed

$("tabs").addEventListener("click", event => event.target.dataset.tab && select(event.target.dataset.tab));
$("tabs").addEventListener("keydown", event => {
  const by = { ArrowLeft: -1, ArrowRight: 1 }[event.key];
  if (!by) return;
  select(TABS[(TABS.findIndex(([name]) => name === tab) + by + TABS.length) % TABS.length][0]);
  $(`tab-${tab}`).focus();
});
$("pane").addEventListener("click", event => {
  const data = event.target.closest("button")?.dataset ?? {};
  if (data.step) step(+data.step);
  else if (data.end) showHow([...ends.values()][+data.end]);
  else if (data.lines) {
    nexts = {};
    for (const line of data.lines.split(",")) nexts[line] = { kind: "next", says: "may run together", why: "both may run at the same time" };
    paint();
  } else if (data.do === "back") { choices.pop(); show(); }
  else if (data.do === "again") { choices = []; show(); }
  else if (data.do === "on") onAtRandom();
  else if (data.do === "all") allEnds();
  else if (data.do === "another") { seed++; show(); }
});
$("pane").addEventListener("change", event => {
  if (event.target.id === "workers") workers = Math.min(64, Math.max(1, +event.target.value || 1));
  else if (event.target.id === "seed") seed = Math.max(0, Math.floor(+event.target.value) || 0);
  else return;
  show();
});
$("run").onclick = look;
$("stop").onclick = () => stop();
$("format").onclick = format;
$("share").onclick = share;
$("about").onclick = () => {
  $("told").hidden = !$("told").hidden;
  $("about").setAttribute("aria-expanded", String(!$("told").hidden));
};
$("example").onchange = () => load($("example").value);
addEventListener("keydown", event => {
  const control = event.ctrlKey || event.metaKey;
  if (control && event.key === "Enter") look();
  else if (control && event.key === "s") format();
  else if (event.altKey && TABS[+event.key - 1]) select(TABS[+event.key - 1][0]);
  else if (event.key === "Escape" && waiting.size) stop();
  else return;
  event.preventDefault();
});

async function format() {
  const run = await afx(["fmt", FILE]);
  if (run.status === 0 && run.out !== program()) setProgram(run.out);
}

function load(name) {
  $("example").value = name;
  setAll(EXAMPLES[name], INPUTS[name] ?? "");
}

/** Another program, and its input. */
function setAll(text, input) {
  $("input").value = input;
  $("given").open = Boolean(input);
  $("text").value = text;
  $("text").setSelectionRange(0, 0);
  edited();
  words = [];
  $("words").hidden = true;
}

// ---- links: the program, compressed, behind `#`

async function through(stream, bytes) {
  return new Uint8Array(await new Response(new Blob([bytes]).stream().pipeThrough(stream)).arrayBuffer());
}

async function share() {
  const packed = await through(new CompressionStream("deflate-raw"), new TextEncoder().encode(JSON.stringify([program(), $("input").value])));
  const letters = Array.from(packed, byte => String.fromCharCode(byte)).join("");
  location.hash = link = `#p=${btoa(letters).replaceAll("+", "-").replaceAll("/", "_").replaceAll("=", "")}`;
  try {
    await navigator.clipboard.writeText(location.href);
    $("state").textContent = "the link is copied";
  } catch {
    $("state").textContent = "the link is in the address bar";
  }
}

// A link that was opened in this tab, and not made here.
let link = "";
addEventListener("hashchange", () => location.hash !== link && shared());

async function shared() {
  const hash = new URLSearchParams(location.hash.slice(1));
  if (TABS.some(([name]) => name === hash.get("tab"))) tab = hash.get("tab");
  drawTabs();
  if (hash.has("dark")) theme(true);
  if (!hash.has("p")) return load(hash.get("example") in EXAMPLES ? hash.get("example") : "race");
  try {
    const letters = atob(hash.get("p").replaceAll("-", "+").replaceAll("_", "/"));
    const plain = await through(new DecompressionStream("deflate-raw"), Uint8Array.from(letters, letter => letter.charCodeAt(0)));
    const [text, input] = JSON.parse(new TextDecoder().decode(plain));
    setAll(text, input);
  } catch {
    load("race");
    $("state").textContent = "the link has no program";
  }
}

// ---- the start

function theme(dark) {
  document.documentElement.dataset.theme = dark ? "dark" : "light";
  $("theme").textContent = dark ? "Light" : "Dark";
}

async function start() {
  theme(matchMedia("(prefers-color-scheme: dark)").matches);
  $("theme").onclick = () => theme(document.documentElement.dataset.theme !== "dark");
  $("limit").textContent = STEPS.toLocaleString("en");
  $("traced").textContent = TRACED_STEPS.toLocaleString("en");
  $("lists").textContent = LISTS.toLocaleString("en");
  $("example").innerHTML = GROUPS.map(([title, names]) =>
    `<optgroup label="${title}">${names.map(name => `<option>${name}</option>`).join("")}</optgroup>`).join("");
  drawTabs();
  const began = performance.now();
  try {
    const ready = await begin();
    const version = await afx(["--version"]);
    $("state").textContent = `${version.out.trim()}: ${(ready.bytes / 1048576).toFixed(1)} MB of WebAssembly, ready in ${Math.round(performance.now() - began)} ms`;
    document.documentElement.dataset.ready = "yes";
  } catch (error) {
    return verdict("bad", "!", "This browser can’t run the program", `${error}. It needs memories of 64 bits in WebAssembly: Chrome 133, Firefox 134 or later.`);
  }
  await shared();
}

start();
