#!/usr/bin/env python3
"""Opens pages of traces in Chromium, uses them, and compares what they say with what `afx` prints. tests/page.sh runs it.

    check.py [--pictures FOLDER] [--only NAME..]

AFX names the program. WRITER is a command that writes a page: it gets `PROGRAM TRACE [--input FILE] --html OUT`. EXPLORER is
one that writes a page of schedules: it gets `PROGRAM [--input FILE] --html OUT`.
Prints each wrong answer; the last line is `N passed, M failed`.
"""
import json
import os
import pathlib
import re
import subprocess
import sys
import tempfile
import urllib.parse

sys.dont_write_bytecode = True
from browser import Browser  # noqa: E402

TOP = pathlib.Path(__file__).resolve().parent.parent.parent
HERE = pathlib.Path("tests/page")
os.chdir(TOP)
AFX = os.environ.get("AFX", str(TOP / "afx")).split()
WRITER = os.environ.get("WRITER", "").split() or AFX + ["view"]
EXPLORER = os.environ.get("EXPLORER", "").split() or AFX + ["explore"]
SECONDS = float(os.environ.get("PAGE_SECONDS", "3"))
FRAMES = float(os.environ.get("PAGE_FRAMES", "30"))
passed, failed = 0, 0


def holds(what, right, told=""):
    global passed, failed
    if right:
        passed += 1
    else:
        failed += 1
        print(f"{what}: {told}" if told != "" else what, flush=True)


def same(what, got, wanted):
    holds(what, got == wanted, f"got {str(got)[:300]!r}, expected {str(wanted)[:300]!r}")


def ask(*words):
    return subprocess.run(AFX + list(map(str, words)), capture_output=True, text=True).stdout


class Case:
    """A program with a trace of its run, and its page."""

    def __init__(self, folder, name, program, trace, given=None, budget=()):
        self.name, self.program, self.trace = name, program, trace
        self.input = ["--input", str(given)] if given else []
        self.budget = list(budget)
        self.page = folder / f"{name}.html"
        words = WRITER + [str(program), str(trace)] + self.input + ["--html", str(self.page)]
        got = subprocess.run(words, capture_output=True, text=True)
        if got.returncode != 0:
            sys.exit(f"no page of {trace}: {got.stderr}")
        self.table = ask("view", program, trace, *self.input).split("\n")[:-1]
        summary = ask("view", program, trace, "--summary", *self.input).split("\n")[:-1]
        self.summary = dict(line.split(": ") for line in summary)


class Explored:
    """A program, and a page of its schedules."""

    def __init__(self, folder, name, program, given=None):
        self.name, self.program = name, program
        self.input = ["--input", str(given)] if given else []
        self.page = folder / f"{name}.html"
        got = subprocess.run(EXPLORER + [str(program)] + self.input + ["--html", str(self.page)], capture_output=True, text=True)
        if got.returncode != 0 or got.stdout != "":
            sys.exit(f"no page of schedules of {program}: {got.stdout}{got.stderr}")


# What the page knows of each event, in the form of the table that `view` prints.
TABLE = """(from, to) => { const rows = [];
  for (let e = from; e < to; e++) {
    const kind = run.kind[e], task = pathOf(run, run.task[e]);
    const by = kind === TAKE || kind === RESUME || kind === STEAL ? String(run.worker[e]) : '';
    const other = kind === STEAL ? String(stealAt(run, e).from) : '';
    const scope = run.scope[e];
    const name = kind === PASS ? task + '#' + run.scopeNumber[scope] : task;
    rows.push(String(e).padStart(8) + ' ' + KINDS[kind].padEnd(9) + ' ' + by.padStart(2) + ' ' + other.padStart(2) + ' ' + name);
  }
  return rows.join('\\n'); }"""

# Each open scope at an event: what it has issued, minus what came back, is what tasks have. Returns a wrong one.
BOOKS = """events => { for (const e of events) for (let s = 0; s < run.scopes; s++) {
    if (run.scopeAt[s] > e && s > 0) continue;
    const book = bookAfter(run, s, e);
    const out = holdersOf(run, s, e).reduce((sum, holder) => sum + holder.weight, 0);
    if (book.issued - book.returned !== out) return `${scopeName(run, s)} at ${e}: ${book.issued} ${book.returned} ${out}`;
    if (run.scopePassed[s] <= e && out !== 0) return `${scopeName(run, s)} has passed at ${e} with ${out}`;
  } return ''; }"""

ARRAYS = """() => run.data.arrays.map((array, a) => 'array ' + array.name + Array.from({length: array.length}, (_, i) =>
  ' ' + elementAfter(run, a, i, run.events - 1).value).join('')).join('\\n')"""


def books_of(case, wanted):
    """The books of open scopes, with the tasks that hold weight, after some events. They are computed from the table alone."""
    w0 = json.loads(pathlib.Path(case.trace).read_text().split("\n", 1)[0])["w0"]
    books, stakes, children, opened, found = {"main": [w0, 0]}, {"0": [["main", w0]]}, {}, {}, {}
    for at, line in enumerate(case.table):
        kind, task = line[9:18].strip(), line[25:].strip()
        if kind == "spawn":
            children[task] = children.get(task, 0) + 1
            scope, weight = stakes[task][-1]
            stakes[task][-1][1] -= weight // 2
            stakes[f"{task}.{children[task]}"] = [[scope, weight // 2]]
        elif kind == "open":
            opened[task] = opened.get(task, 0) + 1
            books[f"{task}#{opened[task]}"] = [w0, 0]
            stakes[task].append([f"{task}#{opened[task]}", w0])
        elif kind == "replenish":
            books[stakes[task][-1][0]][0] += w0
            stakes[task][-1][1] += w0
        elif kind in ("park", "end"):
            scope, weight = stakes[task].pop()
            books[scope][1] += weight
        elif kind == "pass":
            del books["main" if task == "0#0" else task]
        if at in wanted:
            held = sorted((scope, path, weight) for path, all_ in stakes.items() for scope, weight in all_)
            found[at] = [[scope, *books[scope], [[p, w] for s, p, w in held if s == scope]] for scope in sorted(books)]
    return found


# The first free row of each stretch, one after the other.
ROWS = """(firsts, lasts) => { const ends = []; return Array.from(firsts, (first, i) => {
    let row = ends.findIndex(end => end < first);
    if (row < 0) row = ends.length;
    ends[row] = lasts[i];
    return row; }); }"""

SCOPES = """event => openScopes(event).map(scope => { const {issued, returned} = bookAfter(run, scope, event);
  const holders = holdersOf(run, scope, event).map(({task, weight}) => [pathOf(run, task), weight]);
  return [scopeName(run, scope), issued, returned, holders]; })"""


def check_books(browser, case):
    """The books of scopes and who holds the rest, against a replay of the table."""
    n = len(case.table)
    wanted = set(range(0, n, max(1, n // 120)))
    for at, books in books_of(case, wanted).items():
        got = sorted([scope, issued, returned, sorted(holders)] for scope, issued, returned, holders
                     in browser.run(f"({SCOPES})({at})"))
        if got != books:
            same(f"{case.name}: books at {at}", got, books)
            return
    holds(f"{case.name}: books", True)


def check_content(browser, case):
    """The page agrees with the table, the numbers and the outcome."""
    name = case.name
    n = len(case.table)
    same(f"{name}: events", browser.run("run.events"), n)
    for start in range(0, n, max(1, n // 5)) if n > 20000 else [0]:
        end = min(n, start + 2000) if n > 20000 else n
        got = browser.run(f"({TABLE})({start}, {end})")
        same(f"{name}: table from {start}", got, "\n".join(case.table[start:end]))
    facts = dict(zip(browser.texts("#facts dt"), browser.texts("#facts dd")))
    for key in ("tasks", "steps", "span", "parallelism", "steals", "replenishments", "deepest nest", "most live tasks"):
        wanted = case.summary[key]
        same(f"{name}: {key}", facts[key].replace(",", ""), wanted)
    by = [line for key, line in case.summary.items() if key.startswith("steps of worker")]
    same(f"{name}: steps by worker", facts["steps by worker"].replace(",", "").split(" · ")[:len(by)], by[:8])
    lanes = browser.run("Array.from({length: run.lanes}, (_, w) => { let n = 0; for (let e = 0; e < run.events; e++) "
                        "if (run.worker[e] === w && takesStep(run.kind[e])) n++; return n; })")
    same(f"{name}: steps in lanes", [str(x) for x in lanes[:len(by)]], by)
    same(f"{name}: steps on the longest chain", str(browser.run("run.chainEvents.length")), case.summary["span"])
    some = range(0, n, max(1, n // 200))
    same(f"{name}: books", browser.run(f"({BOOKS})({json.dumps(list(some))})"), "")
    check_books(browser, case)
    if n < 20000:
        upto = "Array.from(%s, at => Math.min(at, run.events - 1))"
        same(f"{name}: rows of tasks", browser.run(f"({ROWS})(run.spawned.map(at => Math.max(at, 0)), {upto % 'run.ended'})"),
             browser.run("run.row"))
        same(f"{name}: rows of finishes", browser.run(f"({ROWS})(run.scopeAt, {upto % 'run.scopePassed'})"),
             browser.run("run.scopeRow"))
    same(f"{name}: blocks", browser.run("run.ownUpTo.map((sums, w) => sums[run.blocks] === "
                                        "run.worker.reduce((all, by, e) => all + (by === w && run.kind[e] !== STEAL && "
                                        "run.kind[e] !== PASS), 0)).every(x => x)"), True)


def check_outcome(browser, case):
    """At its end the page has the outcome that `run` prints."""
    name = case.name
    wanted = ask("run", case.program, "--arrays", *case.input, *case.budget).split("\n")[:-1]
    browser.key("End")
    browser.press("#tab-output")
    lines = browser.texts("#output .output")
    if wanted == ["stopped"]:
        holds(f"{name}: stopped", "stopped" in browser.text("#output"), browser.text("#output"))
        return
    same(f"{name}: output", lines[:400], [x for x in wanted if not x.startswith("array ")][:400])
    arrays = [x for x in wanted if x.startswith("array ")]
    if not any(x.startswith("fault") for x in wanted):
        same(f"{name}: arrays", browser.run(f"({ARRAYS})()"), "\n".join(arrays))
    browser.press("#tab-log")


def check_rescues(browser, case):
    """Each finish that gathers faults and has a rescue is marked, with the number that the trace records."""
    lines = [json.loads(line) for line in pathlib.Path(case.trace).read_text().splitlines()[1:]]
    faults = {at: line["faults"] for at, line in enumerate(lines) if line["e"] == "resume" and line["faults"] > 0}
    text = re.sub(r"//[^\n]*", "", pathlib.Path(case.program).read_text())
    holds(f"{case.name}: some finish gathers faults", faults != {} and text.count("finish {") == text.count("rescue ") +
          (case.name == "rescued"), faults)
    got = browser.run("Array.from(run.rescued, (n, s) => [run.resumed[s], n]).filter(([, n]) => n > 0)")
    same(f"{case.name}: rescues", {at: n for at, n in got}, faults)
    browser.run("setRows('finishes')")
    browser.frames()
    holds(f"{case.name}: the mark is explained", "rescue" in browser.text("#rows-note"), browser.text("#rows-note"))
    at = max(faults)
    browser.run(f"go({at})")
    browser.frames()
    holds(f"{case.name}: a rescue in words", "which the rescue drops" in browser.text("#say"), browser.text("#say"))
    browser.run("setRows('tree')")


def check_labels(browser, case):
    """The table of labels has the numbers of `cost`, or those of the trace."""
    cost = ask("cost", case.program, "--by-line", *case.input, *case.budget)
    wanted = re.findall(r"^(?:\d+:\d+ )?label (\d+): work (\d+), span (\d+)", cost, re.M)
    holds(f"{case.name}: costs of labels", wanted != [] or not cost.startswith("work: "), cost[:200])
    browser.press("#tab-labels")
    rows = browser.run("Array.from(document.querySelectorAll('#labels tbody tr'), r => Array.from(r.cells, c => c.textContent))")
    got = [(a, b.replace(",", ""), c.replace(",", "")) for a, b, c, _ in rows]
    if wanted:
        known = {row[0]: row for row in wanted}
        same(f"{case.name}: labels", got, [known.get(row[0], (row[0], "0", "0")) for row in got])
        steps = browser.run("stepsByLabel.slice(1)")
        same(f"{case.name}: steps at labels", steps, [int(known.get(str(i + 1), (0, 0))[1]) for i in range(len(steps))])
    steps = sum(int(row[1]) for row in got)
    same(f"{case.name}: work of labels", str(steps), case.summary["steps"])
    browser.press("#tab-text")


def check_text(browser, case):
    """The text is shown as it is, and its statements are where `list --lines` says."""
    text = pathlib.Path(case.program).read_bytes().decode()
    shown = browser.run("Array.from(document.querySelectorAll('#text .line .code'), e => e.textContent)")
    same(f"{case.name}: text", [x if x != " " else "" for x in shown], re.sub(r"\n$", "", text).split("\n"))
    listing = ask("list", "--lines", case.program)
    places = re.findall(r"^ *(\d+):(\d+) +(\d+) ", listing, re.M)
    got = browser.run("program.heads.slice(1).map((head, i) => [head.line, head.from - program.lineStarts[head.line - 1] + 1, i + 1])")
    same(f"{case.name}: places", got, [[int(x) for x in row] for row in places])


def check_steps(browser, case):
    """Keys move the cursor, and the panels follow."""
    name = case.name
    n = len(case.table)
    browser.key("Home")
    same(f"{name}: first event", browser.text("#log .now .mono"), "0")
    for step in range(min(n - 1, 12)):
        browser.key("ArrowRight")
        at = step + 1
        same(f"{name}: event after {at} keys", browser.text("#log .now .mono"), str(at))
        kind = case.table[at][9:18].strip()
        marked = "".join("".join(browser.texts(".head.now")).split())
        label = browser.run("run.label[view.at]")
        holds(f"{name}: marked at {at}", (label > 0) == (kind in ("step", "spawn", "open")) and
              marked == "".join(browser.run(f"(h => program.text.slice(h.from, h.to))(program.heads[{label}])").split()), marked)
    steals = [i for i, line in enumerate(case.table) if line[9:14] == "steal"]
    browser.key("Home")
    for at in steals[:4]:
        browser.key("PageDown")
        same(f"{name}: steal", browser.run("view.at"), at)
        holds(f"{name}: steal in words", "steals task" in browser.text("#say"), browser.text("#say"))
    browser.key("Home")
    finishes = [i for i, line in enumerate(case.table) if line[9:18].strip() in ("open", "pass", "resume")]
    for at in finishes[:4]:
        browser.key("]")
        same(f"{name}: finish", browser.run("view.at"), at)
    if finishes:
        browser.key("[")
        same(f"{name}: finish back", browser.run("view.at"), finishes[min(4, len(finishes)) - 2] if len(finishes) > 1 else 0)
    browser.key("Home")
    path = case.table[0][25:].strip()
    own = [i for i, line in enumerate(case.table) if line[25:].strip().split("#")[0] == path]
    for at in own[1:5]:
        browser.key("ArrowDown")
        same(f"{name}: same task", browser.run("view.at"), at)
    browser.key("End")
    same(f"{name}: last event", browser.run("view.at"), n - 1)


def check_marks(browser, case):
    """A click on a statement marks all its executions; search finds labels and paths."""
    name = case.name
    label = browser.run("stepsByLabel.indexOf(Math.max(...stepsByLabel))")
    steps = browser.run(f"stepsByLabel[{label}]")
    browser.press(f'.head[data-label="{label}"]')
    same(f"{name}: marked label", browser.run("view.label"), label)
    holds(f"{name}: marked statement", browser.count(".head.hit") > 0)
    browser.key("Home")
    seen = []
    for _ in range(min(steps, 5)):
        browser.key("n")
        seen.append(browser.run("view.at"))
    same(f"{name}: executions", seen, browser.run(f"Array.from(itemsOf(run.stepsAt, {label})).slice(0, {min(steps, 5)})"))
    browser.key("0")
    drawn = browser.run("Array.from({length: run.lanes}, (_, w) => { readMarks(); const all = []; for (let i = nextMark(w, 0); "
                        "i < marks.byWorker.start[w + 1]; i++) all.push(marks.items[marks.byWorker.items[i]]); return all; })")
    same(f"{name}: marks in lanes", sorted(e for own in drawn for e in own)[:5], seen)
    same(f"{name}: lanes of marks", browser.run(f"{json.dumps(drawn)}.every((own, w) => own.every(e => run.worker[e] === w))"), True)
    never = browser.run("stepsByLabel.findIndex((steps, label) => label > 0 && steps === 0)")
    if never > 0:
        browser.run(f"markLabel({never})")
        browser.frames()
        same(f"{name}: no marks of a statement without steps", browser.run("[view.label, marks.items.length]"), [never, 0])
    browser.key("Escape")
    same(f"{name}: nothing marked", browser.count(".head.hit"), 0)
    browser.key("/")
    browser.type(str(label))
    browser.key("Enter")
    holds(f"{name}: search by label", f"label {label}" in browser.text("#found"), browser.text("#found"))
    path = next((line[25:].strip() for line in case.table if line[9:14] == "steal"), "0")
    browser.run("byId('find').value = ''")
    browser.type(path)
    browser.key("Enter")
    same(f"{name}: search by path", browser.run("pathOf(run, view.task)"), path)
    first = next(i for i, line in enumerate(case.table) if line[25:].strip() == path)
    same(f"{name}: first event of {path}", browser.run("view.at"), first)
    browser.run("byId('find').value = ''")
    browser.type("no such text")
    browser.key("Enter")
    same(f"{name}: search in vain", browser.text("#found"), "not found")
    browser.key("Escape")
    browser.key("Escape")


def check_zoom(browser, case):
    """The wheel and keys zoom, a drag moves, the overview jumps; a link restores all of it."""
    name = case.name
    n = len(case.table)
    browser.key("0")
    whole = browser.run("[view.from, view.to]")
    same(f"{name}: whole run", whole, [0, max(n, 8)])
    if n < 20:
        return
    x, y, width, height = browser.box("#lanes")
    browser.mouse("mouseWheel", x + width * 0.6, y + 10, deltaX=0, deltaY=-400)
    browser.frames(3)
    near = browser.run("[view.from, view.to]")
    holds(f"{name}: wheel zooms", near[1] - near[0] < max(n, 8) * 0.7, near)
    browser.mouse("mousePressed", x + width * 0.6, y + 10, button="left", clickCount=1)
    browser.mouse("mouseMoved", x + width * 0.5, y + 10, button="left", buttons=1)
    browser.mouse("mouseReleased", x + width * 0.5, y + 10, button="left", clickCount=1)
    browser.frames()
    moved = browser.run("[view.from, view.to]")
    holds(f"{name}: a drag moves", moved[0] > near[0], (near, moved))
    browser.key("+")
    browser.key("Home")
    same(f"{name}: the view follows the cursor", browser.run("view.from"), 0)
    browser.click(x + 136 + (width - 146) / 2, y + 10)
    at = browser.run("view.at")
    holds(f"{name}: a click moves the cursor", at > 0, at)
    browser.key("m")
    browser.key("s")
    browser.key("Enter")
    browser.frames(15)
    browser.run("new Promise(done => setTimeout(done, 300))")
    link = browser.run("location.hash")
    before = browser.run("[view.at, Math.round(view.from), Math.round(view.to), view.label, view.task, view.chain, view.rows]")
    said = browser.text("#say")
    browser.open(case.page, link)
    same(f"{name}: a link restores the view",
         browser.run("[view.at, Math.round(view.from), Math.round(view.to), view.label, view.task, view.chain, view.rows]"), before)
    same(f"{name}: a link restores the words", browser.text("#say"), said)
    browser.open(case.page, f"#at={n - 2}&rows=tree")
    browser.frames(3)
    row = browser.run("[rowOf(taskAtCursor()) * ROW, byId('rows').scrollTop, sizes.rows, sizes.rowsTop]")
    holds(f"{name}: a link shows the row of the cursor's task", row[1] == row[3] and row[1] <= row[0] <= row[1] + row[2] - 18, row)
    browser.key("Escape")


def check_panels(browser, case):
    """What panels say at some events agrees with the state that they show."""
    name = case.name
    n = len(case.table)
    for at in sorted({0, n // 3, n // 2, n - 1}):
        browser.run(f"go({at})")
        browser.frames()
        note = browser.text("#task-counts")
        counts = [int(x.replace(",", "")) for x in re.findall(r"[\d,]+", note)]
        spawned = 1 + sum(line[9:14] == "spawn" for line in case.table[:at + 1])
        same(f"{name}: tasks at {at}", sum(counts), spawned)
        hands = set()
        for line in case.table[:at + 1]:
            kind, task = line[9:18].strip(), line[25:].strip()
            if kind in ("take", "resume"):
                hands.add(task)
            elif kind in ("park", "end"):
                hands.discard(task)
        same(f"{name}: running tasks at {at}", counts[0], len(hands))
        shown = set(browser.run("Array.from(document.querySelectorAll('#workers [data-worker] .top [data-task]'), e => e.textContent)"))
        same(f"{name}: workers at {at}", shown, hands)
        check_task_rows(browser, case, at)
        opened = 1 + sum(line[9:13] == "open" for line in case.table[:at + 1])
        passes = sum(line[9:13] == "pass" for line in case.table[:at + 1])
        same(f"{name}: open finishes at {at}", browser.text("#scopes-note"), f"{opened - passes} open")


def check_task_rows(browser, case, at):
    """The tree of tasks after an event has each task that was spawned; those that are live are there by name."""
    live, ended, children = {"0"}, 0, {}
    for line in case.table[:at + 1]:
        kind, task = line[9:18].strip(), line[25:].strip()
        if kind == "spawn":
            children[task] = children.get(task, 0) + 1
            live.add(f"{task}.{children[task]}")
        elif kind == "end" or kind == "pass" and task == "0#0":
            live.discard(task.split("#")[0])
            ended += 1
    if len(live) > 200:
        return
    browser.press("#tab-tasks")
    rows = browser.run("Array.from(document.querySelectorAll('#tasks .task'), e => [e.querySelector('.link').textContent, "
                       "e.dataset.state, Number(e.dataset.count)])")
    same(f"{case.name}: live tasks at {at}", {path for path, state, _ in rows if state != "has ended"}, live)
    same(f"{case.name}: ended tasks at {at}", sum(n for _, state, n in rows if state == "has ended"), ended)
    same(f"{case.name}: counts of tasks at {at}", browser.text("#tasks-note"), f"{len(live)} live, {ended} ended")
    paths = [[int(x) for x in path.split(".")] for path, _, _ in rows]
    same(f"{case.name}: order of tasks at {at}", paths, sorted(paths))
    browser.press("#tab-scopes")


def check_values(browser, case):
    """At a `print` the values of the task are those that it prints; a child's elements leave its parent."""
    browser.open(case.page)
    browser.press("#tab-values")
    lines = browser.run("Array.from(run.lineAt, (e, i) => [e, run.label[e], run.data.lines.values[i]])")
    tried = 0
    for at, label, printed in lines:
        names = re.findall(r"[\w\[\]]+", browser.run(f"statement(program, {label})"))[1:]
        if names != ["first", "s[0]"]:
            continue
        browser.run(f"go({at})")
        browser.frames()
        rows = browser.run("Object.fromEntries(Array.from(document.querySelectorAll('.scalars tr'), r => [r.cells[0].textContent, "
                           "r.cells[1].textContent]))")
        same(f"{case.name}: scalar at {at}", rows.get("first"), str(printed[0]))
        same(f"{case.name}: element at {at}", browser.text("#values [data-section=s] .cell"), str(printed[1]))
        same(f"{case.name}: scalars in scope at {at}", sorted(rows), ["first", "i"])
        tried += 1
    holds(f"{case.name}: values at prints", tried >= 5, tried)
    spawn = next(i for i, line in enumerate(case.table) if line[9:14] == "spawn")
    browser.run(f"go({spawn})")
    browser.frames()
    holds(f"{case.name}: given to a child", "given to a child" in browser.text("#values [data-section=l]"),
          browser.text("#values"))
    holds(f"{case.name}: kept", "owned" in browser.text("#values [data-section=r]"), browser.text("#values"))
    browser.press("#tab-tasks")
    states = browser.run("Array.from(document.querySelectorAll('#tasks .task'), e => [e.querySelector('.link').textContent, "
                         "e.dataset.state])")
    same(f"{case.name}: tasks after a spawn", states, [["0", "runs"], ["0.1", "waits in a deque"]])
    browser.key("End")
    same(f"{case.name}: tasks at the end", browser.text("#tasks-note"), f"0 live, {case.summary['tasks']} ended")


def check_pointer(browser, case):
    """The pointer over a lane shows the event, its task, its statement, and what led to it; a row shows its task."""
    browser.open(case.page)
    x, y, width, height = browser.box("#lanes")
    for at in range(1, min(60, len(case.table)), 7):
        if browser.run(f"run.worker[{at}]") != 0 or browser.run(f"causeOf(run, {at})") < 0:
            continue
        browser.run("show(0, 60)")
        browser.frames()
        browser.mouse("mouseMoved", x + browser.run(f"xOf({at} + 0.5)"), y + 18)
        browser.frames()
        told = browser.text("#tip")
        label = browser.run(f"run.label[{at}]")
        words = [f"{at}: ", browser.run(f"pathOf(run, run.task[{at}])"), f"after {browser.run(f'causeOf(run, {at})')}"]
        words += [browser.run(f"statement(program, {label})")] if label > 0 else []
        holds(f"{case.name}: pointer at {at}", all(word in told for word in words), told)
    x, y, width, height = browser.box("#rows")
    browser.mouse("mouseMoved", x + 400, y + 27)
    browser.frames()
    holds(f"{case.name}: pointer over a row", browser.text("#tip").startswith("task 0.1 at "), browser.text("#tip"))
    browser.click(x + 30, y + 27)
    same(f"{case.name}: a click selects the task of a row", browser.run("pathOf(run, view.task)"), "0.1")
    browser.mouse("mouseMoved", 5, 5)
    browser.frames()
    same(f"{case.name}: no pointer", browser.run("byId('tip').hidden"), True)


def check_keyboard(browser, case):
    """All controls can be reached by the Tab key, and each one shows that it has the focus."""
    browser.open(case.page)
    seen = set()
    for _ in range(200):
        browser.key("Tab")
        seen.add(browser.run("(e => e.id || e.dataset.key || e.getAttribute('aria-label') || e.textContent)(document.activeElement)"))
        if "slide" in seen:
            break
    for name in ("find", "chain", "copy", "theme", "tab-text", "text", "lanes", "rows-packed", "rows", "tab-log", "log",
                 "tab-workers", "workers", "speed", "slide", "play"):
        holds(f"{case.name}: reached by Tab: {name}", name in seen)
    browser.run("byId('tab-text').focus()")
    browser.key("ArrowRight")
    same(f"{case.name}: arrows change tabs", browser.run("byId('labels').hidden"), False)
    browser.run("byId('lanes').focus()")
    shown = browser.run("getComputedStyle(byId('lanes')).outlineStyle")
    holds(f"{case.name}: focus is shown", shown in ("solid", "auto"), shown)
    browser.key("?")
    same(f"{case.name}: keys are explained", browser.run("byId('help').open"), True)
    browser.key("Escape")
    browser.run("setTab('program', 'text')")
    browser.key("t")
    same(f"{case.name}: dark by key", browser.run("document.documentElement.dataset.theme"), "dark")
    browser.key("t")
    name = browser.run("byId('lanes').getAttribute('aria-valuetext')")
    holds(f"{case.name}: the lanes say their event", name.startswith("event 0: "), name)


# Choices until the run has ended: of the first task, of the last one, or drawn.
SCHEDULE = """seed => { let x = seed; startSchedule();
  const next = ready => { x = (x * 1103515245 + 12345) % 2147483648; return Math.floor(x / 65536) % ready; };
  while (!treeNow().done) choose(seed < 0 ? treeNow().ready - 1 : seed > 0 ? next(treeNow().ready) : 0);
  return schedule.choices; }"""


def explored(case, choices):
    words = ["--choices", ",".join(map(str, choices))] if choices else []
    return ask("explore", case.program, "--arrays", *words, *case.input).split("\n")[:-1]


def check_schedules(browser, case):
    """After any choices the step tree is that of `explore`, and so is the outcome."""
    name = case.name
    browser.open(case.page)
    for seed in (0, -1, 7, 2026):
        choices = browser.run(f"({SCHEDULE})({seed})")
        same(f"{name}: steps of schedule {seed}", str(len(choices)), case.summary["steps"])
        for upto in sorted({0, 1, len(choices) // 3, len(choices) // 2, len(choices) - 1}):
            ready = browser.run(f"(chooseAll({json.dumps(choices[:upto])}), treeNow().ready)")
            same(f"{name}: schedule {seed} after {upto}", [f"open {ready}"], explored(case, choices[:upto]))
        browser.run(f"(chooseAll({json.dumps(choices)}), openSchedules())")
        shown = browser.texts("#reached .output")
        numbers = browser.run("Array.from(document.querySelectorAll('#reached .item'), e => 'array ' + "
                              "[e.querySelector('b').textContent].concat(Array.from(e.querySelectorAll('.cell'), "
                              "c => c.textContent)).join(' '))")
        wanted = explored(case, choices)
        told = [x for x in shown if not x.startswith("fault ")] + [x for x in shown if x.startswith("fault ")]
        same(f"{name}: outcome of schedule {seed}", told, [x for x in wanted if not x.startswith("array ")])
        if not any(x.startswith("fault") for x in wanted):
            same(f"{name}: arrays of schedule {seed}", numbers, [x for x in wanted if x.startswith("array ")])
        command = browser.text("#command")
        given = " --input .." if case.input else ""
        same(f"{name}: command of schedule {seed}", command,
             f"afx explore {case.program}{given} --choices {','.join(map(str, choices))}")
        browser.run("byId('schedules').close()")
    check_choosing(browser, case)
    same(f"{name}: nothing wrong in schedules", browser.wrong(), [])


def check_choosing(browser, case):
    """Clicks and keys choose, go back, and start again; a link restores the choices."""
    name = case.name
    browser.run("(startSchedule(), byId('lanes').focus())")
    browser.key("x")
    same(f"{name}: schedules open", browser.run("byId('schedules').open"), True)
    same(f"{name}: one task at the start", browser.texts("#tree [data-choice]"), ["0"])
    browser.press("#tree [data-choice='0']")
    browser.key("0")
    same(f"{name}: two choices", browser.run("schedule.choices"), [0, 0])
    same(f"{name}: two rows", browser.count("#chosen .event"), 2)
    browser.key("9")
    same(f"{name}: no such task", browser.run("schedule.choices"), [0, 0])
    browser.key("r")
    same(f"{name}: a random step", browser.run("schedule.choices.length"), 3)
    link = browser.run("linkOf()")
    browser.press("#undo")
    same(f"{name}: one step back", browser.run("schedule.choices"), [0, 0])
    browser.press("#chosen [data-back='1']")
    same(f"{name}: back to the first step", browser.run("schedule.choices"), [0])
    browser.key("End")
    same(f"{name}: to the end", browser.text("#tree-note"), "the run has ended")
    browser.key("Home")
    same(f"{name}: start again", browser.run("schedule.choices"), [])
    browser.key("Escape")
    same(f"{name}: schedules closed", browser.run("byId('schedules').open"), False)
    browser.open(case.page, link)
    same(f"{name}: choices of a link", browser.run("byId('schedules').open && schedule.choices.length"), 3)
    browser.run("byId('schedules').close()")


STEPS = "main {\n  var i = 0;\n  while i < %d { i = i + 1; }\n}\n"


def check_explored(browser, folder):
    """A page of `explore --html` opens with its schedules, which are those of `explore`. It says why it has none."""
    long, endless = folder / "steps.afx", folder / "endless.afx"
    long.write_text(STEPS % 1100)
    endless.write_text("main { while true { finish { async { skip; } } } }\n")
    for program, given in (("examples/two_arrays.afx", None), ("examples/doubling.afx", "examples/doubling.json"),
                           (HERE / "faults.afx", None), (HERE / "rescued.afx", None)):
        made = Explored(folder, pathlib.Path(program).stem, program, given)
        name = f"explored {made.name}"
        browser.open(made.page)
        same(f"{name}: opens with its schedules", browser.run("byId('schedules').open"), True)
        same(f"{name}: nothing is chosen", browser.run("schedule.choices"), [])
        same(f"{name}: the first choice has the focus", browser.run("document.activeElement.id"), "tree")
        same(f"{name}: title", browser.text("h1"), f"afx explore {program}")
        browser.key("0")
        same(f"{name}: a step by key", browser.run("schedule.choices"), [0])
        browser.key("Backspace")
        browser.press("#tree [data-choice='0']")
        same(f"{name}: a step by click", browser.text("#command").split(" ")[-2:], ["--choices", "0"])
        made.summary = {"steps": browser.run("String(run.summary.steps)")}
        made.name = name
        run_of = ask("run", program, *made.input, "--workers", "1").split("\n")[:-1]
        browser.run("byId('schedules').close()")
        browser.key("End")
        browser.press("#tab-output")
        same(f"{name}: output of its run", browser.texts("#output .output"), run_of)
        check_schedules(browser, made)
    for program, why in ((long, r"The run takes 2,2\d\d steps\. At most 2,000 can be explored\."),
                         (endless, r"The run takes more than 2,000 steps\.")):
        made = Explored(folder, program.stem, program)
        browser.open(made.page)
        told = browser.text("#schedules-why")
        holds(f"explored {made.name}: says that it is too long", re.fullmatch(why, told), told)
        same(f"explored {made.name}: no choices", browser.run("byId('schedules-all').hidden"), True)
        browser.key("Escape")
        same(f"explored {made.name}: closed", browser.run("byId('schedules').open"), False)
        same(f"explored {made.name}: text", len(browser.texts("#text .line")), len(program.read_text().split("\n")) - 1)
        for key in ("End", "Home", "ArrowRight", "m", "r", "s", "l", "t", "t", "x"):
            browser.key(key)
        same(f"explored {made.name}: nothing wrong", browser.wrong(), [])


def check_looks(browser, case):
    """Both themes have enough contrast, nothing is cut off at 200 %, and the page prints on one sheet."""
    name = case.name
    browser.open(case.page, "#at=240&chain=1")
    contrast = """(a, b) => { const light = c => { const n = [1, 3, 5].map(i => parseInt(c.slice(i, i + 2), 16) / 255)
        .map(v => v <= 0.03928 ? v / 12.92 : Math.pow((v + 0.055) / 1.055, 2.4)); return 0.2126 * n[0] + 0.7152 * n[1] + 0.0722 * n[2]; };
      const long = c => c.length === 4 ? '#' + [1, 2, 3].map(i => c[i] + c[i]).join('') : c;
      const [x, y] = [light(long(a)), light(long(b))].sort((p, q) => q - p); return (x + 0.05) / (y + 0.05); }"""
    for dark in ("false", "true"):
        browser.run(f"readColors({dark})")
        least = browser.run(f"Math.min(...Array.from({{length: 8}}, (_, i) => ({contrast})(colors['w' + i], colors.on)))")
        holds(f"{name}: contrast on bars", least >= 4.5, least)
        for one, other in (("ink", "panel"), ("soft", "panel"), ("ink", "mark"), ("hit", "panel"), ("soft", "lane")):
            least = browser.run(f"({contrast})(colors.{one}, colors.{other})")
            holds(f"{name}: contrast of {one} on {other}, dark {dark}", least >= 4.5, least)
    browser.run("readColors(false)")
    pairs = browser.run("Array.from({length: 64}, (_, w) => colorOf(w) + patternNumber(w))")
    same(f"{name}: colours with patterns", len(set(pairs)), 64)
    for width, height, scale in ((1440, 900, 2), (780, 900, 1), (1440, 900, 1)):
        browser.size(width, height, scale)
        browser.frames(3)
        wide = browser.run("document.documentElement.scrollWidth - innerWidth")
        holds(f"{name}: {width} by {height} at {scale}00 % is not cut off", wide <= 0, wide)
    paper = browser.paper()
    same(f"{name}: sheets of paper", len(re.findall(rb"/Type\s*/Page\b", paper)), 1)
    browser.frames()


def check_all(browser, case):
    browser.open(case.page)
    check_content(browser, case)
    check_text(browser, case)
    check_labels(browser, case)
    check_steps(browser, case)
    check_marks(browser, case)
    check_zoom(browser, case)
    check_panels(browser, case)
    check_outcome(browser, case)
    same(f"{case.name}: nothing wrong", browser.wrong(), [])


def check_hostile(browser, folder):
    """A text that looks like markup, in a file whose name does too: shown as it is, and nothing of it runs."""
    inner = folder / "<img src=x onerror=broken=3>"
    inner.mkdir()
    program = inner / "</script><b>&amp;.afx"
    try:
        program.parent.mkdir(parents=True, exist_ok=True)
        program.write_bytes((HERE / "hostile.afx").read_bytes())
    except OSError:
        program = inner / "hostile.afx"
        program.write_bytes((HERE / "hostile.afx").read_bytes())
    case = Case(folder, "hostile", program, HERE / "hostile.trace")
    check_all(browser, case)
    same("hostile: nothing ran", browser.run("String(window.broken)"), "undefined")
    same("hostile: no element of the text", browser.count("#text img, #text script, #text svg, h1 img, h1 b"), 0)
    same("hostile: name", browser.text("#name"), str(program))
    policy = browser.run("document.querySelector('meta[http-equiv]').content")
    holds("hostile: policy", "default-src 'none'" in policy and "unsafe" not in policy, policy)
    ran = browser.run("new Promise(done => { const s = document.createElement('script'); try { s.textContent = 'window.broken = 4'; } "
                      "catch (e) { done('refused'); return; } document.head.append(s); setTimeout(() => done(String(window.broken)), 50); })")
    holds("hostile: the policy lets nothing else run", ran in ("refused", "undefined"), ran)
    page = case.page.read_text()
    data = page[page.index('id="data">') + 10:]
    same("hostile: no `<` in the data", "<" in data[:data.index("</script>")], False)


# Frames a second, over one second in which each frame makes a move.
RATE = """new Promise(done => { let i = 0; const start = performance.now(); const next = () => { %s; i++;
    const passed = performance.now() - start;
    if (passed > 1000) done(i / passed * 1000); else requestAnimationFrame(next); }; requestAnimationFrame(next); })"""


def check_long(browser, folder):
    """Of a long text only the lines around those in view are written, and the cursor's statement is one of them."""
    program, trace = folder / "long.afx", folder / "long.trace"
    steps = "".join(f"  x = x + {i % 7}; // step {i}\n" for i in range(20000))
    program.write_text("main {\n  var x = 0;\n" + steps + "  print x;\n}\n")
    ask("run", program, "--workers", "2", "--trace", trace)
    case = Case(folder, "long", program, trace)
    seconds = browser.open(case.page)
    holds(f"long: opens within {SECONDS} seconds", seconds <= SECONDS, seconds)
    for at in (12000, 19000, 3, 19999):
        browser.run(f"go({at})")
        browser.frames(4)
        same(f"long: statement at {at}", "".join(browser.texts(".head.now")), browser.run(f"statement(program, run.label[{at}])"))
        x, y, width, height = browser.box("#text")
        top = browser.run("document.querySelector('.head.now').getBoundingClientRect().top")
        holds(f"long: statement at {at} is in view", y <= top <= y + height, (y, top, height))
        holds(f"long: lines at {at}", browser.count("#text .line") < 600, browser.count("#text .line"))
    browser.run("byId('text').scrollTop = 100000")
    browser.frames(4)
    seen = browser.run("Array.from(document.querySelectorAll('#text .number'), e => Number(e.textContent))")
    holds("long: scrolled lines are there", 5001 in seen, (seen[:1], seen[-1:]))
    browser.press("#tab-labels")
    holds("long: a part of the labels", browser.count("#labels tbody tr") <= 3000, browser.count("#labels tbody tr"))
    same("long: nothing wrong", browser.wrong(), [])


def check_large(browser, folder):
    """A million events: the time to open, frames a second, memory, and bytes an event."""
    program = HERE / "large.afx"
    trace = folder / "large.trace"
    ask("run", program, "--workers", "4", "--trace", trace)
    case = Case(folder, "large", program, trace)
    n = len(case.table)
    holds("large: a million events", n >= 1_000_000, n)
    size = case.page.stat().st_size
    holds("large: at most 40 bytes an event", size <= 40 * n, size / n)
    seconds = min(browser.open(case.page) for _ in range(3))
    holds(f"large: opens within {SECONDS} seconds", seconds <= SECONDS, seconds)
    moves = {"zoom": "show(0, SPAN * Math.pow(0.85, i % 60))", "pan": "show(i * 900 % SPAN, i * 900 % SPAN + 40000)",
             "pan far": "show(i * 2000 % SPAN, i * 2000 % SPAN + SPAN / 2)", "step": "go((i * 7919) % run.events)",
             "tree": "(view.rows = 'tree', changed(ROWS), go((i * 7919) % run.events))"}
    rates = {}
    for name, move in moves.items():
        rates[name] = round(max(browser.run(RATE % move) for _ in range(3)), 1)
        holds(f"large: {FRAMES} frames a second: {name}", rates[name] >= FRAMES, rates[name])
    memory = browser.run("performance.memory.usedJSHeapSize")
    print(f"large: {n} events, {size / n:.1f} bytes an event, opens in {seconds:.2f} s, frames a second {rates}, "
          f"memory {memory / 1e6:.0f} MB", flush=True)
    browser.open(case.page)
    check_content(browser, case)
    check_text(browser, case)
    check_labels(browser, case)
    check_zoom(browser, case)
    same("large: nothing wrong", browser.wrong(), [])


def pictures(browser, folder, cases):
    """Writes the pictures of docs/pictures."""
    shots = [("page_light.png", "faults", "#at=238&theme=light", "light", "setTab('third', 'workers')"),
             ("page_dark.png", "faults", "#at=300&view=240-330&label=6&chain=1&theme=dark", "dark",
              "setTab('third', 'values'); setTab('first', 'output')"),
             ("page_labels.png", "doubling", "#at=40&rows=finishes&theme=light", "light", "setTab('program', 'labels')"),
             ("page_schedules.png", "faults", "#theme=light", "light",
              f"(chooseAll(({SCHEDULE})(7).slice(0, 150)), openSchedules())"),
             ("page_million.png", "large", "#at=500000&theme=light", "light", "0")]
    for name, case, link, theme, script in shots:
        if case not in cases:
            continue
        browser.media(theme)
        browser.open(cases[case], link)
        browser.run(script)
        browser.frames(5)
        browser.picture(folder / name)


def main():
    words = sys.argv[1:]
    shots = pathlib.Path(words[words.index("--pictures") + 1]) if "--pictures" in words else None
    only = words[words.index("--only") + 1:] if "--only" in words else []
    wanted = lambda name: not only or name in only  # noqa: E731
    with tempfile.TemporaryDirectory() as name:
        folder = pathlib.Path(name)
        browser = Browser()
        browser.media("light")
        cases = {}
        one = folder / "one.trace"
        one.write_text("\n".join((HERE / "faults.trace").read_text().split("\n")[:2]) + "\n")
        none = folder / "none.trace"
        none.write_text((HERE / "faults.trace").read_text().split("\n")[0] + "\n")
        example = pathlib.Path("examples/doubling.afx")
        try:
            for case in (("doubling", example, HERE / "doubling.trace", "examples/doubling.json"),
                         ("faults", HERE / "faults.afx", HERE / "faults.trace"),
                         ("stopped", HERE / "faults.afx", HERE / "stopped.trace", None, ("--steps", "40")),
                         ("unformatted", HERE / "unformatted.afx", HERE / "unformatted.trace")):
                if wanted(case[0]):
                    made = Case(folder, *case)
                    cases[case[0]] = made.page
                    check_all(browser, made)
                    if case[0] == "stopped":
                        holds("stopped: no schedules", "over its budget" in browser.run("whyNoSchedules()"))
                    else:
                        check_schedules(browser, made)
            for test, programs in (("parts", ("examples/task_per_piece.afx", "examples/turned_names.afx")),
                                   ("rescued", (HERE / "rescued.afx", "examples/failed_tasks.afx", "examples/retry.afx"))):
                for program in map(pathlib.Path, programs if wanted(test) else ()):
                    trace = folder / f"{program.stem}.trace"
                    ask("run", program, "--workers", "2", "--trace", trace)
                    made = Case(folder, program.stem, program, trace)
                    check_all(browser, made)
                    check_schedules(browser, made)
                    if test == "rescued":
                        check_rescues(browser, made)
            if wanted("explored"):
                check_explored(browser, folder)
            if wanted("values"):
                made = Case(folder, "values", HERE / "faults.afx", HERE / "faults.trace")
                check_values(browser, made)
                check_pointer(browser, made)
                check_keyboard(browser, made)
                same("values: nothing wrong", browser.wrong(), [])
            if wanted("looks"):
                check_looks(browser, Case(folder, "looks", HERE / "faults.afx", HERE / "faults.trace"))
            if wanted("one"):
                made = Case(folder, "one", HERE / "faults.afx", one)
                browser.open(made.page)
                check_content(browser, made)
                check_panels(browser, made)
                for key in ("End", "Home", "ArrowRight", "PageDown", "]", "n", "m", "Enter", "+", "-", "0", "r", "r", "r", "s", "l", "l"):
                    browser.key(key)
                same("one: event", browser.text("#log .now .mono"), "0")
                browser.key("x")
                same("one: no schedules", browser.text("#schedules-why"), "The trace ends before the run.")
                browser.key("Escape")
                same("one: nothing wrong", browser.wrong(), [])
            if wanted("none"):
                made = Case(folder, "none", HERE / "faults.afx", none)
                browser.open(made.page)
                for key in ("End", "Home", "ArrowRight", "m", "r", "s", "l", "t"):
                    browser.key(key)
                same("none: range", browser.text("#range"), "no events")
                same("none: nothing wrong", browser.wrong(), [])
            if wanted("hostile"):
                check_hostile(browser, folder)
            if wanted("long"):
                check_long(browser, folder)
            if wanted("large"):
                check_large(browser, folder)
                cases["large"] = folder / "large.html"
            if shots:
                pictures(browser, shots, cases)
        finally:
            browser.close()
    print(f"{passed} passed, {failed} failed")
    sys.exit(failed > 0)


if __name__ == "__main__":
    main()
