#!/usr/bin/env python3
"""Runs programs in the page of web/ and with `afx`, compares what they tell, and uses the page. tests/web.sh runs it.

    play.py PAGE [--pictures FOLDER] [NAME..]

NAME is one of the tests: race, ends, answers, traced, typed, shared, stopped, looks, compared. AFX names the program. With NATIVE=1 each command of the page is a run of AFX: then only the page's own code is tested.
With BROWSER=firefox it is a Firefox, and the test of dark and light is left out.
Prints each wrong answer; the last line is `N passed, M failed`.
"""
import json
import os
import pathlib
import subprocess
import sys
import tempfile
import time

sys.dont_write_bytecode = True
from browser import Browser  # noqa: E402
from firefox import Firefox  # noqa: E402

TOP = pathlib.Path(__file__).resolve().parent.parent.parent
os.chdir(TOP)
AFX = [os.path.abspath(word) if os.path.exists(word) else word for word in os.environ.get("AFX", str(TOP / "afx")).split()]
NATIVE = bool(os.environ.get("NATIVE"))
IN_FIREFOX = os.environ.get("BROWSER") == "firefox"
# Nine command lines for each program. `T` is a trace that is written.
COMMANDS = ["inspect", "mhp --by-line", "list --lines", "fmt", "check --explain --warn", "serial --explain --arrays", "cost --by-line",
            "explore --random 7 --explain", "walk --workers 3 --seed 1 --trace T"]
passed, failed = 0, 0

# In place of the worker: a command goes to the test, which runs AFX.
BRIDGE = """
window.Worker = class {
  constructor() { Object.assign(this, { alive: true }); }
  postMessage(asked) {
    if (asked.packed || asked.module) setTimeout(() => this.alive && this.onmessage({ data: { ready: true, module: 1, bytes: 0 } }));
    else {
      const key = String(Math.random());
      (window.bridged ??= {})[key] = data => this.alive && this.onmessage({ data });
      bridge(JSON.stringify({ key, ...asked }));
    }
  }
  terminate() { this.alive = false; }
};
"""


class Bridged(Browser):
    """A browser in which the commands of the page are runs of AFX."""

    def __init__(self, *size):
        super().__init__(*size)
        if NATIVE:
            self.ask("Runtime.addBinding", name="bridge")
            self.ask("Page.addScriptToEvaluateOnNewDocument", source=BRIDGE)

    def message(self):
        while True:
            got = super().message()
            if got.get("method") != "Runtime.bindingCalled":
                return got
            asked = json.loads(got["params"]["payload"])
            told = {"id": asked["id"], "ms": 1, "mb": 1, **native(asked["words"], asked["files"])}
            text = f"bridged[{json.dumps(asked['key'])}]({json.dumps(told)})"
            command = {"id": 0, "method": "Runtime.evaluate", "params": {"expression": text}, "sessionId": self.session}
            data = json.dumps(command).encode() + b"\0"
            while data:
                data = data[os.write(self.write, data):]


def native(words, files):
    """What AFX tells of these files, and the files that it has written."""
    with tempfile.TemporaryDirectory() as folder:
        for name, text in files.items():
            pathlib.Path(folder, name).write_text(text)
        ran = subprocess.run(AFX + words, cwd=folder, capture_output=True, stdin=subprocess.DEVNULL)
        back = {name: pathlib.Path(folder, name).read_text() for name in os.listdir(folder)}
        return {"status": ran.returncode, "out": ran.stdout.decode(), "err": ran.stderr.decode(),
                "files": {name: text for name, text in back.items() if files.get(name) != text}}


def holds(what, right, told=""):
    global passed, failed
    if right:
        passed += 1
    else:
        failed += 1
        print(f"{what}: {told}" if told != "" else what, flush=True)


def same(what, got, wanted):
    holds(what, got == wanted, f"got {str(got)[:300]!r}, expected {str(wanted)[:300]!r}")


def until(browser, text, patience=60):
    """Waits until an expression in the page is true."""
    end = time.time() + patience
    while time.time() < end:
        if browser.run(f"Boolean({text})"):
            return True
        time.sleep(0.05)
    return False


def opened(browser, page, link):
    browser.open(page, link)
    holds(f"the page is ready at {link}", until(browser, 'document.documentElement.dataset.ready === "yes"'), browser.text("#verdict"))


def in_frame(browser, text):
    """The value of an expression in the frame of the page, which the browser may run apart."""
    browser.frames()
    if IN_FIREFOX:
        return browser.in_frame(text)
    own = browser.session
    tree = browser.ask("Page.getFrameTree")["frameTree"]
    if "childFrames" in tree:
        world = browser.ask("Page.createIsolatedWorld", frameId=tree["childFrames"][0]["frame"]["id"])["executionContextId"]
        got = browser.ask("Runtime.evaluate", contextId=world, returnByValue=True, awaitPromise=True, expression=text)
        return got["result"].get("value")
    try:
        browser.session = None
        frames = [one for one in browser.ask("Target.getTargets")["targetInfos"] if one["type"] == "iframe"]
        if not frames:
            return None
        browser.session = browser.ask("Target.attachToTarget", targetId=frames[0]["targetId"], flatten=True)["sessionId"]
        return browser.run(text)
    finally:
        browser.session = own


def judged(browser):
    """Waits for the verdict about the text that is there, and returns its words."""
    until(browser, 'waiting.size === 0 && $("verdict").className !== ""')
    browser.frames()
    return browser.text("#verdict strong")


# ---- the same answers

def compared(browser, page):
    if NATIVE:
        return
    opened(browser, page, "#example=two_arrays")
    judged(browser)
    programs = browser.run("({ programs: EXAMPLES, inputs: INPUTS })")
    count = 0
    for name, text in programs["programs"].items():
        files = {"p.afx": text}
        given = name in programs["inputs"]
        if given:
            files["p.json"] = programs["inputs"][name]
        for command in COMMANDS:
            words = command.split()
            words += ["p.afx"] + (["--input", "p.json"] if given and words[0] in ("inspect", "serial", "cost", "explore", "walk") else [])
            got = browser.run(f"afx({json.dumps(words)}, {json.dumps(files)})")
            wanted = native(words, files)
            for part in ("status", "out", "err", "files"):
                if part == "files":
                    got[part].pop("program.afx", None)
                if got[part] != wanted[part]:
                    holds(f"{name}: afx {' '.join(words)}: {part}", False, f"got {str(got[part])[-200:]!r}, expected {str(wanted[part])[-200:]!r}")
                    break
            else:
                holds("", True)
            count += 1
    print(f"{len(programs['programs'])} programs, {count} runs", flush=True)


# ---- the page

def race(browser, page):
    opened(browser, page, "#example=race")
    same("the verdict of a race", judged(browser), "A race in main")
    same("both accesses are marked", browser.texts("#shown .first, #shown .second"), ["    a[0] = 7;", "  print a[0];"])
    holds("the way is marked", browser.count("#shown .way") == 1)
    holds("the reason is shown", "They may run in parallel" in browser.text("#why"))
    holds("a fix is offered", until(browser, '$("fixes").children.length'))
    # the reason at the pointer
    left, top, width, height = browser.box("#shown .first")
    browser.mouse("mouseMoved", left + 40, top + height / 2)
    browser.frames()
    holds("the reason at the pointer", "may run at the same time" in browser.text("#tip"), browser.text("#tip"))
    # the fix
    browser.press("#fixes button")
    until(browser, '$("verdict").className === "good"')
    same("the verdict after the fix", judged(browser), "No race")
    holds("the text has a finish", "finish {" in browser.run("program()"))
    same("the answer after the fix", browser.text("#pane pre").split("\n")[0], "7")


def ends(browser, page):
    opened(browser, page, "#example=race&tab=schedules")
    judged(browser)
    holds("the first task may step", until(browser, 'document.querySelectorAll(".tasks button").length === 1'))
    browser.press(".tasks button")
    holds("then two may", until(browser, 'document.querySelectorAll(".tasks button").length === 2'))
    # by a click on the line of the statement that goes next
    left, top, width, height = browser.run('(() => { const b = [...document.querySelectorAll("#shown .next")].at(-1).getBoundingClientRect(); '
                                           "return [b.left, b.top, b.width, b.height]; })()")
    browser.click(left + 30, top + height / 2)
    holds("a click on a line is a step", until(browser, "choices.length === 2"), browser.run("choices.length"))
    browser.press('[data-do="back"]')
    holds("one back", until(browser, "choices.length === 1"))
    browser.press('[data-do="all"]')
    holds("two ends are found", until(browser, 'document.querySelectorAll(".ends > div").length === 2'))
    browser.press('.ends > div:nth-child(2) button')
    holds("how the second one comes about", until(browser, "choices.length === 4"), browser.run("choices.length"))
    holds("its answer", "0" in browser.text("#pane pre"))


def answers(browser, page):
    opened(browser, page, "#example=two_arrays")
    same("no race in two arrays", judged(browser), "No race")
    same("the answer of two arrays", browser.text("#pane pre").split("\n")[0], "7 8")
    browser.press("#tab-cost")
    holds("cost by line", until(browser, 'document.querySelectorAll("#pane .bars code").length === 5'), browser.text("#pane"))
    browser.press("#tab-pairs")
    holds("one pair may run together", until(browser, 'document.querySelectorAll("#pane [data-lines]").length === 1'))
    browser.press("#pane [data-lines]")
    holds("both lines are marked", browser.count("#shown .next") == 2)


def traced(browser, page):
    opened(browser, page, "#example=doubling&tab=trace")
    judged(browser)
    holds("the page of a trace", until(browser, 'document.querySelector("#pane iframe")?.src.startsWith("blob:")'), browser.text("#pane"))
    seen = in_frame(browser, """new Promise(done => { const end = Date.now() + 20000;
      const look = () => { const text = document.querySelector("#facts")?.textContent; text || Date.now() > end ? done(text ?? "") : setTimeout(look, 100); };
      look(); })""")
    holds("the page of the trace has opened", "steals" in (seen or ""), seen)


def typed(browser, page):
    opened(browser, page, "#example=two_arrays")
    judged(browser)
    browser.run('$("text").focus(), $("text").setSelectionRange(0, $("text").value.length)')
    browser.type("main { print 1 }")
    holds("an error while typing", until(browser, '$("verdict").className === "bad"'))
    holds("its position", "line 1, column 16" in browser.text("#verdict small"), browser.text("#verdict small"))
    holds("the sign that is missing", until(browser, '$("fixes").children.length') and browser.texts("#fixes button") == ["Add ;"])
    browser.press("#fixes button")
    until(browser, '$("verdict").className === "good"')
    holds("the fixed text is formatted", browser.run("program()") == "main {\n  print 1;\n}\n", browser.run("program()"))
    browser.run('$("text").setSelectionRange(7, 7)')
    browser.type("pr")
    holds("completions", until(browser, '!$("words").hidden') and "print" in browser.texts("#words li"), browser.texts("#words li"))


def shared(browser, page):
    opened(browser, page, "#example=halves")
    judged(browser)
    browser.press("#share")
    holds("a link", until(browser, 'location.hash.startsWith("#p=")'))
    link, text = browser.run("[location.hash, program()]")
    opened(browser, page, link)
    judged(browser)
    same("the program of the link", browser.run("program()"), text)


def stopped(browser, page):
    if NATIVE:
        return
    opened(browser, page, "#example=two_arrays")
    judged(browser)
    browser.run('void (ended = afx(["explore", "--all", "1000000", "p.afx"], { "p.afx": EXAMPLES.doubling }))')
    holds("it can be stopped", until(browser, '!$("stop").disabled'))
    browser.press("#stop")
    same("it was stopped", browser.run("ended.then(run => run.err)"), "stopped by you")
    same("the next command runs", browser.run('afx(["--version"]).then(run => run.status)'), 0)


def looks(browser, page):
    if IN_FIREFOX:
        return
    browser.media("dark")
    opened(browser, page, "#example=race")
    judged(browser)
    same("dark", browser.run("document.documentElement.dataset.theme"), "dark")
    browser.media("light")
    browser.size(380, 800)
    opened(browser, page, "#example=race")
    judged(browser)
    holds("nothing is wider than a phone", browser.run("document.documentElement.scrollWidth <= innerWidth"), browser.run("document.documentElement.scrollWidth"))
    browser.size(1440, 900)


def photograph(browser, page, folder):
    opened(browser, page, "#example=race")
    judged(browser)
    until(browser, '$("fixes").children.length')
    browser.picture(os.path.join(folder, "play_race.png"))
    opened(browser, page, "#example=race&tab=schedules&dark")
    judged(browser)
    until(browser, 'document.querySelectorAll(".tasks button").length')
    browser.press('[data-do="all"]')
    until(browser, 'document.querySelectorAll(".ends > div").length === 2')
    browser.picture(os.path.join(folder, "play_schedules.png"))


TESTS = [race, ends, answers, traced, typed, shared, stopped, looks, compared]


def main():
    page, names = sys.argv[1], sys.argv[2:]
    pictures = names.pop(1) if names[:1] == ["--pictures"] else None
    if pictures:
        names.pop(0)
    browser = Firefox(1440, 900) if IN_FIREFOX else Bridged(1440, 900)
    try:
        for test in TESTS:
            if not names or test.__name__ in names:
                test(browser, page)
                same(f"{test.__name__}: the browser has no complaint", [line for line in browser.wrong() if not line.startswith("request: blob:")], [])
        if pictures:
            photograph(browser, page, pictures)
    finally:
        browser.close()
    print(f"{passed} passed, {failed} failed")
    sys.exit(failed > 0)


if __name__ == "__main__":
    main()
