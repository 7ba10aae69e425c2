#!/usr/bin/env python3
"""Runs the program with its standard error at a pseudo-terminal, at a pipe, and with each word of `--explain` or `--warn`,
and compares what it writes: only at a terminal explanations and warnings are written by default, and the time of a long
command is shown. No contract says that `main` finds a terminal, and the rows of examples/rows have none. Prints each run that
differs; the last line is `N passed, M failed`.

    python3 tests/terminal.py      AFX=./afx names another program
"""
import os
import pathlib
import pty
import re
import subprocess
import sys
import tempfile
import threading
import time

TOP = pathlib.Path(__file__).resolve().parent.parent


def program():
    """Returns the program that AFX names, or else the one that ./afx runs."""
    if os.environ.get("AFX"):
        return os.path.abspath(os.environ["AFX"])
    subprocess.run([str(TOP / "afx"), "--version"], stdout=subprocess.DEVNULL, check=True)
    return str(TOP / "crates/afx/out/afx")


AFX = program()

REFUSED = b"main { print x; }\n"
REFUSED_LINE = b"Y1 at label 1\n"
REFUSED_MORE = b"""
refused.afx:1:14: Y1: name not in scope
     1 | main { print x; }
       |              ^
`x` is not in scope here.
Nothing is in scope here.
help: declare it first, in this block or an enclosing one; or use a name that is in scope.
"""
FAULTY = b"main { array a: int[3]; var i = 3; print a[i]; }\n"
FAULTY_MORE = b"""
faulty.afx:1:42: F1: index out of bounds
fault 0 at 2: F1
     1 | main { array a: int[3]; var i = 3; print a[i]; }
       |                                          ^
Index 3, length 3: `a` has the elements 0 to 2.
help: test the index first, as in `if 0 <= i and i < len(a) { .. }`, or make the array larger.
"""
ENDLESS = b"main { while true { } }\n"
ENDLESS_MORE = b"""
endless.afx:1:8: stopped: step or nesting limit exceeded
     1 | main { while true { } }
       |        ^
Task 0 had used all of its 1000 steps before this statement, label 1.
help: raise the limit with `--steps 2000`, or look for an infinite loop or recursion.
"""
IDLE = b"main { finish { print 1; } }\n"
IDLE_MORE = b"""
idle.afx:1:8: warning: this `finish` has no task to wait for
     1 | main { finish { print 1; } }
       |        ^
help: remove the `finish`, or start tasks in it with `async`.
"""
SLOW = b"main { var i = 0; while i < %d { i = i + 1; } print 1; }\n"
# As many tasks, for a long trace.
TASKS = b"main { var i = 0; while i < %d { finish { async { print 1; } } i = i + 1; } }\n"
TIME = re.compile(rb"(?:\rafx: [0-9]+ s)+\r\x1b\[K")
FILES = {"slow.out": b"1\n", "refused.afx": REFUSED, "faulty.afx": FAULTY, "endless.afx": ENDLESS, "idle.afx": IDLE,
         "right.afx": b"main { print 1; }\n"}

# The words of a run, its output, the line that it writes in any case, its explanation or warnings, and its status.
RUNS = (
    (["check", "refused.afx"], b"", REFUSED_LINE, REFUSED_MORE, 1),
    (["run", "refused.afx"], b"", REFUSED_LINE, REFUSED_MORE, 1),
    (["serial", "faulty.afx"], b"fault 0 at 2: F1\n", b"", FAULTY_MORE, 2),
    (["run", "faulty.afx", "--workers", "2"], b"fault 0 at 2: F1\n", b"", FAULTY_MORE, 2),
    (["serial", "endless.afx", "--steps", "1000"], b"stopped\n", b"", ENDLESS_MORE, 3),
    (["run", "right.afx"], b"1\n", b"", b"", 0),
    (["run", "idle.afx"], b"1\n", b"", b"", 0),
)
WARNED = (
    (["check", "idle.afx"], b"accepted: 0 procedures, 2 labels\n", b"", IDLE_MORE, 0),
    (["check", "right.afx"], b"accepted: 0 procedures, 1 labels\n", b"", b"", 0),
    (["check", "--explain=never", "refused.afx"], b"", REFUSED_LINE, b"", 1),
)
STEPS = ["--steps", "1000000000"]
# Commands that take long, each with whether it shows the time, and how its output begins. A command is run with more turns or
# tasks until it takes long enough. No program takes that long to check, so `check` waits for the text of its program.
LONG = (
    (["serial", "slow.afx", *STEPS], True, b"1\n"),
    (["serial", "slow.afx", *STEPS, "--progress"], False, b"1\n"),
    (["run", "slow.afx", "--workers", "1", *STEPS], True, b"1\n"),
    (["cost", "slow.afx", *STEPS], True, b"work: "),
    (["bench", "slow.afx", "--workers", "1", *STEPS], True, b"serial"),
    (["test", "slow.afx", *STEPS], True, b"1 passed, 0 failed\n"),
    (["check", "late.afx"], True, b"accepted: 0 procedures, 1 labels\n"),
    (["view", "tasks.afx", "tasks.trace", "--summary"], True, b"tasks: "),
)
LONG_ENOUGH = 1.5


def at_terminal(words, room, env, keeps_time=False):
    """Returns the output, the standard error and the status of a run whose standard error is a terminal. The line that shows
    how long the command has worked is left out, unless it should be kept: a busy machine may show it for any command."""
    ours, theirs = pty.openpty()
    ran = subprocess.Popen([AFX, *words], cwd=room, env=env, stdin=subprocess.DEVNULL, stdout=subprocess.PIPE, stderr=theirs)
    os.close(theirs)
    told = b""
    while True:
        try:
            piece = os.read(ours, 65536)
        except OSError:  # the terminal is closed at the end of the run
            break
        if not piece:
            break
        told += piece
    out = ran.stdout.read()
    os.close(ours)
    told = told.replace(b"\r\n", b"\n")
    return out, told if keeps_time else TIME.sub(b"", told), ran.wait()


def at_pipe(words, room, env):
    """Returns the same of a run whose standard error is a pipe."""
    ran = subprocess.run([AFX, *words], cwd=room, env=env, stdin=subprocess.DEVNULL, capture_output=True)
    return ran.stdout, ran.stderr, ran.returncode


def long_run(words, room, env):
    """Runs a command with growing programs, until it takes long enough. Returns what it tells, and the seconds."""
    for size in (1, 4, 16):
        (pathlib.Path(room) / "slow.afx").write_bytes(SLOW % (28000000 * size))
        if words[0] == "view":
            (pathlib.Path(room) / "tasks.afx").write_bytes(TASKS % (60000 * size))
            at_pipe(["run", "tasks.afx", "--workers", "1", *STEPS, "--tasks", "1000000", "--trace", "tasks.trace"], room, env)
        if words[0] == "check":
            late = pathlib.Path(room) / "late.afx"
            os.mkfifo(late)
            writer = threading.Timer(2, late.write_bytes, [b"main { print 1; }\n"])
            writer.daemon = True
            writer.start()
        began = time.monotonic()
        told = at_terminal(words, room, env, keeps_time=True)
        seconds = time.monotonic() - began
        if seconds >= LONG_ENOUGH:
            break
    return told, seconds


def main():
    passed = failed = 0
    env = {**os.environ, "NO_COLOR": "1"}
    with tempfile.TemporaryDirectory() as room:
        for name, text in FILES.items():
            (pathlib.Path(room) / name).write_bytes(text)
        for name, run in [("--explain", run) for run in RUNS] + [("--warn", run) for run in WARNED]:
            words, out, line, more, status = run
            for option in ([], [name], [name + "=auto"], [name + "=always"], [name + "=never"]):
                for way in (at_terminal, at_pipe):
                    is_explained = option in ([name], [name + "=always"]) or (
                        option != [name + "=never"] and way is at_terminal)
                    wanted = (out, line + more * is_explained, status)
                    told = way([words[0], *option, *words[1:]], room, env)
                    if told == wanted:
                        passed += 1
                    else:
                        failed += 1
                        print(f"{way.__name__}: afx {' '.join([words[0], *option, *words[1:]])}\n  {told}\n  for {wanted}")
        # With colours the explanation has escapes, at a terminal alone.
        colourful = {name: value for name, value in os.environ.items() if name != "NO_COLOR"}
        for way in (at_terminal, at_pipe):
            told = way(["check", "--explain", "refused.afx"], room, colourful)[1]
            if (b"\x1b[" in told) == (way is at_terminal):
                passed += 1
            else:
                failed += 1
                print(f"{way.__name__}: colours: {told}")
        # A command that takes more than a second shows the time, at a terminal alone, and erases it.
        for words, is_shown, begins in LONG:
            told, seconds = long_run(words, room, env)
            out, line, status = told
            is_right = status == 0 and out.startswith(begins) and seconds >= LONG_ENOUGH
            if is_right and bool(TIME.search(line)) == is_shown and (not is_shown or not TIME.sub(b"", line)):
                passed += 1
            else:
                failed += 1
                print(f"the time: afx {' '.join(words)}\n  {line} {status} {out[:200]} {seconds:.1f} s")
        (pathlib.Path(room) / "slow.afx").write_bytes(SLOW % 200000000)
        if at_pipe(["serial", "slow.afx", *STEPS], room, env) == (b"1\n", b"", 0):
            passed += 1
        else:
            failed += 1
            print("the time is shown at a pipe")
    print(f"{passed} passed, {failed} failed")
    sys.exit(1 if failed else 0)


main()
