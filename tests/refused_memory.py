#!/usr/bin/env python3
"""Refuses requests for memory, and starts of threads, in runs of the built program, and in the tests of the libraries
that make calls again. tests/refused_memory.sh calls it.

    tests/refused_memory.py LIBRARY all|short     AFX=./afx names another program

LIBRARY is tests/refuse_allocation.c, built. A run passes if it gives the whole right answer, or one of the lines of
`refusals` with its status, and then nothing on standard output. A file that it writes is whole or isn't there. It must
not end by a signal, and not run longer than 20 seconds. A test of the libraries passes if each of its calls has the
right answer, or reports that memory ran out.
"""
import collections
import json
import mmap
import os
import pathlib
import random
import struct
import subprocess
import sys
import tempfile
import time

from runs import LIMIT, TOP, Counts, Fast, built_program, fail, run, shown

# Every n, or each of so many; the most seconds of the short sweeps, of the program and of the libraries; how many runs in
# a row without a refusal end a sweep.
STRIDES = {"all": 1, "short": 23}
SHORT_SECONDS = 24
CALL_SECONDS = 6
ENOUGH = 20

# The tests that `rt ci` has built, those that make calls again, and the calls that must run out of memory some time.
TESTS = TOP / "crates" / "run_tests" / "out" / "run_tests_tests"
OF_CALLS = "::refused_"
PASSED = b"\ntest result: ok\n"
CALLS = {"parse", "type_check", "check", "summarize", "may_run_together", "zeros", "serial", "explore", "run",
         "Log::new", "write_lines", "read_lines", "replay", "record"}

TWICE = """proc twice(mut s: int) {
  if len(s) <= 1 { if len(s) == 1 { s[0] = s[0] * 2; } }
  else { split s at len(s) / 2 as l, r { async { twice(l); } twice(r); } }
}
main { array a: int[16]; finish { twice(a); } }
"""
PIECES = """main { array a: int[10]; finish { parts a by 4 as p, i { async { p[0] = i + 1; p[len(p) - 1] = len(p); } } }
print a[0], a[3], a[4], a[7], a[8], a[9]; }
"""
READERS = """main { array a: int[1]; array b: int[1]; array c: int[1];
finish { async { b[0] = a[0]; } async { c[0] = a[0]; } HERE } print b[0], c[0]; }
"""
DOUBLED = "array a " + " ".join(str(2 * n) for n in range(1, 17)) + "\n"

# Name: text, input, options of `run` and `serial`, options of `run` alone, outcome, status.
PROGRAMS = {
    "two_arrays": (None, None, [], [], "7 8\n", 0),
    "readers": (READERS.replace("HERE", "print a[0];"), '{"a":[4]}', [], [], "4\n4 4\n", 0),
    "readers_race": (READERS.replace("HERE", "a[0] = 1;"), '{"a":[4]}', [], [], "4 4\n", 0),
    "faults": ("main { finish { async { fault 1; } async { fault 2; } fault 3; } print 9; }\n", None, [], [],
               "fault 0.1 at 3: F6 1\nfault 0.2 at 5: F6 2\nfault 0 at 6: F6 3\n", 2),
    "handled": ("main { finish { async { fault 1; } async { print 2; } fault 3; } rescue n { print n; async { fault 4; } }"
                " print 9; }\n", None, [], [], "2\n2\n9\nfault 0.3 at 9: F6 4\n", 2),
    "three": ("main { finish { async { skip; } async { skip; } async { skip; } } }\n", None, [], ["--w0", "1"], "", 0),
    "nested_tasks": (None, None, [], [], "1\n2\n3\n", 0),
    "pieces": (PIECES, None, [], [], "1 4 2 4 3 2\n", 0),
    "doubling": (TWICE, '{"a":[1,2,3,4,5,6,7,8,9,10,11,12,13,14,15,16]}', ["--arrays"], [], DOUBLED, 0),
}
RACE = "C1 race in main: 3 read a, 6 write a\n"

CODES = {"list": "S6", "fmt": "S6", "check": "S6 Y10 C2", "mhp": "S6 Y10", "serial": "S6 Y10 N6", "cost": "S6 Y10 N6",
         "explore": "S6 Y10 C2 N6", "run": "S6 Y10 C2 N6 E1", "view": "S6 Y10 C2 N6 J2"}


def refusals(command):
    """The statuses and lines with which a command may end where a request was refused."""
    lines = {(4, line.encode() + b"\n") for line in CODES[command].split() + ["no memory"]}
    return lines | {(1, b"error: out of memory\n"), (1, b"cannot write output\n")}


def is_shorter(case, ended):
    """Whether the answer is right, but an explanation or an object of it lacks for memory, or tells that."""
    status, out, err = case.right
    if "--warn" in case.words:
        return (ended.status, ended.out) == (status, out) and ended.err in (b"", err)
    if "--explain" in case.words:
        # (there may be another explanation, which needs less memory)
        begins = ended.err.partition(b"\n")[0] == err.partition(b"\n")[0]
        return (ended.status, ended.out) == (status, out) and (begins or not ended.err and status > 1)
    if "json" not in case.words:
        return False
    if not ended.out:
        return (ended.status, ended.err) == (status, err)
    held = json.loads(ended.out)
    if out and (ended.status, ended.err) == (status, err):
        # (its reason may be that of another explanation, which needs less memory; all else is the same)
        return bool(held["reason"] and held["help"]) and without_reason(held) == without_reason(json.loads(out))
    refused = (ended.status, ended.err) in refusals(case.words[0])
    return refused and (held["status"], held["message"] + "\n") == (ended.status, ended.err.decode())


def without_reason(held):
    """The members of an object that don't come from the text of an explanation."""
    return {name: value for name, value in held.items() if name not in ("reason", "help")}


class Case:
    """A command line, its right answer, and the file that it writes."""

    def __init__(self, name, words, written=None, before=None, retrace=None):
        self.name, self.words, self.written, self.before = name, words, written, before
        # (on several workers each run has its own trace: the words that read it again)
        self.retrace = retrace
        self.right, self.file, self.requests, self.threads = None, None, 0, 0

    def reset(self):
        """The file as it is before the run."""
        if self.written:
            path = pathlib.Path(self.written)
            if self.before is not None:
                path.write_bytes(self.before)
            else:
                path.unlink(missing_ok=True)


class Sweep:
    """All runs, with what they share."""

    def __init__(self, program, library, way, room, seconds=SHORT_SECONDS):
        self.way, self.stride, self.room, self.seconds = way, STRIDES[way], room, seconds
        self.fast, self.counts, self.program = Fast(program, room, min(LIMIT, 20)), Counts(), program
        report = pathlib.Path(room) / ".report"
        report.write_bytes(bytes(24))
        with report.open("r+b") as file:
            self.report = mmap.mmap(file.fileno(), 24)
        self.environment = {**os.environ, "LD_PRELOAD": library, "REFUSE_REPORT": str(report)}
        self.began, self.refused, self.whole, self.traces = time.monotonic(), 0, 0, set()

    def is_over(self):
        return self.way == "short" and time.monotonic() - self.began > self.seconds

    def once(self, case, **refuse):
        """One run. Returns how it ended, and how many requests, refusals and starts of threads there were."""
        case.reset()
        setting = {f"REFUSE_{name.upper()}": str(value) for name, value in refuse.items()}
        self.report[:] = bytes(24)
        ended = self.fast.run(case.words, {**self.environment, **setting})
        return ended, struct.unpack("=qqq", self.report[:])

    def fault_of_file(self, case, ended):
        """What is wrong with the file that a run wrote."""
        path = pathlib.Path(case.written)
        held = path.read_bytes() if path.exists() else None
        if held == case.file or (held == case.before and ended.status in (1, 4)):
            return None
        if held and case.retrace and self.is_trace(case, held):
            return None
        return f"leaves {case.written} with {shown(held or b'')}"

    def left_over(self):
        """A new file that a run has left, or nothing."""
        left = [name for name in os.listdir(self.room) if name.endswith(".new")]
        for name in left:
            os.unlink(name)
        return f"leaves {left}" if left else None

    def is_trace(self, case, held):
        """Whether a trace of several workers is whole."""
        # (the same events often come again)
        if (case.name, held) not in self.traces:
            if not held.endswith(b'{"e":"pass","number":0,"owner":"0"}\n'):
                return False
            if run(self.program, case.retrace).status != 0:
                return False
            self.traces.add((case.name, held))
        return True

    def judge(self, case, ended, said):
        """Counts one run."""
        fault = None
        if ended.key() == case.right:
            self.whole += 1
        elif ended.out == b"" and (ended.status, ended.err) in refusals(case.words[0]) or is_shorter(case, ended):
            self.refused += 1
        else:
            fault = str(ended)
        if not fault and case.written:
            fault = self.fault_of_file(case, ended) or self.left_over()
        self.counts.judge(f"{' '.join(case.words)}, refused: {said}", fault)

    def first(self, case):
        """The run without a refusal: the right answer."""
        ended, report = self.once(case)
        case.right, (case.requests, _, case.threads) = ended.key(), report
        case.file = pathlib.Path(case.written).read_bytes() if case.written and os.path.exists(case.written) else None
        return ended

    def rising(self, case, how, offset):
        """The n-th request refused, or all from the n-th on, until nothing is refused any more."""
        n, without = 1 + offset % self.stride, 0
        while (n <= case.requests or without < ENOUGH) and not self.is_over():
            ended, report = self.once(case, **{how: n})
            self.judge(case, ended, f"{how} {n}")
            without = 0 if report[1] else without + 1
            if self.stride > 1 and n > case.requests and without:
                break
            n += self.stride

    def all_ways(self, case, offset):
        self.rising(case, "nth", offset)
        self.rising(case, "from", offset + 11)
        for k in (2, 3, 7, 31):
            if not self.is_over():
                self.judge(case, self.once(case, each=k)[0], f"each {k}")


class CallSweep(Sweep):
    """Tests of the libraries in which calls that run out of memory are made again."""

    def __init__(self, *given):
        super().__init__(*given, CALL_SECONDS)
        self.told = collections.Counter()

    def judge(self, case, ended, said):
        """Counts one run, and which calls ran out of memory in it."""
        lines = ended.err.decode("utf-8", "replace").splitlines()
        calls = [line.removeprefix("out of memory: ") for line in lines]
        good = (ended.status, ended.out) == (0, PASSED) and set(calls) <= CALLS
        self.told.update(calls if good else [])
        self.counts.judge(f"{case.name}, refused: {said}", None if good else str(ended))


def cases_of(name, text, given, shared, alone):
    """The commands of one program. The trace that `view` reads is made here before."""
    file, trace = f"{name}.afx", f"{name}.trace"
    options = ["--input", f"{name}.json"] if given else []
    for command in ("check", "mhp", "list", "fmt"):
        yield Case(name, [command, file])
    yield Case(name, ["check", file, "--warn"])
    yield Case(name, ["mhp", file, "--accesses"])
    yield Case(name, ["mhp", file, "--by-line"])
    yield Case(name, ["fmt", file, "--write"], file, text.encode())
    yield Case(name, ["serial", file, *options, *shared])
    yield Case(name, ["explore", file, *options, "--random", "1", *shared])
    yield Case(name, ["cost", file, *options])
    yield Case(name, ["cost", file, *options, "--by-line"])
    if name in ("readers_race", "faults"):
        yield Case(name, ["check", file, "--explain"])
        yield Case(name, ["check", file, "--format", "json"])
        yield Case(name, ["run", file, *options, "--workers", "2", "--explain"])
        yield Case(name, ["run", file, *options, "--workers", "2", "--format", "json"])
    for workers in ("1", "2", "8"):
        words = ["run", file, *options, *alone, "--workers", workers]
        yield Case(name, words + shared)
        retrace = None if workers == "1" else ["view", file, "new.trace", *options]
        yield Case(name, words + ["--trace", "new.trace", *shared], "new.trace", retrace=retrace)
    yield Case(name, ["view", file, trace, *options])
    yield Case(name, ["view", file, trace, *options, "--summary"])
    yield Case(name, ["view", file, trace, *options, "--by-line"])
    yield Case(name, ["view", file, trace, *options, "--summary", "--by-line"])
    yield Case(name, ["view", file, trace, *options, "--svg", "new.svg"], "new.svg")
    yield Case(name, ["view", file, trace, *options, "--html", "new.html"], "new.html")
    yield Case(name, ["view", file, trace, *options, "--upgrade", "upgraded.trace"], "upgraded.trace")
    yield Case(name, ["explore", file, *options, "--html", "new.html"], "new.html")


def lay_out(program):
    """Writes the programs, their inputs and their traces into the folder; returns the texts."""
    texts = {}
    for name, (text, given, _shared, alone, _out, _status) in PROGRAMS.items():
        texts[name] = text or (TOP / "examples" / f"{name}.afx").read_bytes().decode()
        pathlib.Path(f"{name}.afx").write_text(texts[name])
        pathlib.Path(f"{name}.trace").write_text("")
        if given:
            pathlib.Path(f"{name}.json").write_text(given)
        options = ["--input", f"{name}.json"] if given else []
        run(program, ["run", f"{name}.afx", *options, *alone, "--workers", "1", "--trace", f"{name}.trace"])
    return texts


def check_right(sweep, case, ended):
    """Compares the run without a refusal with the outcome that the table says."""
    _text, _given, _shared, _alone, out, status = PROGRAMS[case.name]
    wanted = None
    if case.words[0] in ("serial", "run", "explore"):
        wanted = (status, out.encode(), b"")
    if "--html" in case.words:
        wanted = (0, b"", b"")
    if case.name == "readers_race" and case.words[0] in ("check", "run", "explore", "view"):
        wanted = (1, b"", RACE.encode())
    if {"--explain", "--warn", "json"} & set(case.words):
        # (the rows of crates/examples say what these print)
        wanted = None
    fault = str(ended) if ended.is_bad() or (wanted and ended.key() != wanted) else None
    sweep.counts.judge(f"{' '.join(case.words)}, nothing refused", fault)


def refuse_memory(sweep, texts):
    """All commands of all programs, mixed, so a sweep that is stopped by the clock has some of each."""
    cases = [case for name, (_text, given, shared, alone, _out, _status) in PROGRAMS.items()
             for case in cases_of(name, texts[name], given, shared, alone)]
    random.Random(71).shuffle(cases)
    for at, case in enumerate(cases):
        if sweep.is_over():
            print(f"{at} of {len(cases)} command lines tried")
            return
        check_right(sweep, case, sweep.first(case))
        before = sweep.refused
        sweep.all_ways(case, 5 * at)
        if sweep.refused == before and sweep.counts.failed == 0 and not sweep.is_over():
            sweep.counts.judge(" ".join(case.words), "nothing was refused")
        case.reset()


def refuse_threads(sweep):
    """The n-th start of a thread refused. `run` then answers E1; `check` may do its work on one thread."""
    for workers in (1, 2, 8, 64):
        words = ["run", "nested_tasks.afx", "--workers", str(workers), "--trace", "new.trace"]
        case = Case("nested_tasks", words, "new.trace", retrace=["view", "nested_tasks.afx", "new.trace"])
        check_right(sweep, case, sweep.first(case))
        errors = 0
        for n in range(1, case.threads + 2):
            ended, _ = sweep.once(case, thread=n)
            errors += ended.err == b"E1\n"
            sweep.judge(case, ended, f"thread {n}")
        fault = f"{errors} times E1" if errors < workers - 1 else None
        sweep.counts.judge(f"{' '.join(words)}, each of {case.threads} threads refused", fault)


def refuse_other_threads(sweep):
    """`check` looks at 257 blocks on several threads, or on fewer if they can't be started. A folder's tests tell E1."""
    calls = "".join(f"proc p{n}(mut s: int) {{ p{n - 1}(s); }}\n" for n in range(1, 256))
    many = "proc p0(mut s: int) { s[0] = 1; }\n" + calls + "main { array a: int[1]; p255(a); print a[0]; }\n"
    os.mkdir("tests")
    for name, content in (("many.afx", many), ("tests/many.afx", many), ("tests/many.out", "1\n")):
        pathlib.Path(name).write_text(content)
    for words, right, others in (
            (["check", "many.afx"], (0, b"accepted: 256 procedures, 258 labels\n", b""), [(4, b"", b"C2\n")]),
            (["test", "tests"], (0, b"1 passed, 0 failed\n", b""), [(1, b"many.afx: E1\n0 passed, 1 failed\n", b"")])):
        case = Case("many", words)
        fault = None if sweep.first(case).key() == right else str(case.right)
        sweep.counts.judge(f"{' '.join(words)}, nothing refused", fault)
        for n in range(1, case.threads + 2):
            ended, _ = sweep.once(case, thread=n)
            fault = None if ended.key() in (right, *others) else str(ended)
            sweep.counts.judge(f"{' '.join(words)}, refused: thread {n}", fault)
        fault = None if case.threads > 1 else f"{case.threads} threads"
        sweep.counts.judge(f"{' '.join(words)} starts threads", fault)


def few_processes(sweep):
    """No process or thread more than there is, by `ulimit -u`. It says nothing to root, who becomes another user."""
    room = pathlib.Path(sweep.room)
    room.chmod(0o755)
    copy = room / "afx"
    copy.write_bytes(pathlib.Path(sweep.program).read_bytes())
    copy.chmod(0o755)
    user = {"user": 54321, "group": 54321} if os.getuid() == 0 else {}
    for workers, wanted in (("1", (0, b"1\n2\n3\n", b"")), ("2", (4, b"", b"E1\n")), ("8", (4, b"", b"E1\n"))):
        words = ["run", "nested_tasks.afx", "--workers", workers]
        try:
            ended = run(str(copy), words, room=sweep.room, processes=1, user=user)
        except (OSError, subprocess.SubprocessError) as error:
            print(f"ulimit -u 1: left out: {error}")
            return
        sweep.counts.judge(f"ulimit -u 1; {' '.join(words)}", None if ended.key() == wanted else str(ended))


def refuse_calls(library, way, room, counts):
    """Each request of the tests that make calls again, refused in turn; and each start of a thread."""
    sweep = CallSweep(str(TESTS), library, way, room)
    sweep.counts = counts
    listed = run(str(TESTS), ["--list"]).out.decode().splitlines()
    names = [line.removesuffix(": test") for line in listed if OF_CALLS in line]
    counts.judge("tests of calls", None if names else f"{TESTS} has none")
    for at, name in enumerate(names):
        case = Case(name, [name])
        ended = sweep.first(case)
        good = ended.key() == (0, PASSED, b"")
        counts.judge(f"{name}, nothing refused", None if good else str(ended))
        # (the short sweep has some of each test)
        sweep.seconds = CALL_SECONDS * (at + 1) / len(names)
        sweep.all_ways(case, 5 * at)
        for n in range(1, case.threads + 1):
            if not sweep.is_over():
                sweep.judge(case, sweep.once(case, thread=n)[0], f"thread {n}")
    missing = CALLS - set(sweep.told)
    if way == "all":
        counts.judge("each call ran out of memory", f"not {sorted(missing)}" if missing else None)
    print(f"{len(names)} tests of calls: {sum(sweep.told.values())} calls ran out of memory")


def main():
    if len(sys.argv) != 3 or sys.argv[2] not in STRIDES:
        fail("usage: tests/refused_memory.sh [all|short]")
    library, way = os.path.abspath(sys.argv[1]), sys.argv[2]
    program = built_program()
    with tempfile.TemporaryDirectory() as room:
        os.chdir(room)
        sweep = Sweep(program, library, way, room)
        texts = lay_out(program)
        refuse_threads(sweep)
        refuse_other_threads(sweep)
        few_processes(sweep)
        refuse_memory(sweep, texts)
        if TESTS.exists():
            refuse_calls(library, way, room, sweep.counts)
        else:
            print("left out: calls of the libraries, whose tests rt ci builds")
        os.chdir(TOP)
    print(f"{sweep.refused} errors of memory and threads, {sweep.whole} whole answers"
          + (", stopped by the clock" if sweep.is_over() else ""))
    return sweep.counts.close()


if __name__ == "__main__":
    sys.exit(main())
