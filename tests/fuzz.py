#!/usr/bin/env python3
"""Compares what the commands say of programs that are changed at random. tests/fuzz.sh says how to call it."""
import collections
import json
import os
import pathlib
import random
import re
import sys
import tempfile
import time

from fuzz_cases import INPUT_PIECES, changed_bytes, changed_program, changed_trace, seeds_of_cases
from hostile_traces import table
from runs import TOP, Fast, built_program, fail

# Steps and tasks of an accepted program: at most 200,000 steps together. Others are bounded by few asyncs in one another.
BUDGETS = [(400, 500), (4000, 50), (20_000, 10)]
NEST = ["--nest", "20"]
SMALL = ["--steps", "200", "--nest", "2"]


class Differs(Exception):
    """Two answers that should be the same aren't, or a run ended as none may."""


class Case:
    """One changed program, with its input, in the folder where the commands run."""

    def __init__(self, fast, number, rng):
        self.fast, self.number, self.rng, self.said, self.kind = fast, number, rng, [], "rejected"
        self.name, text, given = rng.choice(SEEDS)
        self.text = changed_program(text, rng) if rng.random() < 0.9 else text
        self.given = given if given is None or rng.random() < 0.6 else changed_bytes(given, rng, INPUT_PIECES)
        if self.given is None and rng.random() < 0.05:
            self.given = changed_bytes(b'{"a":[1,2,3,4]}', rng, INPUT_PIECES)
        self.options = [] if self.given is None else ["--input", "case.json"]
        steps, tasks = rng.choice(BUDGETS)
        self.budget, self.tasks = ["--steps", str(steps), *NEST], ["--tasks", str(tasks)]

    def write(self):
        pathlib.Path("case.afx").write_bytes(self.text.encode())
        if self.given is not None:
            pathlib.Path("case.json").write_bytes(self.given)

    def run(self, *words):
        """Runs a command. Every answer has a status of docs/FORMATS.md, and its messages where they belong."""
        ended = self.fast.run(list(words), os.environ)
        self.said.append(f"afx {' '.join(words)}\n  {ended}")
        if ended.is_bad() or ended.status > 4 or b"Sanitizer" in ended.err:
            raise Differs(f"{words[0]} ends badly")
        if "json" not in words and (ended.status in (1, 4)) != bool(ended.err) and "--check" not in words:
            raise Differs(f"{words[0]} has a message with status {ended.status}, or none")
        return ended

    def same(self, what, first, second):
        if first.key() != second.key():
            raise Differs(what)


def try_case(case):
    """All comparisons of one case."""
    case.write()
    checked = case.run("check", "case.afx")
    try_format(case, checked)
    object_of(case, checked, "check", "case.afx", "--format", "json")
    if checked.status == 0:
        case.kind = "accepted"
        try_accepted(case)
    elif checked.err.startswith(b"C1"):
        case.kind = "with a race"
        case.same("the race of check and run", checked, case.run("run", "case.afx", *case.options))
        try_racy(case)
    else:
        for command in ("serial", "run", "cost", "explore"):
            case.same(f"the error of check and {command}", checked, case.run(command, "case.afx", *case.options))


def object_of(case, ended, *words):
    """The object of a command is JSON, and has the status and the message of its text."""
    told = case.run(*words)
    held = json.loads(told.out)
    if (told.status, told.err) != (ended.status, ended.err) or held["status"] != ended.status:
        raise Differs(f"the object of {words[0]}")
    if ended.err and held["message"] != ended.err.decode().splitlines()[0]:
        raise Differs(f"the message in the object of {words[0]}")


def try_format(case, checked):
    """The formatted text: formatted again it is the same, and it has the same answers."""
    formatted = case.run("fmt", "case.afx")
    if formatted.status:
        return
    pathlib.Path("laid.afx").write_bytes(formatted.out)
    case.same("fmt twice", formatted, case.run("fmt", "laid.afx"))
    case.same("fmt --check of its own text", case.run("fmt", "--check", "laid.afx"), EMPTY)
    case.same("check after fmt", checked, case.run("check", "laid.afx"))
    case.same("list after fmt", case.run("list", "case.afx"), case.run("list", "laid.afx"))
    if checked.status == 0 or checked.err.startswith(b"C1"):
        case.same("mhp after fmt", case.run("mhp", "case.afx"), case.run("mhp", "laid.afx"))
        case.same("mhp --accesses after fmt", case.run("mhp", "case.afx", "--accesses"),
                  case.run("mhp", "laid.afx", "--accesses"))


def try_racy(case):
    """A program with a race has a run on one thread."""
    shared = [*case.options, *SMALL]
    outcome = case.run("serial", "case.afx", "--arrays", *shared)
    case.same("serial after fmt", outcome, case.run("serial", "laid.afx", "--arrays", *shared))


def try_accepted(case):
    """A program without a race: each way to run it has the same outcome."""
    shared = [*case.options, *case.budget]
    one = case.run("run", "case.afx", *shared, *case.tasks, "--workers", "1", "--arrays")
    eight = case.run("run", "case.afx", *shared, *case.tasks, "--workers", "8", "--arrays")
    case.same("run on 1 and on 8 workers", one, eight)
    if one.status == 4:
        # Too many tasks: on one thread it might take very long.
        return
    outcome = case.run("serial", "case.afx", *shared, "--arrays")
    case.same("serial and run", outcome, one)
    case.same("serial after fmt", outcome, case.run("serial", "laid.afx", *shared, "--arrays"))
    if outcome.status in (0, 1, 2):
        explored = case.run("explore", "case.afx", *case.options, "--random", str(case.rng.getrandbits(63)), "--arrays")
        if explored.status != 3:
            case.same("serial and explore", outcome, explored)
    if outcome.status in (0, 2, 3):
        object_of(case, outcome, "run", "case.afx", "--format", "json", *shared, "--workers", "8")
        try_trace(case, shared, outcome)


def try_trace(case, shared, outcome):
    """The trace of a run is legal, its table has its events, and its numbers are those of `cost`."""
    workers = case.rng.choice(["1", "2", "8"])
    pathlib.Path("case.trace").unlink(missing_ok=True)
    w0 = str(case.rng.choice([1, 2, 8, 1_048_576, 4_294_967_296]))
    traced = case.run("run", "case.afx", *shared, "--workers", workers, "--w0", w0, "--trace", "case.trace", "--arrays")
    case.same("run with a trace", outcome, traced)
    held = pathlib.Path("case.trace").read_bytes()
    viewed = case.run("view", "case.afx", "case.trace", *case.options)
    if viewed.status or viewed.out != table(held.decode().splitlines()[1:]):
        raise Differs("the table of a trace")
    pathlib.Path("old.trace").write_bytes(in_format_one(held))
    upgraded = case.run("view", "case.afx", "old.trace", *case.options, "--upgrade", "new.trace")
    if upgraded.key() != viewed.key() or pathlib.Path("new.trace").read_bytes() != held:
        raise Differs("a trace of format 1, upgraded")
    numbers = case.run("view", "case.afx", "case.trace", *case.options, "--summary").out.decode()
    if outcome.status == 0:
        cost = case.run("cost", "case.afx", *shared).out.decode()
        for name, other in (("work", "steps"), ("span", "span"), ("tasks", "tasks"), ("parallelism", "parallelism")):
            if number_in(cost, name) != number_in(numbers, other):
                raise Differs(f"{name} of cost, {other} of view --summary")
    changed = changed_trace(held, case.rng)
    pathlib.Path("changed.trace").write_bytes(changed)
    viewed = case.run("view", "case.afx", "changed.trace", *case.options)
    if viewed.status == 0 and viewed.out != table(changed.decode().splitlines()[1:]):
        raise Differs("the table of a changed trace")
    if viewed.status and not viewed.err.startswith((b"J1 line ", b"illegal at event ", b"not UTF-8 ")):
        raise Differs("the refusal of a changed trace")


def in_format_one(trace):
    """The lines of a trace of format 2 in format 1."""
    header, events = trace.split(b"\n", 1)
    return header.replace(b'"format":2', b'"format":1') + b"\n" + re.sub(rb'"faults":\d+,', b"", events)


def number_in(text, name):
    return next((line.split(": ")[1] for line in text.splitlines() if line.startswith(f"{name}: ")), None)


class Empty:
    def key(self):
        return 0, b"", b""


EMPTY = Empty()
SEEDS = seeds_of_cases()


def keep(case, seed, fault):
    """Keeps what differs: the files, the commands and their answers. Returns the folder."""
    top = pathlib.Path(KEPT or tempfile.mkdtemp(prefix="afx-fuzz."))
    folder = top / f"{seed}-{case.number}"
    folder.mkdir(parents=True, exist_ok=True)
    for path in pathlib.Path(".").iterdir():
        if not path.name.startswith("."):
            (folder / path.name).write_bytes(path.read_bytes())
    (folder / "answers").write_bytes((f"{fault}\n\n" + "\n".join(case.said) + "\n").encode())
    return folder


def clear():
    for path in pathlib.Path(".").iterdir():
        path.unlink()


KEPT = os.environ.get("KEPT") and os.path.abspath(os.environ["KEPT"])


def words_of_call():
    """Seconds, seed, number of the first case, number of the last one or none."""
    given = sys.argv[1:]
    if not 2 <= len(given) <= 4 or not all(word.isdigit() for word in given):
        fail("usage: tests/fuzz.sh SECONDS SEED [FIRST [LAST]]")
    seconds, seed, first, last = [*map(int, given), *[0, None][len(given) - 2:]]
    return seconds, seed, first, last


def try_one(fast, seed, number, tried):
    """One case, whose kind and whose runs are counted. Returns whether something differs."""
    case = Case(fast, number, random.Random(f"{seed}:{number}"))
    try:
        try_case(case)
    except (Differs, ValueError, KeyError) as fault:
        folder = keep(case, seed, fault)
        print(f"seed {seed}, case {number} ({case.name}): {fault}; kept in {folder}; "
              f"sh tests/fuzz.sh 60 {seed} {number} {number}", flush=True)
        return True
    finally:
        tried[case.kind] += 1
        tried["runs"] += len(case.said)
    return False


def main():
    seconds, seed, first, last = words_of_call()
    program, end = built_program(), time.monotonic() + seconds
    number, differ, tried = first, 0, collections.Counter()
    with tempfile.TemporaryDirectory() as room:
        os.chdir(room)
        fast = Fast(program, room)
        while time.monotonic() < end and (last is None or number <= last) and differ < 50:
            differ += try_one(fast, seed, number, tried)
            number += 1
            clear()
        os.chdir(TOP)
    print(", ".join(f"{tried[kind]} {kind}" for kind in ("accepted", "with a race", "rejected", "runs")))
    print(f"{number - first} cases, {differ} differ")
    return 1 if differ or number == first else 0


if __name__ == "__main__":
    sys.exit(main())
