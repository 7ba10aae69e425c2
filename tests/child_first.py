#!/usr/bin/env python3
"""Continues each child as soon as it is spawned, over the programs of the tables in examples/rows.

    python3 tests/child_first.py [TABLE..]      AFX=./afx names another program

Runs each program on one worker with `--trace`: there a task continues after a spawn, and its last child starts first. Then
puts the events into another order: at each spawn the whole child comes next, up to its end, on the next worker. `afx view`
carries out these events, one after the other. It must find them all legal, and their work and span must be those of the
run. Prints each program that differs; the last line is `N passed, M failed`. Programs with more than 20,000 events aren't
tried, and neither are those in which more than 64 tasks are nested.
"""
import json
import pathlib
import sys
import tempfile

sys.dont_write_bytecode = True
from rows import DATA, read_table, run  # noqa: E402

TAKES_VALUE = ("--input", "--steps", "--nest", "--w0")
MOST_EVENTS = 20_000


def question(words):
    """The file and the options of a command that runs a program, or None."""
    if not words or words[0] not in ("run", "serial"):
        return None
    file, options, rest = None, [], words[1:]
    while rest:
        if rest[0] in TAKES_VALUE and len(rest) > 1:
            options += rest[:2]
            rest = rest[2:]
        elif rest[0] in ("--workers", "--tasks") and len(rest) > 1:
            rest = rest[2:]
        elif rest[0] in ("--arrays",):
            rest = rest[1:]
        elif rest[0].startswith("-") or file is not None:
            return None
        else:
            file, rest = rest[0], rest[1:]
    return (file, tuple(options)) if file and "-" not in options else None


def task_of(event):
    return event["owner"] if event["e"] == "pass" else event["path"]


def children_first(events):
    """The events in the order in which each child continues as soon as it is spawned."""
    of_task, ordered, tasks = {}, [], [["0", 0, 0]]
    for event in events:
        if event["e"] != "steal":
            of_task.setdefault(task_of(event), []).append(event)
    while tasks:
        path, done, children = tasks[-1]
        worker = len(tasks) - 1
        if done == len(of_task.get(path, [])):
            tasks.pop()
            continue
        event = dict(of_task[path][done])
        tasks[-1][1] += 1
        if event["e"] == "take" and worker:
            ordered.append({"e": "steal", "from": worker - 1, "path": path, "worker": worker})
        if "worker" in event:
            event["worker"] = worker
        ordered.append(event)
        if event["e"] == "spawn":
            tasks[-1][2] = children + 1
            tasks.append([f"{path}.{children + 1}", 0, 0])
    return ordered


def line(value):
    return json.dumps(value, separators=(",", ":"), sort_keys=True)


def numbers(summary):
    return [text for text in summary.decode().split("\n") if text.startswith(("tasks:", "steps:", "span:"))]


def pairs(options):
    return list(zip(options[::2], options[1::2]))


def without_weight(options):
    """The options that `cost` takes too."""
    return [word for pair in pairs(options) if pair[0] != "--w0" for word in pair]


def work_of(measured):
    works = [text for text in measured.decode().split("\n") if text.startswith("work: ")]
    return int(works[0][len("work: "):]) if works else 0


def compare(file, options, room):
    """What differs, "" if nothing does, or None if the program has no such run, or too many events."""
    trace, other = pathlib.Path(room) / "one.trace", pathlib.Path(room) / "first.trace"
    # `cost` takes a tenth of the time of a trace.
    measured, _, _ = run(["cost", file, *without_weight(options)], room, b"")
    if work_of(measured) > MOST_EVENTS:
        return None
    _, _, status = run(["run", file, *options, "--workers", "1", "--trace", trace.name], room, b"")
    if status not in (0, 2, 3) or not trace.exists():
        return None
    lines = trace.read_text().splitlines()
    if len(lines) > MOST_EVENTS + 1:
        return None
    header, *events = [json.loads(text) for text in lines]
    ordered = children_first(events)
    if any(event.get("worker", 0) > 63 for event in ordered):
        return None
    if len(ordered) < len(events):
        return f"{len(events) - len(ordered)} events are of tasks that nobody spawned"
    other.write_text("".join(line(value) + "\n" for value in [dict(header, workers=64), *ordered]))
    given = [word for pair in pairs(options) if pair[0] == "--input" for word in pair]
    wanted, _, _ = run(["view", file, trace.name, "--summary", *given], room, b"")
    told, error, status = run(["view", file, other.name, "--summary", *given], room, b"")
    if status or numbers(told) != numbers(wanted) or len(numbers(told)) != 3:
        return f"status {status}, {error.decode()!r}, {numbers(told)} for {numbers(wanted)}"
    return ""


def content(files, name):
    """The bytes of a file of a group, or of examples/; None if there is no such file."""
    if name in files:
        return files[name]
    return (DATA / name).read_bytes() if (DATA / name).is_file() else None


def lay_out(room, files, names):
    for name in names:
        path = pathlib.Path(room) / name
        path.parent.mkdir(parents=True, exist_ok=True)
        path.write_bytes(content(files, name))


def questions(table):
    """The place of each run of a table, its file, its options and the files of its group."""
    for files, commands in read_table(table):
        for command in commands:
            for words in command.runs if command.is_real else []:
                asked = question(words)
                if asked:
                    yield command.place, *asked, files


def main():
    seen, passed, failed = set(), 0, 0
    for table in sys.argv[1:] or sorted(path.name for path in (DATA / "rows").glob("*.rows")):
        for place, file, options, files in questions(table):
            names = [file] + [name for option, name in pairs(options) if option == "--input"]
            contents = tuple(content(files, name) for name in names)
            if None in contents or (contents, options) in seen:
                continue
            seen.add((contents, options))
            with tempfile.TemporaryDirectory() as room:
                lay_out(room, files, names)
                said = compare(file, options, room)
            passed += said == ""
            if said:
                failed += 1
                print(f"{place}: {file} {' '.join(options)}: {said}")
    print(f"{passed} passed, {failed} failed")
    return 1 if failed or not passed else 0


if __name__ == "__main__":
    sys.exit(main())
