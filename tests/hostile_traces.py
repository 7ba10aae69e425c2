"""Texts that are no traces, or traces of no run, each with the answers of `afx view` that are right."""
import json

# The run of docs/FORMATS.md, with --w0 8 --workers 1.
LINES = [line + "\n" for line in """\
{"format":1,"nest":100,"steps":1000000,"w0":8,"workers":1}
{"e":"take","path":"0","worker":0}
{"e":"open","path":"0"}
{"e":"spawn","path":"0"}
{"e":"step","path":"0"}
{"e":"park","path":"0"}
{"e":"take","path":"0.1","worker":0}
{"e":"step","path":"0.1"}
{"e":"end","path":"0.1"}
{"e":"pass","number":1,"owner":"0"}
{"e":"resume","path":"0","worker":0}
{"e":"step","path":"0"}
{"e":"park","path":"0"}
{"e":"pass","number":0,"owner":"0"}""".split("\n")]


# The same run in format 2.
HEADER_TWO = '{"format":2,"nest":100,"steps":1000000,"w0":8,"workers":1}'
RESUME, RESUME_TWO = '{"e":"resume","path":"0","worker":0}', '{"e":"resume","faults":0,"path":"0","worker":0}'
LINES_TWO = [HEADER_TWO + "\n"] + [line.replace(RESUME, RESUME_TWO) for line in LINES[1:]]


def table(lines):
    """The table of the events of these lines, as docs/FORMATS.md says."""
    rows = []
    for number, line in enumerate(lines):
        event = json.loads(line)
        subject = event["path"] if "path" in event else f"{event['owner']}#{event['number']}"
        worker, other = event.get("worker", ""), event.get("from", "")
        rows.append(f"{number:8} {event['e']:9} {worker:>2} {other:>2} {subject}\n")
    return "".join(rows).encode()


def shows(lines):
    return 0, table(lines[1:]), b""


def refuses(line):
    return 1, b"", (line + "\n").encode()


def illegal(first, last):
    return [refuses(f"illegal at event {number}") for number in range(first, last + 1)]


def cut_anywhere():
    """The trace without its end: cut before each of its bytes."""
    whole = "".join(LINES)
    for at in range(len(whole)):
        left = whole[:at]
        count = left.count("\n")
        is_list = left.endswith("\n")
        yield f"cut at {at}", left.encode(), [shows(LINES[:count]) if is_list else refuses(f"J1 line {count + 1}")]


def swapped_and_doubled():
    """Lines exchanged, doubled and left out."""
    for first in range(len(LINES)):
        for second in range(first + 1, len(LINES)):
            lines = list(LINES)
            lines[first], lines[second] = lines[second], lines[first]
            if first == 0:
                wanted = [refuses("J1 line 1")]
            else:
                wanted = [shows(lines), *illegal(first - 1, second - 1)]
            yield f"lines {first + 1} and {second + 1} swapped", "".join(lines).encode(), wanted
    for at in range(len(LINES)):
        twice = LINES[:at + 1] + LINES[at:]
        wanted = [refuses("J1 line 2")] if at == 0 else illegal(at, at)
        yield f"line {at + 1} doubled", "".join(twice).encode(), wanted
        less = LINES[:at] + LINES[at + 1:]
        wanted = [refuses("J1 line 1")] if at == 0 else illegal(at - 1, len(LINES))
        wanted += [shows(less)] if at == len(LINES) - 1 else []
        yield f"line {at + 1} left out", "".join(less).encode(), wanted
    yield "twice", "".join(LINES * 2).encode(), [refuses("J1 line 15")]
    yield "of a million steps", "".join(LINES[:3] + LINES[4:5] * 1_000_000).encode(), illegal(2, 2)


HEADERS = [
    '{"format":0,"nest":100,"steps":1000000,"w0":8,"workers":1}', '{"format":3,"nest":100,"steps":1000000,"w0":8,"workers":1}',
    '{"format":02,"nest":100,"steps":1000000,"w0":8,"workers":1}', '{"format":"2","nest":100,"steps":1000000,"w0":8,"workers":1}',
    '{"format":2,"nest":100,"steps":0,"w0":8,"workers":1}', '{"format":1,"nest":1001,"steps":1000000,"w0":8,"workers":1}',
    '{"format":1,"nest":-1,"steps":1000000,"w0":8,"workers":1}', '{"format":1,"nest":100,"steps":0,"w0":8,"workers":1}',
    '{"format":1,"nest":100,"steps":1000000001,"w0":8,"workers":1}', '{"format":1,"nest":100,"steps":1000000,"w0":0,"workers":1}',
    '{"format":1,"nest":100,"steps":1000000,"w0":4294967297,"workers":1}', '{"format":1,"nest":100,"steps":1000000,"w0":8,"workers":0}',
    '{"format":1,"nest":100,"steps":1000000,"w0":8,"workers":65}', '{"nest":100,"format":1,"steps":1000000,"w0":8,"workers":1}',
    '{"format":1,"nest":100,"steps":1000000,"workers":1,"w0":8}', '{"format": 1,"nest":100,"steps":1000000,"w0":8,"workers":1}',
    '{"format":1,"nest":100,"steps":1000000,"w0":8,"workers":1} ', ' {"format":1,"nest":100,"steps":1000000,"w0":8,"workers":1}',
    '{"format":1,"nest":100,"steps":1000000,"w0":8}', '{"format":1,"nest":100,"steps":1000000,"w0":8,"workers":1,"x":1}',
    '{"format":1,"nest":"100","steps":1000000,"w0":8,"workers":1}', '{"format":1,"nest":100.0,"steps":1000000,"w0":8,"workers":1}',
    '{"format":1,"nest":1e2,"steps":1000000,"w0":8,"workers":1}', '{"format":1,"nest":0100,"steps":1000000,"w0":8,"workers":1}',
    '{"format":1,"nest":100,"nest":100,"steps":1000000,"w0":8,"workers":1}', '{"format":1,"nest":100,"steps":1000000,"w0":8,"workers":1}\r',
    '{"format":1,"nest":100,"steps":18446744073709551617,"w0":8,"workers":1}', '\ufeff{"format":1,"nest":100,"steps":1000000,"w0":8,"workers":1}',
    "", "\0", "[]", "{}", "{" * 10_000, "[" * 100_000 + "]" * 100_000,
]

EVENTS = [
    '{"e":"take","path":"00","worker":0}', '{"e":"take","path":"","worker":0}', '{"e":"take","path":"0.","worker":0}',
    '{"e":"take","path":"0.0","worker":0}', '{"e":"take","path":"0.01","worker":0}', '{"e":"take","path":"1","worker":0}',
    '{"e":"take","path":"0.4294967296","worker":0}', '{"e":"take","path":"0 ","worker":0}', '{"e":"take","path":"0..1","worker":0}',
    '{"e":"take","path":0,"worker":0}', '{"e":"take","path":"0","worker":64}', '{"e":"take","path":"0","worker":-1}',
    '{"e":"take","path":"0","worker":0.0}', '{"e":"take","path":"0","worker":00}', '{"e":"take","path":"0","worker":"0"}',
    '{"path":"0","e":"take","worker":0}', '{"e":"take","worker":0,"path":"0"}', '{"e":"take", "path":"0","worker":0}',
    '{"e":"take","path":"0","worker":0} ', '{"e":"take","path":"0"}', '{"e":"take","path":"0","worker":0,"x":0}',
    '{"e":"Take","path":"0","worker":0}', '{"e":"take","path":"\\u0030","worker":0}', '{"e":"t\\u0061ke","path":"0","worker":0}',
    '{"e":"take","path":"0","worker":0}\r', '{"e":"take","path":"0","path":"0","worker":0}', '{"e":"steal","path":"0","worker":0}',
    '{"e":"pass","number":4294967296,"owner":"0"}', '{"e":"pass","number":-1,"owner":"0"}', '{"e":"pass","owner":"0","number":0}',
    '{"e":"pass","number":0,"owner":"0#0"}', '{"e":"go","path":"0"}', "", "\0", "null", "{" * 10_000, "x" * 1_000_000,
    '{"e":"step","path":"' + ".".join(["0"] + ["1"] * 1001) + '"}', '{"e":"step","path":"' + "0" * 1_000_000 + '"}',
]

# Lines of a resume that no trace of format 2 has.
RESUMES = [
    RESUME, '{"e":"resume","faults":00,"path":"0","worker":0}', '{"e":"resume","faults":-1,"path":"0","worker":0}',
    '{"e":"resume","faults":-0,"path":"0","worker":0}', '{"e":"resume","faults":4294967296,"path":"0","worker":0}',
    '{"e":"resume","faults":18446744073709551616,"path":"0","worker":0}', '{"e":"resume","faults":0.0,"path":"0","worker":0}',
    '{"e":"resume","faults":"0","path":"0","worker":0}', '{"e":"resume","faults":null,"path":"0","worker":0}',
    '{"e":"resume","path":"0","faults":0,"worker":0}', '{"e":"resume","path":"0","worker":0,"faults":0}',
    '{"e":"resume","faults":0,"faults":0,"path":"0","worker":0}', '{"e":"resume","fault":0,"path":"0","worker":0}',
    '{"e":"take","faults":0,"path":"0","worker":0}', '{"e":"step","faults":0,"path":"0"}',
]

# Spelled as they have to be, and never the first event of a run.
STRANGE = ['{"e":"take","path":"0.4294967295","worker":0}', '{"e":"take","path":"0","worker":63}', '{"e":"pass","number":4294967295,"owner":"0"}',
           '{"e":"step","path":"' + ".".join(["0"] + ["1"] * 1000) + '"}', '{"e":"steal","from":63,"path":"0","worker":0}',
           '{"e":"steal","from":0,"path":"0","worker":0}', '{"e":"end","path":"0"}', '{"e":"replenish","path":"0"}']

# Other settings, and where the run isn't legal under them.
SETTINGS = [(100, 1_000_000, 8, 64, None), (1000, 1_000_000_000, 4_294_967_296, 1, None), (1, 4, 2, 1, None), (0, 1_000_000, 8, 1, 2),
            (100, 3, 8, 1, 10), (100, 1, 8, 1, 2), (100, 1_000_000, 1, 1, 2)]


def spelled_otherwise():
    """Lines that aren't spelled as they have to be, and settings of another run."""
    rest = "".join(LINES[1:])
    for at, line in enumerate(HEADERS):
        yield f"header {at} {line[:70]!r}", f"{line}\n{rest}".encode(), [refuses("J1 line 1")]
    for at, line in enumerate(EVENTS):
        text = LINES[0] + line + "\n" + rest
        yield f"event {at} {line[:70]!r}", text.encode(), [refuses("J1 line 2")]
        yield f"event {at} at the end", ("".join(LINES) + line + "\n").encode(), [refuses("J1 line 15")]
    for line in STRANGE:
        yield f"event {line[:60]}", f"{LINES[0]}{line}\n{rest}".encode(), illegal(0, 0)
    for nest, steps, w0, workers, wrong in SETTINGS:
        header = f'{{"format":1,"nest":{nest},"steps":{steps},"w0":{w0},"workers":{workers}}}\n'
        wanted = [shows(LINES)] if wrong is None else illegal(wrong, wrong)
        yield f"settings {header}", (header + rest).encode(), wanted
    for line in RESUMES:
        yield f"format 2 with {line}", "".join(LINES_TWO).replace(RESUME_TWO, line).encode(), [refuses("J1 line 11")]
    for number in (1, 2, 4294967295):
        line = RESUME_TWO.replace(":0,", f":{number},", 1)
        yield f"format 2 with {line}", "".join(LINES_TWO).replace(RESUME_TWO, line).encode(), illegal(9, 9)
    yield "format 2", "".join(LINES_TWO).encode(), [shows(LINES_TWO)]
    yield "the header of format 2", (HEADER_TWO + "\n" + rest).encode(), [refuses("J1 line 11")]
    yield "the header of format 1", "".join(LINES[:1] + LINES_TWO[1:]).encode(), [refuses("J1 line 11")]
    yield "a byte that isn't UTF-8", LINES[0].encode() + b"\xff\n", [refuses("not UTF-8 x.trace")]


def of_other_runs(tests):
    """Traces of another program: name, words, status, error."""
    assert (tests.room / "nested.trace").exists()
    yield "of another run", ["view", "t.afx", "nested.trace"], 1, "illegal at event 3\n"
    yield "of another program", ["view", "nested.afx", "t.trace"], 1, "illegal at event 3\n"
    yield "a program as a trace", ["view", "t.afx", "nested.afx"], 1, "J1 line 1\n"
