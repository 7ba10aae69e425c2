#!/usr/bin/env python3
"""Uses the built program in hostile ways. tests/hostile.sh says how to call it."""
import contextlib
import os
import pathlib
import random
import shutil
import signal
import stat
import subprocess
import sys
import tempfile
import threading
import time

from hostile_stack import SMALL_STACK, nested, stack
from hostile_traces import LINES_TWO, cut_anywhere, of_other_runs, spelled_otherwise, swapped_and_doubled
from runs import LIMIT, Counts, Ended, built_program, fail, finish, run, shown, start

# The most seconds of a part in the short sweep, for those whose tables are long.
SHORT_SECONDS = {"texts": 6, "traces": 6, "stack": 16}
TWO_ARRAYS = "main { array a: int[1]; array b: int[1]; finish { async { a[0] = 7; } b[0] = 8; } print a[0], b[0]; }\n"
LONG_PRINTS = "main { var k = 0; while k < 20000 { print k, k, k; k = k + 1; } }\n"


class Tests:
    """The program, a folder, and the counts."""

    def __init__(self, program, room):
        self.program, self.room, self.counts = program, pathlib.Path(room), Counts()
        # (when a table has to end, in the short sweep)
        self.end, self.left_out = None, 0

    def until_over(self, cases):
        """The cases of a table. In the short sweep they come in a mixed order, as many as there is time for."""
        cases = list(cases)
        if self.end:
            random.Random(71).shuffle(cases)
        for at, case in enumerate(cases):
            if self.end and time.monotonic() > self.end:
                self.left_out += len(cases) - at
                return
            yield case

    def file(self, name, content):
        path = self.room / name
        path.write_bytes(content if isinstance(content, bytes) else content.encode())
        return name

    def run(self, *words, **more):
        return run(self.program, words, room=self.room, **more)

    def judge(self, name, fault):
        """Counts a test."""
        self.counts.judge(name, fault)

    def expect(self, words, status, out=None, err=b"", name=None, **more):
        """Runs the program and compares: None is any output."""
        ended = self.run(*words, **more)
        fault = None
        if ended.status != status or (out is not None and ended.out != as_bytes(out)):
            fault = f"{ended}, for status {status}" + (f" and output {shown(as_bytes(out))}" if out is not None else "")
        elif err is not None and ended.err != as_bytes(err):
            fault = f"{ended}, for error {shown(as_bytes(err))}"
        self.judge(name or "afx " + " ".join(map(os.fspath, words)), fault)
        return ended


def as_bytes(text):
    return text if isinstance(text, bytes) else text.encode()


# ---- texts of programs and inputs

INPUTS = [
    ('{"a":[1]}', "N4 a"), ('{"a":[1,2,3]}', "N4 a"), ('{"a":[[1],2]}', "N5 a"), ('{"a":[1.5,2]}', "N5 a"),
    ('{"a":[1.0,2]}', "N5 a"), ('{"a":[1e2,2]}', "N5 a"), ('{"a":[-0,2]}', "N5 a"), ('{"a":[null,2]}', "N5 a"),
    ('{"a":["1",2]}', "N5 a"), ('{"a":[9223372036854775808,2]}', "N5 a"), ('{"a":[-9223372036854775809,2]}', "N5 a"),
    ('{"a":[9223372036854775807,-9223372036854775808]}', None), ('{"a":[1,2],"a":[3,4]}', None),
    ('{"a":[1],"a":[3,4]}', None), ('{"a":[3,4],"a":[1]}', "N4 a"), ('{"b":[255]}', None), ('{"b":[256]}', "N5 b"),
    ('{"b":[-1]}', "N5 b"), ('{"a":7}', "N4 a"), ('{"a":{}}', "N4 a"), ('{"a":[]}', "N4 a"), ('{"z":1}', "N3 z"),
    ('{"":1}', "N3 "), ('{"\\u0061":[3,4]}', None), ('{"A":[1,2]}', "N3 A"), ('{"a\\u0000":[1,2]}', "N3 a\\x00"),
    ('{"b":[256],"a":[1],"z":1}', "N3 z"), ('{"b":[256],"a":[1]}', "N4 a"), ("{}", None), (" {} \n", None),
    ("[]", "N2"), ("7", "N2"), ("null", "N2"), ('"a"', "N2"), ("", "N1"), ("{", "N1"), ("{}{}", "N1"), ("{} x", "N1"),
    ('{"a":[1,2],}', "N1"), ('{"a":[1,2,]}', "N1"), ('{"a":[01,2]}', "N1"), ('{"a":[+1,2]}', "N1"),
    ('{"a":[.5,2]}', "N1"), ('{"a":[1,2]', "N1"), ('{"a":[NaN,2]}', "N1"), ('{"a":[1e400,2]}', "N1"),
    ("{'a':[1,2]}", "N1"), ('\ufeff{"a":[1,2]}', "N1"), ('{"a":[1,2]}\0', "N1"), ('{"\\ud800":[1,2]}', "N1"),
    ('{"a":[' + "1" * 100_000 + ",2]}", None), ("[" * 10_000 + "]" * 10_000, "N1"),
    ('{"a":' + "[" * 10_000 + "]" * 10_000 + "}", "N1"), ('{"a":' * 10_000 + "1" + "}" * 10_000, "N1"),
    ("[" * 1_000_000, "N1"), ('{"a":[' + "0," * 9_999_999 + "0]}", "N4 a"),
]


def texts(tests):
    file = tests.file("two.afx", "main { array a: int[2]; array b: byte[1]; print a[0], a[1], b[0]; }\n")
    small = {"stack": SMALL_STACK}
    for at, (text, wanted) in tests.until_over(enumerate(INPUTS)):
        given = tests.file("given.json", text)
        for command in ("serial", "run", "explore"):
            words = [command, file, "--input", given] + (["--random", "1"] if command == "explore" else [])
            ended = tests.run(*words, **small)
            if wanted is None:
                good = ended.status == 0 or (ended.status, ended.err) in ((1, b"N5 a\n"), (1, b"N1\n"))
            else:
                good = (ended.status, ended.out, ended.err.decode("utf-8", "replace")) == (1, b"", wanted + "\n")
            tests.judge(f"input {at} {shown(text)}, {command}", None if good else str(ended))
    known_inputs(tests, file)
    programs(tests)


def known_inputs(tests, file):
    """Inputs whose numbers are printed."""
    for text, out in (('{"a":[9223372036854775807,-9223372036854775808]}', "9223372036854775807 -9223372036854775808 0\n"),
                      ('{"a":[1,2],"a":[3,4]}', "3 4 0\n"), ('{"a":[1],"a":[3,4]}', "3 4 0\n"),
                      ('{"\\u0061":[3,4]}', "3 4 0\n"), ('{"b":[255]}', "0 0 255\n"), ("{}", "0 0 0\n")):
        tests.expect(["serial", file, "--input", tests.file("given.json", text)], 0, out)


def programs(tests):
    """Texts that are no programs, or as large as one may be."""
    limit = 1_048_576
    many = "main { " + "skip;" * 65_536 + " }"
    for text, status, out, err in tests.until_over((
            (b"main { print 1; }\0", 1, "", "S1 at 1:18\n"), (b"\xef\xbb\xbfmain { }", 1, "", "S1 at 1:1\n"),
            (b"main { } // \0", 0, "", ""), (b"", 1, "", "Y8\n"), (b"\xff", 1, "", "not UTF-8 p.afx\n"),
            (b"main { print " + b"(" * 100, 1, "", "S4 at 1:113\n"), (b"main { print 9" + b"9" * 100_000, 1, "", "S3 at 1:14\n"),
            (b"main { print " + b"0" * 100_000 + b"7; }", 0, "7\n", ""), (b"main { }".ljust(limit), 0, "", ""),
            (b"main { }".ljust(limit + 1), 1, "", "S5\n"), (b"\xff" * (limit + 1), 1, "", "S5\n"), (many.encode(), 1, "", "Y9\n"),
            (b"main { var " + b"x" * 1_000_000 + b" = 1; }", 0, "", ""), (b"}" * limit, 1, "", "S2 at 1:1\n"),
            (b"(" * limit, 1, "", "S4 at 1:101\n"), (b"main { array a: int[4194305]; }", 1, "", "Y9\n"),
            (b"main { array a: int[9223372036854775807]; }", 1, "", "Y9\n"), (b"main {\r\n print\t1;}", 0, "1\n", ""))):
        file = tests.file("p.afx", text)
        tests.expect(["serial", file], status, out, err, name=f"program {shown(text)}", stack=SMALL_STACK)
        tests.expect(["run", "-"], status, out, err.replace("p.afx", "-"), name=f"program {shown(text)} on -", stdin=text)


# ---- traces

def traces(tests):
    tests.file("t.afx", TWO_ARRAYS)
    tests.file("nested.afx", "main { finish { async { async { print 1; } print 2; } } print 3; }\n")
    ended = tests.run("run", "t.afx", "--w0", "8", "--workers", "1", "--trace", "t.trace")
    held = (tests.room / "t.trace").read_bytes()
    tests.judge("the trace of the page", None if held.decode() == "".join(LINES_TWO) and ended.status == 0 else str(ended))
    tests.run("run", "nested.afx", "--workers", "1", "--trace", "nested.trace")
    for name, text, wanted in tests.until_over([*cut_anywhere(), *swapped_and_doubled(), *spelled_otherwise()]):
        judge_trace(tests, name, text, wanted)
    for name, words, status, err in of_other_runs(tests):
        tests.expect(words, status, None if status == 0 else "", err, name=name)


def judge_trace(tests, name, text, wanted):
    """Views one text: `wanted` are the answers (status, output, error) that are right."""
    tests.file("x.trace", text)
    ended = tests.run("view", "t.afx", "x.trace")
    tests.judge(f"trace {name}", None if ended.key() in wanted else f"{ended}, for {wanted[0]}")


# ---- files

def feed(path, content):
    """Writes into a FIFO, from a thread of its own."""
    def write():
        with contextlib.suppress(OSError), open(path, "wb") as file:
            file.write(content)
    thread = threading.Thread(target=write, daemon=True)
    thread.start()
    return thread


def files(tests):
    tests.file("t.afx", TWO_ARRAYS)
    tests.file("in.afx", "main { array a: int[2]; print a[0], a[1]; }\n")
    tests.file("in.json", '{"a":[5,6]}')
    tests.run("run", "t.afx", "--workers", "1", "--trace", "t.trace")
    fifos(tests)
    folders(tests)
    odd_files(tests)
    odd_names(tests)
    changing(tests)
    rewritten(tests)
    grown(tests)
    same_names(tests)
    formatted_links(tests)
    over_own_files(tests)
    over_standard_input(tests)
    replaced(tests)
    by_another_user(tests)
    without_end(tests)


def rewritten(tests):
    """`fmt --write`: the file keeps its mode, and nothing else is left beside it."""
    path = tests.room / tests.file("mode.afx", "main { }\n")
    path.chmod(0o750)
    there = set(os.listdir(tests.room))
    tests.expect(["fmt", "mode.afx", "--write"], 0, "")
    good = path.read_bytes() == b"main {\n}\n" and path.stat().st_mode & 0o777 == 0o750
    tests.judge("fmt --write keeps the mode", None if good and set(os.listdir(tests.room)) == there else str(path.stat()))


def grown(tests):
    """`fmt --write`: a text that would become too long for a program stays as it is."""
    text = "main {\n" + "if 1 < 2 {\n" * 90 + "skip;\n" * 6000 + "}\n" * 91
    path = tests.room / tests.file("deep.afx", text)
    tests.expect(["check", "deep.afx"], 0, None)
    tests.expect(["fmt", "deep.afx", "--write"], 1, "", "cannot write deep.afx\n")
    tests.judge("fmt --write leaves a text that would grow too long", None if path.read_text() == text else "it was written")


def fifos(tests):
    """A pipe with a name, as each kind of file that is read."""
    fifo = tests.room / "fifo"
    os.mkfifo(fifo)
    for words, content, out in ((["run", "fifo"], TWO_ARRAYS.encode(), "7 8\n"),
                                (["run", "fifo", "--explain"], TWO_ARRAYS.encode(), "7 8\n"),
                                (["serial", "in.afx", "--input", "fifo"], b'{"a":[5,6]}', "5 6\n"),
                                (["explore", "t.afx", "--choices-from", "fifo"], b"0 0 0 0 0", "7 8\n"),
                                (["view", "t.afx", "fifo"], (tests.room / "t.trace").read_bytes(), None),
                                (["check", "fifo", "--explain"], b"main { print x; }", None)):
        thread = feed(fifo, content)
        tests.expect(words, 1 if words[0] == "check" else 0, out, None)
        thread.join(5)
    got = []
    thread = threading.Thread(target=lambda: got.append(fifo.read_bytes()), daemon=True)
    thread.start()
    ended = tests.run("run", "t.afx", "--workers", "1", "--trace", "fifo")
    thread.join(5)
    whole = ended.status == 0 and got == [(tests.room / "t.trace").read_bytes()]
    refused = ended.status == 1 and ended.err == b"cannot write fifo\n"
    tests.judge("run --trace into a FIFO", None if fifo.is_fifo() and (whole or refused) else f"{ended}, {got}")
    fifo.unlink()


def folders(tests):
    (tests.room / "folder").mkdir()
    for words in (["run", "folder"], ["check", "folder", "--explain"], ["serial", "in.afx", "--input", "folder"],
                  ["explore", "t.afx", "--choices-from", "folder"], ["view", "t.afx", "folder"], ["fmt", "folder", "--write"]):
        ended = tests.run(*words)
        good = ended.status == 1 and ended.out == b"" and ended.err.startswith(b"cannot read folder\n")
        tests.judge(f"a folder: {' '.join(words)}", None if good else str(ended))
    for words in (["run", "t.afx", "--trace", "folder"], ["run", "t.afx", "--trace", "folder/"], ["run", "t.afx", "--trace", ""],
                  ["run", "t.afx", "--trace", "none/x"], ["view", "t.afx", "t.trace", "--svg", "folder"],
                  ["view", "t.afx", "t.trace", "--chrome", "folder"], ["run", "t.afx", "--trace", "/proc/x"],
                  ["view", "t.afx", "t.trace", "--html", "folder"], ["explore", "t.afx", "--html", "folder"],
                  ["run", "t.afx", "--trace", "t.afx/x"], ["run", "t.afx", "--trace", "x" * 300]):
        tests.expect(words, 1, "", f"cannot write {words[-1]}\n")


def odd_files(tests):
    """Files without an end, and files that can't be read though they can be opened."""
    # (an AddressSanitizer build reserves more than any bound)
    bounded = {} if "AFX_AS_IT_IS" in os.environ else {"memory": 2 << 30}
    for words, err in ((["run", "/dev/zero"], "S5\n"), (["fmt", "/dev/zero"], "S5\n"), (["check", "/dev/null"], "Y8\n"),
                       (["explore", "t.afx", "--choices-from", "/dev/zero"], "choices not understood\n"),
                       (["serial", "in.afx", "--input", "/dev/null"], "N1\n"), (["view", "t.afx", "/dev/null"], "J1 line 1\n"),
                       (["run", "/proc/self/mem"], "cannot read /proc/self/mem\n"),
                       (["view", "t.afx", "/proc/self/mem"], "cannot read /proc/self/mem\n"),
                       (["serial", "in.afx", "--input", "/proc/self/mem"], "cannot read /proc/self/mem\n")):
        tests.expect(words, 1, "", err, **bounded)
    null = device(tests, "null", 3)
    tests.expect(["run", "t.afx", "--trace", null], 0, "7 8\n")
    tests.judge(f"{null} stays a device", None if (tests.room / null).is_char_device() else "it is a file now")
    tests.expect(["run", "/dev/stdin"], 0, "7 8\n", stdin=TWO_ARRAYS.encode())
    with open("/dev/zero", "rb") as zero:
        process = start(tests.program, ["run", "-"], stdin=zero)
        ended = finish(process)
        tests.judge("run - from /dev/zero", None if ended.key() == (1, b"", b"S5\n") else str(ended))


def device(tests, name, minor):
    """A device like /dev/NAME in the folder, so nothing happens to the real one; that one where there can be no other."""
    path = tests.room / name
    try:
        if not path.exists():
            os.mknod(path, stat.S_IFCHR | 0o666, os.makedev(1, minor))
        with open(path, "wb"):
            return name
    except OSError:
        path.unlink(missing_ok=True)
        return f"/dev/{name}"


def odd_names(tests):
    for word in (b"\xff.afx", b"a\xc3", b"--trace=\xff"):
        for words in ([b"run", word], [b"run", b"t.afx", b"--trace", word], [word], [b"view", b"t.afx", word],
                      [b"run", b"in.afx", b"--input", word], [b"view", b"t.afx", b"t.trace", b"--svg", word],
                      [b"fmt", word, b"--write"], [b"explore", b"t.afx", b"--choices-from", word], [b"test", word]):
            tests.expect(words, 1, "", "not UTF-8 command line\n", name=f"afx {words}")
    (tests.room / "tests").mkdir()
    with open(os.fsencode(tests.room) + b"/tests/\xff.afx", "wb") as file:
        file.write(b"main { }\n")
    tests.expect(["test", "tests"], 1, "", "cannot read tests\n")
    tests.expect(["run", "no\x1b[31m\nfile"], 1, "", "cannot read no\\x1b[31m\\x0afile\n")
    tests.expect(["run", "x" * 5000], 1, "", f"cannot read {'x' * 5000}\n")
    tests.expect(["run", ""], 1, "", "cannot read \n")
    name = tests.file("a name, 'quoted' é.afx", TWO_ARRAYS)
    tests.expect(["run", name], 0, "7 8\n")


def changing(tests):
    """A file that another process writes again and again while it is read: the answer is one of the two, or an error."""
    trace = (tests.room / "t.trace").read_bytes()
    zeros = b'{"a":[' + b" " * 200_000 + b"5,6]}"
    for name, short, long, commands in (
            ("changing.afx", b"main { print 1; }\n", b"main { " + b"print 2; " * 20_000 + b"}\n",
             (["serial", "changing.afx"], ["check", "changing.afx", "--explain"], ["fmt", "changing.afx"])),
            ("changing.json", b'{"a":[5,6]}', zeros, (["serial", "in.afx", "--input", "changing.json"],
                                                     ["run", "in.afx", "--input", "changing.json", "--explain"])),
            ("changing.trace", trace, trace + b'{"e":"step","path":"0"}\n' * 10_000,
             (["view", "t.afx", "changing.trace"], ["view", "t.afx", "changing.trace", "--explain"]))):
        path, stop = tests.room / name, threading.Event()
        path.write_bytes(short)
        with written_again(path, (short, long), stop):
            for n in range(30):
                words = commands[n % len(commands)]
                ended = tests.run(*words)
                good = not ended.is_bad() and ended.status <= 1 and (ended.status == 1) == bool(ended.err)
                tests.judge(f"{' '.join(words)}, which changes", None if good else str(ended))


@contextlib.contextmanager
def written_again(path, contents, stop):
    """Another thread writes these contents into a file, again and again."""
    def change():
        while not stop.is_set():
            for content in contents:
                path.write_bytes(content)
    thread = threading.Thread(target=change)
    thread.start()
    try:
        yield
    finally:
        stop.set()
        thread.join()


def same_names(tests):
    """The same name twice, also with `./`."""
    for name, words in (("t.afx", ["run", "t.afx", "--trace"]),
                        ("in.json", ["run", "in.afx", "--input", "in.json", "--trace"]),
                        ("t.trace", ["view", "t.afx", "t.trace", "--svg"]),
                        ("t.afx", ["view", "t.afx", "t.trace", "--chrome"]),
                        ("t.trace", ["view", "t.afx", "t.trace", "--html"])):
        before = (tests.room / name).read_bytes()
        for target in (name, f"./{name}"):
            ended = tests.run(*words, target)
            good = ended.status == 1 and ended.err and (tests.room / name).read_bytes() == before
            tests.judge(f"{' '.join(words)} {target}", None if good else str(ended))


def formatted_links(tests):
    """`fmt --write` on a link: the link stays one, and its file has the whole text, or the old one with a named line."""
    room, text, laid = tests.room, b"main { }\n", b"main {\n}\n"
    for kind, make in (("symbolic", os.symlink), ("hard", os.link)):
        (room / "real.afx").write_bytes(text)
        make("real.afx" if make is os.symlink else room / "real.afx", room / "link.afx")
        ended = tests.run("fmt", "link.afx", "--write")
        link, real = (room / "link.afx").read_bytes(), (room / "real.afx").read_bytes()
        good = (ended.status == 0 and link == laid and real in (laid, text)) or (ended.status == 1 and ended.err and real == text)
        if kind == "symbolic":
            good = good and (room / "link.afx").is_symlink() and real == link
        tests.judge(f"fmt --write on a {kind} link", None if good else f"{ended}, link {link}, file {real}")
        (room / "link.afx").unlink()
    links_of_links(tests)


def links_of_links(tests):
    """`fmt --write` on a link to a link, on one from another folder, and on one that leads nowhere."""
    room = tests.room
    (room / "linked").mkdir()
    links = {"first.afx": "real.afx", "second.afx": "first.afx", "linked/third.afx": "../second.afx"}
    for name, target in links.items():
        (room / name).symlink_to(target)
    for name in ("second.afx", "linked/third.afx"):
        (room / "real.afx").write_bytes(b"main { }\n")
        tests.expect(["fmt", name, "--write"], 0, "")
        good = (room / "real.afx").read_bytes() == b"main {\n}\n"
        good = good and all(os.readlink(room / link) == target for link, target in links.items())
        tests.judge(f"fmt --write on {name} keeps its links", None if good else "a link is a file now")
    (room / "nowhere.afx").symlink_to("none.afx")
    tests.expect(["fmt", "nowhere.afx", "--write"], 1, "", "cannot read nowhere.afx\n")


def over_own_files(tests):
    """A trace, a picture or a formatted text over a file that is read: by another name, or by a link."""
    room = tests.room
    for kind, make in (("another name", None), ("a symbolic link", os.symlink), ("a hard link", os.link)):
        for target, words in (("t.afx", ["run", "t.afx", "--trace"]), ("in.json", ["run", "in.afx", "--input", "in.json", "--trace"]),
                              ("t.afx", ["view", "t.afx", "t.trace", "--svg"]),
                              ("t.trace", ["view", "t.afx", "t.trace", "--chrome"]),
                              ("t.afx", ["view", "t.afx", "t.trace", "--html"])):
            (room / "in.json").write_text('{"a":[5,6]}')
            before, name = (room / target).read_bytes(), "link"
            if make:
                make(room / target if make is os.link else target, room / name)
            else:
                name = f"../{room.name}/{target}"
            ended = tests.run(*words, name)
            now = (room / target).read_bytes()
            named = ended.status == 1 and ended.err and not ended.err.startswith(b"cannot read")
            fault = f"{target} is overwritten ({ended})" if now != before else None if named else str(ended)
            tests.judge(f"afx {' '.join(words)} {name} ({kind} of {target})", fault)
            (room / target).write_bytes(before)
            (room / "link").unlink(missing_ok=True)


def over_standard_input(tests):
    """A trace over the program or the input that is the standard input."""
    for target, words in (("t.afx", ["run", "-", "--trace", "t.afx"]),
                          ("in.json", ["run", "in.afx", "--input", "-", "--trace", "in.json"])):
        (tests.room / "in.json").write_text('{"a":[5,6]}')
        before = (tests.room / target).read_bytes()
        ended = by_shell(tests, f"<{target}", words)
        now = (tests.room / target).read_bytes()
        good = ended.key() == (1, b"", f"cannot write {target}\n".encode())
        fault = f"{target} is overwritten ({ended})" if now != before else None if good else str(ended)
        tests.judge(f"afx {' '.join(words)} <{target}", fault)
        (tests.room / target).write_bytes(before)


def without_end(tests):
    """An input or a trace without an end: it is refused after 1 GiB, and not read until there is no memory."""
    for words in (["serial", "in.afx", "--input", "/dev/zero"], ["run", "in.afx", "--input", "/dev/zero"],
                  ["view", "t.afx", "/dev/zero"], ["serial", "in.afx", "--input", "-"]):
        ended, most = with_peak(tests, words)
        good = ended.key() == (1, b"", f"cannot read {words[-1]}\n".encode()) and most < 2500
        tests.judge(f"afx {' '.join(words)} </dev/zero", None if good else f"{ended}, after {most} MB")


def with_peak(tests, words):
    """A run whose standard input doesn't end, and the most MB that it had."""
    with open("/dev/zero", "rb") as zero, tempfile.TemporaryFile() as out, tempfile.TemporaryFile() as err:
        process = subprocess.Popen([tests.program, *words], stdin=zero, stdout=out, stderr=err, cwd=tests.room)
        killer = threading.Timer(LIMIT, process.kill)
        killer.start()
        _, status, used = os.wait4(process.pid, 0)
        killer.cancel()
        process.returncode = os.waitstatus_to_exitcode(status)
        out.seek(0)
        err.seek(0)
        ended = process.returncode
        return Ended(ended if ended >= 0 else 128 - ended, out.read(), err.read()), used.ru_maxrss // 1024


def replaced(tests):
    """Files that are written where there is a link, or with a long name; what is there is kept, and nothing is left."""
    room = tests.room
    trace = ["run", "t.afx", "--workers", "1", "--w0", "8", "--trace"]
    whole = "".join(LINES_TWO).encode()
    os.symlink("aimed", room / "dangling")
    os.symlink("dangling", room / "second")
    for name, target in (("dangling", "aimed"), ("second", "aimed"), ("x" * 255, "x" * 255), ("x" * 255, "x" * 255)):
        there = set(os.listdir(room)) | {target}
        tests.expect([*trace, name], 0, "7 8\n")
        good = (room / target).read_bytes() == whole and set(os.listdir(room)) == there
        good = good and (room / name).is_symlink() == (name != target)
        tests.judge(f"a trace to {name[:10]}", None if good else f"{sorted(set(os.listdir(room)) - there)}")
    (room / "loop").symlink_to("loop")
    tests.expect([*trace, "loop"], 1, "", "cannot write loop\n")
    for name in ("dangling", "second", "aimed", "x" * 255, "loop"):
        (room / name).unlink()


def by_another_user(tests):
    """A file that may not be written stays, though its folder may be. One in a folder that may not is written in place."""
    if os.getuid() != 0:
        print("left out: files of another user, which need root")
        return
    with tempfile.TemporaryDirectory() as name:
        room = pathlib.Path(name)
        shutil.copy(tests.program, room / "afx")
        (room / "afx").chmod(0o755)
        (room / "closed").mkdir()
        text, laid = b"main { }\n", b"main {\n}\n"
        for path, mode in ((room / "fixed.afx", 0o444), (room / "closed" / "own.afx", 0o666), (room / "given.afx", 0o666)):
            path.write_bytes(text)
            path.chmod(mode)
        room.chmod(0o777)
        other = {"user": 54321, "group": 54321, "extra_groups": []}
        for words, status, now, owner in ((["fmt", "fixed.afx", "--write"], 1, text, 0), (["fmt", "closed/own.afx", "--write"], 0, laid, 0),
                                          (["fmt", "given.afx", "--write"], 0, laid, 54321)):
            try:
                ended = run(str(room / "afx"), words, room=room, user=other)
            except (OSError, subprocess.SubprocessError) as error:
                print(f"left out: files of another user: {error}")
                return
            path = room / words[1]
            good = (ended.status, path.read_bytes(), path.stat().st_uid) == (status, now, owner)
            tests.judge(f"another user: {' '.join(words)}", None if good else f"{ended}, {path.stat()}")
        (room / "given.afx").write_bytes(text)
        tests.expect(["fmt", room / "given.afx", "--write"], 0, "")
        found = (room / "given.afx").stat()
        good = (found.st_uid, found.st_mode & 0o777) == (54321, 0o666)
        tests.judge("root formats the file of another user", None if good else str(found))


# ---- outputs

def outputs(tests):
    tests.file("t.afx", TWO_ARRAYS)
    tests.file("prints.afx", LONG_PRINTS)
    tests.file("pairs.afx", "main { var k = 0; while k < 2 { " + "async { skip; } " * 300 + "k = k + 1; } }\n")
    tests.file("loop.afx", "main { var k = 0; finish { while k < 600 { async { skip; } k = k + 1; } } }\n")
    tests.run("run", "loop.afx", "--workers", "1", "--trace", "loop.trace")
    (tests.room / "tests_of_output").mkdir()
    tests.file("tests_of_output/t.afx", TWO_ARRAYS)
    tests.file("tests_of_output/t.out", "7 8\n")
    much = (["run", "prints.afx"], ["serial", "prints.afx"], ["view", "loop.afx", "loop.trace"], ["mhp", "pairs.afx"], ["man"],
            ["view", "loop.afx", "loop.trace", "--by-line"], ["mhp", "pairs.afx", "--by-line"],
            ["list", "pairs.afx"], ["fmt", "pairs.afx"], ["explore", "prints.afx", "--random", "1"],
            ["run", "prints.afx", "--format", "json"], ["completions", "bash"])
    little = (["run", "t.afx"], ["check", "t.afx"], ["view", "loop.afx", "loop.trace", "--summary"], ["explain", "Y5"],
              ["view", "loop.afx", "loop.trace", "--summary", "--by-line"], ["list", "t.afx", "--format", "json"],
              ["view", "loop.afx", "loop.trace", "--summary", "--format", "json"],
              ["--help"], ["--version"], ["cost", "t.afx"], ["cost", "t.afx", "--by-line"], ["explain", "--list"],
              ["check", "t.afx", "--list"], ["mhp", "t.afx", "--format", "json"], ["list", "t.afx", "--lines"],
              ["bench", "t.afx"], ["bench", "t.afx", "--format", "json"], ["test", "tests_of_output"],
              ["test", "tests_of_output", "--write"])
    for words in much + little:
        closed_pipe(tests, words)
        with open("/dev/full", "wb") as full:
            tests.expect(words, 1, b"", "cannot write output\n", name=f"{' '.join(words)} >/dev/full", stdout=full)
        ended = by_shell(tests, ">&-", words)
        good = ended.status == 1 and ended.err == b"cannot write output\n"
        tests.judge(f"{' '.join(words)} >&-", None if good else str(ended))
    first_files(tests)
    full_files(tests)
    half_files(tests)


def by_shell(tests, redirected, words, before=""):
    """Runs the program with what a shell does to its first three files."""
    return run("/bin/sh", ["-c", f'{before}exec "$0" "$@" {redirected}', tests.program, *words], room=tests.room)


def first_files(tests):
    """Without a standard input, output or error, or with an error output that fails: the status is the same."""
    file = tests.file("faults.afx", "main { print 1; fault 2; }\n")
    for words, status, out in ((["run", "nowhere.afx"], 1, b""), (["--none"], 1, b""), (["run", file, "--steps", "0"], 1, b""),
                               (["serial", file, "--explain"], 2, b"1\nfault 0 at 2: F6 2\n")):
        for redirected in ("2>&-", "2>/dev/full", "<&-"):
            ended = by_shell(tests, redirected, words)
            good = (ended.status, ended.out) == (status, out)
            tests.judge(f"{' '.join(words)} {redirected}", None if good else str(ended))
    for words in (["run", "-"], ["serial", "-", "--explain"]):
        ended = by_shell(tests, "<&-", words)
        good = ended.status == 1 and ended.err.startswith(b"cannot read -\n")
        tests.judge(f"{' '.join(words)} <&-", None if good else str(ended))
    # A file that is opened now gets the number of the standard output: the trace isn't mixed with the outcome.
    trace = ["run", "t.afx", "--workers", "1", "--w0", "8", "--trace", "first.trace"]
    for redirected in (">&-", "<&- >&- 2>&-"):
        ended = by_shell(tests, redirected, trace)
        held = (tests.room / "first.trace").read_bytes()
        good = ended.status == 1 and held.decode() == "".join(LINES_TWO)
        tests.judge(f"{' '.join(trace)} {redirected}", None if good else f"{ended}, trace {shown(held)}")


def closed_pipe(tests, words):
    """A pipe whose reader is gone, with SIGPIPE as a shell leaves it, and ignored."""
    for keeps in (True, False):
        reader, writer = os.pipe()
        os.close(reader)
        tests.expect(words, 1, b"", "cannot write output\n", name=f"{' '.join(words)} into a closed pipe", stdout=writer,
                     keeps_signals=keeps)
        os.close(writer)


def full_files(tests):
    """A full disk under what is written."""
    full = device(tests, "full", 7)
    for words in (["run", "t.afx", "--trace", full], ["view", "loop.afx", "loop.trace", "--svg", full],
                  ["view", "loop.afx", "loop.trace", "--chrome", full],
                  ["view", "loop.afx", "loop.trace", "--html", full], ["explore", "t.afx", "--html", full]):
        tests.expect(words, 1, "", f"cannot write {full}\n")
    tests.judge(f"{full} stays a device", None if (tests.room / full).is_char_device() else "it is a file now")
    # No file may be longer than 4,096 bytes: the device of a small disk, for those who aren't root too.
    for words in writers("big.trace", "big.svg", "big.json", "big.html"):
        ended = tests.run(*words, file_size=4096, keeps_signals=False)
        good = ended.key() == (1, b"", f"cannot write {words[-1]}\n".encode())
        tests.judge(f"{' '.join(words)}, files of at most 4,096 bytes", None if good else str(ended))
        (tests.room / words[-1]).unlink(missing_ok=True)


def writers(trace, svg, chrome, html):
    """Commands that write more than 4,096 bytes into a file."""
    yield ["run", "loop.afx", "--workers", "2", "--trace", trace]
    yield ["view", "loop.afx", "loop.trace", "--svg", svg]
    yield ["view", "loop.afx", "loop.trace", "--chrome", chrome]
    yield ["view", "loop.afx", "loop.trace", "--html", html]


def half_files(tests):
    """Where a file can't be written whole, the old one stays and no half one is left."""
    room = tests.room
    for words in writers("old.trace", "old.svg", "old.json", "old.html"):
        for before in (None, b"old\n"):
            for signals_kept, how in ((False, "files of at most 4,096 bytes"), (True, "ended by SIGXFSZ while it writes")):
                path = room / words[-1]
                path.unlink(missing_ok=True)
                if before:
                    path.write_bytes(before)
                there = set(os.listdir(room))
                tests.run(*words, file_size=4096, keeps_signals=signals_kept)
                now = path.read_bytes() if path.exists() else None
                # (what is beside it after a signal can't be removed)
                more = set() if signals_kept else set(os.listdir(room)) - there - {path.name}
                tests.judge(f"afx {' '.join(words)} over {before}, {how}", None if now == before and not more else
                            f"leaves a file of {len(now or b'')} bytes {more or ''}")
                path.unlink(missing_ok=True)
    half_formatted(tests)
    interrupted_trace(tests)
    small_disk(tests)


def half_formatted(tests):
    text = b"main {" + b" skip;" * 2000 + b" }\n"
    (tests.room / "f.afx").write_bytes(text)
    ended = tests.run("fmt", "f.afx", "--write", file_size=4096, keeps_signals=False)
    now = (tests.room / "f.afx").read_bytes()
    tests.judge("afx fmt f.afx --write, files of at most 4,096 bytes", None if now == text else
                f"{ended}; the program of {len(text)} bytes has {len(now)}")


def interrupted_trace(tests):
    """Ctrl-C in the moment in which the trace is written."""
    tests.file("many.afx", "main { var k = 0; finish { while k < 20000 { async { skip; } k = k + 1; } } }\n")
    path, halves = tests.room / "many.trace", []
    tests.run("run", "many.afx", "--workers", "1", "--trace", "many.trace")
    whole = path.read_bytes()
    for _ in range(10):
        path.unlink(missing_ok=True)
        process = start(tests.program, ["run", "many.afx", "--workers", "1", "--trace", "many.trace"], cwd=tests.room)
        while process.poll() is None and not path.exists():
            pass
        process.send_signal(signal.SIGINT)
        finish(process)
        if path.exists() and path.read_bytes() != whole:
            halves.append(path.stat().st_size)
    tests.judge("Ctrl-C while a trace is written, 10 times", f"half files of {halves} of {len(whole)} bytes" if halves else None)


def small_disk(tests):
    """A file system of 64 KB that is full, for root alone."""
    disk = tests.room / "disk"
    disk.mkdir(exist_ok=True)
    mounted = subprocess.run(["mount", "-t", "tmpfs", "-o", "size=64k", "tmpfs", str(disk)], capture_output=True)
    if mounted.returncode:
        print("left out: a full tmpfs, which needs root")
        return
    try:
        text = b"main {" + b" skip;" * 5000 + b" }\n"
        (disk / "f.afx").write_bytes(text)
        for name in ("old.trace", "old.svg", "old.json"):
            (disk / name).write_bytes(b"old\n")
        for words, kept in ((["run", "loop.afx", "--trace", "disk/old.trace"], b"old\n"),
                            (["fmt", "disk/f.afx", "--write"], text),
                            (["view", "loop.afx", "loop.trace", "--svg", "disk/old.svg"], b"old\n"),
                            (["view", "loop.afx", "loop.trace", "--chrome", "disk/old.json"], b"old\n"),
                            (["run", "loop.afx", "--trace", "disk/new.trace"], None)):
            ended = tests.run(*words)
            name = next(word for word in words if word.startswith("disk/"))
            good = ended.key() == (1, b"", f"cannot write {name}\n".encode())
            now = (tests.room / name).read_bytes() if (tests.room / name).exists() else None
            more = [other for other in os.listdir(disk) if other.endswith(".new")]
            fault = f"{ended}; {shown(kept or b'')} before, {shown(now or b'')} now, {more}"
            fault = None if good and now == kept and not more else fault
            tests.judge(f"a full disk: afx {' '.join(words)}", fault)
    finally:
        subprocess.run(["umount", str(disk)], check=True)


# ---- signals

def signals(tests):
    """Ctrl-C and other signals while `run` works: it ends at once, and writes nothing."""
    tests.file("long.afx", "main { var k = 0; finish { while k < 64 { async { while true { skip; } } k = k + 1; } } }\n")
    for number in (signal.SIGINT, signal.SIGTERM, signal.SIGHUP):
        for workers in ("1", "8"):
            for options in ([], ["--trace", "long.trace"]):
                words = ["run", "long.afx", "--workers", workers, "--steps", "1000000000", *options]
                interrupt(tests, words, number)
    for command in (["serial"], ["cost"], ["bench"], ["run", "--explain"], ["run", "--format", "json"]):
        interrupt(tests, [command[0], "long.afx", *command[1:], "--steps", "1000000000"], signal.SIGINT)
    interrupted_files(tests)


def interrupted_files(tests):
    """Ctrl-C while a program is formatted or a picture is written: the old file, or the whole new one."""
    tests.file("much.afx", "main { var k = 0; finish { while k < 20000 { async { skip; } k = k + 1; } } }\n")
    tests.run("run", "much.afx", "--workers", "1", "--trace", "much.trace")
    text = b"main {" + b" skip;" * 60_000 + b" }\n"
    for name, words, before in (("long.afx", ["fmt", "long.afx", "--write"], text),
                                ("much.svg", ["view", "much.afx", "much.trace", "--svg", "much.svg"], b"old\n"),
                                ("much.json", ["view", "much.afx", "much.trace", "--chrome", "much.json"], b"old\n")):
        path = tests.room / name
        path.write_bytes(before)
        began = time.monotonic()
        tests.run(*words)
        took, whole, halves = time.monotonic() - began, path.read_bytes(), []
        for n in range(10):
            path.write_bytes(before)
            process = start(tests.program, words, cwd=tests.room)
            time.sleep(took * n / 10)
            process.send_signal(signal.SIGINT)
            finish(process)
            if path.read_bytes() not in (before, whole):
                halves.append(path.stat().st_size)
        fault = f"half files of {halves} of {len(whole)} bytes" if halves or whole == before else None
        tests.judge(f"Ctrl-C while {' '.join(words)} works, 10 times", fault)


def interrupt(tests, words, number):
    """Sends a signal to a run that works. 128 and its number is the status that a shell tells: 130 for Ctrl-C."""
    process = start(tests.program, words, cwd=tests.room)
    time.sleep(0.2)
    still = process.poll() is None
    process.send_signal(number)
    began = time.monotonic()
    ended = finish(process)
    took = time.monotonic() - began
    left = [name for name in words if name.endswith(".trace") and (tests.room / name).exists()]
    good = still and ended.key() == (128 + number, b"", b"") and took < 5 and not left
    tests.judge(f"{' '.join(words)}, signal {number}", None if good else f"{ended}, after {took:.1f} s, leaves {left}")


# ---- rows

def rows(tests):
    """Weights of a finish of 10,000 tasks, and asyncs inside asyncs."""
    tests.file("w.afx", "main { var k = 0; finish { while k < 10000 { async { skip; } k = k + 1; } } }\n")
    for w0, replenishings, issued in ((1, 10_000, 10_001), (4_294_967_296, 303, 1_305_670_057_984)):
        tests.expect(["run", "w.afx", "--w0", str(w0), "--workers", "1", "--trace", "w.trace"], 0, "")
        lines = (tests.room / "w.trace").read_text().splitlines()
        # All are of the scope 0#1, where the root is innermost, and pass says that what it issued is back.
        found = lines.count('{"e":"replenish","path":"0"}')
        passed = lines.count('{"e":"pass","number":1,"owner":"0"}')
        fault = None if (found, w0 * (1 + found), passed) == (replenishings, issued, 1) else f"{found} replenishings"
        tests.judge(f"--w0 {w0}: book of 0#1", fault)
        ended = tests.expect(["view", "w.afx", "w.trace", "--summary"], 0, None)
        good = f"replenishments: {replenishings}\n".encode() in ended.out and b"tasks: 10001\n" in ended.out
        tests.judge(f"--w0 {w0}: the summary", None if good else str(ended))
    tests.file("n.afx", nested("async { ", "print 5;", 99))
    for command in (["serial"], ["run", "--workers", "1"], ["run", "--workers", "8"]):
        tests.expect([command[0], "n.afx", *command[1:], "--nest", "99"], 0, "5\n")
        tests.expect([command[0], "n.afx", *command[1:], "--nest", "98"], 3, "stopped\n")


PARTS = {part.__name__: part for part in (files, outputs, signals, rows, texts, traces, stack)}


def main():
    program, wanted = built_program(), sys.argv[1:]
    is_short = wanted[:1] == ["short"]
    wanted = wanted[is_short:] or list(PARTS)
    if not set(wanted) <= set(PARTS):
        fail(f"usage: tests/hostile.sh [short] [{' | '.join(PARTS)}]..")
    with tempfile.TemporaryDirectory() as room:
        tests = Tests(program, room)
        for name in wanted:
            began, passed, left_out = time.monotonic(), tests.counts.passed, tests.left_out
            tests.end = began + SHORT_SECONDS[name] if is_short and name in SHORT_SECONDS else None
            try:
                PARTS[name](tests)
            except (OSError, ValueError) as error:
                # (a file that a run should have left, say)
                tests.counts.judge(f"{name} ends early", repr(error))
            missed = tests.left_out - left_out
            more = f", {missed} left out by the clock" if missed else ""
            print(f"{name}: {tests.counts.passed - passed} passed{more}, {time.monotonic() - began:.0f} s", flush=True)
    return tests.counts.close()


if __name__ == "__main__":
    sys.exit(main())
