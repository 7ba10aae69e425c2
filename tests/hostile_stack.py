"""Commands with little stack: deep and long programs, long runs, and explanations of what is wrong in them."""

# 99 brackets inside one another need 500 to 528 KB, depending on the machine.
SMALL_STACK = 576 * 1024
# What needs many steps or tasks.
LARGE = ["--steps", "1000000000", "--tasks", "1048576"]


def stack(tests):
    runs = [*deep_runs(tests), *long_traces(tests), *deep_trees(tests), *deep_explained(tests), *without_program(tests)]
    for words, status, out in tests.until_over(runs):
        # (an explanation is written to the standard error)
        err = None if "--explain" in words else b""
        tests.expect(words, status, out, err, stack=SMALL_STACK, environment={})
    try_mistakes(tests)
    try_deep_texts(tests, {"bench"})


# ---- texts

def nested(opening, inner, depth):
    """A program of blocks inside blocks."""
    return "main { " + opening * depth + inner + " }" * depth + " }\n"


def deep_texts():
    """Name, text, outcome: as many brackets as a program may have, and chains as long as it may be."""
    splits = "".join(f"split {'a' if n == 0 else f's{n - 1}'} at 0 as l{n}, s{n} {{ " for n in range(98))
    parts = "".join(f"parts {'a' if n == 0 else f'p{n - 1}'} by 1 as p{n}, i{n} {{ " for n in range(98))
    indices = "a[" * 98 + "0" + "]" * 98
    yield "brackets", "main { print " + "(" * 99 + "1" + ")" * 99 + "; }\n", "1\n"
    yield "indices", f"main {{ array a: int[1]; print {indices}; }}\n", "0\n"
    yield "ifs", nested("if true { ", "print 1;", 99), "1\n"
    yield "elses", nested("if false { } else { ", "print 1;", 99), "1\n"
    yield "finishes", nested("finish { ", "print 1;", 99), "1\n"
    yield "asyncs", nested("async { ", "print 1;", 99), "1\n"
    yield "both", nested("finish { async { ", "print 1;", 49).replace(" }" * 49, " } }" * 49), "1\n"
    yield "splits", "main { array a: int[1]; " + splits + "print 1; " + "}" * 98 + " }\n", "1\n"
    yield "parts", "main { array a: int[1]; " + parts + "print 1; " + "}" * 98 + " }\n", "1\n"
    yield "turns", "main { array a: int[20000]; parts a by 1 as p, i { p[0] = i; } print a[19999]; }\n", "19999\n"
    yield "a sum", "main { print 1" + "+1" * 500_000 + "; }\n", "500001\n"
    yield "a product", "main { print 1" + "*1" * 500_000 + "; }\n", "1\n"
    yield "an and", "main { if true" + " and true" * 110_000 + " { print 1; } }\n", "1\n"
    yield "an or", "main { if false" + " or false" * 100_000 + " { print 1; } else { print 2; } }\n", "2\n"
    yield "a print", "main { print 1" + ",1" * 500_000 + "; }\n", "1" + " 1" * 500_000 + "\n"
    yield "statements", "main { " + "skip;" * 65_535 + " }\n", ""
    yield "finishes in a row", "main { " + "finish{async{skip;}}" * 20_000 + " }\n", ""
    yield "else ifs", "main { var k = 1; " + "if k == 0 { skip; } else { k = k; } " * 20_000 + "print k; }\n", "1\n"


# What a text that is as deep or long as it may be is tried with. A check of very many labels takes its time.
WAYS = (["check"], ["check", "--explain"], ["check", "--format", "json"], ["list"], ["list", "--lines"], ["fmt"],
        ["fmt", "--check"], ["fmt", "--write"], ["mhp"], ["mhp", "--accesses"], ["mhp", "--by-line"], ["cost"],
        ["cost", "--by-line"], ["cost", "--by-procedure"], ["cost", "--format", "json"], ["bench"], ["serial"],
        ["serial", "--explain"], ["run", "--workers", "1"], ["run", "--workers", "8"], ["run", "--format", "json"],
        ["explore", "--random", "1"], ["run", "--workers", "2", "--trace", "deep.trace"])


def try_deep_texts(tests, left_out):
    """Each deep text by each command: the environment lies on the stack too, so there is none."""
    texts = {name: (text, out) for name, text, out in deep_texts()}
    for name, way in tests.until_over((name, way) for name in texts for way in WAYS):
        text, out = texts[name]
        command, *options = way
        if command in left_out and len(text) > 10_000:
            # (five runs by each of four ways say no more about the stack)
            continue
        given = {"stack": SMALL_STACK, "environment": {}}
        file = tests.file("deep.afx", text)
        ended = tests.run(command, file, *options, **given)
        wanted = out if command in ("serial", "run", "explore") and "json" not in options else None
        status = 1 if "--check" in options else 0
        good = ended.status == status and (wanted is None or ended.out == wanted.encode())
        told = f"{SMALL_STACK // 1024} KB of stack, {name}: {' '.join(way)}"
        tests.judge(told, None if good else str(ended))
        if "--trace" in options and good:
            for more in ([], ["--summary"], ["--svg", "deep.svg"], ["--chrome", "deep.json"], ["--html", "deep.html"],
                         ["--upgrade", "upgraded.trace"]):
                ended = tests.run("view", file, "deep.trace", *more, **given)
                tests.judge(f"{told}; view {' '.join(more)}", None if ended.status == 0 else str(ended))


def mistakes():
    """Name, text, line of the error: deep or long texts that are rejected."""
    calls = "".join(f"proc p{n}(mut s: int) {{ p{n - 1}(s); }}\n" for n in range(1, 256))
    yield "a wrong token", nested("async { ", "print ;", 99), "S2 at 1:806"
    yield "an unknown name", nested("async { ", "print x;", 99), "Y1 at label 100"
    yield "an unknown name at the end", "main { " + "skip; " * 65_000 + "print x; }\n", "Y1 at label 65001"
    yield ("a race of 97 asyncs", "main { array a: int[1]; finish { " + "async { " * 97 + "a[0] = 1;" + " }" * 97
           + " a[0] = 2; } }\n", "C1 race in main: 99 write a, 100 write a")
    yield ("a race over 60,000 statements", "main { array a: int[1]; finish { async { a[0] = 1; } "
           + "skip; " * 60_000 + "a[0] = 2; } }\n", "C1 race in main: 3 write a, 60004 write a")
    yield ("a race through 256 calls", "proc p0(mut s: int) { s[0] = 1; }\n" + calls
           + "main { array a: int[1]; finish { async { p255(a); } a[0] = 2; } }\n",
           "C1 race in main: 1 write a, 260 write a")


def try_mistakes(tests):
    """Explanations of what is rejected: a witness of a race, what could come next, names in scope."""
    ways = (["check"], ["check", "--explain"], ["check", "--format", "json"], ["run", "--explain"],
            ["explore", "--random", "1"])
    for (name, text, line), way in tests.until_over((mistake, way) for mistake in mistakes() for way in ways):
        command, *options = way
        file = tests.file("wrong.afx", text)
        ended = tests.run(command, file, *options, stack=SMALL_STACK, environment={})
        good = ended.status == 1 and ended.err.startswith(line.encode() + b"\n")
        good = good and bool(ended.out) == ("json" in options)
        tests.judge(f"{SMALL_STACK // 1024} KB of stack, {name}: {' '.join(way)}", None if good else str(ended))


# ---- runs: each yields words, status and output (None: any)

def deep_runs(tests):
    """100,000 nested calls, a million tasks in a row, and the deepest path."""
    calls = tests.file("calls.afx", "proc d(n: int) { if n > 0 { d(n - 1); } } main { d(100000); }\n")
    row = tests.file("row.afx", row_of(1_000_000))
    path = tests.file("path.afx", path_to("print 7;"))
    for command, *options in (["serial"], ["run", "--workers", "1"], ["run", "--workers", "8"]):
        yield [command, calls, *options], 0, ""
        yield [command, row, *options, *(LARGE if command == "run" else LARGE[:2])], 0, "1000000\n"
        yield [command, path, *options, "--nest", "1000"], 0, "7\n"
        yield [command, path, *options, "--nest", "999"], 3, "stopped\n"
    for command in ("explore", "cost"):
        random_choices = ["--random", "1"] if command == "explore" else []
        nest_limit = ["--nest", "1000"] if command == "cost" else []
        yield [command, path, *nest_limit, *random_choices], 0, "7\n" if command == "explore" else None
        yield [command, calls, *random_choices], 0, "" if command == "explore" else None
    yield ["cost", row, *LARGE[:2]], 0, None
    # (it has more steps than there are choices)
    yield ["explore", row, "--random", "1"], 3, None


def row_of(tasks):
    """A program with so many tasks in a row."""
    return f"main {{ var k = 0; finish {{ while k < {tasks} {{ async {{ skip; }} k = k + 1; }} }} print k; }}\n"


def path_to(statement):
    """A program whose 1,000th task inside tasks has this statement."""
    return f"proc f(n: int) {{ if n > 0 {{ async {{ f(n - 1); }} }} else {{ {statement} }} }} main {{ f(1000); }}\n"


def long_traces(tests):
    """Traces of the deepest path, and of a million tasks. These have 220 MB: the short sweep has a tenth of them."""
    for workers in ("1", "8"):
        trace = f"path{workers}.trace"
        words = ["run", "path.afx", "--nest", "1000", "--workers", workers, "--trace", trace]
        tests.run(*words)
        yield words[:-1] + ["again.trace"], 0, "7\n"
        for options in ([], ["--summary"], ["--svg", "path.svg"], ["--chrome", "path.json"], ["--html", "path.html"],
                        ["--upgrade", "upgraded.trace"]):
            yield ["view", "path.afx", trace, *options], 0, None
    many = 100_000 if tests.end else 1_000_000
    row = tests.file("long_row.afx", row_of(many))
    tests.run("run", row, "--workers", "1", *LARGE, "--trace", "long_row.trace")
    yield ["run", row, "--workers", "2", *LARGE, "--trace", "again.trace"], 0, f"{many}\n"
    yield ["view", row, "long_row.trace", "--summary"], 0, None


def deep_trees(tests):
    """Trees of 100,000 choices."""
    deep = tests.file("deep_choices.afx", "main { while true { async { skip; } } }\n")
    nest = tests.file("nest.afx", "proc down() { finish { down(); } } main { down(); }\n")
    rising = tests.file("rising.afx", "proc f() { async { f(); } } main { f(); }\n")
    zeros = tests.file("zeros", "0\n" * 100_000)
    owner = tests.file("owner", "\n".join(str(n // 2) for n in range(100_000)))
    yield ["explore", deep, "--choices-from", zeros], 3, "open 1\n"
    yield ["explore", deep, "--choices-from", owner], 3, "open 50001\n"
    yield ["explore", nest, "--choices-from", zeros], 3, "open 1\n"
    yield ["explore", rising, "--choices-from", zeros], 3, "open 1\n"


def deep_explained(tests):
    """Faults and stopped runs far from `main`: they are run again to be explained."""
    text = "proc d(n: int) { if n > 0 { d(n - 1); } else { fault 7; } } main { d(100000); }\n"
    calls = tests.file("faulty_calls.afx", text)
    path = tests.file("faulty_path.afx", path_to("fault 7;"))
    deepest = f"fault 0{'.1' * 1000} at 4: F6 7\n"
    for command, *options in (["serial"], ["run", "--workers", "8"]):
        yield [command, calls, *options, "--explain"], 2, "fault 0 at 3: F6 7\n"
        yield [command, path, *options, "--nest", "1000", "--explain"], 2, deepest
        yield [command, path, *options, "--nest", "999", "--explain"], 3, "stopped\n"
        yield [command, path, *options, "--nest", "1000", "--format", "json"], 2, None
    yield ["explore", path, "--random", "1", "--explain"], 2, deepest
    yield ["cost", calls, "--by-procedure"], 2, "fault 0 at 3: F6 7\n"


def without_program(tests):
    """What is printed without a program, and a folder of tests."""
    (tests.room / "deep_tests").mkdir(exist_ok=True)
    names = ("brackets", "asyncs", "finishes", "a sum")
    for name, text, out in deep_texts():
        if name in names:
            tests.file(f"deep_tests/{name}.afx", text)
            tests.file(f"deep_tests/{name}.out", out)
    yield ["test", "deep_tests"], 0, f"{len(names)} passed, 0 failed\n"
    pages = (["man"], ["--help"], ["help", "run"], ["explain", "--list"], ["explain", "Y5"])
    for words in (*pages, *(["completions", shell] for shell in ("bash", "zsh", "fish"))):
        yield words, 0, None
