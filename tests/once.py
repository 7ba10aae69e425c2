#!/usr/bin/env python3
"""Counts how often commands parse, type and check a program with a race, and search for its witness.

    tests/once.py LIBRARY     AFX=./afx names another program

LIBRARY is tests/refuse_allocation.c, built: it counts the requests for memory and the threads of a run, and refuses none.
Three programs make one kind of work large, and the rest small:

- One has a long sum. Parsing and typing it requests memory for each term, and nothing else does. `check` does both once.
- One has many procedures. Only the race check starts threads, and `check` does it once.
- One has its race deep in a block. The search for a witness copies paths, so its requests are many more than all others.
  With `--all` the witness of each race is searched for once more, and the program has one race. So the difference is one
  search.
"""
import os
import pathlib
import struct
import sys
import tempfile

from runs import Counts, built_program, run

RACE = "main { array a: int[1]; async { a[0] = 1; } a[0] = 2; }\n"

# Each command, and how often it searches for a witness.
COMMANDS = [
    ("check", ["check"], 0),
    ("check --explain", ["check", "--explain"], 1),
    ("check --format json", ["check", "--format", "json"], 1),
    ("check --explain --format json", ["check", "--explain", "--format", "json"], 1),
    ("check --explain --all", ["check", "--explain", "--all"], 2),
    ("run --explain --format json", ["run", "--explain", "--format", "json"], 1),
    ("explore --explain", ["explore", "--explain"], 1),
]


def long_sum(terms):
    return "proc other() { print 1" + " + (1 + 1)" * terms + "; }\n" + RACE


def procedures(number):
    return "".join(f"proc p{n}() {{ skip; }}\n" for n in range(number)) + RACE


def deep_race(depth):
    return "main { array a: int[1]; " + "if true { " * depth + "async { a[0] = 1; } a[0] = 2; " + "} " * depth + "}\n"


class Program:
    """The built program, with the folder of its files."""

    def __init__(self, library, room):
        self.room, self.built = pathlib.Path(room), built_program()
        self.report = self.room / "report"
        self.environment = {**os.environ, "LD_PRELOAD": library, "REFUSE_REPORT": str(self.report)}

    def counted(self, words, text):
        """The requests and the threads of a run that finds the race."""
        (self.room / "p.afx").write_text(text)
        self.report.write_bytes(bytes(24))
        ended = run(self.built, [words[0], "p.afx", *words[1:]], room=self.room, environment=self.environment)
        assert ended.status == 1, (words, str(ended))
        requests, _, threads = struct.unpack("3q", self.report.read_bytes())
        return requests, threads

    def requests(self, words, text):
        return self.counted(words, text)[0]

    def for_terms(self, words):
        """The requests of a command for 500 more terms of the sum."""
        return self.requests(words, long_sum(600)) - self.requests(words, long_sum(100))


def main():
    counts = Counts()
    with tempfile.TemporaryDirectory() as room:
        program = Program(os.path.abspath(sys.argv[1]), room)
        many, deep = procedures(100), deep_race(50)
        of_check, checking = program.for_terms(["check"]), program.counted(["check"], many)[1]
        bare = program.requests(["check"], deep)
        search = (program.requests(["check", "--explain", "--all"], deep)
                  - program.requests(["check", "--explain"], deep))
        # (parsing and typing request memory for each term, and a search more than all of `check`)
        counts.judge("parsing and typing", "" if of_check > 500 else f"{of_check} requests for 500 terms")
        counts.judge("a search", "" if search > 5 * bare else f"{search} requests, and {bare} of `check`")
        for name, words, searches in COMMANDS:
            parsed = round(program.for_terms(words) / of_check)
            counts.judge(name, "" if parsed == 1 else f"parsed and typed {parsed} times")
            threads = program.counted(words, many)[1]
            counts.judge(name, "" if threads == checking else f"{threads} threads for {checking}")
            found = (program.requests(words, deep) - bare) // search
            counts.judge(name, "" if found == searches else f"{found} searches for {searches}")
    return counts.close()


if __name__ == "__main__":
    sys.exit(main())
