#!/bin/sh
# Runs all tests that need only the built program: a few minutes. `./afx` provides the program, from the release or by
# building it. Prints the lines of each script that fails. The last line is `N passed, M failed`, the sum of all scripts;
# the status is 1 if one failed.
#
#     sh tests/all.sh      AFX='./afx' names another program
set -eu
cd "$(dirname "$0")/.."
AFX=${AFX:-}
export AFX
room=$(mktemp -d)
trap 'rm -rf "$room"' EXIT
passed=0
failed=0

# part NAME COMMAND..: runs a script whose last line is `N passed, M failed`, `N runs, M differ` or `N cases, M differ`.
part() {
    name=$1
    shift
    began=$(date +%s)
    "$@" >"$room/out" 2>&1 || true
    last=$(tail -n 1 "$room/out")
    case $last in
    *' passed, '*' failed' | *' runs, '*' differ' | *' cases, '*' differ') ;;
    *) last='0 passed, 1 failed' ;;
    esac
    good=${last%% *}
    bad=${last#*, }
    bad=${bad%% *}
    # (of a script that counts runs or cases, those that differ are among them)
    case $last in *differ) good=$((good - bad)) ;; esac
    passed=$((passed + good))
    failed=$((failed + bad))
    [ "$bad" = 0 ] || cat "$room/out"
    echo "$name: $good passed, $bad failed, $(($(date +%s) - began)) s"
}

# What building or unpacking the program prints is no part of a test, nor is what `./afx` adds to its answers.
if [ -z "$AFX" ]; then
    ./afx --version >"$room/version"
    AFX=$PWD/crates/afx/out/afx
fi

part 'exit statuses and small stacks' sh tests/program.sh
part 'at a terminal' python3 tests/terminal.py
part 'threads' sh tests/threads.sh
part 'races found once' sh tests/once.sh
part 'rows of command lines' python3 tests/rows.py
part 'children first' python3 tests/child_first.py
part 'cookbook' sh tests/cookbook.sh
part 'editor words' sh tests/editor_words.sh
part 'schedules' sh tests/schedules.sh 3 60
part 'refused memory' sh tests/refused_memory.sh short
part 'hostile use' sh tests/hostile.sh short
part 'changed at random' sh tests/fuzz.sh 20 71
echo "$passed passed, $failed failed"
[ "$failed" -eq 0 ]
