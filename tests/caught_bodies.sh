#!/bin/sh
# Tries the mutants that no contract excludes. A contract states what an Ok means and nothing about time, so these bodies
# are proved. They are the edits tests/bodies/*.edit, in the form of wrong bodies, with each file named from the top folder.
# Each edit is applied to a copy of the crates, which are then run unproved. The mutant is caught if something shows it:
#
# - One of the tests of `run_tests` fails, and not because it takes too long. Without an edit all tests must pass.
# - If the edit has a line `try: examples rows TABLE`: the program of `examples` doesn't print what crates/examples/stdout has
#   for this table, which `rt ci` compares with what the crates print without the edit.
# - If the edit has a line `try: CRATE ARGUMENT..`: the program of that crate, with these arguments, prints something else or
#   ends with another status than without the edit. `fault.afx` is tests/bodies/fault.afx.
#
# Arguments are names of edits; without any, all are tried, and if all are caught, the line `tests/bodies` of
# wrong_bodies/RESULT is renewed. Each takes some minutes; JOBS=N tries N at a time. KEPT=FOLDER keeps there what each edit came
# to, so that a run that was ended goes on where it was, as long as the crates and the edits are the same. The last line is
# `N caught, M not`; the status is 1 if one isn't caught. Not part of CI. The edits in tests/bodies/built are caught only by scripts over a built
# program: tests/threads.sh and tests/program.sh. They aren't tried here.
set -eu
cd "$(dirname "$0")/.."
top=$PWD
room=$(mktemp -d)
trap 'rm -rf "$room"' EXIT
# What each edit came to is kept in a folder of its own for these crates, in a file of its own for this edit.
kept=${KEPT:-$room}/$(git ls-files -z crates crates.txt | xargs -0 sha256sum | sha256sum | cut -c1-16)
mkdir -p "$kept"
told_of() {
    echo "$kept/$1.$(cat "tests/bodies/$1.edit" tests/bodies/fault.afx | sha256sum | cut -c1-16)"
}
is_whole=0
[ $# -gt 0 ] || {
    set -- $(basename -s .edit tests/bodies/*.edit)
    is_whole=1
}

# Applies an edit to the crates below the folder: replaces each old text, which must occur once, by the new one.
apply() {
    python3 - "$1" "$2" <<'PYTHON'
import sys
edit, folder = sys.argv[1:]
for line in open(edit):
    word, _, text = line.rstrip("\n").partition(": ")
    if word == "try":
        continue
    if word == "file":
        path = f"{folder}/{text}"
    elif word == "old":
        old = text
    else:
        body = open(path).read()
        if body.count(old) != 1:
            sys.exit(f"{edit}: {old!r} appears {body.count(old)} times")
        open(path, "w").write(body.replace(old, text))
PYTHON
}

# Runs the tests of the crates in a folder, and keeps their output in its log.
tested() {
    (cd "$1/crates/run_tests" && timeout 1800 rt try --test) >"$1/log" 2>&1 || true
}

# Prints the tests that failed, except those that only took too long: that also happens on a busy machine.
failed() {
    awk '/^test .* \.\.\. / { name = "" } /\.\.\. FAILED/ { name = $2; names[name] = 1 }
        /no-answer/ && name != "" { delete names[name] }
        END { for (name in names) printf "%s ", name }' "$1/log"
}

# The crates without an edit. Their tests must pass: otherwise a failure would show nothing about a mutant. The test that a
# scope issues weight 2^31 times is left out: an unproved run, which counts steps, would take it an hour.
as_they_stand() {
    mkdir -p "$1/.git"
    tar -cf - --exclude=out --exclude=must-fail crates crates.txt HANDLES | tar -xf - -C "$1"
    python3 - "$1/crates/run_tests/src/tests/threads.rt" <<'PYTHON'
import re, sys
text = open(sys.argv[1]).read()
less, count = re.subn(r"#\[test\]\nfn a_scope_issues_weight_two_to_the_31_times.*?\n}\n", "", text, flags=re.S)
assert count == 1, "no test to leave out"
open(sys.argv[1], "w").write(less.replace("use weights::book::MOST_ISSUES;\n", ""))
PYTHON
}
as_they_stand "$room/as_it_is"

# The tests must pass without an edit. Runs them once, before the first edit.
tested_as_it_is() {
    tested "$room/as_it_is"
    grep -q '^test result: ok' "$room/as_it_is/log" || {
        tail -20 "$room/as_it_is/log"
        echo "the tests fail without an edit, so nothing was tried"
        exit 1
    }
}

# printed FOLDER CRATE ARGUMENT..: what a crate's program prints, and its status. Empty if it doesn't compile or end.
printed() (
    cd "$1/crates/$2"
    shift 2
    # (the files of its folder data, as `rt ci` gives them, and one more)
    set -- -- "$@"
    [ ! -d data ] || for file in $(find data -type f); do set -- --data "${file#data/}=$PWD/$file" "$@"; done
    timeout 1800 rt try --seconds 600 --data fault.afx="$top/tests/bodies/fault.afx" "$@" >"$folder/out" 2>"$folder/err" || true
    grep -q '^run=ended' "$folder/out" "$folder/err" || exit 0
    grep -hvE '^(races|checked|interpreter|allocations): ' "$folder/out" "$folder/err"
)

# shown_by_tests FOLDER: the tests that catch the edit of a folder, if any.
shown_by_tests() {
    tested "$1"
    # The tests must have run: a mutant that doesn't compile shows nothing.
    failed "$1"
}

# shown_by_rows FOLDER TABLE: the table that catches the edit of a folder, or nothing.
shown_by_rows() {
    folder=$1
    printed "$folder" examples "rows $2" >"$folder/log"
    {
        grep "^$2: [0-9]* rows answer as they say$" crates/examples/stdout
        echo 'run=ended status=0 runners=1 races=unchecked proved=no'
    } >"$folder/wanted"
    if [ -s "$folder/log" ] && ! cmp -s "$folder/wanted" "$folder/log"; then
        echo "$2"
    fi
}

# shown_by_program FOLDER CRATE ARGUMENT..: the program that catches the edit of a folder, or nothing.
shown_by_program() {
    folder=$1
    shift
    # (the folder without an edit bears one build at a time)
    (
        flock 9
        printed "$room/as_it_is" "$@" >"$folder/wanted"
    ) 9>"$room/lock"
    printed "$folder" "$@" >"$folder/log"
    if [ -s "$folder/wanted" ] && [ -s "$folder/log" ] && ! cmp -s "$folder/wanted" "$folder/log"; then
        echo "$*"
    fi
}

# renew NUMBER: renews the line of these mutants in wrong_bodies/RESULT.
renew() {
    tip=$(git rev-parse --short HEAD)
    git diff --quiet HEAD -- crates tests/bodies || tip="$tip with later changes"
    {
        grep -v '^tests/bodies:' wrong_bodies/RESULT || true
        echo "tests/bodies: $1 caught, at $tip"
    } | sort >"$room/result"
    cp "$room/result" wrong_bodies/RESULT
}

# try_one NAME: tries an edit, and says in a file what caught it, or that nothing did.
try_one() {
    if [ -s "$(told_of "$1")" ]; then
        cat "$(told_of "$1")"
        return
    fi
    copy=$room/$1
    as_they_stand "$copy"
    apply "$top/tests/bodies/$1.edit" "$copy"
    way=$(sed -n 's/^try: //p' "$top/tests/bodies/$1.edit")
    if [ "${way% *}" = 'examples rows' ]; then
        names=$(shown_by_rows "$copy" "${way##* }")
    elif [ -n "$way" ]; then
        names=$(shown_by_program "$copy" $way)
    else
        names=$(shown_by_tests "$copy")
    fi
    if [ -n "$names" ]; then
        echo "$1: caught by $names" >"$copy/told"
    else
        { echo "$1: not caught"; tail -20 "$copy/log"; } >"$copy/told"
    fi
    mv "$copy/told" "$(told_of "$1")"
    cat "$(told_of "$1")"
    rm -rf "$copy"
}

[ -e "$kept/passes" ] || tested_as_it_is
touch "$kept/passes"
begun=0
for name; do
    try_one "$name" &
    begun=$((begun + 1))
    [ $((begun % ${JOBS:-1})) -ne 0 ] || wait
done
wait
caught=$(for name; do cat "$(told_of "$name")"; done | grep -c ': caught by ' || true)
missed=$(for name; do cat "$(told_of "$name")"; done | grep -c ': not caught$' || true)
[ "$caught" -ne $# ] || [ "$is_whole" = 0 ] || renew "$caught"
echo "$caught caught, $missed not"
[ "$caught" -eq $# ]
