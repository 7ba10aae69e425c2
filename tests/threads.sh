#!/bin/sh
# Counts the threads that commands start. No contract states on how many threads `bench` and `test` run a program: the
# outcome is the same on any number. `bench` runs it five times each as `run` does with 1, 2 and 4 workers, and `test` once
# each with 1 and 4, with `--write` too. So they start as many threads as these runs do. Needs a C compiler: CC, `cc` or the
# kit's. Prints each number that differs; the last line is `N passed, M failed`, and the status is 1 if one failed.
#     sh tests/threads.sh      AFX='./afx' names another program, RT another rt
set -eu
top=$(CDPATH= cd -- "$(dirname -- "$0")/.." && pwd)
# The built program itself: threads of the script ./afx say nothing.
program=${AFX:-$top/afx}
if [ "$(head -c 2 "$program")" = '#!' ]; then
    "$program" --version >/dev/null
    program=$top/crates/afx/out/afx
fi
room=$(mktemp -d)
trap 'rm -rf "$room"' EXIT
compiler=${CC:-}
for name in cc gcc clang; do [ -n "$compiler" ] || compiler=$(command -v $name || true); done
if [ -n "$compiler" ]; then
    "$compiler" -shared -fPIC -O1 -o "$room/started.so" "$top/tests/started_threads.c"
else
    "$(dirname "$("${RT:-rt}" doc)")/toolchain/bin/clang" -shared -fPIC -O1 -nostdlib -fuse-ld=lld \
        -o "$room/started.so" "$top/tests/started_threads.c"
fi

# started ARGUMENT..: the number of threads that a command starts.
started() {
    LD_PRELOAD=$room/started.so "$program" "$@" 9>"$room/number" >"$room/out" 2>"$room/err" || true
    wc -c <"$room/number"
}

passed=0
failed=0
# expect NAME NUMBER WANTED
expect() {
    if [ "$2" -eq "$3" ]; then
        passed=$((passed + 1))
    else
        failed=$((failed + 1))
        echo "$1: $2 threads for $3"
    fi
}

mkdir "$room/tests"
echo 'main { finish { async { print 1; } async { print 2; } } }' >"$room/tests/two.afx"
printf '1\n2\n' >"$room/tests/two.out"
file=$room/tests/two.afx
checked=$(started check "$file")
one=$(($(started run "$file" --workers 1) - checked))
two=$(($(started run "$file" --workers 2) - checked))
four=$(($(started run "$file" --workers 4) - checked))
expect 'run, 2 workers, beside 1' $((two - one)) 1
expect 'run, 4 workers, beside 1' $((four - one)) 3
expect 'serial' "$(started serial "$file")" 0
expect 'bench' "$(started bench "$file")" $((checked + 5 * (one + two + four)))
expect 'bench, 2 workers' "$(started bench "$file" --workers 2)" $((checked + 5 * (one + two)))
expect 'bench --format json' "$(started bench --format json "$file")" $((checked + 5 * (one + two + four)))
expect 'test' "$(started test "$room/tests")" $((checked + one + four))
expect 'test of one program' "$(started test "$file")" $((checked + one + four))
expect 'test --write' "$(started test --write "$room/tests")" $((checked + one + four))

echo "$passed passed, $failed failed"
[ "$failed" -eq 0 ]
