#!/bin/sh
# Runs every program of examples/, including the kernels of docs/COOKBOOK.md, with `afx run` on 1, 2, 3, 8 and 64 workers,
# RUNS times each (the first argument, or 200). Compares the output and the status with those of a first run on one worker.
# Ends by itself: after LIMIT seconds (the second argument, or 1800) it stops before the next run; until then each program
# is run as often as the others. The last line is `N runs, M differ`; the status is 1 if one differs or none was done.
# tests/all.sh runs it.
#
#     sh tests/schedules.sh [RUNS [LIMIT]]      AFX='./afx' names another program
set -eu
cd "$(dirname "$0")/.."
afx=${AFX:-./afx}
runs=${1:-200}
limit=${2:-1800}
room=$(mktemp -d)
trap 'rm -rf "$room"' EXIT
end=$(($(date +%s) + limit))
done_runs=0
differ=0

# Runs a program once, and keeps its output and its status.
one() {
    input=${1%.afx}.json
    workers=$2
    set -- run "$1"
    [ ! -e "$input" ] || set -- "$@" --input "$input"
    status=0
    timeout 120 $afx "$@" --workers "$workers" --arrays >"$room/out" 2>&1 || status=$?
    echo "status $status" >>"$room/out"
}

# Runs a program once on each number of workers, as long as there is time.
round() {
    for workers in 1 2 3 8 64; do
        [ "$(date +%s)" -lt "$end" ] || return 0
        one "$1" "$workers"
        done_runs=$((done_runs + 1))
        if ! cmp -s "$room/out" "$room/$(basename "$1")"; then
            differ=$((differ + 1))
            echo "$1 on $workers workers differs"
        fi
    done
}

for file in examples/*.afx; do
    one "$file" 1
    cp "$room/out" "$room/$(basename "$file")"
done
n=0
while [ "$n" -lt "$runs" ] && [ "$(date +%s)" -lt "$end" ]; do
    for file in examples/*.afx; do round "$file"; done
    n=$((n + 1))
done
echo "$done_runs runs, $differ differ"
[ "$done_runs" -gt 0 ] && [ "$differ" -eq 0 ]
