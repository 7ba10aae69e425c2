#!/bin/sh
# Times `run` without and with `--trace`, on 1 and 4 workers, in this one run: the minimum of three processor times each, in
# milliseconds. In brackets is the time with a trace divided by that without. With AFX_OLD, the rows of that program come too,
# in turn with those of AFX. A trace has one event for each step: only programs of few steps are timed.
#
# Not a test and not part of CI: times mean nothing on a machine that does other work.
#
#     sh bench/traces.sh [PROGRAM..]      AFX='../afx' names another program to time, AFX_OLD an older one
set -u
cd "$(dirname -- "$0")" || exit 1
afx=${AFX:-../afx}
made=$(mktemp -d) && trap 'rm -rf "$made"' EXIT
. ./programs.sh
make_inputs

# processor CMD..: prints the processor time of a command in milliseconds, or `failed`; the minimum of three
processor() {
    for turn in 1 2 3; do
        timeout 120 time -f '%U %S' -o "$made/took" "$@" >"$made/out" 2>"$made/err" || { echo failed; return; }
        tail -n 1 "$made/took"
    done | awk '/failed/ { bad = 1 } { took = ($1 + $2) * 1000; if (NR == 1 || took < least) least = took }
        END { if (bad) print "failed"; else printf "%.0f", least }'
}

# row PROGRAM NAME TASKS: prints the row of a program, run by this `afx`
row() {
    printf '%-20s' "$2"
    for workers in 1 4; do
        set -- "$1" "$2" "$3" run "$2.afx" $(input_of "$2") --steps 1000000000 --tasks "$3" --workers "$workers"
        by=$1 name=$2 tasks=$3
        shift 3
        plain=$(processor $by "$@")
        traced=$(processor $by "$@" --trace "$made/trace")
        printf ' %8s %16s' "$plain" "$traced ($(over "$traced" "$plain"))"
        set -- "$by" "$name" "$tasks"
    done
    echo " $(wc -c <"$made/trace") $1"
}

printf '%-20s %8s %16s %8s %16s %s\n' program '1 worker' 'with a trace' '4' 'with a trace' 'bytes, program'
[ $# -gt 0 ] || set -- tree halves
for name; do
    for by in "$afx" ${AFX_OLD:+"$AFX_OLD"}; do row "$by" "$name" "$(tasks_of "$name")"; done
done
