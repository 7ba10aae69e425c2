#!/bin/sh
# Times programs of many tasks, including those of docs/COOKBOOK.md at larger sizes (three of them with `parts` and with
# `split`), on one thread and in parallel on 1, 2 and 4 workers, in this one run: the minimum of three times each, in
# milliseconds (of one time, if it takes over 5 s). In brackets is one worker's time divided by that of `serial`, or by that of
# more workers. Then come the maximum memory of `serial` and of 4 workers, in megabytes, and the number of tasks. A '!' marks
# an output that differs from that of `serial`. bench/peers.sh times other pools on the same tasks.
#
# Not a test and not part of CI: times mean nothing on a machine that does other work.
#
#     sh bench/tasks.sh [PROGRAM..]      AFX='../afx' names another program to time
set -u
cd "$(dirname -- "$0")" || exit 1
afx=${AFX:-../afx}
made=$(mktemp -d) && trap 'rm -rf "$made"' EXIT
. ./programs.sh
make_inputs

# row NAME TASKS: prints the row of a program
row() {
    least $afx serial "$1.afx" $(input_of "$1") --steps 1000000000
    serial=$best
    serial_most=$most
    cp "$made/out" "$made/wanted"
    printf '%-20s %8s' "$1" "$(ms "$serial")"
    for workers in 1 2 4; do
        least $afx run "$1.afx" $(input_of "$1") --steps 1000000000 --tasks "$2" --workers "$workers"
        if [ "$workers" = 1 ]; then
            one=$best
            ratio=$(over "$one" "$serial")
        else
            ratio=$(over "$one" "$best")
        fi
        mark=
        cmp -s "$made/out" "$made/wanted" || mark=!
        printf ' %16s' "$(ms "$best") ($ratio)$mark"
    done
    printf ' %5s %5s %7s\n' "$serial_most" "$most" "$2"
}

printf '%-20s %8s %16s %16s %16s %5s %5s %7s\n' program serial '1 worker' '2 workers' '4 workers' MB 'MB 4' tasks
[ $# -gt 0 ] || set -- $(names "$single $kernels $forms")
for name; do row "$name" "$(tasks_of "$name")"; done
