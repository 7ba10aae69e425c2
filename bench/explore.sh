#!/bin/sh
# Times runs step by step over 13 doublings of 1,024 numbers: with 100,000 choices from a file, each of which names the
# first leaf, and with the choices that a generator draws, to the end. Prints the minimum of three times each, in
# milliseconds. Not a test and not part of CI.
#
#     sh bench/explore.sh      AFX='../afx' names another program to time
set -u
cd "$(dirname -- "$0")" || exit 1
afx=${AFX:-../afx}
choices=$(mktemp) && trap 'rm -f "$choices"' EXIT
yes 0 | head -n 100000 >"$choices"

# least STATUS CMD..: prints the minimum of three times in milliseconds, if the command ends with this status
least() {
    wanted=$1
    shift
    best=
    for turn in 1 2 3; do
        from=$(date +%s%N)
        "$@" >/dev/null 2>&1
        [ $? = "$wanted" ] || { echo failed; return; }
        took=$(( ($(date +%s%N) - from) / 1000000 ))
        if [ -z "$best" ] || [ "$took" -lt "$best" ]; then best=$took; fi
    done
    echo "$best"
}

printf '%-28s %8s\n' "100,000 choices from a file" "$(least 3 $afx explore doublings.afx --choices-from "$choices")"
printf '%-28s %8s\n' "at random, to the end" "$(least 0 $afx explore doublings.afx --random 1)"
