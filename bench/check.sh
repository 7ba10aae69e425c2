#!/bin/sh
# Times the race check of large programs, on one processor and on all: the minimum of three times each, in milliseconds,
# and the maximum memory, in megabytes. Not a test and not part of CI.
#
#     sh bench/check.sh      AFX='../afx' names another program to time
set -u
cd "$(dirname -- "$0")" || exit 1
afx=${AFX:-../afx}
folder=$(mktemp -d) && trap 'rm -rf "$folder"' EXIT

# copies N TEXT: prints the text N times
copies() {
    yes "$2" | head -n "$1"
}

# a program of 1 MiB with no async
{ echo 'main { array a: int[4];'; copies 58000 'a[1] = a[2] + 10;'; echo '}'; } >"$folder/straight"
# 20,000 asyncs in one finish; the same program, with the last async in a clash with all others
{ echo 'main { array a: int[1]; finish {'; copies 20000 'async { print a[0]; }'; echo '} }'; } >"$folder/asyncs"
{ echo 'main { array a: int[1]; finish {'; copies 19999 'async { print a[0]; }'; echo 'async { a[0] = 1; } } }'; } \
    >"$folder/clash"
# 250 procedures, each of which calls the next one; the last one calls the first
awk 'BEGIN {
    for (i = 0; i < 250; i++)
        printf "proc p%d(mut s: int, k: int) { if k > 0 { finish { async { s[0] = %d; } } p%d(s, k - 1); } }\n", \
            i, i, (i + 1) % 250
    print "main { array a: int[1]; p0(a, 3); }"
}' >"$folder/ring"
# a loop 90 deep, with an async in a finish at each level
{
    echo 'main { array a: int[1]; var x = 0;'
    copies 90 'while x < 1 { finish { async { a[0] = a[0] + 1; } }'
    echo 'x = 1;'
    copies 90 '}'
    echo '}'
} >"$folder/loops"

# least STATUS CMD..: prints the minimum of three times, and the memory, if the command ends with this status
least() {
    wanted=$1
    shift
    best=
    for turn in 1 2 3; do
        from=$(date +%s%N)
        command time -f %M -o "$folder/memory" "$@" >/dev/null 2>&1
        [ $? = "$wanted" ] || { echo failed; return; }
        took=$(( ($(date +%s%N) - from) / 1000000 ))
        if [ -z "$best" ] || [ "$took" -lt "$best" ]; then best=$took; fi
    done
    echo "$best ms $(( $(tail -n 1 "$folder/memory") / 1024 )) MB"
}

printf '%-10s %18s %18s\n' program 'one processor' 'all processors'
for name in straight asyncs clash ring loops; do
    status=0
    [ "$name" = clash ] && status=1
    printf '%-10s %18s %18s\n' "$name" "$(least $status taskset -c 0 $afx check "$folder/$name")" \
        "$(least $status $afx check "$folder/$name")"
done
