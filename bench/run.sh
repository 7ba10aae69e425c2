#!/bin/sh
# Times the one-thread run of each kernel next to the same program in Lua, LuaJIT's interpreter, Python and C, on this
# machine and in this one run: the minimum of three times each, in milliseconds, and the peer's time divided by that of afx.
# Not a test and not part of CI: times mean nothing on a machine that does other work.
#
#     sh bench/run.sh [KERNEL..]     AFX='afx serial --steps 1000000000' names another program to time
set -u
cd "$(dirname -- "$0")" || exit 1
afx=${AFX:-../afx serial --steps 1000000000}
made=$(mktemp -d) && trap 'rm -rf "$made"' EXIT

# least CMD..: prints the minimum of three times in milliseconds; the command's output goes to $made/out
least() {
    best=
    for turn in 1 2 3; do
        from=$(date +%s%N)
        "$@" >"$made/out" 2>"$made/err" || { echo failed; return; }
        took=$(( ($(date +%s%N) - from) / 1000000 ))
        if [ -z "$best" ] || [ "$took" -lt "$best" ]; then best=$took; fi
    done
    echo "$best"
}

# column CMD..: prints its time, and its time divided by that of afx; a '!' if it prints something else
column() {
    time=$(least "$@")
    mark=
    tr '\t' ' ' <"$made/out" | cmp -s - "$made/wanted" || mark=!
    case $time$ours in
        *failed*) printf ' %16s' "$time" ;;
        *) printf ' %16s' "$time ($(awk "BEGIN { printf \"%.2f\", $time / ($ours ? $ours : 1) }"))$mark" ;;
    esac
}

missing=
for peer in lua5.4 luajit python3 cc; do
    command -v "$peer" >/dev/null || missing="$missing $peer"
done
[ -z "$missing" ] || echo "not found:$missing"
has() { case " $missing " in *" $1 "*) return 1 ;; esac; }

printf '%-10s %8s %16s %16s %16s %16s\n' kernel afx lua5.4 'luajit -joff' python3 'cc -O2'
[ $# -gt 0 ] || set -- loop doubling insertion sieve matrix fib
for name in "$@"; do
    ours=$(least $afx "$name.afx")
    cp "$made/out" "$made/wanted"
    printf '%-10s %8s' "$name" "$ours"
    # LuaJIT has no integer division; the lengths that are halved are even.
    sed 's|//|/|' "$name.lua" >"$made/jit.lua"
    if has lua5.4; then column lua5.4 "$name.lua"; else printf ' %16s' -; fi
    if has luajit; then column luajit -joff "$made/jit.lua"; else printf ' %16s' -; fi
    if has python3; then column python3 "$name.py"; else printf ' %16s' -; fi
    if has cc && cc -O2 -o "$made/native" "$name.c"; then column "$made/native"; else printf ' %16s' -; fi
    echo
done
