#!/bin/sh
# Runs a command, usually `rt ci --anew`, and updates release/SECONDS: for each crate that was proved meanwhile on this
# machine, the processor seconds of its proof, without tests and mutants. `./afx build` estimates from these numbers how
# long it still takes. A crate that the command didn't prove keeps its number.
#
#     sh tests/seconds.sh rt ci --anew
set -eu
cd "$(dirname "$0")/.."
room=$(mktemp -d)
trap 'rm -rf "$room"' EXIT
table=release/SECONDS
: >"$room/samples"

# Every three seconds: the processor seconds so far of each process that proves a crate, by its process number.
sample() {
    while :; do
        ps -eo pid=,times=,args= | awk '
            $3 ~ /\/rattle$/ && match($0, /-o [^ ]*\/crates\/[a-z_0-9]+\/out\/rlib\//) {
                split(substr($0, RSTART), path, "/crates/")
                split(path[2], name, "/")
                print $1, $2, name[1]
            }' >>"$room/samples"
        sleep 3
    done
}

sample &
sampler=$!
trap 'kill "$sampler" 2>/dev/null || true; rm -rf "$room"' EXIT
status=0
"$@" || status=$?
kill "$sampler" 2>/dev/null || true

[ -r "$table" ] || : >"$table"
awk '
    NR == FNR { if ($2 > most[$1]) most[$1] = $2; name[$1] = $3; next }
    { kept[$1] = $2 }
    END {
        for (process in most) if (most[process] > longest[name[process]]) longest[name[process]] = most[process]
        for (crate in kept) if (!(crate in longest)) longest[crate] = kept[crate]
        for (crate in longest) print crate, longest[crate] + 2
    }' "$room/samples" "$table" | LC_ALL=C sort >"$room/table"
cp "$room/table" "$table"
exit "$status"
