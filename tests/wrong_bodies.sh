#!/bin/sh
# Tries the mutants that `rt ci` doesn't try: the edits wrong_bodies/NAME/*.edit. Each changes what a function of the crate
# NAME means, and the prover must reject it. Arguments are names of crates; without any, each crate that has mutants is
# tried. Works on a copy of the crates as they are now, over the libraries that are built (`rt all check` builds those that
# aren't, which is faster than one after the other here); the crate itself is proved once first. If all mutants of a crate
# are rejected, renews its line in wrong_bodies/RESULT. The last line is `N refused, M failed`. A mutant has failed if it is
# proved, can't be applied or read, or wasn't tried; the status is then 1. Not part of CI.
set -eu
cd "$(dirname "$0")/.."
room=$(mktemp -d)
trap 'rm -rf "$room"' EXIT
[ $# -gt 0 ] || set -- $(find wrong_bodies -name '*.edit' | cut -d/ -f2 | sort -u)

# The crates, with these mutants in place of those that `rt ci` tries, and the libraries that were built.
mkdir "$room/.git"
tar -cf - --exclude=out --exclude=must-fail crates crates.txt HANDLES | tar -xf - -C "$room"
for built in crates/*/out/rlib; do
    [ -d "$built" ] || continue
    mkdir -p "$room/$built"
    cp -al "$built/." "$room/$built" 2>/dev/null || cp -a "$built/." "$room/$built"
done
for name in "$@"; do
    mkdir "$room/crates/$name/must-fail"
    cp "wrong_bodies/$name/"*.edit "$room/crates/$name/must-fail/"
done
(cd "$room" && rt must-fail "$@") >"$room/log" 2>&1 || true
cat "$room/log"

# Renews the line of a crate, with the number of its rejected mutants.
renew() {
    tip=$(git rev-parse --short HEAD)
    git diff --quiet HEAD -- "crates/$1" "wrong_bodies/$1" || tip="$tip with later changes"
    {
        grep -v "^$1:" wrong_bodies/RESULT || true
        echo "$1: $2 rejected, at $tip"
    } | sort >"$room/result"
    cp "$room/result" wrong_bodies/RESULT
}

all_refused=0
all_failed=0
for name in "$@"; do
    tried=$(find "wrong_bodies/$name" -name '*.edit' | wc -l)
    refused=$(grep -c "^rt: must-fail $name/.*: refused, as it must be" "$room/log" || true)
    all_refused=$((all_refused + refused))
    all_failed=$((all_failed + tried - refused))
    [ "$refused" -lt "$tried" ] || renew "$name" "$refused"
done
echo "$all_refused refused, $all_failed failed"
[ "$all_failed" -eq 0 ]
