#!/bin/sh
# Runs commands on small programs while requests for memory, or starts of threads, are refused: the n-th request for every
# n, every request from the n-th on, and each 2nd, 3rd, 7th and 31st. Each run must give the whole right answer, or end
# with its line of an error and nothing else; tests/refused_memory.py says which. Then the same for the tests of
# crates/run_tests that call the libraries, if `rt ci` has built them.
#
#   tests/refused_memory.sh [all]    every n (minutes)
#   tests/refused_memory.sh short    every 23rd n, about 30 seconds; tests/all.sh runs this
#
# AFX names another program, CC another C compiler than `cc` or the kit's, RT another rt. The last line is
# `N passed, M failed`, where each run counts as one.
set -u
top=$(CDPATH= cd -- "$(dirname -- "$0")/.." && pwd)
folder=$(mktemp -d) || exit 2
trap 'rm -rf "$folder"' EXIT
compiler=${CC:-}
for name in cc gcc clang; do [ -n "$compiler" ] || compiler=$(command -v $name || true); done
if [ -n "$compiler" ]; then
    "$compiler" -shared -fPIC -O1 -o "$folder/refuse.so" "$top/tests/refuse_allocation.c" || exit 2
else
    "$(dirname "$("${RT:-rt}" doc)")/toolchain/bin/clang" -shared -fPIC -O1 -nostdlib -fuse-ld=lld \
        -o "$folder/refuse.so" "$top/tests/refuse_allocation.c" || exit 2
fi
python3 -B "$top/tests/refused_memory.py" "$folder/refuse.so" "${1:-all}"
