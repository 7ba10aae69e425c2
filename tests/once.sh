#!/bin/sh
# Counts how often commands parse, type and check a program that has a race, and how often they search for its witness. No
# contract specifies that: the answer is the same if they do it again. tests/once.py says how it is counted. Needs a C
# compiler: CC, `cc` or the kit's. Prints each number that differs; the last line is `N passed, M failed`.
#     sh tests/once.sh      AFX='./afx' names another program, RT another rt
set -u
top=$(CDPATH= cd -- "$(dirname -- "$0")/.." && pwd)
folder=$(mktemp -d) || exit 2
trap 'rm -rf "$folder"' EXIT
compiler=${CC:-}
for name in cc gcc clang; do [ -n "$compiler" ] || compiler=$(command -v $name || true); done
if [ -n "$compiler" ]; then
    "$compiler" -shared -fPIC -O1 -o "$folder/refuse.so" "$top/tests/refuse_allocation.c" || exit 2
else
    "$(dirname "$("${RT:-rt}" doc)")/toolchain/bin/clang" -shared -fPIC -O1 -nostdlib -fuse-ld=lld \
        -o "$folder/refuse.so" "$top/tests/refuse_allocation.c" || exit 2
fi
python3 -B "$top/tests/once.py" "$folder/refuse.so"
