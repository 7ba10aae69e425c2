#!/bin/sh
# Checks that each program in docs/COOKBOOK.md is the file in examples/ that its heading names, without the comment of that
# file. Checks that each name there is a file, that `afx check` accepts the programs, that it reports for those in
# examples/refused/ what the page says, and that its first suggestion names the page of `explain` in the table. Checks the
# reports for docs/DATARACE.md and examples/datarace/ in the same way. Prints a line for each that is wrong; the last line is
# `N passed, M failed`. tests/all.sh runs it.
#
#     sh tests/cookbook.sh      AFX='./afx' names another program
set -eu
cd "$(dirname "$0")/.."
afx=${AFX:-./afx}
page=docs/COOKBOOK.md
folder=$(mktemp -d)
trap 'rm -rf "$folder"' EXIT
passed=0
failed=0

# count WHAT CMD..: counts whether a command succeeds
count() {
    what=$1
    shift
    if "$@"; then passed=$((passed + 1)); else failed=$((failed + 1)) && echo "$what"; fi
}

# Writes each program of the page to a file with the name in its heading.
awk -v folder="$folder" '
/^### / { split($0, parts, "`"); name = parts[2] }
/^```/ { inside = !inside; next }
inside { print >(folder "/" name ".afx") }' $page
for file in "$folder"/*.afx; do
    name=$(basename "$file")
    grep -v '^//' "examples/$name" >"$folder/own" || true
    count "$name differs from the file in examples/" cmp -s "$file" "$folder/own"
    count "$name is refused" $afx check "$file" >/dev/null
done

# The tables: a program, and in the table of refused programs what is reported for it.
accepted() { $afx check "examples/$1.afx" >/dev/null; }
refused() { ! $afx check "examples/refused/$1.afx" >/dev/null 2>"$folder/err" && [ "$(cat "$folder/err")" = "$2" ]; }
for name in $(sed -n '/^## Kernels/,/^## Refused/s/^| \(`[^|]*`\) |.*/\1/p' $page | tr -d '`,'); do
    count "$name is refused" accepted "$name"
done
sed -n '/^## Refused/,$s/^| `\([^`]*\)` | `\([^`]*\)` |.*/\1 \2/p' $page >"$folder/lines"
while read -r name line; do
    count "$name isn't refused so" refused "$name" "$line"
done <"$folder/lines"
for file in examples/refused/*.afx; do
    name=$(basename "$file" .afx)
    count "$name isn't on the page" grep -q "^$name " "$folder/lines"
done

# The first suggestion names the page of the table, or none.
suggested() {
    ! $afx check "examples/refused/$1.afx" --explain >/dev/null 2>"$folder/err" || return 1
    named=$(grep -m1 '^help: ' "$folder/err" | sed -n 's/.*`afx explain \([a-z_]*\)`.*/\1/p')
    [ "$named" = "$2" ]
}
sed -n '/^## Refused/,$s/^| `\([^`]*\)` | `.*| *`*\([a-z_]*\)`* *|$/\1 \2/p' $page >"$folder/pages"
count "no program has a page" [ -s "$folder/pages" ]
while read -r name about; do
    count "$name: another page than $about is suggested" suggested "$name" "$about"
done <"$folder/pages"

# The programs of docs/DATARACE.md: what is reported for each, and its accepted form.
verdict() {
    got=accepted
    $afx check "examples/datarace/$1.afx" >/dev/null 2>"$folder/err" || got=$(cat "$folder/err")
    [ "$got" = "$2" ]
}
sed -n 's/^| `\(DRB[^`]*\)` | [a-z]* | `*\([^|`]*[^|` ]\)`* |.*/\1 \2/p' docs/DATARACE.md >"$folder/kernels"
while read -r name line; do
    count "$name: $line isn't reported" verdict "$name" "$line"
done <"$folder/kernels"
for name in $(sed -n 's/.*| `\(DRB[^`]*\)` |$/\1/p' docs/DATARACE.md); do
    count "$name isn't accepted" grep -q "^$name accepted$" "$folder/kernels"
done
for file in examples/datarace/*.afx; do
    name=$(basename "$file" .afx)
    count "$name isn't on the page" grep -q "^$name " "$folder/kernels"
done

echo "$passed passed, $failed failed"
[ "$failed" -eq 0 ]
