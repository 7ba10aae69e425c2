#!/bin/sh
# Prints the crates of crates.txt, lowest first, one per line: the name and its dependencies, including crates of the
# toolchain. Then checks that the table after `## The crates, lowest first` in docs/ARCHITECTURE.md names exactly these
# crates, each after its dependencies. A row names one crate or several, and no row continues in the next one.
# If a check fails, prints what is wrong on the standard error and exits with status 1.
set -eu
cd "$(dirname "$0")/.."

awk '
# Reports one mistake.
function wrong(line) {
    print "crate_order: " line | "cat >&2"
    failed = 1
}

# Reads a crate of crates.txt: `NAME WORDS: DEPENDENCIES`.
function take(line,    parts, words) {
    split(line, parts, ":")
    split(parts[1], words, " ")
    if (words[1] in below) wrong("crates.txt has " words[1] " twice")
    else names[++count] = words[1]
    below[words[1]] = parts[2]
}

# Returns the first dependency of a crate in crates.txt that a list does not have yet, or an empty string.
function missing(list, crate,    on, number, at) {
    number = split(below[crate], on, " ")
    for (at = 1; at <= number; at++)
        if (on[at] in below && !((list, on[at]) in has)) return on[at]
    return ""
}

# Prints the crates. Repeatedly picks the first one left whose dependencies are all printed.
function print_all(    left, at, found) {
    for (left = count; left > 0; left--) {
        found = ""
        for (at = 1; at <= count && found == ""; at++)
            if (!(("printed", names[at]) in has) && missing("printed", names[at]) == "") found = names[at]
        if (found == "") {
            wrong("crates.txt has a cycle of dependencies")
            return
        }
        has["printed", found] = 1
        print found ":" below[found]
    }
}

# Reads a row of the page: its first cell names crates, each between two backquotes.
function name_crates(    parts, number, at) {
    split(substr($0, 3), parts, / \| /)
    number = split(parts[1], parts, "`")
    for (at = 2; at <= number; at += 2) name_crate(parts[at])
}

function name_crate(crate) {
    if (!(crate in below)) wrong(FILENAME " names " crate ", which crates.txt does not have")
    else if (("named", crate) in has) wrong(FILENAME " names " crate " twice")
    else if (missing("named", crate) != "")
        wrong(FILENAME " names " crate " before its dependency " missing("named", crate))
    has["named", crate] = 1
}

# Checks that the page names each crate.
function check_all_named(    at) {
    for (at = 1; at <= count; at++)
        if (!(("named", names[at]) in has)) wrong(FILENAME " does not name " names[at])
}

FILENAME == "crates.txt" { if (!/^#/ && /:/) take($0); next }
FNR == 1 { listed = 0 }
/^## / { listed = $0 == "## The crates, lowest first" }
listed && /^\| `/ { name_crates() }
listed && /^\| +\|/ { wrong(FILENAME " continues a row in line " FNR) }

END {
    print_all()
    check_all_named()
    close("cat >&2")
    exit failed
}' crates.txt docs/ARCHITECTURE.md
