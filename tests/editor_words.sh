#!/bin/sh
# Compares the reserved words and the marks in editors/ and in docs/LANGUAGE.md, and the words of `afx explain words`, with
# those of the lexer, which are in crates/syntax/src/token.rt. Each must be there once, a mark of two characters before the
# one with which it begins, and nothing else. Prints a line for each that is wrong; the last line is `N passed, M failed`.
# tests/all.sh runs it.
set -eu
cd "$(dirname "$0")/.."
folder=$(mktemp -d)
trap 'rm -rf "$folder"' EXIT
tokens=crates/syntax/src/token.rt
vim=editors/vim/syntax/afx.vim
vscode=editors/vscode/afx.tmLanguage.json
page=docs/LANGUAGE.md
explained=crates/pages/src/words.rt

# The lexer: `"and" => Word::And`, `'(' => Mark::LeftParen`, `'<' => Some(Mark::AtMost)`.
sed -n 's/^ *"\([a-z]*\)" => Word::.*/\1/p' $tokens >"$folder/words"
sed -n -e "s/^ *'\(.\)' => Mark::.*/\1/p" -e "s/^ *'\(.\)' => Some(Mark::.*/\1=/p" $tokens >"$folder/marks"

# Prints alternatives that are separated by `|`, one per line, without the backslashes.
alternatives() { tr '|' '\n' | tr -d '\\'; }

# The words and marks that each file names, one per line, in their order.
sed -n 's/^syn keyword [A-Za-z]* *//p' $vim | tr ' ' '\n' >"$folder/words.vim"
sed -n 's/^syn match *afx\(Operator\|Bracket\) *"\(.*\)"$/\2/p' $vim | alternatives >"$folder/marks.vim"
sed -n 's/.*"match": "\\\\b(\([a-z|]*\))\\\\b".*/\1/p' $vscode | alternatives >"$folder/words.vscode"
sed -n 's/.*"\(keyword.operator\|punctuation\).afx", "match": "\(.*\)" }.*/\2/p' $vscode | alternatives >"$folder/marks.vscode"
tr '\n' ' ' <$page | sed 's/.*Reserved words\*\*[^`]*`\([^`]*\)`.*/\1/' | tr -s ' ' '\n' >"$folder/words.page"
sed -n '/rule: "/,/",$/p' $explained | sed -e 's/.*rule: "//' -e 's/",$//' | tr -s ' ' '\n' | sed '/^$/d' >"$folder/words.explained"
sed -n 's/^- \*\*Marks\*\*: `\(.*\)`\.$/\1/p' $page | tr ' ' '\n' >"$folder/marks.page"

awk -v folder="$folder" '
# Counts what is right, and prints what is wrong.
function look(is_so, line) {
    if (is_so) passed++
    else { failed++; print line }
}

# Reads the lines of a file into list, and returns their number.
function lines_of(file, list,    count) {
    count = 0
    while ((getline list[count + 1] < file) > 0) count++
    close(file)
    return count
}

# Compares what a file names with what the lexer has.
function compare(what, where,    own, named, wanted, count, at, times, known) {
    wanted = lines_of(folder "/" what, own)
    count = lines_of(folder "/" what "." where, named)
    look(wanted > 0, "the lexer has no " what)
    for (at = 1; at <= count; at++) times[named[at]]++
    for (at = 1; at <= wanted; at++) {
        known[own[at]] = 1
        look(times[own[at]] == 1, where ": " own[at] " appears " times[own[at]] + 0 " times among the " what)
    }
    for (at = 1; at <= count; at++)
        if (!(named[at] in known)) look(0, where ": " named[at] " is none of the " what)
}

# In a pattern the first alternative that matches counts, so a mark of two characters must come before its first character.
function longest_first(where,    named, count, at, before) {
    count = lines_of(folder "/marks." where, named)
    for (at = 1; at <= count; at++) {
        if (length(named[at]) == 2)
            look(!(substr(named[at], 1, 1) in before), where ": " named[at] " comes after its first character")
        before[named[at]] = 1
    }
}

BEGIN {
    split("vim vscode page", places, " ")
    for (place = 1; place <= 3; place++) {
        compare("words", places[place])
        compare("marks", places[place])
    }
    compare("words", "explained")
    longest_first("vim")
    longest_first("vscode")
    print passed + 0 " passed, " failed + 0 " failed"
    exit failed > 0
}'
