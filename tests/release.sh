#!/bin/sh
# Makes the release anew, and compares it with the sources.
#
#     sh tests/release.sh            makes release/ from the program that `rt ci` has built here (crates/afx/out/afx)
#     sh tests/release.sh --check    whether the sums in release/SOURCES are those of the sources and of the packed program
#     sh tests/release.sh --gate     for .ci/run: if SOURCES names the sources and the kit at hand, whether the program that
#                                    `rt ci` has built has the same bytes as the release; otherwise prints a warning
#
# The sources have to be committed first: SOURCES names the last commit that changed one of them. Making a release twice
# from the same sources gives the same bytes.
set -eu
cd "$(dirname "$0")/.."
top=$PWD
. release/sources.sh
built=crates/afx/out/afx
packed=release/afx-x86_64-linux.xz
room=$(mktemp -d)
trap 'rm -rf "$room"' EXIT

# Prints a message and ends with status 1.
fail() {
    echo "release: $*" >&2
    exit 1
}

kit() { "${RT:-rt}" version | head -n 1; }

# Copies the built program without its symbols to a file.
stripped() {
    [ -x "$built" ] || fail "there is no $built: run rt ci first"
    for file in crates.txt $(source_files); do
        [ ! "$file" -nt "$built" ] || fail "$file is newer than $built: run rt ci first"
    done
    cp "$built" "$1"
    strip "$1"
}

make() {
    # (without quotes below: a list of paths without spaces)
    paths="crates.txt HANDLES $(source_folders | tr '\n' ' ')"
    [ -z "$(git status --porcelain -- $paths)" ] || fail "commit the sources first"
    if [ -r crates/afx/out/origin ] && grep -q '^release of ' crates/afx/out/origin &&
        [ ! "$built" -nt crates/afx/out/origin ]; then
        fail "$built is an unpacked release: run rt ci first"
    fi
    stripped "$room/afx"
    xz -9e -T1 -c "$room/afx" >"$room/packed"
    {
        echo "sources: $(sum_of_sources)"
        echo "program: $(sum_of_file "$room/afx")"
        echo "packed: $(sum_of_file "$room/packed")"
        echo "commit: $(git log -1 --format=%h --abbrev=12 -- $paths)"
        echo "kit: $(kit)"
    } >"$room/SOURCES"
    cp "$room/packed" "$packed"
    cp "$room/SOURCES" release/SOURCES
    echo "release: $(wc -c <"$room/afx") bytes, $(wc -c <"$packed") packed, of commit $(named_in_release commit)"
}

check() {
    [ -r release/SOURCES ] || fail "there is no release/SOURCES"
    [ "$(sum_of_sources)" = "$(named_in_release sources)" ] ||
        fail "release/ was built from other sources: make it anew (sh tests/release.sh)"
    [ -r "$packed" ] && [ "$(sum_of_file "$packed")" = "$(named_in_release packed)" ] ||
        fail "$packed isn't the file that release/SOURCES names"
    xz -dc "$packed" >"$room/afx" && [ "$(sum_of_file "$room/afx")" = "$(named_in_release program)" ] ||
        fail "$packed isn't the program that release/SOURCES names"
}

gate() {
    if [ ! -r release/SOURCES ] || [ "$(sum_of_sources)" != "$(named_in_release sources)" ]; then
        echo "warning: release/ was built from other sources than these; a new clone has to prove and build first"
        return 0
    fi
    if [ "$(kit)" != "$(named_in_release kit)" ]; then
        echo "warning: release/ was built with another kit than this, so it isn't compared"
        return 0
    fi
    check
    stripped "$room/built"
    cmp -s "$room/built" "$room/afx" || fail "the program that rt ci built differs from the release, which names the same sources"
    echo "release: the program that rt ci built is the release, byte for byte"
}

case "${1-}" in
'') make ;;
--check) check ;;
--gate) gate ;;
*) fail "usage: sh tests/release.sh [--check | --gate]" ;;
esac
