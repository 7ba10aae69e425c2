#!/bin/sh
# Tests the pages that `afx view P T --html FILE` and `afx explore P --html FILE` write, in the Chromium of Debian. Nothing is
# downloaded.
#
#     sh tests/page.sh [NAME..]      AFX='./afx' names another program, WRITER='..' and EXPLORER='..' other writers of pages
#
# Checks that `before.rt` and `after.rt` are what build.py writes. Lints the page's code with the eslint of Debian, if it is
# installed. Then tests/page/check.py opens pages: of the doubling on 4 workers, of a run with steals and gathered faults, of
# a stopped run, of pieces of arrays, of rescues, of one event and of none, of a program whose text looks like markup, of one
# with 20,000 statements, and of a million events; and pages of schedules. It steps, clicks, zooms, searches and chooses
# steps there, and compares what the page says with what `afx` prints. NAME is one of its tests:
# doubling, faults, stopped, unformatted, parts, rescued, explored, values, looks, one, none, hostile, long, large.
#
# PAGE_SECONDS and PAGE_FRAMES are the limits for a million events (3 and 30). The browser gets two processors.
# PICTURES=docs/pictures keeps screenshots there. The last line is `N passed, M failed`.
#
# Needs: apt-get install chromium eslint; Python 3.
set -eu
cd "$(dirname "$0")/.."
page=crates/trace_page/page
python3 $page/build.py --check
folder=$(mktemp -d)
trap 'rm -rf "$folder"' EXIT

if command -v eslint >/dev/null; then
    # The files are one script, so they are linted as one. eslint reads only files below its folder.
    (cd $page && cat $(cat order.txt)) >"$folder/page.js"
    cp $page/.eslintrc.json "$folder"
    (cd "$folder" && NODE_PATH=/usr/share/nodejs:/usr/lib/nodejs eslint -f unix --no-eslintrc -c .eslintrc.json page.js)
    echo "the page's code: no complaint of eslint $(NODE_PATH=/usr/share/nodejs:/usr/lib/nodejs eslint --version)"
else
    echo "the page's code isn't linted: eslint isn't installed"
fi
command -v "${CHROMIUM:-chromium}" >/dev/null || { echo "chromium isn't installed" >&2; exit 1; }
two=
if command -v taskset >/dev/null; then two="taskset -c 0,1"; fi
exec $two python3 tests/page/check.py ${PICTURES:+--pictures "$PICTURES"} ${1:+--only "$@"}
