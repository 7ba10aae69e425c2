#!/bin/sh
# Tests the page in which `afx` runs in a browser, release/play.html, in the Chromium of Debian. Nothing is downloaded.
#
#     sh tests/web.sh [NAME..] AFX='./afx' names another program, PAGE=FILE another page, CHROMIUM=.. another browser
#     BROWSER=firefox sh tests/web.sh [NAME..] in the Firefox ESR of Debian, FIREFOX=.. in another one
#     NATIVE=1 sh tests/web.sh [NAME..] tests the page's own code: each of its commands is a run of AFX, and the module isn't used
#
# tests/page/play.py runs each example by nine commands in the page and with AFX, and compares status, output, messages and
# traces. Then it uses the page: a race and its fix, an answer, schedules up to two ends, a trace, a link, a stopped run, dark
# and light, a narrow screen. PICTURES=docs/pictures keeps two screenshots there. The last line is `N passed, M failed`.
#
# Needs: apt-get install chromium or firefox-esr; Python 3. `sh web/make.sh` makes the page.
set -eu
cd "$(dirname "$0")/.."
browser=${CHROMIUM:-chromium}
[ "${BROWSER:-}" != firefox ] || browser=${FIREFOX:-firefox-esr}
command -v "$browser" >/dev/null || { echo "$browser isn't installed" >&2; exit 1; }
page=${PAGE:-release/play.html}
[ -f "$page" ] || { echo "there is no $page: sh web/make.sh makes it" >&2; exit 1; }
exec python3 tests/page/play.py "$page" ${PICTURES:+--pictures "$PICTURES"} "$@"
