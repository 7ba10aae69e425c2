#!/bin/sh
# Makes release/play.html: the page in which `afx` runs in a browser. It is one file, and opens from disk.
#
#     sh web/make.sh                     proves `afx` again over the libraries that `rt ci` or `./afx build` left here
#     LIBRARIES=CLONE sh web/make.sh     over the libraries of another clone of these sources
#     KEEP=FOLDER sh web/make.sh         keeps the modules there; if module.bc is there, it is taken
#     PAGE=FILE sh web/make.sh           writes the page there
#
# Needs the Rattle kit (`rt` on the PATH, or RT), and Python 3. From nothing it takes about 8 minutes of a processor.
# web/README.md says what it does, and what of the page is proved.
set -eu
cd "$(dirname "$0")/.."
exec python3 web/make.py
