#!/bin/sh
# Uses the built program in hostile ways: little stack, wrong texts, inputs and traces, odd files, failing outputs, signals.
# The last line is `N passed, M failed`. tests/all.sh runs it with the argument `short`: about a minute, in which it tries
# as many rows of the long tables as there is time for.
#
#     sh tests/hostile.sh [short] [PART..]     AFX=./afx names a program
#
# The parts are files outputs signals rows texts traces stack.
exec python3 -B "$(dirname -- "$0")/hostile.py" "$@"
