#!/bin/sh
# Changes the programs of examples/, their inputs and traces at random, and compares what the commands say of each other:
# `check`, `serial`, `run` on 1 and 8 workers, `explore --random`, `fmt` (twice is once, and its text has the same answers)
# and `view`. A signal, a hang or a difference is printed with its seed, and kept in a folder. The same seed gives the same
# cases. The last line is `N cases, M differ`. tests/all.sh runs it for 20 seconds.
#
#     sh tests/fuzz.sh SECONDS SEED [FIRST [LAST]]    AFX=./afx names a program, KEPT a folder for what differs
#
# FIRST is the number of the first case and LAST that of the last one, so a case that differs can be run alone.
exec python3 -B "$(dirname -- "$0")/fuzz.py" "$@"
