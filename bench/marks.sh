#!/usr/bin/env bash
# What marks bound, and whether all is masked, by the model in Python.
#     bench/marks.sh [COUNT] [PROGRAM]
# First come the tests of the model, among them a crash after each event of a restart from a mark. Then a client of Echo keeps more or fewer segments under way,
# and the marks that are made of its connection are counted, and the bytes that a log with marks keeps of it. Then it is tested after each event of COUNT drawn
# schedules with marks, 2,000 by default, that all is masked, which takes two to three minutes of processor time. With PROGRAM, a built `ftreplay`, it plays these
# schedules too, and the reports are compared.
set -eu
. "$(dirname "$0")/common.sh"
machine
tools/marks_test.py
tools/marks_kept.py
tools/marked_runs.py masked --seeds "${1:-2000}"
if [ $# -gt 1 ]; then
    tools/marked_runs.py compare "$2" --seeds "$1"
fi
