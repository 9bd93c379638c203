#!/usr/bin/env bash
# A first look: plays examples/crash.schedule, or the schedule of another file, and prints its report. It builds ftreplay without a proof, and anew each time, since
# `rt try` keeps nothing: that takes 90 seconds on an idle machine, and several minutes on a busy one.
#     examples/first_look.sh [SCHEDULE]
set -eu
schedule=$(realpath "${1:-$(dirname "$0")/crash.schedule}")
cd "$(dirname "$0")/../crates/ftreplay"
command -v rt >/dev/null || { echo "first_look.sh: the command rt is missing: it is bin/rt of the Rattle kit" >&2; exit 2; }
echo "first_look.sh: ftreplay is being built, without a proof; that takes 90 seconds on an idle machine" >&2
exec rt try -- run <"$schedule"
