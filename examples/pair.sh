#!/usr/bin/env bash
# `ftnode pair`: it starts a logger, a server and a client on the loopback, waits until the server's turns are done, starts a second server with the next boot
# number, and prints how each ended. All four must end with status 0. It takes about 15 seconds, and needs a built ftnode:
#     examples/pair.sh [PROGRAM]        default: PROGRAM crates/ftnode/out/ftnode
set -u
cd "$(dirname "$0")/.." || exit 2
program=$(realpath "${1:-crates/ftnode/out/ftnode}")
[ -x "$program" ] || { echo "pair: there is no program $program; build it: (cd crates/ftnode && rt run)" >&2; exit 2; }
wanted=$'server status 0\nclient status 0\nserver status 0\nlogger status 0'
printed=$("$program" pair --program "$program" --base 7107 --first 40 --second 500 --turns 600)
status=$?
echo "$printed"
[ $status = 0 ] && [ "$printed" = "$wanted" ] && echo "pair: passed" && exit
echo "pair: FAILED, status $status; wanted:" >&2
echo "$wanted" >&2
exit 1
