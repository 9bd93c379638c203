#!/usr/bin/env bash
# A service of your own and a kernel's TCP client. The client sends 4,000 lines through tools/bridge.py to Counter, whose server is killed with kill -9 and started
# again three times during the transfer. The counts that it receives must be those of a server without a crash: for each line the number of bytes up to its end.
# The logger keeps a journal, and is killed and started again every half second.
# It makes two network namespaces and a TUN device, and removes them at the end. It needs root and a built own_node:
#     sudo examples/own.sh [PROGRAM] [PERCENT]       defaults: PROGRAM crates/own_node/out/own_node, PERCENT (of packets lost) 0
set -u
cd "$(dirname "$0")/.." || exit 2
name=own program=${1:-crates/own_node/out/own_node} loss=${2:-0} own=(counter) service=()
. examples/bridged.sh
start_all --journal "$room/journal" --begin yes
awk 'BEGIN { for (i = 1; i <= 4000; i++) { line = sprintf("%*d", i % 97 + 1, i); print line } }' >"$room/sent"
awk '{ count += length($0) + 1; print count }' "$room/sent" >"$room/wanted"
kill_loggers() {
    while sleep 0.4; do
        { kill -9 "$logger_process" && wait "$logger_process"; } 2>/dev/null
        echo "killed the logger"
        sleep 0.1
        begin_logger --journal "$room/journal"
    done
}
kill_loggers &
killer=$!
started+=("$killer")
through_three_kills
status=$?
kill -9 "$killer"
exit $status
