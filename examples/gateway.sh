#!/usr/bin/env bash
# Unchanged TCP clients on three machines, and nothing of this project on any of them: tools/gateway.py is on the server's machine. Sixteen clients (kernel sockets
# in three network namespaces) echo 400,000 bytes each, at once. Meanwhile the server is killed with kill -9 three times, the gateway twice, and the logger, which
# has a journal, twice; each is started again 0.2 seconds later. Every client must get all its bytes back. It makes five network namespaces and two TUN devices, and
# removes them at the end. It needs root, nft and a built ftnode:
#     sudo examples/gateway.sh [PROGRAM] [RUNS]       defaults: PROGRAM crates/ftnode/out/ftnode, RUNS 1. The environment may set BYTES (400000)
set -u
cd "$(dirname "$0")/.." || exit 2
name=gateway program=${1:-crates/ftnode/out/ftnode} runs=${2:-1}
bytes=${BYTES:-400000} victims=(server gateway logger server gateway logger server)

start_again() { # VICTIM
    case $1 in
    server) boot=$((boot + 1)) && start_server "$boot" ;;
    gateway) start_gateway ;;
    logger) start_logger --journal "$room/journal" ;;
    esac
}

# Kills each victim when the fastest client has a further ninth of its bytes, and starts it again. So no client is done before the last kill.
kill_all() {
    local number=0 victim process
    for victim in "${victims[@]}"; do
        number=$((number + 1))
        while all_run && [ "$(most_came)" -lt $((bytes * number / 9)) ]; do sleep 0.05; done
        all_run || { echo "a client was done before the last kill"; return 1; }
        process=${victim}_process
        end_by 9 "${!process}"
        [ $? = 137 ] || { echo "the $victim ended by itself"; return 1; }
        sleep 0.2
        start_again "$victim"
    done
}

one_run() (
    . examples/behind_gateway.sh
    boot=1 failed=0
    add_machines
    start_gateway
    rights=$(sed -n 's/^Cap\(Prm\|Eff\):\t//p' "/proc/$gateway_process/status" | sort -u)
    start_logger --journal "$room/journal" --begin yes
    start_server 1
    SECONDS=0
    start_clients "$bytes" $((bytes / 400)) {1..16}
    kill_all || failed=1
    wait_for_clients
    took=$SECONDS
    stop_gateway || failed=1
    echo "the gateway's rights: $rights; $right of 16 clients have their bytes; the longest pause of one was $longest s"
    [ $failed = 0 ] && [ "$right" = 16 ] && [ "$rights" = 0000000000000000 ] && echo "passed in $took seconds" && exit 0
    echo "FAILED in $took seconds"
    tail -n 3 "$room"/gateway.* "$room"/server.* "$room/logger"
    exit 1
)

. examples/repeated.sh
repeat "$runs" one_run
