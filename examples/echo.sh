#!/usr/bin/env bash
# Ten echoes without a crash: each time a client of ftnode sends BYTES bytes through a server and a logger on the loopback, and compares what is returned. The
# sockets' buffers have the system's default sizes. A run may take 300 seconds. The status is 0 if all ten pass. It needs a built ftnode:
#     examples/echo.sh [PROGRAM] [BYTES]        defaults: PROGRAM crates/ftnode/out/ftnode, BYTES 2,000,000 (at most 15,728,640: an echo of more never ends)
set -u
cd "$(dirname "$0")/.." || exit 2
program=${1:-crates/ftnode/out/ftnode} bytes=${2:-2000000}
runs=10 most=300 server=127.0.0.1:7207 logger=127.0.0.1:7208 client=127.0.0.1:7209
room=$(mktemp -d) started=()
[ -x "$program" ] || { echo "echo: there is no program $program; build it: (cd crates/ftnode && rt run)" >&2; exit 2; }

stop() {
    for process in "${started[@]}"; do { kill "$process" && wait "$process"; } 2>/dev/null; done
    started=()
}
trap 'stop; rm -rf "$room"' EXIT
trap 'exit 1' INT TERM
start() { # NAME WORD..: starts a role
    "$program" "${@:2}" >"$room/$1.out" 2>"$room/$1.err" &
    started+=("$!")
}
# One echo, with its own logger and server. The client's exit status is in `status`; 124 means that it took too long.
echo_once() {
    start logger logger --local $logger --turns 1000000
    start server server --local $server --logger $logger --service echo --boot 1 --isn 5000 --turns 1000000
    timeout -k 5 $most "$program" client --local $client --server $server --isn 1000 --turns 1000000 <"$room/sent" >"$room/came" 2>"$room/client.err" &
    started+=("$!")
    wait $!
    status=$?
    stop
}

python3 -c "import random, sys; sys.stdout.buffer.write(random.Random(1).randbytes($bytes))" >"$room/sent" || exit 2
echo "$runs echoes of $bytes bytes; a socket has room for $(cat /proc/sys/net/core/rmem_default 2>/dev/null || echo an unknown number of) bytes"
passed=0
for ((run = 1; run <= runs; run++)); do
    begun=$(date +%s%N)
    echo_once
    took=$((($(date +%s%N) - begun) / 10000000))
    if [ $status = 0 ] && cmp -s "$room/sent" "$room/came"; then
        verdict=passed passed=$((passed + 1))
    else
        verdict="FAILED: the client's status is $status, $(stat -c %s "$room/came") bytes came; $(cat "$room"/*.err | tr '\n' ' ')"
    fi
    printf 'run %d: %d.%02d seconds, %s\n' $run $((took / 100)) $((took % 100)) "$verdict"
done
echo "echo: $passed of $runs passed"
[ $passed = $runs ]
