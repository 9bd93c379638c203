#!/usr/bin/env bash
# A crash that the client doesn't notice: logger, server and client run on the loopback. The client asks the service Transfer REQUESTS times for 2,047 bytes. When
# a third of them has arrived, the server is killed with kill -9 and started again. What the client receives is compared with what a server without a crash sends.
# It takes 1 to 25 seconds, and needs a built ftnode:
#     examples/crash.sh [PROGRAM] [REQUESTS] [STRAY]
# Defaults: PROGRAM crates/ftnode/out/ftnode, REQUESTS 250 (at most 8,000), STRAY 0. STRAY is the number of datagrams a second that are sent to the server from
# another port during the run and are no packets.
set -u
cd "$(dirname "$0")/.." || exit 2
program=${1:-crates/ftnode/out/ftnode} requests=${2:-250} stray=${3:-0}
bytes=$((requests * 2047)) server=127.0.0.1:7007 logger=127.0.0.1:7008 client=127.0.0.1:7009
room=$(mktemp -d) started=()
[ -x "$program" ] || { echo "crash: there is no program $program; build it: (cd crates/ftnode && rt run)" >&2; exit 2; }

clean_up() {
    exec 2>/dev/null
    for process in "${started[@]}"; do kill -9 "$process"; done
    wait
    rm -rf "$room"
}
trap clean_up EXIT
start() { # NAME WORD..: starts a role
    "$program" "${@:2}" >"$room/$1.out" 2>"$room/$1.err" &
    started+=("$!")
}

for ((i = 0; i < requests; i++)); do printf '\000\000\007\377'; done >"$room/asked"
python3 -c "import sys; sys.stdout.buffer.write(bytes(i % 251 for i in range($bytes)))" >"$room/wanted"
start logger logger --local $logger --turns 1000000
start server1 server --local $server --logger $logger --service transfer --boot 1 --isn 5000 --turns 1000000
first=${started[-1]}
if [ "$stray" != 0 ]; then
    tools/stray.py $server "$stray" >"$room/stray.out" 2>"$room/stray.err" &
    started+=("$!")
fi
# The client writes into a pipe, of which a third of the bytes is read: beyond that only what fits into the pipe is transferred, however fast the transfer is.
mkfifo "$room/pipe"
"$program" client --local $client --server $server --isn 1000 --turns 1000000 <"$room/asked" >"$room/pipe" 2>"$room/client.err" &
running=$!
started+=("$running")
exec 3<"$room/pipe"
head -c $((bytes / 3)) <&3 >"$room/came"
kill -0 "$first" 2>/dev/null || { echo "crash: the server ended by itself: $(cat "$room"/server1.*)" >&2; exit 1; }
{ kill -9 "$first"; wait "$first"; } 2>/dev/null
at=$(stat -c %s "$room/came")
sleep 0.5
start server2 server --local $server --logger $logger --service transfer --boot 2 --isn 900000 --turns 1000000
cat <&3 >>"$room/came"
wait $running
status=$?
echo "the server was killed when $at of $bytes bytes had come, and started again with boot 2; the client's status is $status"
[ $status = 0 ] || { cat "$room"/*.err >&2; exit 1; }
cmp "$room/wanted" "$room/came" || exit 1
echo "crash: all $bytes bytes came, in order"
