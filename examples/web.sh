#!/usr/bin/env bash
# A web server that crashes, and an unchanged curl. Curl downloads 1,000,000 bytes four times over one connection through tools/bridge.py, while the server is
# killed with kill -9 and started again three times, each time during a download. The checksum must be that of the bytes that tools/web_model.py makes without any
# server. So that there is time to kill the server, curl reads 1,000,000 bytes a second, and its kernel has a small receive buffer.
# It makes two network namespaces and a TUN device, and removes them at the end. It needs root, curl and a built own_node:
#     sudo examples/web.sh [PROGRAM] [PERCENT]       defaults: PROGRAM crates/own_node/out/own_node, PERCENT (of packets lost) 0
set -u
cd "$(dirname "$0")/.." || exit 2
name=web program=${1:-crates/own_node/out/own_node} loss=${2:-0} own=(web) service=()
. examples/bridged.sh
command -v curl >/dev/null || missing "curl is missing"

# how many bytes have arrived
came() { cat "$room"/got.* 2>/dev/null | wc -c; }

start_all
for _ in 1 2 3 4; do tools/web_model.py bytes 1000000; done | md5sum >"$room/wanted"
ip netns exec "$inside" sh -c 'echo 4096 65536 65536 >/proc/sys/net/ipv4/tcp_rmem' || missing "the kernel's room for bytes can't be set"
SECONDS=0
ip netns exec "$inside" curl --silent --show-error --no-buffer --limit-rate 1000000 --max-time 300 --output "$room/got.#1" --write-out '%{num_connects}\n' \
    "http://$server/bytes/1000000?[1-4]" >"$room/connects" &
client=$!
started+=("$client")
kill_at 500000 1500000 2500000
wait "$client"
status=$?
stop_bridge
cat "$room"/got.[1-4] | md5sum >"$room/came"
connects=$(awk '{ all += $1 } END { print all + 0 }' "$room/connects")
echo "4,000,000 bytes wanted, $(came) came over $connects connection(s); their MD5 $(cut -c 1-32 "$room/came")"
if [ "$status" = 0 ] && [ $kills = 3 ] && [ "$connects" = 1 ] && cmp -s "$room/wanted" "$room/came"; then
    echo "$name: passed, $SECONDS seconds"
    exit 0
fi
echo "$name: FAILED, $SECONDS seconds: curl ended with $status"
cat "$room"/server.* "$room/logger"
exit 1
