# Sourced by real_client.sh, own.sh, logger_crash.sh and web.sh. It runs a kernel's TCP client in one network namespace, and a server, its logger and tools/bridge.py in
# another. The script sets `name`, `program` (a built one), `loss` (in percent)
# and two arrays: `own` (the first word of own_node, which chooses its service, or none) and `service` (the words of an ftnode server that choose it, or none).
program=$(realpath "$program") client_ip=10.77.0.1 server=10.77.0.2:7 logger=10.77.0.3:7008
inside=ftclient$$ outside=ftnode$$ room=$(mktemp -d) started=()

missing() { echo "$name: not run: $1" >&2; exit 2; }
[ "$(id -u)" = 0 ] || missing "it needs root"
[ -x "$program" ] || missing "there is no program $program; build it: (cd crates/$(basename "$program") && rt run)"
[ -c /dev/net/tun ] || missing "there is no /dev/net/tun: the kernel has no TUN devices"
command -v ip >/dev/null || missing "the command ip is missing (package iproute2)"
command -v python3 >/dev/null || missing "python3 is missing"

clean_up() {
    exec 2>/dev/null
    for process in "${started[@]}"; do kill -9 "$process"; done
    ip netns pids "$outside" | xargs -r kill -9
    wait
    ip netns del "$inside"
    ip netns del "$outside"
    rm -rf "$room"
}
trap clean_up EXIT

start_server() { # BOOT
    ip netns exec "$outside" "$program" "${own[@]}" server --local "$server" --logger "$logger" "${service[@]}" --boot "$1" --isn "$((100000 * $1))" --turns 1000000 \
        >"$room/server.$1" 2>&1 &
    server_process=$!
    started+=("$server_process")
}

add_spaces() { # ADDRESS..: the two namespaces, with these addresses in the outer one besides
    ip netns add "$inside" 2>"$room/why" && ip netns add "$outside" 2>>"$room/why" || missing "no network namespace can be made: $(cat "$room/why")"
    ip -n "$outside" link set lo up
    for address in "$client_ip" "${server%:*}" "${logger%:*}" "$@"; do ip -n "$outside" addr add "$address/32" dev lo; done
}

start_bridge() {
    ip netns exec "$outside" tools/bridge.py --client "$client_ip" --server "$server" --netns "$inside" --device "ft$$" --loss "$loss" >"$room/bridge" 2>&1 &
    bridge_process=$!
    started+=("$bridge_process")
    for _ in $(seq 100); do grep -qs up "$room/bridge" && break; sleep 0.05; done
    grep -q up "$room/bridge" || missing "the bridge doesn't start: $(cat "$room/bridge")"
}

begin_logger() { # WORDS..
    ip netns exec "$outside" "$program" "${own[@]}" logger --local "$logger" --turns 1000000 "$@" >>"$room/logger" 2>&1 &
    logger_process=$!
    started+=("$logger_process")
}

start_all() { # WORDS.. of the logger
    add_spaces
    begin_logger "$@"
    start_server 1
    start_bridge
}

stop_bridge() {
    kill -TERM "$bridge_process" && wait "$bridge_process"
    tail -n 1 "$room/bridge"
}

# Kills the server (kill -9) each time that so many bytes have come to the process $client, by the function `came`, and starts it again with the next boot number.
kill_at() { # BYTES..
    local boot=1 bytes
    kills=0
    for bytes in "$@"; do
        boot=$((boot + 1))
        while kill -0 "$client" 2>/dev/null && [ "$(came)" -lt "$bytes" ] 2>/dev/null; do sleep 0.02; done
        kill -0 "$client" 2>/dev/null || break
        { kill -9 "$server_process" && wait "$server_process"; } 2>/dev/null
        kills=$((kills + 1))
        echo "killed the server when $(came) bytes had come; boot $boot"
        sleep 0.2
        start_server "$boot"
    done
}

# The client sends the bytes of $room/sent and must receive those of $room/wanted. The server is killed when a quarter, a half and three quarters of them have
# arrived.
through_three_kills() {
    local bytes client status
    came() { cat "$room/progress"; }
    bytes=$(stat -c %s "$room/wanted")
    echo 0 >"$room/progress"
    SECONDS=0
    ip netns exec "$inside" examples/socket_client.py "$room/sent" "$room/wanted" "${server%:*}" "${server#*:}" "$room/progress" &
    client=$!
    started+=("$client")
    kill_at $((bytes / 4)) $((bytes * 2 / 4)) $((bytes * 3 / 4))
    wait "$client"
    status=$?
    stop_bridge
    echo "$name: $([ $status = 0 ] && echo passed || echo FAILED), $SECONDS seconds"
    [ $status = 0 ] || cat "$room"/server.* "$room/logger"
    return $status
}
