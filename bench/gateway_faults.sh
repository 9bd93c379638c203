#!/usr/bin/env bash
# What the gateway (tools/gateway.py) has to stand. Plain clients echo through it meanwhile, and every one must get all its bytes back:
#     junk     20,000 packets that are no TCP of a client, or have wrong sums: what `ftnode` couldn't read is refused and counted, and no place of the log is taken
#     flips    a path on which 3 % of the packets have a flipped bit, both ways
#     syn      20,000 forged SYNs behind the kernel's SYN proxy, with a kill of the server and a client that connects while it is down: only clients take places
#     remote   the logger is on another machine (--pass), with small segments and then with full ones, and the server is killed twice each time
#     kept     the gateway is killed eight times while its descriptors are kept, by a stand-in for systemd (bench/descriptor_store.py)
#     reboot   server, logger and gateway are killed, devices and namespace removed, and all are made anew two seconds later, twice; the logger has a journal, and
#              the stand-in keeps descriptors that are of no use any more
# It takes a minute and a half. It needs root, nft and a built ftnode:
#     sudo bench/gateway_faults.sh [PROGRAM [PART..]]       defaults: PROGRAM crates/ftnode/out/ftnode, PART all
set -u
cd "$(dirname "$0")/.." || exit 2
name=gateway_faults program=${1:-crates/ftnode/out/ftnode}
[ $# -gt 0 ] && shift
[ $# -gt 0 ] || set -- junk flips syn remote kept reboot

# Everything is made and started; the gateway by the function START, the logger with a journal where that is said.
begin() { # START [journal]
    . examples/behind_gateway.sh
    boot=1 failed=0 journal=()
    [ $# -lt 2 ] || journal=(--journal "$room/journal")
    add_machines
    "$1"
    start_logger "${journal[@]}" ${journal:+--begin yes}
    start_server 1
}

fails() { echo "$1"; failed=1; }

# Kills the server, and starts the next one.
kill_server() {
    end_by 9 "$server_process"
    sleep 0.3
    boot=$((boot + 1))
    start_server "$boot"
}

# A number of the gateway's line, by its name
count_of() { # NAME
    kill -USR1 "$gateway_process"
    sleep 0.3
    tail -n 1 "$room/gateway.$gateways" | sed "s/.*$1 \([0-9]*\).*/\1/"
}

log_status() { ip netns exec "$logger_space" tools/log_status.py --logger "$log"; }
places() { log_status | sed -n 's/.*: \([0-9]*\) of 64.*/\1/p'; }

end() { # CLIENTS: what came of it
    [ "$right" = "$1" ] || fails "not all clients have their bytes"
    stop_gateway || failed=1
    echo "$right of $1 clients have their bytes; the longest pause of one was $longest s"
    [ $failed = 0 ] || tail -n 3 "$room"/gateway.* "$room"/server.* "$room/logger"
    exit $failed
}

junk() {
    begin start_gateway
    start_clients 200000 500 1
    sleep 1
    kinds=$(ip netns exec "${machines[2]}" bench/junk.py junk "$service:$port" 10.78.1.2 20000)
    echo "sent: $kinds"
    refused=$(count_of refused)
    # the kernel itself drops the other protocols (ftnode.nft)
    must=$(awk '{ print $2 + $4 + $6 }' <<<"$kinds")
    [ "$refused" -ge "$must" ] || fails "refused $refused, and not the $must that are no TCP packet"
    used=$(places)
    [ "$used" = 1 ] || fails "$used places of the log are taken, and not 1"
    wait_for_clients
    end 1
}

# A fourth machine, on a path of two TUN devices that bench/relay.py joins
add_flipped_path() {
    ip netns add "ftc4_$$"
    spaces+=("ftc4_$$")
    start_in "$host" relay bench/relay.py tun:flip0 tun:flip1 0 0 1 0 3
    relay_process=$last
    wait_for "$room/relay" up
    ip -n "$host" link set flip1 netns "ftc4_$$"
    ip -n "$host" addr add 10.78.4.1/24 dev flip0
    ip -n "$host" link set flip0 up
    ip -n "ftc4_$$" addr add 10.78.4.2/24 dev flip1
    ip -n "ftc4_$$" link set flip1 up
    ip -n "ftc4_$$" route add default via 10.78.4.1
}

flips() {
    begin start_gateway
    add_flipped_path
    homes=("ftc4_$$")
    start_clients 200000 1000 {1..4}
    wait_for_clients
    end_by TERM "$relay_process"
    refused=$(ip netns exec "ftc4_$$" awk '/^Tcp:/ { sums = $NF } END { print sums }' /proc/net/snmp)
    echo "the path: $(tail -n 1 "$room/relay"); the clients' kernel refused $refused packets with a wrong TCP checksum"
    [ "$refused" -gt 0 ] || fails "no damaged packet came to a client"
    # what each client sent is logged, and nothing else
    logged=$(log_status | grep -c 'bytes 200000 fin 1')
    [ "$logged" = 4 ] || fails "the log has 200,000 bytes of $logged clients, and not of 4"
    end 4
}

syn() {
    syn_proxy=yes
    begin start_gateway
    ip netns exec "$host" sh -c 'echo 0 >/proc/sys/net/ipv4/conf/all/rp_filter; echo 0 >/proc/sys/net/ipv4/conf/v3/rp_filter'
    # the proxy's own rules must do: without the first one, and without this table, the client that connects while the server is down waits for ever
    ip netns exec "$host" nft delete table ip ftnode
    start_clients 300000 1000 1
    sleep 1
    start_in "${machines[2]}" flood bench/junk.py syn "$service:$port" 20000 5
    flood=$last
    sleep 1
    start_clients 100000 2000 3
    sleep 1
    end_by 9 "$server_process"
    start_clients 100000 2000 4
    sleep 2
    boot=2
    start_server 2
    wait "$flood"
    wait_for_clients
    used=$(places)
    echo "forged SYNs: $(cat "$room/flood"); places of the log taken: $used"
    [ "$used" = 3 ] || fails "$used places of the log are taken, and not 3"
    end 3
}

remote_gateway() { start_gateway --pass "$log"; }

remote_part() { # SEGMENTS: small or full
    log=10.78.3.2:7008 remote=10.78.3.2
    begin remote_gateway
    [ "$1" = small ] || ip netns exec "$host" nft delete table ip ftnode
    homes=("${machines[@]:0:2}")
    start_clients 200000 1000 {1..8}
    for _ in 1 2; do sleep 1 && kill_server; done
    wait_for_clients
    through=$(count_of 'passed through')
    echo "$1 segments: messages passed through $through; places taken $(places)"
    [ "$through" -gt 1000 ] || fails "hardly a message passed through"
    end 8
}

remote() {
    (remote_part small) && (remote_part full)
}

# The gateway as systemd would run it
keeping_gateway() {
    gateways=1
    start_in "$host" gateway.1 bench/descriptor_store.py tools/gateway.py --netns "$node"
    store_process=$last
    wait_for "$room/gateway.1" up
}
running_gateway() { sed -n 's/^started //p' "$room/gateway.1" | tail -n 1; }

kill_kept_gateway() {
    local ups
    ups=$(grep -c up "$room/gateway.1")
    kill -9 "$(running_gateway)"
    for _ in {1..200}; do
        [ "$(grep -c up "$room/gateway.1")" -gt "$ups" ] && break
        sleep 0.02
    done
}

end_kept() { # CLIENTS
    kill -TERM "$(running_gateway)"
    wait "$store_process" || fails "the stand-in ended with $?"
    stop_gateway() { tail -n 1 "$room/gateway.1"; }
    end "$1"
}

kept() {
    begin keeping_gateway
    start_clients 200000 250 {1..16}
    sleep 1
    for _ in {1..8}; do sleep 0.7 && kill_kept_gateway; done
    all_run || fails "a client was done before the last kill"
    wait_for_clients
    end_kept 16
}

reboot() {
    begin keeping_gateway journal
    start_clients 200000 500 {1..12}
    for _ in 1 2; do
        sleep 2
        end_by 9 "$server_process"
        end_by 9 "$logger_process"
        kill -9 "$(running_gateway)"
        devices down
        sleep 2
        devices up
        boot=$((boot + 1))
        start_logger "${journal[@]}"
        start_server "$boot"
    done
    all_run || fails "a client was done before the last kill"
    wait_for_clients
    end_kept 12
}

status=0
for part in "$@"; do
    echo "== $part"
    SECONDS=0
    ("$part")
    case $? in
    0) echo "$part: passed, $SECONDS seconds" ;;
    2) exit 2 ;;
    *) echo "$part: FAILED, $SECONDS seconds" && status=1 ;;
    esac
done
exit $status
