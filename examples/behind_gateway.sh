# Sourced by gateway.sh, mail.sh, bench/gateway.sh and bench/gateway_faults.sh, which set `name` and `program` (a built ftnode or own_node). Three network namespaces
# are the machines of plain clients, with an address and a default route and nothing else. One is the server's machine, with tools/gateway.py, and one is ftnode's
# namespace on it. Where `remote` is the logger's host, the logger is on the third machine, and `log` is its address there. `syn_proxy` may be yes. A script for
# own_node sets `own`, its first word, and `chosen`, the words that choose a server's service, none; and `port`.
program=$(realpath "$program") service=10.77.0.2 port=${port:-7} own=${own:-} chosen=${chosen---service echo} log=${log:-10.77.0.3:7008} remote=${remote:-} syn_proxy=${syn_proxy:-no}
host=ftgw$$ node=ftnode$$ machines=(ftc1_$$ ftc2_$$ ftc3_$$) room=$(mktemp -d) clients=() gateways=0
spaces=("$host" "$node" "${machines[@]}") # which are removed at the end, with all that runs in them
homes=("${machines[@]}") inner=${log%:*} logger_space=$node # where clients are, the namespace's own addresses, where the logger is
[ -z "$remote" ] || inner='' logger_space=${machines[2]}

missing() { echo "$name: not run: $1" >&2; exit 2; }
[ "$(id -u)" = 0 ] || missing "it needs root"
[ -x "$program" ] || missing "there is no program $program; build it: (cd crates/ftnode && rt run)"
[ -c /dev/net/tun ] || missing "there is no /dev/net/tun: the kernel has no TUN devices"
for command in ip nft python3 nsenter; do command -v "$command" >/dev/null || missing "the command $command is missing"; done

clean_up() {
    exec 2>/dev/null
    for space in "${spaces[@]}"; do ip netns pids "$space" | xargs -r kill -9; done
    wait
    for space in "${spaces[@]}"; do ip netns del "$space"; done
    rm -rf "$room"
}
trap clean_up EXIT

# Starts something in a namespace. Its process number is in `last`, what it prints in a file of its name.
start_in() { # NAMESPACE NAME WORD..
    ip netns exec "$1" "${@:3}" >"$room/$2" 2>&1 &
    last=$!
}

# The shell prints nothing about killed processes.
end_by() { # SIGNAL PROCESS: its status
    { kill "-$1" "$2" && wait "$2"; } 2>/dev/null
}

# The namespace of ftnode and the devices, as an operator makes them
devices() { # up or down
    nsenter --net="/run/netns/$host" env NETNS="$node" SERVICES="$service" INNER="$inner" REMOTE="$remote" SYNPROXY="$syn_proxy" examples/systemd/netns.sh "$1" \
        >"$room/devices" 2>&1 || missing "the devices can't be made: $(cat "$room/devices")"
}

add_machines() {
    local i
    for space in "$host" "${machines[@]}"; do
        ip netns add "$space" 2>"$room/why" || missing "no network namespace can be made: $(cat "$room/why")"
        ip -n "$space" link set lo up
    done
    for i in 1 2 3; do
        ip link add "v$i" netns "$host" type veth peer name eth0 netns "${machines[i - 1]}"
        ip -n "$host" addr add "10.78.$i.1/24" dev "v$i"
        ip -n "$host" link set "v$i" up
        ip -n "${machines[i - 1]}" addr add "10.78.$i.2/24" dev eth0
        ip -n "${machines[i - 1]}" link set eth0 up
        ip -n "${machines[i - 1]}" route add default via "10.78.$i.1"
    done
    devices up
}

wait_for() { # FILE WORD: until the word is in the file
    for _ in {1..200}; do
        grep -qs "$2" "$1" && return
        sleep 0.05
    done
    missing "$1 doesn't say \"$2\": $(cat "$1")"
}

start_gateway() { # WORD..
    gateways=$((gateways + 1))
    start_in "$host" "gateway.$gateways" tools/gateway.py --netns "$node" "$@"
    gateway_process=$last
    wait_for "$room/gateway.$gateways" up
}

start_logger() { # WORD..
    start_in "$logger_space" logger "$program" $own logger --local "$log" --turns 1000000 --times 1000 "$@"
    logger_process=$last
}

start_server() { # BOOT
    start_in "$node" "server.$1" "$program" $own server --local "$service:$port" --logger "$log" $chosen --boot "$1" --isn "$((100000 * $1))" \
        --turns 1000000 --times 1000
    server_process=$last
}

stop_gateway() {
    end_by TERM "$gateway_process" || { echo "the gateway ended with $?"; cat "$room/gateway.$gateways"; return 1; }
    tail -n 1 "$room/gateway.$gateways"
}

# Starts clients with these numbers at once. Each echoes BYTES bytes of its own, PIECE bytes every 20 ms.
start_clients() { # BYTES PIECE N..
    local number
    python3 - "$room/sent" "$1" "${@:3}" <<'END'
import random, sys
for number in sys.argv[3:]:
    with open(f"{sys.argv[1]}.{number}", "wb") as file:
        file.write(random.Random(int(number)).randbytes(int(sys.argv[2])))
END
    for number in "${@:3}"; do
        echo 0 >"$room/came.$number"
        start_in "${homes[number % ${#homes[@]}]}" "client.$number" examples/socket_client.py "$room/sent.$number" "$room/sent.$number" "$service" "$port" \
            "$room/came.$number" "$2"
        clients[number]=$last
    done
}

# How many bytes have come back to the client that has most
most_came() {
    local number some most=0
    for number in "${!clients[@]}"; do
        some=$(<"$room/came.$number")
        ((some > most)) && most=$some
    done
    echo "$most"
}

# Whether no client is done yet
all_run() {
    local process
    for process in "${clients[@]}"; do kill -0 "$process" 2>/dev/null || return 1; done
}

# Waits for all clients, and counts those that have all their bytes in `right`.
wait_for_clients() {
    local number
    right=0
    for number in "${!clients[@]}"; do
        if wait "${clients[number]}"; then
            right=$((right + 1))
        else
            echo "client $number: $(tail -n 1 "$room/client.$number")"
        fi
    done
    longest=$(sed -n 's/.*longest pause \([0-9.]*\) s$/\1/p' "$room"/client.* | sort -n | tail -n 1)
}
