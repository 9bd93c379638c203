#!/usr/bin/env bash
# A receiver of mail that crashes, with unchanged clients behind a gateway (tools/gateway.py). On one machine curl sends 50 messages over one connection, on another
# swaks sends 50 more, each over its own. Meanwhile the server is killed with kill -9 three times, and the logger, which has a journal, twice; each is started again
# 0.2 seconds later. Each message must be accepted once, and tools/mailbox.py must find these 100 messages in the journal, with the texts that were sent. Where swaks
# is missing, Python's smtplib stands in for it.
# It makes five network namespaces and two TUN devices, and removes them at the end. It needs root, curl, nft and a built own_node:
#     sudo examples/mail.sh [PROGRAM] [RUNS]       defaults: PROGRAM crates/own_node/out/own_node, RUNS 1
set -u
cd "$(dirname "$0")/.." || exit 2
name=mail program=${1:-crates/own_node/out/own_node} runs=${2:-1}
victims=(server logger server logger server) own=mail chosen='' port=25

# 100 messages, whose texts differ and have lines that begin with dots
write_messages() {
    python3 - "$room" <<'END'
import random, sys
draw = random.Random(7)
for number in range(100):
    lines = [f"Subject: message {number}", "From: <a@client.example>", "To: <b@mail.example>", ""]
    lines += [draw.choice(["", ".", "..", ". "]) + "".join(draw.choices("abcdefgh ", k=draw.randrange(80))).rstrip() for _ in range(draw.randrange(1, 400))]
    open(f"{sys.argv[1]}/message.{number}", "w", newline="").write("".join(line + "\r\n" for line in lines))
END
}

# Messages over one connection, at 200 kB a second
start_curl() { # NUMBER..
    local uploads=() number
    for number; do uploads+=(--upload-file "$room/message.$number" "smtp://$service:$port/client.example"); done
    start_in "${machines[0]}" said.curl curl --silent --show-error --verbose --limit-rate 200000 --max-time 300 --mail-from a@client.example \
        --mail-rcpt b@mail.example "${uploads[@]}"
    curl_process=$last
}

send_by_smtplib() { # NUMBER
    timeout 60 python3 - "$service" "$port" "$room/message.$1" "$1" <<'END'
import smtplib, sys
with smtplib.SMTP(sys.argv[1], int(sys.argv[2]), "client.example", source_address=("", 20000 + int(sys.argv[4]))) as client:
    client.set_debuglevel(1)
    client.sendmail("a@client.example", "b@mail.example", open(sys.argv[3], "rb").read())
END
}

send_by_swaks() { # NUMBER
    timeout 60 swaks --server "$service" --port "$port" --local-port $((20000 + $1)) --helo client.example --from a@client.example --to b@mail.example \
        --data "@$room/message.$1"
}

# Messages, each over a connection of its own, from a port of its own: a log takes each port of a client once, and the kernel may choose one again.
send_each() { # NUMBER..
    local number by=send_by_swaks
    command -v swaks >/dev/null || by=send_by_smtplib
    for number; do $by "$number" || echo "the client ended with $? at message $number"; done
}
start_each() { # NUMBER..
    export -f send_each send_by_swaks send_by_smtplib
    export service port room
    start_in "${machines[1]}" said.each bash -c 'send_each "$@"' each "$@"
    each_process=$last
}

accepted() { cat "$room"/said.* | grep -c '250 message [0-9]* accepted'; }

start_again() { # VICTIM
    case $1 in
    server) boot=$((boot + 1)) && start_server "$boot" ;;
    logger) start_logger --journal "$room/journal" ;;
    esac
}

# Kills each victim when a further 15 messages are accepted, and starts it again.
kill_all() {
    local number=0 victim process
    for victim in "${victims[@]}"; do
        number=$((number + 1))
        while [ "$(accepted)" -lt $((15 * number)) ]; do
            kill -0 "$curl_process" 2>/dev/null || kill -0 "$each_process" 2>/dev/null || { echo "the clients were done before the last kill"; return 1; }
            sleep 0.05
        done
        process=${victim}_process
        end_by 9 "${!process}"
        [ $? = 137 ] || { echo "the $victim ended by itself"; return 1; }
        sleep 0.2
        start_again "$victim"
    done
}

# Whether the mailbox has the messages that were sent, each once, and the mailbox's own count of a connection's messages goes up by one
compare_mailbox() {
    python3 - "$room" <<'END'
import mailbox, sys
room, seen, numbers = sys.argv[1], [], {}
box = mailbox.mbox(f"{room}/mbox")
for key in box.keys():
    path, recipient, accepted, text = box.get_bytes(key).split(b"\n", 3)
    client, _, number, _, _ = accepted.removeprefix(b"X-Accepted: ").split()
    numbers.setdefault(client, []).append(int(number.strip(b",")))
    assert (path, recipient) == (b"Return-Path: <a@client.example>", b"Delivered-To: b@mail.example")
    seen.append(text.rstrip(b"\n"))
sent = [open(f"{room}/message.{number}", "rb").read().replace(b"\r\n", b"\n").rstrip(b"\n") for number in range(100)]
once = sorted(seen) == sorted(sent) and all(them == list(range(1, len(them) + 1)) for them in numbers.values())
print("the 100 messages, each once" if once else f"{len(seen)} messages, not those that were sent")
sys.exit(not once)
END
}

one_run() (
    . examples/behind_gateway.sh
    command -v curl >/dev/null || missing "the command curl is missing"
    boot=1 failed=0
    add_machines
    write_messages
    start_gateway
    start_logger --journal "$room/journal" --begin yes
    start_server 1
    SECONDS=0
    start_curl {0..49}
    start_each {50..99}
    kill_all || failed=1
    wait "$curl_process" || { echo "curl ended with $?"; failed=1; }
    wait "$each_process"
    took=$SECONDS
    stop_gateway || failed=1
    tools/mailbox.py "$room/journal" >"$room/mbox" || failed=1
    kept=$(compare_mailbox) || failed=1
    echo "$(accepted) of 100 messages accepted, through 3 kills of the server and 2 of the logger; the journal has $kept"
    [ $failed = 0 ] && [ "$(accepted)" = 100 ] && echo "passed in $took seconds" && exit 0
    echo "FAILED in $took seconds"
    grep 'ended with' "$room/said.each"
    tail -n 3 "$room"/gateway.* "$room"/server.* "$room/logger" "$room/said.curl"
    exit 1
)

. examples/repeated.sh
repeat "$runs" one_run
