#!/usr/bin/env bash
# A kernel's TCP client sends 200,000 bytes through tools/bridge.py to an echo server of ftnode, which is killed with kill -9 and started again three times during
# the transfer; what is returned is compared. It makes two network namespaces and a TUN device, and removes them at the end. It needs root and a built ftnode:
#     sudo examples/real_client.sh [PROGRAM] [PERCENT]       defaults: PROGRAM crates/ftnode/out/ftnode, PERCENT (of packets lost) 0
set -u
cd "$(dirname "$0")/.." || exit 2
name=real_client program=${1:-crates/ftnode/out/ftnode} loss=${2:-0} own=() service=(--service echo)
. examples/bridged.sh
start_all
python3 -c 'import random, sys; sys.stdout.buffer.write(random.Random(1).randbytes(200000))' >"$room/sent"
cp "$room/sent" "$room/wanted"
through_three_kills
