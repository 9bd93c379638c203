#!/usr/bin/env bash
# A datagram each 15 ms: a process must tick each 20 ms all the same, since a timer that advanced only in silence would stop. A server that nobody answers says
# its Hello at each tick, so in the three seconds of 200 datagrams it must say nearly 150. With a socket's timeout that is never set to what is left, a tick would
# come only with every second datagram, 100 times.
#   bench/trickle.sh
cd "$(dirname "$0")/.." || exit 1
. bench/common.sh
build ftnode logger --local 127.0.0.1:7040 --turns 3
python3 - "$PWD/crates/ftnode/out/ftnode" <<'PYTHON'
import socket, subprocess, sys, time

logger = socket.socket(socket.AF_INET, socket.SOCK_DGRAM)
logger.bind(("127.0.0.2", 7491))
stranger = socket.socket(socket.AF_INET, socket.SOCK_DGRAM)
words = "server --local 127.0.0.1:7492 --logger 127.0.0.2:7491 --service echo --boot 1 --isn 5000 --turns 1000000".split()
server = subprocess.Popen([sys.argv[1], *words])
try:
    logger.settimeout(10)
    logger.recv(2048)
    begun = time.monotonic()
    for number in range(200):
        stranger.sendto(b"stray", ("127.0.0.1", 7492))
        time.sleep(max(0, begun + 0.015 * (number + 1) - time.monotonic()))
    passed = time.monotonic() - begun
    logger.setblocking(False)
    said = 0
    try:
        while True:
            logger.recv(2048)
            said += 1
    except BlockingIOError:
        pass
finally:
    server.kill()
    server.wait()
print(f"{said} ticks in {passed * 1000:.0f} ms, with a datagram each 15 ms")
sys.exit(0 if said >= 120 else 1)
PYTHON
