# A schedule in which a client sends its whole text, and none of that is delivered; then a byte at a time, backwards from offset `far` (default 60,000), and each
# of these segments is delivered. They are behind a gap that is never filled, so the server holds them. There are `events` events (default 20,000).
BEGIN {
    if (!events) events = 20000
    if (!far) far = 60000
    printf "service echo\nserver 192.0.2.100:7\nclient 1 192.0.2.1:40000 1000 hex:"
    for (i = 0; i <= far; i++) printf "%02x", i % 256
    print "\nboot 1 5000\ndeliver 1\ndeliver 2\nopen 1 65535\ndeliver 3\ndeliver 4\ndeliver 5\ndeliver 6\nack 1 65535\ndeliver 7"
    sent = 7
    moves = 10
    for (from = 0; from <= far; from += 1460) {
        printf "send 1 %d %d\n", from, from + 1460 <= far ? 1460 : far + 1 - from
        sent += 1
        moves += 1
    }
    for (i = 0; moves + 2 * i + 2 <= events; i++) {
        printf "send 1 %d 1\ndeliver %d\n", far - i % (far - 1), sent + 1
        sent += 2
    }
}
