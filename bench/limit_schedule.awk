# Writes a schedule in which a client fills its stream, 2^24 bytes in segments of 1,460, each logged and answered, and then sends its last byte again. Each
# answer but the last is delivered and acknowledged with the next segment, so that no congestion window keeps one back.
BEGIN {
    print "service meter\nserver 192.0.2.100:7\nclient 1 192.0.2.1:40000 1000 fill:16777216\nboot 1 5000\ndeliver 1\ndeliver 2\nopen 1 65535"
    print "deliver 3\ndeliver 4\ndeliver 5\ndeliver 6\nack 1 65535\ndeliver 7"
    for (k = 0; k < 11492; k++) {
        p = 8 + 8 * k
        print "send 1 " 1460 * k " " (k < 11491 ? 1460 : 356)
        print "deliver " p "\ndeliver " p + 2 "\ndeliver " p + 4 "\ndeliver " p + 3 "\ndeliver " p + 6
        if (k < 11491) print "deliver " p + 7
    }
    print "send 1 16777215 1\ndeliver " 8 + 8 * 11492
}
