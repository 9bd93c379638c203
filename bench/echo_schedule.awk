# Writes a schedule in which one client sends so many bytes (-v cycles=N), each of which is logged, echoed and acknowledged before the next. Ten events open the
# connection. A cycle is ten more and sends eleven packets: the byte, a bare segment, Data, Read, Stable, an acknowledgement, Reads, the echo, the client's
# acknowledgement of it, and Data and Stable for that. With -v marks=N there is a mark after so many cycles, which takes two more packets, a Mark behind that Data and
# Marked, and two more events.
BEGIN {
    printf "service echo\nserver 192.0.2.100:7\n"
    if (marks) printf "marks %d\n", marks
    printf "client 1 192.0.2.1:40000 1000 hex:"
    for (i = 0; i < cycles; i++) printf "%02x", i % 256
    print "\nboot 1 5000\ndeliver 1\ndeliver 2\nopen 1 65535\ndeliver 3\ndeliver 4\ndeliver 5\ndeliver 6\nack 1 65535\ndeliver 7"
    p = 8
    for (i = 0; i < cycles; i++) {
        printf "send 1 %d 1\n", i
        printf "deliver %d\ndeliver %d\ndeliver %d\ndeliver %d\ndeliver %d\ndeliver %d\n", p, p + 2, p + 4, p + 3, p + 6, p + 7
        printf "ack 1 65535\ndeliver %d\ndeliver %d\n", p + 8, p + 9
        p += 11
        if (marks && (i + 1) % marks == 0) { printf "deliver %d\ndeliver %d\n", p - 1, p + 1; p += 2 }
    }
}
