# Writes a schedule of about so many events (-v events=N): eight clients take turns to send a byte, which is logged, echoed and acknowledged before the next; and at
# each 1,000th event the server crashes and restarts, and fetches all that the log keeps. With -v marks=N the server marks each connection after so many reads, and
# restarts from the marks.
function say(line) { print line; done += 1 }

# the next packets that are sent, in order, are delivered in order
function deliver_next(n) { while (n-- > 0) { say("deliver " sent); sent += 1 } }

function hand_over(packet) { say("deliver " packet) }

function open(c, p) {
    p = sent
    say("open " c " 65535"); hand_over(p); hand_over(p + 1); hand_over(p + 2); hand_over(p + 3); say("ack " c " 65535"); hand_over(p + 4)
    sent += 5
}

# ten events, in which eleven packets are sent: the byte, a bare segment, Data, Read, Stable, an acknowledgement, Reads, the echo, the client's acknowledgement
# of it, and Data and Stable for that; where a mark is due, two more of each: a Mark behind that Data, and Marked
function cycle(c, p) {
    p = sent
    say("send " c " " (0 + kept[c]) " 1")
    hand_over(p); hand_over(p + 2); hand_over(p + 4); hand_over(p + 3); hand_over(p + 6); hand_over(p + 7)
    say("ack " c " 65535"); hand_over(p + 8); hand_over(p + 9)
    sent += 11
    kept[c] += 1
    if (marks && kept[c] == marked[c] + marks) { hand_over(p + 10); hand_over(p + 12); sent += 2; marked[c] = kept[c] }
}

# Hello and its answer, then for each client its entry, its mark if there may be one, its bytes in parts of 1,024 and its lengths in parts of 512. The last answer
# sends each client an acknowledgement.
function restart(c, questions, missing) {
    say("crash"); say("boot " ++boot " " (900000 + boot))
    questions = 1
    for (c = 1; c <= 8; c++) {
        missing = kept[c] - marked[c]
        questions += 1 + (marks && kept[c] > 0) + int((missing + 1023) / 1024) + int((missing + 511) / 512)
    }
    deliver_next(2 * questions)
    sent += 8
}

BEGIN {
    print "service echo\nserver 192.0.2.100:7"
    if (marks) print "marks " marks
    for (c = 1; c <= 8; c++) print "client " c " 192.0.2." c ":40000 " 1000 * c " fill:" int(events / 80) + 1
    boot = 1; sent = 1
    say("boot 1 5000"); deliver_next(2)
    for (c = 1; c <= 8; c++) open(c)
    client = 0; next_crash = 1000
    while (done + 10 <= events) {
        if (done >= next_crash) { restart(); next_crash += 1000 }
        else { cycle(1 + client); client = (client + 1) % 8 }
    }
}
