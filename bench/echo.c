// The C loop beside the server of bench/ftnode.sh: `echo PORT COUNT` sends each datagram back to where it came from, COUNT times. `echo PORT COUNT BYTES AHEAD`
// is its partner on the next port, which keeps AHEAD datagrams of so many bytes under way until COUNT have come back. Each prints how many came.
#include <arpa/inet.h>
#include <stdio.h>
#include <stdlib.h>
#include <string.h>
#include <sys/socket.h>
#include <sys/time.h>

static unsigned char text[2048];

static int bound(unsigned short port) {
    int here = socket(AF_INET, SOCK_DGRAM, 0);
    struct timeval patience = {0, 20000};
    struct sockaddr_in at = {.sin_family = AF_INET, .sin_port = htons(port), .sin_addr.s_addr = htonl(INADDR_LOOPBACK)};
    if (bind(here, (struct sockaddr *)&at, sizeof at) != 0 || setsockopt(here, SOL_SOCKET, SO_RCVTIMEO, &patience, sizeof patience) != 0) exit(1);
    return here;
}

// Echoes until so many datagrams came, or two seconds are silent.
static unsigned long answer(int here, unsigned long count) {
    unsigned long came = 0, silent = 0;
    while (came < count && silent < 100) {
        struct sockaddr_in from;
        socklen_t size = sizeof from;
        ssize_t length = recvfrom(here, text, sizeof text, 0, (struct sockaddr *)&from, &size);
        silent = length < 0 ? silent + 1 : 0;
        if (length >= 0 && sendto(here, text, (size_t)length, 0, (struct sockaddr *)&from, sizeof from) == length) came++;
    }
    return came;
}

// Asks until so many answers came, or two seconds are silent; a lost datagram is sent again after 20 ms.
static unsigned long ask(int here, unsigned short port, unsigned long count, size_t bytes, unsigned long ahead) {
    struct sockaddr_in to = {.sin_family = AF_INET, .sin_port = htons(port), .sin_addr.s_addr = htonl(INADDR_LOOPBACK)};
    unsigned long came = 0, silent = 0, under_way = 0;
    while (came < count && silent < 100) {
        while (under_way < ahead && sendto(here, text, bytes, 0, (struct sockaddr *)&to, sizeof to) == (ssize_t)bytes) under_way++;
        ssize_t length = recv(here, text, sizeof text, 0);
        silent = length < 0 ? silent + 1 : 0;
        came += length >= 0;
        under_way = length < 0 ? 0 : under_way - (under_way > 0);
    }
    return came;
}

int main(int argc, char **argv) {
    if (argc != 3 && argc != 5) return 1;
    unsigned short port = (unsigned short)strtoul(argv[1], NULL, 10);
    unsigned long count = strtoul(argv[2], NULL, 10);
    size_t bytes = argc == 5 ? strtoul(argv[3], NULL, 10) : 0;
    if (bytes > sizeof text) return 1;
    memset(text, 'a', sizeof text);
    int here = bound(argc == 3 ? port : (unsigned short)(port + 1));
    printf("%lu\n", argc == 3 ? answer(here, count) : ask(here, port, count, bytes, strtoul(argv[4], NULL, 10)));
    return 0;
}
