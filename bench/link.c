// The C loop beside `part_cases wire link`: sends a datagram to itself and receives it, ROUNDS times, and prints how many bytes came back.
#include <arpa/inet.h>
#include <stdio.h>
#include <stdlib.h>
#include <string.h>
#include <sys/socket.h>
#include <sys/time.h>

int main(int argc, char **argv) {
    if (argc != 3) return 1;
    size_t bytes = strtoul(argv[1], NULL, 10);
    unsigned long rounds = strtoul(argv[2], NULL, 10);
    static unsigned char text[2048], buffer[2048];
    if (bytes > sizeof text) return 1;
    memset(text, 'a', sizeof text);
    int here = socket(AF_INET, SOCK_DGRAM, 0);
    struct timeval patience = {0, 20000};
    struct sockaddr_in at;
    memset(&at, 0, sizeof at);
    at.sin_family = AF_INET;
    at.sin_addr.s_addr = htonl(INADDR_LOOPBACK);
    unsigned short port = 7467;
    while (port < 7483) {
        at.sin_port = htons(port);
        if (bind(here, (struct sockaddr *)&at, sizeof at) == 0) break;
        port++;
    }
    if (port == 7483 || setsockopt(here, SOL_SOCKET, SO_RCVTIMEO, &patience, sizeof patience) != 0) return 1;
    unsigned long heard = 0;
    for (unsigned long i = 0; i < rounds; i++) {
        struct sockaddr_in from;
        socklen_t size = sizeof from;
        if (sendto(here, text, bytes, 0, (struct sockaddr *)&at, sizeof at) != (ssize_t)bytes) continue;
        ssize_t length = recvfrom(here, buffer, sizeof buffer, 0, (struct sockaddr *)&from, &size);
        if (length >= 0) heard += (unsigned long)length;
    }
    printf("%lu\n", heard);
    return 0;
}
