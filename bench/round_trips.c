/* Round trips over UDP on 127.0.0.1. `round_trips echo` prints its port and sends back each datagram that it hears. `round_trips
   ask PORT COUNT` sends the datagram of standard input so often, with its number in place of `########`, each once the
   answer to the one before is there, and prints how long each answer took, in nanoseconds, one a line. */
#include <arpa/inet.h>
#include <stdio.h>
#include <stdlib.h>
#include <string.h>
#include <sys/socket.h>
#include <time.h>
#include <unistd.h>

enum { LARGEST = 65507 };

static char bytes[LARGEST + 1];
static char heard[LARGEST];

static struct sockaddr_in local(int port) {
    struct sockaddr_in at = {.sin_family = AF_INET, .sin_port = htons((unsigned short)port)};
    at.sin_addr.s_addr = htonl(INADDR_LOOPBACK);
    return at;
}

static long long now(void) {
    struct timespec t;
    clock_gettime(CLOCK_MONOTONIC, &t);
    return t.tv_sec * 1000000000LL + t.tv_nsec;
}

static int echo(int fd) {
    struct sockaddr_in at = local(0);
    socklen_t size = sizeof at;
    if (bind(fd, (struct sockaddr *)&at, sizeof at) || getsockname(fd, (struct sockaddr *)&at, &size)) return 1;
    printf("%d\n", ntohs(at.sin_port));
    fflush(stdout);
    for (;;) {
        struct sockaddr_in from;
        socklen_t length = sizeof from;
        ssize_t got = recvfrom(fd, heard, sizeof heard, 0, (struct sockaddr *)&from, &length);
        if (got < 0 || sendto(fd, heard, (size_t)got, 0, (struct sockaddr *)&from, length) != got) return 1;
    }
}

static int ask(int fd, int port, int count) {
    struct sockaddr_in to = local(port);
    struct timeval wait = {.tv_sec = 5};
    size_t length = fread(bytes, 1, LARGEST, stdin);
    bytes[length] = 0;
    char *number = strstr(bytes, "########");
    if (setsockopt(fd, SOL_SOCKET, SO_RCVTIMEO, &wait, sizeof wait) || connect(fd, (struct sockaddr *)&to, sizeof to)) return 1;
    for (int i = 0; i < count; i++) {
        char digits[16];
        snprintf(digits, sizeof digits, "%08d", i);
        if (number) memcpy(number, digits, 8);
        long long sent = now();
        if (send(fd, bytes, length, 0) < 0 || recv(fd, heard, sizeof heard, 0) < 0) return 1;
        printf("%lld\n", now() - sent);
    }
    return 0;
}

int main(int count, char **words) {
    int fd = socket(AF_INET, SOCK_DGRAM, 0);
    if (fd < 0) return 1;
    if (count == 2 && !strcmp(words[1], "echo")) return echo(fd);
    if (count == 4 && !strcmp(words[1], "ask")) return ask(fd, atoi(words[2]), atoi(words[3]));
    return 1;
}
