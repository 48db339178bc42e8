/* Sends requests one after another on loopback and reads each answer completely. It does what wrk can't: a new connection for
 * each request, and a given number of requests.
 * Usage: client PORT TARGETS METHOD BYTES REQUESTS NEW
 *   TARGETS  a file with a request target on each line, used in turn
 *   BYTES    the length of each body, 0 for none
 *   NEW      a new connection after this many requests; 0: one for all
 * Prints the requests, how many were answered with 200, and the seconds. */
#include <arpa/inet.h>
#include <netinet/in.h>
#include <netinet/tcp.h>
#include <stdio.h>
#include <stdlib.h>
#include <string.h>
#include <strings.h>
#include <sys/socket.h>
#include <time.h>
#include <unistd.h>

#define MOST_LINES 200000

static char text[1 << 16], head[8192], body[8 << 20];
static char *lines[MOST_LINES];

static int fail(const char *what) {
    perror(what);
    exit(1);
}

static int reached(int port) {
    struct sockaddr_in at = {.sin_family = AF_INET, .sin_port = htons(port), .sin_addr.s_addr = htonl(INADDR_LOOPBACK)};
    int one = 1, it = socket(AF_INET, SOCK_STREAM, 0);
    if (it < 0 || connect(it, (struct sockaddr *)&at, sizeof at) < 0) fail("connect");
    setsockopt(it, IPPROTO_TCP, TCP_NODELAY, &one, sizeof one);
    return it;
}

static void send_all(int it, const char *from, size_t left) {
    while (left) {
        ssize_t went = send(it, from, left, MSG_NOSIGNAL);
        if (went <= 0) fail("send");
        from += went;
        left -= went;
    }
}

/* Reads the next answer completely and returns its status; 0 if the connection ended before its first byte. */
static int answered(int it, int is_head) {
    size_t have = 0;
    char *end = NULL;
    while (!end) {
        ssize_t came = recv(it, head + have, sizeof head - 1 - have, 0);
        if (came == 0 && have == 0) return 0;
        if (came <= 0) fail("recv");
        have += came;
        head[have] = 0;
        end = strstr(head, "\r\n\r\n");
    }
    char *length = strcasestr(head, "\r\ncontent-length:");
    size_t whole = (end + 4 - head) + (is_head || !length ? 0 : strtoul(length + 17, NULL, 10));
    while (have < whole) {
        size_t most = whole - have < sizeof text ? whole - have : sizeof text;
        ssize_t came = recv(it, text, most, 0);
        if (came <= 0) fail("recv");
        have += came;
    }
    return atoi(head + 9);
}

static int lines_of(const char *file) {
    FILE *from = fopen(file, "r");
    char line[8192];
    int many = 0;
    if (!from) fail(file);
    while (many < MOST_LINES && fgets(line, sizeof line, from)) {
        line[strcspn(line, "\n")] = 0;
        lines[many++] = strdup(line);
    }
    fclose(from);
    return many;
}

static double now(void) {
    struct timespec at;
    clock_gettime(CLOCK_MONOTONIC, &at);
    return at.tv_sec + at.tv_nsec * 1e-9;
}

int main(int argc, char **argv) {
    if (argc != 7) return 2;
    int port = atoi(argv[1]), many = lines_of(argv[2]), is_head = !strcmp(argv[3], "HEAD"), each = atoi(argv[6]);
    long bytes = atol(argv[4]), requests = atol(argv[5]), well = 0;
    memset(body, 'b', sizeof body);
    int it = reached(port);
    double begun = now();
    for (long i = 0; i < requests; i++) {
        char asked[8192];
        int length = snprintf(asked, sizeof asked, "%s %s HTTP/1.1\r\nHost: 127.0.0.1:%d\r\n", argv[3], lines[i % many], port);
        if (bytes) length += snprintf(asked + length, sizeof asked - length, "Content-Length: %ld\r\n", bytes);
        length += snprintf(asked + length, sizeof asked - length, "\r\n");
        if (each && i > 0 && i % each == 0) {
            close(it);
            it = reached(port);
        }
        send_all(it, asked, length);
        send_all(it, body, bytes);
        int status = answered(it, is_head);
        if (status == 0) { /* the server serves no more messages on this connection */
            close(it);
            it = reached(port);
            i--;
            continue;
        }
        well += status == 200;
    }
    close(it);
    printf("%ld %ld %.6f\n", requests, well, now() - begun);
    return 0;
}
