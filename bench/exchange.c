/* One client of a desk over HTTP, which takes the time of each exchange; and a server that does nothing, to compare with.

   usage: exchange PORT COUNT post CALLER [RATE FIRST]    COUNT calls arrive at group CALLER's, each is cleared again; RATE requests
                                              a second, and behind FIRST calls of an earlier run
          exchange PORT COUNT get PATH        COUNT reads of PATH
          exchange PORT COUNT serve BYTES     serves COUNT connections, each with a reply that has a body of BYTES bytes

   An exchange is: connect, send the request whole, read until the end, close. Printed for post and get: exchanges, those
   among them that were answered with status 200, seconds in all, and the least, middle (p50), p99 and greatest microseconds
   of one (of post: of the arrivals alone). */
#include <arpa/inet.h>
#include <netinet/tcp.h>
#include <stdio.h>
#include <stdlib.h>
#include <string.h>
#include <sys/socket.h>
#include <time.h>
#include <unistd.h>

static struct sockaddr_in address;
static char reply[1 << 20];
static long granted;

static void fail(const char *what) {
    perror(what);
    exit(1);
}

static double now(void) {
    struct timespec t;
    if (clock_gettime(CLOCK_MONOTONIC, &t)) fail("clock");
    return t.tv_sec * 1e6 + t.tv_nsec / 1e3;
}

static void send_all(int fd, const char *bytes, size_t count) {
    while (count > 0) {
        ssize_t n = write(fd, bytes, count);
        if (n < 0) fail("write");
        bytes += n;
        count -= n;
    }
}

/* The microseconds of one exchange, whose reply is left in `reply`. */
static double exchange(const char *request) {
    double start = now();
    int fd = socket(AF_INET, SOCK_STREAM, 0), one = 1;
    setsockopt(fd, IPPROTO_TCP, TCP_NODELAY, &one, sizeof one);
    if (connect(fd, (struct sockaddr *)&address, sizeof address)) fail("connect");
    send_all(fd, request, strlen(request));
    size_t have = 0;
    for (;;) {
        ssize_t n = read(fd, reply + have, sizeof reply - 1 - have);
        if (n < 0) fail("read");
        if (n == 0) break;
        have += n;
    }
    close(fd);
    double took = now() - start;
    reply[have] = 0;
    granted += strncmp(reply, "HTTP/1.1 200 ", 13) == 0;
    return took;
}

/* The microseconds of one request to the switch, by requester bench. */
static double post(long invoke, const char *service) {
    char body[256], request[512];
    snprintf(body, sizeof body, "{\"requester\":\"bench\",\"invoke\":%ld,%s}", invoke, service);
    snprintf(request, sizeof request, "POST /csta HTTP/1.1\r\nHost: desk\r\nContent-Length: %zu\r\n\r\n%s", strlen(body), body);
    return exchange(request);
}

static double arrive_and_clear(long number, const char *called) {
    char service[160];
    snprintf(service, sizeof service, "\"service\":\"arriveCall\",\"caller\":\"099%07ld\",\"called\":\"%s\"", number, called);
    double took = post(2 * number + 1, service);
    const char *call = strstr(reply, "\"call\":");
    if (!call) {
        fprintf(stderr, "no call: %s\n", reply);
        exit(1);
    }
    snprintf(service, sizeof service, "\"service\":\"clearConnection\",\"call\":%ld,\"device\":\"099%07ld\"", atol(call + 7), number);
    post(2 * number + 2, service);
    return took;
}

static void serve(long count, long bytes) {
    int listener = socket(AF_INET, SOCK_STREAM, 0), one = 1;
    setsockopt(listener, SOL_SOCKET, SO_REUSEADDR, &one, sizeof one);
    if (bind(listener, (struct sockaddr *)&address, sizeof address) || listen(listener, 128)) fail("listen");
    char *text = malloc(bytes + 256);
    int head = sprintf(text, "HTTP/1.1 200 OK\r\nContent-Type: application/json\r\nContent-Length: %ld\r\nConnection: close\r\n\r\n", bytes);
    memset(text + head, '0', bytes);
    for (; count > 0; count--) {
        int fd = accept(listener, NULL, NULL);
        if (fd < 0) fail("accept");
        if (read(fd, reply, sizeof reply) < 0) fail("read");
        send_all(fd, text, head + bytes);
        close(fd);
    }
}

static int by_value(const void *a, const void *b) {
    double x = *(const double *)a, y = *(const double *)b;
    return (x > y) - (x < y);
}

int main(int argc, char **argv) {
    if (argc != 5 && argc != 7) {
        fprintf(stderr, "usage: exchange PORT COUNT post|get|serve WORD [RATE FIRST]\n");
        return 2;
    }
    long count = atol(argv[2]);
    address.sin_family = AF_INET;
    address.sin_port = htons(atoi(argv[1]));
    address.sin_addr.s_addr = htonl(INADDR_LOOPBACK);
    if (strcmp(argv[3], "serve") == 0) {
        serve(count, atol(argv[4]));
        return 0;
    }
    char request[512];
    snprintf(request, sizeof request, "GET %s HTTP/1.1\r\nHost: desk\r\n\r\n", argv[4]);
    double *times = malloc(count * sizeof *times), start = now();
    int is_post = strcmp(argv[3], "post") == 0;
    double pause = argc == 7 ? 2e6 / atof(argv[5]) : 0;
    long first = argc == 7 ? atol(argv[6]) : 0;
    for (long i = 0; i < count; i++) {
        double early = start + i * pause - now();
        if (early > 0) usleep(early);
        times[i] = is_post ? arrive_and_clear(first + i, argv[4]) : exchange(request);
    }
    double all = now() - start;
    qsort(times, count, sizeof *times, by_value);
    printf("%ld %ld %.6f %.1f %.1f %.1f %.1f\n", count * (1 + is_post), granted, all / 1e6, times[0], times[count / 2], times[count * 99 / 100],
           times[count - 1]);
    return 0;
}
