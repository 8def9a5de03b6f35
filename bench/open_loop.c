/* Requests to a desk on a timetable of their own, whatever becomes of those before; the time of each goes from the moment at which it was due.

   usage: open_loop PORT RATE SECONDS     RATE ticks a second, and beside them 500 reads of the end of all events
          open_loop PORT 0 COUNT          COUNT such reads, all connected at once

   Each has a connection of its own. Printed: milliseconds of the ticks, or of the reads at once: p50, p99, p99.9 and the most. The status is 1 where one
   had another answer than 200, or none within 20 seconds. */
#define _GNU_SOURCE
#include <arpa/inet.h>
#include <errno.h>
#include <math.h>
#include <netinet/tcp.h>
#include <stdio.h>
#include <stdlib.h>
#include <string.h>
#include <sys/epoll.h>
#include <sys/socket.h>
#include <time.h>
#include <unistd.h>

#define READS 500
#define LATEST 20.0

typedef struct {
    int fd, is_tick, sent, got;
    double due;
    char request[300], reply[400];
} Exchange;

static struct sockaddr_in address;
static int polled, open_now;
static double *times;
static long answered, failed, invoke;

static void fail(const char *what) {
    perror(what);
    exit(2);
}

static double now(void) {
    struct timespec t;
    if (clock_gettime(CLOCK_MONOTONIC, &t)) fail("clock");
    return t.tv_sec + t.tv_nsec / 1e9;
}

static void begin(double due, int is_tick) {
    Exchange *one = calloc(1, sizeof *one);
    if (!one) fail("memory");
    one->due = due, one->is_tick = is_tick;
    char body[100];
    if (is_tick) {
        snprintf(body, sizeof body, "{\"requester\":\"open\",\"invoke\":%ld,\"service\":\"tick\"}", ++invoke);
        snprintf(one->request, sizeof one->request, "POST /csta HTTP/1.1\r\nHost: desk\r\nContent-Length: %zu\r\n\r\n%s", strlen(body), body);
    } else snprintf(one->request, sizeof one->request, "GET /events?after=999999999 HTTP/1.1\r\nHost: desk\r\n\r\n");
    int on = 1;
    one->fd = socket(AF_INET, SOCK_STREAM | SOCK_NONBLOCK, 0);
    if (one->fd < 0) fail("socket");
    setsockopt(one->fd, IPPROTO_TCP, TCP_NODELAY, &on, sizeof on);
    if (connect(one->fd, (struct sockaddr *)&address, sizeof address) && errno != EINPROGRESS) fail("connect");
    struct epoll_event wanted = {.events = EPOLLOUT, .data.ptr = one};
    if (epoll_ctl(polled, EPOLL_CTL_ADD, one->fd, &wanted)) fail("epoll");
    open_now++;
}

/* An exchange whose connection the desk has closed, or that failed. `counts` are those whose times are kept. */
static void end(Exchange *one, int counts) {
    if (strncmp(one->reply, "HTTP/1.1 200 ", 13)) failed++;
    else if (one->is_tick == counts) times[answered++] = (now() - one->due) * 1e3;
    close(one->fd);
    free(one);
    open_now--;
}

static void go_on(struct epoll_event *event, int counts) {
    Exchange *one = event->data.ptr;
    if (!one->sent) {
        size_t length = strlen(one->request);
        if (write(one->fd, one->request, length) != (ssize_t)length) return end(one, counts);
        one->sent = 1;
        struct epoll_event wanted = {.events = EPOLLIN, .data.ptr = one};
        epoll_ctl(polled, EPOLL_CTL_MOD, one->fd, &wanted);
        return;
    }
    char rest[65536];
    for (;;) {
        ssize_t n = read(one->fd, rest, sizeof rest);
        if (n < 0 && errno == EAGAIN) return;
        if (n <= 0) return end(one, counts);
        size_t room = sizeof one->reply - 1 - one->got, kept = (size_t)n < room ? (size_t)n : room;
        memcpy(one->reply + one->got, rest, kept);
        one->got += kept;
    }
}

static void wait_until(double moment, int counts) {
    struct epoll_event events[256];
    double left = moment - now();
    struct timespec pause = {0, 0};
    if (left > 0) pause.tv_sec = (time_t)left, pause.tv_nsec = (long)((left - (time_t)left) * 1e9);
    int many = epoll_pwait2(polled, events, 256, &pause, NULL);
    for (int n = 0; n < many; n++) go_on(&events[n], counts);
}

/* The next moment of a stream of so many a second, none of which depends on another. */
static double later(double moment, double rate) { return moment - log(1 - drand48()) / rate; }

static int by_value(const void *a, const void *b) {
    double x = *(const double *)a, y = *(const double *)b;
    return (x > y) - (x < y);
}

static double part(double share) { return times[(long)(answered * share) < answered ? (long)(answered * share) : answered - 1]; }

int main(int count, char **words) {
    if (count != 4) {
        fprintf(stderr, "usage: open_loop PORT RATE SECONDS|COUNT\n");
        return 2;
    }
    address.sin_family = AF_INET;
    address.sin_port = htons(atoi(words[1]));
    address.sin_addr.s_addr = htonl(INADDR_LOOPBACK);
    double rate = atof(words[2]), much = atof(words[3]);
    polled = epoll_create1(0);
    times = malloc((size_t)((rate ? 2 * rate * much : much) + 1000) * sizeof *times);
    if (polled < 0 || !times) fail("memory");
    double start = now(), ends = start + (rate ? much : 0), tick = start, read = start;
    for (long n = 0; !rate && n < much; n++) begin(start, 0);
    while (rate && now() < ends) {
        for (; tick <= now() && tick < ends; tick = later(tick, rate)) begin(tick, 1);
        for (; read <= now() && read < ends; read = later(read, READS)) begin(read, 0);
        wait_until(fmin(ends, fmin(tick, read)), rate > 0);
    }
    while (open_now && now() < ends + LATEST) wait_until(now() + 0.1, rate > 0);
    if (!answered || failed || open_now) return 1;
    qsort(times, answered, sizeof *times, by_value);
    printf("%.2f %.2f %.2f %.2f\n", part(0.5), part(0.99), part(0.999), times[answered - 1]);
    return 0;
}
