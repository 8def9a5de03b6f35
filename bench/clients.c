/* Clients of HTTP, each of which asks again as soon as it has its answer, and takes the time of each answer.

   usage: clients PORT CLIENTS SECONDS PATH BODY     BODY is a format with two %d or none: the number of the client and of its request

   A client keeps its connection for as long as the server does. It sends a request again, after 20 ms, until its answer has status 200; the time goes
   from the first time that it is sent. Printed: answers, how often one was sent again, seconds in all, and milliseconds: p50, p99 and the most. */
#define _GNU_SOURCE
#include <arpa/inet.h>
#include <netinet/tcp.h>
#include <pthread.h>
#include <stdio.h>
#include <stdlib.h>
#include <string.h>
#include <strings.h>
#include <sys/socket.h>
#include <sys/time.h>
#include <time.h>
#include <unistd.h>

#define MOST 400000

static struct sockaddr_in address;
static const char *path, *format;
static double ends, *times;
static long answers, again;
static pthread_mutex_t counting = PTHREAD_MUTEX_INITIALIZER;

static double now(void) {
    struct timespec t;
    clock_gettime(CLOCK_MONOTONIC, &t);
    return t.tv_sec * 1e3 + t.tv_nsec / 1e6;
}

static int connected(void) {
    struct timeval wait = {20, 0};
    int fd = socket(AF_INET, SOCK_STREAM, 0), one = 1;
    setsockopt(fd, IPPROTO_TCP, TCP_NODELAY, &one, sizeof one);
    setsockopt(fd, SOL_SOCKET, SO_RCVTIMEO, &wait, sizeof wait);
    if (connect(fd, (struct sockaddr *)&address, sizeof address) == 0) return fd;
    close(fd);
    return -1;
}

/* The status of the answer to a request, 0 without one. The connection is closed where the server closes it. */
static int asked(int *fd, const char *request, size_t length) {
    char reply[65536];
    size_t have = 0;
    if (*fd < 0) *fd = connected();
    if (*fd < 0) return 0;
    for (int whole = write(*fd, request, length) == (ssize_t)length; whole;) {
        ssize_t n = read(*fd, reply + have, sizeof reply - 1 - have);
        if (n <= 0) break;
        reply[have += n] = 0;
        char *body = strstr(reply, "\r\n\r\n"), *field = strcasestr(reply, "\r\nContent-Length:");
        if (!body || !field || have < (size_t)(body + 4 - reply) + strtoul(field + 17, NULL, 10)) continue;
        if (strcasestr(reply, "\r\nConnection: close")) {
            close(*fd);
            *fd = -1;
        }
        return atoi(reply + 9);
    }
    close(*fd);
    *fd = -1;
    return 0;
}

static void *client(void *given) {
    int fd = -1, number = (int)(long)given;
    char body[8192], request[9000];
    for (int invoke = 1; now() < ends; invoke++) {
        snprintf(body, sizeof body, format, number, invoke);
        int length = snprintf(request, sizeof request, "POST %s HTTP/1.1\r\nHost: desk\r\nContent-Length: %zu\r\n\r\n%s", path, strlen(body), body);
        double start = now();
        long tries = 0;
        while (asked(&fd, request, length) != 200) {
            tries++;
            usleep(20000);
        }
        pthread_mutex_lock(&counting);
        again += tries;
        if (answers < MOST) times[answers++] = now() - start;
        pthread_mutex_unlock(&counting);
    }
    return NULL;
}

static int by_value(const void *a, const void *b) {
    double x = *(const double *)a, y = *(const double *)b;
    return (x > y) - (x < y);
}

int main(int argc, char **argv) {
    if (argc != 6) {
        fprintf(stderr, "usage: clients PORT CLIENTS SECONDS PATH BODY\n");
        return 2;
    }
    long many = atol(argv[2]);
    address.sin_family = AF_INET;
    address.sin_port = htons(atoi(argv[1]));
    address.sin_addr.s_addr = htonl(INADDR_LOOPBACK);
    path = argv[4], format = argv[5];
    times = malloc(MOST * sizeof *times);
    pthread_t *threads = malloc(many * sizeof *threads);
    double start = now();
    ends = start + atof(argv[3]) * 1e3;
    for (long i = 0; i < many; i++) pthread_create(&threads[i], NULL, client, (void *)i);
    for (long i = 0; i < many; i++) pthread_join(threads[i], NULL);
    double all = now() - start;
    if (!answers) return 1;
    qsort(times, answers, sizeof *times, by_value);
    printf("%ld %ld %.3f %.3f %.3f %.3f\n", answers, again, all / 1e3, times[answers / 2], times[answers * 99 / 100], times[answers - 1]);
    return 0;
}
