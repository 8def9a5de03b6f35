/* Feeds a line program and takes its times and its memory.

   usage: clock INPUT LINES PROGRAM [ARGUMENT ..]

   The first LINES lines of INPUT are the opening. They are fed, and all their answers awaited, before the rest is.
   Printed: seconds of the opening, seconds of the rest, processor seconds that the program took for the rest, the
   resident set after the opening, at the end and at its greatest, each in KiB, the answers in all, and those among them
   that begin with "200 ".

   The memory is what the kernel says of the process itself (VmRSS and VmHWM in /proc/PID/status) while it still waits
   for input. The peak that wait4 gives would begin with the peak of whoever forked it. */
#define _GNU_SOURCE
#include <fcntl.h>
#include <poll.h>
#include <stdio.h>
#include <stdlib.h>
#include <string.h>
#include <sys/stat.h>
#include <sys/wait.h>
#include <time.h>
#include <unistd.h>

static int to, from;              /* the program's input and output */
static pid_t program;
static long answers, granted;     /* answer lines so far */
static int column;                /* where in its answer line the reader stands */
static int is_granted;

static void fail(const char *what) {
    perror(what);
    exit(1);
}

static double seconds(clockid_t clock) {
    struct timespec t;
    if (clock_gettime(clock, &t)) fail("clock");
    return t.tv_sec + t.tv_nsec / 1e9;
}

static void start(char **words) {
    int in[2], out[2];
    if (pipe2(in, O_CLOEXEC) || pipe2(out, O_CLOEXEC)) fail("pipe");
    program = fork();
    if (program < 0) fail("fork");
    if (program == 0) {
        dup2(in[0], 0);
        dup2(out[1], 1);
        execvp(words[0], words);
        fail(words[0]);
    }
    close(in[0]);
    close(out[1]);
    to = in[1];
    from = out[0];
    fcntl(to, F_SETPIPE_SZ, 1 << 20);
    fcntl(from, F_SETPIPE_SZ, 1 << 20);
    fcntl(to, F_SETFL, O_NONBLOCK);
}

static void take(const char *bytes, long count) {
    for (long i = 0; i < count; i++) {
        if (column < 4) is_granted = (column == 0 || is_granted) && bytes[i] == "200 "[column];
        column++;
        if (bytes[i] == '\n') {
            answers++;
            granted += is_granted;
            column = 0;
        }
    }
}

/* Feeds the bytes and reads until there are so many answers. */
static void feed(const char *bytes, long count, long wanted) {
    static char buffer[1 << 16];
    while (answers < wanted) {
        struct pollfd ends[2] = {{from, POLLIN, 0}, {to, POLLOUT, 0}};
        if (poll(ends, count > 0 ? 2 : 1, -1) < 0) fail("poll");
        if (count > 0 && ends[1].revents) {
            long written = write(to, bytes, count < 65536 ? count : 65536);
            if (written < 0) fail("write");
            bytes += written;
            count -= written;
        }
        if (ends[0].revents) {
            long got = read(from, buffer, sizeof buffer);
            if (got <= 0) {
                fprintf(stderr, "clock: the program ended after %ld answers\n", answers);
                exit(1);
            }
            take(buffer, got);
        }
    }
}

/* A figure of the program's memory in KiB. */
static long memory(const char *name) {
    char path[40], line[200];
    long figure = -1;
    snprintf(path, sizeof path, "/proc/%d/status", program);
    FILE *status = fopen(path, "r");
    if (!status) fail(path);
    while (fgets(line, sizeof line, status))
        if (!strncmp(line, name, strlen(name))) figure = atol(line + strlen(name));
    fclose(status);
    return figure;
}

int main(int count, char **words) {
    if (count < 4) {
        fprintf(stderr, "usage: clock INPUT LINES PROGRAM [ARGUMENT ..]\n");
        return 2;
    }
    int input = open(words[1], O_RDONLY | O_CLOEXEC);
    struct stat about;
    if (input < 0 || fstat(input, &about)) fail(words[1]);
    char *bytes = malloc(about.st_size + 1);
    long size = 0, opening = 0, lines = 0, opening_lines = atol(words[2]);
    for (long got; (got = read(input, bytes + size, about.st_size - size)) > 0;) size += got;
    for (long i = 0; i < size; i++)
        if (bytes[i] == '\n' && ++lines == opening_lines) opening = i + 1;
    double began = seconds(CLOCK_MONOTONIC);
    start(words + 3);
    feed(bytes, opening, opening_lines);
    double opened = seconds(CLOCK_MONOTONIC) - began;
    long resident = memory("VmRSS:");
    clockid_t processor;
    if (clock_getcpuclockid(program, &processor)) fail("processor clock");
    double taken = -seconds(processor), rest = -seconds(CLOCK_MONOTONIC);
    feed(bytes + opening, size - opening, lines);
    rest += seconds(CLOCK_MONOTONIC);
    taken += seconds(processor);
    printf("%.6f %.6f %.6f %ld %ld %ld %ld %ld\n", opened, rest, taken, resident, memory("VmRSS:"), memory("VmHWM:"), answers, granted);
    close(to);
    int status;
    waitpid(program, &status, 0);
    return status != 0;
}
