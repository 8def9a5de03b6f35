/* What a program takes from its start to its end.

   usage: spent OUTPUT PROGRAM [ARGUMENT ..]

   OUTPUT gets what the program writes. Printed: its processor seconds, its seconds by the clock, and the greatest resident set in KiB, as
   the kernel counts them (wait4). The peak of a process begins with that of the one that forked it: this one's is small. */
#include <fcntl.h>
#include <stdio.h>
#include <stdlib.h>
#include <sys/resource.h>
#include <sys/wait.h>
#include <time.h>
#include <unistd.h>

static void fail(const char *what) {
    perror(what);
    exit(1);
}

static double now(void) {
    struct timespec t;
    if (clock_gettime(CLOCK_MONOTONIC, &t)) fail("clock");
    return t.tv_sec + t.tv_nsec / 1e9;
}

int main(int count, char **words) {
    if (count < 3) {
        fprintf(stderr, "usage: spent OUTPUT PROGRAM [ARGUMENT ..]\n");
        return 2;
    }
    double start = now();
    pid_t program = fork();
    if (program < 0) fail("fork");
    if (program == 0) {
        int out = open(words[1], O_WRONLY | O_CREAT | O_TRUNC, 0600);
        if (out < 0) fail(words[1]);
        dup2(out, 1);
        execv(words[2], words + 2);
        fail(words[2]);
    }
    int status;
    struct rusage used;
    if (wait4(program, &status, 0, &used) < 0) fail("wait4");
    double took = now() - start;
    double processor = used.ru_utime.tv_sec + used.ru_stime.tv_sec + (used.ru_utime.tv_usec + used.ru_stime.tv_usec) / 1e6;
    printf("%.6f %.6f %ld\n", processor, took, used.ru_maxrss);
    return status != 0;
}
