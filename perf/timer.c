/*
 * timer K LISTING OURS SECOND [RUNNER..]: runs the programs OURS and SECOND in turn, K times each, LISTING as standard input and the output
 * dropped, and prints in nanoseconds the least processor time of each, then the least time from fork to end of each. RUNNER is put in front of both.
 */
#define _POSIX_C_SOURCE 200809L
#include <fcntl.h>
#include <stdio.h>
#include <stdlib.h>
#include <sys/resource.h>
#include <sys/wait.h>
#include <time.h>
#include <unistd.h>

static long long now(void)
{
    struct timespec t;
    clock_gettime(CLOCK_MONOTONIC, &t);
    return t.tv_sec * 1000000000LL + t.tv_nsec;
}

/* Processor time of all children that ended: less touched by other work of the machine than the clock. */
static long long spent(void)
{
    struct rusage u;
    getrusage(RUSAGE_CHILDREN, &u);
    return (u.ru_utime.tv_sec + u.ru_stime.tv_sec) * 1000000000LL + (u.ru_utime.tv_usec + u.ru_stime.tv_usec) * 1000LL;
}

static void once(const char *listing, char **command, long long took[2])
{
    int status;
    long long before = spent(), start = now();
    pid_t child = fork();
    if (child == 0) {
        int in = open(listing, O_RDONLY), out = open("/dev/null", O_WRONLY);
        if (in >= 0 && out >= 0 && dup2(in, 0) == 0 && dup2(out, 1) == 1)
            execv(command[0], command);
        _exit(127);
    }
    if (child < 0 || waitpid(child, &status, 0) != child || status != 0) {
        fprintf(stderr, "timer: %s did not run\n", command[0]);
        exit(2);
    }
    took[1] = now() - start;
    took[0] = spent() - before;
}

int main(int argc, char **argv)
{
    if (argc < 5)
        return 2;
    int runs = atoi(argv[1]), words = argc - 5;
    long long least[2][2] = { { 0, 0 }, { 0, 0 } };
    char **command = calloc((size_t)words + 2, sizeof *command);
    if (command == NULL)
        return 2;
    for (int i = 0; i < words; i++)
        command[i] = argv[5 + i];
    for (int i = 0; i < runs; i++)
        for (int which = 0; which < 2; which++) {       /* in turn, so that a busy moment strikes both */
            command[words] = argv[3 + which];
            long long took[2];
            once(argv[2], command, took);
            for (int clock = 0; clock < 2; clock++)
                if (i == 0 || took[clock] < least[clock][which])
                    least[clock][which] = took[clock];
        }
    printf("%lld %lld %lld %lld\n", least[0][0], least[0][1], least[1][0], least[1][1]);
    return 0;
}
