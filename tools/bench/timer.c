/* Measures the mean wall time of two programs, start and end included: timer RUNS INPUT PROGRAM OTHER
 *
 * Runs each program RUNS times, in turn, with INPUT on standard input, and discards the output. Prints the two means in
 * microseconds. If a program cannot be run or ends with a status other than 0, says so and ends with status 1. */
#define _POSIX_C_SOURCE 200809L
#include <fcntl.h>
#include <spawn.h>
#include <stdio.h>
#include <stdlib.h>
#include <sys/wait.h>
#include <time.h>
#include <unistd.h>

extern char **environ;

static double now(void) {
    struct timespec time;
    clock_gettime(CLOCK_MONOTONIC, &time);
    return (double)time.tv_sec * 1e6 + (double)time.tv_nsec / 1e3;
}

/* The microseconds that one run takes. */
static double time_run(char *program, const char *input) {
    char *words[] = {program, NULL};
    pid_t child;
    int status;
    posix_spawn_file_actions_t streams;
    posix_spawn_file_actions_init(&streams);
    posix_spawn_file_actions_addopen(&streams, STDIN_FILENO, input, O_RDONLY, 0);
    posix_spawn_file_actions_addopen(&streams, STDOUT_FILENO, "/dev/null", O_WRONLY, 0);
    double start = now();
    if (posix_spawn(&child, program, &streams, NULL, words, environ) != 0 ||
        waitpid(child, &status, 0) != child || status != 0) {
        fprintf(stderr, "timer: %s cannot be run, or ends with a status other than 0\n", program);
        exit(EXIT_FAILURE);
    }
    double end = now();
    posix_spawn_file_actions_destroy(&streams);
    return end - start;
}

int main(int count, char **words) {
    int runs = count == 5 ? atoi(words[1]) : 0;
    if (runs < 1) {
        fprintf(stderr, "timer: timer RUNS INPUT PROGRAM OTHER\n");
        return EXIT_FAILURE;
    }
    /* The first run of each is not counted: the caches are still cold. */
    double spent[2] = {0, 0};
    for (int run = 0; run <= runs; run++) {
        for (int which = 0; which < 2; which++) {
            double took = time_run(words[3 + which], words[2]);
            if (run > 0)
                spent[which] += took;
        }
    }
    printf("%.1f %.1f\n", spent[0] / runs, spent[1] / runs);
    return EXIT_SUCCESS;
}
