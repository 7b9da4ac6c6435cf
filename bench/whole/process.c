// Times a program as a process: process ROUNDS INPUT PROGRAM [ARGUMENT..] prints the best and the median time of a run, in microseconds.
#define _GNU_SOURCE
#include <fcntl.h>
#include <spawn.h>
#include <stdio.h>
#include <stdlib.h>
#include <sys/wait.h>
#include <time.h>

extern char **environ;
static double now(void) { struct timespec t; clock_gettime(CLOCK_MONOTONIC, &t); return t.tv_sec * 1e6 + t.tv_nsec / 1e3; }
static int ascending(const void *a, const void *b) { double x = *(const double *)a, y = *(const double *)b; return (x > y) - (x < y); }

int main(int argc, char **argv) {
    static double times[1000];
    int rounds = argc > 3 ? atoi(argv[1]) : 0;
    if (rounds < 1 || rounds > 1000) return 1;
    posix_spawn_file_actions_t files;
    posix_spawn_file_actions_init(&files);
    posix_spawn_file_actions_addopen(&files, 0, argv[2], O_RDONLY, 0);
    posix_spawn_file_actions_addopen(&files, 1, "/dev/null", O_WRONLY, 0);
    posix_spawn_file_actions_addopen(&files, 2, "/dev/null", O_WRONLY, 0);
    for (int k = 0; k < rounds; k++) {
        pid_t child;
        int status;
        double start = now();
        if (posix_spawnp(&child, argv[3], &files, 0, argv + 3, environ) || waitpid(child, &status, 0) != child) { perror(argv[3]); return 1; }
        times[k] = now() - start;
        if (WIFEXITED(status) && WEXITSTATUS(status) == 127) { fprintf(stderr, "%s: not found\n", argv[3]); return 1; }
    }
    qsort(times, rounds, sizeof *times, ascending);
    printf("%.0f %.0f\n", times[0], times[rounds / 2]);
    return 0;
}
