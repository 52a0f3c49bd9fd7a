/* The program `walk` as a process: the time of many rounds of lines less that of half as many, so that starting cancels out. */
#include "bench.h"

#include <fcntl.h>
#include <stdio.h>
#include <stdlib.h>
#include <sys/resource.h>
#include <sys/wait.h>
#include <unistd.h>

#define RUNS 7
#define ROUNDS 40

static void become(const char *program, const char *folder, int input) {
    int output = open("/dev/null", O_WRONLY);
    if (chdir(folder) == 0 && dup2(input, 0) == 0 && dup2(output, 1) == 1) {
        execl(program, program, (char *)NULL);
    }
    _exit(127);
}

/* The processor time of one run in nanoseconds. */
static double run(const char *program, const char *folder, FILE *input) {
    rewind(input);
    pid_t child = fork();
    if (child == 0) {
        become(program, folder, fileno(input));
    }
    int status;
    struct rusage usage;
    if (child < 0 || wait4(child, &status, 0, &usage) != child || status != 0) {
        return -1;
    }
    double seconds = (double)(usage.ru_utime.tv_sec + usage.ru_stime.tv_sec);
    return 1e9 * seconds + 1e3 * (double)(usage.ru_utime.tv_usec + usage.ru_stime.tv_usec);
}

static FILE *input_of(const struct line *lines, const char *behind, size_t rounds) {
    FILE *input = tmpfile();
    for (size_t i = 0; input != NULL && i < rounds * LINE_COUNT; i++) {
        fprintf(input, "%s%s\n", lines[i % LINE_COUNT].text, behind);
    }
    if (input != NULL) {
        fflush(input);
    }
    return input;
}

/* The least time of some runs over so many rounds. */
static double least(const char *program, const char *folder, const struct line *lines, const char *behind, size_t rounds) {
    FILE *input = input_of(lines, behind, rounds);
    double best = -1;
    for (size_t i = 0; input != NULL && i < RUNS; i++) {
        double time = run(program, folder, input);
        if (time < 0) {
            best = -1;
            break;
        }
        best = best < 0 || time < best ? time : best;
    }
    if (input != NULL) {
        fclose(input);
    }
    return best;
}

double walk_time(const char *program, const char *folder, const struct line *lines, const char *behind) {
    double half = least(program, folder, lines, behind, ROUNDS);
    double whole = least(program, folder, lines, behind, 2 * ROUNDS);
    return half < 0 || whole < 0 ? -1 : (whole - half) / ROUNDS;
}
