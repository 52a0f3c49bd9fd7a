/* Random cases for the C call and for the programs. The script `run` beside it says how it is built and used. */
#include "calls.h"
#include "failure.h"
#include "programs.h"

#include <inttypes.h>
#include <stdio.h>
#include <stdlib.h>
#include <string.h>
#include <unistd.h>

/* From so many cases on each answer has to come. */
#define MANY 1500

/* The answers that the C call can give. */
static const uint8_t ANSWERS[] = {0, 2, 3, 4, 5, 6, 7, 8, 9, 11, 13, 15, 17, 18, 19, 20, 21};

static int usage(void) {
    fputs("usage: fuzz calls SEED FIRST COUNT\n"
          "       fuzz programs SEED FIRST COUNT WALK [EXHAUSTIVE]\n"
          "       fuzz write SEED NUMBER, which writes book.rbk and lines\n"
          "each in a folder of its own\n",
          stderr);
    return 2;
}

/* Numbers for what is done with the case, which are not those that it is made by. */
static struct random random_of_trial(uint64_t seed, uint64_t number) {
    return random_of_case(~seed, number);
}

static int calls(uint64_t seed, uint64_t first, uint64_t count) {
    static struct counts counts;
    struct fuzz_case made;
    open_memory();
    for (uint64_t number = first; number < first + count; number++) {
        struct random random = random_of_trial(seed, number);
        trying(seed, number);
        make_case(&made, seed, number);
        try_calls(&made, &random, &counts);
        free_case(&made);
    }
    printf("calls: %" PRIu64 " cases, 3 x %" PRIu64 " calls, at most %" PRIu64 " records; answers", count, counts.calls, counts.most_records);
    for (size_t i = 0; i < sizeof ANSWERS; i++) {
        printf(" %u:%" PRIu64, ANSWERS[i], counts.answers[ANSWERS[i]]);
    }
    printf("\n");
    for (size_t i = 0; count >= MANY && i < sizeof ANSWERS; i++) {
        if (counts.answers[ANSWERS[i]] == 0) {
            printf("calls: %u was never answered\n", ANSWERS[i]);
            return 1;
        }
    }
    return 0;
}

static int programs(uint64_t seed, uint64_t first, uint64_t count, const char *walk, const char *exhaustive) {
    struct programs run = {.walk = walk, .exhaustive = exhaustive};
    struct fuzz_case made;
    for (uint64_t number = first; number < first + count; number++) {
        struct random random = random_of_trial(seed, number);
        trying(seed, number);
        make_case(&made, seed, number);
        try_programs(&made, &random, &run);
        free_case(&made);
    }
    printf("programs: %" PRIu64 " cases, %" PRIu64 " lines with trees, %" PRIu64 " with 16", count, run.trees, run.short_tables);
    if (exhaustive != NULL) {
        printf("; exhaustive said the same of %" PRIu64 ", and had too little time for %" PRIu64, run.compared, run.unended);
    }
    printf("\n");
    return 0;
}

int main(int argc, char **argv) {
    if (argc < 4) {
        return usage();
    }
    uint64_t seed = strtoull(argv[2], NULL, 10), first = strtoull(argv[3], NULL, 10), count = argc > 4 ? strtoull(argv[4], NULL, 10) : 1;
    catch_faults();
    if (strcmp(argv[1], "calls") == 0) {
        return calls(seed, first, count);
    }
    if (strcmp(argv[1], "programs") == 0 && argc > 5) {
        return programs(seed, first, count, argv[5], argc > 6 ? argv[6] : NULL);
    }
    if (strcmp(argv[1], "write") == 0) {
        struct fuzz_case made;
        make_case(&made, seed, first);
        write_case(&made);
        free_case(&made);
        return 0;
    }
    return usage();
}
