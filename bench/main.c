/*
 * harness check FOLDER FOLDER              compares the readers with one another on all lines
 * harness time FOLDER FOLDER WALK          prints times in nanoseconds
 * harness instructions FOLDER FOLDER       under callgrind, has it dump its counts
 * harness lines SET WORDS ROUNDS BEHIND    prints lines for `walk`, with a text behind each
 * harness trees GRAMMAR SET WORDS          prints the numbers of trees, as libmarpa counts them, in the form in which `walk` prints them
 *
 * The folders have the books, with rules and without. What is measured is printed, or named to callgrind, as
 * `GRAMMAR SET WORDS STEP VALUE`, for all lines of a set and length together.
 */
#define _POSIX_C_SOURCE 200809L
#include "bench.h"

#include <stdio.h>
#include <stdlib.h>
#include <string.h>
#include <time.h>
#include <valgrind/callgrind.h>

#define TIME_ROUNDS 60
#define BATCH_NANOSECONDS 1e6

static const struct step {
    const char *name;
    step_fn *run;
    /* whether the step has the grammar */
    bool has[GRAMMAR_COUNT];
} steps[] = {
    {"ours-book", ours_book, {true, true}},
    {"ours-empty", ours_empty, {true, true}},
    {"ours-read", ours_read, {true, true}},
    {"ours-list", ours_list, {true, true}},
    {"marpa-grammar", marpa_grammar, {true, true}},
    {"marpa-start", marpa_start, {true, true}},
    {"marpa-read", marpa_read, {true, true}},
    {"marpa-list", marpa_list, {true, true}},
    {"marpa-count", marpa_count, {true, true}},
    {"bison-read", lalr_read, {true, false}},
    {"bison-list", lalr_list, {true, false}},
    {"bison-read", glr_read, {false, true}},
    {"bison-list", glr_list, {false, true}},
};
#define STEP_COUNT (sizeof steps / sizeof steps[0])

static bool run_lines(const struct step *step, enum grammar grammar, const struct line *lines) {
    static struct listing out;
    for (size_t i = 0; i < LINE_COUNT; i++) {
        if (!step->run(grammar, &lines[i], &out)) {
            return false;
        }
    }
    return true;
}

/* What is done with each grammar, set and length: of the steps, those are handed over that the grammar has and that can take the lines. */
typedef void use_fn(enum grammar grammar, enum set set, size_t words, const struct line *lines, const bool *works);

static void each(use_fn *use) {
    static struct line lines[LINE_COUNT];
    for (size_t i = 0; i < (size_t)GRAMMAR_COUNT * SET_COUNT * LENGTH_COUNT; i++) {
        enum grammar grammar = (enum grammar)(i / (SET_COUNT * LENGTH_COUNT));
        enum set set = (enum set)(i / LENGTH_COUNT % SET_COUNT);
        size_t words = lengths[i % LENGTH_COUNT];
        make_lines(lines, set, words);
        bool works[STEP_COUNT];
        for (size_t s = 0; s < STEP_COUNT; s++) {
            works[s] = steps[s].has[grammar] && run_lines(&steps[s], grammar, lines);
        }
        use(grammar, set, words, lines, works);
    }
}

static double now(void) {
    struct timespec time;
    clock_gettime(CLOCK_THREAD_CPUTIME_ID, &time);
    return 1e9 * (double)time.tv_sec + (double)time.tv_nsec;
}

/* The time of all lines once, of so many repetitions. */
static double batch(const struct step *step, enum grammar grammar, const struct line *lines, size_t repetitions) {
    double start = now();
    for (size_t i = 0; i < repetitions; i++) {
        run_lines(step, grammar, lines);
    }
    return (now() - start) / (double)repetitions;
}

static const char *walk;
static char **folders;

static void time_walk(enum grammar grammar, enum set set, size_t words, const struct line *lines) {
    static const char *const names[] = {"walk-read", "walk-count"};
    static const char *const behind[] = {" +", ""};
    for (size_t i = 0; i < 2; i++) {
        double time = walk_time(walk, folders[grammar], lines, behind[i]);
        if (time < 0) {
            fprintf(stderr, "%s fails\n", walk);
            exit(1);
        }
        printf("%s %s %zu %s %.0f\n", grammar_names[grammar], set_names[set], words, names[i], time);
    }
}

/* The least time of each step; the steps take turns, so that what disturbs one disturbs all. */
static void time_steps(enum grammar grammar, enum set set, size_t words, const struct line *lines, const bool *works) {
    double best[STEP_COUNT];
    size_t repetitions[STEP_COUNT];
    for (size_t s = 0; s < STEP_COUNT; s++) {
        best[s] = works[s] ? batch(&steps[s], grammar, lines, 1) : 0;
        repetitions[s] = works[s] ? (size_t)(BATCH_NANOSECONDS / best[s]) + 1 : 0;
    }
    for (size_t i = 0; i < TIME_ROUNDS * STEP_COUNT; i++) {
        size_t s = i % STEP_COUNT;
        double time = works[s] ? batch(&steps[s], grammar, lines, repetitions[s]) : 0;
        best[s] = time < best[s] ? time : best[s];
    }
    for (size_t s = 0; s < STEP_COUNT; s++) {
        if (works[s]) {
            printf("%s %s %zu %s %.0f\n", grammar_names[grammar], set_names[set], words, steps[s].name, best[s]);
        }
    }
    if (words <= WALK_MOST_WORDS) {
        time_walk(grammar, set, words, lines);
    }
    fflush(stdout);
}

/* One round, and then two: their difference is one without what comes but once. */
static void count_instructions(enum grammar grammar, enum set set, size_t words, const struct line *lines, const bool *works) {
    for (size_t s = 0; s < STEP_COUNT; s++) {
        if (!works[s]) {
            continue;
        }
        char label[100];
        for (int rounds = 1; rounds <= 2; rounds++) {
            CALLGRIND_ZERO_STATS;
            for (int i = 0; i < rounds; i++) {
                run_lines(&steps[s], grammar, lines);
            }
            snprintf(label, sizeof label, "%s %s %zu %s %d", grammar_names[grammar], set_names[set], words, steps[s].name, rounds);
            CALLGRIND_DUMP_STATS_AT(label);
        }
    }
}

static int compare(const void *a, const void *b) {
    return memcmp(a, b, sizeof(struct record));
}

static bool failed;

static void expect(bool fact, const char *what, enum grammar grammar, const struct line *line) {
    if (!fact) {
        printf("%s, %s: %s\n", grammar_names[grammar], what, line->text);
        failed = true;
    }
}

/* Compares a listing with that of the reader: with the rules there is only one tree, else as many nodes. */
static void compare_listing(step_fn *run, enum grammar grammar, const struct line *line, const char *name) {
    static struct listing ours, other;
    expect(ours_list(grammar, line, &ours), "no listing", grammar, line);
    expect(run(grammar, line, &other), "no sentence", grammar, line);
    expect(ours.count == other.count, name, grammar, line);
    if (grammar == RULES) {
        qsort(ours.records, ours.count, sizeof ours.records[0], compare);
        qsort(other.records, other.count, sizeof other.records[0], compare);
        expect(memcmp(ours.records, other.records, ours.count * sizeof ours.records[0]) == 0, name, grammar, line);
    }
}

static void check(enum grammar grammar, enum set set, size_t words, const struct line *lines, const bool *works) {
    for (size_t i = 0; i < LINE_COUNT; i++) {
        expect(lines[i].words == words, "another number of words", grammar, &lines[i]);
        for (size_t s = 0; s < STEP_COUNT; s++) {
            if (works[s] && strstr(steps[s].name, "-list") != NULL) {
                compare_listing(steps[s].run, grammar, &lines[i], steps[s].name);
            }
        }
    }
    for (size_t s = 0; s < STEP_COUNT; s++) {
        if (steps[s].has[grammar] && !works[s]) {
            printf("%s can't take the lines of %s %s %zu\n", steps[s].name, grammar_names[grammar], set_names[set], words);
        }
    }
}

static size_t find(const char *name, const char *const *all, size_t count) {
    for (size_t i = 0; i < count; i++) {
        if (strcmp(name, all[i]) == 0) {
            return i;
        }
    }
    fprintf(stderr, "%s is unknown\n", name);
    exit(2);
}

static int print_lines(char **args) {
    static struct line lines[LINE_COUNT];
    make_lines(lines, (enum set)find(args[0], set_names, SET_COUNT), (size_t)atoi(args[1]));
    size_t rounds = (size_t)atoi(args[2]);
    for (size_t i = 0; i < rounds * LINE_COUNT; i++) {
        printf("%s%s\n", lines[i % LINE_COUNT].text, args[3]);
    }
    return 0;
}

static int print_trees(char **args) {
    static struct line lines[LINE_COUNT];
    static struct listing out;
    enum grammar grammar = (enum grammar)find(args[0], grammar_names, GRAMMAR_COUNT);
    make_lines(lines, (enum set)find(args[1], set_names, SET_COUNT), (size_t)atoi(args[2]));
    if (!marpa_open()) {
        return 1;
    }
    for (size_t i = 0; i < LINE_COUNT; i++) {
        if (!marpa_count(grammar, &lines[i], &out)) {
            return 1;
        }
        printf("%zu ok trees %u\n", i + 1, out.trees);
    }
    return 0;
}

static bool open_all(char **args) {
    static char paths[GRAMMAR_COUNT][1000];
    folders = args;
    for (size_t g = 0; g < GRAMMAR_COUNT; g++) {
        snprintf(paths[g], sizeof paths[g], "%s/book.rbk", args[g]);
    }
    return ours_open((const char *const[]){paths[RULES], paths[NO_RULES]}) && marpa_open();
}

int main(int count, char **args) {
    const char *command = count > 1 ? args[1] : "";
    if (strcmp(command, "lines") == 0 && count == 6) {
        return print_lines(args + 2);
    }
    if (strcmp(command, "trees") == 0 && count == 5) {
        return print_trees(args + 2);
    }
    if (count < 4 || !open_all(args + 2)) {
        fprintf(stderr, "no books or no grammars\n");
        return 2;
    }
    if (strcmp(command, "check") == 0) {
        each(check);
    } else if (strcmp(command, "time") == 0 && count == 5) {
        walk = args[4];
        each(time_steps);
    } else if (strcmp(command, "instructions") == 0) {
        each(count_instructions);
    } else {
        fprintf(stderr, "%s is unknown\n", command);
        return 2;
    }
    return failed ? 1 : 0;
}
