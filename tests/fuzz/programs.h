/* The programs `walk` and `exhaustive`, run over each case. */
#ifndef FUZZ_PROGRAMS_H
#define FUZZ_PROGRAMS_H

#include "cases.h"

struct programs {
    const char *walk;
    const char *exhaustive; /* or NULL */
    uint64_t compared;      /* cases of which both printed the same */
    uint64_t unended;       /* cases that `exhaustive` had too little time for */
    uint64_t short_tables;  /* lines that were answered by 16 */
    uint64_t trees;         /* lines that were answered by trees */
};

/* Writes the case into the current folder, as `book.rbk` and `lines`. */
void write_case(const struct fuzz_case *made);

/* Runs the programs over the case, in the current folder, and compares what they print with one another and with the
   reference. */
void try_programs(const struct fuzz_case *made, struct random *random, struct programs *programs);

#endif
