/* The C call, made over each case with its inputs and its output at the edges of memory that may be used. */
#ifndef FUZZ_CALLS_H
#define FUZZ_CALLS_H

#include "cases.h"
#include "reference.h"

/* What has happened so far. Refusals stand by their numbers. */
struct counts {
    uint64_t calls;
    uint64_t answers[32];
    uint64_t most_records;
};

/* Makes the memory of which no byte outside the lent ones may be used. */
void open_memory(void);

/* Calls the reader over each line of the case, and compares each answer and each byte with the reference. */
void try_calls(const struct fuzz_case *made, struct random *random, struct counts *counts);

#endif
