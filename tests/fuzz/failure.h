/* What is said where something is wrong. */
#ifndef FUZZ_FAILURE_H
#define FUZZ_FAILURE_H

#include <stdint.h>

/* Tells which case is tried, notes it in the file `case`, and gives it a time to end in. */
void trying(uint64_t seed, uint64_t number);

/* Says what is wrong with the case that is tried, and ends the program. */
_Noreturn void fail(const char *format, ...);

/* Has faults of memory, and cases without end, said too. */
void catch_faults(void);

#endif
