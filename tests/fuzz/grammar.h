/* A grammar with its spellings, as cases are made from it and as the reference reads it. It has room for more of
   everything than a book may have. */
#ifndef FUZZ_GRAMMAR_H
#define FUZZ_GRAMMAR_H

#include <stddef.h>
#include <stdint.h>

#define LETTERS 16
#define SPELLINGS_MAX 40
#define SPELLING_MAX 16
#define PRODUCTIONS_MAX 40
#define RIGHT_MAX 10
#define RULES_MAX 80

/* Symbols 0 to 15 are letters, symbol 16 + i is the spelling i. */
struct production {
    uint8_t left;
    size_t size;
    uint8_t right[RIGHT_MAX];
    uint32_t price;
};

/* By production numbers, which count from 1. */
struct rule {
    uint64_t upper;
    uint64_t lower;
    char sign;
};

struct grammar {
    uint8_t start;
    size_t spelling_count;
    char spellings[SPELLINGS_MAX][SPELLING_MAX]; /* as a book has them, literals with their quotes */
    size_t production_count;
    struct production productions[PRODUCTIONS_MAX];
    size_t rule_count;
    struct rule rules[RULES_MAX];
};

#endif
