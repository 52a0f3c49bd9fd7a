/* A second reader, written from docs/FORMATS.md and docs/REFUSALS.md alone and by no method of the first: books are cut
   into fields, trees are found by sets of ends. What it answers is what the C call has to answer. */
#ifndef FUZZ_REFERENCE_H
#define FUZZ_REFERENCE_H

#include "grammar.h"
#include "text.h"

#include <stdbool.h>

#define REFERENCE_WORDS 48
#define REFERENCE_RECORDS 65536

/* A refusal with its line or place, or number 0. */
struct verdict {
    uint32_t number;
    size_t place;
};

/* Reads a book, as far as it goes without a refusal. */
struct verdict reference_book(const struct text *book, struct grammar *grammar);

/* How many places the productions have. */
size_t reference_places(const struct grammar *grammar);

/* What a line is by the book that was read. */
struct reading {
    struct verdict verdict;
    size_t word_count;                       /* of the words that stand */
    size_t record_count;                     /* of the smallest tree, or 65,536 for that or more */
    uint8_t records[3 * REFERENCE_RECORDS];
    uint64_t price;                          /* of that tree, where it has fewer records than that */
};

void reference_line(const struct grammar *grammar, const uint8_t *line, size_t len, struct reading *reading);

#endif
