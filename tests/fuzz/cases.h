/* Cases: a book and lines, by a seed and a number. */
#ifndef FUZZ_CASES_H
#define FUZZ_CASES_H

#include "grammar.h"
#include "random.h"
#include "text.h"

#define LINES_MAX 8

struct fuzz_case {
    struct text book;
    size_t line_count;
    struct text lines[LINES_MAX];
    bool is_ended; /* whether the last line has a line end in the file `lines` */
};

void make_case(struct fuzz_case *made, uint64_t seed, uint64_t number);
void free_case(struct fuzz_case *made);

/* The lines as one file. */
void put_lines(const struct fuzz_case *made, struct text *file);

/* The steps of making a case. */
void make_grammar(struct random *random, struct grammar *grammar);
void spoil_grammar(struct random *random, struct grammar *grammar);
void put_book(struct random *random, const struct grammar *grammar, struct text *book);
void damage_book(struct random *random, struct text *book);
void put_line(struct random *random, const struct grammar *grammar, struct text *line);

#endif
