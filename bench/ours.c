/* The reader, through its one call. Each step is told from the others by the answer at which the call ends. */
#include "bench.h"
#include "wembatogy.h"

#include <stdio.h>
#include <string.h>

#define BOOK_SIZE 16384

/* A word of no kind. */
#define UNKNOWN "+"

static uint8_t books[GRAMMAR_COUNT][BOOK_SIZE];
static size_t book_sizes[GRAMMAR_COUNT];

bool ours_open(const char *const *paths) {
    for (size_t g = 0; g < GRAMMAR_COUNT; g++) {
        FILE *file = fopen(paths[g], "rb");
        if (file == NULL) {
            return false;
        }
        book_sizes[g] = fread(books[g], 1, BOOK_SIZE, file);
        fclose(file);
    }
    return true;
}

static uint32_t call(enum grammar grammar, const char *text, size_t size, struct listing *out) {
    return wembatogy_read(books[grammar], book_sizes[grammar], (const uint8_t *)text, size, (uint8_t *)out->records, sizeof out->records);
}

/* The book alone: the first word is refused. */
bool ours_book(enum grammar grammar, const struct line *line, struct listing *out) {
    (void)line;
    return call(grammar, UNKNOWN, 1, out) == 21;
}

/* The book, and a listing that there is not: no words are no sentence. */
bool ours_empty(enum grammar grammar, const struct line *line, struct listing *out) {
    (void)line;
    return call(grammar, "", 0, out) == 13;
}

/* The book and the words of the line: one more word is refused. */
bool ours_read(enum grammar grammar, const struct line *line, struct listing *out) {
    char text[TEXT_SIZE + 2];
    memcpy(text, line->text, line->size);
    memcpy(text + line->size, " " UNKNOWN, 2);
    return call(grammar, text, line->size + 2, out) == 21 + 256 * (line->size + 1);
}

/* The book, the words of the line and the listing. */
bool ours_list(enum grammar grammar, const struct line *line, struct listing *out) {
    uint32_t answer = call(grammar, line->text, line->size, out);
    out->count = answer / 256;
    return answer % 256 == 0;
}
