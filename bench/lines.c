/* The lines that are measured, all of them sentences of both grammars. */
#include "bench.h"

#include <string.h>

const char *const grammar_names[GRAMMAR_COUNT] = {"rules", "no-rules"};
const char *const set_names[SET_COUNT] = {"plain", "mixed"};
const size_t lengths[LENGTH_COUNT] = {5, 19, 33, 47};

static const char *const marks[] = {"or", "and", "not", "(", ")"};
static const char *const names[] = {"lamp", "wet", "key", "door", "alarm", "night", "gate_2", "valve"};

static uint32_t state;

/* A number below `count`, by a linear congruence modulo 2 to the 32nd. */
static uint32_t draw(uint32_t count) {
    state = state * 1664525u + 1013904223u;
    return (state >> 16) % count;
}

static void put(struct line *line, enum kind kind) {
    const char *word = kind == NAME ? names[draw(8)] : marks[kind];
    if (line->words > 0) {
        line->text[line->size++] = ' ';
    }
    memcpy(line->text + line->size, word, strlen(word));
    line->size += strlen(word);
    line->kinds[line->words++] = kind;
}

static void put_operator(struct line *line) {
    put(line, draw(2) == 0 ? OR : AND);
}

/* Names, and an operator between each two; the number of words is odd. */
static void put_plain(struct line *line, size_t words) {
    put(line, NAME);
    while (line->words < words) {
        put_operator(line);
        put(line, NAME);
    }
}

/* A name, or one of eight: a negation, brackets, or else two parts of drawn lengths with an operator between them. */
static void put_mixed(struct line *line, size_t words) {
    if (words == 1) {
        put(line, NAME);
        return;
    }
    uint32_t form = words == 2 ? 0 : draw(8);
    if (form == 0) {
        put(line, NOT);
        put_mixed(line, words - 1);
    } else if (form == 1) {
        put(line, LEFT);
        put_mixed(line, words - 2);
        put(line, RIGHT);
    } else {
        size_t left = 1 + draw((uint32_t)(words - 2));
        put_mixed(line, left);
        put_operator(line);
        put_mixed(line, words - 1 - left);
    }
}

void make_lines(struct line *lines, enum set set, size_t words) {
    for (size_t i = 0; i < LINE_COUNT; i++) {
        state = (uint32_t)(1000 * words + i);
        memset(&lines[i], 0, sizeof lines[i]);
        if (set == PLAIN) {
            put_plain(&lines[i], words);
        } else {
            put_mixed(&lines[i], words);
        }
    }
}

uint32_t add_trees(uint32_t a, uint32_t b) {
    return a > UINT32_MAX - b ? UINT32_MAX : a + b;
}

uint32_t multiply_trees(uint32_t a, uint32_t b) {
    uint64_t product = (uint64_t)a * b;
    return product > UINT32_MAX ? UINT32_MAX : (uint32_t)product;
}
