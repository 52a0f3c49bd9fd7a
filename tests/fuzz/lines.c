/* Lines: sentences of a grammar, words in any order, and bytes. */
#include "cases.h"

#include <string.h>

#define LINE_BYTES 16384
#define KINDS_MAX 64

/* Words that the grammar derives: at random while there are few, and then by the lowest trees. */
struct derivation {
    struct random *random;
    const struct grammar *grammar;
    uint32_t heights[LETTERS]; /* of the lowest tree of each letter, or NO_TREE */
    size_t wanted;
    size_t steps;
    size_t count;
    uint8_t kinds[KINDS_MAX];
};

#define NO_TREE 1000
#define STEPS_MAX 400

static uint32_t height_of(const struct derivation *derivation, const struct production *production) {
    uint32_t height = 0;
    for (size_t k = 0; k < production->size; k++) {
        uint32_t below = production->right[k] < LETTERS ? derivation->heights[production->right[k]] : 0;
        height = below > height ? below : height;
    }
    return height < NO_TREE ? height + 1 : NO_TREE;
}

static void find_heights(struct derivation *derivation) {
    const struct grammar *grammar = derivation->grammar;
    for (size_t i = 0; i < LETTERS; i++) {
        derivation->heights[i] = NO_TREE;
    }
    for (int round = 0; round < LETTERS; round++) {
        for (size_t p = 0; p < grammar->production_count; p++) {
            uint32_t *height = &derivation->heights[grammar->productions[p].left];
            uint32_t found = height_of(derivation, &grammar->productions[p]);
            *height = found < *height ? found : *height;
        }
    }
}

/* Some production of the letter that has a tree, or the lowest one. */
static const struct production *choose(struct derivation *derivation, uint8_t letter) {
    const struct production *chosen = NULL;
    bool any = derivation->count < derivation->wanted && derivation->steps < STEPS_MAX / 2;
    uint32_t seen = 0;
    for (size_t p = 0; p < derivation->grammar->production_count; p++) {
        const struct production *production = &derivation->grammar->productions[p];
        uint32_t height = height_of(derivation, production);
        if (production->left != letter || height == NO_TREE) {
            continue;
        }
        seen++;
        if (chosen == NULL || (any ? below(derivation->random, seen) == 0 : height < height_of(derivation, chosen))) {
            chosen = production;
        }
    }
    return chosen;
}

static void derive(struct derivation *derivation, uint8_t symbol) {
    if (derivation->steps++ > STEPS_MAX || derivation->count == KINDS_MAX) {
        return;
    }
    if (symbol >= LETTERS) {
        derivation->kinds[derivation->count++] = symbol;
        return;
    }
    const struct production *production = choose(derivation, symbol);
    for (size_t k = 0; production != NULL && k < production->size; k++) {
        derive(derivation, production->right[k]);
    }
}

/* A sentence of about so many words, as a few trials give it. */
static void some_sentence(struct derivation *derivation, size_t wanted) {
    struct derivation best = *derivation;
    find_heights(derivation);
    for (int trial = 0; trial < 4 && (trial == 0 || best.count < wanted); trial++) {
        derivation->wanted = wanted;
        derivation->steps = 0;
        derivation->count = 0;
        derive(derivation, derivation->grammar->start);
        if (trial == 0 || (derivation->count > best.count && derivation->count <= wanted + 2)) {
            best = *derivation;
        }
    }
    *derivation = best;
}

static uint8_t some_kind(struct random *random, const struct grammar *grammar) {
    return (uint8_t)(LETTERS + below(random, (uint32_t)grammar->spelling_count + 1));
}

/* Drops, changes or adds a word, or changes two. */
static void damage_words(struct derivation *derivation) {
    struct random *random = derivation->random;
    size_t at = below(random, (uint32_t)derivation->count + 1), rest = derivation->count - at;
    uint8_t kind = some_kind(random, derivation->grammar);
    uint32_t sort = below(random, 4);
    if (sort == 0 && rest > 0) {
        memmove(derivation->kinds + at, derivation->kinds + at + 1, rest - 1);
        derivation->count--;
    } else if (sort == 1 && rest > 0) {
        derivation->kinds[at] = kind;
    } else if (sort == 2 && derivation->count < KINDS_MAX) {
        memmove(derivation->kinds + at + 1, derivation->kinds + at, rest);
        derivation->kinds[at] = kind;
        derivation->count++;
    } else if (rest > 1) {
        uint8_t first = derivation->kinds[at];
        derivation->kinds[at] = derivation->kinds[at + 1];
        derivation->kinds[at + 1] = first;
    }
}

static bool in_run(uint8_t byte) {
    return (byte >= 'a' && byte <= 'z') || (byte >= 'A' && byte <= 'Z') || (byte >= '0' && byte <= '9') || byte == '_';
}

static void put_run(struct random *random, struct text *line, const char *first, const char *others) {
    uint32_t more = chance(random, 5) ? below(random, 40) : below(random, 3);
    text_byte(line, (uint8_t)first[below(random, (uint32_t)strlen(first))]);
    for (uint32_t i = 0; i < more; i++) {
        text_byte(line, (uint8_t)others[below(random, (uint32_t)strlen(others))]);
    }
}

/* A word of the kind, or any where there is no such kind. */
static void put_word(struct random *random, const struct grammar *grammar, uint8_t kind, struct text *line) {
    size_t index = kind - LETTERS;
    const char *spelling = index < grammar->spelling_count ? grammar->spellings[index] : "NAME";
    struct text word = {0};
    if (strcmp(spelling, "NAME") == 0) {
        put_run(random, &word, "abxyzAZ_", "aeiouAZ_059");
    } else if (strcmp(spelling, "NUM") == 0) {
        put_run(random, &word, "0123456789", "0123456789");
    } else {
        text_put(&word, spelling + 1, strlen(spelling) - 2);
    }
    bool glued = line->len > 0 && in_run(line->bytes[line->len - 1]) && in_run(word.bytes[0]);
    uint32_t blanks = chance(random, 80) ? 1 : below(random, 4);
    text_repeat(line, ' ', glued && blanks == 0 ? 1 : blanks);
    text_put(line, word.bytes, word.len);
    text_free(&word);
}

static void put_kinds(const struct derivation *derivation, struct text *line) {
    for (size_t i = 0; i < derivation->count; i++) {
        put_word(derivation->random, derivation->grammar, derivation->kinds[i], line);
    }
    if (chance(derivation->random, 50) && line->len > 0 && line->bytes[0] == ' ') {
        text_splice(line, 0, 1, NULL, 0);
    }
}

/* Blanks, or other bytes, up to the limit of a line's bytes or past it. */
static void stretch(struct random *random, struct text *line) {
    static const uint32_t LENGTHS[] = {LINE_BYTES, LINE_BYTES + 1, LINE_BYTES - 1, LINE_BYTES, LINE_BYTES + 1, 20000, 65536, 65600};
    size_t len = LENGTHS[below(random, sizeof LENGTHS / sizeof *LENGTHS)];
    struct text filler = {0};
    text_repeat(&filler, chance(random, 70) ? ' ' : (uint8_t)between(random, 33, 255), len);
    size_t more = line->len < len ? len - line->len : 0;
    size_t at = chance(random, 50) ? line->len : below(random, (uint32_t)line->len + 1);
    text_splice(line, at, 0, filler.bytes, more);
    text_free(&filler);
}

static void damage_line(struct random *random, struct text *line) {
    static const char NEAR[] = " \t\n\r\0!09AZaz_~\177\200\377";
    uint32_t count = between(random, 1, 3);
    for (uint32_t i = 0; i < count; i++) {
        size_t at = below(random, (uint32_t)line->len + 1);
        uint8_t byte = chance(random, 60) ? (uint8_t)NEAR[below(random, sizeof NEAR - 1)] : (uint8_t)below(random, 256);
        size_t cut = at < line->len ? below(random, 2) : 0;
        text_splice(line, at, cut, &byte, below(random, 3) > 0);
    }
}

static size_t some_count(struct random *random) {
    uint32_t sort = below(random, 100);
    return sort < 3 ? between(random, 44, 52) : sort < 12 ? between(random, 13, 30) : between(random, 0, 12);
}

/* The words of a line, before its bytes are damaged. */
static void some_words(struct derivation *derivation, uint32_t sort) {
    struct random *random = derivation->random;
    size_t wanted = some_count(random);
    if (sort < 75) {
        some_sentence(derivation, wanted);
        for (uint32_t i = sort < 50 ? 0 : between(random, 1, 3); i > 0; i--) {
            damage_words(derivation);
        }
        return;
    }
    uint8_t first = some_kind(random, derivation->grammar);
    bool alike = chance(random, 40);
    for (size_t i = 0; i < wanted; i++) {
        derivation->kinds[i] = alike ? first : some_kind(random, derivation->grammar);
    }
    derivation->count = wanted;
}

void put_line(struct random *random, const struct grammar *grammar, struct text *line) {
    struct derivation derivation = {.random = random, .grammar = grammar};
    uint32_t sort = below(random, 100);
    if (sort < 95) {
        some_words(&derivation, sort);
        put_kinds(&derivation, line);
    } else {
        uint32_t count = below(random, 30);
        for (uint32_t i = 0; i < count; i++) {
            text_byte(line, (uint8_t)below(random, 256));
        }
    }
    if (chance(random, 10)) {
        damage_line(random, line);
    }
    if (chance(random, 2)) {
        stretch(random, line);
    }
}
