/* Grammars of several sorts, most of them accepted, and faults of meaning put into them. */
#include "cases.h"

#include <stdio.h>
#include <string.h>

static const char *const SPELLINGS[] = {
    "NAME", "NUM", "\"or\"", "\"and\"", "\"not\"", "\"(\"", "\")\"", "\"+\"", "\"-\"", "\"*\"", "\"/\"", "\"=\"", "\"<\"", "\">\"", "\"!\"",
    "\",\"", "\";\"", "\"a\"", "\"b\"", "\"A\"", "\"P\"", "\"_\"", "\"0\"", "\"12\"", "\"3a\"", "\"~\"", "\"NAME\"", "\"NUM\"",
    "\"if\"", "\"then\"", "\"abcdefgh\"",
};

static bool is_spelled(const struct grammar *grammar, const char *spelling) {
    for (size_t i = 0; i < grammar->spelling_count; i++) {
        if (strcmp(grammar->spellings[i], spelling) == 0) {
            return true;
        }
    }
    return false;
}

/* Some literal; one that is no word of any line, where it is long, is rare. */
static void random_literal(struct random *random, char *spelling) {
    bool is_run = chance(random, 60);
    size_t len = is_run || chance(random, 20) ? between(random, 1, 8) : 1;
    *spelling++ = '"';
    for (size_t i = 0; i < len; i++) {
        char byte = is_run ? "abcxyzABPQZ_0189"[below(random, 16)] : (char)between(random, 33, 126);
        *spelling++ = byte == '"' ? '#' : byte;
    }
    *spelling++ = '"';
    *spelling = 0;
}

/* Adds a spelling that isn't there yet. */
static void add_spelling(struct random *random, struct grammar *grammar) {
    char spelling[SPELLING_MAX];
    if (grammar->spelling_count == SPELLINGS_MAX) {
        return;
    }
    do {
        if (chance(random, 80)) {
            strcpy(spelling, SPELLINGS[below(random, sizeof SPELLINGS / sizeof *SPELLINGS)]);
        } else {
            random_literal(random, spelling);
        }
    } while (is_spelled(grammar, spelling));
    strcpy(grammar->spellings[grammar->spelling_count++], spelling);
}

static uint8_t some_spelling(struct random *random, const struct grammar *grammar) {
    return (uint8_t)(LETTERS + below(random, (uint32_t)grammar->spelling_count));
}

static uint32_t some_price(struct random *random) {
    uint32_t sort = below(random, 20);
    return sort == 0 ? 65535 : sort == 1 ? below(random, 65536) : below(random, 6);
}

/* Adds the production, if its sides are not there yet. */
static void add(struct random *random, struct grammar *grammar, uint8_t left, const uint8_t *right, size_t size) {
    if (grammar->production_count == PRODUCTIONS_MAX) {
        return;
    }
    for (size_t p = 0; p < grammar->production_count; p++) {
        const struct production *old = &grammar->productions[p];
        if (old->left == left && old->size == size && memcmp(old->right, right, size) == 0) {
            return;
        }
    }
    struct production *added = &grammar->productions[grammar->production_count++];
    *added = (struct production){.left = left, .size = size, .price = some_price(random)};
    memcpy(added->right, right, size);
}

/* Adds a production over the first letters. Where it is to lead to later letters only, a right side without a word has
   no others. */
static void add_random(struct random *random, struct grammar *grammar, uint32_t letters, size_t size, bool leads_on) {
    uint8_t right[RIGHT_MAX];
    uint8_t left = (uint8_t)below(random, letters);
    bool has_word = false;
    for (size_t k = 0; k < size; k++) {
        bool is_letter = chance(random, 50);
        right[k] = is_letter ? (uint8_t)below(random, letters) : some_spelling(random, grammar);
        has_word = has_word || !is_letter;
    }
    for (size_t k = 0; leads_on && !has_word && k < size; k++) {
        bool is_last = left + 1u == letters;
        right[k] = is_last ? some_spelling(random, grammar) : (uint8_t)between(random, left + 1u, letters - 1);
    }
    add(random, grammar, left, right, size);
}

static size_t some_size(struct random *random) {
    static const uint8_t SIZES[] = {0, 0, 1, 1, 1, 1, 2, 2, 2, 2, 3, 3, 3, 3, 4, 5, 6};
    return SIZES[below(random, sizeof SIZES)];
}

static void make_random(struct random *random, struct grammar *grammar) {
    uint32_t letters = chance(random, 15) ? between(random, 5, LETTERS) : between(random, 1, 4);
    uint32_t count = chance(random, 15) ? between(random, 11, 28) : between(random, 1, 10);
    uint32_t spellings = between(random, 1, 6);
    bool leads_on = chance(random, 90);
    while (grammar->spelling_count < spellings) {
        add_spelling(random, grammar);
    }
    for (uint32_t i = 0; i < count; i++) {
        size_t size = some_size(random);
        add_random(random, grammar, letters, size, leads_on);
    }
}

/* Operators of every place around one letter, with another letter for lists. */
static void make_operators(struct random *random, struct grammar *grammar) {
    uint32_t operators = between(random, 1, 6);
    add_spelling(random, grammar);
    add(random, grammar, 0, (uint8_t[]){LETTERS}, 1);
    for (uint32_t i = 0; i < operators; i++) {
        add_spelling(random, grammar);
        uint8_t word = (uint8_t)(LETTERS + grammar->spelling_count - 1), other = some_spelling(random, grammar);
        switch (below(random, 8)) {
        case 0: add(random, grammar, 0, (uint8_t[]){word, 0}, 2); break;
        case 1: add(random, grammar, 0, (uint8_t[]){0, word}, 2); break;
        case 2: add(random, grammar, 0, (uint8_t[]){word, 0, other}, 3); break;
        case 3: add(random, grammar, 0, (uint8_t[]){0, word, 0, other, 0}, 5); break;
        case 4:
            add(random, grammar, 0, (uint8_t[]){other, 1, word}, 3);
            add(random, grammar, 1, (uint8_t[]){0}, 1);
            add(random, grammar, 1, (uint8_t[]){0, word, 1}, 3);
            break;
        default: add(random, grammar, 0, (uint8_t[]){0, word, 0}, 3);
        }
    }
}

/* Letters that each stand for several of the next one, the last of them for nothing: trees with very many nodes. With all
   letters, each for two of the next, there are 65,535, and with some of the last behind the first two, so many more. */
static void make_empties(struct random *random, struct grammar *grammar) {
    bool is_full = chance(random, 30);
    uint32_t letters = is_full ? LETTERS : between(random, 2, 12), width = is_full ? 2 : between(random, 1, 6);
    uint32_t more = is_full ? below(random, 3) : 0;
    uint8_t right[RIGHT_MAX];
    add_spelling(random, grammar);
    for (uint32_t left = 0; left + 1 < letters; left++) {
        memset(right, (int)letters - 1, sizeof right);
        memset(right, (int)left + 1, width);
        add(random, grammar, (uint8_t)left, right, width + (left == 0 ? more : 0));
    }
    add(random, grammar, (uint8_t)(letters - 1), right, 0);
    if (chance(random, 60)) {
        right[0] = LETTERS;
        add(random, grammar, (uint8_t)below(random, letters), right, 1);
    }
}

/* Letters that each stand for the next one, and the last for a word with the first beside it: deep trees. */
static void make_chain(struct random *random, struct grammar *grammar) {
    uint32_t letters = between(random, 2, LETTERS);
    uint8_t last = (uint8_t)(letters - 1);
    add_spelling(random, grammar);
    for (uint8_t left = 0; left < last; left++) {
        add(random, grammar, left, (uint8_t[]){left + 1u}, 1);
    }
    if (chance(random, 50)) {
        add(random, grammar, last, (uint8_t[]){0, LETTERS}, 2);
    } else {
        add(random, grammar, last, (uint8_t[]){LETTERS, 0}, 2);
    }
    add(random, grammar, last, (uint8_t[]){LETTERS}, chance(random, 50));
}

/* Adds the rule, if it is not there yet. */
static void add_rule(struct grammar *grammar, uint64_t upper, char sign, uint64_t lower) {
    for (size_t i = 0; i < grammar->rule_count; i++) {
        const struct rule *old = &grammar->rules[i];
        bool same = old->upper == upper && old->lower == lower, turned = old->upper == lower && old->lower == upper;
        if (old->sign == sign && (same || (turned && sign != '>'))) {
            return;
        }
    }
    if (grammar->rule_count < RULES_MAX) {
        grammar->rules[grammar->rule_count++] = (struct rule){upper, lower, sign};
    }
}

/* Adds a rule that is accepted if it is new: priorities go down, or all go up. */
static void add_random_rule(struct random *random, struct grammar *grammar, bool up) {
    uint32_t count = (uint32_t)grammar->production_count;
    uint32_t one = between(random, 1, count), other = between(random, 1, count);
    uint32_t low = one < other ? one : other, high = one < other ? other : one;
    char sign = ">>>LRN"[below(random, 6)];
    if (sign == '>' && low == high) {
        sign = 'L';
    }
    if (sign == '>') {
        add_rule(grammar, up ? high : low, sign, up ? low : high);
    } else {
        add_rule(grammar, one, sign, other);
    }
}

static void add_rules(struct random *random, struct grammar *grammar) {
    static const uint8_t COUNTS[] = {0, 0, 1, 2, 3, 4, 6, 10, 20};
    uint32_t count = COUNTS[below(random, sizeof COUNTS)];
    bool up = chance(random, 50);
    for (uint32_t i = 0; grammar->production_count > 0 && i < count; i++) {
        add_random_rule(random, grammar, up);
    }
}

/* A limit met, or passed by one. */
static void make_limit(struct random *random, struct grammar *grammar) {
    uint32_t over = below(random, 2), sort = below(random, 5);
    for (uint32_t i = 0; i < (sort == 0 ? 32 + over : 8); i++) {
        add_spelling(random, grammar);
    }
    if (sort == 0) {
        make_random(random, grammar);
        return;
    }
    if (sort == 1) { /* productions */
        while (grammar->production_count < 32 + over) {
            size_t size = between(random, 0, 3);
            add_random(random, grammar, 4, size, true);
        }
        return;
    }
    size_t places = 0;
    while (sort == 2 && places < 128 + over && grammar->production_count < PRODUCTIONS_MAX) { /* places */
        size_t left = 128 + over - places, before = grammar->production_count;
        add_random(random, grammar, 6, left <= 7 ? left - 1 : left == 8 ? 5 : between(random, 2, 6), true);
        places += grammar->production_count > before ? grammar->productions[before].size + 1 : 0;
    }
    while (sort != 2 && grammar->production_count < 12) {
        size_t size = sort == 3 && chance(random, 30) ? 6 + over : between(random, 1, 4); /* right sides */
        add_random(random, grammar, 4, size, true);
    }
    while (sort == 4 && grammar->rule_count < 64 + over) { /* rules */
        add_random_rule(random, grammar, true);
    }
}

void make_grammar(struct random *random, struct grammar *grammar) {
    memset(grammar, 0, sizeof *grammar);
    uint32_t sort = below(random, 100);
    if (sort < 40) {
        make_random(random, grammar);
    } else if (sort < 80) {
        make_operators(random, grammar);
    } else if (sort < 85) {
        make_empties(random, grammar);
    } else if (sort < 90) {
        make_chain(random, grammar);
    } else {
        make_limit(random, grammar);
    }
    if (grammar->rule_count == 0) {
        add_rules(random, grammar);
    }
    if (chance(random, 10)) {
        grammar->start = (uint8_t)below(random, 3);
    }
}

/* A number at the edge of some range. */
static uint64_t some_edge(struct random *random, const struct grammar *grammar) {
    uint64_t edges[] = {0, grammar->production_count + 1, 33, 255, 256, 257, 65535, 65536, 65537, 4294967297, UINT64_MAX};
    return edges[below(random, sizeof edges / sizeof *edges)];
}

static void spoil_rules(struct random *random, struct grammar *grammar, uint32_t sort) {
    if (grammar->rule_count == 0 || grammar->rule_count == RULES_MAX) {
        return;
    }
    struct rule copied = grammar->rules[below(random, (uint32_t)grammar->rule_count)];
    if (sort == 0) {
        copied.upper = some_edge(random, grammar);
    } else if (sort == 1) {
        copied.lower = some_edge(random, grammar);
    } else if (sort == 2) {
        copied = (struct rule){copied.lower, copied.upper, copied.sign};
    }
    size_t at = below(random, (uint32_t)grammar->rule_count + 1);
    memmove(grammar->rules + at + 1, grammar->rules + at, (grammar->rule_count - at) * sizeof copied);
    grammar->rules[at] = copied;
    grammar->rule_count++;
}

static void spoil_productions(struct random *random, struct grammar *grammar, uint32_t sort) {
    if (grammar->production_count == 0 || grammar->production_count == PRODUCTIONS_MAX) {
        return;
    }
    struct production copied = grammar->productions[below(random, (uint32_t)grammar->production_count)];
    if (sort == 4) { /* a word less, so that the rest may lead further */
        copied.size -= copied.size > 0;
    } else if (sort == 5) {
        copied.size = between(random, 5, RIGHT_MAX);
    } else if (sort == 6 && copied.size > 0) { /* a spelling that isn't declared, or is for another */
        size_t k = below(random, (uint32_t)copied.size);
        copied.right[k] = (uint8_t)(LETTERS + below(random, SPELLINGS_MAX));
    } else if (sort == 7) {
        copied.price = (uint32_t)some_edge(random, grammar);
    } else if (sort == 8) {
        copied = (struct production){.left = copied.left, .size = 1, .right = {(uint8_t)below(random, 4)}};
    }
    size_t at = below(random, (uint32_t)grammar->production_count + 1);
    memmove(grammar->productions + at + 1, grammar->productions + at, (grammar->production_count - at) * sizeof copied);
    grammar->productions[at] = copied;
    grammar->production_count++;
}

/* Puts a fault of meaning in, or what nearly is one. */
void spoil_grammar(struct random *random, struct grammar *grammar) {
    uint32_t sort = below(random, 11);
    if (sort < 4) {
        spoil_rules(random, grammar, sort);
    } else if (sort < 10) {
        spoil_productions(random, grammar, sort);
    } else if (grammar->spelling_count > 0 && grammar->spelling_count < SPELLINGS_MAX) {
        strcpy(grammar->spellings[grammar->spelling_count], grammar->spellings[below(random, (uint32_t)grammar->spelling_count)]);
        grammar->spelling_count++;
    }
}
