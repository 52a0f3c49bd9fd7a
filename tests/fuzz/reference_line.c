/* The reference for lines: words, their kinds, and trees by sets of ends. */
#include "reference.h"

#include <string.h>

#define LINE_BYTES 16384
#define NO_KIND 0

enum { LINE_FULL = 9, NOTHING_BEGINS = 11, NO_SENTENCE = 13, UNKNOWN_WORD = 21 };

struct word {
    size_t place;
    size_t len;
    uint8_t kind; /* from 16, or NO_KIND */
};

static bool is_digit(uint8_t byte) {
    return byte >= '0' && byte <= '9';
}

static bool is_name_byte(uint8_t byte) {
    return (byte >= 'a' && byte <= 'z') || (byte >= 'A' && byte <= 'Z') || byte == '_';
}

static uint8_t kind_spelled(const struct grammar *grammar, const char *spelling) {
    for (size_t i = 0; i < grammar->spelling_count; i++) {
        if (strcmp(grammar->spellings[i], spelling) == 0) {
            return (uint8_t)(LETTERS + i);
        }
    }
    return NO_KIND;
}

static uint8_t kind_of(const struct grammar *grammar, const uint8_t *bytes, size_t len) {
    if (len <= 8) {
        char literal[11] = {'"'};
        memcpy(literal + 1, bytes, len);
        literal[len + 1] = '"';
        uint8_t kind = memchr(bytes, 0, len) == NULL ? kind_spelled(grammar, literal) : NO_KIND;
        if (kind != NO_KIND) {
            return kind;
        }
    }
    size_t digits = 0;
    while (digits < len && is_digit(bytes[digits])) {
        digits++;
    }
    if (digits == len) {
        return kind_spelled(grammar, "NUM");
    }
    return is_name_byte(bytes[0]) ? kind_spelled(grammar, "NAME") : NO_KIND;
}

/* The next word from the place on; false where there is none. */
static bool next_word(const struct grammar *grammar, const uint8_t *line, size_t len, size_t place, struct word *word) {
    while (place < len && line[place] == ' ') {
        place++;
    }
    if (place == len) {
        return false;
    }
    size_t end = place;
    while (end < len && (is_digit(line[end]) || is_name_byte(line[end]))) {
        end++;
    }
    end = end == place ? place + 1 : end;
    *word = (struct word){place, end - place, kind_of(grammar, line + place, end - place)};
    return true;
}

/* Which production may not stand at which position of which. */
struct conflicts {
    uint32_t anywhere[PRODUCTIONS_MAX], first[PRODUCTIONS_MAX], last[PRODUCTIONS_MAX];
};

static void add_both(uint32_t *rows, size_t p, size_t q) {
    rows[p] |= 1u << q;
    rows[q] |= 1u << p;
}

static void find_conflicts(const struct grammar *grammar, struct conflicts *conflicts) {
    memset(conflicts, 0, sizeof *conflicts);
    for (size_t i = 0; i < grammar->rule_count; i++) {
        size_t p = grammar->rules[i].upper - 1, q = grammar->rules[i].lower - 1;
        char sign = grammar->rules[i].sign;
        if (sign == '>') {
            conflicts->anywhere[p] |= 1u << q;
        }
        if (sign == 'R' || sign == 'N') {
            add_both(conflicts->first, p, q);
        }
        if (sign == 'L' || sign == 'N') {
            add_both(conflicts->last, p, q);
        }
    }
    uint32_t *rows = conflicts->anywhere;
    for (size_t i = 0; i < 32 * 32; i++) {
        rows[i % 32] |= rows[i % 32] >> (i / 32) & 1 ? rows[i / 32] : 0;
    }
}

/* Over the words of a line: for each production, position and start the set of ends that the symbols from there on can
   have, and whether the words to the last one begin what they stand over. Row `size` is that behind the last symbol. */
struct trees {
    const struct grammar *grammar;
    struct conflicts conflicts;
    uint32_t children[PRODUCTIONS_MAX][RIGHT_MAX]; /* the productions that may stand there */
    uint8_t kinds[REFERENCE_WORDS];
    size_t count;
    bool can_end[PRODUCTIONS_MAX][RIGHT_MAX + 1]; /* some words or other */
    uint64_t ends[PRODUCTIONS_MAX][RIGHT_MAX + 1][REFERENCE_WORDS + 1];
    bool begins[PRODUCTIONS_MAX][RIGHT_MAX + 1][REFERENCE_WORDS + 1];
};

static void find_children(struct trees *trees) {
    const struct grammar *grammar = trees->grammar;
    for (size_t p = 0; p < grammar->production_count; p++) {
        size_t size = grammar->productions[p].size;
        for (size_t k = 0; k < size; k++) {
            uint32_t forbidden = trees->conflicts.anywhere[p];
            forbidden |= size >= 2 && k == 0 ? trees->conflicts.first[p] : 0;
            forbidden |= size >= 2 && k == size - 1 ? trees->conflicts.last[p] : 0;
            trees->children[p][k] = 0;
            for (size_t q = 0; q < grammar->production_count; q++) {
                if (grammar->productions[q].left == grammar->productions[p].right[k]) {
                    trees->children[p][k] |= ~forbidden & 1u << q;
                }
            }
        }
    }
}

/* Takes in what the position can have over some words; whether that is new. */
static bool find_can_end(struct trees *trees, size_t p, size_t k) {
    const struct production *production = &trees->grammar->productions[p];
    bool can = k == production->size || production->right[k] >= LETTERS;
    for (size_t q = 0; !can && q < trees->grammar->production_count; q++) {
        can = (trees->children[p][k] >> q & 1) && trees->can_end[q][0];
    }
    can = can && (k == production->size || trees->can_end[p][k + 1]);
    bool is_new = can && !trees->can_end[p][k];
    trees->can_end[p][k] |= can;
    return is_new;
}

/* The ends of what may stand at the position, from the start on. */
static uint64_t child_ends(const struct trees *trees, size_t p, size_t k, size_t from) {
    uint64_t ends = 0;
    for (size_t q = 0; q < trees->grammar->production_count; q++) {
        ends |= trees->children[p][k] >> q & 1 ? trees->ends[q][0][from] : 0;
    }
    return ends;
}

/* Takes in the ends of the position and what is behind it, from the start on; whether some are new. */
static bool find_ends(struct trees *trees, size_t p, size_t k, size_t from) {
    const struct production *production = &trees->grammar->productions[p];
    uint64_t ends = 0;
    if (k == production->size) {
        ends = 1ull << from;
    } else if (production->right[k] >= LETTERS) {
        ends = from < trees->count && trees->kinds[from] == production->right[k] ? trees->ends[p][k + 1][from + 1] : 0;
    } else {
        uint64_t middles = child_ends(trees, p, k, from);
        for (size_t middle = from; middle <= trees->count; middle++) {
            ends |= middles >> middle & 1 ? trees->ends[p][k + 1][middle] : 0;
        }
    }
    bool is_new = (ends & ~trees->ends[p][k][from]) != 0;
    trees->ends[p][k][from] |= ends;
    return is_new;
}

/* Takes in whether the words from the start on begin what the position and what is behind it stand over; whether that is
   new. */
static bool find_begins(struct trees *trees, size_t p, size_t k, size_t from) {
    const struct production *production = &trees->grammar->productions[p];
    bool found = from == trees->count && trees->can_end[p][k];
    if (!found && k < production->size && production->right[k] >= LETTERS) {
        found = from < trees->count && trees->kinds[from] == production->right[k] && trees->begins[p][k + 1][from + 1];
    } else if (!found && k < production->size) {
        uint64_t middles = child_ends(trees, p, k, from);
        for (size_t middle = from; middle <= trees->count; middle++) {
            found = found || ((middles >> middle & 1) && trees->begins[p][k + 1][middle]);
        }
        for (size_t q = 0; q < trees->grammar->production_count; q++) {
            found = found || ((trees->children[p][k] >> q & 1) && trees->begins[q][0][from] && trees->can_end[p][k + 1]);
        }
    }
    bool is_new = found && !trees->begins[p][k][from];
    trees->begins[p][k][from] |= found;
    return is_new;
}

/* One round over all positions from the start on, from the right; whether it found anything new. */
static bool find_from(struct trees *trees, size_t from, bool (*find)(struct trees *, size_t, size_t, size_t)) {
    bool is_new = false;
    for (size_t p = 0; p < trees->grammar->production_count; p++) {
        for (size_t k = trees->grammar->productions[p].size + 1; k-- > 0;) {
            bool found = find(trees, p, k, from);
            is_new = is_new || found;
        }
    }
    return is_new;
}

static bool find_can_end_from(struct trees *trees, size_t p, size_t k, size_t from) {
    (void)from;
    return find_can_end(trees, p, k);
}

/* What is known of every grammar before its words. */
static void open_trees(struct trees *trees, const struct grammar *grammar) {
    trees->grammar = grammar;
    trees->count = 0;
    find_conflicts(grammar, &trees->conflicts);
    find_children(trees);
    memset(trees->can_end, 0, sizeof trees->can_end);
    while (find_from(trees, 0, find_can_end_from)) {
    }
}

/* All ends over the words that stand. */
static void find_all_ends(struct trees *trees) {
    memset(trees->ends, 0, sizeof trees->ends);
    for (size_t from = trees->count + 1; from-- > 0;) {
        while (find_from(trees, from, find_ends)) {
        }
    }
}

/* Whether the words that stand begin those of a tree, by all ends over them. */
static bool some_begins(struct trees *trees) {
    memset(trees->begins, 0, sizeof trees->begins);
    for (size_t from = trees->count + 1; from-- > 0;) {
        while (find_from(trees, from, find_begins)) {
        }
    }
    for (size_t p = 0; p < trees->grammar->production_count; p++) {
        if (trees->grammar->productions[p].left == trees->grammar->start && trees->begins[p][0][0]) {
            return true;
        }
    }
    return false;
}

/* Lists the smallest tree of the production over the span: at each nonterminal the smallest production, and then the
   smallest end, with which the rest still comes to the end. */
static void list(const struct trees *trees, size_t p, size_t from, size_t to, struct reading *reading) {
    const struct production *production = &trees->grammar->productions[p];
    if (reading->record_count == REFERENCE_RECORDS) {
        return;
    }
    uint8_t record[3] = {(uint8_t)(p + 1), (uint8_t)from, (uint8_t)to};
    memcpy(reading->records + 3 * reading->record_count++, record, 3);
    reading->price += production->price;
    for (size_t k = 0; k < production->size; k++) {
        if (production->right[k] >= LETTERS) {
            from++;
            continue;
        }
        bool found = false;
        for (size_t q = 0; !found && q < trees->grammar->production_count; q++) {
            for (size_t end = from; !found && (trees->children[p][k] >> q & 1) && end <= to; end++) {
                if ((trees->ends[q][0][from] >> end & 1) && (trees->ends[p][k + 1][end] >> to & 1)) {
                    list(trees, q, from, end, reading);
                    from = end;
                    found = true;
                }
            }
        }
    }
}

/* Lists the smallest tree of the words; whether there is one. */
static bool list_smallest(const struct trees *trees, struct reading *reading) {
    for (size_t p = 0; p < trees->grammar->production_count; p++) {
        if (trees->grammar->productions[p].left == trees->grammar->start && (trees->ends[p][0][0] >> trees->count & 1)) {
            list(trees, p, 0, trees->count, reading);
            return true;
        }
    }
    return false;
}

/* Cuts the line into the words that can stand, and tells why the next one can't: by its kind, or by the number of words. */
static struct verdict cut(struct trees *trees, const uint8_t *line, size_t len, size_t *places) {
    struct word word;
    for (size_t from = 0; next_word(trees->grammar, line, len, from, &word); from = word.place + word.len) {
        if (word.kind == NO_KIND) {
            return (struct verdict){UNKNOWN_WORD, word.place};
        }
        if (trees->count == REFERENCE_WORDS) {
            return (struct verdict){LINE_FULL, word.place};
        }
        places[trees->count] = word.place;
        trees->kinds[trees->count++] = word.kind;
    }
    return (struct verdict){0, 0};
}

/* The first words that begin no tree end at the smallest count that doesn't; where all words do, it is one more than
   there are. (Words that begin a tree begin one with fewer words too, so the count can be halved.) */
static size_t first_refused(struct trees *trees) {
    size_t all = trees->count, good = 0, bad = all + 1;
    while (good + 1 < bad) {
        trees->count = good == 0 && bad == all + 1 ? all : (good + bad) / 2;
        find_all_ends(trees);
        if (some_begins(trees)) {
            good = trees->count;
        } else {
            bad = trees->count;
        }
    }
    trees->count = all;
    return bad;
}

void reference_line(const struct grammar *grammar, const uint8_t *line, size_t len, struct reading *reading) {
    static struct trees trees;
    size_t places[REFERENCE_WORDS];
    reading->word_count = 0;
    reading->record_count = 0;
    reading->price = 0;
    if (len > LINE_BYTES) {
        reading->verdict = (struct verdict){UNKNOWN_WORD, LINE_BYTES};
        return;
    }
    open_trees(&trees, grammar);
    struct verdict end = cut(&trees, line, len, places);
    size_t refused = first_refused(&trees);
    if (refused <= trees.count) {
        reading->verdict = (struct verdict){NOTHING_BEGINS, places[refused - 1]};
        return;
    }
    reading->word_count = trees.count;
    if (end.number != 0) {
        reading->verdict = end;
        return;
    }
    find_all_ends(&trees);
    bool sentence = list_smallest(&trees, reading);
    reading->verdict = sentence ? (struct verdict){0, 0} : (struct verdict){NO_SENTENCE, len};
}
