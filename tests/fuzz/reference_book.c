/* The reference for books: lines, their fields, and what each does. */
#include "reference.h"

#include <string.h>

#define BOOK_BYTES 16384

enum { LONG_RIGHT = 2, FULL, REPEATED, LEADS_TO_ITSELF, NO_PRODUCTION, RULES_FULL, ABOVE_ITSELF, MARK = 17, FORM, DECLARED, UNDECLARED };

struct field {
    const char *bytes;
    size_t len;
};

static bool is(struct field field, const char *string) {
    return field.len == strlen(string) && memcmp(field.bytes, string, field.len) == 0;
}

/* The fields of a line, which single blanks part. */
static size_t fields_of(const char *line, size_t len, struct field *fields) {
    size_t count = 0, from = 0;
    for (size_t i = 0; i <= len; i++) {
        if (i == len || line[i] == ' ') {
            fields[count++] = (struct field){line + from, i - from};
            from = i + 1;
        }
    }
    return count;
}

static bool letter_of(struct field field, uint8_t *letter) {
    if (field.len != 1 || field.bytes[0] < 'A' || field.bytes[0] > 'P') {
        return false;
    }
    *letter = (uint8_t)(field.bytes[0] - 'A');
    return true;
}

static bool number_of(struct field field, uint64_t *number) {
    if (field.len == 0 || field.len > 5 || (field.len > 1 && field.bytes[0] == '0')) {
        return false;
    }
    *number = 0;
    for (size_t i = 0; i < field.len; i++) {
        if (field.bytes[i] < '0' || field.bytes[i] > '9') {
            return false;
        }
        *number = 10 * *number + (uint64_t)(field.bytes[i] - '0');
    }
    return *number <= 65535;
}

static bool is_spelling(struct field field) {
    if (is(field, "NAME") || is(field, "NUM")) {
        return true;
    }
    if (field.len < 3 || field.len > 10 || field.bytes[0] != '"' || field.bytes[field.len - 1] != '"') {
        return false;
    }
    for (size_t i = 1; i + 1 < field.len; i++) {
        if (field.bytes[i] < 33 || field.bytes[i] > 126 || field.bytes[i] == '"') {
            return false;
        }
    }
    return true;
}

/* The number of a declared spelling, or -1. */
static int declared(const struct grammar *grammar, struct field field) {
    for (size_t i = 0; i < grammar->spelling_count; i++) {
        if (is(field, grammar->spellings[i])) {
            return (int)i;
        }
    }
    return -1;
}

static uint32_t read_word(struct grammar *grammar, const struct field *fields, size_t count) {
    if (count != 2 || !is_spelling(fields[1])) {
        return FORM;
    }
    if (declared(grammar, fields[1]) >= 0 || grammar->spelling_count == 32) {
        return DECLARED;
    }
    char *spelling = grammar->spellings[grammar->spelling_count++];
    memcpy(spelling, fields[1].bytes, fields[1].len);
    spelling[fields[1].len] = 0;
    return 0;
}

/* Which letters derive the empty list. */
static uint32_t nullable(const struct grammar *grammar) {
    uint32_t found = 0;
    for (int round = 0; round < LETTERS; round++) {
        for (size_t p = 0; p < grammar->production_count; p++) {
            const struct production *production = &grammar->productions[p];
            bool all = true;
            for (size_t k = 0; k < production->size; k++) {
                all = all && production->right[k] < LETTERS && (found >> production->right[k] & 1);
            }
            found |= (uint32_t)all << production->left;
        }
    }
    return found;
}

/* Adds the letters that the production leads to, where the rest of its right side derives the empty list. */
static void add_leads(const struct production *production, uint32_t empty, uint64_t *leads) {
    for (size_t k = 0; k < production->size; k++) {
        bool alone = production->right[k] < LETTERS;
        for (size_t other = 0; other < production->size; other++) {
            uint8_t symbol = production->right[other];
            alone = alone && (other == k || (symbol < LETTERS && (empty >> symbol & 1)));
        }
        if (alone) {
            leads[production->left] |= 1ull << production->right[k];
        }
    }
}

/* Whether some number is led back to itself by the rows. */
static bool has_loop(uint64_t *rows, size_t count) {
    for (size_t middle = 0; middle < count; middle++) {
        for (size_t from = 0; from < count; from++) {
            if (rows[from] >> middle & 1) {
                rows[from] |= rows[middle];
            }
        }
    }
    for (size_t i = 0; i < count; i++) {
        if (rows[i] >> i & 1) {
            return true;
        }
    }
    return false;
}

static bool leads_to_itself(const struct grammar *grammar) {
    uint64_t leads[LETTERS] = {0};
    uint32_t empty = nullable(grammar);
    for (size_t p = 0; p < grammar->production_count; p++) {
        add_leads(&grammar->productions[p], empty, leads);
    }
    return has_loop(leads, LETTERS);
}

static bool above_itself(const struct grammar *grammar) {
    uint64_t above[PRODUCTIONS_MAX] = {0};
    for (size_t i = 0; i < grammar->rule_count; i++) {
        if (grammar->rules[i].sign == '>') {
            above[grammar->rules[i].upper - 1] |= 1ull << (grammar->rules[i].lower - 1);
        }
    }
    return has_loop(above, grammar->production_count);
}

size_t reference_places(const struct grammar *grammar) {
    size_t places = 0;
    for (size_t p = 0; p < grammar->production_count; p++) {
        places += grammar->productions[p].size + 1;
    }
    return places;
}

static uint32_t add_production(struct grammar *grammar, struct production added, size_t size) {
    if (size > 6) {
        return LONG_RIGHT;
    }
    if (grammar->production_count == 32 || reference_places(grammar) + size + 1 > 128) {
        return FULL;
    }
    for (size_t p = 0; p < grammar->production_count; p++) {
        const struct production *old = &grammar->productions[p];
        if (old->left == added.left && old->size == size && memcmp(old->right, added.right, size) == 0) {
            return REPEATED;
        }
    }
    grammar->productions[grammar->production_count++] = added;
    if (leads_to_itself(grammar)) {
        grammar->production_count--;
        return LEADS_TO_ITSELF;
    }
    return 0;
}

static uint32_t read_production(struct grammar *grammar, const struct field *fields, size_t count) {
    struct production added = {0};
    uint64_t price;
    if (count < 4 || !letter_of(fields[0], &added.left) || !is(fields[1], "=")) {
        return FORM;
    }
    if (!is(fields[count - 2], ";") || !number_of(fields[count - 1], &price)) {
        return FORM;
    }
    uint32_t refusal = 0;
    for (size_t i = 2; i < count - 2; i++) {
        uint8_t symbol;
        if (!letter_of(fields[i], &symbol)) {
            if (!is_spelling(fields[i])) {
                return FORM;
            }
            int spelling = declared(grammar, fields[i]);
            refusal = spelling < 0 ? UNDECLARED : refusal;
            symbol = (uint8_t)(LETTERS + spelling);
        }
        if (i - 2 < RIGHT_MAX) {
            added.right[i - 2] = symbol;
        }
    }
    added.size = count - 4 < RIGHT_MAX ? count - 4 : RIGHT_MAX;
    added.price = (uint32_t)price;
    return refusal != 0 ? refusal : add_production(grammar, added, count - 4);
}

static bool is_repeated(const struct grammar *grammar, struct rule added) {
    for (size_t i = 0; i < grammar->rule_count; i++) {
        struct rule old = grammar->rules[i];
        bool same = old.upper == added.upper && old.lower == added.lower;
        bool turned = old.upper == added.lower && old.lower == added.upper;
        if (old.sign == added.sign && (same || (turned && added.sign != '>'))) {
            return true;
        }
    }
    return false;
}

static uint32_t add_rule(struct grammar *grammar, struct rule added) {
    if (is_repeated(grammar, added)) {
        return REPEATED;
    }
    size_t count = grammar->production_count;
    if (added.upper == 0 || added.upper > count || added.lower == 0 || added.lower > count) {
        return NO_PRODUCTION;
    }
    if (grammar->rule_count == 64) {
        return RULES_FULL;
    }
    grammar->rules[grammar->rule_count++] = added;
    if (above_itself(grammar)) {
        grammar->rule_count--;
        return ABOVE_ITSELF;
    }
    return 0;
}

static uint32_t read_rule(struct grammar *grammar, const struct field *fields, size_t count) {
    struct rule added;
    if (count != 3 || !number_of(fields[0], &added.upper) || !number_of(fields[2], &added.lower) || fields[1].len != 1) {
        return FORM;
    }
    added.sign = fields[1].bytes[0];
    if (strchr(">LRN", added.sign) == NULL || added.sign == 0) {
        return FORM;
    }
    return add_rule(grammar, added);
}

static uint32_t read_line(struct grammar *grammar, const char *line, size_t len, size_t number) {
    static struct field fields[BOOK_BYTES + 1];
    size_t count = fields_of(line, len, fields);
    if (number == 1) {
        return count == 2 && is(fields[0], "RBK") && is(fields[1], "1") ? 0 : MARK;
    }
    if (number == 2) {
        return count == 2 && is(fields[0], "start") && letter_of(fields[1], &grammar->start) ? 0 : FORM;
    }
    if (is(fields[0], "word")) {
        return read_word(grammar, fields, count);
    }
    uint8_t letter;
    return letter_of(fields[0], &letter) ? read_production(grammar, fields, count) : read_rule(grammar, fields, count);
}

struct verdict reference_book(const struct text *book, struct grammar *grammar) {
    memset(grammar, 0, sizeof *grammar);
    if (book->len > BOOK_BYTES) {
        return (struct verdict){FORM, 0};
    }
    const char *rest = (const char *)book->bytes;
    size_t left = book->len;
    for (size_t number = 1; left > 0 || number <= 2; number++) {
        const char *end = left == 0 ? NULL : memchr(rest, '\n', left);
        size_t len = end == NULL ? 0 : (size_t)(end - rest);
        uint32_t refusal = number == 1 ? MARK : FORM;
        if (end != NULL) {
            refusal = read_line(grammar, rest, len, number);
        }
        if (refusal != 0) {
            return (struct verdict){refusal, number};
        }
        rest = end + 1;
        left -= len + 1;
    }
    return (struct verdict){0, 0};
}
