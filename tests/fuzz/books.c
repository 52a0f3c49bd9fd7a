/* Books: grammars written as text, and texts damaged. */
#include "cases.h"

#include <string.h>

#define BOOK_BYTES 16384

static void put_spelling_line(const struct grammar *grammar, size_t spelling, struct text *book) {
    text_string(book, "word ");
    text_string(book, grammar->spellings[spelling]);
    text_byte(book, '\n');
}

static void put_symbol(const struct grammar *grammar, uint8_t symbol, struct text *book) {
    if (symbol < LETTERS) {
        text_byte(book, 'A' + symbol);
    } else if ((size_t)(symbol - LETTERS) < grammar->spelling_count) {
        text_string(book, grammar->spellings[symbol - LETTERS]);
    } else {
        text_string(book, "\"nowhere\"");
    }
}

static void put_production_line(const struct grammar *grammar, const struct production *production, struct text *book) {
    put_symbol(grammar, production->left, book);
    text_string(book, " = ");
    for (size_t k = 0; k < production->size; k++) {
        put_symbol(grammar, production->right[k], book);
        text_byte(book, ' ');
    }
    text_string(book, "; ");
    text_number(book, production->price);
    text_byte(book, '\n');
}

static void put_rule_line(const struct rule *rule, struct text *book) {
    text_number(book, rule->upper);
    text_byte(book, ' ');
    text_byte(book, (uint8_t)rule->sign);
    text_byte(book, ' ');
    text_number(book, rule->lower);
    text_byte(book, '\n');
}

/* The lines of spellings, productions and rules, each sort in its order, rules behind the productions that they name. */
static void put_mixed(struct random *random, const struct grammar *grammar, struct text *book) {
    size_t rule = 0;
    for (size_t i = 0; i < grammar->production_count; i++) {
        put_production_line(grammar, &grammar->productions[i], book);
        while (rule < grammar->rule_count && grammar->rules[rule].upper <= i + 1 && grammar->rules[rule].lower <= i + 1 && chance(random, 80)) {
            put_rule_line(&grammar->rules[rule++], book);
        }
    }
    while (rule < grammar->rule_count) {
        put_rule_line(&grammar->rules[rule++], book);
    }
}

void put_book(struct random *random, const struct grammar *grammar, struct text *book) {
    text_string(book, "RBK 1\nstart ");
    text_byte(book, 'A' + grammar->start);
    text_byte(book, '\n');
    for (size_t i = 0; i < grammar->spelling_count; i++) {
        put_spelling_line(grammar, i, book);
    }
    put_mixed(random, grammar, book);
}

/* A place in the text, from 0 to its length. */
static size_t some_place(struct random *random, const struct text *text) {
    return below(random, (uint32_t)text->len + 1);
}

/* The first byte of some line, or the end. */
static size_t some_line(struct random *random, const struct text *text) {
    size_t at = some_place(random, text);
    while (at > 0 && text->bytes[at - 1] != '\n') {
        at--;
    }
    return at;
}

static size_t line_len(const struct text *text, size_t at) {
    size_t end = at;
    while (end < text->len && text->bytes[end] != '\n') {
        end++;
    }
    return end - at + (end < text->len);
}

/* Puts a copy of some bytes of the text somewhere else in it, over so many bytes. */
static void copy_within(struct text *text, size_t from, size_t len, size_t to, size_t cut) {
    struct text copy = {0};
    text_put(&copy, text->bytes + from, len);
    text_splice(text, to, cut, copy.bytes, copy.len);
    text_free(&copy);
}

static void damage_bytes(struct random *random, struct text *book, uint32_t sort) {
    static const char NEAR[] = " \n\"=;>LRN019APQ\t\r\0~\177\200\377";
    size_t at = some_place(random, book), rest = book->len - at;
    uint8_t byte = chance(random, 70) ? (uint8_t)NEAR[below(random, sizeof NEAR - 1)] : (uint8_t)below(random, 256);
    switch (sort) {
    case 0: text_splice(book, at, rest > 0, &byte, 1); break;
    case 1: text_splice(book, at, 0, &byte, 1); break;
    case 2: text_splice(book, at, rest > 0, NULL, 0); break;
    case 3: book->len = at; break;
    default:
        if (rest >= 2) {
            uint8_t swapped[2] = {book->bytes[at + 1], book->bytes[at]};
            text_splice(book, at, 2, swapped, 2);
        }
    }
}

static void damage_lines(struct random *random, struct text *book, uint32_t sort) {
    size_t from = some_line(random, book), len = line_len(book, from), to = some_line(random, book);
    switch (sort) {
    case 5: text_splice(book, from, len, NULL, 0); break;
    case 6: copy_within(book, from, len, to, 0); break;
    case 7: copy_within(book, from, len, to, line_len(book, to)); break;
    default: /* a part of a line in another */
        to = some_place(random, book);
        copy_within(book, from, len / 2, to, 0);
    }
}

/* Digits in the place of some number. */
static void damage_number(struct random *random, struct text *book) {
    static const char *const NUMBERS[] = {
        "0", "00", "01", "1", "5", "65535", "65536", "65537", "99999", "100000", "4294967297", "18446744073709551617", "-1", "+1", "",
    };
    size_t at = some_place(random, book), end;
    while (at > 0 && (at == book->len || book->bytes[at] < '0' || book->bytes[at] > '9')) {
        at--;
    }
    for (end = at; end < book->len && book->bytes[end] >= '0' && book->bytes[end] <= '9';) {
        end++;
    }
    const char *number = NUMBERS[below(random, sizeof NUMBERS / sizeof *NUMBERS)];
    text_splice(book, at, end - at, number, strlen(number));
}

/* Fills the book up to the limit of its bytes, or past it, with bytes of one sort, or cuts it there. */
static void damage_length(struct random *random, struct text *book) {
    static const char FILLERS[] = "\n x0\"A\377";
    static const uint32_t LENGTHS[] = {BOOK_BYTES, BOOK_BYTES + 1, BOOK_BYTES - 1, BOOK_BYTES, BOOK_BYTES + 1, 20000, 65536, 65600};
    size_t len = LENGTHS[below(random, sizeof LENGTHS / sizeof *LENGTHS)];
    uint8_t filler = (uint8_t)FILLERS[below(random, sizeof FILLERS - 1)];
    bool is_ended = chance(random, 70);
    if (chance(random, 30)) { /* the last line, or all, again and again */
        struct text whole = {0};
        text_put(&whole, book->bytes, book->len);
        while (whole.len > 0 && book->len < len) {
            text_put(book, whole.bytes, whole.len);
        }
        text_free(&whole);
    }
    text_repeat(book, filler, book->len < len ? len - book->len : 0);
    book->len = len;
    if (is_ended) {
        book->bytes[len - 1] = '\n';
    }
}

/* Parts of lines in any order. */
static void put_parts(struct random *random, struct text *book) {
    static const char *const PARTS[] = {
        "RBK", "1", "start", "A", "B", "P", "Q", "word", "NAME", "NUM", "\"a\"", "\"or\"", "\"\"", "\"", "\"abcdefghi\"",
        "=", ";", ">", "L", "R", "N", "0", "2", "65535", "65536", "",
    };
    uint32_t count = between(random, 0, 60);
    text_string(book, chance(random, 70) ? "RBK 1\nstart A\n" : "");
    for (uint32_t i = 0; i < count; i++) {
        text_string(book, PARTS[below(random, sizeof PARTS / sizeof *PARTS)]);
        text_byte(book, chance(random, 60) ? ' ' : '\n');
    }
}

/* The front of this book with the end of another. */
static void splice_other(struct random *random, struct text *book) {
    struct grammar grammar;
    struct text other = {0};
    make_grammar(random, &grammar);
    put_book(random, &grammar, &other);
    size_t at = some_line(random, book), from = some_line(random, &other);
    text_splice(book, at, book->len - at, other.bytes + from, other.len - from);
    text_free(&other);
}

void damage_book(struct random *random, struct text *book) {
    uint32_t sort = below(random, 40);
    if (sort < 20) {
        damage_bytes(random, book, sort % 5);
    } else if (sort < 28) {
        damage_lines(random, book, 5 + sort % 4);
    } else if (sort < 32) {
        damage_number(random, book);
    } else if (sort < 35) {
        damage_length(random, book);
    } else if (sort < 37) {
        splice_other(random, book);
    } else if (sort < 39) {
        book->len = 0;
        put_parts(random, book);
    } else {
        book->len = 0;
        uint32_t count = below(random, 200);
        for (uint32_t i = 0; i < count; i++) {
            text_byte(book, (uint8_t)below(random, 256));
        }
    }
}
