/* Reads lines by the book that the first argument names, and compares each answer and every byte of the output. */
#include "wembatogy.h"

#include <stdio.h>
#include <string.h>

#define BOOK_MAX 16384
#define OUTPUT_MAX 64
#define UNTOUCHED 0xEE

static int failed = 0;

/* Calls the reader with an output of `room` bytes, and compares with the wanted answer and the wanted first bytes. */
static void expect(const char *name, const char *book, size_t book_len,
                   const char *line, size_t line_len, size_t room,
                   uint32_t wanted, const uint8_t *bytes, size_t count) {
    uint8_t output[OUTPUT_MAX];
    memset(output, UNTOUCHED, sizeof output);
    uint32_t got = wembatogy_read((const uint8_t *)book, book_len, (const uint8_t *)line, line_len, output, room);
    if (got != wanted) {
        printf("%s: answer %u + 256 * %u, wanted %u + 256 * %u\n", name, got % 256, got / 256, wanted % 256, wanted / 256);
        failed = 1;
    }
    for (size_t i = 0; i < sizeof output; i++) {
        uint8_t byte = i < count ? bytes[i] : UNTOUCHED;
        if (output[i] != byte) {
            printf("%s: output byte %zu is %u, wanted %u\n", name, i, output[i], byte);
            failed = 1;
        }
    }
}

static uint32_t answer(uint32_t number, uint32_t more) {
    return number + 256 * more;
}

/* The same for a line that ends at its null byte, with the whole output as room. */
static void expect_line(const char *name, const char *book, size_t book_len, const char *line,
                        uint32_t wanted, const uint8_t *bytes, size_t count) {
    expect(name, book, book_len, line, strlen(line), OUTPUT_MAX, wanted, bytes, count);
}

/* The same for a book that is refused. */
static void expect_book(const char *name, const char *book, uint32_t number, uint32_t line) {
    expect_line(name, book, strlen(book), "lamp", answer(number, line), NULL, 0);
}

int main(int argc, char **argv) {
    if (argc != 2) {
        fprintf(stderr, "usage: %s BOOK\n", argv[0]);
        return 2;
    }
    static char book[BOOK_MAX];
    FILE *file = fopen(argv[1], "rb");
    if (file == NULL) {
        fprintf(stderr, "%s can't be read\n", argv[1]);
        return 2;
    }
    size_t book_len = fread(book, 1, sizeof book, file);
    fclose(file);

    const char *conditions = "lamp and not wet or key";
    const uint8_t tree[] = {1, 0, 6, 2, 0, 4, 5, 0, 1, 3, 2, 4, 5, 3, 4, 5, 5, 6};
    const uint8_t brackets[] = {2, 0, 8, 4, 0, 5, 1, 1, 4, 5, 1, 2, 5, 3, 4, 3, 6, 8, 5, 7, 8};
    expect_line("a sentence", book, book_len, conditions, answer(0, 6), tree, sizeof tree);
    expect_line("a sentence with brackets", book, book_len, "(lamp or wet)and  not key", answer(0, 7), brackets, sizeof brackets);

    expect_book("a book of another version", "RBK 2\nstart C\n", 17, 1);
    expect_book("a line of no form", "RBK 1\nstart C\nC\n", 18, 3);
    expect_book("a spelling that is not declared", "RBK 1\nstart C\nC = NAME ; 0\n", 20, 3);
    expect_book("a nonterminal that leads to itself", "RBK 1\nstart A\nA = B A ; 0\nB = ; 0\n", 5, 4);

    expect_line("a word that can't follow", book, book_len, "lamp wet", answer(11, 5), NULL, 0);
    expect_line("a word of no kind", book, book_len, "lamp or 42", answer(21, 8), NULL, 0);
    expect_line("a byte of no word", book, book_len, "lamp\tor key", answer(21, 4), NULL, 0);
    static char many[3 * 49];
    for (size_t i = 0; i < 49; i++) {
        memcpy(many + 3 * i, i % 2 == 0 ? "a  " : "or ", 3);
    }
    expect("a word too many", book, book_len, many, sizeof many, OUTPUT_MAX, answer(9, 3 * 48), NULL, 0);
    static char blanks[16385];
    memset(blanks, ' ', sizeof blanks);
    expect("a line too long", book, book_len, blanks, 16385, OUTPUT_MAX, answer(21, 16384), NULL, 0);
    expect("the longest line", book, book_len, blanks, 16384, OUTPUT_MAX, answer(13, 16384), NULL, 0);

    expect_line("words that are no sentence", book, book_len, "( lamp", answer(13, 6), NULL, 0);

    expect("room for the last byte", book, book_len, conditions, strlen(conditions), 18, answer(0, 6), tree, 18);
    expect("a byte too short", book, book_len, conditions, strlen(conditions), 17, answer(15, 0), tree, 15);
    expect("room for two records", book, book_len, conditions, strlen(conditions), 7, answer(15, 0), tree, 6);
    expect("no room", book, book_len, conditions, strlen(conditions), 0, answer(15, 0), NULL, 0);

    if (failed == 0) {
        printf("ok\n");
    }
    return failed;
}
