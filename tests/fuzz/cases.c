#include "cases.h"

void make_case(struct fuzz_case *made, uint64_t seed, uint64_t number) {
    struct random random = random_of_case(seed, number);
    struct grammar grammar, spoiled;
    *made = (struct fuzz_case){0};
    make_grammar(&random, &grammar);
    spoiled = grammar;
    uint32_t sort = below(&random, 100);
    if (sort < 12) {
        spoil_grammar(&random, &spoiled);
    }
    put_book(&random, &spoiled, &made->book);
    for (uint32_t i = sort < 72 ? 0 : between(&random, 1, 3); i > 0; i--) {
        damage_book(&random, &made->book);
    }
    made->line_count = below(&random, LINES_MAX + 1);
    for (size_t i = 0; i < made->line_count; i++) {
        put_line(&random, &grammar, &made->lines[i]);
    }
    made->is_ended = chance(&random, 70);
}

void free_case(struct fuzz_case *made) {
    text_free(&made->book);
    for (size_t i = 0; i < made->line_count; i++) {
        text_free(&made->lines[i]);
    }
}

void put_lines(const struct fuzz_case *made, struct text *file) {
    for (size_t i = 0; i < made->line_count; i++) {
        text_put(file, made->lines[i].bytes, made->lines[i].len);
        if (made->is_ended || i + 1 < made->line_count) {
            text_byte(file, '\n');
        }
    }
}
