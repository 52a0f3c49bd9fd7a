/* Bytes in memory that grows. */
#ifndef FUZZ_TEXT_H
#define FUZZ_TEXT_H

#include <stddef.h>
#include <stdint.h>

struct text {
    uint8_t *bytes;
    size_t len;
    size_t room;
};

/* Puts the bytes in the place of `cut` bytes from `at` on. */
void text_splice(struct text *text, size_t at, size_t cut, const void *bytes, size_t len);

void text_put(struct text *text, const void *bytes, size_t len);
void text_byte(struct text *text, uint8_t byte);
void text_string(struct text *text, const char *string);
void text_number(struct text *text, uint64_t number);
void text_repeat(struct text *text, uint8_t byte, size_t count);
void text_free(struct text *text);

#endif
