#include "text.h"

#include <inttypes.h>
#include <stdio.h>
#include <stdlib.h>
#include <string.h>

static void make_room(struct text *text, size_t room) {
    if (room <= text->room) {
        return;
    }
    text->room = 2 * room;
    text->bytes = realloc(text->bytes, text->room);
    if (text->bytes == NULL) {
        fputs("no memory\n", stderr);
        exit(2);
    }
}

void text_splice(struct text *text, size_t at, size_t cut, const void *bytes, size_t len) {
    make_room(text, text->len - cut + len + 1);
    memmove(text->bytes + at + len, text->bytes + at + cut, text->len - at - cut);
    if (len > 0) {
        memcpy(text->bytes + at, bytes, len);
    }
    text->len = text->len - cut + len;
}

void text_put(struct text *text, const void *bytes, size_t len) {
    text_splice(text, text->len, 0, bytes, len);
}

void text_byte(struct text *text, uint8_t byte) {
    text_put(text, &byte, 1);
}

void text_string(struct text *text, const char *string) {
    text_put(text, string, strlen(string));
}

void text_number(struct text *text, uint64_t number) {
    char digits[24];
    snprintf(digits, sizeof digits, "%" PRIu64, number);
    text_string(text, digits);
}

void text_repeat(struct text *text, uint8_t byte, size_t count) {
    make_room(text, text->len + count + 1);
    memset(text->bytes + text->len, byte, count);
    text->len += count;
}

void text_free(struct text *text) {
    free(text->bytes);
    *text = (struct text){0};
}
