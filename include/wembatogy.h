/* The reader as one call. */
#ifndef WEMBATOGY_H
#define WEMBATOGY_H

#include <stddef.h>
#include <stdint.h>

/* The most bytes of the output that a call writes: 65,535 records. */
#define WEMBATOGY_OUTPUT_MAX 196605

/*
 * Reads a line by the text of a book, and writes the listing of its smallest
 * tree into the output: for each node the three bytes production (from 1),
 * start and end (in words, from 0), parents first, children from left to right.
 *
 * Each of book, line and output is a pointer with its length in bytes. The
 * output may overlap neither the book nor the line. Nothing is allocated; the
 * deepest trees that were tried took less than 1 MiB of stack.
 *
 * The answer is N + 256 * M:
 *   N = 0: the listing was written, M is its number of records;
 *   N = 2 to 8, 17 to 20: the book is refused, M is its line from 1, 0 for the
 *     whole text;
 *   N = 9, 11, 21: a word is refused, M is its place in the line in bytes;
 *     for N = 21, M = 16384 says that the line has more bytes than that;
 *   N = 13: the words are no sentence, M is the length of the line;
 *   N = 15: the output is too short, M is 0; as many of the listing's first
 *     records are written as have room.
 * Bytes of the output behind the records stay as they are, and all of them
 * where another refusal than 15 is answered.
 */
uint32_t wembatogy_read(const uint8_t *book, size_t book_len,
                        const uint8_t *line, size_t line_len,
                        uint8_t *output, size_t output_len);

#endif
