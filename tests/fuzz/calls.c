#include "calls.h"
#include "failure.h"
#include "wembatogy.h"

#include <stdlib.h>
#include <string.h>
#include <sys/mman.h>

#define PAGE 4096
#define AREA (56 * PAGE)
#define GUARD 64
#define ROOM_MAX (WEMBATOGY_OUTPUT_MAX + 4000)

/* Pages between two that may not be touched. */
struct area {
    uint8_t *bytes;
};

static struct area book_area, line_area, output_area;

static void open_area(struct area *area) {
    uint8_t *pages = mmap(NULL, AREA + 2 * PAGE, PROT_NONE, MAP_PRIVATE | MAP_ANONYMOUS, -1, 0);
    if (pages == MAP_FAILED || mprotect(pages + PAGE, AREA, PROT_READ | PROT_WRITE) != 0) {
        fail("no pages");
    }
    area->bytes = pages + PAGE;
}

void open_memory(void) {
    open_area(&book_area);
    open_area(&line_area);
    open_area(&output_area);
}

/* The input of a call. */
struct input {
    const uint8_t *bytes;
    size_t len;
};

/* What the byte of the output is before a call: none that a record can have. */
static uint8_t untouched(size_t index) {
    return (uint8_t)(128 + index % 127);
}

static void fill(uint8_t *bytes, size_t len) {
    for (size_t i = 0; i < len; i++) {
        bytes[i] = untouched(i);
    }
}

static void expect_untouched(const uint8_t *bytes, size_t len, const char *where) {
    for (size_t i = 0; i < len; i++) {
        if (bytes[i] != untouched(i)) {
            fail("byte %zu of those %s the output was written", i, where);
        }
    }
}

/* A copy of the input in memory of its own that has just its size. */
static uint8_t *in_block(struct input input) {
    uint8_t *block = malloc(input.len);
    if (block == NULL && input.len > 0) {
        fail("no memory");
    }
    if (input.len > 0) {
        memcpy(block, input.bytes, input.len);
    }
    return block;
}

static void expect_same(const uint8_t *now, struct input input, const char *name) {
    if (input.len > 0 && memcmp(now, input.bytes, input.len) != 0) {
        fail("the %s was written", name);
    }
}

/* The call over blocks of just the inputs' sizes, with an output between bytes that have to stay. */
static uint32_t call_in_blocks(struct input book, struct input line, size_t room, uint8_t *output) {
    uint8_t *book_block = in_block(book), *line_block = in_block(line), *block = malloc(GUARD + room + GUARD);
    fill(block, GUARD);
    fill(block + GUARD, room);
    fill(block + GUARD + room, GUARD);
    uint32_t answer = wembatogy_read(book_block, book.len, line_block, line.len, block + GUARD, room);
    expect_same(book_block, book, "book");
    expect_same(line_block, line, "line");
    expect_untouched(block, GUARD, "before");
    expect_untouched(block + GUARD + room, GUARD, "behind");
    memcpy(output, block + GUARD, room);
    free(book_block);
    free(line_block);
    free(block);
    return answer;
}

/* Puts the input at one end of the area, which can be read only then. */
static const uint8_t *lend(struct area *area, struct input input, bool at_end) {
    uint8_t *place = area->bytes + (at_end ? AREA - input.len : 0);
    mprotect(area->bytes, AREA, PROT_READ | PROT_WRITE);
    if (input.len > 0) {
        memcpy(place, input.bytes, input.len);
    }
    mprotect(area->bytes, AREA, PROT_READ);
    return place;
}

/* The call over pages that can only be read, with an output beside a page that can't be used. */
static uint32_t call_in_pages(struct input book, struct input line, size_t room, bool at_end, uint8_t *output) {
    const uint8_t *book_place = lend(&book_area, book, at_end), *line_place = lend(&line_area, line, at_end);
    uint8_t *place = output_area.bytes + (at_end ? AREA - room : 0), *guard = at_end ? place - GUARD : place + room;
    fill(place, room);
    fill(guard, GUARD);
    uint32_t answer = wembatogy_read(book_place, book.len, line_place, line.len, place, room);
    expect_untouched(guard, GUARD, at_end ? "before" : "behind");
    memcpy(output, place, room);
    return answer;
}

/* The call, made three times over the same bytes at different places. */
static uint32_t call(struct input book, struct input line, size_t room, uint8_t *output) {
    static uint8_t again[ROOM_MAX];
    uint32_t answer = call_in_blocks(book, line, room, output);
    for (int at_end = 0; at_end < 2; at_end++) {
        uint32_t other = call_in_pages(book, line, room, at_end, again);
        if (other != answer) {
            fail("answers %u and %u over the same bytes", answer, other);
        }
        if (memcmp(output, again, room) != 0) {
            fail("outputs that differ over the same bytes");
        }
    }
    return answer;
}

/* Calls with an output of `room` bytes, and compares the answer and the output with the reference. */
static void try_room(struct input book, struct input line, size_t room, const struct reading *wanted, struct counts *counts) {
    static uint8_t output[ROOM_MAX];
    struct verdict verdict = wanted->verdict;
    size_t fit = room / 3 < 65535 ? room / 3 : 65535, count = 0;
    if (verdict.number == 0) {
        bool fits = wanted->record_count <= fit;
        count = fits ? wanted->record_count : fit;
        verdict = fits ? (struct verdict){0, count} : (struct verdict){15, 0};
    }
    uint32_t answer = call(book, line, room, output);
    if (answer != verdict.number + 256 * verdict.place) {
        fail("answer %u + 256 * %u with room for %zu bytes, wanted %u + 256 * %zu", answer % 256, answer / 256, room, verdict.number, verdict.place);
    }
    for (size_t i = 0; i < room; i++) {
        uint8_t byte = i < 3 * count ? wanted->records[i] : untouched(i);
        if (output[i] != byte) {
            fail("output byte %zu of %zu is %u, wanted %u", i, room, output[i], byte);
        }
    }
    counts->calls++;
    counts->answers[verdict.number]++;
    counts->most_records = count > counts->most_records ? count : counts->most_records;
}

/* Calls with outputs of a few sizes: around what the records need, small ones, and now and then around the largest. */
static void try_rooms(struct input book, struct input line, struct random *random, const struct reading *wanted, struct counts *counts) {
    size_t needed = 3 * wanted->record_count;
    needed = needed < ROOM_MAX - 40 ? needed : ROOM_MAX - 40;
    try_room(book, line, needed + below(random, 4), wanted, counts);
    try_room(book, line, below(random, 40), wanted, counts);
    if (needed > 0) {
        try_room(book, line, needed - 1, wanted, counts);
        try_room(book, line, below(random, (uint32_t)needed), wanted, counts);
    }
    if (chance(random, 5) || wanted->record_count >= 65535) {
        try_room(book, line, WEMBATOGY_OUTPUT_MAX - 3 + below(random, 7), wanted, counts);
        try_room(book, line, ROOM_MAX, wanted, counts);
    }
}

void try_calls(const struct fuzz_case *made, struct random *random, struct counts *counts) {
    static struct reading reading;
    static struct grammar grammar;
    struct input book = {made->book.bytes, made->book.len};
    struct verdict verdict = reference_book(&made->book, &grammar);
    for (size_t i = 0; i < made->line_count; i++) {
        struct input line = {made->lines[i].bytes, made->lines[i].len};
        reading.verdict = verdict;
        reading.record_count = 0;
        if (verdict.number == 0) {
            reference_line(&grammar, line.bytes, line.len, &reading);
        }
        try_rooms(book, line, random, &reading, counts);
    }
}
