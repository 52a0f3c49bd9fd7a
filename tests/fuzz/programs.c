#include "programs.h"
#include "failure.h"
#include "reference.h"

#include <errno.h>
#include <fcntl.h>
#include <inttypes.h>
#include <stdio.h>
#include <stdlib.h>
#include <string.h>
#include <sys/resource.h>
#include <sys/wait.h>
#include <unistd.h>

/* Of processor time. */
#define WALK_SECONDS 60
#define EXHAUSTIVE_SECONDS 1

#define TABLE_ENTRIES 8000

static void write_file(const char *name, const struct text *text) {
    FILE *file = fopen(name, "wb");
    if (file == NULL || fwrite(text->bytes, 1, text->len, file) != text->len || fclose(file) != 0) {
        fail("%s can't be written", name);
    }
}

void write_case(const struct fuzz_case *made) {
    struct text lines = {0};
    put_lines(made, &lines);
    write_file("book.rbk", &made->book);
    write_file("lines", &lines);
    text_free(&lines);
}

static void read_file(const char *name, struct text *text) {
    char part[4096];
    size_t count;
    FILE *file = fopen(name, "rb");
    if (file == NULL) {
        fail("%s can't be read", name);
    }
    while ((count = fread(part, 1, sizeof part, file)) > 0) {
        text_put(text, part, count);
    }
    fclose(file);
}

/* Becomes the program, with its input, and with `said` as its output. */
static _Noreturn void become(const char *program, int input, rlim_t seconds) {
    int output = open("said", O_WRONLY | O_CREAT | O_TRUNC, 0666);
    struct rlimit time = {seconds, seconds + 1}, none = {0, 0};
    if (output < 0 || dup2(input, 0) < 0 || dup2(output, 1) < 0) {
        _exit(126);
    }
    if (setrlimit(RLIMIT_CORE, &none) != 0 || setrlimit(RLIMIT_CPU, &time) != 0) {
        _exit(126);
    }
    signal(SIGPIPE, SIG_DFL);
    execl(program, program, (char *)NULL);
    _exit(127);
}

/* Writes the lines into the pipe in parts. A program that refuses the book may read none. */
static void feed(int pipe, const struct text *lines, struct random *random) {
    size_t done = 0, most = between(random, 1, 3) * 300;
    while (done < lines->len) {
        size_t part = between(random, 1, (uint32_t)most);
        part = part < lines->len - done ? part : lines->len - done;
        ssize_t count = write(pipe, lines->bytes + done, part);
        if (count < 0 && errno != EINTR) {
            break;
        }
        done += count > 0 ? (size_t)count : 0;
    }
}

/* Runs the program over the lines, which come as a file or through a pipe, and gives its status. */
static int run(const char *program, const struct text *lines, struct random *random, rlim_t seconds, struct text *said) {
    int ends[2] = {-1, -1}, status;
    bool by_pipe = random != NULL;
    if (by_pipe && pipe(ends) != 0) {
        fail("no pipe");
    }
    pid_t child = fork();
    if (child == 0) {
        close(ends[1]);
        become(program, by_pipe ? ends[0] : open("lines", O_RDONLY), seconds);
    }
    if (child < 0) {
        fail("no process");
    }
    if (by_pipe) {
        close(ends[0]);
        feed(ends[1], lines, random);
        close(ends[1]);
    }
    while (waitpid(child, &status, 0) < 0) {
    }
    read_file("said", said);
    return status;
}

/* What was said, as far as it has not been compared. */
struct rest {
    const char *bytes;
    size_t len;
};

/* Takes what has to come next. */
static void take(struct rest *rest, const char *wanted) {
    size_t len = strlen(wanted);
    if (rest->len < len || memcmp(rest->bytes, wanted, len) != 0) {
        fail("walk prints [%.60s], wanted [%s]", rest->bytes, wanted);
    }
    rest->bytes += len;
    rest->len -= len;
}

static uint64_t take_number(struct rest *rest) {
    uint64_t number = 0;
    char digits[24];
    for (const char *byte = rest->bytes; *byte >= '0' && *byte <= '9' && number < 1ull << 40; byte++) {
        number = 10 * number + (uint64_t)(*byte - '0');
    }
    snprintf(digits, sizeof digits, "%" PRIu64, number);
    take(rest, digits);
    return number;
}

/* Takes the trees of a line: some, whose smallest price is that of the smallest tree where it is the only one, and no
   more than that where there are others. */
static void take_trees(struct rest *rest, const struct reading *reading) {
    take(rest, "ok trees ");
    uint64_t trees = take_number(rest);
    take(rest, " price ");
    uint64_t price = take_number(rest);
    uint64_t listed = reading->price < UINT32_MAX ? reading->price : UINT32_MAX;
    bool is_whole = reading->record_count < REFERENCE_RECORDS;
    if (trees == 0 || trees > UINT32_MAX || price > UINT32_MAX || (is_whole && (price > listed || (trees == 1 && price != listed)))) {
        fail("%" PRIu64 " trees of price %" PRIu64 ", and one of price %" PRIu64, trees, price, listed);
    }
}

/* Takes the report of a line. */
static void take_line(struct rest *rest, const struct grammar *grammar, const uint8_t *line, size_t len, struct programs *programs) {
    static struct reading reading;
    char wanted[64];
    reference_line(grammar, line, len, &reading);
    size_t side = reading.word_count + 1;
    if (reading.verdict.number != 0) {
        snprintf(wanted, sizeof wanted, "refused %u at %zu", reading.verdict.number, reading.verdict.place);
        take(rest, wanted);
    } else if (reference_places(grammar) * side * side > TABLE_ENTRIES) {
        take(rest, "refused 16 at 0");
        programs->short_tables++;
    } else {
        take_trees(rest, &reading);
        programs->trees++;
    }
}

/* Takes the reports of all lines, and how many there are. */
static void take_lines(struct rest *rest, const struct grammar *grammar, const struct text *lines, struct programs *programs) {
    size_t count = 0;
    char number[40];
    for (size_t from = 0, end; from < lines->len; from = end + 1) {
        for (end = from; end < lines->len && lines->bytes[end] != '\n';) {
            end++;
        }
        snprintf(number, sizeof number, "%zu ", ++count);
        take(rest, number);
        take_line(rest, grammar, lines->bytes + from, end - from, programs);
        take(rest, "\n");
    }
    snprintf(number, sizeof number, "lines %zu\n", count);
    take(rest, number);
}

/* Compares what `walk` said with the reference. */
static void compare_with_reference(const struct fuzz_case *made, const struct text *lines, struct rest rest, struct programs *programs) {
    static struct grammar grammar;
    char wanted[80];
    struct verdict verdict = reference_book(&made->book, &grammar);
    if (verdict.number != 0) {
        snprintf(wanted, sizeof wanted, "book refused %u line %zu\n", verdict.number, verdict.place);
        take(&rest, wanted);
    } else {
        snprintf(wanted, sizeof wanted, "RBK 1 productions %zu rules %zu\n", grammar.production_count, grammar.rule_count);
        take(&rest, wanted);
        take_lines(&rest, &grammar, lines, programs);
    }
    if (rest.len > 0) {
        fail("walk prints [%.60s] more", rest.bytes);
    }
}

/* Compares what `walk` said with what `exhaustive` says, where that has an end. */
static void compare_with_exhaustive(const struct text *lines, const struct text *said, struct programs *programs) {
    struct text other = {0};
    int status = run(programs->exhaustive, lines, NULL, EXHAUSTIVE_SECONDS, &other);
    if (WIFSIGNALED(status) && (WTERMSIG(status) == SIGXCPU || WTERMSIG(status) == SIGKILL)) {
        programs->unended++;
    } else if (status != 0) {
        fail("exhaustive ends with status %d", status);
    } else if (other.len != said->len || memcmp(other.bytes, said->bytes, other.len) != 0) {
        fail("walk and exhaustive differ");
    } else {
        programs->compared++;
    }
    text_free(&other);
}

void try_programs(const struct fuzz_case *made, struct random *random, struct programs *programs) {
    struct text lines = {0}, said = {0};
    write_case(made);
    put_lines(made, &lines);
    int status = run(programs->walk, &lines, chance(random, 50) ? random : NULL, WALK_SECONDS, &said);
    if (status != 0) {
        fail("walk ends with status %d", status);
    }
    if (programs->exhaustive != NULL) {
        compare_with_exhaustive(&lines, &said, programs);
    }
    struct rest rest = {(const char *)said.bytes, said.len};
    text_byte(&said, 0);
    rest.bytes = (const char *)said.bytes;
    compare_with_reference(made, &lines, rest, programs);
    text_free(&lines);
    text_free(&said);
}
