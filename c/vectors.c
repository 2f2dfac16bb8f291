/*
 * The documents' examples, run through the library as a caller links it.
 *
 * Standard input has questions, each with its answer below it: a line that begins with a letter is a
 * question, a line that begins with a space belongs to an answer, and any other line is a heading. What
 * is printed has the same headings and questions, with the library's answers. So the two are the same
 * where every answer is right.
 *
 *     write S ..           the shortest image of a list, and the steps that it reads back as
 *     code X               the code of a number: the payload of the image of that one step
 *     check B ..           the steps of an image, in hexadecimal bytes; the questions below are asked of it
 *     rank K               the step at a rank
 *     first X              the first step at or after a bound, with its rank
 *     cursor X             a cursor at the start, its next step, where it skips to, and the next step there
 *     both B .. / B ..     an operation on two images; so are either and without
 *     clock S              the clock of a step
 */
#include <ctype.h>
#include <stdbool.h>
#include <stdio.h>
#include <stdlib.h>
#include <string.h>

#include "../include/huttaralu.h"

enum { STEPS = 64, BYTES = HUTT_MOST_BYTES(STEPS), WORK = HUTT_WORK_NEEDED(STEPS), LINE = 4096 };

/* Some bytes. */
struct bytes {
    uint8_t at[BYTES];
    size_t count;
};

static uint32_t work[WORK];

/* The image that was checked last. */
static struct bytes image;

/* ---- what is asked */

/* Ends the program where a question cannot be read: that is a fault of the file and not of an answer. */
static void malformed(const char *question) {
    fprintf(stderr, "vectors: cannot read: %s\n", question);
    exit(EXIT_FAILURE);
}

/* The numbers of a question, up to its end or to a slash, after which the text goes on. */
static const char *numbers(const char *text, int base, uint32_t *into, size_t room, size_t *count) {
    *count = 0;
    for (;;) {
        while (*text == ' ')
            text++;
        if (*text == '\0')
            return text;
        if (*text == '/')
            return text + 1;
        char *end;
        unsigned long number = strtoul(text, &end, base);
        if (end == text || *count == room || number > UINT32_MAX)
            malformed(text);
        into[(*count)++] = (uint32_t)number;
        text = end;
    }
}

static uint32_t one_number(const char *text) {
    uint32_t number;
    size_t count;
    numbers(text, 10, &number, 1, &count);
    if (count != 1)
        malformed(text);
    return number;
}

static const char *some_bytes(const char *text, struct bytes *into) {
    uint32_t found[BYTES];
    const char *rest = numbers(text, 16, found, BYTES, &into->count);
    for (size_t i = 0; i < into->count; i++) {
        if (found[i] > UINT8_MAX)
            malformed(text);
        into->at[i] = (uint8_t)found[i];
    }
    return rest;
}

/* ---- what is answered */

/* Prints a refusal, and says whether there is one. */
static bool refused(struct hutt_refusal refusal) {
    if (refusal.number == HUTT_ACCEPTED)
        return false;
    printf("  refused %u at %u", refusal.number, refusal.place);
    if (refusal.side != 0)
        printf(" of side %u", refusal.side);
    printf("\n");
    return true;
}

static void print_bytes(const char *what, const uint8_t *bytes, size_t count) {
    printf(" %s", what);
    for (size_t i = 0; i < count; i++)
        printf(" %02X", bytes[i]);
    printf("\n");
}

/* Prints the steps of an image, which the library reads back. */
static void print_steps(const uint8_t *bytes, size_t count) {
    uint32_t steps[STEPS];
    struct hutt_counted read = hutt_read(bytes, count, steps, STEPS);
    if (refused(read.refusal))
        return;
    printf("  steps");
    for (uint32_t i = 0; i < read.steps; i++)
        printf(" %u", steps[i]);
    printf("\n");
}

static void print_image(struct hutt_counted counted, const uint8_t *out) {
    if (refused(counted.refusal))
        return;
    print_bytes(" image", out, counted.bytes);
    print_steps(out, counted.bytes);
}

static void print_placed(struct hutt_moved placed) {
    if (!refused(placed.refusal))
        printf("  rank %u\n", placed.cursor.rank);
}

static void print_next(struct hutt_moved moved) {
    if (refused(moved.refusal))
        return;
    if (moved.found)
        printf("  step %u, then rank %u\n", moved.step, moved.cursor.rank);
    else
        printf("  nothing, still rank %u\n", moved.cursor.rank);
}

/* ---- the questions */

static void ask_write(const char *text) {
    uint32_t list[STEPS];
    uint8_t out[BYTES];
    size_t count;
    numbers(text, 10, list, STEPS, &count);
    print_image(hutt_write(list, count, work, WORK, out, BYTES), out);
}

static void ask_code(const char *text) {
    uint32_t step = one_number(text);
    uint8_t out[BYTES];
    struct hutt_counted counted = hutt_write(&step, 1, work, WORK, out, BYTES);
    const size_t payload = 2 * HUTT_NUMBER_SIZE + HUTT_ENTRY_SIZE;
    if (!refused(counted.refusal))
        print_bytes("", out + payload, counted.bytes - payload);
}

static void ask_check(const char *text) {
    some_bytes(text, &image);
    if (!refused(hutt_check(image.at, image.count).refusal))
        print_steps(image.at, image.count);
}

static void ask_rank(const char *text) {
    struct hutt_ranked ranked = hutt_rank(image.at, image.count, one_number(text));
    if (!refused(ranked.refusal))
        printf("  step %u\n", ranked.step);
}

static void ask_first(const char *text) {
    struct hutt_first first = hutt_first_at(image.at, image.count, one_number(text));
    if (refused(first.refusal))
        return;
    if (first.found)
        printf("  step %u, rank %u\n", first.step, first.rank);
    else
        printf("  nothing\n");
}

static void ask_cursor(const char *text) {
    struct hutt_moved start = hutt_start(image.at, image.count);
    print_placed(start);
    print_next(hutt_next(start.cursor, image.at, image.count));
    struct hutt_moved skipped = hutt_skip(start.cursor, image.at, image.count, one_number(text));
    print_placed(skipped);
    print_next(hutt_next(skipped.cursor, image.at, image.count));
}

typedef struct hutt_counted operation(const uint8_t *first, size_t first_len, const uint8_t *second,
                                      size_t second_len, uint32_t *steps, size_t steps_len, uint32_t *work,
                                      size_t work_len, uint8_t *out, size_t out_len);

static void ask_pair(operation *pair, const char *text) {
    struct bytes first, second;
    uint32_t steps[STEPS];
    uint8_t out[BYTES];
    some_bytes(some_bytes(text, &first), &second);
    print_image(pair(first.at, first.count, second.at, second.count, steps, STEPS, work, WORK, out, BYTES),
                out);
}

static void ask_both(const char *text) { ask_pair(hutt_both, text); }
static void ask_either(const char *text) { ask_pair(hutt_either, text); }
static void ask_without(const char *text) { ask_pair(hutt_without, text); }

static void ask_clock(const char *text) {
    struct hutt_clock clock = hutt_clock_of(one_number(text));
    if (!refused(clock.refusal))
        printf("  day %u, %02u:%02u\n", clock.day, clock.hour, clock.minute);
}

static const struct {
    const char *word;
    void (*ask)(const char *text);
} questions[] = {
    {"write", ask_write}, {"code", ask_code},     {"check", ask_check}, {"rank", ask_rank},
    {"first", ask_first}, {"cursor", ask_cursor}, {"both", ask_both},   {"either", ask_either},
    {"without", ask_without}, {"clock", ask_clock},
};

static void ask(const char *line) {
    size_t word = strcspn(line, " ");
    for (size_t i = 0; i < sizeof questions / sizeof *questions; i++)
        if (strlen(questions[i].word) == word && memcmp(line, questions[i].word, word) == 0) {
            questions[i].ask(line + word);
            return;
        }
    malformed(line);
}

int main(void) {
    char line[LINE];
    while (fgets(line, LINE, stdin) != NULL) {
        size_t length = strcspn(line, "\n");
        if (line[length] != '\n')
            malformed(line);
        line[length] = '\0';
        if (line[0] == ' ')
            continue;
        printf("%s\n", line);
        if (isalpha((unsigned char)line[0]))
            ask(line);
    }
    return EXIT_SUCCESS;
}
