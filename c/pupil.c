/*
 * The pupil's question: one finger on the causeway, one on the boat slip. When are both under water?
 *
 * Two tide tables of one day become images. Their pair is walked stretch by stretch, and asked for the
 * next time. All memory is the caller's and of a size that is known before. No answer is used before
 * its refusal was looked at.
 */
#include <stdbool.h>
#include <stdio.h>
#include <stdlib.h>
#include <string.h>

#include "../include/huttaralu.h"

enum { DAY = 240, MOST_BYTES = HUTT_MOST_BYTES(DAY), WORK = HUTT_WORK_NEEDED(DAY) };

/* A place by the shore and its image. */
struct place {
    const char *name;
    uint8_t image[MOST_BYTES];
    uint32_t bytes;
};

/* Lent to every call that plans an image, and 0 after each. */
static uint32_t work[WORK];

/* Ends the program if an answer refuses what the program knows to be right. */
static void accept(const char *what, struct hutt_refusal refusal) {
    if (refusal.number != HUTT_ACCEPTED) {
        printf("%s: refused by %u, side %u, at %u\n", what, refusal.number, refusal.side,
               refusal.place);
        exit(EXIT_FAILURE);
    }
}

/* Writes the image of a place that is wet from edge 0 up to edge 1, and from edge 2 up to edge 3. */
static void write_place(struct place *place, const uint32_t edges[4]) {
    uint32_t list[DAY];
    size_t n = 0;
    for (int tide = 0; tide < 4; tide += 2)
        for (uint32_t step = edges[tide]; step < edges[tide + 1]; step++)
            list[n++] = step;
    struct hutt_counted counted = hutt_write(list, n, work, WORK, place->image, sizeof place->image);
    accept(place->name, counted.refusal);
    place->bytes = counted.bytes;
    printf("%s: %u steps in %u bytes\n", place->name, counted.steps, counted.bytes);
}

static void print_clock(uint32_t step) {
    struct hutt_clock clock = hutt_clock_of(step);
    accept("clock", clock.refusal);
    printf("day %u %02u:%02u", clock.day, clock.hour, clock.minute);
}

/* Prints the stretches of an image: from the first step of each to the first dry one after it. */
static void print_stretches(const struct place *wet) {
    struct hutt_moved moved = hutt_start(wet->image, wet->bytes);
    accept("start", moved.refusal);
    bool under = false;
    uint32_t next = 0;
    for (;;) {
        moved = hutt_next(moved.cursor, wet->image, wet->bytes);
        accept("next", moved.refusal);
        if (under && !(moved.found && moved.step == next)) {
            printf(" to ");
            print_clock(next);
            printf("\n");
            under = false;
        }
        if (!moved.found)
            return;
        if (!under) {
            printf("  ");
            print_clock(moved.step);
            under = true;
        }
        next = moved.step + 1;
    }
}

int main(void) {
    static const uint32_t causeway_edges[4] = {31, 78, 154, 203};
    static const uint32_t slip_edges[4] = {40, 95, 136, 190};
    struct place causeway = {.name = "causeway"}, slip = {.name = "boat slip"}, wet = {.name = "both"},
                 alone = {.name = "slip alone"};
    write_place(&causeway, causeway_edges);
    write_place(&slip, slip_edges);

    /* Asked with no room for steps, the library tells how much to lend. */
    uint32_t steps[DAY];
    struct hutt_counted counted = hutt_both(causeway.image, causeway.bytes, slip.image, slip.bytes,
                                            NULL, 0, work, WORK, wet.image, sizeof wet.image);
    printf("asked with no step buffer: refused by %u, %u steps needed\n", counted.refusal.number,
           counted.refusal.place);
    counted = hutt_both(causeway.image, causeway.bytes, slip.image, slip.bytes, steps,
                        counted.refusal.place, work, WORK, wet.image, sizeof wet.image);
    accept("both", counted.refusal);
    wet.bytes = counted.bytes;
    printf("both: %u steps in %u bytes\n", counted.steps, counted.bytes);
    print_stretches(&wet);

    /* It is ten in the morning. When next? */
    struct hutt_first first = hutt_first_at(wet.image, wet.bytes, 100);
    accept("first at", first.refusal);
    printf("from ");
    print_clock(100);
    if (first.found) {
        printf(" the next time is ");
        print_clock(first.step);
        printf(", step %u at rank %u\n", first.step, first.rank);
    } else {
        printf(" there is no next time\n");
    }

    /* The same by a cursor, which then stands at the step after it. */
    struct hutt_moved moved = hutt_start(wet.image, wet.bytes);
    accept("start", moved.refusal);
    moved = hutt_skip(moved.cursor, wet.image, wet.bytes, 100);
    accept("skip", moved.refusal);
    moved = hutt_next(moved.cursor, wet.image, wet.bytes);
    accept("next", moved.refusal);
    printf("by a cursor: step %u, and the cursor is at rank %u\n", moved.step, moved.cursor.rank);

    /* An image that was stored is checked when it is loaded. Reading it back gives what was written. */
    uint32_t back[DAY];
    counted = hutt_check(wet.image, wet.bytes);
    accept("check", counted.refusal);
    counted = hutt_read(wet.image, wet.bytes, back, DAY);
    accept("read", counted.refusal);
    bool read_back = memcmp(back, steps, counted.steps * sizeof *steps) == 0;
    struct hutt_ranked last = hutt_rank(wet.image, wet.bytes, counted.steps - 1);
    accept("rank", last.refusal);
    printf("read back: %s %u steps, the last is %u\n", read_back ? "the same" : "other", counted.steps,
           last.step);

    /* The slip is wet and the causeway dry: by what is left of the slip without both, or without the
       causeway. It is the same set either way, so the same bytes. */
    counted = hutt_without(slip.image, slip.bytes, wet.image, wet.bytes, steps, DAY, work, WORK,
                           alone.image, sizeof alone.image);
    accept("slip without both", counted.refusal);
    alone.bytes = counted.bytes;
    printf("the boat slip alone: %u steps in %u bytes\n", counted.steps, counted.bytes);
    print_stretches(&alone);
    uint8_t again[MOST_BYTES];
    counted = hutt_without(slip.image, slip.bytes, causeway.image, causeway.bytes, steps, DAY, work,
                           WORK, again, sizeof again);
    accept("slip without causeway", counted.refusal);
    bool same = counted.bytes == alone.bytes && memcmp(again, alone.image, counted.bytes) == 0;
    printf("by another way: %s bytes\n", same ? "the same" : "other");

    /* A damaged image is refused by number and place, and nothing is written. */
    slip.image[4] = 9;
    counted = hutt_either(causeway.image, causeway.bytes, slip.image, slip.bytes, steps, DAY, work,
                          WORK, again, sizeof again);
    printf("damaged: refused by %u, side %u, at %u\n", counted.refusal.number, counted.refusal.side,
           counted.refusal.place);
    return same && read_back ? EXIT_SUCCESS : EXIT_FAILURE;
}
