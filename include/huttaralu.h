/*
 * Huttaralu: strictly increasing lists of steps (when is this place under water?) as small images,
 * and questions about them.
 *
 * Link libhuttaralu.a, which `rt lib` in crates/huttaralu makes. Of the C library it needs at most
 * memset, memcpy and memmove.
 *
 * Numbers. A step is six minutes, 0 to HUTT_LARGEST_STEP. A list is strictly increasing and has 0 to
 * HUTT_MOST_STEPS steps. Ranks count from 0. A bound is any 32-bit number. Below, n is the number of
 * steps of a list, of an image's list, or of a pair's result.
 *
 * Images. Bytes that stand for a list, by the rules of document 01 (docs/01-scope.md). A list has
 * many images; the one that is written is the shortest, and there is one of it. So two results that
 * are the same set have identical bytes.
 *
 * Every input is taken. Each function answers for any bytes, any list and any lengths. What it does
 * not accept it refuses, by a number and a place, and it refuses nothing beyond the table. An
 * answer and the later content of every lent buffer are proved for every input.
 *
 * Memory. The caller owns all of it. A slice is a pointer and then its number of elements; an empty
 * one may have any pointer. No pointer is kept, nothing is allocated, there is no state, and
 * nothing is written but the buffers that a function names; so calls on different buffers may run
 * at the same time. Buffers that are written must overlap no other argument.
 *
 * Refusals. Every answer starts with one. Its number is 0 where the input is accepted; then side and
 * place are 0 too. On a refusal every other field of the answer is 0. The numbers and their places
 * are those of enum hutt_number, below.
 *
 * "1 to 10" in what follows means: 1, 2; then entries in turn, 3 to 6 in each; the closing 6; then
 * blocks in turn, 7 or 10 by kind, then 8, then 9. The first that applies is given.
 *
 * Cost. "A pass" reads each byte, number or step once. No function recurses, so the stack that a
 * call needs is fixed.
 */
#ifndef HUTTARALU_H
#define HUTTARALU_H

#include <stddef.h>
#include <stdint.h>

#ifdef __cplusplus
extern "C" {
#endif

/* ---- Limits and sizes ---- */

/*
 * The largest step, the largest number of steps in a list, and the steps of a year, which are those
 * that have a clock.
 */
#define HUTT_LARGEST_STEP 16777215u
#define HUTT_MOST_STEPS 1048576u
#define HUTT_YEAR_STEPS 87600u

/* The bytes of a number in an image, and of an entry: kind, last, upto, end. */
#define HUTT_NUMBER_SIZE 4u
#define HUTT_ENTRY_SIZE 13u

/* The 32-bit numbers of work that writing n steps borrows: a share for each step, and one more. */
#define HUTT_WORK_SHARE 16u
#define HUTT_WORK_NEEDED(n) (HUTT_WORK_SHARE * ((size_t)(n) + 1))

/*
 * A number of bytes that the image of any n steps fits: the counts, and one block of codes with four
 * bytes a step.
 */
#define HUTT_MOST_BYTES(n) (2 * HUTT_NUMBER_SIZE + HUTT_ENTRY_SIZE + 4 * (size_t)(n))

/* ---- Answers ---- */

/* The numbers of refusals. Each is given exactly when its words apply, with the place after them. */
enum hutt_number {
    HUTT_ACCEPTED = 0,
    /* Fewer bytes than the counts say, or too few to read them; at 0. */
    HUTT_TOO_FEW_BYTES = 1,
    /* Bytes after the payload; at 0. */
    HUTT_BYTES_LEFT_OVER = 2,
    /* Kind above 1; at the entry. */
    HUTT_UNKNOWN_KIND = 3,
    /* Last above HUTT_LARGEST_STEP or not above "before"; at the entry. */
    HUTT_BAD_LAST = 4,
    /* Upto not above the earlier one (0 at first), or above HUTT_MOST_STEPS; at the entry. */
    HUTT_BAD_UPTO = 5,
    /* End not above the earlier one (0 at first), or above p; at the entry. After all entries:
       final end (0 if m = 0) not p; at m. */
    HUTT_BAD_END = 6,
    /* A code starts with 80 hex, or its fourth byte has the high bit, or the block ends inside it; at
       the block. */
    HUTT_BAD_CODE = 7,
    /* Number of steps in the block isn't upto less the earlier upto; at the block. */
    HUTT_WRONG_COUNT = 8,
    /* The block's last step isn't the stated one; at the block. */
    HUTT_WRONG_LAST = 9,
    /* Row of the wrong length, or a 1 past the span; at the block. */
    HUTT_BAD_ROW = 10,
    /* List not strictly increasing; at the first index not above its forerunner. */
    HUTT_NOT_INCREASING = 11,
    /* A step above HUTT_LARGEST_STEP; at the first such index. */
    HUTT_STEP_TOO_LARGE = 12,
    /* More than HUTT_MOST_STEPS steps in a list or result; at 0. */
    HUTT_TOO_MANY_STEPS = 13,
    /* Work area too short; at the numbers needed. */
    HUTT_WORK_TOO_SHORT = 14,
    /* Output shorter than the image; at the bytes needed. */
    HUTT_OUTPUT_TOO_SHORT = 15,
    /* Step buffer too short; at the steps needed. */
    HUTT_STEPS_TOO_SHORT = 16,
    /* Rank not below n; at n. */
    HUTT_RANK_TOO_LARGE = 17,
    /* Step not below HUTT_YEAR_STEPS given to the clock; at 0. */
    HUTT_NOT_IN_THE_YEAR = 18,
    /* Cursor isn't the one its rank has in this image; at 0. */
    HUTT_NO_SUCH_CURSOR = 19
};

/* Whether the input is accepted. If not, why and where. */
struct hutt_refusal {
    uint32_t number; /* of enum hutt_number */
    uint32_t side;   /* in a pair: 1 or 2 if that image is refused by 1 to 10; else 0 */
    uint32_t place;
};

/*
 * The number of steps, n, and the length of the image that was written. Checking and reading write
 * none: bytes is then 0.
 */
struct hutt_counted {
    struct hutt_refusal refusal;
    uint32_t steps;
    uint32_t bytes;
};

/* The step at a rank. */
struct hutt_ranked {
    struct hutt_refusal refusal;
    uint32_t step;
};

/* found is 1 with a step and its rank, or 0 for nothing; then step and rank are 0. */
struct hutt_first {
    struct hutt_refusal refusal;
    uint32_t found;
    uint32_t step;
    uint32_t rank;
};

/*
 * A place in an image's list: the rank of the step that hutt_next would give, or n at the end. It may
 * be stored, and copied freely.
 */
struct hutt_cursor {
    uint32_t rank;
};

/*
 * found is 1 with the step that was given, or 0 for none; then step is 0. cursor is the moved one. A
 * refused move hands back none: its field is 0 and means nothing.
 */
struct hutt_moved {
    struct hutt_refusal refusal;
    uint32_t found;
    uint32_t step;
    struct hutt_cursor cursor;
};

/* A time of the year: day 1 to 365, hour 0 to 23, minute 0 to 54. */
struct hutt_clock {
    struct hutt_refusal refusal;
    uint32_t day;
    uint32_t hour;
    uint32_t minute;
};

/* ---- Checking and reading ---- */

/*
 * Checks an image and answers n.
 *
 * Refusals: 1 to 10.
 * Buffers:  none.
 * Cost:     a pass over the image.
 */
struct hutt_counted hutt_check(const uint8_t *image, size_t image_len);

/*
 * Reads an image back and answers n.
 *
 * Refusals: 1 to 10; 16 if steps_len is below n.
 * Buffers:  steps holds the n steps in its first n places; the rest is unchanged. A refusal changes
 *           nothing.
 * Cost:     two passes over the image.
 */
struct hutt_counted hutt_read(const uint8_t *image, size_t image_len, uint32_t *steps,
                              size_t steps_len);

/* ---- Writing ---- */

/*
 * Writes a list as the shortest image that it can have, and answers n and the image's length.
 *
 * Refusals: 13, 12, 11; 14 if work_len is below HUTT_WORK_NEEDED(n); 15 if out_len is below the
 *           image's length, which is the place.
 * Buffers:  out holds the image at its front, and the first HUTT_WORK_NEEDED(n) numbers of work are
 *           0; the rest of each is unchanged. A refusal changes nothing, except 15: work is then as
 *           after acceptance.
 * Cost:     time linear in n. Asking with out_len 0 costs a plan and tells the length.
 */
struct hutt_counted hutt_write(const uint32_t *list, size_t list_len, uint32_t *work, size_t work_len,
                               uint8_t *out, size_t out_len);

/* ---- Questions ---- */

/*
 * Answers the step at a rank.
 *
 * Refusals: 1 to 10; 17.
 * Buffers:  none.
 * Cost:     a pass over the image to check it, then one over the entries and one over the block
 *           that has the step.
 */
struct hutt_ranked hutt_rank(const uint8_t *image, size_t image_len, uint32_t rank);

/*
 * Answers the first step at or after a bound, with its rank; nothing (found 0) if every step is
 * below the bound.
 *
 * Refusals: 1 to 10.
 * Buffers:  none.
 * Cost:     that of hutt_rank.
 */
struct hutt_first hutt_first_at(const uint8_t *image, size_t image_len, uint32_t bound);

/*
 * Starts a cursor at rank 0. It gives no step: found is 0.
 *
 * Refusals: 1 to 10.
 * Buffers:  none.
 * Cost:     a pass over the image.
 */
struct hutt_moved hutt_start(const uint8_t *image, size_t image_len);

/*
 * Gives the step at the cursor's rank and moves by one; at rank n gives nothing (found 0) and
 * stays.
 *
 * Refusals: 1 to 10; 19, which a cursor has whose rank is above n.
 * Buffers:  none.
 * Cost:     that of hutt_rank, at each move. To go through all steps, hutt_read costs two passes in
 *           all.
 */
struct hutt_moved hutt_next(struct hutt_cursor cursor, const uint8_t *image, size_t image_len);

/*
 * Moves the cursor to the first rank not below its own whose step is at least the bound, or to n.
 * It never goes back, and gives no step: found is 0.
 *
 * Refusals: 1 to 10; 19, which a cursor has whose rank is above n.
 * Buffers:  none.
 * Cost:     that of hutt_rank.
 */
struct hutt_moved hutt_skip(struct hutt_cursor cursor, const uint8_t *image, size_t image_len,
                            uint32_t bound);

/* ---- Pairs ---- */

/*
 * Writes the shortest image of the steps that both images have, and answers n and the image's
 * length.
 *
 * Refusals: 1 to 10 for the first image, with side 1; 1 to 10 for the second, with side 2; 13; 16
 *           if steps_len is below n; 14 if work_len is below HUTT_WORK_NEEDED(n); 15 if out_len is
 *           below the image's length, which is the place.
 * Buffers:  steps holds the n steps in its first n places, out the image at its front, and the
 *           first HUTT_WORK_NEEDED(n) numbers of work are 0; the rest of each is unchanged. A
 *           refusal changes nothing, except 15: steps and work are then as after acceptance.
 * Cost:     two checks, a pass over both images that counts the result, one that stores it, and
 *           then that of hutt_write for the result. With steps_len 0 a result of any steps is
 *           refused by 16, which tells n before anything is stored.
 */
struct hutt_counted hutt_both(const uint8_t *first, size_t first_len, const uint8_t *second,
                              size_t second_len, uint32_t *steps, size_t steps_len, uint32_t *work,
                              size_t work_len, uint8_t *out, size_t out_len);

/*
 * Writes the shortest image of the steps that at least one of the images has, and answers n and the
 * image's length.
 *
 * Refusals, buffers and cost: those of hutt_both. This is the one that can give 13.
 */
struct hutt_counted hutt_either(const uint8_t *first, size_t first_len, const uint8_t *second,
                                size_t second_len, uint32_t *steps, size_t steps_len, uint32_t *work,
                                size_t work_len, uint8_t *out, size_t out_len);

/*
 * Writes the shortest image of the steps that the first image has and the second has not, and
 * answers n and the image's length.
 *
 * Refusals, buffers and cost: those of hutt_both.
 */
struct hutt_counted hutt_without(const uint8_t *first, size_t first_len, const uint8_t *second,
                                 size_t second_len, uint32_t *steps, size_t steps_len, uint32_t *work,
                                 size_t work_len, uint8_t *out, size_t out_len);

/* ---- The clock ---- */

/*
 * Answers the day, hour and minute at which a step of the year begins: day step div 240 + 1, hour
 * (step mod 240) div 10, minute (step mod 10) times 6.
 *
 * Refusals: 18.
 * Buffers:  none.
 * Cost:     fixed.
 */
struct hutt_clock hutt_clock_of(uint32_t step);

#ifdef __cplusplus
}
#endif

#endif
