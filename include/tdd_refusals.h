/*
 * The refusals of both libraries: a constant for each number, and its words. tdd_bench.h and tdd_codes.h include this header, and it needs no library.
 *
 *     uint32_t refusal = tdd_open(&bench, 4, 1, 3);
 *     if (refusal != TDD_ACCEPTED)
 *         printf("refused %" PRIu32 ": %s\n", refusal, tdd_refusal_words(refusal));
 *
 * The words are those of the program's call `refusals`.
 */
#ifndef TDD_REFUSALS_H
#define TDD_REFUSALS_H

#include <stdint.h>

/* ROW(constant, number, words) for each refusal. A host may use it for a table of its own. */
#define TDD_REFUSALS(ROW)                                                                                                     \
    ROW(TDD_REFUSED_CELL_OR_GROUP, 1, "the cell parameter is above 127, or the code group above 31")                          \
    ROW(TDD_REFUSED_BURST_TYPE, 2, "the burst type is not 1, 2 or 3")                                                         \
    ROW(TDD_REFUSED_SPREADING_FACTOR, 3, "the spreading factor is not 1, 2, 4, 8 or 16")                                      \
    ROW(TDD_REFUSED_CODE_INDEX, 4, "the code's index is not below its spreading factor")                                      \
    ROW(TDD_REFUSED_GAIN, 5, "a gain is not 1 to 4095")                                                                       \
    ROW(TDD_REFUSED_RELATED, 6, "the code is related to an open code")                                                        \
    ROW(TDD_REFUSED_NOT_OPEN, 7, "the code is not open")                                                                      \
    ROW(TDD_REFUSED_BIT_COUNT, 8, "the count of bits is not 2(F1+F2)/Q, of field lengths F1 and F2")                          \
    ROW(TDD_REFUSED_BIT_VALUE, 9, "a bit is neither 0 nor 1")                                                                 \
    ROW(TDD_REFUSED_SLOT_UNDER_WAY, 10, "a slot is under way")                                                                \
    ROW(TDD_REFUSED_NO_SLOT, 11, "no slot is under way")                                                                      \
    ROW(TDD_REFUSED_LENGTHS_DIFFER, 12, "the re and the im buffer differ in length")                                          \
    ROW(TDD_REFUSED_BURST_TYPE_NOT_1, 13, "the burst type is not 1")                                                          \
    ROW(TDD_REFUSED_SYNC_CASE, 14, "the case is not 1 or 2")                                                                  \
    ROW(TDD_REFUSED_FRAME_OR_HALF, 15, "the frame is not 1 or 2, the half is above 1, or it is 1 in case 1")                  \
    ROW(TDD_REFUSED_LENGTH_CHIP_OR_SYNC_CODE, 16, "the length, chip or sync code is not one that the call takes")             \
    ROW(TDD_REFUSED_COMPONENT, 17, "a component is outside -100000 to 100000")                                                \
    ROW(TDD_REFUSED_BUFFER_TOO_SHORT, 18, "an answer or scratch buffer is too short")                                         \
    ROW(TDD_REFUSED_NO_BEST_FIT, 19, "no group, frame and half fits the burst better than all others")                        \
    /* A new refusal is one line above this one. */

#define TDD_REFUSAL_CONSTANT(constant, number, words) , constant = number
#define TDD_REFUSAL_CASE(constant, number, words)                                                                             \
    case constant:                                                                                                            \
        return words;

/* What a call answers. */
enum { TDD_ACCEPTED = 0 TDD_REFUSALS(TDD_REFUSAL_CONSTANT) };

/* What was wrong. Any number may be asked for. */
static inline const char *tdd_refusal_words(uint32_t refusal) {
    switch (refusal) {
    case TDD_ACCEPTED:
        return "accepted";
    TDD_REFUSALS(TDD_REFUSAL_CASE)
    default:
        return "no refusal has this number";
    }
}

#undef TDD_REFUSAL_CONSTANT
#undef TDD_REFUSAL_CASE

#endif
