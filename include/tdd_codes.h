/*
 * The code rules of TS 25.223 V3.3.0 for a marking tool. Link libtdd_codes.a.
 *
 * Every call takes any numbers and answers a struct by value: `refusal` is the refusal's number, or 0 where the call is accepted, and every other
 * field is 0 where it is refused; tdd_refusals.h has a constant for each number, and its words. No call reads or writes memory of the host's, keeps
 * anything, or can fail in another way; any thread may call.
 * Chips count from 0: scrambling chip 0 is the standard's element 1.
 *
 * A code (q, k) is a spreading factor q out of 1, 2, 4, 8, 16 and an index k from 0 to q - 1.
 */
#ifndef TDD_CODES_H
#define TDD_CODES_H

#include <stdint.h>

#include "tdd_refusals.h"

#ifdef __cplusplus
extern "C" {
#endif

/* A whole-number complex value. */
typedef struct {
    int32_t re;
    int32_t im;
} tdd_complex;

typedef struct {
    uint32_t refusal;
    int32_t element;
} tdd_element_result;

typedef struct {
    uint32_t refusal;
    uint32_t related;
} tdd_related_result;

typedef struct {
    uint32_t refusal;
    uint32_t group;
} tdd_group_result;

typedef struct {
    uint32_t refusal;
    tdd_complex chip;
} tdd_chip_result;

/* A secondary sync code's number with the unit that modulates it: 1, -1, j or -j. */
typedef struct {
    uint32_t code;
    tdd_complex unit;
} tdd_modulated_code;

/* The three codes that a code group sends beside the primary code: the pair, then the marker. */
typedef struct {
    tdd_modulated_code first;
    tdd_modulated_code second;
    tdd_modulated_code marker;
} tdd_allocated;

typedef struct {
    uint32_t refusal;
    tdd_allocated codes;
} tdd_allocation_result;

typedef struct {
    uint32_t refusal;
    uint32_t start;
} tdd_start_result;

/* Element `chip` of channelisation code (q, k): 1 or -1.
 * Refuses 3 bad q; 4 k not below q; 16 chip past the code's end. */
tdd_element_result tdd_element(uint32_t q, uint32_t k, uint32_t chip);

/* Whether codes (q1, k1) and (q2, k2) are equal or one lies above the other in the tree: 1, else 0.
 * Refuses 3 and 4 of the first code, then 3 and 4 of the second. */
tdd_related_result tdd_related(uint32_t q1, uint32_t k1, uint32_t q2, uint32_t k2);

/* The code group, 0 to 31, of a cell parameter, 0 to 127.
 * Refuses 1 parameter above 127. */
tdd_group_result tdd_code_group(uint32_t cell);

/* Chip 0 to 15 of a cell parameter's scrambling code: 1, j, -1 or -j.
 * Refuses 1 parameter above 127; 16 chip past the end. */
tdd_chip_result tdd_scrambling_chip(uint32_t cell, uint32_t chip);

/* Chip 0 to 255 of the primary sync code: 1+j or -1-j.
 * Refuses 16 chip past the end. */
tdd_chip_result tdd_primary_chip(uint32_t chip);

/* Chip 0 to 255 of secondary sync code `number`, out of 0, 1, 3, 4, 5, 6, 8, 10, 12, 13, 14, 15: 1+j or -1-j.
 * Refuses 16 number not listed, or chip past the end. */
tdd_chip_result tdd_secondary_chip(uint32_t number, uint32_t chip);

/* The three codes that a code group sends in case 1 or 2, frame 1 or 2, and half 0 (slot k) or 1 (slot k+8; case 2 alone).
 * Refuses 1 group above 31; 14 case not 1 or 2; 15 frame not 1 or 2, half above 1, or half 1 in case 1. */
tdd_allocation_result tdd_allocation(uint32_t sync_case, uint32_t group, uint32_t frame, uint32_t half);

/* The chip of the slot at which a code group's burst starts.
 * Refuses 1 group above 31. */
tdd_start_result tdd_burst_start(uint32_t group);

#ifdef __cplusplus
}
#endif

#endif
