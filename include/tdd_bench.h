/*
 * The timeslot bench and the analyser for a host's panel. Link libtdd_bench.a.
 *
 *     tdd_bench bench = tdd_bench_fresh();
 *     uint32_t refusal = tdd_open(&bench, 4, 1, 3);
 *     if (refusal)
 *         printf("refused %" PRIu32 ": %s\n", refusal, tdd_refusal_words(refusal));
 *
 * Every call answers its refusal's number, or 0 where it is accepted. A number is given if its condition holds and no earlier one of the call's list
 * does; the lists stand at the calls, in their order. tdd_refusals.h has a constant for each number, and its words.
 *
 * A refused call leaves the bench and every buffer as they were. An accepted one writes what its comment says and leaves later entries as they were. The
 * place of load plan and the count of draw are written either way.
 * While a slot is under way, calls change the settings of the next one: a slot keeps those of its start.
 *
 * What the host owes; nothing checks it:
 * - a pointer to a bench points to one: what tdd_bench_fresh gave, or any bytes of that size and alignment. Every pattern of bytes is a bench, and every
 *   call on it ends and stays within what it was lent;
 * - each buffer has as many entries as its length says (one of length 0 may be a null pointer), and is aligned as its type asks;
 * - what a call writes (the chips of a draw, answer buffers, scratch, place, count) overlaps nothing else that it was given, nor the bench;
 * - no other thread uses the bench or a buffer during a call. Calls on different benches may run at once: the library keeps nothing;
 * - some 48 KB of stack: a bench is 4.6 KB, and goes by value.
 *
 * Benches whose fields are equal are the same bench. Do not compare by memcmp or a digest of the bytes: the unused bytes between the fields may hold
 * anything. Benches whose fields differ may still answer alike: what a closed code or a slot that has ended left behind is not seen.
 */
#ifndef TDD_BENCH_H
#define TDD_BENCH_H

#include <stddef.h>
#include <stdint.h>

#include "tdd_refusals.h"

#ifdef __cplusplus
extern "C" {
#endif

/* ---- The bench. A host keeps it and hands it to the calls; only they need to know what is in it. ---- */

/* `on` is 0 where no sync burst is sent. */
typedef struct {
    uint8_t on;
    uint32_t sync_case;
    uint32_t frame;
    uint32_t half;
    uint16_t gp;
    uint16_t gs;
} tdd_sync;

/* Code (q, k) has its gain at gains[q - 1 + k], 0 where it is not open. A pair of bits is one number, twice the first bit and the second, block by block
 * of 16 chips, both fields in a row: in a block code (q, k) owns 16/q entries from k * 16/q on. */
typedef struct {
    uint32_t cell;
    uint32_t kind;
    uint16_t gains[31];
    uint8_t pairs[2208];
    tdd_sync sync;
} tdd_settings;

/* While `running` is not 0 a slot is under way: `sending` are the settings at its start, and `position` is how many of its chips are out. */
typedef struct {
    tdd_settings settings;
    uint8_t running;
    tdd_settings sending;
    size_t position;
} tdd_bench;

/* A record of a plan: code (q, k) with its gain. */
typedef struct {
    uint32_t q;
    uint32_t k;
    uint32_t gain;
} tdd_channel;

/* ---- What the library exports: a bench goes in by value, and the new one comes back beside the answer. For hosts in C the functions below are nicer. ---- */

typedef struct {
    uint32_t refusal;
    tdd_bench bench;
} tdd_call_result;

/* `place` is that of the record that failed, from 0, and 0 where the plan is accepted. */
typedef struct {
    uint32_t refusal;
    size_t place;
    tdd_bench bench;
} tdd_plan_result;

/* `count` is how many chips were written, and 0 where the draw is refused. */
typedef struct {
    uint32_t refusal;
    size_t count;
    tdd_bench bench;
} tdd_draw_result;

/* At most 16 codes can be open together, so in a longer plan one of the first 17 records fails: they decide. A plan is the first `count` of them, or all 17
 * where `count` is larger. */
typedef struct {
    tdd_channel records[17];
} tdd_plan_records;

tdd_bench tdd_bench_fresh(void);
tdd_call_result tdd_bench_set_cell(tdd_bench bench, uint32_t cell, uint32_t kind);
tdd_call_result tdd_bench_open(tdd_bench bench, uint32_t q, uint32_t k, uint32_t gain);
tdd_plan_result tdd_bench_load_records(tdd_bench bench, tdd_plan_records plan, size_t count);
tdd_call_result tdd_bench_close(tdd_bench bench, uint32_t q, uint32_t k);
tdd_call_result tdd_bench_set_gain(tdd_bench bench, uint32_t q, uint32_t k, uint32_t gain);
tdd_call_result tdd_bench_load_bits(tdd_bench bench, uint32_t q, uint32_t k, const uint8_t *bits, size_t count);
tdd_call_result tdd_bench_set_sync(tdd_bench bench, uint32_t sync_case, uint32_t frame, uint32_t half, uint32_t gp, uint32_t gs);
tdd_call_result tdd_bench_clear_sync(tdd_bench bench);
tdd_call_result tdd_bench_start(tdd_bench bench);
tdd_draw_result tdd_bench_draw(tdd_bench bench, int32_t *re, size_t re_length, int32_t *im, size_t im_length);

/* ---- The analyser. Complex values come as a re and an im buffer. ---- */

/* Reads code (q, k) of a cell parameter from a field of chips: one reading for q chips, into the first length/q entries of the two answer buffers.
 * Refuses 1; 3; 4; 12 the field's two lengths differ; 16 length 0, above 1104 or no multiple of 16; 17; 18 an answer buffer shorter than length/q. */
uint32_t tdd_read(
    uint32_t cell, uint32_t q, uint32_t k, const int32_t *re, size_t re_length, const int32_t *im, size_t im_length, int32_t *out_re,
    size_t out_re_length, int32_t *out_im, size_t out_im_length);

/* The hard bits of readings, two bytes a reading, one a bit, 0 or 1, into the first entries of `bits`: of the pairs 00, 01, 10, 11, which score im, re,
 * -re, -im, the one with the largest score, the earliest on a tie.
 * Refuses 12; 18 fewer than two bytes a reading. */
uint32_t tdd_harden(const int32_t *re, size_t re_length, const int32_t *im, size_t im_length, uint8_t *bits, size_t bits_length);

/* `group`, `frame` and `half` are 0 where the call is refused. */
typedef struct {
    uint32_t refusal;
    uint32_t group;
    uint32_t frame;
    uint32_t half;
} tdd_sync_result;

/* What the sync burst in 256 chips was sent for in case 1 or 2: code group 0 to 31, frame 1 or 2, half 0 (slot k) or 1 (slot k+8).
 * Refuses 14; 12; 16 length not 256; 17; 19. */
tdd_sync_result tdd_read_sync(uint32_t sync_case, const int32_t *re, size_t re_length, const int32_t *im, size_t im_length);

/* `start` and `size` are 0 where the call is refused. */
typedef struct {
    uint32_t refusal;
    size_t start;
    int64_t size;
} tdd_find_result;

/* The smallest start of the 256 chips of a recording whose correlation with the primary sync code has the largest squared size, and that size. The last
 * two buffers are scratch: an accepted find may write any of their entries.
 * Refuses 12 the recording's two lengths differ; 16 fewer than 256 chips or more than 5120; 17; 18 a scratch buffer shorter than the recording less 15. */
tdd_find_result tdd_find(
    const int32_t *re, size_t re_length, const int32_t *im, size_t im_length, int32_t *scratch_re, size_t scratch_re_length, int32_t *scratch_im,
    size_t scratch_im_length);

/* ---- The bench's calls on a bench that the host keeps. Each answers its refusal, or 0. ---- */

/* Cell parameter 0 to 127 and burst type 1, 2 or 3: closes every code and clears sync.
 * Refuses 1; 2. */
static inline uint32_t tdd_set_cell(tdd_bench *bench, uint32_t cell, uint32_t kind) {
    tdd_call_result r = tdd_bench_set_cell(*bench, cell, kind);
    if (r.refusal == 0)
        *bench = r.bench;
    return r.refusal;
}

/* Opens code (q, k) with this gain and bits all 0.
 * Refuses 3; 4; 5; 6. */
static inline uint32_t tdd_open(tdd_bench *bench, uint32_t q, uint32_t k, uint32_t gain) {
    tdd_call_result r = tdd_bench_open(*bench, q, k, gain);
    if (r.refusal == 0)
        *bench = r.bench;
    return r.refusal;
}

/* Replaces all open codes by those of the plan, with bits all 0, or changes nothing; an empty plan closes every code. `place`, where it is not null, gets
 * the place from 0 of the record that failed, and 0 where the plan is accepted.
 * Refuses 3; 4; 5; 6 as open would for the first record that fails, taken in order against earlier records only. */
static inline uint32_t tdd_load_plan(tdd_bench *bench, const tdd_channel *plan, size_t count, size_t *place) {
    tdd_plan_records first = {{{0, 0, 0}}};
    tdd_plan_result r;
    for (size_t i = 0; i < count && i < 17; i++)
        first.records[i] = plan[i];
    r = tdd_bench_load_records(*bench, first, count);
    if (r.refusal == 0)
        *bench = r.bench;
    if (place)
        *place = r.place;
    return r.refusal;
}

/* Closes code (q, k).
 * Refuses 3; 4; 7. */
static inline uint32_t tdd_close(tdd_bench *bench, uint32_t q, uint32_t k) {
    tdd_call_result r = tdd_bench_close(*bench, q, k);
    if (r.refusal == 0)
        *bench = r.bench;
    return r.refusal;
}

/* A new gain for an open code, which keeps its bits.
 * Refuses 3; 4; 5; 7. */
static inline uint32_t tdd_set_gain(tdd_bench *bench, uint32_t q, uint32_t k, uint32_t gain) {
    tdd_call_result r = tdd_bench_set_gain(*bench, q, k, gain);
    if (r.refusal == 0)
        *bench = r.bench;
    return r.refusal;
}

/* The bits of an open code, one byte a bit, 0 or 1, field 1's first: 2 (F1 + F2) / q of them, F1 and F2 being 976 and 976 chips in type 1, 1104 and 1104
 * in type 2, 976 and 880 in type 3.
 * Refuses 3; 4; 7; 8; 9. */
static inline uint32_t tdd_load_bits(tdd_bench *bench, uint32_t q, uint32_t k, const uint8_t *bits, size_t count) {
    tdd_call_result r = tdd_bench_load_bits(*bench, q, k, bits, count);
    if (r.refusal == 0)
        *bench = r.bench;
    return r.refusal;
}

/* Sends the sync burst of the cell's code group, with gains gp of the primary code and gs of the secondary codes.
 * Refuses 13; 14; 15; 5 either gain. */
static inline uint32_t tdd_set_sync(tdd_bench *bench, uint32_t sync_case, uint32_t frame, uint32_t half, uint32_t gp, uint32_t gs) {
    tdd_call_result r = tdd_bench_set_sync(*bench, sync_case, frame, half, gp, gs);
    if (r.refusal == 0)
        *bench = r.bench;
    return r.refusal;
}

/* Sends no sync burst. Refuses nothing. */
static inline uint32_t tdd_clear_sync(tdd_bench *bench) {
    tdd_call_result r = tdd_bench_clear_sync(*bench);
    if (r.refusal == 0)
        *bench = r.bench;
    return r.refusal;
}

/* Starts a slot of 2,560 chips, which keeps the settings of now.
 * Refuses 10. */
static inline uint32_t tdd_start(tdd_bench *bench) {
    tdd_call_result r = tdd_bench_start(*bench);
    if (r.refusal == 0)
        *bench = r.bench;
    return r.refusal;
}

/* Writes the next chips of the slot under way, as many as the smaller of the buffers' length and the chips left; after the last one there is no slot.
 * `count`, where it is not null, gets how many, and 0 where the draw is refused.
 * Refuses 11; 12. */
static inline uint32_t tdd_draw(tdd_bench *bench, int32_t *re, size_t re_length, int32_t *im, size_t im_length, size_t *count) {
    tdd_draw_result r = tdd_bench_draw(*bench, re, re_length, im, im_length);
    if (r.refusal == 0) {
        /* Of the bench a draw changes these two alone, so the rest, some 4.6 KB, is not copied back for every piece. */
        bench->running = r.bench.running;
        bench->position = r.bench.position;
    }
    if (count)
        *count = r.count;
    return r.refusal;
}

#ifdef __cplusplus
}
#endif

#endif
