/*
 * The exports as the System V ABI for x86-64 has them, without the structs of the headers under test: a struct by value
 * is a row of bytes on the stack; a result of more than 16 bytes goes where a pointer before the first argument points;
 * a smaller one comes back in rax and rdx.
 */
#ifndef EXPORTS_H
#define EXPORTS_H

#include <stddef.h>
#include <stdint.h>

/* What a call takes on the stack, or leaves where its result goes, with room behind it, to see where it ends. */
enum { ROOM = 6144 };

typedef struct {
    unsigned char at[ROOM];
} bytes;

typedef struct {
    uint64_t rax;
    uint64_t rdx;
} registers;

void tdd_bench_fresh(bytes *result);
void tdd_bench_set_cell(bytes *result, bytes bench, uint32_t cell, uint32_t kind);
void tdd_bench_open(bytes *result, bytes bench, uint32_t q, uint32_t k, uint32_t gain);
void tdd_bench_load_records(bytes *result, bytes bench_and_plan, size_t count);
void tdd_bench_close(bytes *result, bytes bench, uint32_t q, uint32_t k);
void tdd_bench_set_gain(bytes *result, bytes bench, uint32_t q, uint32_t k, uint32_t gain);
void tdd_bench_load_bits(bytes *result, bytes bench, uint32_t q, uint32_t k, const uint8_t *bits, size_t count);
void tdd_bench_set_sync(
    bytes *result, bytes bench, uint32_t sync_case, uint32_t frame, uint32_t half, uint32_t gp, uint32_t gs);
void tdd_bench_clear_sync(bytes *result, bytes bench);
void tdd_bench_start(bytes *result, bytes bench);
void tdd_bench_draw(bytes *result, bytes bench, int32_t *re, size_t re_length, int32_t *im, size_t im_length);

registers tdd_read_sync(uint32_t sync_case, const int32_t *re, size_t re_length, const int32_t *im, size_t im_length);
void tdd_find(
    bytes *result, const int32_t *re, size_t re_length, const int32_t *im, size_t im_length, int32_t *scratch_re,
    size_t scratch_re_length, int32_t *scratch_im, size_t scratch_im_length);

/* The code rules take numbers alone. Each is given four: a register that a call does not take is not looked at. */
typedef registers rule(uint32_t, uint32_t, uint32_t, uint32_t);
rule tdd_element, tdd_related, tdd_code_group, tdd_scrambling_chip, tdd_primary_chip, tdd_secondary_chip,
    tdd_burst_start;
void tdd_allocation(bytes *result, uint32_t sync_case, uint32_t group, uint32_t frame, uint32_t half);

#endif
