/* What the calls leave of a bench of garbage: the fields that are theirs, and every other field as it was. */
#include <string.h>

#include "probe.h"

/* Every field is as it is due. What is in unused bytes is nobody's. */
static void same(bytes due_bench, bytes bench, const char *call) {
    for (int i = 0; i < FIELDS + SETTINGS; i++) {
        span field = in_bench[i < FIELDS ? i : i - FIELDS];
        size_t at = field.offset + (i < FIELDS ? 0 : sending);
        must(memcmp(due_bench.at + at, bench.at + at, field.size) == 0, call);
    }
}

static void put_gain(bytes *bench, size_t n, uint32_t gain) {
    bench->at[in_bench[GAINS].offset + 2 * n] = (unsigned char)gain;
    bench->at[in_bench[GAINS].offset + 2 * n + 1] = (unsigned char)(gain >> 8);
}

/* In a block of 16 entries code (q, k) owns 16/q from k * 16/q on. */
static void put_pairs(bytes *bench, uint32_t q, uint32_t k, int all_0) {
    unsigned char *table = bench->at + in_bench[PAIR_TABLE].offset;
    size_t own = 16 / q;
    for (size_t i = 0; i < PAIRS / q; i++)
        table[i / own * 16 + k * own + i % own] = all_0 ? 0 : pair(i);
}

/* The calls on a code, for each of the 31. */
static void check_codes(bytes of_type_2) {
    for (size_t n = 0; n < CODES; n++) {
        bytes closed = of_type_2, due_bench = of_type_2;
        uint32_t q, k;
        code(n, &q, &k);
        put_gain(&due_bench, n, 0x765);
        same(due_bench, AFTER(tdd_bench_set_gain, of_type_2, q, k, 0x765), "set_gain writes the code's gain");
        put_gain(&due_bench, n, 0);
        same(due_bench, AFTER(tdd_bench_close, of_type_2, q, k), "close writes the code's gain");
        due_bench = of_type_2;
        put_pairs(&due_bench, q, k, 0);
        same(due_bench, AFTER(tdd_bench_load_bits, of_type_2, q, k, bits, sizeof bits / q),
             "load_bits writes the code's pairs");
        put(&closed, GAINS, 0);
        due_bench = closed;
        put_gain(&due_bench, n, 0x765);
        put_pairs(&due_bench, q, k, 1);
        same(due_bench, AFTER(tdd_bench_open, closed, q, k, 0x765), "open writes the code's gain and pairs");
    }
}

static void put_sync(bytes *bench, const uint32_t sync[6]) {
    for (int i = 0; i < 6; i++)
        put(bench, ON + i, sync[i]);
}

/* The calls on sync and the cell. A row differs from the first in one number that set_sync is given. */
static void check_cell(bytes of_type_1) {
    static const uint32_t none[6] = {0};
    static const uint32_t rows[][6] = {{1, 2, 2, 0, 0xabc, 0x321}, {1, 1, 2, 0, 0xabc, 0x321},
                                       {1, 2, 1, 0, 0xabc, 0x321}, {1, 2, 2, 1, 0xabc, 0x321},
                                       {1, 2, 2, 0, 0x789, 0x321}, {1, 2, 2, 0, 0xabc, 0x789}};
    bytes due_bench = of_type_1;
    for (int i = 0; i < 6; i++) {
        const uint32_t *row = rows[i];
        put_sync(&due_bench, row);
        same(due_bench, AFTER(tdd_bench_set_sync, of_type_1, row[1], row[2], row[3], row[4], row[5]),
             "set_sync writes sync");
    }
    put_sync(&due_bench, none);
    same(due_bench, AFTER(tdd_bench_clear_sync, of_type_1), "clear_sync writes sync");
    put(&due_bench, CELL, 99);
    put(&due_bench, KIND, 3);
    put(&due_bench, GAINS, 0);
    same(due_bench, AFTER(tdd_bench_set_cell, of_type_1, 99, 3), "set_cell writes cell, kind, gains and sync");
}

static void check_slot(bytes idle) {
    int32_t re[5], im[5];
    bytes bench = AFTER(tdd_bench_start, idle), due_bench = idle;
    for (int i = 0; i < SETTINGS; i++)
        memcpy(due_bench.at + in_bench[i].offset + sending, idle.at + in_bench[i].offset, in_bench[i].size);
    put(&due_bench, RUNNING, 1);
    put(&due_bench, POSITION, 0);
    same(due_bench, bench, "start writes running, sending and position");
    put(&due_bench, POSITION, 5);
    same(due_bench, after_draw(bench, re, im, 5), "draw writes position");
}

/* Fresh: parameter 0, type 1, and 0 in every other field, over garbage, to the end of a bench. */
static void check_fresh(void) {
    bytes one = garbage(UNDER, 0), other = garbage(UNDER, 1), due_bench = {{0}};
    tdd_bench_fresh(&one);
    tdd_bench_fresh(&other);
    must(written(&one, &other) == bench_size, "a fresh bench's end");
    put(&due_bench, KIND, 1);
    due_bench.at[in_bench[KIND].offset + sending] = 1;
    same(due_bench, one, "a fresh bench");
    same(due_bench, other, "a fresh bench");
}

void check_what_calls_leave(void) {
    for (int pattern = 0; pattern < PATTERNS; pattern++) {
        check_codes(garbage_with(pattern, KIND, 2));
        check_cell(garbage_with(pattern, KIND, 1));
        check_slot(garbage_with(pattern, RUNNING, 0));
    }
    check_fresh();
}
