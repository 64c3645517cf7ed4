/* The results of the analyser and of the code rules. */
#include <string.h>

#include "probe.h"

/* A result that comes back in registers, as it does. */
static void keep(bytes *to, registers from) {
    memcpy(to->at, &from, sizeof from);
}

/* ---- The analyser ---- */

/* tdd_sync_result, in registers: of no chips, of bursts that the bench sends, and of case 3. */
static void probe_sync_result(void) {
    static const uint32_t rows[][4] = {{2, 36, 2, 1}, {1, 127, 2, 0}, {2, 80, 1, 0}};
    static int32_t re[2560], im[2560];
    begin(16, 4);
    keep(run(0, 19, 0), tdd_read_sync(1, re, 256, im, 256));
    for (size_t i = 0; i < 3; i++) {
        uint32_t sync_case = rows[i][0], cell = rows[i][1], frame = rows[i][2], half = rows[i][3], group = cell / 4;
        size_t at = group < 16 ? 48 * group : 720 + 48 * group;
        bytes bench;
        tdd_bench_fresh(&bench);
        bench = AFTER(tdd_bench_set_cell, bench, cell, 1);
        bench = AFTER(tdd_bench_set_sync, bench, sync_case, frame, half, 5, 7);
        after_draw(AFTER(tdd_bench_start, bench), re, im, 2560);
        keep(run(0, 0, group), tdd_read_sync(sync_case, re + at, 256, im + at, 256));
        due(2, frame);
        due(3, half);
    }
    keep(run(0, 14, 0), tdd_read_sync(3, re, 256, im, 256));
    seek_field("tdd_sync_result.refusal", 0);
    seek_field("tdd_sync_result.group", 1);
    seek_field("tdd_sync_result.frame", 2);
    seek_field("tdd_sync_result.half", 3);
    note_struct("tdd_sync_result");
}

/* tdd_find_result: where the primary code was put, `gain` times, and its size, which is (512 gain) squared. */
static void probe_find_result(void) {
    static const int32_t rows[][2] = {{7, 3}, {300, 1000}, {744, 90000}};
    static int32_t re[1000], im[1000], scratch_re[1000], scratch_im[1000];
    begin(ROOM, 8);
    for (int i = 0; i < 6; i++) {
        int64_t at = rows[i / 2][0], gain = rows[i / 2][1];
        memset(re, 0, sizeof re);
        for (uint32_t chip = 0; chip < 256; chip++)
            re[at + chip] = tdd_primary_chip(chip, 0, 0, 0).rax >> 32 == 1 ? (int32_t)gain : (int32_t)-gain;
        memcpy(im, re, sizeof im);
        tdd_find(run(i % 2, 0, at), re, 1000, im, 1000, scratch_re, 1000, scratch_im, 1000);
        due(2, 512 * gain * 512 * gain);
    }
    tdd_find(run(0, 12, 0), re, 1000, im, 999, scratch_re, 1000, scratch_im, 1000);
    tdd_find(run(1, 16, 0), re, 255, im, 255, scratch_re, 1000, scratch_im, 1000);
    seek_refusal("tdd_find_result.refusal");
    seek_field("tdd_find_result.start", 1);
    seek_field("tdd_find_result.size", 2);
    must(note_struct("tdd_find_result") == written(&left[0], &left[1]), "a tdd_find_result's end");
}

void probe_analyser_results(void) {
    probe_sync_result();
    probe_find_result();
}

/* ---- The code rules that answer in registers ---- */

/* A call, its refusal, and the numbers of its answer. */
typedef struct {
    rule *call;
    uint32_t with[4];
    int64_t due[3];
} answer;

/* Only the first `extent` bytes are the result's. */
static void run_rules(size_t extent, const answer *rows, size_t count) {
    begin(extent, 4);
    for (size_t i = 0; i < count; i++) {
        const uint32_t *with = rows[i].with;
        keep(run(0, rows[i].due[0], rows[i].due[1]), rows[i].call(with[0], with[1], with[2], with[3]));
        due(2, rows[i].due[2]);
    }
}

#define RUN_RULES(extent, rows) run_rules(extent, rows, sizeof rows / sizeof rows[0])

/* Of code (4, 1), which is 1 1 -1 -1; that it is related to (16, 5) and not to (16, 8). */
static void probe_tree_results(void) {
    static const answer elements[] = {
        {tdd_element, {4, 1, 0}, {0, 1}}, {tdd_element, {4, 1, 2}, {0, -1}}, {tdd_element, {3, 0, 0}, {3}},
        {tdd_element, {4, 4, 0}, {4}},    {tdd_element, {4, 1, 4}, {16}},
    };
    static const answer relations[] = {
        {tdd_related, {4, 1, 16, 5}, {0, 1}},
        {tdd_related, {4, 1, 16, 8}, {0, 0}},
        {tdd_related, {3, 0, 1, 0}, {3}},
        {tdd_related, {1, 0, 16, 16}, {4}},
    };
    RUN_RULES(8, elements);
    seek_field("tdd_element_result.refusal", 0);
    seek_field("tdd_element_result.element", 1);
    note_struct("tdd_element_result");
    RUN_RULES(8, relations);
    seek_field("tdd_related_result.refusal", 0);
    seek_field("tdd_related_result.related", 1);
    note_struct("tdd_related_result");
}

/* Of the groups of cells 8 and 127; that bursts start at 720 for group 15, 1488 for 16, 2208 for 31. */
static void probe_group_results(void) {
    static const answer groups[] = {
        {tdd_code_group, {8}, {0, 2}}, {tdd_code_group, {127}, {0, 31}}, {tdd_code_group, {128}, {1}}};
    static const answer starts[] = {
        {tdd_burst_start, {15}, {0, 720}},
        {tdd_burst_start, {16}, {0, 1488}},
        {tdd_burst_start, {31}, {0, 2208}},
        {tdd_burst_start, {32}, {1}},
    };
    RUN_RULES(8, groups);
    seek_field("tdd_group_result.refusal", 0);
    seek_field("tdd_group_result.group", 1);
    note_struct("tdd_group_result");
    RUN_RULES(8, starts);
    seek_field("tdd_start_result.refusal", 0);
    seek_field("tdd_start_result.start", 1);
    note_struct("tdd_start_result");
}

/* Of scrambling code 8, which begins j, -1, -j, -1; of the primary code, chip 48 of which is -1-j; of C1, chip 16 of
 * which is -1-j. */
static void probe_chip_result(void) {
    static const answer chips[] = {
        {tdd_scrambling_chip, {8, 0}, {0, 0, 1}},  {tdd_scrambling_chip, {8, 1}, {0, -1, 0}},
        {tdd_scrambling_chip, {8, 2}, {0, 0, -1}}, {tdd_scrambling_chip, {8, 3}, {0, -1, 0}},
        {tdd_primary_chip, {48}, {0, -1, -1}},     {tdd_secondary_chip, {1, 16}, {0, -1, -1}},
        {tdd_scrambling_chip, {128, 0}, {1}},      {tdd_primary_chip, {256}, {16}},
        {tdd_secondary_chip, {2, 0}, {16}},
    };
    span chip[2];
    size_t at;
    RUN_RULES(12, chips);
    seek_field("tdd_chip_result.refusal", 0);
    chip[0] = seek("tdd_chip_result.chip.re", 1);
    chip[1] = seek("tdd_chip_result.chip.im", 2);
    at = beginning(chip, 2);
    note_number("tdd_complex.re", chip[0].offset - at, chip[0].size, 1);
    note_number("tdd_complex.im", chip[1].offset - at, chip[1].size, 1);
    note_struct("tdd_complex");
    note_inner("tdd_chip_result.chip", at, "tdd_complex", 1);
    note_struct("tdd_chip_result");
}

/* ---- Allocation ---- */

/* The refusal and, of each of the three codes, its number and its unit's re and im. Two of document 01's instances, two
 * more that tell all fields apart, and refused ones; each over both patterns. */
static void run_allocations(void) {
    static const struct {
        uint32_t with[4];
        int64_t due[COLUMNS];
    } rows[] = {
        {{1, 31, 2, 0}, {0, 13, 0, -1, 14, 0, -1, 10, -1, 0}},
        {{2, 9, 2, 1}, {0, 10, -1, 0, 13, 1, 0, 14, -1, 0}},
        {{1, 29, 1, 0}, {0, 13, 0, 1, 14, 0, -1, 10, 1, 0}},
        {{1, 0, 1, 0}, {0, 1, 1, 0, 3, 1, 0, 5, 1, 0}},
        {{1, 32, 1, 0}, {1}},
        {{3, 0, 1, 0}, {14}},
        {{1, 0, 1, 1}, {15}},
    };
    begin(ROOM, 8);
    for (size_t i = 0; i < 2 * sizeof rows / sizeof rows[0]; i++) {
        const uint32_t *with = rows[i / 2].with;
        tdd_allocation(run(i % 2, 0, 0), with[0], with[1], with[2], with[3]);
        for (size_t column = 0; column < COLUMNS; column++)
            due(column, rows[i / 2].due[column]);
    }
}

/* tdd_modulated_code, by the first of the codes; the others must have the same form. */
static void note_modulated_code(const span at[3][3]) {
    size_t code_at = beginning(at[0], 3), unit_at = beginning(at[0] + 1, 2);
    note_number("tdd_modulated_code.code", at[0][0].offset - code_at, at[0][0].size, 1);
    note_inner("tdd_modulated_code.unit", unit_at - code_at, "tdd_complex", 1);
    note_struct("tdd_modulated_code");
    for (size_t i = 0; i < 9; i++) {
        span first = at[0][i % 3], field = at[i / 3][i % 3];
        must(field.size == first.size && field.offset - beginning(at[i / 3], 3) == first.offset - code_at,
             "three codes of one form");
    }
}

static void probe_allocation_result(void) {
    static const char *const names[] = {"tdd_allocated.first", "tdd_allocated.second", "tdd_allocated.marker"};
    span at[3][3];
    size_t codes_at;
    run_allocations();
    seek_field("tdd_allocation_result.refusal", 0);
    for (size_t i = 0; i < 9; i++)
        at[i / 3][i % 3] = seek("tdd_allocation_result.codes", 1 + i);
    note_modulated_code((const span(*)[3])at);
    codes_at = beginning(at[0], 9);
    for (size_t i = 0; i < 3; i++)
        note_inner(names[i], beginning(at[i], 3) - codes_at, "tdd_modulated_code", 1);
    note_struct("tdd_allocated");
    note_inner("tdd_allocation_result.codes", codes_at, "tdd_allocated", 1);
    must(note_struct("tdd_allocation_result") == written(&left[0], &left[1]), "a tdd_allocation_result's end");
}

void probe_code_results(void) {
    probe_tree_results();
    probe_group_results();
    probe_chip_result();
    probe_allocation_result();
}
