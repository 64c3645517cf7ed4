/*
 * Every function of include/tdd_bench.h and include/tdd_codes.h as a host calls it: what it answers, and the whole
 * bench that it leaves, field by field. Says on standard error what was found and what is due, and ends with 1 where
 * anything differs.
 */
#include <inttypes.h>
#include <stdio.h>
#include <stdlib.h>
#include <string.h>

#include "tdd_bench.h"
#include "tdd_codes.h"

/* ---- Types: a function or a signed field that is declared otherwise does not compile ---- */

#define TYPE(function, ...) _Static_assert(_Generic(&function, __VA_ARGS__ : 1, default : 0), #function)
#define SIGNED(s, field, type) _Static_assert(_Generic(((s *)0)->field, type : 1, default : 0), #s "." #field)

typedef uint32_t u32;
typedef const int32_t *lent;
typedef int32_t *written;

TYPE(tdd_bench_fresh, tdd_bench (*)(void));
TYPE(tdd_bench_set_cell, tdd_call_result (*)(tdd_bench, u32, u32));
TYPE(tdd_bench_open, tdd_call_result (*)(tdd_bench, u32, u32, u32));
TYPE(tdd_bench_load_records, tdd_plan_result (*)(tdd_bench, tdd_plan_records, size_t));
TYPE(tdd_bench_close, tdd_call_result (*)(tdd_bench, u32, u32));
TYPE(tdd_bench_set_gain, tdd_call_result (*)(tdd_bench, u32, u32, u32));
TYPE(tdd_bench_load_bits, tdd_call_result (*)(tdd_bench, u32, u32, const uint8_t *, size_t));
TYPE(tdd_bench_set_sync, tdd_call_result (*)(tdd_bench, u32, u32, u32, u32, u32));
TYPE(tdd_bench_clear_sync, tdd_call_result (*)(tdd_bench));
TYPE(tdd_bench_start, tdd_call_result (*)(tdd_bench));
TYPE(tdd_bench_draw, tdd_draw_result (*)(tdd_bench, written, size_t, written, size_t));
TYPE(tdd_read, u32 (*)(u32, u32, u32, lent, size_t, lent, size_t, written, size_t, written, size_t));
TYPE(tdd_harden, u32 (*)(lent, size_t, lent, size_t, uint8_t *, size_t));
TYPE(tdd_read_sync, tdd_sync_result (*)(u32, lent, size_t, lent, size_t));
TYPE(tdd_find, tdd_find_result (*)(lent, size_t, lent, size_t, written, size_t, written, size_t));
TYPE(tdd_set_cell, u32 (*)(tdd_bench *, u32, u32));
TYPE(tdd_open, u32 (*)(tdd_bench *, u32, u32, u32));
TYPE(tdd_load_plan, u32 (*)(tdd_bench *, const tdd_channel *, size_t, size_t *));
TYPE(tdd_close, u32 (*)(tdd_bench *, u32, u32));
TYPE(tdd_set_gain, u32 (*)(tdd_bench *, u32, u32, u32));
TYPE(tdd_load_bits, u32 (*)(tdd_bench *, u32, u32, const uint8_t *, size_t));
TYPE(tdd_set_sync, u32 (*)(tdd_bench *, u32, u32, u32, u32, u32));
TYPE(tdd_clear_sync, u32 (*)(tdd_bench *));
TYPE(tdd_start, u32 (*)(tdd_bench *));
TYPE(tdd_draw, u32 (*)(tdd_bench *, written, size_t, written, size_t, size_t *));
TYPE(tdd_element, tdd_element_result (*)(u32, u32, u32));
TYPE(tdd_related, tdd_related_result (*)(u32, u32, u32, u32));
TYPE(tdd_code_group, tdd_group_result (*)(u32));
TYPE(tdd_scrambling_chip, tdd_chip_result (*)(u32, u32));
TYPE(tdd_primary_chip, tdd_chip_result (*)(u32));
TYPE(tdd_secondary_chip, tdd_chip_result (*)(u32, u32));
TYPE(tdd_allocation, tdd_allocation_result (*)(u32, u32, u32, u32));
TYPE(tdd_burst_start, tdd_start_result (*)(u32));
SIGNED(tdd_complex, re, int32_t);
SIGNED(tdd_complex, im, int32_t);
SIGNED(tdd_element_result, element, int32_t);
SIGNED(tdd_find_result, size, int64_t);

/* ---- What is found and what is due ---- */

static int differences;

/* `call` is the call that left it, or an empty string where `what` is the call itself. */
static void is(int64_t found, int64_t due, const char *what, const char *call, int line) {
    if (found == due)
        return;
    fprintf(stderr, "calls.c:%d: %s%s%s is %" PRId64 ", due is %" PRId64 "\n", line, what, *call ? " after " : "", call,
            found, due);
    if (++differences == 20)
        exit(EXIT_FAILURE);
}

#define IS(found, due) is((int64_t)(found), (int64_t)(due), #found, "", __LINE__)

/* The first entries of a row. */
static void row_is(const int32_t *found, const int32_t *due, size_t count, const char *what, int line) {
    for (size_t i = 0; i < count; i++)
        is(found[i], due[i], what, "", line);
}

#define ROW(...) (const int32_t[]){__VA_ARGS__}, sizeof((const int32_t[]){__VA_ARGS__}) / sizeof(int32_t)
#define ROW_IS(found, row) row_is(found, row, #found, __LINE__)

static void settings_are(const tdd_settings *found, const tdd_settings *due, const char *call, int line) {
    is(found->cell, due->cell, "cell", call, line);
    is(found->kind, due->kind, "kind", call, line);
    for (size_t i = 0; i < 31; i++)
        is(found->gains[i], due->gains[i], "an entry of gains", call, line);
    for (size_t i = 0; i < 2208; i++)
        is(found->pairs[i], due->pairs[i], "an entry of pairs", call, line);
    is(found->sync.on, due->sync.on, "sync.on", call, line);
    is(found->sync.sync_case, due->sync.sync_case, "sync.sync_case", call, line);
    is(found->sync.frame, due->sync.frame, "sync.frame", call, line);
    is(found->sync.half, due->sync.half, "sync.half", call, line);
    is(found->sync.gp, due->sync.gp, "sync.gp", call, line);
    is(found->sync.gs, due->sync.gs, "sync.gs", call, line);
}

static void bench_is(const tdd_bench *found, const tdd_bench *due, const char *call, int line) {
    settings_are(&found->settings, &due->settings, call, line);
    is(found->running, due->running, "running", call, line);
    settings_are(&found->sending, &due->sending, call, line);
    is((int64_t)found->position, (int64_t)due->position, "position", call, line);
}

/* The bench that a call is made on, what it was before, and what it is due to be after an accepted call. */
static tdd_bench bench, before, after;

static void begin(tdd_bench b) {
    bench = before = after = b;
}

/* The answer of a call on `bench`, and every field that it leaves. */
static void call_is(uint32_t found, uint32_t refusal, const char *call, int line) {
    is(found, refusal, call, "", line);
    bench_is(&bench, refusal ? &before : &after, call, line);
    bench = before;
}

#define ACCEPTS(call) call_is(call, 0, #call, __LINE__)
#define REFUSES(refusal, call) call_is(call, refusal, #call, __LINE__)

/* ---- Benches ---- */

/* Codes (4, 1) and (16, 15) are open, and a burst is sent. Numbers and bits differ with `n`. */
static tdd_settings settings(uint32_t cell, uint32_t kind, uint16_t n) {
    tdd_settings s = {.cell = cell, .kind = kind};
    s.gains[3 + 1] = 3 + n;
    s.gains[15 + 15] = 7 + n;
    for (unsigned i = 0; i < 2208; i++)
        s.pairs[i] = (uint8_t)((n + i / 3) % 4);
    s.sync = (tdd_sync){.on = 1, .sync_case = 2, .frame = 1, .half = 1, .gp = 11 + n, .gs = 22 + n};
    return s;
}

/* A slot is under way that was started with other settings. */
static tdd_bench busy(uint32_t kind) {
    return (tdd_bench){.settings = settings(8, kind, 0), .running = 1, .sending = settings(77, 3, 1), .position = 100};
}

/* In a block of 16 entries code (q, k) owns 16/q from k * 16/q on. */
static void put_pairs(tdd_settings *s, uint32_t q, uint32_t k, const uint8_t *bits) {
    size_t own = 16 / q;
    for (size_t i = 0; i < 2208 / q; i++)
        s->pairs[i / own * 16 + k * own + i % own] = bits ? (uint8_t)(2 * bits[2 * i] + bits[2 * i + 1]) : 0;
}

/* ---- The calls on settings ---- */

static void cells(void) {
    begin(busy(1));
    after.settings.cell = 99;
    after.settings.kind = 2;
    memset(after.settings.gains, 0, sizeof after.settings.gains);
    memset(&after.settings.sync, 0, sizeof after.settings.sync);
    ACCEPTS(tdd_set_cell(&bench, 99, 2));
    REFUSES(1, tdd_set_cell(&bench, 128, 4));
    REFUSES(2, tdd_set_cell(&bench, 127, 4));
    REFUSES(2, tdd_set_cell(&bench, 127, 0));
}

static void codes(void) {
    begin(busy(1));
    after.settings.gains[3 + 2] = 5;
    put_pairs(&after.settings, 4, 2, NULL);
    ACCEPTS(tdd_open(&bench, 4, 2, 5));
    REFUSES(3, tdd_open(&bench, 3, 5, 0));
    REFUSES(4, tdd_open(&bench, 4, 4, 0));
    REFUSES(5, tdd_open(&bench, 16, 5, 0));
    REFUSES(5, tdd_open(&bench, 4, 2, 4096));
    REFUSES(6, tdd_open(&bench, 16, 5, 1));

    begin(busy(1));
    after.settings.gains[3 + 1] = 0;
    ACCEPTS(tdd_close(&bench, 4, 1));
    REFUSES(3, tdd_close(&bench, 0, 0));
    REFUSES(4, tdd_close(&bench, 16, 16));
    REFUSES(7, tdd_close(&bench, 1, 0));

    begin(busy(1));
    after.settings.gains[3 + 1] = 4095;
    ACCEPTS(tdd_set_gain(&bench, 4, 1, 4095));
    REFUSES(3, tdd_set_gain(&bench, 32, 1, 1));
    REFUSES(4, tdd_set_gain(&bench, 2, 2, 1));
    REFUSES(5, tdd_set_gain(&bench, 4, 1, 4096));
    REFUSES(7, tdd_set_gain(&bench, 4, 0, 1));
}

/* Code (4, 1) has 2 (1104 + 1104) / 4 bits in burst type 2, and (16, 15) a quarter of them. */
static void bits_of_codes(void) {
    static uint8_t bits[1104], bad[1104];
    for (unsigned i = 0; i < 1104; i++)
        bits[i] = i * i / 7 % 2;
    bad[1103] = 2;

    begin(busy(2));
    put_pairs(&after.settings, 4, 1, bits);
    ACCEPTS(tdd_load_bits(&bench, 4, 1, bits, 1104));
    after = before;
    put_pairs(&after.settings, 16, 15, bits);
    ACCEPTS(tdd_load_bits(&bench, 16, 15, bits, 276));
    REFUSES(3, tdd_load_bits(&bench, 5, 1, bits, 1104));
    REFUSES(4, tdd_load_bits(&bench, 4, 5, bits, 1104));
    REFUSES(7, tdd_load_bits(&bench, 4, 2, bits, 1104));
    REFUSES(8, tdd_load_bits(&bench, 4, 1, bits, 1103));
    REFUSES(8, tdd_load_bits(&bench, 4, 1, NULL, 0));
    REFUSES(9, tdd_load_bits(&bench, 4, 1, bad, 1104));
}

static void sync_bursts(void) {
    tdd_bench quiet = busy(1);
    quiet.settings.sync.on = 0;
    begin(quiet);
    after.settings.sync = (tdd_sync){.on = 1, .sync_case = 1, .frame = 2, .half = 0, .gp = 123, .gs = 4095};
    ACCEPTS(tdd_set_sync(&bench, 1, 2, 0, 123, 4095));
    REFUSES(14, tdd_set_sync(&bench, 3, 3, 0, 1, 1));
    REFUSES(15, tdd_set_sync(&bench, 1, 3, 0, 1, 1));
    REFUSES(15, tdd_set_sync(&bench, 2, 1, 2, 1, 1));
    REFUSES(15, tdd_set_sync(&bench, 1, 1, 1, 1, 1));
    REFUSES(5, tdd_set_sync(&bench, 1, 1, 0, 0, 1));
    REFUSES(5, tdd_set_sync(&bench, 1, 1, 0, 1, 4096));

    begin(busy(1));
    memset(&after.settings.sync, 0, sizeof after.settings.sync);
    ACCEPTS(tdd_clear_sync(&bench));

    begin(busy(2));
    REFUSES(13, tdd_set_sync(&bench, 3, 3, 0, 1, 1));
}

/* ---- Plans ---- */

/* The longest is one that no stack has room for. */
enum { LONGEST = 1000000 };

/* A plan that begins with the codes (16, k), from k = 0 on and over again, that of place i with gain 100 + i. */
static tdd_channel plan[LONGEST];

static void make_plan(void) {
    for (uint32_t i = 0; i < 40; i++)
        plan[i] = (tdd_channel){.q = 16, .k = i % 16, .gain = 100 + i};
}

/* The place that was told, and one that never is, so that a place which is not written shows. */
static size_t place;
enum { UNTOLD = 999 };

#define PLACE_IS(due)                                                                                                  \
    do {                                                                                                               \
        IS(place, due);                                                                                                \
        place = UNTOLD;                                                                                                \
    } while (0)

static void accepted_plans(void) {
    make_plan();
    place = UNTOLD;
    begin(busy(1));
    memset(after.settings.gains, 0, sizeof after.settings.gains);
    ACCEPTS(tdd_load_plan(&bench, NULL, 0, &place));
    PLACE_IS(0);
    ACCEPTS(tdd_load_plan(&bench, NULL, 0, NULL));

    after.settings.gains[7 + 5] = 9;
    put_pairs(&after.settings, 8, 5, NULL);
    ACCEPTS(tdd_load_plan(&bench, &(tdd_channel){.q = 8, .k = 5, .gain = 9}, 1, NULL));

    after.settings.gains[7 + 5] = 0;
    for (uint16_t i = 0; i < 16; i++)
        after.settings.gains[15 + i] = 100 + i;
    memset(after.settings.pairs, 0, sizeof after.settings.pairs);
    ACCEPTS(tdd_load_plan(&bench, plan, 16, &place));
    PLACE_IS(0);
}

static void refused_plans(void) {
    make_plan();
    place = UNTOLD;
    begin(busy(1));
    REFUSES(6, tdd_load_plan(&bench, plan, 17, &place));
    PLACE_IS(16);
    REFUSES(6, tdd_load_plan(&bench, plan, 40, &place));
    PLACE_IS(16);
    REFUSES(6, tdd_load_plan(&bench, plan, LONGEST, &place));
    PLACE_IS(16);
    REFUSES(6, tdd_load_plan(&bench, plan, 40, NULL));
    plan[39].q = 3; /* behind the record that fails */
    plan[16].gain = 0;
    REFUSES(5, tdd_load_plan(&bench, plan, 40, &place));
    PLACE_IS(16);
    plan[15].k = 16;
    REFUSES(4, tdd_load_plan(&bench, plan, 16, &place));
    PLACE_IS(15);
    plan[3].q = 0;
    REFUSES(3, tdd_load_plan(&bench, plan, 17, &place));
    PLACE_IS(3);
    plan[0].gain = 4096;
    REFUSES(5, tdd_load_plan(&bench, plan, 1, &place));
    PLACE_IS(0);
}

/* ---- The slot ---- */

static void starts(void) {
    begin(busy(2));
    REFUSES(10, tdd_start(&bench));
    before.running = 0;
    bench = after = before;
    after.running = 1;
    after.sending = before.settings;
    after.position = 0;
    ACCEPTS(tdd_start(&bench));
}

/* Draws on a slot that has 100 chips out: of no chips, of some, and of more than are left. */
static void draws(void) {
    static int32_t re[3000], im[3000];
    size_t count = UNTOLD;
    begin(busy(1));
    ACCEPTS(tdd_draw(&bench, NULL, 0, NULL, 0, &count));
    IS(count, 0);
    ACCEPTS(tdd_draw(&bench, NULL, 0, NULL, 0, NULL));
    after.position = 105;
    ACCEPTS(tdd_draw(&bench, re, 5, im, 5, &count));
    IS(count, 5);
    after.position = 2560;
    after.running = 0;
    re[2460] = im[2460] = 55;
    ACCEPTS(tdd_draw(&bench, re, 3000, im, 3000, &count));
    IS(count, 2460);
    IS(re[2460], 55);
    IS(im[2460], 55);
    ACCEPTS(tdd_draw(&bench, re, 3000, im, 3000, NULL));
}

static void refused_draws(void) {
    int32_t re[3] = {1, 2, 3}, im[4] = {4, 5, 6, 7};
    size_t count = UNTOLD;
    begin(busy(1));
    REFUSES(12, tdd_draw(&bench, re, 3, im, 4, &count));
    IS(count, 0);
    REFUSES(12, tdd_draw(&bench, re, 1, NULL, 0, NULL));
    before.running = 0;
    bench = before;
    count = UNTOLD;
    REFUSES(11, tdd_draw(&bench, re, 3, im, 4, &count));
    IS(count, 0);
    REFUSES(11, tdd_draw(&bench, NULL, 0, NULL, 0, NULL));
    ROW_IS(re, ROW(1, 2, 3));
    ROW_IS(im, ROW(4, 5, 6, 7));
}

/* ---- The analyser ---- */

/* Document 01's instance 5: cell 8, (4, 1), gain 3, pair 01 is 3j, -3, 3j, 3, and reads 12. */
static void readings(void) {
    static uint8_t bits[976] = {0, 1};
    int32_t re[16], im[16], out_re[5] = {0, 0, 0, 0, 55}, out_im[5] = {0, 0, 0, 0, 66};
    bench = tdd_bench_fresh();
    IS(tdd_set_cell(&bench, 8, 1), 0);
    IS(tdd_open(&bench, 4, 1, 3), 0);
    IS(tdd_load_bits(&bench, 4, 1, bits, 976), 0);
    IS(tdd_start(&bench), 0);
    IS(tdd_draw(&bench, re, 16, im, 16, NULL), 0);
    ROW_IS(re, ROW(0, -3, 0, 3));
    ROW_IS(im, ROW(3, 0, 3, 0));
    IS(tdd_read(8, 4, 1, re, 16, im, 16, out_re, 5, out_im, 5), 0);
    ROW_IS(out_re, ROW(12, 0, 0, 0, 55));
    ROW_IS(out_im, ROW(0, 12, 12, 12, 66));
    IS(tdd_read(8, 4, 1, NULL, 0, NULL, 0, NULL, 0, NULL, 0), 16);
    IS(tdd_read(8, 4, 1, re, 16, im, 16, out_re, 3, out_im, 5), 18);
    IS(tdd_read(8, 4, 1, re, 16, im, 0, out_re, 5, out_im, 5), 12);
    ROW_IS(out_re, ROW(12, 0, 0, 0, 55));
}

/* Instance 12: readings 0, 5+5j, -5-5j harden to 00, 00, 10. */
static void hard_bits(void) {
    static const int32_t re[] = {0, 5, -5}, im[] = {0, 5, -5};
    uint8_t bits[7] = {9, 9, 9, 9, 9, 9, 9};
    IS(tdd_harden(re, 3, im, 2, bits, 7), 12);
    IS(tdd_harden(re, 3, im, 3, bits, 5), 18);
    IS(bits[0], 9);
    IS(tdd_harden(re, 3, im, 3, bits, 7), 0);
    for (size_t i = 0; i < 7; i++)
        IS(bits[i], i == 6 ? 9 : i == 4);
    IS(tdd_harden(NULL, 0, NULL, 0, NULL, 0), 0);
}

/* The burst of cell 80, group 20, which starts at chip 1680. Of gp alone the primary code has the size (512 gp)^2; the
 * secondary codes are orthogonal to it. */
static void bursts(void) {
    static int32_t re[2560], im[2560], scratch_re[2545], scratch_im[2545];
    tdd_sync_result burst;
    tdd_find_result place_of;
    bench = tdd_bench_fresh();
    IS(tdd_set_cell(&bench, 80, 1), 0);
    IS(tdd_set_sync(&bench, 2, 2, 1, 4000, 3000), 0);
    IS(tdd_start(&bench), 0);
    IS(tdd_draw(&bench, re, 2560, im, 2560, NULL), 0);
    burst = tdd_read_sync(2, re + 1680, 256, im + 1680, 256);
    IS(burst.refusal, 0);
    IS(burst.group, 20);
    IS(burst.frame, 2);
    IS(burst.half, 1);
    IS(tdd_read_sync(3, NULL, 0, NULL, 0).refusal, 14);
    IS(tdd_read_sync(1, NULL, 0, NULL, 0).refusal, 16);
    place_of = tdd_find(re, 2560, im, 2560, scratch_re, 2545, scratch_im, 2545);
    IS(place_of.refusal, 0);
    IS(place_of.start, 1680);
    IS(place_of.size, INT64_C(512) * 4000 * 512 * 4000);
    IS(tdd_find(NULL, 0, NULL, 0, NULL, 0, NULL, 0).refusal, 16);
}

/* ---- The code rules ---- */

#define CHIP_IS(call, due_re, due_im)                                                                                  \
    do {                                                                                                               \
        IS((call).refusal, 0);                                                                                         \
        IS((call).chip.re, due_re);                                                                                    \
        IS((call).chip.im, due_im);                                                                                    \
    } while (0)

static void rules(void) {
    IS(tdd_element(4, 1, 1).element, 1);
    IS(tdd_element(4, 1, 2).element, -1);
    IS(tdd_element(4, 1, 4).refusal, 16);
    IS(tdd_related(4, 1, 16, 5).related, 1);
    IS(tdd_related(4, 1, 16, 8).related, 0);
    IS(tdd_related(1, 0, 16, 16).refusal, 4);
    IS(tdd_code_group(127).group, 31);
    IS(tdd_code_group(128).refusal, 1);
    CHIP_IS(tdd_scrambling_chip(8, 0), 0, 1);
    CHIP_IS(tdd_scrambling_chip(8, 1), -1, 0);
    CHIP_IS(tdd_scrambling_chip(8, 2), 0, -1);
    CHIP_IS(tdd_primary_chip(48), -1, -1);
    CHIP_IS(tdd_secondary_chip(1, 16), -1, -1);
    IS(tdd_secondary_chip(2, 0).refusal, 16);
    IS(tdd_burst_start(16).start, 1488);
    IS(tdd_burst_start(32).refusal, 1);
}

/* Instance 8: case 1, group 31, frame 2 is -jC13, -jC14, -C10. */
static void allocations(void) {
    tdd_allocated a = tdd_allocation(1, 31, 2, 0).codes;
    IS(a.first.code, 13);
    IS(a.first.unit.re, 0);
    IS(a.first.unit.im, -1);
    IS(a.second.code, 14);
    IS(a.second.unit.re, 0);
    IS(a.second.unit.im, -1);
    IS(a.marker.code, 10);
    IS(a.marker.unit.re, -1);
    IS(a.marker.unit.im, 0);
    IS(tdd_allocation(1, 31, 2, 0).refusal, 0);
    IS(tdd_allocation(1, 31, 2, 1).refusal, 15);
}

int main(void) {
    cells();
    codes();
    bits_of_codes();
    sync_bursts();
    accepted_plans();
    refused_plans();
    starts();
    draws();
    refused_draws();
    readings();
    hard_bits();
    bursts();
    rules();
    allocations();
    return differences ? EXIT_FAILURE : EXIT_SUCCESS;
}
