/* The results that a bench comes back in: where they have it, and what stands before it. */
#include <string.h>

#include "probe.h"

size_t bench_size, bench_in_call, bench_in_draw;
span refusal_in_call;
bytes result;

/* At the one place with the bench's first 16 bytes. */
size_t where_bench(const bytes *from, const bytes *bench) {
    size_t places = 0, last = 0;
    for (size_t i = 0; i + 16 <= ROOM; i++)
        if (memcmp(from->at + i, bench->at, 16) == 0) {
            last = i;
            places++;
        }
    must(places == 1, "one bench in a result");
    return last;
}

bytes bench_at(const bytes *from, size_t offset) {
    bytes b = garbage(TAKEN, 0);
    memcpy(b.at, from->at + offset, bench_size);
    return b;
}

bytes accepted(void) {
    must(holds(&result, refusal_in_call, 0), "a call that is accepted");
    return bench_at(&result, bench_in_call);
}

bytes after_draw(bytes bench, int32_t *re, int32_t *im, size_t length) {
    tdd_bench_draw(&result, bench, re, length, im, length);
    return bench_at(&result, bench_in_draw);
}

/* Every export that answers a tdd_call_result, on a bench of garbage: refused, but for the last. */
static void run_calls(bytes bench, int pattern) {
    tdd_bench_set_cell(run(pattern, 1, 0), bench, 128, 1);
    tdd_bench_set_cell(run(pattern, 2, 0), bench, 0, 0);
    tdd_bench_load_bits(run(pattern, 3, 0), bench, 3, 0, NULL, 0);
    tdd_bench_close(run(pattern, 4, 0), bench, 4, 4);
    tdd_bench_set_gain(run(pattern, 5, 0), bench, 16, 15, 4096);
    tdd_bench_open(run(pattern, 6, 0), bench, 1, 0, 1);
    tdd_bench_start(run(pattern, 10, 0), bench);
    tdd_bench_set_sync(run(pattern, 13, 0), bench, 1, 1, 0, 1, 1);
    tdd_bench_clear_sync(run(pattern, 0, 0), bench);
}

/* tdd_call_result: the refusal, the bench behind it, and nothing behind that. So the size of a bench is known. */
static void probe_call_result(void) {
    size_t end = 0;
    begin(ROOM, 8);
    for (int pattern = 0; pattern < PATTERNS; pattern++) {
        bytes bench = garbage(TAKEN, pattern);
        size_t one = runs, other;
        run_calls(bench, 0);
        other = runs;
        run_calls(bench, 1);
        for (size_t i = 0; one + i < other; i++) {
            size_t at = where_bench(&left[one + i], &bench), to = written(&left[one + i], &left[other + i]);
            must(end == 0 || (at == bench_in_call && to == end), "the same tdd_call_result from every export");
            bench_in_call = at;
            end = to;
        }
    }
    bench_size = end - bench_in_call;
    refusal_in_call = seek_refusal("tdd_call_result.refusal");
}

/* Refused draws, which count 0, and draws of 1, 300 and the 2,259 chips that are then left. */
static void run_draws(int pattern) {
    static const size_t lengths[] = {1, 300, 5000};
    static const int64_t counts[] = {1, 300, 2259};
    static int32_t re[5000], im[5000];
    bytes bench = garbage(TAKEN, 0);
    tdd_bench_draw(run(pattern, 12, 0), bench, re, 4, im, 3);
    bench_in_draw = where_bench(&left[runs - 1], &bench);
    tdd_bench_fresh(&bench);
    tdd_bench_draw(run(pattern, 11, 0), bench, re, 1, im, 1);
    bench = AFTER(tdd_bench_start, bench);
    for (size_t i = 0; i < 3; i++) {
        tdd_bench_draw(run(pattern, 0, counts[i]), bench, re, lengths[i], im, lengths[i]);
        bench = bench_at(&left[runs - 1], bench_in_draw);
    }
}

static void probe_draw_result(void) {
    size_t other;
    begin(ROOM, 8);
    run_draws(0);
    other = runs;
    run_draws(1);
    for (size_t i = 0; i < other; i++)
        must(written(&left[i], &left[other + i]) == bench_in_draw + bench_size, "a tdd_draw_result's end");
    seek_refusal("tdd_draw_result.refusal");
    seek_field("tdd_draw_result.count", 1);
}

void probe_bench_results(void) {
    probe_call_result();
    probe_draw_result();
}
