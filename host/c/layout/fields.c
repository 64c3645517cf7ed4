/* The fields of a bench: tdd_bench, tdd_settings, tdd_sync. */
#include <string.h>

#include "probe.h"

span in_bench[FIELDS];
size_t sending;
uint8_t bits[2 * PAIRS];

void put(bytes *bench, int field, uint32_t number) {
    for (size_t i = 0; i < in_bench[field].size; i++)
        bench->at[in_bench[field].offset + i] = (unsigned char)(i < 4 ? number >> 8 * i : 0);
}

bytes garbage_with(int pattern, int field, uint32_t number) {
    bytes bench = garbage(TAKEN, pattern);
    put(&bench, field, number);
    return bench;
}

void code(size_t n, uint32_t *q, uint32_t *k) {
    for (*q = 1; n >= 2 * *q - 1;)
        *q *= 2;
    *k = (uint32_t)n + 1 - *q;
}

unsigned char pair(size_t place) {
    return (unsigned char)(2 * bits[2 * place] + bits[2 * place + 1]);
}

/* Cell and kind, as set_cell writes them over garbage. It closes every code; one is opened, so that no zeros are next
 * to kind. */
static void probe_cell(void) {
    static const uint32_t cells[] = {5, 127, 64};
    begin(bench_size, 8);
    for (uint32_t i = 0; i < 6; i++) {
        bytes bench = AFTER(tdd_bench_set_cell, garbage(TAKEN, i % 2), cells[i / 2], 1 + i / 2);
        *run(0, cells[i / 2], 1 + i / 2) = AFTER(tdd_bench_open, bench, 1, 0, 0xabc);
    }
    in_bench[CELL] = seek("tdd_settings.cell", 0);
    in_bench[KIND] = seek("tdd_settings.kind", 1);
}

/* The gain of each code, as set_gain writes it over garbage: 31 numbers in a row. */
static void probe_gains(void) {
    static const uint32_t gains[] = {0xabc, 0x543, 0xfff};
    for (size_t n = 0; n < CODES; n++) {
        uint32_t q, k;
        span gain;
        code(n, &q, &k);
        begin(bench_size, 8);
        for (int i = 0; i < 6; i++)
            *run(0, gains[i / 2], 0) = AFTER(tdd_bench_set_gain, garbage(TAKEN, i % 2), q, k, gains[i / 2]);
        gain = seek("tdd_settings.gains", 0);
        if (n == 0)
            in_bench[GAINS] = (span){gain.offset, CODES * gain.size};
        must(gain.size == 2 && gain.offset == in_bench[GAINS].offset + 2 * n, "31 gains of 2 bytes in a row");
    }
}

static void shuffle_bits(uint32_t seed) {
    for (size_t i = 0; i < sizeof bits; i++) {
        seed = seed * 1664525u + 1013904223u;
        bits[i] = seed >> 24 & 1;
    }
}

/* The pairs, as load_bits of (1, 0) writes as many as burst type 2 has, the most of the three. */
static void probe_pairs(void) {
    for (int i = 0; i < 4; i++) {
        unsigned char table[PAIRS];
        size_t places = 0;
        bytes bench;
        shuffle_bits((uint32_t)i);
        for (size_t n = 0; n < PAIRS; n++)
            table[n] = pair(n);
        bench = AFTER(tdd_bench_load_bits, garbage_with(i % 2, KIND, 2), 1, 0, bits, sizeof bits);
        for (size_t offset = 0; offset + PAIRS <= bench_size; offset++)
            if (memcmp(bench.at + offset, table, PAIRS) == 0) {
                must(i == 0 || offset == in_bench[PAIR_TABLE].offset, "the pairs where they were");
                in_bench[PAIR_TABLE] = (span){offset, PAIRS};
                places++;
            }
        must(places == 1, "one table of pairs");
    }
}

/* Sync, as set_sync and clear_sync write it over garbage; the burst type must be 1. Of `on` the first byte is sought:
 * with unused bytes behind it, what is written does not tell how many it has. */
static void probe_sync(void) {
    static const uint32_t rows[][5] = {
        {1, 1, 0, 0x123, 0xfed}, {1, 2, 0, 0x456, 0x123}, {2, 1, 1, 0xabc, 0x456}, {2, 2, 0, 0xfed, 0xabc}};
    static const char *const names[] = {
        "tdd_sync.sync_case", "tdd_sync.frame", "tdd_sync.half", "tdd_sync.gp", "tdd_sync.gs"};
    begin(bench_size, 8);
    for (int i = 0; i < 8; i++) {
        const uint32_t *row = rows[i / 2];
        bytes bench = garbage_with(i % 2, KIND, 1);
        *run(0, row[0], row[1]) = AFTER(tdd_bench_set_sync, bench, row[0], row[1], row[2], row[3], row[4]);
        due(2, row[2]);
        due(3, row[3]);
        due(4, row[4]);
    }
    for (size_t column = 0; column < 5; column++)
        in_bench[SYNC_CASE + column] = seek(names[column], column);
    begin(bench_size, 1);
    for (int i = 0; i < 8; i++) {
        const uint32_t *row = rows[i / 2];
        bytes bench = garbage_with(i % 2, KIND, 1);
        *run(0, 1, 0) = AFTER(tdd_bench_set_sync, bench, row[0], row[1], row[2], row[3], row[4]);
        *run(0, 0, 0) = AFTER(tdd_bench_clear_sync, bench);
    }
    in_bench[ON] = seek("tdd_sync.on", 0);
}

/* Running: the bytes that make start refuse 10 when all others are 0, and without which it is accepted when none is. */
static void probe_running(void) {
    bytes full;
    for (size_t byte = 0; byte < bench_size; byte++) {
        bytes empty = {{0}};
        empty.at[byte] = 128;
        tdd_bench_start(&result, empty);
        if (holds(&result, refusal_in_call, 10))
            extend(&in_bench[RUNNING], byte, "tdd_bench.running");
    }
    memset(&full, 255, sizeof full);
    put(&full, RUNNING, 0);
    AFTER(tdd_bench_start, full);
}

/* Whether a burst is sent at the slot's beginning. */
static int sends(bytes bench) {
    int32_t re[256], im[256];
    after_draw(AFTER(tdd_bench_start, bench), re, im, 256);
    for (size_t i = 0; i < 256; i++)
        if (re[i] || im[i])
            return 1;
    return 0;
}

/* On: with no code open, the bytes of the settings that let the burst be sent. */
static void probe_on(void) {
    span on = {0, 0}, gains = in_bench[GAINS];
    bytes quiet = AFTER(tdd_bench_set_cell, garbage_with(0, RUNNING, 0), 0, 1);
    quiet = AFTER(tdd_bench_set_sync, quiet, 1, 1, 0, 4095, 4095);
    must(sends(quiet), "a burst after set_sync");
    put(&quiet, ON, 0);
    for (size_t byte = 0; byte < in_bench[RUNNING].offset; byte++) {
        bytes bench = quiet;
        bench.at[byte] ^= 128;
        if ((byte < gains.offset || byte >= gains.offset + gains.size) && sends(bench))
            extend(&on, byte, "tdd_sync.on");
    }
    must(on.offset == in_bench[ON].offset, "`on` where set_sync writes it");
    in_bench[ON] = on;
}

/* Sending: start copies every field of the settings, all of them equally far. */
static void probe_sending(void) {
    bytes bench = garbage_with(0, RUNNING, 0), after = AFTER(tdd_bench_start, bench);
    const unsigned char *table = bench.at + in_bench[PAIR_TABLE].offset;
    for (sending = 1; in_bench[PAIR_TABLE].offset + sending + PAIRS <= bench_size; sending++)
        if (memcmp(after.at + in_bench[PAIR_TABLE].offset + sending, table, PAIRS) == 0)
            break;
    for (int i = 0; i < SETTINGS; i++) {
        size_t from = in_bench[i].offset;
        must(memcmp(after.at + from + sending, bench.at + from, in_bench[i].size) == 0, "a copy of the settings");
    }
}

/* Position: 0 over garbage after start, then how many chips are out, past 255 too. With the last chip running is 0. */
static void probe_position(void) {
    static const size_t lengths[] = {1, 254, 1, 2303};
    static int32_t re[2560], im[2560];
    bytes bench;
    begin(bench_size, 8);
    for (int pattern = 0; pattern < PATTERNS; pattern++) {
        int64_t out = 0;
        bench = AFTER(tdd_bench_start, garbage_with(pattern, RUNNING, 0));
        *run(0, 0, 0) = bench;
        for (size_t i = 0; i < 4; i++) {
            bench = after_draw(bench, re, im, lengths[i]);
            out += (int64_t)lengths[i];
            *run(0, out, 0) = bench;
        }
        must(holds(&bench, in_bench[RUNNING], 1), "running 1 before the last chip");
    }
    in_bench[POSITION] = seek("tdd_bench.position", 0);
    bench = after_draw(bench, re, im, 1);
    must(holds(&bench, in_bench[RUNNING], 0), "running 0 after the last chip");
}

static void note_settings(size_t settings, size_t sync) {
    static const char *const names[SETTINGS] = {
        "tdd_settings.cell",  "tdd_settings.kind", "tdd_settings.gains", "tdd_settings.pairs", "tdd_sync.on",
        "tdd_sync.sync_case", "tdd_sync.frame",    "tdd_sync.half",      "tdd_sync.gp",        "tdd_sync.gs"};
    for (int i = 0; i < SETTINGS; i++) {
        size_t entries = i == GAINS ? CODES : i == PAIR_TABLE ? PAIRS : 1;
        note_number(names[i], in_bench[i].offset - (i < ON ? settings : sync), in_bench[i].size / entries, entries);
    }
    note_struct("tdd_sync");
    note_inner("tdd_settings.sync", sync - settings, "tdd_sync", 1);
    note_struct("tdd_settings");
}

static void note_bench(void) {
    size_t settings = beginning(in_bench, SETTINGS), sync = beginning(in_bench + ON, SETTINGS - ON);
    note_settings(settings, sync);
    note_inner("tdd_bench.settings", settings, "tdd_settings", 1);
    note_number("tdd_bench.running", in_bench[RUNNING].offset, in_bench[RUNNING].size, 1);
    note_inner("tdd_bench.sending", settings + sending, "tdd_settings", 1);
    note_number("tdd_bench.position", in_bench[POSITION].offset, in_bench[POSITION].size, 1);
    must(note_struct("tdd_bench") == bench_size, "a bench that ends with its last field");
    note_inner("tdd_call_result.bench", bench_in_call, "tdd_bench", 1);
    note_inner("tdd_plan_result.bench", bench_in_plan, "tdd_bench", 1);
    note_inner("tdd_draw_result.bench", bench_in_draw, "tdd_bench", 1);
    note_struct("tdd_call_result");
    note_struct("tdd_plan_result");
    note_struct("tdd_draw_result");
}

void probe_bench_fields(void) {
    probe_cell();
    probe_gains();
    probe_pairs();
    probe_sync();
    probe_running();
    probe_on();
    probe_sending();
    probe_position();
    note_bench();
}
