/* tdd_plan_result, tdd_channel, tdd_plan_records. The records stand on the stack behind the bench. */
#include <string.h>

#include "probe.h"

enum { RECORDS = 17, NUMBERS = 3 };

size_t bench_in_plan;

static span refusal_in_plan, place_in_plan;

/* An argument on the stack begins at a multiple of 8. */
static size_t plan_at(void) {
    return (bench_size + 7) / 8 * 8;
}

static void put_number(bytes *b, size_t place, size_t number, uint32_t value) {
    memcpy(b->at + plan_at() + 4 * (NUMBERS * place + number), &value, 4);
}

/* A bench of garbage, and 17 records: the codes (16, k) and, related to the first, (16, 0), all with gain 1. */
static bytes with_plan(int pattern) {
    bytes b = garbage(TAKEN, pattern);
    for (uint32_t i = 0; i < RECORDS; i++) {
        put_number(&b, i, 0, 16);
        put_number(&b, i, 1, i % 16);
        put_number(&b, i, 2, 1);
    }
    return b;
}

/* tdd_plan_result: a plan whose record i has one bad number is refused 3, 4 or 5 at place i. */
static void probe_plan_result(void) {
    static const uint32_t bad[NUMBERS] = {3, 16, 0};
    begin(ROOM, 8);
    tdd_bench_load_records(run(0, 6, 16), with_plan(0), 17);
    tdd_bench_load_records(run(1, 6, 16), with_plan(0), 17);
    tdd_bench_load_records(run(0, 0, 0), with_plan(0), 16);
    tdd_bench_load_records(run(1, 0, 0), with_plan(1), 0);
    for (uint32_t i = 0; i < RECORDS * NUMBERS; i++) {
        bytes taken = with_plan(i % 2);
        put_number(&taken, i / NUMBERS, i % NUMBERS, bad[i % NUMBERS]);
        tdd_bench_load_records(run(i / 2 % 2, 3 + i % NUMBERS, i / NUMBERS), taken, RECORDS);
        bench_in_plan = where_bench(&left[runs - 1], &taken);
    }
    must(written(&left[0], &left[1]) == bench_in_plan + bench_size, "a tdd_plan_result's end");
    refusal_in_plan = seek_refusal("tdd_plan_result.refusal");
    place_in_plan = seek_field("tdd_plan_result.place", 1);
}

/* Whether a changed byte of what goes in makes a number of a record bad, and which. A byte 128 is bad in a q or a k, a
 * byte 0 in a gain of 1. With nothing changed the plan is refused 6, for no number. */
static int is_of_number(size_t byte, uint64_t *place, uint64_t *number) {
    static const unsigned char values[] = {128, 0};
    for (size_t i = 0; i < 2; i++) {
        bytes taken = with_plan(0);
        taken.at[byte] = values[i];
        tdd_bench_load_records(&result, taken, RECORDS);
        *place = value(&result, place_in_plan);
        *number = value(&result, refusal_in_plan) - 3;
        if (*number < NUMBERS)
            return 1;
    }
    return 0;
}

/* The bytes of every number of every record, among all that may be the plan's. */
static void seek_numbers(span at[RECORDS][NUMBERS]) {
    for (size_t byte = bench_size - 64; byte < plan_at() + 256; byte++) {
        uint64_t place, number;
        if (is_of_number(byte, &place, &number)) {
            must(place < RECORDS, "a place among the records");
            extend(&at[place][number], byte, "a record's number in one piece");
        }
    }
}

/* The first record shows how large a bench is as an argument, the others how large a record is. */
static void probe_records(void) {
    static const char *const names[NUMBERS] = {"tdd_channel.q", "tdd_channel.k", "tdd_channel.gain"};
    static span at[RECORDS][NUMBERS];
    size_t record;
    seek_numbers(at);
    must(beginning(at[0], NUMBERS) == plan_at(), "the records next to the bench");
    for (size_t number = 0; number < NUMBERS; number++)
        note_number(names[number], at[0][number].offset - plan_at(), at[0][number].size, 1);
    record = note_struct("tdd_channel");
    for (size_t i = 0; i < RECORDS * NUMBERS; i++) {
        span first = at[0][i % NUMBERS], field = at[i / NUMBERS][i % NUMBERS];
        must(field.size == first.size && field.offset == first.offset + i / NUMBERS * record, "17 records in a row");
    }
    note_inner("tdd_plan_records.records", 0, "tdd_channel", RECORDS);
    note_struct("tdd_plan_records");
}

void probe_plans(void) {
    probe_plan_result();
    probe_records();
}
