/*
 * What the probes share. They run calls on garbage: what goes in, and what lies where a result goes, is one of two
 * patterns that differ in every byte. A field is where its values stand in every run, in as many bytes as hold them.
 */
#ifndef PROBE_H
#define PROBE_H

#include <stddef.h>
#include <stdint.h>

#include "exports.h"
#include "table.h"

/* ---- Runs ---- */

/* Where bytes stand in a larger row. */
typedef struct {
    size_t offset;
    size_t size;
} span;

enum { PATTERNS = 2 };
enum { TAKEN = 1, UNDER = 2 };

/* No byte is 0, so that in a bench of garbage every code counts as open and a slot as under way. `seed` is TAKEN for
 * what goes in and UNDER for what lies where a result goes. */
bytes garbage(uint32_t seed, int pattern);

/* The values that the fields sought are due to have in a run stand in columns. */
enum { RUNS = 64, COLUMNS = 10 };

/* What runs left. */
extern bytes left[RUNS];
extern size_t runs;

/* Begins a probe. A field lies in the first `extent` bytes of what a run left and has at most `widest` bytes. */
void begin(size_t extent, size_t widest);
/* A run, with what its first two columns are due to hold: where its result goes, over garbage. */
bytes *run(int pattern, int64_t first, int64_t second);
/* What a column of the last run is due to hold. */
void due(size_t column, int64_t number);
/* The one place that holds a column's values in every run, as wide as it does. */
span seek(const char *name, size_t column);
/* Seeks a column, and notes it as that field of a result. */
span seek_field(const char *name, size_t column);

/* A refusal that has a hole behind it, which the library fills with zeroes: they look like more of the number, so no more than 4 bytes are taken for it. */
span seek_refusal(const char *name);

int holds(const bytes *b, span field, int64_t number);
uint64_t value(const bytes *b, span field);
/* Takes the next byte into a field that is found byte by byte. */
void extend(span *field, size_t byte, const char *name);
/* How many bytes a result has that was written over one pattern and over the other. */
size_t written(const bytes *over_one, const bytes *over_other);
/* The lowest offset of a struct's fields: there it begins. */
size_t beginning(const span *fields, size_t count);

/* ---- Benches ---- */

enum { CODES = 31, PAIRS = 2208 };

/* The fields of the settings; behind them those of the bench that are numbers. */
enum { CELL, KIND, GAINS, PAIR_TABLE, ON, SYNC_CASE, FRAME, HALF, GP, GS, SETTINGS };
enum { RUNNING = SETTINGS, POSITION, FIELDS };

extern size_t bench_size, bench_in_call, bench_in_plan, bench_in_draw;
extern span refusal_in_call;
/* Where the fields stand in a bench. Sending is the settings so many bytes further on. */
extern span in_bench[FIELDS];
extern size_t sending;

/* Where a result has the bench of garbage that went in. */
size_t where_bench(const bytes *from, const bytes *bench);
bytes bench_at(const bytes *from, size_t offset);
/* The bench that an accepted call left in `result`; AFTER makes the call. */
extern bytes result;
bytes accepted(void);
#define AFTER(call, ...) (call(&result, __VA_ARGS__), accepted())
bytes after_draw(bytes bench, int32_t *re, int32_t *im, size_t length);

void put(bytes *bench, int field, uint32_t number);
/* A bench of garbage but for one field. */
bytes garbage_with(int pattern, int field, uint32_t number);
/* Code n of the tree's 31, from the top. */
void code(size_t n, uint32_t *q, uint32_t *k);
/* Bits with no pattern, as many as a slot can have, and the pair at a place. */
extern uint8_t bits[2 * PAIRS];
unsigned char pair(size_t place);

#endif
