/* Runs, and the search for what they left. */
#include <string.h>

#include "probe.h"

bytes left[RUNS];
size_t runs;

static int64_t due_in[RUNS][COLUMNS];
static size_t extent, widest;

bytes garbage(uint32_t seed, int pattern) {
    bytes b;
    for (size_t i = 0; i < ROOM; i++) {
        unsigned char c;
        seed = seed * 1664525u + 1013904223u;
        c = (unsigned char)(1 + (seed >> 16) % 254);
        b.at[i] = pattern ? (unsigned char)(255 - c) : c;
    }
    return b;
}

void begin(size_t in_bytes, size_t at_most) {
    runs = 0;
    extent = in_bytes;
    widest = at_most;
}

bytes *run(int pattern, int64_t first, int64_t second) {
    must(runs < RUNS, "its answers in so few runs");
    left[runs] = garbage(UNDER, pattern);
    memset(due_in[runs], 0, sizeof due_in[runs]);
    due_in[runs][0] = first;
    due_in[runs][1] = second;
    return &left[runs++];
}

void due(size_t column, int64_t number) {
    due_in[runs - 1][column] = number;
}

int holds(const bytes *b, span field, int64_t number) {
    for (size_t i = 0; i < field.size; i++)
        if (b->at[field.offset + i] != (unsigned char)((uint64_t)number >> 8 * i))
            return 0;
    return 1;
}

uint64_t value(const bytes *b, span field) {
    uint64_t sum = 0;
    for (size_t i = field.size; i > 0; i--)
        sum = sum << 8 | b->at[field.offset + i - 1];
    return sum;
}

void extend(span *field, size_t byte, const char *name) {
    if (field->size == 0)
        field->offset = byte;
    must(field->offset + field->size == byte, name);
    field->size++;
}

static int holds_in_every_run(span field, size_t column) {
    for (size_t i = 0; i < runs; i++)
        if (!holds(&left[i], field, due_in[i][column]))
            return 0;
    return 1;
}

/* A number is at a multiple of its size. */
span seek(const char *name, size_t column) {
    for (size_t size = widest; size > 0; size /= 2) {
        span field = {0, size}, last = {0, 0};
        size_t places = 0;
        for (; field.offset + size <= extent; field.offset += size)
            if (holds_in_every_run(field, column)) {
                last = field;
                places++;
            }
        must(places < 2, name);
        if (places == 1)
            return last;
    }
    must(0, name);
    return (span){0, 0};
}

span seek_field(const char *name, size_t column) {
    span field = seek(name, column);
    note_number(name, field.offset, field.size, 1);
    return field;
}

span seek_refusal(const char *name) {
    size_t before = widest;
    span field;
    widest = 4;
    field = seek_field(name, 0);
    widest = before;
    return field;
}

/* The last byte that is the same over both patterns is the last that was written. */
size_t written(const bytes *over_one, const bytes *over_other) {
    size_t end = ROOM;
    while (end > 0 && over_one->at[end - 1] != over_other->at[end - 1])
        end--;
    return end;
}

size_t beginning(const span *fields, size_t count) {
    size_t lowest = fields[0].offset;
    for (size_t i = 1; i < count; i++)
        if (fields[i].offset < lowest)
            lowest = fields[i].offset;
    return lowest;
}
