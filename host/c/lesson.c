/*
 * The lesson lessons/first-slot.txt as a C host: one channel, from bits to chips and back. It prints what the script is
 * answered. From the repository's root:
 *
 *     cc -std=c99 -Iinclude host/c/lesson.c -Llib -ltdd_bench -o target/lesson && target/lesson
 */
#include <inttypes.h>
#include <stdio.h>
#include <stdlib.h>

#include "tdd_bench.h"

enum {
    CELL = 8, /* cell parameter */
    TYPE = 1, /* burst type: fields of 976 and 976 chips */
    Q = 4,    /* the channel's code is (Q, K) */
    K = 1,
    GAIN = 3,
    BITS = 976,  /* of a slot: 2 (976 + 976) / Q */
    FIRST = 16,  /* chips of the first draw */
    ASKED = 5000 /* chips that the second draw asks for, more than the slot has left */
};

/* The chips as they are drawn: entry n is chip n of the slot. */
static int32_t re[FIRST + ASKED], im[FIRST + ASKED];

/* Every call answers 0 or the number of its refusal, and a refused call has done nothing. This lesson ends there. */
static void check(uint32_t refusal) {
    if (refusal) {
        printf("refused %" PRIu32 ": %s\n", refusal, tdd_refusal_words(refusal));
        exit(EXIT_FAILURE);
    }
}

static void print_ok(uint32_t refusal) {
    check(refusal);
    puts("ok");
}

static void print_complex(const int32_t *real, const int32_t *imaginary, size_t count) {
    for (size_t i = 0; i < count; i++)
        printf("%s%" PRId32 ",%" PRId32, i ? " " : "", real[i], imaginary[i]);
    putchar('\n');
}

/* Draws into the entries from chip `from` on. */
static void draw(tdd_bench *bench, size_t from, size_t length) {
    size_t count;
    check(tdd_draw(bench, re + from, length, im + from, length, &count));
    printf("ok %zu\n", count);
}

/* Reads the channel in the 16 chips from chip `from` on, and the bits of what it read. */
static void read_back(size_t from) {
    enum { CHIPS = 16, READINGS = CHIPS / Q };
    int32_t reading_re[READINGS], reading_im[READINGS];
    uint8_t bits[2 * READINGS];

    check(tdd_read(CELL, Q, K, re + from, CHIPS, im + from, CHIPS, reading_re, READINGS, reading_im, READINGS));
    printf("ok %d\n", READINGS);
    print_complex(reading_re, reading_im, READINGS);

    check(tdd_harden(reading_re, READINGS, reading_im, READINGS, bits, sizeof bits));
    printf("ok %zu\n", sizeof bits);
    for (size_t i = 0; i < sizeof bits; i++)
        putchar('0' + bits[i]);
    putchar('\n');
}

int main(void) {
    /* The pairs 01 10 11 00, over and over. */
    static const uint8_t repeated[8] = {0, 1, 1, 0, 1, 1, 0, 0};
    uint8_t bits[BITS];
    tdd_bench bench = tdd_bench_fresh();

    for (size_t i = 0; i < BITS; i++)
        bits[i] = repeated[i % 8];

    print_ok(tdd_set_cell(&bench, CELL, TYPE));
    print_ok(tdd_open(&bench, Q, K, GAIN));
    print_ok(tdd_load_bits(&bench, Q, K, bits, BITS));
    print_ok(tdd_start(&bench));

    draw(&bench, 0, FIRST);
    print_complex(re, im, 8);
    read_back(0);

    draw(&bench, FIRST, ASKED);
    print_complex(re + 972, im + 972, 8); /* field 1 ends with chip 975, and the midamble is 0 */
    read_back(2448);                      /* the last 16 chips of field 2 */
    return EXIT_SUCCESS;
}
