/* What include/tdd_refusals.h says, alone: a line "CONSTANT = NUMBER" for each constant, and a line "NUMBER: words" for
 * each number from 0 to 255 and for two that are one of these where upper bits are dropped. */
#include "tdd_refusals.h"

#include <inttypes.h>
#include <stdio.h>

#define PRINT_CONSTANT(constant, number, words) printf("%s = %d\n", #constant, (int)constant);

static void print_words(uint32_t refusal) {
    printf("%" PRIu32 ": %s\n", refusal, tdd_refusal_words(refusal));
}

int main(void) {
    printf("TDD_ACCEPTED = %d\n", (int)TDD_ACCEPTED);
    TDD_REFUSALS(PRINT_CONSTANT)
    for (uint32_t refusal = 0; refusal <= 255; refusal++)
        print_words(refusal);
    print_words(UINT32_C(0x106));
    print_words(UINT32_C(0x80000000));
    return 0;
}
