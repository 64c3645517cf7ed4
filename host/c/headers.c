/* All headers in one file, with each of them first; a second time they add nothing. It is compiled as C99 and as C++17,
 * linked and run, and must end with 0. */
#if defined BENCH_FIRST
#include "tdd_bench.h"
#elif defined CODES_FIRST
#include "tdd_codes.h"
#elif defined REFUSALS_FIRST
#include "tdd_refusals.h"
#endif

/* Each of them brings the words of refusals. */
static const char *words_of(uint32_t refusal) {
    return tdd_refusal_words(refusal);
}

#include "tdd_bench.h"
#include "tdd_codes.h"
#include "tdd_refusals.h"

int main(void) {
    tdd_bench bench = tdd_bench_fresh();
    tdd_channel plan[2] = {{4, 1, 3}, {8, 0, 1}};
    size_t place = 9;
    if (tdd_load_plan(&bench, plan, 2, &place) != TDD_ACCEPTED || place != 0)
        return 1;
    if (tdd_open(&bench, 16, 5, 1) != TDD_REFUSED_RELATED)
        return 2;
    if (tdd_element(3, 0, 0).refusal != TDD_REFUSED_SPREADING_FACTOR)
        return 3;
    if (tdd_related(4, 1, 16, 5).related != 1)
        return 4;
    return *words_of(TDD_ACCEPTED) == 'a' ? 0 : 5;
}
