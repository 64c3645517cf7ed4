/*
 * Holds the layout that include/tdd_bench.h and include/tdd_codes.h declare to the one that the libraries have, and
 * prints it: a line "struct.field offset size" for each field, "struct size align" for each struct. Where the two
 * differ it says on standard error what the library has and what the header says, and ends with 1.
 *
 * A library shows its layout by what it does, and by nothing else. The probes in layout/ find it so. They do not see
 * the headers: they call the exports as the System V ABI for x86-64 has them (layout/exports.h), on garbage.
 *
 * Alignment cannot be seen. It is taken from the ABI's rule: a number is aligned to its size, an array as its entries,
 * a struct as the most aligned of its fields. The holes that the rule leaves are seen: in a bench sending is at 2304
 * behind one byte and position at 4608 behind settings that end at 4604, in settings sync is at 2280 behind pairs that
 * end at 2278, in sync sync_case is at 4 behind one byte. In a result what stands behind the refusal is at 8; that the
 * refusal has 4 bytes and a hole behind it is taken from its type, since a library may fill the hole with zeroes. That
 * no more is asked is seen where a size is an odd number of times the alignment: a bench 4616, settings 2300, sync 20,
 * a record 12, a modulated code 12. The rest is the rule's.
 */
#include <stddef.h>
#include <stdio.h>
#include <stdlib.h>

#include "tdd_bench.h"
#include "tdd_codes.h"

#include "layout/table.h"

#define STRUCT(s) {#s, sizeof(s), _Alignof(s)}
#define FIELD(s, f) {#s "." #f, offsetof(s, f), sizeof(((s *)0)->f)}

const line declared[] = {
    STRUCT(tdd_sync),
    FIELD(tdd_sync, on),
    FIELD(tdd_sync, sync_case),
    FIELD(tdd_sync, frame),
    FIELD(tdd_sync, half),
    FIELD(tdd_sync, gp),
    FIELD(tdd_sync, gs),

    STRUCT(tdd_settings),
    FIELD(tdd_settings, cell),
    FIELD(tdd_settings, kind),
    FIELD(tdd_settings, gains),
    FIELD(tdd_settings, pairs),
    FIELD(tdd_settings, sync),

    STRUCT(tdd_bench),
    FIELD(tdd_bench, settings),
    FIELD(tdd_bench, running),
    FIELD(tdd_bench, sending),
    FIELD(tdd_bench, position),

    STRUCT(tdd_channel),
    FIELD(tdd_channel, q),
    FIELD(tdd_channel, k),
    FIELD(tdd_channel, gain),

    STRUCT(tdd_call_result),
    FIELD(tdd_call_result, refusal),
    FIELD(tdd_call_result, bench),

    STRUCT(tdd_plan_result),
    FIELD(tdd_plan_result, refusal),
    FIELD(tdd_plan_result, place),
    FIELD(tdd_plan_result, bench),

    STRUCT(tdd_draw_result),
    FIELD(tdd_draw_result, refusal),
    FIELD(tdd_draw_result, count),
    FIELD(tdd_draw_result, bench),

    STRUCT(tdd_plan_records),
    FIELD(tdd_plan_records, records),

    STRUCT(tdd_sync_result),
    FIELD(tdd_sync_result, refusal),
    FIELD(tdd_sync_result, group),
    FIELD(tdd_sync_result, frame),
    FIELD(tdd_sync_result, half),

    STRUCT(tdd_find_result),
    FIELD(tdd_find_result, refusal),
    FIELD(tdd_find_result, start),
    FIELD(tdd_find_result, size),

    STRUCT(tdd_complex),
    FIELD(tdd_complex, re),
    FIELD(tdd_complex, im),

    STRUCT(tdd_element_result),
    FIELD(tdd_element_result, refusal),
    FIELD(tdd_element_result, element),

    STRUCT(tdd_related_result),
    FIELD(tdd_related_result, refusal),
    FIELD(tdd_related_result, related),

    STRUCT(tdd_group_result),
    FIELD(tdd_group_result, refusal),
    FIELD(tdd_group_result, group),

    STRUCT(tdd_chip_result),
    FIELD(tdd_chip_result, refusal),
    FIELD(tdd_chip_result, chip),

    STRUCT(tdd_modulated_code),
    FIELD(tdd_modulated_code, code),
    FIELD(tdd_modulated_code, unit),

    STRUCT(tdd_allocated),
    FIELD(tdd_allocated, first),
    FIELD(tdd_allocated, second),
    FIELD(tdd_allocated, marker),

    STRUCT(tdd_allocation_result),
    FIELD(tdd_allocation_result, refusal),
    FIELD(tdd_allocation_result, codes),

    STRUCT(tdd_start_result),
    FIELD(tdd_start_result, refusal),
    FIELD(tdd_start_result, start),
};

const size_t lines = sizeof declared / sizeof declared[0];

int main(void) {
    probe_bench_results();
    probe_plans();
    probe_bench_fields();
    check_what_calls_leave();
    probe_analyser_results();
    probe_code_results();
    for (size_t i = 0; i < lines; i++)
        printf("%s %zu %zu\n", declared[i].name, declared[i].first, declared[i].second);
    return all_found_as_declared() ? EXIT_SUCCESS : EXIT_FAILURE;
}
