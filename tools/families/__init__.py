"""The families of test scripts for the program tdd; tools/tdd_scripts.py writes them.

    script         the lines of a script, and the bench as they leave it
    dice           random numbers, and random calls for the bench
    settings       the bench calls with their refusals and edges, as lists of calls

    codes          codes.txt: every value of the code rules
    slots          slots.txt: bench calls, and the slots that they make
    plans          plans.txt: load plan
    bits           bits.txt: the forms of load bits
    told_settings  settings.txt: settings
    refusal_words  refusals.txt: every refusal of every call, with its words
    nearest        nearest.txt: words that are near to a call, or to none
    mark           mark.txt: a byte order mark and nothing else
    readings       readings.txt: read and harden
    bursts         bursts.txt: read sync
    finding        finding.txt: find
    calls          calls.txt: every call with its refusals and edges, from bench_calls,
                   analyser_calls and recording_calls
    cut_numbers    cut-numbers.txt: numbers that would be good if they were cut
    faults         faults.txt: lines that are no call, from word_faults and need_faults
    random_lists   random-N.txt: long lists with some of everything

A call is a string; many calls stand in one string with ", " between them. Two calls are written
here in a way that a script does not have: `fresh`, for a fresh bench, and
`load-bits Q K COUNT SEED BAD`, for COUNT bits from a small generator that begins with SEED, of
which bit BAD, where there is one, is 2. Nothing here is shared with the crates.
"""
