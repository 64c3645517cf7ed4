"""The reference: what the program tdd and the libraries must answer.

Worked out from document 01, the text of TS 25.223 V3.3.0 and docs/TDD.md alone, in whole numbers
and straight from the definitions there. Nothing here is shared with the crates.

    standard    what the text of the standard has: scrambling codes, sync codes, allocations
    pairs       complex values as pairs of whole numbers
    refusals    the refusals that several calls have
    codes       the codes, and the eight calls of the code rules
    slot        settings, the sync burst and the chips of a slot
    bench       the ten bench calls, as the ledger of document 01
    analyser    read, harden, read sync and find
    manual      the forms of the calls, the words of refusals and what help says, from docs/TDD.md
    words       the words of a line of a script
    nearest     which call is near to a word that is none
    generator   the states that noise and random bits come from
    bits        the bits of load-bits, from the words for them
    telling     lines of chips, readings and bits, in full and in brief
    recording   the recording of a script, with its silence and noise
    script      what each line of a script is answered
"""
