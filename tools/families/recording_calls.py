"""Part of calls.txt: the recording, its silence and noise, and what is told of it."""

from itertools import count

from reference.recording import LARGEST_NOISE, LONGEST_RECORDING, noise_numbers
from reference.slot import SLOT

from .script import MAX, open_loaded

SLOTS = ["start, draw 2560"] * (LONGEST_RECORDING // SLOT - 1)


def seed_for(number, size):
    """The smallest seed whose first number of this size is this one."""
    return next(seed for seed in count() if next(noise_numbers(1, seed, size)) == number)


def full_recording(script):
    script.say("the recording, filled to the last chip with records and the end of a slot")
    script.empty("set-cell 70 2, open 8 3 6")
    script.run(*SLOTS, "set-gain 8 3 7, start, draw 2555, show 38395 0, show 38393 2",
               "record 1 2 3 4 5 6, record 1 -1, record 2 -2 3 -3, record 4 -4 5 -5 6 -6, draw 6",
               "draw 5, draw 4, draw 3, draw 4294967295, draw 2 3, draw 0, draw 2, draw 1, draw 0",
               "record 1 2, record 7 8 9 10, start, draw 1 0, show 38390 10, show 38399 1",
               "show 38400 0, show 38400 1, show 38399 2, draw 3, draw 2560, draw 2561",
               f"draw {MAX}, draw {MAX} 0, find 38144 256, read 70 8 3 38384 16",
               "read-sync 1 38144 256, find 35000 3400, find 0 38400, show 24900 13500, brief",
               "show 0 38400, full, read 70 8 3 0 38400, read-sync 1 0 38400, erase, show 0 0",
               "show 0 1, draw 0, draw 7")


def full_in_a_field(script):
    script.say("the recording, filled with a slot in the middle of its second field")
    script.empty(open_loaded(16, 3, 90, 4), "start, draw 2000, erase, draw 2560", *SLOTS,
                 "start, draw 1999, record 1 2 3 4, draw 2, draw 561, draw 562, draw 1, draw 1")
    script.run(f"draw 1 1, draw 560, draw {MAX}, draw 1 2, record 5 6, start, draw 0, show 38392 8",
               "read 70 16 3 38304 96, harden, erase, draw 16, show 0 16, draw 3000, draw 1")
    script.say("with whole slots alone")
    script.empty("start, draw 4294967295", *SLOTS, "draw 1, draw 0, draw 1 2, draw 4294967295",
                 "record 1 1, start, draw 1, draw 1 2, draw 0, draw 2560, draw 2561, record 1 1",
                 "show 38395 5, erase, record 8 8, draw 3, show 0 4, start")


def silence(script):
    script.say("silence, of every length")
    script.empty("silence 0, show 0 0, silence 1, show 0 1, silence 2, record 5 -6, silence 1",
                 "show 0 5, read 8 4 1 0 5, silence 251, find 0 256, read-sync 1 0 256",
                 "silence 38145, silence 38143, silence 2, show 38390 9, silence 0, silence 1",
                 "silence 1, silence 0, record 1 2, start, draw 1, draw 0, show 38392 8, erase",
                 "silence 38401, silence 38400, show 38398 2, find 33280 5120, silence 0, erase",
                 "show 0 0, draw 3, silence 3, draw 2, silence 1, show 0 9, draw 3000")


def noise(script):
    script.say("noise: its rule, and where it goes")
    script.empty("silence 2, noise 0 2 1 10, show 0 2, noise 0 2 1 10, show 0 2, noise 1 1 1 10",
                 "show 0 2, noise 0 0 1 10, noise 2 0 1 10, noise 0 2 1 0, show 0 2, silence 6",
                 "noise 3 2 1 1, show 0 8, noise 5 3 0 100000, noise 6 2 4294967295 100000",
                 "show 0 8, noise 7 1 4294967295 99999, noise 2 3 65536 2, show 0 8")
    for size in (0, 1, 2, 127, 128, 65535, 65536, 99999, 100000):
        script.run(f"erase, silence 40, noise 0 40 {size + 3} {size}, show 0 40")
    script.say("over a slot and a burst, which are still read")
    script.empty("set-cell 45 1", open_loaded(8, 5, 900, 3), "set-sync 2 1 1 500 400, start",
                 "draw 2560, noise 0 2560 77 150, show 0 8, brief, show 0 2560, read 45 8 5 0 976",
                 "harden, read 45 8 5 1488 976, harden, read-sync 2 528 256, find 0 2560, full",
                 "noise 0 1 1 100000, noise 975 1 2 100000, read 45 8 5 0 976")
    script.say("over the whole recording, and no more")
    script.empty("silence 38400, noise 0 38400 9 100000, brief, show 0 38400, noise 0 38400 9 0",
                 "show 0 38400, noise 38399 1 5 7, show 0 38400, noise 0 1 5 7, show 0 38400, full",
                 "show 38397 3, noise 38400 0 5 7, read 3 16 2 0 1104, harden")


def noise_up_to_the_limits(script):
    """Sums that are just in 32 bits; those just past them are in faults.txt."""
    script.say("noise: sums at the limits of 32 bits")
    script.run("erase")
    for size in (1, 10, LARGEST_NOISE):
        for number, limit in ((size, 2**31 - 1), (-size, -2**31)):
            seed = seed_for(number, size)
            script.run(f"erase, record {limit - number} 0 7 7, noise 0 2 {seed} {size}, show 0 2",
                       f"record {limit} {limit}, noise 2 1 {seed} 0, show 0 3")
    _, second = noise_numbers(2, 1, 10)
    script.run(f"erase, record 0 {2**31 - 1 - second}, noise 0 1 1 10, show 0 1")


def brief_and_full(script):
    script.say("lines in brief and in full, of few chips, readings and bits and of many")
    script.empty("brief, show 0 0, record 1 -2, show 0 1, show 1 0, record 3 -4 5 -6, show 0 3",
                 "record 7 -8, show 0 4, record -2147483648 2147483647, show 0 5, show 1 4, full",
                 "show 0 5, show 0 0, full, show 0 1, brief, brief, show 4 1, erase, show 0 0")
    script.run("set-cell 9 1", open_loaded(4, 2, 30, 1), "start, draw 1000")
    for q, chips in ((16, 16), (8, 16), (4, 16), (4, 32), (2, 32), (1, 16), (1, 976)):
        script.run(f"read 9 {q} {q // 2} 0 {chips}, harden, full, harden, brief")
    script.run("read 9 3 0 0 16, harden, read 128 4 2 0 16, find 0 256, read-sync 1 0 256",
               "harden, full, read 9 4 2 0 16, brief, harden, help, show 0 1000, full, harden")


def show_and_help(script):
    script.say("show of all kinds, and help")
    script.empty("show 0 0, record 0 0, show 0 1, show 0 0, show 1 0",
                 "record -2147483648 2147483647",
                 "record -0 -00 00012 -00012 -1 1 -2147483648 -2147483648 2147483647 0, show 0 7",
                 "show 3 2, show 6 1, show 7 0, show 0 6, help, show 1 1, harden")


def chips_of_one_word(script):
    script.say("record: chips as show tells them, alone and beside others")
    script.empty("record 3,4, show 0 1, record 3 4 5,-6, record 7,8 9 10, record -1,-2 -3,-4",
                 "show 0 7, record 1 2 3,4 5 6 7,8, record -0,-00 0012,-0012 0,0, show 7 7",
                 "record -2147483648,2147483647 2147483647,-2147483648, show 13 3, erase",
                 "silence 15, record 100000,-100000, read 8 16 3 0 16, harden, record -100001,1",
                 "read 8 16 3 1 16, erase")
    re, im = script.codes.primary
    script.add(" ".join(["record", *(f"{5 * x},{-7 * y}" for x, y in zip(re, im))]))
    script.run("find 0 256, brief, show 0 256, full, show 250 6")


RECORDING_CALLS = (full_recording, full_in_a_field, silence, noise, noise_up_to_the_limits,
                   brief_and_full, chips_of_one_word, show_and_help)
