"""Part of faults.txt: calls that need a part, room, readings or sums that there are not."""

from reference.recording import LARGEST_NOISE, LONGEST_RECORDING, noise_numbers
from reference.script import LONGEST_LINE
from reference.slot import SLOT

from .recording_calls import seed_for
from .script import MAX, chips_line
from .word_faults import glance

PARTS = ("20 0", "21 0", "19 1", "19 2", "20 1", "0 20", "0 21", "4 16", "5 16", f"{MAX} 0",
         f"0 {MAX}", f"{MAX} 1", f"1 {MAX}", f"{MAX} 21", f"21 {MAX}", f"{MAX - 4} 6",
         f"6 {MAX - 4}", "2147483648 2147483648", "2147483648 2147483649", f"{MAX} {MAX}",
         "0005 00016")


def parts_outside(script):
    script.say("parts outside the recording, which come before refusals")
    script.empty()
    for call in ("show {}", "read 8 4 1 {}", "read 128 3 9 {}", "read-sync 1 {}", "read-sync 3 {}",
                 "find {}", "noise {} 1 5"):
        for part in ("0 0", "0 1", "1 0", f"{MAX} 1", f"1 {MAX}", f"{MAX} {MAX}"):
            script.run(call.format(part))
    script.add(chips_line([(n, -n) for n in range(20)]))
    for call in ("show {}", "read 8 4 1 {}", "read 128 3 9 {}", "read-sync 2 {}", "read-sync 0 {}",
                 "find {}", "noise {} 1 0"):
        for part in PARTS:
            script.run(call.format(part))
    script.run("brief, show 21 0, show 20 0, show 0 21, full, harden, show 0 20")


def room_faults(script):
    script.say("chips that do not fit, with words that are wrong and draws that are refused")
    script.empty()
    for _ in range(LONGEST_RECORDING // SLOT - 1):
        script.run("start, draw 2560")
    script.run("start, draw 2558, record 1 2 3 4 5 6, record 1 2 3 4 5, record 1 2 3 4 x 6",
               "draw 3 4, draw 2 3, draw x, draw 3 x, draw 3 3 3, record 1 2, record 3 4 5 6",
               "draw 2, draw 1, draw 1 1, draw 2 2, record 3 4, start, draw 1 x, draw 5 5",
               "draw 5 6, draw 0 0, draw 0 1, show 38397 3, erase, draw 2, show 0 2")
    glance(script)


def room_for_silence(script):
    script.say("silence that does not fit")
    script.empty(f"silence 38401, silence {MAX}, silence 2147483648, silence 38399, silence 2")
    script.run(f"silence x, silence 2 2, silence {MAX}, silence 0, silence 1, silence 1, silence 0",
               f"silence {MAX}, silence 38400, show 38398 2, show 0 38401, erase, silence 3")
    glance(script)


def sizes_of_noise(script):
    script.say("noise that is too large: words come before, and the part after")
    script.empty("record 1 2 3 4 5 6 7 8")
    for size in (100000, 100001, 100256, 165536, 2147483648, MAX - 1, MAX):
        script.run(f"noise 0 4 1 {size}, noise 4 0 1 {size}, noise 0 5 1 {size}",
                   f"noise {MAX} {MAX} {MAX} {size}, noise 5 0 x {size}, noise 0 5 1 {size} 7",
                   "show 0 4")
    glance(script)


def sums_past_32_bits(script):
    """The chip that is told is the first whose re or im is past, and no chip is changed."""
    script.say("noise that takes a component past 32 bits")
    for size in (1, 10, LARGEST_NOISE):
        for number, limit in ((size, 2**31 - 1), (-size, -2**31)):
            seed, past = seed_for(number, size), limit - number + (1 if number > 0 else -1)
            script.empty(f"record {past} 0, noise 0 1 {seed} {size}, record 0 {past}",
                         f"noise 0 2 {seed} {size}, noise 0 1 {seed} 0, show 0 2")
    first, second = noise_numbers(2, 1, 10)  # both are more than 0
    edge = 2**31 - second
    script.empty(f"record {2**31 - 1 - first} {edge} 5 6, noise 0 1 1 10, noise 0 2 1 10",
                 "noise 1 1 1 10, noise 0 3 1 10, noise 0 2 1 100001, noise 2 0 1 10, show 0 2")
    script.empty("silence 50, record 2147483647 0 0 2147483647 -2147483648 -2147483648, silence 20",
                 "brief, show 0 73")
    for part in ("0 73", "40 33", "50 1", "51 22", "51 1", "52 1", "53 20", "0 50", "0 51"):
        script.run(f"noise {part} 6 100000, noise {part} 7 100000, noise {part} 8 3, show 0 73")
    script.run("full, show 45 10")
    glance(script)


def longest_record(script):
    """The most chips that a line can have, behind a recording that is full and in one that they
    fill; the readings stay."""
    script.say("the longest line of chips")
    script.empty("record " + "1 2 " * 15 + "3 4, read 8 1 0 0 16, harden, erase, silence 38400")
    count = (LONGEST_LINE - len("record")) // len(" 1 2")
    in_two, in_one = chips_line([(1, 2)] * count), "record" + " 1,2" * count
    script.add(in_one)
    script.run("harden, show 38399 1, record 1 2, record 1,2, record 1,2 3 4 5,6")
    for line in (in_two, in_one):
        script.run(f"erase, silence {LONGEST_RECORDING - count}")
        script.add(line)
        script.run(f"brief, show {LONGEST_RECORDING - count - 1} {count + 1}, full, harden",
                   "record 1 2, record 1,2, harden, show 38398 2")
    script.run("erase, record" + " 1,2" * 1000 + " 1,, show 0 0")
    glance(script)


NEED_FAULTS = (parts_outside, room_faults, room_for_silence, sizes_of_noise, sums_past_32_bits,
               longest_record)
