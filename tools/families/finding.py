"""finding.txt: find in recordings of many lengths, with no burst, one or two, and at its edges."""

from reference.analyser import LARGEST
from reference.slot import burst

from .readings import rows
from .script import chips_line

GAINS = 200, 120  # gP and gS of the bursts

# Chips, size and seed of the noise, the burst's group, its two starts. At 9999 there is no burst:
# it is past every recording's end.
RECORDINGS = (
    "256 0 0 0 9999 9999, 257 0 0 0 9999 9999, 256 50000 1 0 9999 9999, 257 50000 2 0 9999 9999, "
    "256 0 0 3 0 9999, "
    "257 0 0 3 1 9999, 257 0 0 3 0 9999, 2560 0 0 0 9999 9999, 2560 50000 3 0 9999 9999, "
    "2560 0 0 31 2208 9999, 2560 0 0 7 300 1200, 2560 0 0 7 1200 300, 2560 100 4 7 300 1200, "
    "2560 5000 5 9 2304 9999, 2560 0 0 9 2305 9999, 5120 0 0 0 9999 9999, "
    "5120 90000 6 0 9999 9999, 5120 90000 7 0 9999 9999, 5120 0 0 12 4864 9999, "
    "5120 0 0 12 0 4864, 5120 0 0 12 2559 2815, 5120 2000 8 30 4000 777")

# Chips; the one chip that is not 0: its place, its re and its im.
EDGES = (
    "255 0 100001 0, 0 0 0 0, 256 0 3 4, 256 0 100001 0, 256 255 0 -100001, "
    "256 255 100000 -100000, 256 255 0 2147483647, 257 256 5 0, 5120 5119 1 2, "
    "5120 5000 100000 100000, 5121 0 0 0, 5121 0 100001 0, 5120 5119 0 100001, 255 0 0 0")


def recordings(script):
    for length, size, seed, group, *starts in rows(RECORDINGS):
        script.run("erase")
        for start in sorted(starts):
            record_burst(script, group, start, length)
        if script.recorded() < length:
            script.run(f"silence {length - script.recorded()}")
        if size:
            script.run(f"noise 0 {length} {seed} {size}")
        script.run(f"show 0 {length}, find 0 {length}")


def record_burst(script, group, start, length):
    """Silence up to the start, and as much of the burst as this length has room for."""
    if start >= length:
        return
    silent = start - script.recorded()
    if silent:
        script.run(f"silence {silent}")
    chips = list(zip(*burst(script.codes, (1, group, 1, 0), *GAINS)))
    script.run(chips_line(chips[:length - start]))


def slots_of_the_bench(script):
    """Bursts that the bench makes, one in a slot and one in each of two slots; and under data."""
    for parameter in (0, 31, 67, 127):
        script.run(f"erase, set-cell {parameter} 1, set-sync 1 1 0 200 120, start, draw 2560",
                   "show 0 2560, find 0 2560, start, draw 2560, find 0 5120, find 1 5119",
                   "open 4 1 400, start, erase, draw 2560, show 0 2560, find 0 2560",
                   f"noise 0 2560 {parameter} 300, find 0 2560")


def edges(script):
    for length, *chip in rows(EDGES):
        script.one_chip(length, *chip)
        script.run(f"find 0 {length}")


def largest_signals(script):
    """The primary code as large as chips may be, whose size is the largest of all; and chips with
    components of 100000 or its negative, by a rule and by the signs of bursts."""
    re, im = script.codes.primary
    chips = [(LARGEST * x, LARGEST * y) for x, y in zip(re, im)]
    script.run("erase", chips_line(chips), "find 0 256, read-sync 1 0 256, read-sync 2 0 256",
               "silence 3, find 0 259, erase", chips_line([(-x, -y) for x, y in chips]),
               "find 0 256")
    for case, group in ((1, 0), (1, 13), (1, 31), (2, 6), (2, 31)):
        sent = zip(*burst(script.codes, (case, group, 1, 0), 1, 1))
        script.run("erase", chips_line([(at_largest(x), at_largest(y)) for x, y in sent]),
                   "find 0 256, read-sync 1 0 256, read-sync 2 0 256")


def at_largest(component):
    return LARGEST if component > 0 else -LARGEST


def finding(script):
    script.tell(brief=True)
    for family in (recordings, slots_of_the_bench, edges, largest_signals):
        script.say(family.__name__.replace("_", " "))
        family(script)
