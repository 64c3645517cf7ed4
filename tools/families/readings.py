"""readings.txt: read on noise with every cell parameter and every Q, at its edges, and harden."""

from reference.analyser import LARGEST
from reference.codes import CODES
from reference.pairs import scaled, times
from reference.recording import noise_numbers

from .dice import FACTORS
from .script import chips_line

SMALL = (-5, -1, 0, 1, 5)  # components of readings to harden, in all pairs

# Cell parameter, Q, k; chips; the one chip that is not 0: its place, its re and its im.
EDGES = (
    "4294967295 4 1 16 0 0 0, 127 0 0 16 0 0 0, 127 32 0 16 0 0 0, 127 4294967295 0 16 0 0 0, "
    "127 16 16 16 0 0 0, 127 4 4294967295 16 0 0 0, 127 4 3 0 0 0 0, 127 4 3 15 0 100001 0, "
    "127 4 3 17 0 0 0, 127 4 3 8 0 0 0, 127 4 3 1088 5 9 8, 127 4 3 1104 1103 100000 -100000, "
    "127 4 3 1105 0 0 0, 127 4 3 1120 0 0 0, 0 16 15 16 0 100000 -100000, 0 16 15 16 0 100001 0, "
    "0 16 15 16 0 0 100001, 0 16 15 16 15 -100001 0, 0 16 15 16 15 0 -100001, "
    "0 16 15 16 15 -100000 100000, 0 16 15 16 15 2147483647 0, 0 16 15 16 15 0 -2147483648, "
    "0 1 0 16 3 1 1, 8 4 1 16 3 1 1, "
    # Two refusals at once: 1 before 3 before 4 before 16 before 17.
    "128 3 9 15 0 100001 0, 127 3 9 15 0 100001 0, 127 4 4 15 0 100001 0, 127 4 3 1105 0 100001 0, "
    "128 4 3 16 0 100001 0, 127 3 0 16 0 100001 0, 127 4 4 16 0 100001 0")

# What is to be hardened: readings, then the one that is not 0: its place, its re and its im.
HARDEN_EDGES = "1 0 -3 0, 2 1 0 -3, 2 1 -3 -3, 3 2 3 -3"


def rows(table):
    return [tuple(map(int, row.split())) for row in table.split(", ")]


def noise_reads(script):
    """Every cell parameter with every Q, on noise as large as can be; one of them hardened."""
    script.tell(brief=True)
    for p in range(128):
        lengths = [16 * (1 + (5 * p + j) % 69) for j in range(5)]
        script.run(f"erase, silence {sum(lengths)}")
        for j, (q, length) in enumerate(zip(FACTORS, lengths)):
            first = sum(lengths[:j])
            script.run(f"noise {first} {length} {1000 * p + q} {LARGEST}",
                       f"read {p} {q} {p % q} {first} {length}")
            if j == p % 5:
                script.run("harden")
        script.run(f"show 0 {sum(lengths)}")
    script.tell(brief=False)


def level_reads(script):
    """Every code on chips that are all as large as can be."""
    script.run("erase", chips_line([(LARGEST, -LARGEST)] * 32))
    for q, k in CODES:
        script.run(f"read {7 * q + k} {q} {k} 0 32")
    script.run("harden")


def edges(script):
    for p, q, k, length, *chip in rows(EDGES):
        script.one_chip(length, *chip)
        script.tell(brief=length > 100)
        script.run(f"read {p} {q} {k} 0 {length}")
    script.tell(brief=False)


def record_for(script, p, readings):
    """Chips whose readings with Q 1 and this cell parameter are these, and then 0 up to a multiple
    of 16; gives how many."""
    scrambling = script.codes.scrambling[p]
    chips = [times(reading, scrambling[n % 16]) for n, reading in enumerate(readings)]
    chips += [(0, 0)] * (-len(chips) % 16)
    script.run("erase", chips_line(chips))
    return len(chips)


def small_readings(script):
    """Readings in all pairs of small components, and small noise, so that many scores are equal."""
    length = record_for(script, 8, [(re, im) for re in SMALL for im in SMALL])
    script.run(f"read 8 1 0 0 {length}, harden")
    numbers = list(noise_numbers(200, 1, 3))
    length = record_for(script, 9, list(zip(numbers[:100], numbers[100:])))
    script.run(f"read 9 1 0 0 {length}, harden")
    script.run("erase, silence 1104, noise 0 1104 5 1, brief")
    for q in FACTORS:
        script.run(f"read 77 {q} {q - 1} 0 1104, harden")
    script.run("full")


def few_readings(script):
    """One, two and three readings with Q 16, of which one is not 0."""
    for count, place, *reading in rows(HARDEN_EDGES):
        at = 16 * place + 5
        chip = times(scaled(script.codes.channelisation[16, 11][5], reading),
                     script.codes.scrambling[40][5])
        script.one_chip(16 * count, at, *chip)
        script.run(f"read 40 16 11 0 {16 * count}, harden")


def largest_readings(script):
    """The largest readings that there can be: every chip as large as can be, and in phase."""
    for p, q, k in ((3, 16, 9), (90, 8, 2), (127, 1, 0)):
        elements = script.codes.channelisation[q, k]
        for corner in ((LARGEST, LARGEST), (-LARGEST, LARGEST), (LARGEST, -LARGEST)):
            chips = [scaled(elements[n % q], times(corner, script.codes.scrambling[p][n]))
                     for n in range(16)]
            script.run("erase", chips_line(chips), f"read {p} {q} {k} 0 16, harden")


def readings(script):
    for family in (noise_reads, level_reads, edges, small_readings, few_readings,
                   largest_readings):
        script.say(family.__name__.replace("_", " "))
        family(script)
