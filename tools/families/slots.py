"""slots.txt: bench calls with their refusals, and the slots that they make, whole and in parts.

After each accepted draw its chips are shown, in brief where they are many.
"""

from reference.codes import CODES, start_of_burst
from reference.slot import FIELDS

from .dice import FACTORS, Dice, random_call, random_plan
from .script import NONE_BAD, open_loaded
from .settings import (
    SYNC_PLACES, close_edges, load_bits_codes, load_bits_counts, open_edges, open_related,
    set_cell_accepted, set_cell_refused, set_gain_edges, set_sync_accepted, set_sync_refused,
    start_and_draw_edges)

SIXTEEN = [(16, k) for k in range(16)]
FILLED = [(2, 0), (4, 2), (8, 6), (16, 14), (16, 15)]


# Every refusal at its edge

def refusals(script):
    idle, running = "fresh", "fresh, open 8 4 1000, start, draw 100 100, close 8 4"
    # The slot that was running, and then one from the settings as the calls left them.
    show = "draw 3000 3000, start, draw 2560 2560"
    for begin in (idle, running):
        for edges in (set_cell_refused, set_cell_accepted, open_edges, close_edges, set_gain_edges,
                      load_bits_codes, set_sync_refused, set_sync_accepted):
            script.run(begin, *edges(), show)
    # The long ones in full without a slot, and in part while one runs.
    for slot_type in FIELDS:
        for q in FACTORS:
            script.run(idle, *load_bits_counts(slot_type, q), show)
        script.run(running, *load_bits_counts(slot_type, 16), show)
    script.run(idle, *open_related(CODES), show)
    script.run(running, *open_related([(1, 0), (4, 1), (16, 10)]), show)
    script.run(*start_and_draw_edges())


# Whole slots

def whole_slots(script):
    dice = Dice(2)
    script.run("fresh")
    for slot_type in FIELDS:
        for length in (2560, 2561, 3000):
            script.run(f"set-cell {40 + slot_type} {slot_type}, start, draw {length} {length}")
        for plan in (SIXTEEN, FILLED, *(random_plan(dice) for _ in range(4))):
            script.run(f"set-cell {dice.below(128)} {slot_type}", *opened(dice, plan),
                       "start, draw 2560 2560")
        script.run(f"set-cell {dice.below(128)} {slot_type}", *largest_sums())
        script.run(f"set-cell 61 {slot_type}", *opened_again())


def opened(dice, plan):
    for q, k in plan:
        calls = open_loaded(q, k, 1 + dice.below(4095), dice.below(1000))
        if dice.below(5) == 0:
            calls, _ = calls.split(", ")  # its bits stay 0
        yield calls


def largest_sums():
    """With bits 0, so that the channels add up on every 16th chip; sync goes with type 1 alone."""
    yield from (f"open 16 {k} 4095" for k in range(16))
    yield "start, draw 2560 2560, set-sync 1 1 0 4095 4095, start, draw 2560 2560"
    yield from (f"set-gain 16 {k} 1" for k in range(16))
    yield "start, draw 2560 2560"


def opened_again():
    """Opened again its bits are 0; a related code in its place; bits replaced, gain changed."""
    yield open_loaded(4, 1, 90, 1)
    yield open_loaded(8, 6, 50, 2)
    yield "close 4 1, open 4 1 90, start, draw 2560 2560, close 4 1"
    yield open_loaded(8, 3, 91, 3)
    yield "start, draw 2560 2560, close 8 3, open 2 0 92, start, draw 2560 2560"
    yield "load-bits 8 6 random 4, set-gain 8 6 51"
    yield "start, draw 2560 2560"


def every_cell(script):
    """Each cell parameter with one code open, and so each of the 31 codes in each burst type."""
    dice = Dice(22)
    script.run("fresh")
    for parameter in range(128):
        slot_type, (q, k) = 1 + parameter % 3, CODES[parameter % 31]
        gain = dice.pick((1, 4095, 1 + dice.below(4095)))
        length = dice.pick((2560, 2561, 2700, 3000))
        script.run(f"set-cell {parameter} {slot_type}",
                   open_loaded(q, k, gain, parameter), f"start, draw {length} {length}")


# Sync

def sync_bursts(script):
    dice = Dice(3)
    gains = (1, 4095, 2, 100, 1000, 3333)
    script.run("fresh")
    for group in range(32):
        script.run(f"set-cell {4 * group + dice.below(4)} 1")
        if group % 3 == 0:
            script.run(open_loaded(4, group % 4, 200 + group, group),
                       f"open 4 {(group + 1) % 4} 4095")
        start = start_of_burst(group)  # group 0's is the slot's first chip
        for place in SYNC_PLACES:
            script.run(f"set-sync {place} {dice.pick(gains)} {dice.pick(gains)}, start")
            script.draw_to(max(start - 5, 0))
            script.draw_to(start + 256 + 5)
            script.run("draw 3000 3000")


def sync_whole_slots(script):
    for parameter in (0, 31, 60, 63, 64, 67, 95, 127):
        script.run(f"fresh, set-cell {parameter} 1, set-sync 1 2 0 300 200, start, draw 2560 2560",
                   open_loaded(2, 1, 500, parameter), open_loaded(16, 6, 1500, 7),
                   "start, draw 2560 2560, set-sync 2 1 1 4095 4095, start, draw 2560 2560",
                   "set-sync 2 2 0 1 1, set-sync 2 1 0 2 3, start, draw 2560 2560",
                   "clear-sync, clear-sync, start, draw 2560 2560",
                   f"set-sync 1 1 0 9 8, set-cell {parameter} 1, start, draw 2560 2560")


# Slots cut into draws

FIRST_LENGTHS = (0, 1, 15, 16, 17, 975, 976, 977, 1487, 1488, 1489, 2463, 2464, 2465, 2559, 2560,
                 2561, 3000)
BORDERS = (976, 1104, 1360, 1488, 2368, 2464, 2560)


def three_codes(parameter, slot_type):
    calls = [f"set-cell {parameter} {slot_type}", open_loaded(2, 1, 40, 1),
             open_loaded(8, 1, 300, 2), open_loaded(16, 5, 2000, 3)]
    return ", ".join(calls + ["set-sync 2 1 1 70 60"] * (slot_type == 1))


def cut_slots(script):
    dice = Dice(4)
    for slot_type in FIELDS:
        script.run("fresh", three_codes(35, slot_type))
        for first in FIRST_LENGTHS:
            script.run(f"start, draw {first} {first}")
            while script.bench.copy:
                length = dice.pick((dice.below(40), dice.below(1500), dice.below(3001)))
                script.run(f"draw {length} {length}")
            script.run("draw {0} {0}".format(dice.pick((0, 1, 20, 100))))


def border_slots(script):
    for slot_type in FIELDS:
        script.run("fresh", three_codes(92, slot_type), "start, draw 0 0")
        for border in BORDERS:
            script.draw_to(border - 3)
            script.run("draw 0 0, draw 1 1, draw 1 1, draw 1 1, draw 1 1, draw 1 1, draw 1 1")
        script.run("draw 0 0")


def small_cuts(script):
    """Slots in many draws, with a burst that begins with field 2 and one in field 1's middle."""
    dice = Dice(44)
    for parameter in (66, 33):
        script.run("fresh", three_codes(parameter, 1), "start")
        while script.bench.copy:
            length = dice.pick((dice.below(32), 16 * dice.below(8), dice.below(200)))
            script.run(f"draw {length} {length}")
        script.run("draw 0 0")


# Calls between draws, which show in the next slot but not in the running one

BASE = ", ".join(["set-cell 83 1", open_loaded(4, 1, 700, 11), open_loaded(16, 9, 300, 12),
                  "set-sync 2 1 1 90 80"])
CHANGES = (
    "set-gain 4 1 701", "load-bits 16 9 random 13", "open 4 3 50", "close 16 9",
    "close 4 1, close 16 9", "set-cell 0 1", "set-cell 82 1, open 8 5 60",
    "set-cell 83 2, open 8 5 60", "set-cell 83 3, open 8 5 60", "set-sync 2 2 1 90 80",
    "set-sync 1 1 0 91 81", "clear-sync", "start",
    f"set-gain 4 1 4096, load-bits 4 1 976 5 3, load-bits 4 1 975 5 {NONE_BAD}, open 2 0 9, "
    "close 4 0, set-cell 128 2, set-cell 82 4, set-sync 1 1 1 9 9, draw 4 5, start",
    "close 4 1, open 4 1 700, set-gain 16 9 4095, start, load-bits 4 1 random 14",
    "clear-sync, set-gain 16 9 1, start, close 4 1, open 2 0 333",
    "set-cell 12 3, open 1 0 44, set-sync 1 1 0 1 1, start, "
    "load-bits 1 0 random 15, set-gain 1 0 45",
)


def calls_between_draws(script):
    for n, change in enumerate(CHANGES):
        place = (0, 1, 400, 976, 1300, 1488, 1700)[n % 7]
        script.run("fresh", BASE, "start")
        script.draw_to(place)
        script.run(change, "draw 24 24, draw 3000 3000, start, draw 600 600, draw 3000 3000")


def slots_in_turn(script):
    """Slots one after the other, each with several changes in its course."""
    dice = Dice(5)
    script.run("fresh", BASE)
    for _ in range(8):
        script.run("start")
        while script.bench.copy:
            length = 200 + dice.below(700)
            change = dice.pick(CHANGES) if dice.below(3) else BASE
            script.run(f"draw {length} {length}", change)
        script.run("draw 9 9")


# Long random lists

def random_lists(script):
    for seed in range(60, 65):
        dice = Dice(seed)
        script.run("fresh")
        for _ in range(320):
            kind = dice.below(10)
            if kind < 6:
                script.run(random_call(dice, script.bench.settings))
            elif kind < 7:
                script.run("start")
            else:
                length = dice.pick((dice.below(33), dice.below(1000), dice.below(3001)))
                other = dice.below(3001) if dice.below(10) == 0 else length
                script.run(f"draw {length} {other}")


def slots(script):
    script.shows_draws = True
    for family in (refusals, whole_slots, every_cell, sync_bursts, sync_whole_slots, cut_slots,
                   border_slots, small_cuts, calls_between_draws, slots_in_turn, random_lists):
        script.say(family.__name__.replace("_", " "))
        family(script)
