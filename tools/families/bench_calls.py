"""Part of calls.txt: the bench calls, each with its refusals and edges, and the slots they make."""

from reference.codes import CODES
from reference.script import LONGEST_LINE
from reference.slot import FIELDS, right_count

from .dice import Dice, with_gains
from .plans import BAD_TWICE, PLAN
from .script import MAX, NONE_BAD, load_plan, open_loaded, spelled
from .settings import (
    close_edges, load_bits_counts, open_edges, open_related, set_cell_accepted, set_cell_refused,
    set_gain_edges, set_sync_accepted, set_sync_refused, start_and_draw_edges)
from .slots import FILLED, SIXTEEN


def settings_edges(script):
    for edges in (set_cell_refused, set_cell_accepted, open_edges, close_edges, set_gain_edges,
                  set_sync_refused, set_sync_accepted):
        script.say(edges.__name__.replace("_", " "))
        script.run("set-cell 0 1", *edges())
        script.look()
    script.say("open a related code")
    script.run(*open_related([(1, 0), (4, 1), (16, 10)]))
    script.look()
    script.say("each factor with its last code and the one after")
    for q in (1, 2, 4, 8, 16):
        script.run(f"set-cell {q} 1, open {q} {q} 4095, open {q} {q - 1} 4096",
                   f"open {q} {q - 1} 4095, set-gain {q} {q} 9, set-gain {q} {q - 1} 4096",
                   f"close {q} {q}, close {q} {q - 1}, close {q} {q - 1}")
    script.say("sync and codes do not stay when the cell is set, and stay else")
    script.run("set-cell 9 1, open 8 2 5, set-sync 2 1 1 6 7, set-cell 9 1")
    script.look()
    script.run("open 8 2 5, set-sync 2 1 1 6 7, close 8 2, open 16 4 8, load-plan 4,3,9")
    script.look()
    script.run("set-sync 1 2 0 8 9, clear-sync, clear-sync")
    script.look()
    script.run("clear-sync, set-sync 1 2 0 4095 4095, set-cell 10 3, clear-sync, close 4 3")
    script.look()


def bits_edges(script):
    for slot_type in FIELDS:
        script.say(f"load-bits: type {slot_type}, Q 16 takes {right_count(16, slot_type)} bits")
        script.run(*load_bits_counts(slot_type, 16))
        script.look()
    good = spelled(f"load-bits 16 9 244 8 {NONE_BAD}")
    script.say("load-bits: digits 2 to 9")
    script.run("set-cell 41 1, open 16 9 77, open 16 10 78", good)
    for digit in range(2, 10):
        at = len(good) - 1 - 27 * (digit - 2)
        script.run(good[:at] + str(digit) + good[at + 1:])
    script.run(good[:-1] + "9", good[:-1], good + "0", good + "9", "load-bits 16 9 " + "7" * 244)
    script.say("load-bits: 3 before 4 before 7 before 8 before 9, and no bits")
    script.run("load-bits 3 9 222, load-bits 3 9, load-bits 0 0 0, load-bits 16 16 222",
               "load-bits 16 16, load-bits 1 1 0, load-bits 16 8 222, load-bits 16 8",
               "load-bits 8 4, load-bits 16 9 2, load-bits 16 9, load-bits 16 9 0",
               "load-bits 16 10 1")
    script.look()
    script.run("set-cell 42 1", open_loaded(1, 0, 3, 5))
    digits = "0110" * LONGEST_LINE
    script.run(f"load-bits 1 0 {digits}"[:LONGEST_LINE], "set-gain 1 0 4")
    script.look()
    script.run("set-cell 43 2", open_loaded(2, 1, 4, 6), open_loaded(8, 1, 5, 7))
    script.look()


def plan_edges(script):
    dice = Dice(30)
    script.say("load-plan: 0, 1, 16, 17, 40 and 3000 records")
    script.run("set-cell 50 1, set-sync 1 1 0 20 30, load-plan", open_loaded(4, 3, 9, 9),
               "load-plan 8,6,11, close 4 3, load-bits 8 6", "load-plan 8,6,4096, set-gain 8 6 12")
    script.look()
    sixteen = with_gains(dice, dice.shuffled(SIXTEEN))
    script.run(load_plan(sixteen))
    script.look()
    for record in ((16, 3, 5), (1, 0, 5), (3, 0, 5), (16, 16, 5), (16, 3, 0), (MAX, MAX, MAX)):
        script.run(load_plan(sixteen + [record]))
    forty = sixteen + with_gains(dice, (dice.pick(CODES) for _ in range(24)))
    script.run(load_plan(forty))
    for place, record in ((0, (3, 0, 5)), (1, (2, 2, 5)), (5, (16, 1, 4096)), (10, forty[4]),
                          (14, (1, 0, 5)), (15, (4, 1, 0)), (15, (1, 1, 5))):
        script.run(load_plan(forty[:place] + [record] + forty[place + 1:]))
    script.run(load_plan(sixteen + [(1, 0, 1)] * 2984), "set-gain 16 5 77, load-plan 1,0,1 1,0,1")
    script.look()


def plans_that_fail(script):
    script.say("load-plan: records that fail twice over; codes open before do not matter")
    dice = Dice(33)
    for record in BAD_TWICE:
        script.run(load_plan(PLAN[:2] + [record] + PLAN[2:]))
    for place in range(len(FILLED)):
        for record in ((2, 0, 1), (4, 2, 2), (8, 6, 3), (16, 15, 4), (32, 0, 1), (8, 8, 1),
                       (8, 1, 0)):
            script.run(load_plan(with_gains(dice, FILLED[:place]) + [record]))
    script.look()
    script.run(load_plan(with_gains(dice, FILLED)), "open 1 0 3, open 16 0 3, close 2 0",
               "open 2 0 44, load-plan 4,1,5 4,0,6 4,2,7 4,1,8, load-plan 16,0,1 8,0,1",
               "load-plan 8,0,1 16,1,1")
    script.look()
    script.run("load-plan")
    script.look()


def slot_edges(script):
    script.say("start and draw: refusals 10, 11, 12 and every length")
    script.empty(*start_and_draw_edges(), "draw 2560, erase")
    ends = (0, 1, 2559, 2560, 2561, 2562, MAX - 1, MAX)
    unequal = [f"draw {n} {m}" for n in ends for m in ends if n != m]
    script.run("set-cell 21 1", open_loaded(8, 2, 600, 4), *unequal, "start", *unequal)
    for length in (0, 1, 2560, 2561, MAX):
        script.run(f"draw {length} {length}, draw 1 1, draw 1, start, draw 5, show 0 5")
    script.run("draw 2550, draw 4294967295 2560, draw 4294967295 4294967295, erase, start")
    for length in (1, 975, 0, 1, 511, 1, 1, 974, 0, 1, 94, 1, 0, 1, 1):
        script.run(f"draw {length}, start, draw 0")
    script.run("start, show 0 4, show 972 8, show 1484 8, show 2460 8, erase, draw 2560, draw 0")


def half_drawn_slots(script):
    script.say("what changes in the course of a slot shows in the next one")
    script.tell(brief=True)
    changes = ("set-gain 16 5 701", "load-bits 16 9 random 13", "open 4 3 50",
               "close 16 9", "load-plan 16,5,700", "load-plan", "set-cell 82 1, open 8 5 60",
               "set-cell 83 2", "set-cell 83 3, open 8 5 60", "set-sync 2 2 1 90 80", "clear-sync",
               "close 16 5, open 16 5 700",
               "set-gain 16 5 4096, open 2 0 5, close 4 0, start, draw 3 4")
    for n, change in enumerate(changes):
        place = (0, 1, 400, 976, 1300, 1488, 1700)[n % 7]
        script.empty("set-cell 83 1", open_loaded(16, 5, 700, 11), "open 16 9 300",
                     f"set-sync 2 1 1 90 80, start, draw {place}", change,
                     "start, draw 3000, read 83 16 5 0 976, read 83 16 9 1488 976, show 1716 6",
                     "start, draw 1000, read 83 16 5 2560 976, show 3520 40, draw 1000",
                     "show 4276 6, draw 1000, show 5110 10")
    script.tell(brief=False)


BENCH_CALLS = (settings_edges, bits_edges, plan_edges, plans_that_fail, slot_edges,
               half_drawn_slots)
