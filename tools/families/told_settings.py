"""settings.txt: what is set, told at every step."""

from reference.codes import CODES
from reference.slot import FIELDS

from .dice import FACTORS, Dice, random_call, random_plan, with_gains
from .recording_calls import SLOTS
from .script import BYTE_ORDER_MARK, MAX, load_plan
from .settings import SYNC_PLACES
from .slots import FILLED


def after_each(script, *calls):
    """Each of these calls, with the settings after it."""
    for call in ", ".join(calls).split(", "):
        script.run(call, "settings")


def cells(script):
    script.say("every type, and parameters of several groups")
    for slot_type in FIELDS:
        for parameter in (0, 3, 4, 63, 64, 124, 127):
            after_each(script, f"set-cell {parameter} {slot_type}")
    script.say("with codes and sync before, which go")
    script.run("set-cell 9 1, open 4 1 5, set-sync 2 1 1 6 7, settings")
    after_each(script, "set-cell 9 1, set-cell 9 2, set-cell 128 1, set-cell 9 4")


def codes(script):
    """Each Q with all its codes, opened in any order and by a plan; then trees of several Q."""
    dice = Dice(51)
    script.say("codes of every Q")
    for q in FACTORS:
        nodes = [code for code in CODES if code[0] == q]
        script.run("set-cell 77 1")
        for code in dice.shuffled(nodes):
            script.run("open {} {} {}".format(*code, dice.pick((1, 4095, 1 + dice.below(4095)))))
        after_each(script, f"set-gain {q} {q - 1} 4095, set-gain {q} 0 1", load_plan([]),
                   load_plan(with_gains(dice, dice.shuffled(nodes))), f"close {q} {q // 2}")
    script.say("codes of several Q at once")
    for plan in (FILLED, *(random_plan(dice) for _ in range(12))):
        after_each(script, load_plan(with_gains(dice, dice.shuffled(plan))))
    script.run("load-plan")
    gains = (4095, 1, 9, 10, 99)
    after_each(script, *(f"open {q} {q - 1} {q}" for q in (16, 8, 4, 2, 1)), "close 16 15",
               *(f"open {q} {k} {gain}" for (q, k), gain in zip(FILLED[::-1], gains)),
               "close 4 2, open 16 9 1000, open 16 8 999, open 8 5 4095, close 2 0, close 16 15")


def syncs(script):
    script.say("sync of both cases, in all frames and halves")
    script.run("set-cell 100 1")
    for n, place in enumerate(SYNC_PLACES):
        after_each(script, f"set-sync {place} 1 4095, set-sync {place} {4095 - n} {n + 1}")
    after_each(script, "set-sync 1 1 1 5 6, set-sync 3 1 0 5 6, set-sync 1 1 0 0 6, clear-sync",
               "clear-sync, open 2 1 4095, set-sync 2 2 1 4095 4095, close 2 1, load-plan 1,0,3",
               "load-plan, set-sync 1 2 0 1 1, set-cell 101 3, set-sync 1 1 0 5 6, clear-sync")


def slots(script):
    script.say("a slot under way, with what it has left")
    script.empty("set-cell 30 1, open 4 2 8")
    after_each(script, "draw 0, draw 1, start, start, draw 0, draw 3 4, draw 1, draw 1 1, draw 558",
               "draw 1000, draw 998, draw 0, draw 1, start, draw 1, draw 0, start, draw 2559",
               "draw 1, draw 1, start, draw 2560, start, draw 2561, start, draw 1, draw 2558",
               f"draw 2, draw 0, start, draw {MAX}, start")
    script.say("with room for some of it, and for none")
    script.empty(*SLOTS, "start, draw 2000, silence 550")
    after_each(script, "draw 11, draw 10, draw 1, draw 0, start, draw 560, erase, draw 550")
    script.run("draw 3000")


def changed_under_way(script):
    """The settings are those of the next start, whatever the slot has."""
    script.say("settings changed while a slot runs")
    script.empty("set-cell 61 1, open 8 2 8, set-sync 2 1 1 70 60, start, draw 100")
    after_each(script, "set-gain 8 2 9, set-sync 1 2 0 71 61, open 16 0 4095, clear-sync",
               "close 8 2, load-plan 2,1,5 4,1,6, set-cell 62 2, open 1 0 77, draw 16",
               "load-bits 1 0 random 3, set-cell 63 3, start, draw 3000, start, open 16 15 1",
               "draw 2560, erase")


def refused_between(script):
    """What refused calls and lines that are no call leave as it was."""
    script.say("after refused calls")
    script.empty("set-cell 88 1, load-plan 16,12,40 2,0,30 8,4,4095, set-sync 2 2 0 12 13, start",
                 "draw 560")
    after_each(script, "set-cell 128 2, set-cell 87 0, open 3 0 1, open 4 4 1, open 16 15 0",
               "open 1 0 1, load-plan 4,0,1 4,1,1 4,0,2, load-plan 3,0,0, close 4 3, close 16 16",
               "set-gain 8 4 4096, set-gain 8 5 7, set-sync 1 1 1 9 9, set-sync 2 1 0 9 4096",
               "start, draw 3 4, load-bits 8 4 01, load-bits 2 0 2.., open 4, close 2 0 0",
               "settings 1, settings settings, Settings, setting, brief, full, harden, erase")
    script.run("brief, settings, close 4 3, settings, full, draw 3000")


def random_settings(script):
    script.say("random calls")
    for seed in (52, 53):
        dice = Dice(seed)
        script.empty("set-cell 0 1")
        for _ in range(60):
            script.run(random_call(dice, script.bench.settings))
            if dice.below(4) == 0:
                script.run(dice.pick(("start", f"draw {dice.below(1500)}")))
            if dice.below(3) == 0:
                script.run("settings")


def told_settings(script):
    script.add(f"{BYTE_ORDER_MARK}settings")
    script.run("brief, settings, full, settings, start, settings, draw 3000, settings")
    for family in (cells, codes, syncs, slots, changed_under_way, refused_between,
                   random_settings):
        family(script)
