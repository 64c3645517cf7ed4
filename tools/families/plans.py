"""plans.txt: load plan, with its refusals and the slots of what it opens.

After each accepted draw its chips are shown, in brief where they are many.
"""

from itertools import permutations

from reference.codes import CODES, are_related
from reference.slot import FIELDS, right_count

from .dice import FACTORS, Dice, load_each, random_call, random_load, random_plan, with_gains
from .script import MAX, NONE_BAD, load_plan
from .slots import FILLED, SIXTEEN, three_codes

SHOW_PLAN = "start, draw 2560 2560"
# Of these no two are related; the codes (8, 1), (8, 4), (8, 7) and (16, 13) are free beside them.
PLAN = [(4, 1, 700), (16, 12, 4095), (8, 5, 1), (16, 0, 33)]
BAD_RECORDS = (
    [(q, 0, 5) for q in (0, 3, 17, 257, MAX)],
    [(q, q, 5) for q in FACTORS] + [(8, 256 + 1, 5), (16, MAX, 5)],
    [(8, 1, gain) for gain in (0, 4096, 65537, MAX)],
    [(4, 1, 5), (2, 0, 5), (1, 0, 5), (8, 3, 5), (16, 4, 5)],  # related to the plan's first
)
# 3 before 4 before 5 before 6
BAD_TWICE = [(3, 9, 0), (0, 0, 4096), (17, 17, 5), (MAX, MAX, MAX), (3, 0, 0), (4, 4, 0),
             (16, 16, 4096), (1, 1, MAX), (4, 1, 0), (2, 0, 4096), (8, 3, 65537), (1, 0, MAX)]
BAD_IN_TURN = [(3, 1, 5), (4, 4, 5), (8, 1, 0), (16, 6, 5)]  # 3, 4, 5, and 6 after the plan's first


def plans_refused(script):
    """Each bad record as the first, a middle and the last one of a plan; then records that fail
    twice over, and plans in which four fail. The codes open before do not matter, and stay."""
    for slot_type, records in zip((1, 2, 3, 1), BAD_RECORDS):
        script.run("fresh", three_codes(60 + slot_type, slot_type))
        for record in records:
            for place in (0, 2, 4):
                script.run(load_plan(PLAN[:place] + [record] + PLAN[place:]))
        script.run("set-gain 16 5 1999, open 8 1 5", SHOW_PLAN)
    for record in BAD_TWICE:
        script.run(load_plan(PLAN[:2] + [record] + PLAN[2:]))
    script.run("set-gain 8 1 299, close 2 1", SHOW_PLAN)
    for n, bad in enumerate(permutations(BAD_IN_TURN)):
        place = 1 + n % 4
        script.run(load_plan([*PLAN[:place], *bad, *PLAN[place:]]))
    script.run("open 4 3 9, close 16 5", SHOW_PLAN, load_plan(PLAN), SHOW_PLAN)


def full_tree(q, k):
    """This code and the siblings on the way up: no two are related, and no more can be opened."""
    codes = [(q, k)]
    while q > 1:
        codes.append((q, k ^ 1))
        q, k = q // 2, k // 2
    return codes


def plans_related(script):
    """For each code a plan that fills the tree with it, and one or two with a code related to it.
    What the plan before left open is always related to the new one's codes; it does not matter."""
    dice = Dice(7)
    script.run("fresh, set-cell 45 1, set-sync 1 2 0 500 400")
    for n, (q, k) in enumerate(CODES):
        related = [code for code in CODES if are_related((q, k), code)]
        codes = dice.shuffled(full_tree(q, k))
        script.run(load_plan(with_gains(dice, codes)),
                   load_plan(with_gains(dice, [dice.pick(related), (q, k)] + codes)))
        if n % 2:
            script.run(load_plan(with_gains(dice, codes + [dice.pick(related)])))
        if n % 5 == 0:
            script.run(SHOW_PLAN)


def plans_long(script):
    """Of 17 records or more one is always refused, that at place 16 at the latest."""
    dice = Dice(77)
    script.run("fresh", three_codes(7, 1))
    sixteen = with_gains(dice, dice.shuffled(SIXTEEN))
    for first, again in ((0, 1), (0, 8), (7, 8), (3, 15), (14, 15), (0, 16), (9, 16), (15, 16)):
        script.run(load_plan(sixteen[:again] + [sixteen[first]] + sixteen[again:]))
    for record in ((3, 0, 5), (0, 0, 0), (17, 16, 5), (MAX, 0, 5), (16, 16, 5), (4, 4, 0),
                   (1, MAX, 5), (16, 3, 0), (8, 7, 4096), (1, 0, 65537), (1, 0, 5), (2, 1, 5),
                   (4, 0, 5), (8, 7, 5), (16, 0, 5)):
        script.run(load_plan(sixteen + [record]))
    script.run("open 4 0 44", SHOW_PLAN)
    forty = sixteen + with_gains(dice, (dice.pick(CODES) for _ in range(24)))
    for length in (16, 17, 31, 32, 33, 40):  # the first alone is accepted
        script.run(load_plan(forty[:length]))
    script.run("set-sync 2 2 0 800 900", SHOW_PLAN, *load_each(dice, SIXTEEN[5:8]))
    for place, record in ((0, (3, 0, 5)), (1, (2, 2, 5)), (2, (8, 8, 5)), (5, (16, 1, 4096)),
                          (10, forty[4]), (14, (1, 0, 5)), (15, (4, 1, 0)), (15, (1, 1, 5))):
        script.run(load_plan(forty[:place] + [record] + forty[place + 1:]))
    script.run(load_plan(with_gains(dice, CODES)), load_plan(with_gains(dice, CODES[::-1])),
               load_plan([(8, 3, 9)] * 40), load_plan(forty[::-1]), "set-gain 16 7 1", SHOW_PLAN)


def plans_accepted(script):
    """Plans that fill the tree, and others; in each some codes then get bits."""
    dice = Dice(777)
    for slot_type in FIELDS:
        script.run(f"fresh, load-plan, set-cell {90 + slot_type} {slot_type}, set-sync 2 1 0 77 66")
        for codes in (SIXTEEN, [(1, 0)], FILLED, random_plan(dice), []):
            script.run(load_plan(with_gains(dice, codes)), SHOW_PLAN,
                       *load_each(dice, codes[-2:]))
        script.run("open 1 0 2000", SHOW_PLAN)
    for q in FACTORS:
        script.run(f"load-plan {q},{q - 1},4095, load-plan {q},{q - 1},1")
    script.run(SHOW_PLAN, "set-cell 64 1, set-sync 1 1 0 4095 4095",
               load_plan((q, k, 4095) for q, k in SIXTEEN), SHOW_PLAN)


def plans_between_draws(script):
    """Plans in a slot's course, which show in the next slot but not in the running one. The first
    open code, if there is one, gets bits before the plan."""
    dice = Dice(7777)
    three = [(2, 1, 40), (8, 1, 300), (16, 5, 2000)]  # as they are open at first
    other_gains = [(q, k, gain + 1) for q, k, gain in three]
    changes = ([three], [], [other_gains], [other_gains + three[:1]], [three[1:]], [[]],
               [[(1, 0, 9)]], [[(16, k, 10 + k) for k in range(16)]], [PLAN, PLAN + [(1, 0, 7)]],
               [PLAN + [(4, 1, 8)], three[:2]], [PLAN, []], [[], [(32, 0, 1)]], [PLAN])
    for slot_type, some in ((1, changes), (2, changes[::3]), (3, changes[2::3])):
        script.run("fresh", three_codes(20 + slot_type, slot_type))
        for n, plans in enumerate(some):
            opened = list(script.bench.settings.open)
            script.run("start", *load_each(dice, opened[:1]))
            script.draw_to((0, 1, 400, 976, 1300, 1488, 1700, 2559)[n % 8])
            script.run(*map(load_plan, plans), "draw 3000 3000")
        script.run(SHOW_PLAN)


def plans_and_calls(script):
    """The other calls on what a plan has opened, and on what it has closed."""
    for slot_type in FIELDS:
        count = right_count(16, slot_type)
        script.run(f"fresh, set-cell 33 {slot_type}, set-sync 2 1 1 60 70, open 2 1 9",
                   load_plan(PLAN), "close 2 1, open 2 0 9, open 4 1 9, open 16 4 9, open 8 1 90",
                   f"load-bits 16 12 {count - 1} 7 {NONE_BAD}, load-bits 16 12 {count} 7 0",
                   f"load-bits 16 12 {count} 7 {NONE_BAD}, load-bits 4 1 random 8",
                   "set-gain 8 5 4096, set-gain 8 5 77, close 16 0, close 16 0, open 8 0 500",
                   SHOW_PLAN, load_plan(PLAN[:3]), SHOW_PLAN,
                   f"set-cell 34 {slot_type % 3 + 1}, close 8 5", SHOW_PLAN, load_plan(PLAN[1:]),
                   "set-cell 35 4, clear-sync, close 8 5", SHOW_PLAN)


def random_plans(script):
    for seed in (70, 71):
        dice = Dice(seed)
        script.run("fresh")
        for _ in range(280):
            kind = dice.below(12)
            if kind < 2:
                script.run(random_load(dice, script.bench.settings))
            elif kind < 6:
                script.run(random_call(dice, script.bench.settings))
            elif kind < 9:
                script.run("start")
            else:
                length = dice.pick((dice.below(33), dice.below(1000), 2560, 2560, 3000))
                other = dice.below(3001) if dice.below(10) == 0 else length
                script.run(f"draw {length} {other}")


def plans(script):
    script.shows_draws = True
    for family in (plans_refused, plans_related, plans_long, plans_accepted, plans_between_draws,
                   plans_and_calls, random_plans):
        script.say(family.__name__.replace("_", " "))
        family(script)
