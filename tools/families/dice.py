"""Random numbers that are always the same, and random calls for the bench."""

from random import Random

from reference.slot import right_count

from .script import MAX, NONE_BAD, load_plan, spelled

FACTORS = (1, 2, 4, 8, 16)
# Some of these are good numbers again once cut to 8 or 16 bits.
BAD_FACTORS = (0, 3, 5, 17, 32, 257, 258, 65537, MAX)
BAD_GAINS = (0, 4096, 65535, 65536, 65537, MAX)


class Dice(Random):
    """Uses only random(), which alone is promised to be the same in every version of Python."""

    def below(self, limit):
        return int(self.random() * limit)

    def pick(self, items):
        return items[self.below(len(items))]

    def shuffled(self, items):
        return sorted(items, key=lambda _: self.random())


def random_code(dice, settings):
    """Mostly an open code, if there is one; else any, at times a bad one."""
    if settings.open and dice.below(4):
        return dice.pick(list(settings.open))
    q = dice.pick(BAD_FACTORS if dice.below(12) == 0 else FACTORS)
    return q, dice.pick((q, MAX)) if dice.below(12) == 0 else dice.below(q)


def random_gain(dice):
    return dice.pick(BAD_GAINS) if dice.below(8) == 0 else 1 + dice.below(4095)


def random_call(dice, settings):
    """A call that changes settings, about as likely to be accepted as to be refused."""
    q, k = random_code(dice, settings)
    kind = dice.below(100)
    if kind < 5:
        slot_type = dice.pick((1, 1, 2, 3, 4))  # 1 twice: it alone takes a sync burst
        return f"set-cell {dice.below(140)} {slot_type}"
    if kind < 37:
        return random_open(dice, q, k)
    if kind < 48:
        return f"close {q} {k}"
    if kind < 60:
        return f"set-gain {q} {k} {random_gain(dice)}"
    if kind < 80:
        return random_load_bits(dice, q, k, settings.slot_type)
    if kind < 94:
        case, frame, half = dice.pick((0, 1, 1, 2, 2, 2)), dice.pick((1, 2, 1, 2, 3)), dice.below(2)
        return f"set-sync {case} {frame} {half} {random_gain(dice)} {random_gain(dice)}"
    return "clear-sync"


def random_open(dice, q, k):
    if dice.below(2):
        q = dice.pick((4, 8, 16, 16))
        k = dice.below(q)
    return f"open {q} {k} {random_gain(dice)}"


def random_load_bits(dice, q, k, slot_type):
    """Random bits, or a few that fill the code; with Q 16 also a word of all bits. At times one
    too few or too many, or with a digit above 1."""
    seed = dice.pick((dice.below(10000), dice.below(2**32)))
    if dice.below(2):
        return f"load-bits {q} {k} random {seed}"
    count, ending = 1 + dice.below(20), dice.pick(("..", "*", "..", "*", ""))
    if q == 16 and dice.below(3) == 0:
        count, ending = right_count(q, slot_type), dice.pick(("..", "*", "", "", ""))
        count += dice.pick((-2, -1, 1, 2)) if dice.below(4) == 0 else 0
    bad = NONE_BAD if dice.below(6) else dice.below(count)
    return spelled(f"load-bits {q} {k} {count} {seed} {bad}") + ending


# Plans

def random_plan(dice, q=1, k=0):
    """Codes of which no two are related."""
    if q < 16 and (q == 1 or dice.below(3)):
        return random_plan(dice, 2 * q, 2 * k) + random_plan(dice, 2 * q, 2 * k + 1)
    return [(q, k)] if dice.below(4) else []


def with_gains(dice, codes):
    return [(q, k, dice.pick((1, 4095, 1 + dice.below(4095)))) for q, k in codes]


def load_each(dice, codes):
    """Calls that give bits to each of these codes."""
    for q, k in codes:
        yield f"load-bits {q} {k} random {dice.below(1000)}"


def random_record(dice, settings):
    """Any record, quite likely a bad one."""
    (q, k), gain = random_code(dice, settings), random_gain(dice)
    return dice.pick(((q, k, gain), (q, k, gain), (dice.pick(BAD_FACTORS), k, gain),
                      (q, dice.pick((q, 2 * q, MAX)), gain)))


def random_load(dice, settings):
    """A plan, about as likely to be accepted as to be refused."""
    records = with_gains(dice, dice.shuffled(random_plan(dice)))
    if dice.below(2):
        for _ in range(dice.pick((1, 1, 1, 2, 3, 40 - len(records)))):
            records.insert(dice.below(len(records) + 1), random_record(dice, settings))
    return load_plan(records)
