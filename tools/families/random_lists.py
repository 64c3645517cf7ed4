"""random-N.txt: long random lists with some of everything, made for what is there at each line."""

from reference.analyser import LARGEST
from reference.codes import start_of_burst
from reference.recording import LONGEST_RECORDING
from reference.slot import FIELDS, SLOT, right_count

from .dice import BAD_FACTORS, FACTORS, Dice, random_call, random_code, random_gain, random_load
from .script import MAX, NONE_BAD, chips_line, spelled

RANDOM_LINES = 1500


# The bench

def random_settings(dice, script):
    settings = script.bench.settings
    kind = dice.below(12)
    if kind == 0:
        parameter = dice.pick((128, 255, 256, MAX)) if dice.below(4) == 0 else dice.below(128)
        slot_type = dice.pick((0, 4, 5, MAX)) if dice.below(3) == 0 else dice.pick((1, 1, 2, 3))
        return f"set-cell {parameter} {slot_type}"
    if kind == 1:
        return random_bits(dice, settings)
    if kind == 2:
        return (f"set-sync {dice.pick((1, 2))} {dice.pick((1, 2, 1, 2, 0))} {dice.below(2)}"
                f" {random_gain(dice)} {random_gain(dice)}")
    if kind == 3:
        q, k = random_code(dice, settings)
        return dice.pick((f"load-bits {q} {k}", f"load-bits {q} {k} {dice.below(100)}",
                          "settings", "settings", "settings"))
    return random_call(dice, settings)


def random_bits(dice, settings):
    """Bits for an open code with Q 16, about as likely right as wrong; or one is opened."""
    codes = [code for code in settings.open if code[0] == 16]
    if not codes:
        return f"open 16 {dice.below(16)} {1 + dice.below(4095)}"
    q, k = dice.pick(codes)
    count = right_count(q, settings.slot_type)
    bad = dice.below(count) if dice.below(2) else NONE_BAD
    count += dice.pick((-2, -1, 1, 2)) if dice.below(5) == 0 else 0
    line = spelled(f"load-bits {q} {k} {count} {dice.below(10000)} {bad}")
    return line[:14] + line[14:].replace("2", str(2 + dice.below(8)))


def random_plans(dice, script):
    return random_load(dice, script.bench.settings)


def random_start(dice, script):
    return random_draw(dice, script) if script.bench.copy and dice.below(2) else "start"


def random_draw(dice, script):
    length = dice.pick((dice.below(4), dice.below(100), dice.below(700), dice.below(700),
                        16 * dice.below(70), dice.below(3001), SLOT - script.bench.tally,
                        dice.pick((2560, 2561, MAX))))
    kind = dice.below(12)
    if kind == 0:
        return f"draw {length} {dice.pick((dice.below(3001), length + 1, MAX - 1, 2561))}"
    return f"draw {length} {length}" if kind < 3 else f"draw {length}"


# The recording

def random_record(dice, script):
    limit = dice.pick((1, 9, 2000))
    chips = [(dice.below(2 * limit + 1) - limit, dice.below(2 * limit + 1) - limit)
             for _ in range(dice.pick((1, 2, 3, 5, 16)))]
    if dice.below(3) == 0:
        edge = dice.pick((LARGEST, LARGEST + 1, -LARGEST, -LARGEST - 1, 2**31 - 1, -2**31))
        chips[dice.below(len(chips))] = dice.pick(((edge, 0), (0, edge), (edge, -5)))
    if dice.below(2):
        return chips_line(chips)
    return " ".join(["record", *(f"{re}{dice.pick((' ', ','))}{im}" for re, im in chips)])


def random_silence(dice, script):
    left = LONGEST_RECORDING - script.recorded()
    if dice.below(8) == 0:
        return f"silence {dice.pick((0, left + 1, MAX))}"
    return f"silence {dice.pick((dice.below(5), 16, dice.below(300)))}"


def random_noise(dice, script):
    has = script.recorded()
    first = near(dice, has)
    count = min(has - first, dice.pick((1, dice.below(20), dice.below(300))))
    size = dice.pick((0, 1, 3, 30, 30, 1000, 1000, LARGEST))
    if dice.below(8) == 0:
        first, count = dice.pick((has, has + 1, first, MAX)), dice.pick((0, 1, 80, MAX))
    if dice.below(10) == 0:
        size = dice.pick((LARGEST + 1, 2**31, MAX))
    return f"noise {first} {count} {dice.pick((dice.below(9), dice.below(2**32)))} {size}"


def random_erase(dice, script):
    full = script.recorded() > LONGEST_RECORDING - 2000
    return "erase" if full or dice.below(12) == 0 else "harden"


def near(dice, count):
    """A place in so many, mostly in the last ones."""
    return max(0, count - 1 - dice.below(60)) if dice.below(3) else dice.below(count + 1)


def random_show(dice, script):
    has = script.recorded()
    first = near(dice, has)
    count = min(has - first, dice.below(30))
    if dice.below(10) == 0:
        first, count = dice.pick((has, has + 1, first, MAX)), dice.pick((0, 1, 80, MAX))
    return f"show {first} {count}"


# The analyser

def field_part(dice, script):
    """Settings, place and length of chips that begin in a field that is drawn, at a place there
    that is a multiple of 16; None where there are none."""
    if not script.drawn:
        return None
    settings, at, place, count = dice.pick(script.drawn[-3:])
    field1, midamble, field2 = FIELDS[settings.slot_type]
    start, length = dice.pick(((0, field1), (field1 + midamble, field2)))
    first = start + max(0, -(-(at - start) // 16)) * 16
    longest = (min(at + count, start + length) - first) // 16 * 16
    if longest < 16:
        return None
    shorter = 16 * (1 + dice.below(min(longest // 16, 10)))
    return settings, place + first - at, longest if dice.below(8) == 0 else shorter


def too_large(script):
    """The places of components that are too large, among the last ones in the recording."""
    re, im = script.bench.recording.re, script.bench.recording.im
    return [at for at in range(max(0, len(re) - 2000), len(re))
            if max(abs(re[at]), abs(im[at])) > LARGEST]


def part_with(dice, script, count):
    """A part of so many chips: with one in it that is too large, if there is one, or any part."""
    last = max(0, script.recorded() - count)
    places = too_large(script) if dice.below(2) else []
    if not places:
        return dice.below(last + 1)
    return min(last, max(0, dice.pick(places) - dice.below(count)))


def random_read(dice, script):
    p, (q, k) = dice.below(128), random_code(dice, script.bench.settings)
    part = field_part(dice, script)
    if part and dice.below(3):
        settings, first, count = part
        p = settings.parameter
        if settings.open and dice.below(4):
            q, k = dice.pick(list(settings.open))
    else:
        count = 16 * (1 + dice.below(4)) if dice.below(3) else dice.pick((0, 15, 17, 1105, 1120))
        first = part_with(dice, script, count)
    p = dice.pick((128, 200, MAX)) if dice.below(20) == 0 else p
    return f"read {p} {q} {k} {first} {count}"


def random_harden(dice, script):
    return "harden"


def burst_place(dice, script):
    """Case and place in the recording of a burst that is drawn whole; None where there is none."""
    for settings, at, place, count in reversed(script.drawn[-6:]):
        start = start_of_burst(settings.parameter // 4)
        if settings.sync and at <= start and start + 256 <= at + count:
            return settings.sync[0], place + start - at
    return None


def random_read_sync(dice, script):
    found = burst_place(dice, script)
    case = dice.pick((0, 1, 1, 2, 2, 3))
    if found and dice.below(4):
        sent, first = found
        return f"read-sync {sent if dice.below(4) else case} {first} 256"
    count = dice.pick((255, 257)) if dice.below(5) == 0 else 256
    return f"read-sync {case} {part_with(dice, script, count)} {count}"


def random_find(dice, script):
    found, has = burst_place(dice, script), script.recorded()
    if found and dice.below(3):
        first = max(0, found[1] - dice.below(60))
        return f"find {first} {min(has - first, 256 + dice.below(100))}"
    count = dice.pick((dice.below(256), 256, 257, 256 + dice.below(80), 5121))
    return f"find {part_with(dice, script, count)} {count}"


# The code rules

def edgy(dice, limit):
    """Mostly a number below the limit, at times one at it or past it."""
    return dice.pick((limit, limit + 1, MAX)) if dice.below(6) == 0 else dice.below(limit)


def any_code(dice):
    q = dice.pick(BAD_FACTORS if dice.below(10) == 0 else FACTORS)
    return q, edgy(dice, q) if q else 0


def random_chip(dice, script):
    """A single chip or element, or something small about a code."""
    q, k = any_code(dice)
    return dice.pick((
        f"element {q} {k} {edgy(dice, max(q, 1))}",
        f"scrambling-chip {edgy(dice, 128)} {edgy(dice, 16)}",
        f"primary-chip {edgy(dice, 256)}",
        f"secondary-chip {edgy(dice, 17)} {edgy(dice, 256)}",
        f"code-group {edgy(dice, 128)}",
        f"burst-start {edgy(dice, 32)}"))


def random_rule(dice, script):
    """Whether two codes are related, or what a code group sends."""
    codes = any_code(dice) + any_code(dice)
    case, frame = dice.pick((0, 1, 1, 2, 2, 2, 3)), dice.pick((1, 1, 2, 2, 0, 3))
    return dice.pick((
        "related {} {} {} {}".format(*codes),
        f"allocation {case} {edgy(dice, 32)} {frame} {dice.pick((0, 0, 1, 1, 2))}"))


def random_whole_code(dice, script):
    q, k = any_code(dice)
    return dice.pick((f"code {q} {k}", f"scrambling {edgy(dice, 128)}",
                      f"secondary {edgy(dice, 17)}" if dice.below(3) else "primary"))


def random_mode(dice, script):
    return dice.pick(("brief", "full"))


# Lines of other kinds

def random_fault(dice, script):
    """A line of another kind, spoilt."""
    line = dice.pick(KINDS[:-2])[1](dice, script)
    words = line.split() if len(line) < 500 else ["start"]
    at = dice.below(len(words))
    junk = dice.pick(("x", "-1", "-", str(MAX + 1), "1.5", "+3", "9" * 50, "4,1", "0\0", "\xe4",
                      "START", "..", "0*", "random", "settings", "3,4,5"))
    kind = dice.below(5)
    if kind == 4:
        return " ".join([misspelt(dice, words[0]), *words[1:]])
    if kind == 0:
        return " ".join(words[:-1] or ["stop"])
    if kind == 1:
        return " ".join(words + [junk if dice.below(2) else "7"])
    return " ".join(words[:at] + [junk] + words[at + 1:])


def misspelt(dice, word):
    """A word with one character put in, left out or changed, or with two neighbours exchanged."""
    at, letter = dice.below(len(word)), dice.pick("aet-X")
    return dice.pick((word[:at] + letter + word[at:], word[:at] + word[at + 1:],
                      word[:at] + letter + word[at + 1:],
                      word[:at] + word[at:at + 2][::-1] + word[at + 2:]))


def random_blank(dice, script):
    return dice.pick(("", " ", "\t", "\r", "# nothing", "\t #start", "#"))


# How many in a hundred or so of each kind.
KINDS = (
    (26, random_settings), (3, random_plans), (11, random_start), (16, random_draw),
    (5, random_record), (2, random_silence), (4, random_noise), (1, random_erase),
    (6, random_show), (13, random_read), (4, random_harden), (4, random_read_sync),
    (4, random_find), (3, random_chip), (2, random_rule), (1, random_whole_code), (2, random_mode),
    (7, random_fault), (2, random_blank))


def dressed(dice, line):
    """The same words, written another way at times."""
    kind = dice.below(25)
    if kind == 0:
        return line.replace(" ", dice.pick(("  ", "\t", "\r", " \t")))
    if kind == 1:
        return line + dice.pick(("\r", " ", "\t", "#", "# and so on", " # 1 2 3", "#x"))
    if kind == 2:
        return dice.pick((" ", "\t", "\r")) + line
    return line


def random_lines(seed):
    def family(script):
        dice = Dice(seed)
        script.say(f"a random list, seed {seed}")
        kinds = [kind for weight, kind in KINDS for _ in range(weight)]
        while len(script.lines) < RANDOM_LINES:
            line = dice.pick(kinds)(dice, script)
            script.add(dressed(dice, line))
        script.run("help, draw 3000, show 0 1")
        script.ending = ("\n", "", "\r\n", "\n\n", "#")[seed % 5]
    return family


