"""bits.txt: the forms of load-bits, and the bits that they put into the slot."""

from reference.script import LONGEST_LINE
from reference.slot import FIELDS, right_count

from .dice import BAD_FACTORS, FACTORS
from .script import BYTE_ORDER_MARK, MAX, NONE_BAD, seeded_bits

FILLINGS = ("..", "*")
SEEDS = (0, 1, 2, 255, 65535, 65536, 2**31 - 1, 2**31, MAX - 1, MAX)
NO_BITS = (
    ".", "...", "....", "*", "**", "0**", "01**", "*..", "..*", "0*..", "0..*", ".01", "..01",
    "0..1", "0.1..", "0*1", "*01", "0.", "01...", "1.*", "01,", "x..", "x*", "0x..", "0x*",
    "-1..", "+1*", "1_*", "0..x", "0*x", "01\0*", "01..\0", "\xb7\xb7", "0\xe2\x80\xa6", "0110+",
    "1" * 300 + ".", "1" * 300 + "**", "1" * 300 + "...", ".." * 20, "*" * 33)
NO_RANDOM = (
    "random", "random 4294967296", "random x", "random -1", "random -0", "random +1", "random 1.5",
    "random 1,1", "random 99999999999999999999", "random 1 2", "random 1 x", "random 1 random",
    "random random", "random ..", "random *", "random 01*", "random 1..", "random 1*", "Random 1",
    "RANDOM 1", "randoM 1", "randoms 1", "rando 1", "random.. 1", "random..", "random*", "random1",
    "random,1", "random:1", "random\0 1", "random 1\0", "x 1", "0 random 1", "0 random", "0 ..",
    "0 *", ".. 0", ".. ..", ".. random 1", "01* 7", "01.. x", "* 1", ". random 1", "seed 1",
    "random " + "9" * 40, "random " + "0" * 40 + "x")
# Words for a code with Q 16, each with what it puts into the slot.
SOME = ("..", "0..", "1..", "01..", "10..", "0110..", "0*", "1*", "01*", "10*", "110*", "0110*",
        "0110111*", "00000000000000001*", "00000000000000001..")
ABOVE_1 = ("2..", "9..", "2*", "9*", "02..", "012*", "0120..", "1010101010101010103*",
           "4444444444444444*", "5..", "60*", "7*", "08*", "3..")


def heard(script, p, q, k):
    """What a slot has of this code's bits, by reading both fields; in brief."""
    field1, midamble, field2 = FIELDS[script.bench.settings.slot_type]
    script.empty("start, draw 2560")
    script.tell(brief=True)
    script.run(f"read {p} {q} {k} 0 {field1}, harden",
               f"read {p} {q} {k} {field1 + midamble} {field2}, harden")
    script.tell(brief=False)


def load(script, q, k, words):
    script.add(f"load-bits {q} {k} {words}")


def every_count(script):
    """For each Q and type: no digits, some, one fewer than the count, the count, one more."""
    for slot_type in FIELDS:
        for q in FACTORS:
            p, k, count = 5 * q + slot_type, q // 3, right_count(q, slot_type)
            script.say(f"type {slot_type}, Q {q}: {count} bits")
            script.empty(f"set-cell {p} {slot_type}, open {q} {k} {slot_type}")
            word = "1" + seeded_bits(count - 1, q + slot_type, NONE_BAD)
            for words in ("..", "1..", "1*", "0110111*", word[1:38] + "*", word[:-1] + "..",
                          word[:-1] + "*", f"random {slot_type}", word + ".."):
                load(script, q, k, words)
                heard(script, p, q, k)
            for words in (word + "1..", word + "0*", "", word + "*"):
                load(script, q, k, words)
            heard(script, p, q, k)


def ready(script):
    """Code (16, 9) is open, with random bits, and so is (16, 10), with 0s."""
    script.empty("set-cell 41 1, open 16 9 77, open 16 10 78, load-bits 16 9 random 9")


def some_words(script):
    script.say("words that fill a code, seen bit by bit")
    ready(script)
    for word in SOME:
        load(script, 16, 9, word)
        script.empty("start, draw 400, read 41 16 9 0 384, harden, draw 2160")
    script.say("random bits, by several seeds, for one code and for another Q")
    for seed in SEEDS:
        load(script, 16, 9, f"random {seed}")
        load(script, 16, 10, f"random {seed // 2}")
        script.empty("start, draw 400, read 41 16 9 0 384, harden, read 41 16 10 0 64, harden",
                     "draw 2160")
    script.run("load-plan 4,2,9, load-bits 4 2 random 1")
    script.empty("start, draw 2560, read 41 4 2 0 96, harden, load-bits 4 2 random 0001, erase")
    heard(script, 41, 4, 2)


def refused_words(script):
    """Refusals 3, 4, 7, 8 and 9, in this order; what is open keeps its bits."""
    script.say("codes that are bad or closed, too many bits, digits above 1")
    ready(script)
    for words in ("..", "01*", "2..", "3*", "random 5", "1" * 244 + "..", "1" * 489 + "*"):
        for q in BAD_FACTORS:
            load(script, q, 0, words)
        for code in ("3 9", "16 16", f"16 {MAX}", "1 1", "8 8", "16 8", "8 4", "1 0", "2 1"):
            script.add(f"load-bits {code} {words}")
    for word in ABOVE_1:
        load(script, 16, 9, word)
    for bits in ("1" * 243 + "2", "2" + "1" * 243):
        for ending in ("", *FILLINGS):
            load(script, 16, 9, bits + ending)  # 9
            load(script, 16, 9, bits + "0" + ending)  # 8
            load(script, 16, 9, bits[1:] + ending)
    for length in (245, 488, 976, 977, 4417):
        for ending in FILLINGS:
            load(script, 16, 9, "1" * length + ending)
    heard(script, 41, 16, 9)
    script.say("the count is that of the type set last")
    for slot_type in (2, 3, 1):
        script.run(f"set-cell 41 {slot_type}, open 16 9 77, load-bits 16 9 01*")
        load(script, 16, 9, "1" * 244 + "..")
        heard(script, 41, 16, 9)


def long_words(script):
    """Words longer than any code has bits for, up to the longest line."""
    script.say("long words")
    script.empty("set-cell 42 2, open 1 0 3, load-bits 1 0 random 4")
    begin = "load-bits 1 0 "
    for ending in (*FILLINGS, "..x", "*x"):
        script.add(begin + "1" * 4500 + ending)
    script.add(begin.ljust(LONGEST_LINE - 1, "1") + "*")
    heard(script, 42, 1, 0)


def no_bits(script):
    script.say("words that are no bits, and words around them")
    ready(script)
    for words in (*NO_BITS, *NO_RANDOM):
        load(script, 16, 9, words)
        if len(words) < 10:
            script.add(f"load-bits 3 9 {words}")
    for line in ("load-bits random 1", "load-bits 16 random 1", "load-bits x 9 ..",
                 "load-bits 16 x 01*", "load-bits 16 9 ..#x", "load-bits 16 9 #..",
                 "load-bits 16 9 01#*", "load-bits 16 9 random 7#8", "load-bits 16 9 random #7",
                 "load-bits 16 9 ran#dom 7", "load-bits 16 9 .#.", "load-bits\t16\t9\trandom\r5\r",
                 "random 1", "load-bits 16 9 random\xa05"):
        script.add(line)
    heard(script, 41, 16, 9)


def under_way(script):
    """Bits that are loaded while a slot runs show in the next one."""
    script.say("bits loaded while a slot runs")
    ready(script)
    for words in ("random 3", "01*", ".."):
        script.run("erase, start, draw 16")
        load(script, 16, 9, words)
        script.run("draw 960, show 960 16, read 41 16 9 0 976, harden, draw 3000, start, draw 976",
                   "read 41 16 9 2560 976, harden, draw 3000")


def bits(script):
    line = f"{BYTE_ORDER_MARK}load-bits 16 9 "
    script.add(line.ljust(LONGEST_LINE - 2, "0") + "..")  # as long as a line may be, by the mark
    for family in (every_count, some_words, refused_words, long_words, no_bits, under_way):
        family(script)
