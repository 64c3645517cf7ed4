"""Part of calls.txt: read, harden, read sync and find, with their refusals and edges."""

from reference.analyser import LARGEST
from reference.codes import CODES, start_of_burst
from reference.pairs import add
from reference.slot import burst

from .bursts import TWO
from .dice import Dice, with_gains
from .script import MAX, chips_line, load_plan, open_loaded
from .settings import SYNC_PLACES
from .slots import FILLED


def first_readings(script):
    script.say("harden before and after the first accepted read")
    script.run("harden, read 8 4 1 0 0, harden, read 8 4 1 0 16")
    script.add(chips_line([(7, -3)] * 16))
    script.run("read 128 4 1 0 16, harden, read 8 3 1 0 16, harden, read 8 4 4 0 16, harden",
               "read 8 4 1 0 15, harden, read 8 4 1 0 17, harden, read 8 4 1 0 16, harden",
               "read 128 8 1 0 16, read 8 3 1 0 16, read 8 8 8 0 16, read 8 8 1 0 15, harden",
               "record 100001 0, read 8 8 1 1 16, harden, read 8 8 1 0 16, harden, erase, harden",
               "read 8 8 1 0 16, harden, set-cell 3 2, start, harden, draw 2560, erase, harden")


def instances(script):
    script.say("worked examples: 5, with the other 12 chips drawn and then with 0 there")
    script.empty("set-cell 8 1, open 4 1 3", f"load-bits 4 1 {'01' * 488}",
                 "start, draw 16, show 0 4, read 8 4 1 0 16, harden, erase")
    script.add(chips_line([(0, 3), (-3, 0), (0, 3), (3, 0)] + [(0, 0)] * 12))
    script.run("read 8 4 1 0 16, harden, draw 3000")
    script.say("6")
    script.empty("set-cell 8 1, open 2 0 3, open 4 2 5", f"load-bits 2 0 {'01' * 976}",
                 f"load-bits 4 2 {'10' * 488}", "start, draw 16, show 0 4, read 8 2 0 0 16, harden",
                 "read 8 4 2 0 16, harden, read 8 4 3 0 16, harden, read 8 4 0 0 16, draw 3000")
    script.say("7")
    for group in (15, 16, 31):
        script.empty(f"set-cell {4 * group} 1, set-sync 1 1 0 5 3, start, draw 2560",
                     "find 0 2560")
    script.say("12")
    script.run("erase")
    script.add(chips_line([(0, 0), (-5, -5), (-5, 5)] + [(0, 0)] * 13))
    script.run("read 8 1 0 0 16, harden")


def read_edges(script):
    script.say("read: 1 before 3 before 4 before 16 before 17")
    script.empty("set-cell 5 2, open 2 1 7, start, draw 2560, record 100001 0",
                 "read 128 3 9 2560 1, read 127 3 9 2560 1, read 127 4 4 2560 1",
                 "read 127 4 3 2560 1, read 127 4 3 2545 16, read 127 4 3 2544 16",
                 "read 4294967295 2 1 0 16")
    for q in (0, 3, 5, 17, 32, 257, 65537, MAX):
        script.run(f"read 5 {q} 0 0 16")
    for q in (1, 2, 4, 8, 16):
        script.run(f"read 5 {q} {q} 0 16, read 5 {q} {q - 1} 0 16, read 5 {q} {MAX} 0 16")
    for count in (0, 1, 8, 15, 16, 17, 31, 32, 1103, 1104, 1105, 1120, 2208, 2560):
        script.run(f"read 5 16 8 0 {count}")
    script.look_whole("read 5 2 1 0 1104", "read 5 2 1 1360 1104")
    script.run("read 5 2 0 1360 64, harden, read 5 2 1 1 16, read 6 2 1 0 16, read 127 2 1 0 16",
               "read 0 2 1 0 16, read 5 16 9 2561 0")


def components_to_read(script):
    script.say("components to read, at and past the limits")
    script.run("erase")
    for value in (LARGEST, -LARGEST, LARGEST + 1, -LARGEST - 1, 2**31 - 1, -2**31):
        for place in (0, 15):
            for chip in ((value, 0), (0, value), (value, value)):
                chips = [(1, -2)] * 16
                chips[place] = chip
                script.add(chips_line(chips))
                has = script.recorded()
                script.run(f"read 9 4 2 {has - 16} 16, read 9 1 0 {has - 16} 16, show {has - 1} 1")
    script.run("harden, read 9 4 2 64 32, harden")
    script.add(chips_line([(LARGEST, -LARGEST)] * 32))
    script.run(f"read 70 16 7 {has} 32, harden, read 70 1 0 {has} 32, harden, find 0 300",
               "find 0 256")


def every_code(script):
    script.say("fields read with every code, open or not, and hardened")
    dice = Dice(31)
    script.empty("set-cell 99 1", load_plan(with_gains(dice, FILLED)))
    for q, k in FILLED[1:]:
        script.run(f"load-bits {q} {k} random {q + k}")
    script.run("start, draw 2560")
    for q, k in CODES:
        script.run(f"read 99 {q} {k} 0 96, harden, read 99 {q} {k} {1488 + 880} 96, harden")
    for q, k in FILLED:
        script.look_whole(f"read 99 {q} {k} 0 976", f"read 99 {q} {k} 1488 976")
    script.empty("set-cell 100 3, open 8 7 900", open_loaded(8, 0, 1000, 1),
                 "open 16 4 1, start, draw 3000")
    script.look_whole("read 100 8 0 0 976", "read 100 8 0 1488 880", "read 100 8 7 1488 880",
                      "read 100 16 4 1488 880", "read 100 16 5 1488 880", "read 100 8 7 1487 880",
                      "read 100 8 7 1489 880")


def bursts(script):
    script.say("sync bursts of both cases, found and read back")
    dice = Dice(32)
    for n in range(2 * 32):
        group, place = n % 32, SYNC_PLACES[(n + n // 32) % 6]
        case = place[0]
        start = start_of_burst(group)
        before = min(start, dice.below(30))
        gains = f"{dice.pick((1, 4095, 1 + dice.below(4095)))} {dice.pick((1, 4095, 9, 700))}"
        script.empty(f"set-cell {4 * group + dice.below(4)} 1")
        if group % 4 == 1:
            script.run("open 4 2 60, open 16 0 900")
        script.run(f"set-sync {place} {gains}, start, draw {start - before}, erase, draw 300",
                   f"read-sync {case} {before} 256, read-sync {3 - int(case)} {before} 256",
                   f"find 0 290, show {before} 3, draw 3000")
    script.say("a slot under a burst: the data is read, and the burst too")
    script.empty("set-cell 88 1", open_loaded(4, 2, 50, 3), "set-sync 1 2 0 900 4095, start",
                 "draw 2560, read-sync 1 1776 256, read-sync 2 1776 256, read-sync 1 1775 256",
                 "read-sync 1 1777 256, find 0 2560, find 1776 256, find 1777 300, find 1500 600",
                 "find 1520 512, find 1521 512, show 1770 10, show 2028 8")
    script.look_whole("read 88 4 2 0 976", "read 88 4 2 1488 976")


def sync_edges(script):
    script.say("read-sync: 14 before 16 before 17 before 19")
    script.empty("set-cell 12 1, set-sync 2 1 0 4 6, start, draw 2560, record 100001 0, start",
                 "draw 400, record 5 -100001")
    for case in (0, 1, 2, 3, 257, 65538, MAX):
        script.run(f"read-sync {case} 2400 255, read-sync {case} 144 256")
    for count in (0, 1, 255, 257, 512, 2560):
        script.run(f"read-sync 1 0 {count}, read-sync 2 2 {count}")
    script.run("read-sync 1 2305 256, read-sync 2 2560 256, read-sync 2 2304 256",
               "read-sync 1 2561 256, read-sync 1 976 256, read-sync 2 976 256",
               "read-sync 1 2305 257, read-sync 2 2706 256, read-sync 2 2705 256",
               "read-sync 2 2705 255, read-sync 2 144 256, read-sync 2 2961 0")


def sync_of_no_burst(script):
    script.say("read-sync: primary code alone, secondary code alone, two bursts at once, and then"
               " chips as large as can be")
    codes = script.codes
    two = [0] * 256, [0] * 256
    case, *places, gain_p, gain_s = TWO[0]
    for place in (places[:3], places[3:]):
        add(two, (1, 0), burst(codes, (case, *place), gain_p, gain_s))
    sent = burst(codes, (2, 9, 2, 1), 1, 1)
    largest = [[LARGEST if value > 0 else -LARGEST for value in values] for values in sent]
    for chips in (codes.primary, codes.secondary[1], two, largest):
        script.run("erase")
        script.add(chips_line(zip(*chips)))
        script.run("read-sync 1 0 256, read-sync 2 0 256, find 0 256")
    script.run("record 100000 -100000, read-sync 1 1 256, read-sync 2 1 256, find 0 257",
               "find 1 256, record 100000 100000, read-sync 2 2 256, find 0 258, show 254 4")


def find_edges(script):
    script.say("find: 255, 256, 5120 and 5121 chips, 16 before 17, the first of equals")
    script.empty("set-cell 124 1, set-sync 1 1 0 7 2, open 16 1 4, start, draw 2560, start",
                 "draw 2560, record 1 2 3 4, find 0 0, find 0 255, find 0 256, find 0 257",
                 "find 0 5120, find 0 5121, find 2 5120, find 1 5121, find 0 5122, find 5121 1",
                 "find 976 300, find 2208 2816, find 2209 2600, find 4700 422, find 4512 256",
                 "find 4513 256, record 0 100001, find 4867 256, find 4866 256, find 5000 122",
                 "find 5122 1, record -100001 0, find 4868 256, find 4867 256, find 4512 257")


ANALYSER_CALLS = (read_edges, components_to_read, every_code, bursts, sync_edges, sync_of_no_burst,
                  find_edges)
