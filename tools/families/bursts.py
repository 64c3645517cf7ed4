"""bursts.txt: read sync on every burst, clean and under noise, and on what is no burst.

The bench makes the bursts, chip by chip in slots with nothing else; chips that it cannot make, as
one code alone or two bursts at once, are recorded.
"""

from reference.codes import start_of_burst
from reference.pairs import add
from reference.slot import burst

from .readings import rows
from .script import chips_line

# gP, gS and the size of the noise.
LEVELS = ((1, 1, 0), (1, 4095, 0), (4095, 1, 0), (100, 100, 200), (100, 100, 2000))
NOISE_ALONE = 90000
PARTS = ((5, 0), (0, 5))  # gP and gS

# Case, then group, frame and half of the one burst and of the other, then gP and gS.
TWO = ((1, 7, 1, 0, 7, 2, 0, 3, 5), (1, 7, 1, 0, 9, 1, 0, 3, 5),
       (2, 20, 1, 0, 20, 1, 1, 3, 5), (2, 20, 1, 0, 21, 2, 1, 3, 5),
       (1, 30, 2, 0, 31, 2, 0, 5, 3), (2, 0, 1, 0, 31, 2, 1, 5, 3))
LOUD = 70000, 10000  # gP and gS of bursts with components of up to 100000

# Case; chips; the one chip that is not 0: its place, its re and its im.
EDGES = (
    "3 256 0 1 0, 4294967295 256 0 1 0, 1 0 0 0 0, 1 255 0 100001 0, 2 257 0 100001 0, "
    "1 256 0 100001 0, 1 256 255 0 100001, 2 256 0 -100001 0, 2 256 255 0 -100001, "
    "2 256 7 -2147483648 0, 1 256 0 0 0, 2 256 0 0 0, 1 256 0 100000 0, 1 256 17 0 -100000, "
    "2 256 255 -100000 100000, 2 256 100 3 1, "
    # Two refusals at once: 14 before 16 before 17.
    "0 255 0 100001 0, 3 257 0 0 0, 0 256 0 100001 0, 2 255 0 -100001 0, 1 512 0 0 100001")


def places():
    """Case, group, frame and half of every burst."""
    return [(case, group, frame, half) for case in (1, 2) for group in range(32)
            for frame in (1, 2) for half in range(case)]


def seed(case, group, frame, half):
    return 100000 * case + 1000 * group + 10 * frame + half


def every_burst(script):
    """Each of them at each level, with its chips in brief."""
    for place in places():
        case, group, frame, half = place
        start = start_of_burst(group)
        script.run(f"set-cell {4 * group + (frame + half) % 4} 1")
        for gain_p, gain_s, size in LEVELS:
            script.run(f"erase, set-sync {case} {frame} {half} {gain_p} {gain_s}",
                       "start, draw 2560")
            if size:
                script.run(f"noise {start} 256 {seed(*place)} {size}")
            script.run(f"show {start} 256, read-sync {case} {start} 256")


def noise_alone(script):
    for place in places():
        script.run("erase, silence 256", f"noise 0 256 {seed(*place)} {NOISE_ALONE}, show 0 256",
                   f"read-sync {place[0]} 0 256")


def record_and_read(script, case, chips):
    script.run("erase", chips_line(zip(*chips)), f"show 0 256, read-sync {case} 0 256")


def nothing_or_parts(script):
    """Silence, the primary code alone, the secondary codes alone."""
    for case in (1, 2):
        script.run(f"erase, silence 256, show 0 256, read-sync {case} 0 256")
        for gains in PARTS:
            chips = burst(script.codes, (case, 0, 1, 0), *gains)
            record_and_read(script, case, chips)


def two_at_once(script):
    for case, *sent, gain_p, gain_s in TWO:
        chips = [0] * 256, [0] * 256
        for place in (sent[:3], sent[3:]):
            add(chips, (1, 0), burst(script.codes, (case, *place), gain_p, gain_s))
        record_and_read(script, case, chips)


def loudest(script):
    for case, group in ((1, 0), (1, 31), (2, 0), (2, 31)):
        record_and_read(script, case, burst(script.codes, (case, group, 1, 0), *LOUD))


def edges(script):
    for case, length, *chip in rows(EDGES):
        script.one_chip(length, *chip)
        script.run(f"read-sync {case} 0 {length}")


def bursts(script):
    script.tell(brief=True)
    for family in (every_burst, noise_alone, nothing_or_parts, two_at_once, loudest, edges):
        script.say(family.__name__.replace("_", " "))
        family(script)
