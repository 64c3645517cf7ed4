"""refusals.txt: each refusal that a line can get, of each call, with its words and in brief."""

from reference.script import LONGEST_LINE
from reference.standard import demand

from .dice import Dice, with_gains
from .script import BYTE_ORDER_MARK, MAX, load_plan
from .slots import SIXTEEN

# On the bench and recording that `ready` makes: by call, its refusals, each with the words after
# the call's own.
REFUSED = {
    "set-cell": {1: "128 1", 2: "127 4"},
    "open": {3: "3 0 5", 4: "8 8 5", 5: "8 7 4096", 6: "8 2 5"},
    "load-plan": {3: "4,1,5 0,0,5", 4: "16,16,5", 5: "2,1,5 4,1,6 16,0,0", 6: "4,1,5 4,0,6 2,0,7"},
    "close": {3: "17 0", 4: "4 4", 7: "4 0"},
    "set-gain": {3: "5 0 7", 4: "2 2 7", 5: "4 1 0", 7: "8 7 9"},
    "load-bits": {3: "6 0 ..", 4: "1 1 random 5", 7: "8 7 01*", 8: "4 1 0110", 9: "4 1 012.."},
    "set-sync": {14: "3 1 0 5 5", 15: "1 1 1 5 5", 5: "2 1 1 5 4096"},
    "start": {10: ""},
    "draw": {12: "3 4"},
    "read": {1: "128 4 1 0 16", 3: "8 3 1 0 16", 4: "8 4 4 0 16", 16: "8 4 1 0 20",
             17: "8 4 1 2048 16"},
    "read-sync": {14: "0 0 256", 16: "1 0 255", 17: "1 1800 256", 19: "1 1100 256"},
    "find": {16: "0 255", 17: "1800 300"},
    "element": {3: "0 0 0", 4: "16 16 0", 16: "4 1 4"},
    "related": {3: "4 1 7 0", 4: "4 1 2 2"},
    "code-group": {1: "128"},
    "scrambling-chip": {1: "128 0", 16: "8 16"},
    "primary-chip": {16: "256"},
    "secondary-chip": {16: "2 0"},
    "allocation": {1: "1 32 1 0", 14: "3 0 1 0", 15: "1 0 3 0"},
    "burst-start": {1: "32"},
    "code": {3: "12 0", 4: "2 2"},
    "scrambling": {1: "128"},
    "secondary": {16: "7"},
}
# The other ways into some of these.
OTHERS = ("open 0 0 0", "open 1 0 5", f"set-cell {MAX} {MAX}", "set-sync 2 3 0 5 5",
          "set-sync 2 1 2 5 5", "set-sync 1 1 0 0 5", "draw 0 1", "read 8 4 1 0 0",
          "read 8 4 1 0 1120", "read-sync 2 0 257", "find 0 0", "find 0 5121", "secondary 16",
          "secondary-chip 1 256", "secondary-chip 16 0", "element 1 0 1", f"burst-start {MAX}",
          "load-bits 4 1", "load-bits 4 1 random 5", "refusals")
NOT_TYPE_1 = ("set-sync 1 1 0 5 5", "draw 5 6", "draw 5", "draw 0", "close 4 1")  # 13, 11, 7


def ready(script):
    """Code (4, 1) is open and a slot is under way; the recording has a chip that is too large."""
    script.run("open 4 1 30, start, draw 2050, record 100001 0, silence 3500")


def each_refusal(script):
    for call, refused in REFUSED.items():
        for number, words in refused.items():
            line = f"{call} {words}".rstrip()
            script.run(line)
            told = script.answered or ""
            demand(told.split(":")[0].split()[:2] == ["refused", str(number)], line,
                   f"refused {number} was meant")


def in_turn(script):
    """In full, in brief and in full again."""
    script.say("the refusals of each call, in full, in brief and in full again")
    ready(script)
    script.run("refusals")
    for call in ("full", "brief", "full, full"):
        script.run(call)
        each_refusal(script)
        script.run(*OTHERS)
    script.say("without a slot, and with another type")
    script.empty("set-cell 8 2", *NOT_TYPE_1, "brief", *NOT_TYPE_1, "full, set-cell 8 3",
                 *NOT_TYPE_1, "settings")


def places(script):
    """The place of a refused plan's record, of one digit and of more, in full and in brief."""
    script.say("places of plans")
    sixteen = with_gains(Dice(41), SIXTEEN)
    for call in ("full", "brief", "full"):
        script.run(call)
        for place in (0, 1, 9, 10, 15):
            for record in ((3, 0, 5), (4, 4, 5), (16, 0, 0)):
                script.run(load_plan(sixteen[:place] + [record] + sixteen[place:]))
            script.run(load_plan(sixteen[:place + 1] + [(1, 0, 5)]))
        script.run(load_plan(sixteen + [(3, 3, 3)]), load_plan(sixteen))


def mode_changes(script):
    """What a refused line, a fault or a fresh recording does not change: how it is told."""
    script.say("brief and full, and what lies between them")
    script.run("brief, close 8 8, brief x, full x, close 8 8, nothing, close 8 8, refusals",
               "erase, close 8 8, set-cell 4 1, close 8 8, start, close 8 8, draw 3000, close 8 8",
               "full, close 8 8, brief 1, close 8 8, refusals 1, Brief, close 8 8, refusals")


def refusal_words(script):
    line = f"{BYTE_ORDER_MARK}close 3 0 #"
    script.add(line.ljust(LONGEST_LINE + 1, "x"))  # too long by the mark alone
    for family in (in_turn, places, mode_changes):
        family(script)
