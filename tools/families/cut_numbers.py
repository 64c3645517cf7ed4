"""cut-numbers.txt: calls of which one number is good again once it is cut to 8, 16, 24 or 31 bits.

A program that drops the upper bits of a number would take it for the good one.
"""

from .script import open_loaded, spelled

MORE = 2**8, 2**16, 2**24, 2**31

# Each is accepted as it stands, on the bench and the recording that `ready` makes.
GOOD = (
    "set-cell 8 1", "open 4 2 5", "set-gain 4 1 7", "close 4 1", "load-plan 4,1,5 8,6,7",
    "set-sync 2 1 1 5 6", "read 8 4 1 0 32", "read-sync 1 384 256", "find 300 400", "show 0 4",
    "element 4 1 2", "related 4 1 16 5", "code-group 8", "scrambling-chip 8 3", "primary-chip 5",
    "secondary-chip 1 5", "allocation 2 9 1 1", "burst-start 9", "code 4 1", "scrambling 8",
    "secondary 1", "silence 3", "noise 0 16 1 5")


def ready(script):
    """Code (4, 1) is open, and a slot with a burst from chip 384 on is in the recording."""
    script.empty("set-cell 32 1, set-sync 1 1 0 50 40", open_loaded(4, 1, 30, 5),
                 "start, draw 2560")


def with_more(call):
    """The call with one number after the other larger by one of these."""
    name, *words = call.split(" ")
    for at, word in enumerate(words):
        numbers = word.split(",")
        for n, number in enumerate(numbers):
            for more in MORE:
                larger = ",".join([*numbers[:n], str(int(number) + more), *numbers[n + 1:]])
                yield " ".join([name, *words[:at], larger, *words[at + 1:]])


def each_number(script):
    for call in GOOD:
        ready(script)
        script.run(*with_more(call), call)
        script.run("set-gain 4 1 31, read 32 4 1 0 16, start, draw 5, show 2560 5, draw 3000")


def bits(script):
    ready(script)
    _, q, k, digits = spelled("load-bits 4 1 976 6 9999").split(" ")
    for more in MORE:
        for code in (f"{int(q) + more} {k}", f"{q} {int(k) + more}"):
            script.run(f"load-bits {code} {digits}, load-bits {code} random 6")
    # Of 4340 bits 4340 x 16 would be 3904 once it is cut to 16 bits, as for 244.
    script.run("open 16 0 5", "load-bits 16 0 " + "1" * 4340, "start, erase, draw 16, show 0 16")
    # 4294967297 would be 1 once it is cut to 32 bits.
    script.run("load-bits 16 0 random 1, load-bits 16 0 random 4294967297")
    script.run(*(f"load-bits 16 0 random {1 + more}" for more in MORE), "read 32 16 0 0 16")


def lengths(script):
    """Draws of more entries than a slot has chips; and of two lengths that differ in upper bits."""
    for more in MORE:
        ready(script)
        script.run(f"start, draw {16 + more} 16, draw 16 {16 + more}, draw {16 + more}, draw 7",
                   f"start, draw {more} {more}, draw {more}, draw 0, draw {2 * more - 1}")


def cut_numbers(script):
    script.tell(brief=True)
    for family in (each_number, bits, lengths):
        script.say(family.__name__.replace("_", " "))
        family(script)
