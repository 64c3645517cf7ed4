"""nearest.txt: words that are no calls, and the call that is told for them."""

from reference.manual import FORMS
from reference.script import LONGEST_LINE

from .dice import Dice
from .script import BYTE_ORDER_MARK

LETTERS = "abcdefghijklmnopqrstuvwxyz-"
OTHERS = "_-.,0129AZMQ?'~"  # of other kinds, that are put in or stand for a letter at times
ODD = "\0\x01\x0b\x1f\x7f\x80\xa0\xc1\xe4\xff"
FEW_LETTERS = ("op", "re", "co", "fi", "st", "he", "pen", "hel", "ful", "rea", "sho", "dra")
# Near to none, though they look like a call.
FAR = ("et-cel", "setcel", "oepn5", "nepo", "oenp", "loadplan5", "load-palm", "satrt5", "strrat",
       "tsrat", "statr5", "sta-rt-", "rstart5", "traats", "starttt", "dwar", "ward", "rdaw5",
       "harnde5", "ahrdne", "codegruop", "code--group-", "edoc", "cdoee", "lpeh", "fllu5", "llfu",
       "sett1ngz", "setings-", "refusalz1", "refuslsa1", "reafd1", "raed1", "dear", "daer")


def put_in(word, at, letter):
    return word[:at] + letter + word[at:]


def left_out(word, at):
    return word[:at] + word[at + 1:]


def changed(word, at, letter):
    return word[:at] + letter + word[at + 1:]


def exchanged(word, at, apart=1):
    """The word with two characters exchanged, which stand so far apart."""
    first, second = word[at], word[at + apart]
    return changed(changed(word, at, second), at + apart, first)


def letter_for(dice):
    return dice.pick(OTHERS if dice.below(4) == 0 else LETTERS)


def one_step(script):
    """Every call with one step at every place."""
    dice = Dice(91)
    for name in FORMS:
        script.say(name)
        for at in range(len(name) + 1):
            script.add(put_in(name, at, letter_for(dice)))
        for at in range(len(name)):
            script.add(left_out(name, at))
            script.add(changed(name, at, letter_for(dice)))
        for at in range(len(name) - 1):
            script.add(exchanged(name, at))
        script.add(name + name[-1])
        script.add(name[0] + name)


def capitals(script):
    """In capitals, and in capitals with one step; also with words behind."""
    script.say("capitals")
    for n, name in enumerate(FORMS):
        upper, at = name.upper(), n % (len(name) - 1)
        for word in (upper, name.capitalize(), name[:-1] + upper[-1], left_out(upper, at),
                     put_in(upper, at, "X"), changed(upper, at, "x"), exchanged(upper, at),
                     changed(name, at, "Q"), put_in(upper, len(name), "S")):
            script.add(word)
        script.run(f"{upper} 1 2", f"{left_out(name, at)} x y", f"{put_in(name, at, 'X')} 4,1,5")


def two_steps(script):
    """Two steps are too many, of one kind or of two."""
    script.say("two steps")
    dice = Dice(92)
    for n, name in enumerate(FORMS):
        last = len(name) - 1
        at = n % (last - 1)
        words = (put_in(put_in(name, at, "q"), last, "z"), left_out(left_out(name, last), at),
                 changed(changed(name, at, "q"), last, "z"), exchanged(name, at, 2),
                 put_in(exchanged(name, at), last, "q"), left_out(exchanged(name, last - 1), 0),
                 changed(exchanged(name, 0), last, "z"), changed(left_out(name, last), 0, "q"),
                 "x" + name + "x", name + "xx", "xx" + name, name[:-2], name[2:], name[::-1])
        for word in words:
            if dice.below(3):
                script.add(word)
    for word in FAR:
        script.add(word)


def two_calls(script):
    """Words that are one step from two calls: the first in the order of help is told."""
    script.say("near to two calls")
    for word in near_to_two():
        for way in (word, word.upper(), f"{word} 4 1"):
            script.add(way)


def near_to_two():
    by_word = {}
    for name in FORMS:
        steps = {left_out(name, at) for at in range(len(name))}
        steps |= {exchanged(name, at) for at in range(len(name) - 1)}
        for letter in LETTERS:
            steps |= {put_in(name, at, letter) for at in range(len(name) + 1)}
            steps |= {changed(name, at, letter) for at in range(len(name))}
        for word in steps - {name}:
            by_word[word] = by_word.get(word, 0) + 1
    return sorted(word for word, count in by_word.items() if count > 1)


def short_and_long(script):
    script.say("short words, beginnings of names, and long words")
    for word in (*FEW_LETTERS, *LETTERS):
        script.add(word)
    for name in ("set-cell", "set-gain", "load-bits", "read-sync", "secondary-chip", "settings"):
        for length in range(2, len(name)):
            script.add(name[:length])
    for name in ("code-group", "scrambling-chip", "primary-chip", "burst-start"):
        for length in range(2, len(name)):
            script.add(name[-length:])
    for name in ("start", "open", "scrambling-chip", "refusals"):
        script.add(name * 2)
        script.add(name + "-" + name)
        for length in (15, 16, 17, 31, 32, 33, 64, 300):
            script.add(name.ljust(length, "x"))
            script.add(name.rjust(length, "x"))
    script.add("start".ljust(LONGEST_LINE, "t"))


def odd_bytes(script):
    """A byte is a character: one that is changed or put in makes a word that is near."""
    script.say("odd bytes")
    for n, byte in enumerate(ODD):
        name = list(FORMS)[3 * n]
        for word in (changed(name, 1, byte), put_in(name, 0, byte), put_in(name, len(name), byte),
                     changed(name.upper(), 2, byte), put_in(name + byte, 1, byte)):
            script.add(word)
    for word in ("st\xc3\xa4rt", "st\xc3rt", "st\xe4rt", "\xc3\xb6pen", "op\xc3\xa9n", "\xd3pen",
                 "open\xcc\x81", "STA\xd2T", "sta\x12t", "\x13tart", "start\x1a", "[tart", "@raw",
                 "dr@w", "\xefstart", "\xef\xbbstart", f"{BYTE_ORDER_MARK}start",
                 f"start{BYTE_ORDER_MARK}"):
        script.add(word)


def with_more(script):
    """What stands behind the word does not count, nor what stands before it; no call is made."""
    script.say("words behind, blanks before, comments")
    script.empty("set-cell 8 1, open 4 1 3, start, draw 5")
    for line in ("strat", "strat 1", "strat x y z", " \tstrat", "strat#x", "str#at", "opne 4 1 5",
                 "opn 8 6 5", "eras", "erasee", "colse 4 1", "Close 4 1", "recrod 1,2", "silenc 5",
                 "dra 5", "draw5", "draw,5", "set-cell8 1", "set cell 8 1", "SET-CELL 9 1",
                 "settings,", "'start'", '"start"', "start;", "start:", "-start", "--start", "?",
                 "help?", "clearsync", "clear_sync", "clear--sync", "clear sync", "Brief", "FULL",
                 "Help", "REFUSALS", "refusals.", "Refusal", "setting", "Setting", "Setings"):
        script.add(line)
    script.run("settings, show 0 5")


def nearest(script):
    script.add(f"{BYTE_ORDER_MARK}strat 5")
    for family in (one_step, capitals, two_steps, two_calls, short_and_long, odd_bytes, with_more):
        family(script)
