"""Part of faults.txt: words that are missing, wrong or too many, and lines of all shapes."""

from reference.manual import FORMS
from reference.script import LONGEST_LINE

from .script import MAX, load_plan, open_loaded

# A line of each call, with as many words as it takes at most, or as two of their kind.
SAMPLES = ("set-cell 9 2", "open 16 0 5", "load-plan 2,1,9 4,0,8", "close 4 1", "set-gain 4 1 99",
           "load-bits 16 0 0101", "load-bits 16 0 random 5", "set-sync 1 1 0 50 60", "clear-sync",
           "settings", "start", "draw 3 3", "record 1 2 3 4", "record 1,2 3,4", "erase",
           "show 0 2", "read 8 4 1 0 16", "harden", "read-sync 1 0 256", "find 0 256", "silence 2",
           "noise 0 2 1 3", "element 4 1 3", "related 4 1 16 5",
           "code-group 9", "scrambling-chip 9 3", "primary-chip 48", "secondary-chip 1 16",
           "allocation 2 9 2 1", "burst-start 16", "code 4 1", "scrambling 9", "primary",
           "secondary 1", "brief", "full", "refusals", "help")
NO_NUMBERS = ("x", "-1", "-0", "4294967296", "99999999999999999999", "+1", "1.5", "0x1", "1,1",
              "1e1", "1" * 40, "4294967295000", "18446744073709551620")
NO_COMPONENTS = ("x", "-", "--1", "+1", "1-", "1.5", "2147483648", "-2147483649", "4294967295",
                 "4294967296", "-4294967296", "- 1", "1,2", "0x1", "9" * 33, "-" + "9" * 32)
NO_RECORDS = ("4,1", "4", "4,1,2,3", "4,,2", ",", ",,", "4,1,", ",1,2", "4,1,x", "x,1,2", "4,-1,2",
              "4,1,4294967296", "4,4294967296,1", "4294967296,1,1", "4,1,+2", "4.1.2", "4,1,2,",
              "4, 1, 2", "4;1;2")
NO_CHIPS = (",", ",,", "3,", ",4", "3,4,5", "3,4,", ",3,4", "3,,4", "3,x", "x,4", "3,-", "-,4",
            "--3,4", "3,4-", "+3,4", "3,+4", "3.5,4", "3,0x4", "2147483648,0", "0,2147483648",
            "-2147483649,0", "0,-2147483649", "4294967296,1", "1,4294967297", "3,4;5,6", "(3,4)",
            "9" * 33 + ",1", "1," + "9" * 33, "1,2\0", "\xff,1")
NO_CALLS = (
    "START", "Start", "starts", "star", "s", "set_cell", "setcell", "set-cel", "set-cell-", "-",
    "--help", "?", "help?", "!", "'", "''", "~", "1", "0", "4,1,5", "ok", "fresh", "read_sync",
    "readsync", "part", "put", "copy", "__init__", "line", "quit", "exit", "code_group",
    "codegroup", "chip", "primary-", "primarychip", "is_brief", "in-brief", "noises", "told")
# Lines with bytes that are no printing ASCII characters.
ODD_BYTES = (
    "start\0", "\0start", "\0", "start \0", "start\v", "\fstart", "start\v\f", "\x7f",
    "open 4 1 5\0", "open 4 1\x005", "draw 1\0 2", "show 0\v0", "record 1 2\0", "harden\0",
    "load-plan 4,1,\x005", "load-plan 4,1,5\0", "load-bits 4 1 0\x001", "\xa0help",
    "gr\xc3\xb6\xc3\x9fe 1", "help \xe2\x80\x83", "\xef\xbb\xbfhelp", "set-cell 8 \xb9",
    "set-cell 8 \xd9\xa1", "draw \x80" + "1" * 31, "draw " + "\xff" * 32, "draw " + "\xff" * 33,
    "x" * 31 + "\xff", "x" * 31 + "\0" + "y", "x" * 32 + "\0")


def glance(script):
    """A little of everything that a line could have changed, and a new slot."""
    script.run("draw 1, show 0 1, harden, draw 3000")
    if script.recorded() > 30000:
        script.run("erase")
    script.run("start, draw 40")
    script.run(f"show {script.recorded() - 24} 24")


def spoilt_words(name, word, n):
    """What this word, number n of the call, cannot be: fewer after the first word of a call."""
    if name == "record":
        return NO_CHIPS if "," in word else NO_COMPONENTS
    if name == "load-plan":
        return NO_RECORDS
    return NO_NUMBERS if n == 0 else NO_NUMBERS[n % 2::2]


def bad_words(script, sample):
    """This call with each word missing, each number spoilt in many ways, and a word too many."""
    name, *words = sample.split()
    for n in range(len(words) if name != "load-plan" else 0):  # a plan can be of any length
        script.add(" ".join([name, *words[:n]]))
    for n in range(len(words)):
        for m, spoilt in enumerate(spoilt_words(name, words[n], n)):
            rest = words[n + 1:] if m % 3 else []
            script.add(" ".join([name, *words[:n], spoilt, *rest]))
    for more in ("7", "x", "7 x", "x 7", "a" * 33):
        if name in ("load-plan", "record"):
            break  # these take any number of words
        script.add(f"{sample} {more}")


def every_form(script):
    script.say("words missing, spoilt and too many, for each call in turn")
    script.run("harden, harden x, read 3 4 1 0 0, harden, set-cell 3 1",
               open_loaded(4, 1, 30, 6), "open 8 6 40, set-sync 2 2 1 5 6, start, draw 300",
               "read 3 4 1 0 64")
    for sample in SAMPLES:
        bad_words(script, sample)
        glance(script)
    script.empty("start, draw 3000, read 3 4 1 0 976, read-sync 2 0 256")


def numbers_taken(script):
    script.say("numbers that are right, however they are written")
    script.empty("start, draw 300")
    for sample in SAMPLES:
        name, *words = sample.split()
        if name in ("load-plan", "record", "set-cell"):
            continue
        for n in range(len(words)):
            script.add(" ".join([name, *words[:n], str(MAX), *words[n + 1:]]))
            script.add(" ".join([name, *words[:n], "0" * 30 + words[n], *words[n + 1:]]))
        if name == "close":
            script.run("open 4 1 31")
    script.run(f"set-cell {MAX} 1, set-cell 8 {MAX}, load-bits {MAX} 0, load-bits 16 {MAX}",
               f"load-plan {MAX},{MAX},{MAX}, load-plan 004,00,0007 {MAX},0,1, load-plan 4,{MAX},1",
               "load-plan 0000000000000004,0001,0000000000000000030 8,6,40, set-cell 0003 001",
               "load-plan 4,1,30 8,6,40, record -00000000000000000002147483648 0000002147483647",
               "record 00000000000000000000000000000000000000000000001 -0 -1 -00, show 000 0002")
    script.run(f"show {script.recorded() - 3} 3, draw 007 7, draw 0 00, draw 0000000001")
    glance(script)


def chips_of_one_word(script):
    """A word with a comma is a chip where one begins, and a bad im behind a re."""
    script.say("record: chips of one word and of two, right and wrong")
    script.empty()
    for words in ("1 3,4", "1 3,4 5", "1 2 3,4", "1 2 3 4,5", "3,4 5", "3,4 5 6", "3,4 5 6,7",
                  "3,4 x 5", "3,4 5 x", "x 3,4", "x,y 3,4", "1 2 x 3,4", "3, 4", "3 ,4", "3 , 4",
                  "3,4 5,6 7", "3,4 5,6, 7", "3,4 ,", "3,4 5,6 7,8,9 x", "x 7,8,9", "7,8,9 x",
                  "1 , 2", ", 1 2", "1 2 , 3", "1 2, 3 4", "1 2 ,3 4", "3,4#,5", "3#,4", "3,#4",
                  "3,4 #5", "1 #3,4", "2147483647,2147483648", "-2147483648,-2147483649",
                  "3,4\r5,6\t7 8", "-0,00 000000000000000000000000000000000000001,-00002",
                  "-2147483648,2147483647 2147483647,-2147483648"):
        script.add(f"record {words}")
    script.run("show 0 0, record 7,8 9 10 11,-12")
    script.run(f"show 0 {script.recorded()}")
    glance(script)


def no_words_of_digits(script):
    script.say("load-bits: words that are no digits, with and without a word too many")
    for word in ("01x", "x", "0-1", "-01", "0.1", "01,01", "+1", "O1", "1" * 40 + "x",
                 "x" + "1" * 40):
        script.run(f"load-bits 4 1 {word}", f"load-bits 4 1 {word} 0", f"load-bits 3 9 {word}")
    script.run("load-bits 4 1 01 01, load-bits 4 1 01 x, load-bits 4 1 222 2, load-bits 4 x 2x",
               "load-bits x 1 2x, load-bits 4 1 01x")
    script.add("load-bits 4 1 " + "1" * 976 + "\x31\xb9")
    script.add("load-bits 4 1 " + "0" * 976 + " #1")
    script.add("load-bits 4 1 " + "01" * 488 + "x#")
    glance(script)


def no_such_calls(script):
    script.say("words that are no calls")
    for word in NO_CALLS:
        script.add(word)
        script.add(f"{word} 8 1")
    for length in (31, 32, 33, 34, 64, 255, 256, 257, 1000):
        script.add(("abcdefghijklmnopqrstuvwxyz" * 40)[:length])
    for call in FORMS:
        script.run(call.upper(), call + "x", "x" + call)
    for byte in [*range(1, 9), 11, 12, *range(14, 32), 127, 128, 159, 160, 173, 255, 0]:
        word = f"st{chr(byte)}art"
        script.add(f"{word} 1")
        if byte % 4 == 0:
            script.add(f"open 4 {word} 5")
    for line in ODD_BYTES:
        script.add(line)
    glance(script)


def many_faults(script):
    script.say("several faults in a line: the first from the left is told")
    script.run("open x y, open x, open 4 x 3 4 5, open 4 1 5 6 x, show x, show x y z, show 0 x 1",
               "read 200 3 9 x, read 200 3 x, read x 3 9 99999 16, read 128 3 5 99999 16 7",
               "read 128 3 5 99999 16, read 128 3 5 0 20, load-plan 4,1,2 x 3,3 y",
               "load-plan 3,0,0 x, load-plan x 3,0,0, load-plan 3,0,0 4,4,4 4,1, record 1 2 x y z",
               "record 1 x, record x, record x 2 3, record 1 2 3, record 1 2 3 4 5, record 1 2 3 x",
               "record 1 2 x, draw x y z, draw 1 x 3, draw 1 2 3, draw 1 2 x, draw 1 x, draw x 1",
               "load-bits 4 1 01x 7, load-bits x 1 01x, load-bits 4 x 01x 7, nothing x y",
               "nothing # x, harden x, harden 1 2, erase 1 2, start 0, start start, help help",
               "help x y, clear-sync 1, find 0, find x, find 0 256 x, find 0 x y, read-sync 9 0",
               "read-sync 9 x 256, read-sync x 0 999999, set-sync 9 9 9 9, set-sync 9 9 9 9 9 9",
               "set-sync 9 9 x 9 9 9, set-sync 3 3 3 0 x, set-cell 128, set-cell 128 4 1",
               "set-cell x 4, set-cell 128 x, set-gain 3 9, set-gain 3 9 0 0, close 3, close 3 9 x",
               "close x 9 x, silence, silence x y, silence 1 2, noise 0 2 1 100001 x",
               "noise 0 x 1 100001, noise x, noise 9 9 9, element 3 x 0, element 3 9, code 3 9 x",
               "element 3 9 9 9, related 3 0 x 0, related 3 0 4, related 3 0 4 0 x, code-group",
               "code-group 128 x, scrambling-chip 128, scrambling-chip 128 99 x, primary-chip",
               "primary-chip 256 0, secondary-chip 2, secondary-chip 2 x, secondary-chip x 0 0",
               "allocation 3 32 3, allocation 3 32 x 2, allocation 3 32 3 2 1, burst-start",
               "burst-start 32 x, code 3, code x 9 x, scrambling, scrambling 128 x, scrambling x",
               "primary 0, primary x y, secondary, secondary 2 2, secondary x, brief brief",
               "brief 1, full full, full x y")
    glance(script)


def blanks_and_comments(script):
    script.say("blanks, tabs, carriage returns, comments and lines with no word")
    script.empty("record 11 -12 13 -14, start")
    for line in ("", " ", "\t", "\r", " \t\r ", "#", "##", " #", "\t# start", "#start", "# \0 \xff",
                 "  show 0 1", "show\t0\t1", "show\r0\r1\r", "\r\rshow \t 0 \r 1\t\t", "show 0 1 ",
                 "show 0 1#", "show 0 1#2", "show 0 1 # 2", "show 0#1", "show#0 1", "sh#ow 0 1",
                 "x#", "show 0 1 #\0", "show 0 \x001 # 1", "start#x", "harden#", "harden # 1",
                 "nothing#x", "load-plan 4,1,30 8,6,40#,x", "load-plan 4,1,30 8,6,40 #x",
                 "load-plan 4,1#,30", "load-plan#x", "open 4 1#5", "open 4 1 5#", "record 1 2#3",
                 "record 5 6 #7 8", "record 1#2", "draw 2#x", "draw 1 #2", "draw 1 2#", "help#",
                 "he#lp", "x" * 32 + "#y", "x" * 33 + "#y", "'#'", "draw 1\r\r", "show 0\r#1",
                 "erase\r1", "\x1ashow 0 1", "load-plan 4,1,30\r8,6,40\r", "record\r7\r8",
                 "\tharden\r"):
        script.add(line)
    glance(script)


def long_lines(script):
    script.say("lines as long as they may be, and longer")
    script.empty("record 11 12 13 14")
    script.add("show " + "0" * 5000 + "1 1")
    script.add("show 0 " + "0" * 300 + "4294967296")
    script.add(("show 1 1 #" + "show 0 1" * LONGEST_LINE)[:LONGEST_LINE - 1])
    script.run("show 0 2, sho")
    script.add("erase " + "x" * (2 * LONGEST_LINE) + " ")
    script.run("show 0 2")
    script.add("show 0 1".rjust(LONGEST_LINE))
    script.add("show 0 1".rjust(LONGEST_LINE + 1))
    script.add("show 1 1 #".ljust(LONGEST_LINE, "x") + "\r")
    script.add(load_plan([(1, 0, 1)] * 1000) + " 1,0")
    script.run("load-plan 8,7,3")
    glance(script)


WORD_FAULTS = (every_form, numbers_taken, chips_of_one_word, no_words_of_digits, no_such_calls,
               many_faults, blanks_and_comments, long_lines)
