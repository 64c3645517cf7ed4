"""The lines of a script as they are written, and the bench and recording as they leave them.

Each line is run by the reference as it is written, so that the next one can be made for what is
there then. A line is a string in which a character stands for a byte.
"""

from reference.codes import start_of_burst
from reference.recording import LONGEST_RECORDING
from reference.script import MARK, ScriptBench, answer, passed_over
from reference.slot import FIELDS, SLOT
from reference.words import Fault

BYTE_ORDER_MARK = MARK.decode("latin-1")
MAX = 2**32 - 1
NONE_BAD = 9999  # as BAD: past the bits of every load
SHOWN_IN_FULL = 32  # the longest draw whose chips are shown in full


def seeded_bits(count, seed, bad):
    bits, state = [], seed
    for _ in range(count):
        state = (1103515245 * state + 12345) % 2**32
        bits.append(state >> 16 & 1)
    if bad < count:
        bits[bad] = 2
    return "".join(map(str, bits))


def spelled(call):
    """A call as a line of a script: with the bits written out."""
    name, *arguments = call.split(" ")
    if name != "load-bits" or len(arguments) != 5:
        return call
    q, k, *data = arguments
    return f"load-bits {q} {k} {seeded_bits(*map(int, data))}".rstrip()


def open_loaded(q, k, gain, seed):
    """Calls that open a code and give it bits."""
    return f"open {q} {k} {gain}, load-bits {q} {k} random {seed}"


def load_plan(records):
    """The call with these records."""
    return " ".join(["load-plan", *(f"{q},{k},{gain}" for q, k, gain in records)])


def chips_line(chips):
    """The call that records these chips, which are pairs."""
    return " ".join(["record", *(f"{re} {im}" for re, im in chips)])


class Script:
    """The lines so far, and the bench as they left it."""

    def __init__(self, codes):
        self.codes, self.bench = codes, ScriptBench(codes)
        self.lines, self.ending = [], "\n"
        self.answered = None  # what the last line was answered, where it was a call
        self.shows_draws = False  # whether each draw is followed by its chips
        # What draws have put into the recording: settings of the slot, place in the slot, place in
        # the recording, count.
        self.drawn = []

    def recorded(self):
        """How many chips the recording has."""
        return len(self.bench.recording)

    def add(self, line):
        written, first = line.encode("latin-1"), not self.lines
        self.lines.append(line)
        copy, tally, has = self.bench.copy, self.bench.tally, self.recorded()
        self.answered = None
        try:
            self.answered = answer(self.bench, written, passed_over(written) if first else 0)
        except Fault:
            return
        more = self.recorded() - has
        if not self.recorded():
            self.drawn = []
        elif more and "draw" in line:
            self.note_drawn(copy, tally, has, more)

    def note_drawn(self, copy, tally, has, count):
        if self.drawn and self.drawn[-1][0] is copy:
            _, first, place, before = self.drawn[-1]
            if place + before == has and first + before == tally:
                self.drawn[-1] = copy, first, place, before + count
                return
        self.drawn.append((copy, tally, has, count))

    def run(self, *calls):
        for call in ", ".join(calls).split(", "):
            name, *arguments = call.split(" ")
            if name == "fresh":
                self.fresh()
            elif name == "draw" and self.shows_draws:
                self.draw_and_show(*map(int, arguments))
            else:
                self.add(spelled(call))

    def say(self, comment):
        self.add(f"# {comment}")

    def empty(self, *calls):
        """These calls, with no slot under way before them and nothing in the recording."""
        if self.bench.copy:
            self.add("erase")
            self.add("draw 3000")
        self.add("erase")
        if calls:
            self.run(*calls)

    def fresh(self):
        """The bench as at first: by the calls that a script has, where there are lines before."""
        if self.lines:
            self.empty()
            self.add("set-cell 0 1")

    def tell(self, brief):
        """From here on in brief, or in full."""
        if self.bench.is_brief != brief:
            self.add("brief" if brief else "full")

    def show(self, first, count):
        """This part of the recording, in brief where it is long."""
        self.tell(brief=count > SHOWN_IN_FULL)
        self.add(f"show {first} {count}")

    def draw_and_show(self, re_length, im_length):
        """A draw, with room for it, and then the chips that it drew."""
        bench = self.bench
        count = 0
        if not bench.draw_refusal(re_length, im_length):
            count = bench.draw_count(re_length)
        if self.recorded() + count > LONGEST_RECORDING:
            self.add("erase")
        self.add(f"draw {re_length} {im_length}")
        if count:
            self.show(self.recorded() - count, count)

    def draw_to(self, place):
        """Draws up to this chip of the running slot."""
        length = place - self.bench.tally
        self.run(f"draw {length} {length}")

    def one_chip(self, length, at, re, im):
        """A recording of this length, all 0 but the chip at this place, where there is one."""
        self.add("erase")
        if at >= length or (re, im) == (0, 0):
            self.add(f"silence {length}")
            return
        if at:
            self.add(f"silence {at}")
        self.add(f"record {re} {im}")
        if at + 1 < length:
            self.add(f"silence {length - at - 1}")

    def look(self):
        """Makes the settings visible: their slot, what the open codes read in it, its burst."""
        self.empty("start, draw 2560")
        settings = self.bench.settings
        field1, midamble, field2 = FIELDS[settings.slot_type]
        second = field1 + midamble
        for border in (4, field1, second, second + field2, SLOT - 4):
            self.run(f"show {border - 4} 8")
        for n, (q, k) in enumerate(settings.open):
            read = f"read {settings.parameter} {q} {k}"
            if n == 0:
                self.look_whole(f"{read} 0 {field1}", f"{read} {second} {field2}")
            else:
                self.run(f"{read} 0 32, {read} {second + field2 - 48} 48")
        if settings.sync:
            start = start_of_burst(settings.parameter // 4)
            self.run(f"show {start} 8, show {start + 250} 8",
                     f"read-sync {settings.sync[0]} {start} 256")

    def look_whole(self, *reads):
        """These long reads and their bits, in brief."""
        self.tell(brief=True)
        for read in reads:
            self.run(read, "harden")
        self.tell(brief=False)

    def bytes(self):
        return ("\n".join(self.lines) + self.ending).encode("latin-1")
