"""Makes the table of calls that the tests under host/ hold the libraries to.

Run from the repository's root, with the path of the text of TS 25.223 V3.3.0 as the one argument:

    python3 tools/library_table.py TS-25.223-V3.3.0.txt > host/tests/differential/table.txt

The table has what no script of the program tdd can ask for: re and im buffers of different
lengths, answer and scratch buffers that are too short, several refusals at once, readings of any
32 bits; and what no script shows: which entries of a lent buffer a call leaves alone. The head of
the table, HEAD below, says how a row reads.

The standard is not in this repository. tools/reference works out what is due from its text and
from document 01. Nothing is shared with the crates or with the reference in Rust.

An inconsistent text ends the run with exit status 1, nothing on stdout and what is wrong on
stderr; a missing or wrong argument with status 2.
"""

import sys
from itertools import combinations, pairwise
from random import Random

sys.dont_write_bytecode = True  # so that the imports leave no files behind
from reference import analyser
from reference.bench import Bench
from reference.codes import Codes
from reference.slot import FIELDS, SLOT
from reference.standard import demand, read_text

USAGE = ("usage: python3 tools/library_table.py TS-25.223-V3.3.0.txt"
         " > host/tests/differential/table.txt")

HEAD = """\
Calls of the libraries, each with what is due. tools/library_table.py makes this table.

A row is a call, an arrow, its refusal, 0 where it is accepted, and what is due after the call:

    read P Q K; re FIELD; im FIELD; answers N M -> 0; re ENTRIES; im ENTRIES
    harden; re READINGS; im READINGS; bytes N -> 0; bits ENTRIES
    read-sync CASE; re CHIPS; im CHIPS -> 0; group G frame F half H
    find; re RECORDING; im RECORDING; scratch N M -> 0; at START size SIZE
    draw N M; after CALLS -> 0; count COUNT left LEFT; re ENTRIES; im ENTRIES

What a call reads is given as its length and its first entries; the others are 0. N and M are the
lengths of the buffers that it may write, ENTRIES all that such a buffer holds after the call.
3*x is x x x, and 3*x,y is x y x y x y. An entry that is kept is as it was before the call. After
a refusal `kept` alone says so of every entry, and of the bench. The scratch of an accepted find
is free. CALLS are those that the bench took before, in the words of a script of the program tdd.
LEFT is how many chips of the slot are still to be drawn; at 0 no slot is under way."""

KEPT = "kept"  # what every entry of a lent buffer is at first
MAX = 2**32 - 1
FACTORS = (1, 2, 4, 8, 16)

# Arguments at and past the limits of each call. Each pair of buffers has its two lengths here, re
# first. A row's last three numbers give the one entry of the chips or readings that is not 0: its
# place, its re and its im.

# Parameter, Q, k; field lengths; answer lengths; entry.
READ_EDGES = f"""
128 3 9 16 32 0 0 0 100001 0, {MAX} 4 1 16 16 4 4 0 0 0, 127 3 9 16 32 0 0 0 100001 0,
127 0 0 16 16 16 16 0 0 0, 127 32 0 16 16 16 16 0 0 0, 127 {MAX} 0 16 16 16 16 0 0 0,
127 4 4 16 32 0 0 0 100001 0, 127 16 16 16 16 16 16 0 0 0, 127 4 {MAX} 16 16 16 16 0 0 0,
127 4 3 16 32 0 0 0 100001 0, 127 4 3 32 16 8 8 0 0 0, 127 4 3 0 16 8 8 0 0 0,
127 4 3 16 0 8 8 0 0 0, 127 4 3 16 15 8 8 0 0 0, 127 4 3 15 16 8 8 0 0 0,
127 4 3 1104 1120 276 276 0 0 0, 127 4 3 0 0 0 0 0 0 0, 127 4 3 15 15 4 4 0 100001 0,
127 4 3 17 17 5 5 0 0 0, 127 4 3 8 8 2 2 0 0 0, 127 4 3 1088 1088 272 272 5 9 8,
127 4 3 1104 1104 276 276 1103 100000 -100000, 127 4 3 1105 1105 300 300 0 0 0,
127 4 3 1120 1120 300 300 0 0 0, 0 16 15 16 16 1 1 0 100000 -100000,
0 16 15 16 16 1 1 0 100001 0, 0 16 15 16 16 1 1 0 0 100001, 0 16 15 16 16 1 1 15 -100001 0,
0 16 15 16 16 1 1 15 0 -100001, 0 16 15 16 16 1 1 15 -100000 100000,
0 16 15 16 16 1 1 15 2147483647 0, 0 16 15 16 16 1 1 15 0 -2147483648,
0 16 15 16 16 0 0 15 0 -100001"""

# As above: answer buffers that are one too short, one or both, that suffice, and that are longer.
READ_ANSWERS = """
0 16 15 16 16 0 1 0 1 1, 0 16 15 16 16 1 0 0 1 1, 0 16 15 16 16 0 0 0 1 1,
0 16 15 16 16 1 1 0 1 1, 0 16 15 16 16 2 9 0 1 1, 3 8 6 32 32 3 4 9 1 1, 3 8 6 32 32 4 3 9 1 1,
3 8 6 32 32 3 3 9 1 1, 3 8 6 32 32 4 4 9 1 1, 3 8 6 32 32 5 4 9 1 1, 3 8 6 32 32 4 5 9 1 1,
3 8 6 32 32 0 99 9 1 1, 3 8 6 32 32 99 0 9 1 1, 8 4 1 16 16 3 4 3 1 1, 8 4 1 16 16 4 3 3 1 1,
8 4 1 16 16 3 3 3 1 1, 8 4 1 16 16 4 4 3 1 1, 8 4 1 16 16 9 5 3 1 1, 90 2 1 16 16 7 8 3 1 1,
90 2 1 16 16 8 7 3 1 1, 90 2 1 16 16 7 7 3 1 1, 90 2 1 16 16 8 8 3 1 1, 90 2 1 16 16 16 9 3 1 1,
0 1 0 16 16 15 16 3 1 1, 0 1 0 16 16 16 15 3 1 1, 0 1 0 16 16 15 15 3 1 1,
0 1 0 16 16 16 16 3 1 1, 0 1 0 16 16 17 20 3 1 1, 40 16 0 1104 1104 68 69 1000 1 1,
40 16 0 1104 1104 69 68 1000 1 1, 40 16 0 1104 1104 68 68 1000 1 1,
40 16 0 1104 1104 70 1104 1000 1 1, 40 1 0 1104 1104 1103 1104 1000 1 1,
40 1 0 1104 1104 1104 1103 1000 1 1, 40 1 0 1104 1104 1103 1103 1000 1 1,
40 1 0 1104 1104 1105 1200 1000 1 1"""

# Lengths of the readings; bytes; entry.
HARDEN_EDGES = """
1 2 0 0 0 0, 2 1 4 0 0 0, 1 2 4 0 0 0, 0 1 4 0 0 0, 1 0 4 0 0 0, 2 1 3 0 0 0, 1 2 3 0 0 0,
0 0 0 0 0 0, 0 0 3 0 0 0, 1 1 0 0 0 0, 1 1 1 0 0 0, 1 1 2 0 -3 0, 1 1 9 0 -3 0, 2 2 3 0 0 0,
2 2 4 1 0 -3, 2 2 5 1 -3 -3, 3 3 5 0 0 0, 3 3 7 2 3 -3, 1104 1104 2207 1103 3 -3,
1104 1104 2208 1103 3 -3, 1104 1104 2220 1103 3 -3"""

HARDEN_COMPONENTS = (-2147483648, -2147483647, -5, -1, 0, 1, 5, 2147483646, 2147483647)

# Case; lengths of the chips; entry.
SYNC_EDGES = f"""
0 255 256 0 100001 0, 3 256 256 0 1 0, {MAX} 256 256 0 1 0, 1 255 256 0 100001 0, 1 256 255 0 0 0,
2 256 255 0 0 0, 1 256 257 0 0 0, 2 256 0 0 0 0, 2 0 256 0 0 0, 1 0 0 0 0 0,
1 255 255 0 100001 0, 2 257 257 0 100001 0, 1 256 256 0 100001 0, 1 256 256 255 0 100001,
2 256 256 0 -100001 0, 2 256 256 255 0 -100001, 2 256 256 7 -2147483648 0, 1 256 256 0 0 0,
2 256 256 0 0 0, 1 256 256 0 100000 0, 1 256 256 17 0 -100000, 2 256 256 255 -100000 100000,
2 256 256 100 3 1"""

# Case; the place of the second of two chips, its re and its im. Chip 0 is 1. These are accepted.
SYNC_TWO = "1 16 2 0, 1 32 0 1, 1 48 2 0, 1 64 0 -1, 2 16 1 0, 2 48 2 0, 2 64 0 1, 2 112 2 0"

# Recording lengths; scratch lengths; entry.
FIND_EDGES = """
255 256 0 0 0 100001 0, 256 255 241 241 0 0 0, 257 256 300 300 0 0 0, 256 257 300 300 0 0 0,
0 256 300 300 0 0 0, 256 0 300 300 0 0 0, 5120 5121 5106 5106 0 0 0, 255 255 240 240 0 100001 0,
0 0 0 0 0 0 0, 256 256 241 241 0 3 4, 256 256 300 242 0 3 4, 256 256 240 241 0 3 4,
256 256 241 240 0 3 4, 256 256 240 240 0 3 4, 256 256 0 999 0 3 4, 256 256 999 0 0 3 4,
256 256 240 240 0 100001 0, 256 256 241 241 0 100001 0, 256 256 241 241 255 0 -100001,
256 256 241 241 255 100000 -100000, 256 256 241 241 255 0 2147483647, 257 257 242 242 256 5 0,
257 257 241 242 256 5 0, 257 257 242 241 256 5 0, 257 257 241 241 256 5 0,
5120 5120 5105 5105 5119 1 2, 5120 5120 5104 5105 5119 1 2, 5120 5120 5105 5104 5119 1 2,
5120 5120 5104 5104 5119 1 2, 5120 5120 5105 5105 5000 100000 100000, 5121 5121 5106 5106 0 0 0,
5121 5121 0 0 0 100001 0"""

# A call's arguments where it is accepted, and in the order of its refusals what else they are
# where it is refused. `more` is by how much im is longer than re, `short` by how much the buffers
# to be written are too short.
READ_GOOD = {"p": 5, "q": 4, "k": 1, "length": 32, "more": 0, "entry": (7, -6), "short": (0, 0)}
FIND_GOOD = {"length": 256, "more": 0, "entry": (7, -6), "short": (0, 0)}
SYNC_GOOD = {"case": 1, "length": 256, "more": 0, "entry": (0, 0), "silent": False}
TOO_LOUD = {"entry": (100001, 0)}, {"entry": (0, -100001)}
TOO_SHORT = {"short": (1, 0)}, {"short": (0, 1)}, {"short": (1, 1)}
READ_FAULTS = {1: [{"p": 128}], 3: [{"q": 3}], 4: [{"k": 4}], 12: [{"more": 16}, {"more": -1}],
               16: [{"length": 24}], 17: TOO_LOUD, 18: TOO_SHORT}
FIND_FAULTS = {12: [{"more": 1}, {"more": -1}], 16: [{"length": 255}, {"length": 5121}],
               17: TOO_LOUD, 18: TOO_SHORT}
SYNC_FAULTS = {14: [{"case": 3}], 12: [{"more": 1}, {"more": -1}],
               16: [{"length": 255}, {"length": 257}], 17: TOO_LOUD, 19: [{"silent": True}]}

# Draws by what the bench was told before them: into no slot, into slots of each type at several
# places, to the slot's end and past it, with lengths that differ; once with settings that changed
# in the slot's course, and once with the end of a sync burst.
ONE_CODE = "fresh, set-cell 8 1, open 4 1 3"
DRAWS = {
    "fresh": "0 0, 1 1, 0 1, 1 0, 5 6, 6 5, 2560 0, 3000 3000, 3000 2999",
    ONE_CODE: "16 16, 16 17",
    f"{ONE_CODE}, start, draw 2560": "0 0, 1 1, 1 2, 0 1, 3000 2999, 3000 3000",
    f"{ONE_CODE}, start": "0 0, 1 1, 5 5, 0 1, 1 0, 5 6, 6 5, 2560 0, 0 2560, 2560 2561, "
                          "2561 2560, 3000 2560, 2559 2559, 2560 2560, 2561 2561, 3000 3000",
    f"{ONE_CODE}, start, draw 2456": "103 103, 104 104, 105 105, 104 105, 105 104, 200 200",
    f"{ONE_CODE}, start, draw 2559": "0 0, 1 1, 2 2, 64 64, 1 2, 2 1, 0 1, 1 0, 64 63",
    "fresh, set-cell 127 2, open 16 9 4095, start, draw 1100":
        "8 8, 8 9, 1460 1460, 1461 1461, 1461 1460, 1460 1461",
    "fresh, set-cell 64 3, open 1 0 1, start, draw 2360":
        "199 199, 200 200, 201 201, 240 240, 200 201, 201 200, 3000 200",
    "fresh, set-cell 67 1, set-sync 2 1 1 70 60, start, draw 1736": "824 824, 900 900, 900 901",
    "fresh, open 8 5 2, start, draw 2460, set-cell 9 2, open 2 0 7":
        "100 100, 101 101, 120 120, 101 100, 0 0",
}


# Buffers in words

def repeats(entries, at, period):
    """How often so many entries stand there in a row."""
    count, block = 1, entries[at:at + period]
    while entries[at + count * period:at + (count + 1) * period] == block:
        count += 1
    return count


def in_words(entries, periods):
    """The entries in words x, N*x and N*x,y,...: at each place in the period that saves most."""
    at = 0
    while at < len(entries):
        period, count = max(((period, repeats(entries, at, period)) for period in periods),
                            key=lambda run: run[0] * (run[1] - 1))
        block = ",".join(map(str, entries[at:at + period]))
        saved = period * (count - 1)
        yield from [f"{count}*{block}"] if saved > 1 else [block] * count
        at += period * count


def told(name, entries, cuts=()):
    """A buffer after a call. The cuts are places where one word must end and another begin."""
    written = [entry for entry in entries if entry != KEPT]
    count, left = len(written), len(entries) - len(written)
    demand(entries == written + [KEPT] * left, name, "an entry is kept before one that is written")
    periods = (2,) if name == "bits" else (1, 16)  # a reading has two bits
    words = [name]
    for start, end in pairwise([0, *(cut for cut in cuts if 0 < cut < count), count]):
        words += in_words(written[start:end], periods)
    return " ".join(words + [f"{left}*{KEPT}"] * (left > 0))


def with_length(entries):
    """The length, and the entries up to the last that is not 0."""
    end = max((n + 1 for n, entry in enumerate(entries) if entry), default=0)
    first = " ".join(in_words(entries[:end], (1,)))
    return f"{len(entries)}: {first}" if first else f"{len(entries)}"


def lent(re, im):
    """The buffers that a call reads."""
    return f"re {with_length(re)}; im {with_length(im)}"


def fresh(*lengths):
    return [[KEPT] * length for length in lengths]


# Rows

def is_refusal(answer):
    return isinstance(answer, str) and answer.startswith("refused ")


def row(call, answer, buffers=()):
    """A row of the table. An accepted call answers what is told before its buffers, or nothing."""
    buffers = list(buffers)
    if is_refusal(answer):
        kept = all(entry == KEPT for _, entries, *_ in buffers for entry in entries)
        demand(kept, call, "the reference refuses it, but writes")
        return f"{call} -> {answer.split()[1]}" + (f"; {KEPT}" if buffers else "")
    parts = [f"{call} -> 0", answer, *(told(*buffer) for buffer in buffers)]
    return "; ".join(part for part in parts if part)


def refusal_of(line):
    return int(line.partition(" -> ")[2].partition(";")[0])


def read_row(codes, p, q, k, re, im, re_length, im_length):
    answers = fresh(re_length, im_length)
    answer = analyser.read(codes, p, q, k, re, im, *answers)
    return row(f"read {p} {q} {k}; {lent(re, im)}; answers {re_length} {im_length}", answer,
               zip(("re", "im"), answers))


def harden_row(re, im, length):
    bits, = fresh(length)
    answer = analyser.harden(re, im, bits)
    return row(f"harden; {lent(re, im)}; bytes {length}", answer, [("bits", bits)])


def sync_row(codes, case, re, im):
    return row(f"read-sync {case}; {lent(re, im)}", analyser.read_sync(codes, case, re, im))


def find_row(codes, re, im, re_length, im_length):
    scratch = fresh(re_length, im_length)
    answer = analyser.find(codes, re, im, *scratch)
    return row(f"find; {lent(re, im)}; scratch {re_length} {im_length}", answer,
               zip(("re", "im"), scratch) if is_refusal(answer) else ())


def bench_after(codes, calls):
    bench = Bench(codes)
    for call in calls.split(", ")[1:]:  # the first is "fresh"
        name, *numbers = call.split()
        if name == "draw":
            numbers *= 2  # re and im are as long
        answer = getattr(bench, name.replace("-", "_"))(*map(int, numbers))
        demand(not is_refusal(answer), calls, f"{call} is refused")
    return bench


def field_borders(slot_type):
    field1, midamble, field2 = FIELDS[slot_type]
    return field1, field1 + midamble, field1 + midamble + field2


def draw_row(codes, calls, re_length, im_length):
    bench, buffers = bench_after(codes, calls), fresh(re_length, im_length)
    borders = field_borders(bench.copy.slot_type) if bench.copy else ()
    cuts = [border - bench.tally for border in borders]
    answer = bench.draw(re_length, im_length)
    if not is_refusal(answer):
        for buffer, components in zip(buffers, zip(*answer)):
            buffer[:len(components)] = components
        answer = f"count {len(answer)} left {SLOT - bench.tally}"
    return row(f"draw {re_length} {im_length}; after {calls}", answer,
               [(name, buffer, cuts) for name, buffer in zip(("re", "im"), buffers)])


# Arguments

def rows(table):
    return [tuple(map(int, line.split())) for line in table.split(",")]


def one_entry(re_length, im_length, at, entry_re, entry_im):
    """Buffers of these lengths, all 0 but one entry, where there is such an entry."""
    return ([entry_re if n == at else 0 for n in range(re_length)],
            [entry_im if n == at else 0 for n in range(im_length)])


def read_edges(codes, table):
    for p, q, k, re_length, im_length, answer_re, answer_im, *entry in rows(table):
        field = one_entry(re_length, im_length, *entry)
        yield read_row(codes, p, q, k, *field, answer_re, answer_im)


def harden_edges():
    for re_length, im_length, length, *entry in rows(HARDEN_EDGES):
        yield harden_row(*one_entry(re_length, im_length, *entry), length)


def sync_edges(codes):
    for case, *chips in rows(SYNC_EDGES):
        yield sync_row(codes, case, *one_entry(*chips))


def find_edges(codes):
    for re_length, im_length, scratch_re, scratch_im, *entry in rows(FIND_EDGES):
        recording = one_entry(re_length, im_length, *entry)
        yield find_row(codes, *recording, scratch_re, scratch_im)


def at_once(make, good, faults):
    """The accepted call, then each fault alone, each two faults at once, and all of them."""
    ways = [(number, fault) for number, several in faults.items() for fault in several]
    tries = [(0, {})] + ways
    tries += [(number, {**fault, **other}) for (number, fault), (later, other)
              in combinations(ways, 2) if number != later]
    everything = {name: value for _, fault in ways for name, value in fault.items()}
    tries.append((ways[0][0], everything))
    for number, changed in tries:
        line = make(**{**good, **changed})
        demand(refusal_of(line) == number, line, f"{number} was meant")
        yield line


def read_at_once(codes):
    def make(p, q, k, length, more, entry, short):
        enough = -(-length // q)
        return read_row(codes, p, q, k, *one_entry(length, length + more, 3, *entry),
                        *(enough - less for less in short))
    return at_once(make, READ_GOOD, READ_FAULTS)


def find_at_once(codes):
    def make(length, more, entry, short):
        enough = length - 15
        return find_row(codes, *one_entry(length, length + more, 3, *entry),
                        *(enough - less for less in short))
    return at_once(make, FIND_GOOD, FIND_FAULTS)


def sync_at_once(codes):
    def make(case, length, more, entry, silent):
        re, im = [0] * length, [0] * (length + more)
        re[0], re[48] = (0, 0) if silent else (1, 2)  # two chips as in SYNC_TWO
        re[3], im[3] = entry
        return sync_row(codes, case, re, im)
    return at_once(make, SYNC_GOOD, SYNC_FAULTS)


def sync_two(codes):
    for case, *chip in rows(SYNC_TWO):
        re, im = one_entry(256, 256, *chip)
        re[0] = 1
        line = sync_row(codes, case, re, im)
        demand(refusal_of(line) == 0, line, "0 was meant")
        yield line


class Dice(Random):
    """Uses only random(), which alone is promised to be the same in every version of Python."""

    def within(self, least, largest):
        return least + int(self.random() * (largest - least + 1))

    def several(self, count, least, largest):
        return [self.within(least, largest) for _ in range(count)]


def read_fields(codes):
    """Fields of small chips, for each Q, into buffers that are longer than the readings."""
    dice = Dice(1)
    for n, q in enumerate(FACTORS):
        field = dice.several(32, -9, 9), dice.several(32, -9, 9)
        yield read_row(codes, 30 * n + 1, q, q // 2, *field, 32 // q + n, 32 // q + 5 - n)


def harden_pairs():
    for re in HARDEN_COMPONENTS:
        yield harden_row([re] * 9, list(HARDEN_COMPONENTS), 20)


def harden_any():
    """Any readings of 32 bits; in the last rows re and im are of the same size, so that two pairs
    of bits tie."""
    dice = Dice(2)
    for n in range(6):
        yield harden_row(dice.several(8, -2**31, 2**31 - 1), dice.several(8, -2**31, 2**31 - 1),
                         16 + n)
    for sign in (1, -1):
        re = dice.several(8, -2**31 + 1, 2**31 - 1)
        yield harden_row(re, [sign * component for component in re], 19)


def draws(codes):
    for calls, lengths in DRAWS.items():
        for re_length, im_length in rows(lengths):
            yield draw_row(codes, calls, re_length, im_length)


def sections(codes):
    return (
        ("read: arguments and lengths at their limits", read_edges(codes, READ_EDGES)),
        ("read: answer buffers too short, long enough, longer", read_edges(codes, READ_ANSWERS)),
        ("read: no refusal, one alone, two at once, all at once", read_at_once(codes)),
        ("read: fields of many chips", read_fields(codes)),
        ("harden: lengths at their limits", harden_edges()),
        ("harden: the pairs of nine components", harden_pairs()),
        ("harden: any readings", harden_any()),
        ("read-sync: arguments and lengths at their limits", sync_edges(codes)),
        ("read-sync: no refusal, one alone, two at once, all at once", sync_at_once(codes)),
        ("read-sync: two chips for which a candidate beats all others", sync_two(codes)),
        ("find: lengths at their limits", find_edges(codes)),
        ("find: no refusal, one alone, two at once, all at once", find_at_once(codes)),
        ("draw", draws(codes)),
    )


def table_lines(text):
    for line in HEAD.split("\n"):
        yield f"# {line}".rstrip()
    told_before = set()
    for title, lines in sections(Codes(text)):
        yield from ("#", f"# {title}")
        for line in lines:
            if line not in told_before:
                told_before.add(line)
                yield line


def main():
    if len(sys.argv) != 2:
        print(USAGE, file=sys.stderr)
        sys.exit(2)
    lines = list(table_lines(read_text(sys.argv[1], USAGE)))
    sys.stdout.write("".join(line + "\n" for line in lines))


if __name__ == "__main__":
    main()
