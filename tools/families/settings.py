"""The bench calls that change settings, start and draw, with their refusals and edges.

Lists of calls, for slots.txt and calls.txt.
"""

from reference.codes import CODES, are_related
from reference.slot import FIELDS, right_count

from .dice import BAD_FACTORS, BAD_GAINS, FACTORS
from .script import MAX, NONE_BAD, open_loaded, spelled

SYNC_PLACES = ("1 1 0", "1 2 0", "2 1 0", "2 1 1", "2 2 0", "2 2 1")  # case, frame, half


def set_cell_refused():
    yield "set-cell 127 1, open 4 1 7, set-sync 1 2 0 50 60"  # what must stay
    for parameter in (128, 256, MAX):
        yield f"set-cell {parameter} 1"
    for slot_type in (0, 4, 257, 65537, MAX):
        yield f"set-cell 126 {slot_type}, set-cell 128 {slot_type}"
    yield f"set-cell {MAX} {MAX}, set-gain 4 1 8"


def set_cell_accepted():
    for slot_type in (1, 2, 3):  # the code opened before is closed
        yield f"open 8 3 9, set-cell {124 + slot_type} {slot_type}, close 8 3"
    yield "open 1 0 3"


def open_edges():
    for q in BAD_FACTORS:
        yield f"open {q} 0 1, open {q} {q} 0"
    for q in FACTORS:
        yield f"open {q} {q} 1, open {q} {256 + q - 1} 1, open {q} {MAX} 1"
        yield f"open {q} {q - 1} 1, close {q} {q - 1}"
    for gain in BAD_GAINS:
        yield f"open 4 1 {gain}"
    yield "open 4 1 1, close 4 1, open 4 1 4095"
    # 3 before 4 before 5 before 6
    yield "open 3 9 0, open 4 4 0, open 16 16 4096, open 4 1 0, open 2 0 4096, open 8 3 0"
    yield "open 4 1 4095, open 4 2 1"


def open_related(opened):
    for q, k in opened:
        yield f"set-cell 0 1, open {q} {k} 5"
        for code in CODES:
            if are_related((q, k), code):
                yield "open {} {} 6".format(*code)
        while q > 1:  # the siblings on the way up are related to none of these
            yield f"open {q} {k ^ 1} 7"
            q, k = q // 2, k // 2
        yield "open 16 0 8"  # now the tree is full


def close_edges():
    yield open_loaded(4, 1, 70, 5)
    for q in BAD_FACTORS:
        yield f"close {q} 0, close {q} {q}"
    for q in FACTORS:
        yield f"close {q} {q}, close {q} {256 + q // 4}, close {q} {MAX}"
    # above it, below it and beside it
    yield "close 1 0, close 2 0, close 8 2, close 8 3, close 16 4, close 16 7, close 4 0, close 2 1"
    yield "open 4 0 20, close 4 1, close 4 1, close 4 0, close 4 0, open 4 1 3"


def set_gain_edges():
    yield open_loaded(4, 1, 70, 5)
    for q in BAD_FACTORS:
        yield f"set-gain {q} 0 1, set-gain {q} {q} 0"
    for q in FACTORS:
        yield f"set-gain {q} {q} 1, set-gain {q} {256 + q // 4} 1, set-gain {q} {MAX} 0"
    for gain in BAD_GAINS:
        yield f"set-gain 4 1 {gain}, set-gain 4 0 {gain}"
    yield "set-gain 1 0 1, set-gain 2 0 1, set-gain 8 2 1, set-gain 16 7 1, set-gain 4 0 4095"
    yield "set-gain 4 1 1, set-gain 4 1 4095, set-gain 4 1 4096"


def load_bits_codes():
    """Refusals 3, 4 and 7, where also the count and a byte are bad or both are good."""
    yield open_loaded(4, 1, 70, 5)
    for q in BAD_FACTORS:
        yield f"load-bits {q} 0 random 6, load-bits {q} {q} 2.., load-bits {q} 0 244 6 {NONE_BAD}"
    for q in FACTORS:
        yield f"load-bits {q} {q} random 6, load-bits {q} {256 + q // 4} 01*"
        yield f"load-bits {q} {MAX} 1 6 0"
    yield f"load-bits 2 0 1952 6 {NONE_BAD}, load-bits 8 2 488 6 {NONE_BAD}, load-bits 4 0 975 6 0"
    yield f"load-bits 4 0 976 6 0, load-bits 4 0 0 6 {NONE_BAD}"


def load_bits_counts(slot_type, q):
    """Refusals 8 and 9; the bits of the one good load stay."""
    k, count = q // 3, right_count(q, slot_type)
    wrong = {0, 1, count // 2, count - 2, count - 1, count + 1, count + 2, 2 * count}
    wrong |= {right_count(q, other) for other in FIELDS} - {count}
    yield f"set-cell {7 * q} {slot_type}, open {q} {k} 30, load-bits {q} {k} {count} 1 {count}"
    for length in sorted(wrong):
        if length <= 5000:  # more is for other families
            yield f"load-bits {q} {k} {length} 2 {NONE_BAD}"
    yield f"load-bits {q} {k} {count - 1} 3 0, load-bits {q} {k} {count + 1} 3 {count}"
    for bad in (0, 1, count // 2):
        yield spelled(f"load-bits {q} {k} {bad + 1} 4 {bad}") + ".."
    yield f"load-bits {q} {k} {count} 4 {count - 1}"


def set_sync_refused():
    for slot_type in (2, 3):
        yield f"set-cell 77 {slot_type}, open 8 1 11, set-sync 1 1 0 1 1, set-sync 2 2 1 4095 1"
        yield "set-sync 3 1 0 1 1, set-sync 1 0 0 1 1, set-sync 1 1 0 0 1, set-sync 0 0 2 0 0"
    yield "set-cell 77 1, open 8 1 11, set-sync 2 2 1 30 40"  # what must stay
    for case in (0, 3, 257, 258, 65537, MAX):
        yield f"set-sync {case} 1 0 1 1, set-sync {case} 3 1 1 1, set-sync {case} 1 2 0 0"
    for case in (1, 2):
        for frame in (0, 3, 257, 258, MAX):
            yield f"set-sync {case} {frame} 0 1 1"
        for half in (2, 256, 257, MAX):
            yield f"set-sync {case} 1 {half} 1 1"
        yield f"set-sync {case} 0 0 0 1, set-sync {case} 2 2 1 4096"
    yield "set-sync 1 1 1 1 1, set-sync 1 2 1 1 1, set-sync 1 1 1 0 0"
    for gain in BAD_GAINS:
        yield f"set-sync 1 1 0 {gain} 1, set-sync 2 2 1 1 {gain}"
    yield "set-sync 1 2 0 0 4096"


def set_sync_accepted():
    yield "set-cell 126 1"
    for place in SYNC_PLACES:
        yield f"set-sync {place} 1 4095, set-sync {place} 4095 1"


def start_and_draw_edges():
    yield "fresh, draw 0 0, draw 1 1, draw 5 6, draw 0 1, draw 2560 0, draw 3000 3000"
    yield open_loaded(4, 1, 77, 9) + ", start, start"
    unequal = "draw 5 6, draw 6 5, draw 0 1, draw 1 0, draw 2560 0, draw 0 3000, draw 3000 2999"
    yield f"{unequal}, draw 16 16, start, {unequal}, draw 2543 2543, start, {unequal}, draw 1 1"
    yield "draw 3 4, draw 0 0, draw 1 1, start, start, draw 3000 3000, draw 0 0, draw 1 0, start"
