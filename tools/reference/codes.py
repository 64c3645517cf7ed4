"""The codes, and the eight calls of the code rules with their refusals, as document 01 has them.

Scrambling codes, synchronisation codes and allocations come from the text of the standard;
document 01 gives the channelisation tree (figure 1 is not in the text), the code groups, the burst
starts and the refusals. Each call gives its value or a refusal. Nothing here is shared with the
crates.
"""

from re import findall

from . import standard
from .refusals import bad_case, bad_code, bad_frame_or_half, bad_parameter, refused

CODES = [(q, k) for q in (1, 2, 4, 8, 16) for k in range(q)]
UNITS = {"": (1, 0), "j": (0, 1), "-": (-1, 0), "-j": (0, -1)}
SCRAMBLED = 16  # chips of a scrambling code
SYNC_CHIPS = 256  # of a synchronisation code


class Codes:
    """The codes, built from the text of the standard."""

    def __init__(self, text):
        self.channelisation = channelisation_codes()  # a list of elements, by Q and k
        self.scrambling = standard.scrambling_codes(text)  # lists of pairs
        self.primary, self.secondary = standard.sync_codes(text)  # re and im; the second by number
        # By case, group, frame and half: the three codes as printed, and their numbers and units.
        self.printed = standard.read_allocations(text, self.secondary)
        self.allocation = {
            place: [(int(i), UNITS[unit]) for unit, i in findall(r"(-?j?)C(\d+)", entry)]
            for place, entry in self.printed.items()}


def channelisation_codes():
    codes = {(1, 0): [1]}
    for q, k in CODES[:15]:  # the codes with Q below 16
        codes[2 * q, 2 * k] = codes[q, k] + codes[q, k]
        codes[2 * q, 2 * k + 1] = codes[q, k] + [-element for element in codes[q, k]]
    return codes


def above(q, k, lower_q, lower_k):
    """Whether (Q, k) is the lower code or lies above it in the tree."""
    return q == lower_q and k == lower_k or q < lower_q and above(q, k, lower_q // 2, lower_k // 2)


def are_related(code, other):
    return above(*code, *other) or above(*other, *code)


# The eight calls

def element(codes, q, k, chip):
    return refused(*bad_code(q, k), (16, chip >= q)) or codes.channelisation[q, k][chip]


def related(codes, q, k, other_q, other_k):
    return (refused(*bad_code(q, k), *bad_code(other_q, other_k))
            or are_related((q, k), (other_q, other_k)))


def code_group(codes, p):
    return refused(bad_parameter(p)) or p // 4


def scrambling_chip(codes, p, chip):
    return refused(bad_parameter(p), (16, chip >= SCRAMBLED)) or codes.scrambling[p][chip]


def primary_chip(codes, chip):
    return refused((16, chip >= SYNC_CHIPS)) or chip_of(codes.primary, chip)


def secondary_chip(codes, i, chip):
    return (refused((16, i not in codes.secondary or chip >= SYNC_CHIPS))
            or chip_of(codes.secondary[i], chip))


def allocation(codes, case, group, frame, half):
    return refused((1, group > 31), bad_case(case), bad_frame_or_half(case, frame, half)) or (
        codes.printed[case, group, frame, half])


def burst_start(codes, group):
    return refused((1, group > 31)) or start_of_burst(group)


def chip_of(code, chip):
    re, im = code
    return re[chip], im[chip]


def start_of_burst(group):
    return 48 * group if group < 16 else 720 + 48 * group
