"""Settings, the sync burst and the chips of a slot, as document 01 lays them out.

Nothing here is shared with the crates.
"""

from typing import NamedTuple

from .codes import start_of_burst
from .pairs import add, scaled, times

SLOT = 2560
FIELDS = {1: (976, 512, 976), 2: (1104, 256, 1104), 3: (976, 512, 880)}  # midamble in the middle
SYMBOLS = {(0, 0): (0, 1), (0, 1): (1, 0), (1, 0): (-1, 0), (1, 1): (0, -1)}


class Settings(NamedTuple):
    """Never changed in place, so that a copy of it stays as it is."""
    parameter: int = 0
    slot_type: int = 1
    open: dict = {}  # gain and bits by code
    sync: tuple = None  # case, frame, half, gP and gS


def all_bits(slot_type):
    """The bits of a channel times its Q."""
    field1, _, field2 = FIELDS[slot_type]
    return 2 * (field1 + field2)


def right_count(q, slot_type):
    return all_bits(slot_type) // q


def burst(codes, place, gain_p, gain_s):
    """The sync burst of this case, group, frame and half."""
    chips = [0] * 256, [0] * 256
    add(chips, (gain_p, 0), codes.primary)
    for i, unit in codes.allocation[place]:
        add(chips, scaled(gain_s, unit), codes.secondary[i])
    return chips


def sync_chips(codes, settings):
    """The chips of the sync burst, if there is one, by their place in the slot."""
    if not settings.sync:
        return {}
    case, frame, half, gain_p, gain_s = settings.sync
    group = settings.parameter // 4
    start = start_of_burst(group)
    chips = zip(*burst(codes, (case, group, frame, half), gain_p, gain_s))
    return {start + n: chip for n, chip in enumerate(chips)}


def data_chip(codes, settings, place, earlier):
    """The sum over the open channels for a chip at this place of a field, from 0; so many chips
    lie in an earlier field."""
    scrambling = codes.scrambling[settings.parameter][place % 16]
    total_re = total_im = 0
    for (q, k), (gain, bits) in settings.open.items():
        symbol = earlier // q + place // q
        re, im = times(SYMBOLS[bits[2 * symbol], bits[2 * symbol + 1]], scrambling)
        factor = gain * codes.channelisation[q, k][place % q]
        total_re += factor * re
        total_im += factor * im
    return total_re, total_im


def slot_chips(codes, settings, first, count):
    """So many chips of the slot, from chip `first` on."""
    field1, midamble, field2 = FIELDS[settings.slot_type]
    field2_start = field1 + midamble
    sync = sync_chips(codes, settings)
    for at in range(first, first + count):
        re = im = 0
        if at < field1:
            re, im = data_chip(codes, settings, at, 0)
        elif field2_start <= at < field2_start + field2:
            re, im = data_chip(codes, settings, at - field2_start, field1)
        sync_re, sync_im = sync.get(at, (0, 0))
        yield re + sync_re, im + sync_im
