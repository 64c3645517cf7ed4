"""The bench: the ten calls of document 01, as its ledger has them.

The ledger holds settings, a copy of them while a slot is under way, and a tally of its chips.
Nothing here is shared with the crates.
"""

from .codes import are_related
from .refusals import bad_case, bad_code, bad_frame_or_half, bad_gain, bad_parameter, refused
from .slot import FIELDS, SLOT, Settings, all_bits, right_count, slot_chips


def bad_channel(q, k, gain, taken):
    """The refusal, if there is one, of a code to be opened where these codes are open."""
    return refused(*bad_code(q, k), bad_gain(gain),
                   (6, any(are_related((q, k), code) for code in taken)))


class Bench:
    """A fresh bench. Each call gives its refusal, if there is one, and draw its chips else."""

    def __init__(self, codes):
        self.codes = codes
        self.settings, self.copy, self.tally = Settings(), None, 0

    def put(self, code, gain, bits):
        self.settings = self.settings._replace(open={**self.settings.open, code: (gain, bits)})

    def put_new(self, q, k, gain):
        self.put((q, k), gain, (0,) * right_count(q, self.settings.slot_type))

    def not_open(self, q, k):
        return 7, (q, k) not in self.settings.open

    def set_cell(self, parameter, slot_type):
        refusal = refused(bad_parameter(parameter), (2, slot_type not in FIELDS))
        if not refusal:
            self.settings = Settings(parameter, slot_type)
        return refusal

    def open(self, q, k, gain):
        refusal = bad_channel(q, k, gain, self.settings.open)
        if not refusal:
            self.put_new(q, k, gain)
        return refusal

    def load_plan(self, *records):
        for place, (q, k, gain) in enumerate(records):
            earlier = [code for *code, _ in records[:place]]
            refusal = bad_channel(q, k, gain, earlier)
            if refusal:
                return f"{refusal} place {place}"
        self.settings = self.settings._replace(open={})
        for record in records:
            self.put_new(*record)

    def close(self, q, k):
        refusal = refused(*bad_code(q, k), self.not_open(q, k))
        if not refusal:
            others = {code: channel for code, channel in self.settings.open.items()
                      if code != (q, k)}
            self.settings = self.settings._replace(open=others)
        return refusal

    def set_gain(self, q, k, gain):
        refusal = refused(*bad_code(q, k), bad_gain(gain), self.not_open(q, k))
        if not refusal:
            _, bits = self.settings.open[q, k]
            self.put((q, k), gain, bits)
        return refusal

    def load_bits(self, q, k, bits=()):
        refusal = refused(*bad_code(q, k), self.not_open(q, k),
                          (8, len(bits) * q != all_bits(self.settings.slot_type)),
                          (9, any(bit > 1 for bit in bits)))
        if not refusal:
            gain, _ = self.settings.open[q, k]
            self.put((q, k), gain, bits)
        return refusal

    def set_sync(self, case, frame, half, gain_p, gain_s):
        refusal = refused(
            (13, self.settings.slot_type != 1), bad_case(case),
            bad_frame_or_half(case, frame, half), bad_gain(gain_p, gain_s))
        if not refusal:
            self.settings = self.settings._replace(sync=(case, frame, half, gain_p, gain_s))
        return refusal

    def clear_sync(self):
        self.settings = self.settings._replace(sync=None)

    def start(self):
        refusal = refused((10, self.copy is not None))
        if not refusal:
            self.copy, self.tally = self.settings, 0
        return refusal

    def draw_refusal(self, re_length, im_length):
        return refused((11, self.copy is None), (12, re_length != im_length))

    def draw_count(self, length):
        """How many chips an accepted draw of this length writes."""
        return min(length, SLOT - self.tally)

    def draw(self, re_length, im_length):
        """The chips that are written, as pairs. Makes no buffers: the lengths may be far more than
        there is memory for."""
        refusal = self.draw_refusal(re_length, im_length)
        if refusal:
            return refusal
        count = self.draw_count(re_length)
        chips = list(slot_chips(self.codes, self.copy, self.tally, count))
        self.tally += count
        if self.tally == SLOT:
            self.copy = None
        return chips
