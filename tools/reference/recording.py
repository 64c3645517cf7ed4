"""The recording of a script: chips in a list, with the silence and noise of docs/TDD.md.

What a call cannot have raises Fault, and has changed nothing. Nothing here is shared with the
crates.
"""

from itertools import islice

from .generator import states
from .words import Fault

LONGEST_RECORDING = 38400  # chips
LARGEST_NOISE = 100000


def noise_numbers(count, seed, size):
    """So many numbers from -size to size."""
    for state in islice(states(seed), count):
        yield state // 256 % (2 * size + 1) - size


def fits(component):
    return -2**31 <= component < 2**31


class Recording:
    """An empty recording."""

    def __init__(self):
        self.re, self.im = [], []

    def __len__(self):
        return len(self.re)

    def need_part(self, first, count):
        has = len(self)
        if first + count > has:
            raise Fault(f"the recording ends before that; "
                        f"right is: FROM + COUNT at most {has}")

    def need_room(self, count):
        left = LONGEST_RECORDING - len(self)
        if count > left:
            raise Fault(f"there is no room for {count} more; "
                        f"right is: at most {left}, or erase first")

    def part(self, first, count):
        self.need_part(first, count)
        return self.re[first:first + count], self.im[first:first + count]

    def append(self, re, im):
        self.need_room(len(re))
        self.re += re
        self.im += im

    def silence(self, count):
        self.need_room(count)
        self.append([0] * count, [0] * count)

    def noise(self, first, count, seed, size):
        if size > LARGEST_NOISE:
            raise Fault(f"a noise of size {size} is too large; right is: at most {LARGEST_NOISE}")
        re, im = self.part(first, count)
        numbers = noise_numbers(2 * count, seed, size)
        for n in range(count):
            re[n] += next(numbers)
            im[n] += next(numbers)
            if not (fits(re[n]) and fits(im[n])):
                raise Fault(f"the noise takes chip {first + n} past 32 bits; "
                            "right is: a smaller SIZE")
        self.re[first:first + count] = re
        self.im[first:first + count] = im
