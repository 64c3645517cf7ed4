"""Complex values as pairs of whole numbers, (re, im), and lists of them as two lists, re and im."""

from operator import mul

J_POWERS = ((1, 0), (0, 1), (-1, 0), (0, -1))  # j to the power of 0, 1, 2 and 3


def times(x, y):
    return x[0] * y[0] - x[1] * y[1], x[0] * y[1] + x[1] * y[0]


def scaled(factor, x):
    return factor * x[0], factor * x[1]


def conj(x):
    return x[0], -x[1]


def dot(x, y):
    return sum(map(mul, x, y))


def correlation(re, im, code):
    """The sum of chip × conj(code chip), as a pair."""
    code_re, code_im = code
    return dot(re, code_re) + dot(im, code_im), dot(im, code_re) - dot(re, code_im)


def add(chips, factor, more, start=0):
    """Adds factor × more to the chips from start on; what falls past their end is left out."""
    re, im = chips
    for at, chip in zip(range(start, len(re)), zip(*more)):
        more_re, more_im = times(factor, chip)
        re[at] += more_re
        im[at] += more_im
