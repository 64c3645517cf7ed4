"""The bits of load-bits, from the forms that docs/TDD.md has for them."""

from itertools import islice

from .generator import states


def random_bits(count, seed):
    return [state // 65536 % 2 for state in islice(states(seed), count)]


def filled(count, digits, ending):
    """The digits of a word, up to so many by what stands behind them."""
    left = max(0, count - len(digits))
    if ending == "..":
        return digits + [0] * left
    if ending == "*":
        return digits + [digits[n % len(digits)] for n in range(len(digits), len(digits) + left)]
    return digits


def loaded(count, *words):
    """The bits for a code that has so many, from the values of the words after Q and K."""
    if not words:
        return []
    if words[0] == "random":
        return random_bits(count, words[1])
    return filled(count, *words[0])
