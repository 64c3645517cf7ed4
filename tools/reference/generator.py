"""The generator of noise and random bits, as docs/TDD.md has it."""


def states(seed):
    """The states that follow a seed."""
    state = seed
    while True:
        state = (state * 1664525 + 1013904223) % 2**32
        yield state
