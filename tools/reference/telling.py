"""Lines of chips, readings and bits, told in full and in brief as docs/TDD.md says."""

FIRST_PAIRS, FIRST_BITS = 4, 16  # how many are shown in brief at most


def checksum(components):
    value = 0
    for x in components:
        value = (16777619 * value + x) % 2**32
    return value


def pair(re, im):
    return f"{re},{im}"


def told_pairs(re, im, brief):
    """The line of these chips or readings."""
    if not brief:
        return " ".join(map(pair, re, im))
    components = [x for chip in zip(re, im) for x in chip]
    first = [pair(*chip) for chip in zip(re[:FIRST_PAIRS], im)]
    return in_brief(len(re), first, components)


def told_bits(bits, brief):
    if not brief:
        return "".join(map(str, bits))
    first = "".join(map(str, bits[:FIRST_BITS]))
    return in_brief(len(bits), [first] if bits else [], bits)


def in_brief(count, first, components):
    return " ".join([f"{count}:", *first, f"checksum {checksum(components)}"])
