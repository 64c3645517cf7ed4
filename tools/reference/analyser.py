"""The four analyser calls of document 01: read, harden, read sync and find.

Each is computed in whole numbers, straight from its definition there. Chips, readings, fields and
recordings are two lists, re and im; a single complex value is a pair. Nothing here is shared with
the crates.
"""

from .pairs import conj, correlation, times
from .refusals import bad_case, bad_code, bad_parameter, refused

LARGEST = 100000  # chip component
LONGEST_FIELD = 1104
LONGEST_FIND = 5120
BURST = 256


def too_large(re, im):
    return 17, any(abs(component) > LARGEST for buffer in (re, im) for component in buffer)


def unequal(re, im):
    return 12, len(re) != len(im)


def read(codes, p, q, k, re, im, answer_re, answer_im):
    """Writes the readings into the answer buffers, or gives a refusal."""
    length = len(re)
    refusal = refused(
        bad_parameter(p), *bad_code(q, k), unequal(re, im),
        (16, length == 0 or length > LONGEST_FIELD or length % 16 != 0), too_large(re, im),
        (18, q * len(answer_re) < length or q * len(answer_im) < length))
    if refusal:
        return refusal
    for n in range(length // q):
        answer_re[n] = answer_im[n] = 0
        for chip in range(n * q, n * q + q):
            descrambled = times((re[chip], im[chip]), conj(codes.scrambling[p][chip % 16]))
            answer_re[n] += descrambled[0] * codes.channelisation[q, k][chip % q]
            answer_im[n] += descrambled[1] * codes.channelisation[q, k][chip % q]


def harden(re, im, bits):
    """Writes two bytes for each reading, or gives a refusal."""
    refusal = refused(unequal(re, im), (18, len(bits) < 2 * len(re)))
    if refusal:
        return refusal
    for n, (y_re, y_im) in enumerate(zip(re, im)):
        scores = [y_im, y_re, -y_re, -y_im]  # of the pairs 00, 01, 10, 11
        pair = scores.index(max(scores))  # the earliest on a tie
        bits[2 * n], bits[2 * n + 1] = pair // 2, pair % 2


def read_sync(codes, case, re, im):
    """The group, frame and half, or a refusal."""
    refusal = refused(
        bad_case(case), unequal(re, im), (16, len(re) != BURST), too_large(re, im))
    if refusal:
        return refusal
    scores = sync_scores(codes, case, re, im)
    largest = max(scores.values())
    best = [place for place, score in scores.items() if score == largest]
    if len(best) > 1:
        return "refused 19"
    _, group, frame, half = best[0]
    return f"group {group} frame {frame} half {half}"


def sync_scores(codes, case, re, im):
    """The score of each candidate of the case, by case, group, frame and half."""
    p = correlation(re, im, codes.primary)
    s = {i: correlation(re, im, code) for i, code in codes.secondary.items()}
    return {place: sum(times(times(s[i], conj(unit)), conj(p))[0] for i, unit in allocation)
            for place, allocation in codes.allocation.items() if place[0] == case}


def find(codes, re, im, scratch_re, scratch_im):
    """The start and the squared size, or a refusal; the scratch buffers are not needed here."""
    length = len(re)
    refusal = refused(
        unequal(re, im), (16, length < BURST or length > LONGEST_FIND), too_large(re, im),
        (18, len(scratch_re) < length - 15 or len(scratch_im) < length - 15))
    if refusal:
        return refusal
    sizes = []
    for start in range(length - BURST + 1):
        end = start + BURST
        p = correlation(re[start:end], im[start:end], codes.primary)
        sizes.append(p[0] ** 2 + p[1] ** 2)
    return f"at {sizes.index(max(sizes))} size {max(sizes)}"  # the smallest start on a tie
