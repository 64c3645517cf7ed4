"""The refusals of document 01 that several calls have, and which of them a call gives."""


def refused(*refusals):
    """The answer for the first (number, condition) whose condition holds, if one does."""
    return next((f"refused {number}" for number, holds in refusals if holds), None)


def bad_code(q, k):
    return (3, q not in (1, 2, 4, 8, 16)), (4, k >= q)


def bad_parameter(p):
    return 1, p > 127


def bad_case(case):
    return 14, case not in (1, 2)


def bad_frame_or_half(case, frame, half):
    return 15, frame not in (1, 2) or half > 1 or half == 1 and case == 1


def bad_gain(*gains):
    return 5, any(not 1 <= gain <= 4095 for gain in gains)
