"""codes.txt: every value of the code rules, single chips, and the edges of each call."""

from reference.codes import CODES

from .script import BYTE_ORDER_MARK

# Arguments at and past the limits of each call, up to the largest number of 32 bits. Some would be
# good numbers again once cut to 8 or 16 bits.
EDGES = {
    "element": "0 0 0, 3 0 0, 5 0 0, 15 0 0, 17 0 0, 32 0 0, 4294967295 0 0, 3 9 99, 1 1 0, "
    "2 2 0, 4 4 99, 8 8 0, 16 16 0, 16 4294967295 0, 1 0 0, 1 0 1, 2 1 1, 2 1 2, 4 3 3, 4 3 4, "
    "8 7 7, 8 7 8, 16 15 15, 16 15 16, 16 15 4294967295, 257 0 0, 65537 0 0, 16 256 0, 16 65551 0, "
    "16 15 256, 16 15 65551",
    "related": "3 0 1 0, 0 0 0 0, 4 4 1 0, 4 4 3 0, 1 0 5 0, 1 0 16 16, 16 15 6 6, 4 1 16 5, "
    "4 1 16 8, 16 5 4 1, 4294967295 0 1 0, 1 0 1 4294967295, 257 0 1 0, 1 0 65537 0, 4 257 4 1, "
    "4 1 4 65537",
    "code-group": "127, 128, 4294967295, 256, 65536",
    "scrambling-chip": "0 15, 0 16, 127 15, 127 16, 128 0, 128 16, 4294967295 4294967295, 256 0, "
    "65536 0, 0 256, 127 65551",
    "primary-chip": "255, 256, 4294967295, 511, 65536",
    "secondary-chip": "0 0, 1 0, 2 0, 3 0, 4 0, 5 0, 6 0, 7 0, 8 0, 9 0, 10 0, 11 0, 12 0, 13 0, "
    "14 0, 15 0, 16 0, 17 0, 15 255, 15 256, 2 255, 4294967295 0, 0 4294967295, 257 0, 65537 0, "
    "1 512, 1 65791",
    "allocation": "1 31 2 0, 1 32 1 0, 3 32 3 2, 0 31 1 0, 3 31 3 0, 4294967295 0 1 0, 1 0 0 0, "
    "1 0 3 0, 1 0 1 1, 1 0 1 2, 2 31 2 1, 2 0 0 1, 2 0 3 0, 2 0 1 2, 2 4294967295 0 9, 257 0 1 0, "
    "65538 0 1 0, 1 256 1 0, 1 65536 1 0, 1 0 257 0, 2 0 65538 0, 2 0 1 257, 1 0 1 65536",
    "burst-start": "15, 16, 31, 32, 4294967295, 256, 65536",
    "code": "0 0, 3 0, 3 9, 5 0, 15 0, 17 0, 32 0, 257 0, 4294967295 0, 1 1, 2 2, 4 4, 8 8, "
    "16 16, 16 15, 8 257, 16 65551, 16 4294967295",
    "scrambling": "127, 128, 256, 65536, 4294967295",
    "secondary": "2, 7, 9, 11, 15, 16, 17, 256, 65537, 4294967295",
}


def every_code(script):
    for q, k in CODES:
        script.run(f"code {q} {k}")
    for q, k in CODES:
        script.run(*(f"related {q} {k} {other} {index}" for other, index in CODES))


def every_cell(script):
    script.run(*(f"code-group {p}" for p in range(128)))
    script.run(*(f"scrambling {p}" for p in range(128)))


def every_sync_code(script):
    script.run("primary", *(f"secondary {i}" for i in script.codes.secondary))


def every_allocation(script):
    for place in script.codes.allocation:
        script.run("allocation {} {} {} {}".format(*place))
    script.run(*(f"burst-start {group}" for group in range(32)))


def single_chips(script):
    for q, k in CODES:
        script.run(*(f"element {q} {k} {chip}" for chip in range(q)))
    for p in range(128):
        for chip in (0, 1 + p % 14, 15):
            script.run(f"scrambling-chip {p} {chip}")
    chips = [0, 1, 2, 3, *range(6, 256, 9), 254, 255]
    script.run(*(f"primary-chip {chip}" for chip in chips))
    for n, i in enumerate(script.codes.secondary):
        script.run(*(f"secondary-chip {i} {chip}" for chip in (0, *chips[n % 3::3], 255)))


def edges(script):
    for call, arguments in EDGES.items():
        script.run(*(f"{call} {words}" for words in arguments.split(", ")))


def brief_codes(script):
    """What is told in brief of codes, and what is not."""
    script.run("brief, code 16 5, element 16 5 3, scrambling 8, scrambling 127, scrambling 128",
               "scrambling-chip 8 0, primary, primary-chip 0, secondary 0, secondary 15",
               "secondary 2, secondary-chip 1 16, allocation 2 9 2 1, full, scrambling 8")


def codes(script):
    script.add(f"{BYTE_ORDER_MARK}# every value of the code rules")
    for family in (every_code, every_cell, every_sync_code, every_allocation, single_chips, edges,
                   brief_codes):
        script.say(family.__name__.replace("_", " "))
        family(script)
