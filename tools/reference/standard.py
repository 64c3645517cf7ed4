"""Reads the text of TS 25.223 V3.3.0.

The standard is not in this repository. Its text is a plain copy: tabs between table cells,
formulas in TeX, "..." where a table leaves rows out. Read from it: the scrambling codes (annex
A), how the synchronisation codes are built (7.1), the code sets (7.2), tables 4 and 5 but for
t_offset (misprinted in table 5), and table 6 as a check. Document 01 gives the code groups and the
rule for allocations. A row that tables 4 and 5 print is taken as printed, and must agree with that
rule; the rule gives the rows left out. Nothing here is shared with the crates.

An inconsistent text ends the run with exit status 1, nothing on stdout and what is wrong on
stderr; a missing or wrong path with status 2.
"""

import itertools
import re
import sys

from .pairs import J_POWERS, scaled

GROUPS_PER_SET = {1: 16, 2: 8}  # by case


def demand(holds, where, what):
    if not holds:
        sys.exit(f"{where}: {what}")  # a message makes the exit status 1


def read_text(path, usage):
    """The text at this path, without its marks of TeX."""
    try:
        with open(path, encoding="utf-8", errors="replace") as file:
            text = file.read()
    except OSError:
        print(usage, file=sys.stderr)
        sys.exit(2)
    title = text.strip().split("\n")[0]
    demand(re.search(r"TS 1?25[ .]223 V3\.3\.0\b", title), "title", "not TS 25.223 V3.3.0")
    # Without these marks, C_{13} is C13 and $-C_5$ is -C5.
    return text.translate(str.maketrans("", "", "${}_"))


def printed(text, what, pattern):
    """What the text has in a place that must occur exactly once."""
    found = re.findall(pattern, text, re.MULTILINE)
    demand(len(found) == 1, what, f"found {len(found)} times in the expected form")
    return found[0]


def signs(items, units, where):
    """The signs of a printed sequence of 16, whose item n is units[n] or its negative."""
    demand(len(items) == 16, where, f"{len(items)} elements instead of 16")
    for item, unit in zip(items, units):
        demand(item in (unit, "-" + unit), where, f"'{item}' is neither {unit} nor -{unit}")
    return [-1 if item.startswith("-") else 1 for item in items]


def table_rows(text, table, width, last):
    """The printed rows from 0 to `last`, by number; others may be missing only at a "..."."""
    lines = text.split("\n")
    title = printed(text, f"table {table}", f"^Table {table}:.*$")
    start = lines.index(title) + 2  # a blank line follows the title, and one the last row
    rows, due, left_out = {}, 0, False
    for at, line in enumerate(itertools.takewhile(bool, lines[start:]), start + 1):
        where, cells = f"line {at} (table {table})", line.split("\t")
        if cells[0] == "...":
            left_out = True
        elif rows or cells[0] == "0":  # else a line of the table's head
            demand(cells[0].isdecimal() and len(cells) == width, where,
                   f"not {width} cells that begin with a number")
            number = int(cells[0])
            demand(number == due or left_out and number > due, where, f"row {due} is missing")
            rows[number], due, left_out = (where, cells), number + 1, False
    demand(due == last + 1, f"table {table}", f"the rows end with {due - 1} instead of {last}")
    return rows


# Annex A

def scrambling_codes(text):
    """The 128 codes, each a list of 16 pairs: element i, from 1, is j^i times v_i."""
    codes = []
    for at, line in enumerate(text.split("\n"), 1):
        name, *items = line.split("\t")
        if re.match("Code [0-9]", name):
            where, due = f"line {at} (annex A)", f"Code {len(codes)}"
            demand(name == due, where, f"'{name}' instead of '{due}'")
            v = signs(items, ["1"] * 16, f"{where}, {name}")
            codes.append([scaled(v[i - 1], J_POWERS[i % 4]) for i in range(1, 17)])
    demand(len(codes) == 128, "annex A", f"{len(codes)} codes instead of 128")
    check_table_6(text)
    return codes


def check_table_6(text):
    for p, (where, cells) in table_rows(text, 6, 6, 127).items():
        # Only the first of a group's four rows prints the group.
        due = ["" if p % 4 else f"Group {p // 4}", f"Code {p}"]
        demand(cells[1:3] == due, where, f"{cells[1:3]}, but document 01 has {due}")


# Clause 7.1

def printed_sequence(text, lead, units):
    where = f"7.1, sequence {lead[0]}"
    items = printed(text, where, rf"\b{lead} \\langle ([^\\]+) \\rangle").split(", ")
    return signs(items, units, where)


def hadamard(text):
    """The rows of the matrix H_8, built as the text says."""
    printed(text, "7.1, H_0", r"H0 = \(1\)")
    pair = "(-?)Hk-1 & (-?)Hk-1"
    minus = printed(text, "7.1, H_k", rf"Hk = \\beginpmatrix {pair} \\\\ {pair} \\endpmatrix")
    block_signs = [-1 if sign else 1 for sign in minus]
    h = [[1]]
    for _ in range(int(printed(text, "7.1, H_8", r"matrix H(\d) constructed recursively"))):
        h = [[s * element for s in signs_of_row for element in row]
             for signs_of_row in (block_signs[:2], block_signs[2:]) for row in h]
    return h


def secondary_numbers(text):
    listed = printed(text, "7.1, list of codes", r"codes, \\(C[C0-9, ]+)\\ are").replace("C", "")
    again = printed(text, "7.1, range of i", r"Ci , i = ([0-9, ]+) is then defined")
    numbers = sorted(set(map(int, again.split(", "))))
    demand(listed == again and len(numbers) == 12, "7.1", "not the same twelve codes twice")
    return numbers


def sync_codes(text):
    """The primary code, and the secondary codes by number; each is two lists, re and im, which
    are equal, since every chip is 1 + j or its negative."""
    x = printed_sequence(text, "a = .* =", ["1"] * 16)
    y = [s * xn for s in printed_sequence(text, r"y = \(1 \+ j\) \\times", ["a"] * 16) for xn in x]
    b_signs = printed_sequence(text, "b =", [f"x{n}" for n in range(1, 17)])
    b = [s * xn for s, xn in zip(b_signs, x)]
    z = [s * bn for s in printed_sequence(text, "z =", ["b"] * 16) for bn in b]
    h, numbers = hadamard(text), secondary_numbers(text)
    printed(text, "7.1, C_i", r"Ci = \(1 \+ j\) \\times \\langle hm\(0\) \\times z\(0\), ")
    step = int(printed(text, "7.1, m", r"m = \((\d+) \\times i\)"))
    demand(len(h) == len(z) > step * numbers[-1], "7.1", "not enough Hadamard sequences")
    secondary = {i: [hn * zn for hn, zn in zip(h[step * i], z)] for i in numbers}
    return (y, y), {i: (code, code) for i, code in secondary.items()}


# Clause 7.2

def allocation_by_rule(code_sets, case, group, frame, half):
    """Document 01's pair of codes and marker, with their units, as tables 4 and 5 print them."""
    size = GROUPS_PER_SET[case]
    r, signings = group % size, size // 4  # a set has four rows, each signed in so many ways
    a, b, d = code_sets[1 + group // size]
    unit, first, second, marker = (
        ("", a, b, d), ("j", a, b, d), ("j", a, d, b), ("j", b, d, a))[r // signings]
    s1, s2 = ((1, 1), (1, -1), (-1, 1), (-1, -1))[r % signings]
    if case == 2 and frame == 2:
        s1, s2 = -s1, -s2
    s3 = -1 if (frame == 2 if case == 1 else half == 1) else 1
    return " ".join(("-" if s < 0 else "") + code for s, code in (
        (s1, f"{unit}C{first}"), (s2, f"{unit}C{second}"), (s3, f"C{marker}")))


def read_code_sets(text, secondary):
    found = re.findall(r"(?m)^Code set (\d): C(\d+), C(\d+), C(\d+) \.$", text)
    demand([n for n, *_ in found] == list("121234") and found[:2] == found[2:4], "7.2",
           "not code sets 1 and 2 for case 1, then the same with 3 and 4 for case 2")
    code_sets = {int(n): list(map(int, codes)) for n, *codes in found}
    demand(sorted(sum(code_sets.values(), [])) == sorted(secondary), "7.2",
           "the code sets do not share out the secondary codes")
    return code_sets


def read_allocations(text, secondary):
    """The three modulated codes by (case, group, frame, half), as in "-jC13 -jC14 -C10"."""
    code_sets = read_code_sets(text, secondary)
    allocations = {}
    for case, table in ((1, 4), (2, 5)):
        slots = [(frame, half) for frame in (1, 2) for half in range(case)]
        rows = table_rows(text, table, 3 + 3 * len(slots), 31)
        for group in range(32):
            code_set = str(1 + group // GROUPS_PER_SET[case])
            where, cells = rows.get(group, ("", ["", code_set]))
            demand(cells[1] == code_set, where, f"document 01 has code set {code_set}")
            for n, (frame, half) in enumerate(slots):
                rule = allocation_by_rule(code_sets, case, group, frame, half)
                entry = " ".join(cells[2 + 3 * n:5 + 3 * n]) or rule
                demand(entry == rule, where, f"{entry}, but document 01 has {rule}")
                allocations[case, group, frame, half] = entry
    return allocations
