"""Writes the test scripts of the program tdd.

Run from the repository's root, with the path of the text of TS 25.223 V3.3.0 and the directory
into which the scripts go:

    python3 tools/tdd_scripts.py TS-25.223-V3.3.0.txt crates/tdd/data

tools/families makes the lines, one module a subject; SCRIPTS below has the scripts in the order in
which crates/tdd/args names them. What tdd must answer to them comes from tools/tdd_answers.py. The
scripts are always the same, and nothing is shared with the crates. A wrong text or argument ends
the run as in tools/tdd_answers.py.
"""

import sys
from pathlib import Path

sys.dont_write_bytecode = True  # so that the imports leave no files behind
from families.bits import bits
from families.bursts import bursts
from families.calls import calls
from families.codes import codes
from families.cut_numbers import cut_numbers
from families.faults import faults
from families.finding import finding
from families.mark import mark
from families.nearest import nearest
from families.plans import plans
from families.random_lists import random_lines
from families.readings import readings
from families.refusal_words import refusal_words
from families.script import Script
from families.slots import slots
from families.told_settings import told_settings
from reference.codes import Codes
from reference.standard import read_text

USAGE = "usage: python3 tools/tdd_scripts.py TS-25.223-V3.3.0.txt DIR"
SCRIPTS = {
    "codes.txt": codes,
    "slots.txt": slots,
    "plans.txt": plans,
    "bits.txt": bits,
    "settings.txt": told_settings,
    "refusals.txt": refusal_words,
    "readings.txt": readings,
    "bursts.txt": bursts,
    "finding.txt": finding,
    "calls.txt": calls,
    "cut-numbers.txt": cut_numbers,
    "faults.txt": faults,
    "nearest.txt": nearest,
    "mark.txt": mark,
    **{f"random-{n}.txt": random_lines(80 + n) for n in (1, 2, 3, 4)},
}


def main(path, directory):
    standard_codes = Codes(read_text(path, USAGE))
    directory = Path(directory)
    directory.mkdir(parents=True, exist_ok=True)
    for name, family in SCRIPTS.items():
        script = Script(standard_codes)
        family(script)
        (directory / name).write_bytes(script.bytes())
        print(f"{name}: {len(script.lines)} lines, {len(script.bytes())} bytes")


if __name__ == "__main__":
    if len(sys.argv) != 3:
        print(USAGE, file=sys.stderr)
        sys.exit(2)
    main(*sys.argv[1:])
