"""faults.txt: every kind of line that is no call, and the lines that are nearly so."""

from reference.script import LONGEST_LINE

from .need_faults import NEED_FAULTS
from .script import BYTE_ORDER_MARK
from .word_faults import WORD_FAULTS


def faults(script):
    script.add(2 * BYTE_ORDER_MARK + "harden")  # of which the first alone is passed over
    for family in (*WORD_FAULTS, *NEED_FAULTS):
        family(script)
    script.add("#" + " " * LONGEST_LINE)
    script.ending = ""
