"""mark.txt: a script with nothing but a byte order mark."""

from .script import BYTE_ORDER_MARK


def mark(script):
    script.add(BYTE_ORDER_MARK)
    script.ending = ""
