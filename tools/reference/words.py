"""The words of a line of a script, as docs/TDD.md has them, and what is wrong with them.

Words are bytes. Nothing here is shared with the crates.
"""

from re import fullmatch

SHOWN = 32  # the bytes of a word that a fault shows at most


class Fault(Exception):
    """What is wrong with a line that is no call, and what would be right."""


# Each of these gives the value of a word, or None where it has none.

def number(word):
    match = fullmatch(rb"0*([0-9]{1,10})", word)
    return int(match[1]) if match and int(match[1]) < 2**32 else None


def component(word):
    size = number(word.removeprefix(b"-"))
    if size is None:
        return None
    value = -size if word.startswith(b"-") else size
    return value if -2**31 <= value < 2**31 else None


def plan_record(word):
    numbers = [number(part) for part in word.split(b",")]
    return tuple(numbers) if len(numbers) == 3 and None not in numbers else None


def chip(word):
    components = [component(part) for part in word.split(b",")]
    return components if len(components) == 2 and None not in components else None


def digits(word):
    """The digits, and what stands behind them to fill them up."""
    match = fullmatch(rb"([0-9]*)(\.\.)|([0-9]+)(\*?)", word)
    if not match:
        return None
    row, ending = (part for part in match.groups() if part is not None)
    return [byte - ord("0") for byte in row], ending.decode()


# By the name that a word has in a form; words with other names are numbers.
A_NUMBER = number, "number from 0 to 4294967295"
A_COMPONENT = component, "number from -2147483648 to 2147483647"
READERS = {
    "RE": A_COMPONENT,
    "IM": A_COMPONENT,
    "RE,IM": (chip, "chip of two numbers"),
    "Q,K,G": (plan_record, "record of three numbers"),
    "BITS": (digits, "word of digits"),
    "random": (bytes.decode, "word of this name"),
}


def quoted(word):
    shown = "".join(chr(byte) if 32 < byte < 127 else "?" for byte in word[:SHOWN])
    return f"'{shown}{'...' if len(word) > SHOWN else ''}'"


def names_next(part, word):
    """The names of the words that this part of a form is for, where this is the first of them. Of
    several ways it is the one that begins with this word, or else the first; and a chip may be
    one word."""
    if part == "RE IM" and b"," in word:
        return ["RE,IM"]
    ways = [way.split() for way in part.split("|")]
    begun = [way for way in ways if way[:1] == [word.decode("latin-1")]]
    return (begun or ways)[0]


def names_due(form, words):
    """The names of these words, which come after the call's own, and of those that are missing.
    Names in brackets are those of words that need not come; they may come again where dots
    follow."""
    must, _, may = form.partition(" [")
    may, _, dots = may.partition("]")
    names = names_next(must.partition(" ")[2], words[0] if words else b"")
    while may and len(names) < len(words):
        names += names_next(may, words[len(names)])
        if not dots:
            break
    return names


def values(form, words):
    """The values of the words after the call's own; raises Fault for the first that is wrong."""
    names = names_due(form, words)
    read = []
    for name, word in zip(names, words):
        reader, what = READERS.get(name, A_NUMBER)
        value = reader(word)
        if value is None:
            raise Fault(f"{quoted(word)} is no {what}; right is: {form}")
        read += value if name == "RE,IM" else [value]
    if len(words) > len(names):
        raise Fault(f"{quoted(words[len(names)])} is a word too many; right is: {form}")
    if len(words) < len(names):
        raise Fault(f"a word is missing; right is: {form}")
    return read
